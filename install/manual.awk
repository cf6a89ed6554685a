# Makes a manual page of a program's help. Variables: name, version, says, what the program is in a few words, and run, how it is run.
#
# A line `NAME WORDS   what it does` is a command, `--NAME WORDS   what it does` an option; an indented line after one goes on with it.
# The line `Exit status: ..` has a section of its own. Other lines are paragraphs, and an indented line in one stands as it is.

# The text as the page's own language has it: no character of it is taken for a request.
function plain(text) {
    gsub(/\\/, "\\e", text)
    gsub(/-/, "\\-", text)
    gsub(/\^/, "\\(ha", text)
    gsub(/~/, "\\(ti", text)
    gsub(/`/, "\\(ga", text)
    gsub(/'/, "\\(aq", text)
    return text ~ /^\./ ? "\\&" text : text
}
function section(title) { if (title != at) print ".SH " title; at = title }
function verbatim(on) {
    if (on && !fixed) print ".nf"
    if (!on && fixed) print ".fi"
    fixed = on
}

BEGIN {
    printf ".TH %s 1 \"\" \"sabrentuglio %s\"\n", toupper(name), version
    print ".ad l"
    print ".nh"
    section("NAME")
    print name " \\- " plain(says)
    section("SYNOPSIS")
    print ".B " plain(run)
}
(index($0, name " ") == 1 || index($0, "--") == 1) && match($0, /   *[^ ]/) {
    verbatim(0)
    section(index($0, "--") == 1 ? "OPTIONS" : "COMMANDS")
    text = substr($0, RSTART)
    sub(/^ +/, "", text)
    print ".TP"
    print ".B " plain(substr($0, 1, RSTART - 1))
    print plain(text)
    command = 1
    next
}
/^ *$/ {
    verbatim(0)
    command = 0
    gap = 1
    next
}
command && /^ / {
    sub(/^ +/, "")
    print plain($0)
    next
}
sub(/^Exit status: /, "") {
    verbatim(0)
    section("EXIT STATUS")
    print plain($0)
    gap = command = 0
    next
}
{
    command = 0
    section("DESCRIPTION")
    if (gap) print ".PP"
    gap = 0
    verbatim(/^ /)
    print plain($0)
}
END { verbatim(0) }
