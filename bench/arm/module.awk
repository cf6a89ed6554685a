# Turns the text of the module from x86-64 to Arm: module.awk TARGET MODULE, an Arm module for its two `target` lines, and the text.
#
# An answer of three numbers or more goes through memory. On x86-64 its address is the first argument, and comes back as the result; on
# Arm it has a register of its own, and nothing comes back. A parameter marked `sret` gets that register. Its type says how much memory
# is there at least, so it is that of the shortest answer. The two numbers that say what a word means come back in two registers on both,
# and so stay as they are.
#
# Exported functions of these forms alone are taken. Another could need more, so it is refused: exit status 1.

function refuse(why) {
    print "line " FNR " of the module " why ": " $0 >"/dev/stderr"
    refused = 1
    exit
}

NR == FNR {
    if ($1 == "target") target[$2] = $0
    next
}

$1 == "target" {
    if (!($2 in target)) refuse("has a target line that Arm has not")
    $0 = target[$2]
}

/^attributes / {
    gsub(/ "(target-cpu|target-features|tune-cpu)"="[^"]*"/, "")
}

/^define [{] i64, i64 [}] @desk_[a-z_]+\((ptr|i64) noundef %a0(, (ptr|i64) noundef %a[0-9]+)*\) #[0-9]+ [{]$/ {
    print
    next
}

/^define / && !/^define internal / {
    if (!/^define noundef ptr @desk_[a-z_]+\(ptr noundef %a0(, (ptr|i64) noundef %a[0-9]+)*\) #[0-9]+ [{]$/)
        refuse("exports a function of another form")
    sub(/noundef ptr/, "void")
    sub(/%a0/, "sret([3 x i64]) %a0")
    turned += 1
    inside = 1
}

!/^define / && /@desk_/ {
    refuse("uses an exported function, by x86-64's convention")
}

inside && $1 == "ret" {
    if ($0 != "  ret ptr %a0") refuse("returns another address than its first argument")
    $0 = "  ret void"
}

/^}/ {
    inside = 0
}

{
    print
}

END {
    if (!refused && !turned) print "the module exports no function" >"/dev/stderr"
    exit refused || !turned
}
