# Reads the citations of a page and says which of them fail: citations.awk FILES PAGE, FILES the paths of all files, one to a line,
# from the root. Exit status 1: a citation fails, or cannot be read, or there is none.
#
# A citation stands between backticks. What stands between quotation marks is document 01's and is passed over. In a cell of a table:
#
#   `sheet/src/lists.rt`            a path, below crates/ or below the root
#   `must-fail/`                    a folder, below the root, crates/ or a crate
#   `path`: `name`, .. `name`       names of the last path before them, whatever words stand between
#   the call `name`, of `name`      a name of the last path, or else a public function of some crate
#   the list `name`                 a parameter of a public function
#   clause `name`, .. and `name`    the name of a clause: of what follows as "of `path`" or "of `name`", else of the last path, else of
#                                   some public function
#   `.._word`                       the names before it in the cell, their last word after a `_` changed to this one; in the same files
#   `docs/PAGE.md`, "text"          a page that has this text
#   [words](PAGE.md)                a page in docs/
#   `u64`, `requires`, ..           words of the language: `language` below has them all
#
# In a paragraph names come first, as in "`name`, `name` of `path`"; a crate can stand for a path. A name is declared in a file of
# specs or proofs by its type or as data or a record, in a source as a function, a struct, an enum or a constant.

BEGIN {
    split("u64 requires ensures break", words, " ")
    for (i in words) language[words[i]] = 1
}

function fail(what) {
    print page ":" line ": " what
    failed += 1
}

# ---- what is there

NR == FNR {
    file = substr($0, 3)
    there[file] = 1
    if (file ~ /^crates\/[^\/]*\/src\/.*\.rt$/) sources[file] = 1
    while (sub(/\/[^\/]*$/, "", file)) {
        folders[file "/"] = 1
        inside = file "/"
        if (sub(/^crates\/[^\/]*\//, "", inside)) folders[inside] = 1
    }
    next
}

# The file of a path; empty where there is none.
function file_of(path) {
    return "crates/" path in there ? "crates/" path : path in there ? path : ""
}

function is_crate(name) {
    return "crates/" name "/" in folders
}

# ---- what a file declares

function declared_by_type(text,    token) {
    sub(/^ +/, "", text)
    while (sub(/^(unfoldable|abbrev|pub) +/, "", text)) continue
    split(text, token, " ")
    if (token[1] == "data" || token[1] == "record") return token[2]
    return token[2] == ":" ? token[1] : ""
}

function declared_in_source(text,    token) {
    sub(/^ +/, "", text)
    public = sub(/^pub +/, "", text)
    sub(/^pub\([a-z]+\) +/, "", text)
    sub(/^extern "C" +/, "", text)
    split(text, token, /[ (<:;{]+/)
    return token[1] ~ /^(fn|struct|enum|const)$/ ? token[2] : ""
}

# The parameters of a function and the names of its clauses: what stands above its body.
function read_head(file, text,    token, count, i) {
    if (text ~ /^ *ensures [a-z_]+ \{/) {
        split(text, token, " ")
        clauses[file, token[2]] = clauses[owner, token[2]] = clauses["", token[2]] = 1
        return
    }
    count = split(text, token, /[ (,]+/)
    for (i = 1; i <= count; i++) if (sub(/:$/, "", token[i])) parameters[token[i]] = 1
}

# What a source declares is declared by its crate too, under the crate's name.
function load_source(file,    text, name, head, part) {
    split(file, part, "/")
    while ((getline text < file) > 0) {
        name = declared_in_source(text)
        if (name != "") {
            declared[file, name] = declared[part[2], name] = 1
            if (public) publicly[name] = 1
            head = public && text ~ /fn /
            owner = name
        }
        if (head) read_head(file, text)
        if (text ~ /^ *\{/ || text ~ /[^}] \{$/) head = 0
    }
}

function load(file,    text) {
    if (file in loaded) return
    loaded[file] = 1
    if (file ~ /\.(rt|rs)$/) load_source(file)
    else if (file ~ /\.antt$/) while ((getline text < file) > 0) declared[file, declared_by_type(text)] = 1
    else fail("the names of " file " cannot be read")
    close(file)
}

function load_sources(    file) {
    for (file in sources) load(file)
}

function declares(file, name) {
    load(file)
    return (file, name) in declared
}

# ---- what a unit cites, a cell or a paragraph: its spans, with the text before each

function read_spans(text,    parts, count, k) {
    while (match(text, /`[^`]*\.md`, "[^"]*"/)) {
        read_page_text(substr(text, RSTART, RLENGTH))
        text = substr(text, 1, RSTART - 1) substr(text, RSTART + RLENGTH)
    }
    while (match(text, /\]\([^)]*\)/)) {
        read_link(substr(text, RSTART + 2, RLENGTH - 3))
        text = substr(text, 1, RSTART - 1) substr(text, RSTART + RLENGTH)
    }
    gsub(/"[^"]*"/, "", text)
    if (text ~ /"/) fail("a quotation without its end")
    # An empty text has one part too.
    count = split(text " ", parts, "`")
    if (count % 2 == 0) fail("a backtick without its partner")
    spans = int(count / 2)
    for (k = 1; k <= spans; k++) {
        before[k] = parts[2 * k - 1]
        span[k] = parts[2 * k]
    }
    before[spans + 1] = parts[count]
}

# A page and words that it has: `docs/PAGE.md`, "text".
function read_page_text(citation,    parts, text, has) {
    split(citation, parts, /`, |`|"/)
    if (!(parts[2] in there)) return fail("there is no " parts[2])
    while ((getline text < parts[2]) > 0) if (index(text, parts[4])) has = 1
    close(parts[2])
    if (!has) fail(parts[2] " has no \"" parts[4] "\"")
    paths += 1
}

# A page beside this one, to which there is a link.
function read_link(target) {
    paths += 1
    sub(/#.*/, "", target)
    if (!("docs/" target in there)) fail("there is no docs/" target ", to which there is a link")
}

# The file of a path that is cited; empty, and said so, where there is none.
function cited_path(path) {
    paths += 1
    if (path ~ /\/$/) {
        if (!(path in folders) && !("crates/" path in folders)) fail("there is no folder " path)
        return ""
    }
    if (file_of(path) == "") fail("there is no " path)
    return file_of(path)
}

# ---- a cell

# `last` is the file of the last path, empty before the first. Where that path fails, nothing is said of its names.
function read_cell(text,    k) {
    read_spans(text)
    last = ""
    astray = named = waiting = 0
    for (k = 1; k <= spans; k++) {
        if (span[k] in language) continue
        if (span[k] ~ /\//) read_path(span[k], before[k])
        else if (before[k] ~ /[Cc]lauses? $/ || (waiting && before[k] ~ /^(,| and) $/)) wait_for[++waiting] = span[k]
        else if (span[k] ~ /^\.\./) read_ending(substr(span[k], 3))
        else read_name(span[k], before[k])
    }
    settle_clauses(owner_before())
}

function read_path(path, words,    file) {
    file = cited_path(path)
    settle_clauses(words ~ / of $/ ? file : owner_before())
    if (path ~ /\/$/) return
    last = file
    astray = file == ""
}

function read_name(name, words) {
    names += 1
    if (waiting && words ~ / of $/) return settle_clauses(name)
    settle_clauses(owner_before())
    if (last != "" && declares(last, name)) {
        name_of[++named] = name
        file_named[named] = last
        return
    }
    load_sources()
    if (words ~ /(call| of) $/ && name in publicly) return
    if (words ~ /list $/ && name in parameters) return
    if (!astray) fail(last == "" ? "no path stands before " name : last " has no " name)
}

# Whose clauses those are that were just named: the last path's, where it is a source; else any public function's.
function owner_before() {
    return last ~ /\/src\// ? last : ""
}

function settle_clauses(of,    i) {
    if (waiting) load_sources()
    for (i = 1; i <= waiting; i++) {
        names += 1
        if (!((of, wait_for[i]) in clauses)) fail("there is no clause " wait_for[i] (of == "" ? "" : " of " of))
    }
    waiting = 0
}

function read_ending(ending,    i, name, changed) {
    settle_clauses(owner_before())
    for (i = 1; i <= named; i++) {
        name = name_of[i]
        if (!sub(/_[a-z]+$/, ending, name)) continue
        changed = 1
        names += 1
        if (!declares(file_named[i], name)) fail(file_named[i] " has no " name)
    }
    if (!changed) fail("no name stands before .." ending)
}

# ---- a paragraph

function read_paragraph(text,    k, of) {
    read_spans(text)
    waiting = 0
    for (k = 1; k <= spans; k++) {
        if (span[k] in language) continue
        of = before[k] ~ /[^a-z]of $/
        if (span[k] ~ /\//) settle_names(cited_path(span[k]), of)
        else if (is_crate(span[k]) && (of || before[k + 1] !~ /^ of $/)) settle_names(cited_crate(span[k]), of)
        else wait_for[++waiting] = span[k]
    }
    if (waiting) fail("no path or crate stands after " wait_for[waiting])
}

function cited_crate(crate) {
    paths += 1
    load_sources()
    loaded[crate] = 1
    return crate
}

function settle_names(file, of,    i) {
    if (!of || file == "") return
    for (i = 1; i <= waiting; i++) {
        names += 1
        if (!declares(file, wait_for[i])) fail(file " has no " wait_for[i])
    }
    waiting = 0
}

function end_paragraph() {
    if (paragraph != "") read_paragraph(paragraph)
    paragraph = ""
}

# ---- the page

FNR == 1 { page = FILENAME }

/^(\||#|$)/ { end_paragraph() }

{ line = FNR }

/^#/ { read_paragraph($0) }

/^\|/ && !/^\|[-|]*$/ {
    count = split($0, cells, / \| |^\| | \|$/)
    for (i = 1; i <= count; i++) read_cell(cells[i])
}

!/^(\||#|$)/ { paragraph = paragraph (paragraph == "" ? "" : " ") $0 }

END {
    end_paragraph()
    if (failed) print page ": " failed " of its citations fail"
    else if (!names) print page ": there are no citations"
    else print "citations: " paths " paths and " names " names, all there"
    exit failed || !names
}
