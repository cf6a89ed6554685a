# Makes the tables of a page of figures of the lines that desk.rs and ntl.cpp print, with what times.awk has: a call that was timed in
# several passes has the median of their times. What a program does not do, or did not run, is a dash.

BEGIN {
    calls = "multiply multiply-words square square-words trace trace-words check-irreducible check-product build read"
    calls = calls " why-accepted why-differing why-dependent why-power why-square why-three why-two why-slowest"
    calls = calls " convert-one convert-one-word times-46 inverse-46 quotient-46"
    calls = calls " convert-4096 convert-4096-singly convert-4096-words write_matrices-46 read_matrices-46"
    label["multiply"] = "multiply"
    label["multiply-words"] = "multiply, unreduced"
    label["square"] = "square"
    label["square-words"] = "square, unreduced"
    label["trace"] = "trace"
    label["trace-words"] = "trace, unreduced"
    label["check-irreducible"] = "check, f irreducible"
    label["check-product"] = "check, f a product of two of degree 23"
    label["build"] = "build"
    label["read"] = "read"
    label["why-accepted"] = "why, nothing refused"
    label["why-differing"] = "why, the last table row wrong"
    label["why-dependent"] = "why, the element not normal"
    label["why-power"] = "why, f = x^46 and x^46+1 by turns"
    label["why-square"] = "why, f a square of one of degree 23"
    label["why-three"] = "why, f a product of three of degree 15"
    label["why-two"] = "why, f a product of two of degree 23"
    label["why-slowest"] = "why, f the slowest product of two of degree 23"
    label["convert-one"] = "convert one"
    label["convert-one-word"] = "convert one, unreduced"
    label["times-46"] = "times"
    label["inverse-46"] = "inverse"
    label["quotient-46"] = "quotient"
    label["convert-4096"] = "convert 4,096; plain by its list"
    label["convert-4096-singly"] = "convert 4,096; plain by 4,096 single calls"
    label["convert-4096-words"] = "convert 4,096, unreduced; plain by its list"
    label["write_matrices-46"] = "write_matrices"
    label["read_matrices-46"] = "read_matrices"
    by_degree = "times inverse quotient write_matrices read_matrices"
    degrees = "4 8 16 20 24 32"
    searches = "search-16 search-20 search-46-from-0 search-46-from-2^45"
    label["search-16"] = "degree 16, the whole field, f = 2^16+43"
    label["search-20"] = "degree 20, the whole field, f = 2^20+9"
    label["search-46-from-0"] = "degree 46, from 0, f = 2^46+2^45+1"
    label["search-46-from-2^45"] = "degree 46, from 2^45, f = 2^46+3"
    whole["search-16"] = 16
    whole["search-20"] = whole["search-46-from-0"] = whole["search-46-from-2^45"] = 20
}

$1 == "search" {
    size[$2, $3] = $4
    rate[$2, $3] = 1e9 / $5
}

# A search has the answer over its longest part.
$1 == "answer" && NF == 6 {
    split($2, part, "/")
    power = substr(part[2], 3) + 0
    if (power >= longest[part[1]] + 0) {
        longest[part[1]] = power
        answer[part[1]] = $4 ", " $5 ", " $6
    }
}

# Elements a second, 0 where the program did not search.
function rate_of(search, program) {
    return (search, program) in rate ? rate[search, program] : 0
}

function with_commas(number,    text, shown) {
    text = sprintf("%d", number)
    for (shown = ""; length(text) > 3; text = substr(text, 1, length(text) - 3)) shown = "," substr(text, length(text) - 2) shown
    return text shown
}

# With the part of the range where it was not the whole.
function shown_rate(search, program) {
    if (rate_of(search, program) == 0) return "-"
    return with_commas(rate[search, program]) (size[search, program] < whole[search] ? " (2^" size[search, program] ")" : "")
}

# What a program searched, and the ratio to it.
function rate_cells(search, program) {
    return shown_rate(search, program) " | " shown_ratio(rate_of(search, "desk"), rate_of(search, program))
}

function call_row(text, desk, plain, ntl) {
    printf "| %s | %s | %s | %s | %s | %s |\n", text, shown_time(desk), shown_time(plain), shown_ratio(desk, plain), shown_time(ntl),
        shown_ratio(desk, ntl)
}

# The row of a call that every program was asked by the same name.
function row_of(text, call) {
    call_row(text, time_of(call, "desk"), time_of(call, "plain"), time_of(call, "ntl"))
}

# Opens a table of calls.
function call_head() {
    print "| call | desk | plain | desk : plain | NTL | desk : NTL |"
    print "|---|---|---|---|---|---|"
}

# What was measured is a ratio or a time, as it is to be shown.
function goal(text, measured, met) {
    printf "| %s | %s | %s |\n", text, measured, measured == "-" ? "not measured" : met ? "yes" : "no"
}

function ratio_goal(text, ratio, met) {
    goal(text, ratio == 0 ? "-" : digits(ratio), met)
}

function time_goal(text, call, program, most,    ratio) {
    ratio = time_of(call, program) == 0 ? 0 : time_of(call, "desk") / time_of(call, program)
    ratio_goal(text, ratio, ratio <= most)
}

# A call of the desk beside another one of its own.
function own_goal(text, call, other, most,    ratio) {
    ratio = time_of(other, "desk") == 0 ? 0 : time_of(call, "desk") / time_of(other, "desk")
    ratio_goal(text, ratio, ratio <= most)
}

# A call of the desk alone, and the most nanoseconds that it may take.
function alone_goal(text, call, most) {
    goal(text, shown_time(time_of(call, "desk")), time_of(call, "desk") <= most)
}

function rate_goal(search, program, name,    ratio) {
    ratio = rate_of(search, program) == 0 ? 0 : rate_of(search, "desk") / rate_of(search, program)
    ratio_goal("search, " label[search] ": at least 12 times the elements of " name, ratio, ratio >= 12)
}

END {
    call_head()
    count = split(calls, list, " ")
    for (i = 1; i <= count; i++) {
        row_of(label[list[i]], list[i])
        if (list[i] == "build") call_row("build; NTL the inversion alone", time_of("build", "desk"), 0, time_of("invert", "ntl"))
    }

    print ""
    call_head()
    count = split(by_degree, list, " ")
    sizes = split(degrees, degree, " ")
    for (i = 1; i <= count; i++)
        for (j = 1; j <= sizes; j++) row_of(list[i] ", degree " degree[j], list[i] "-" degree[j])

    print "\n| search | desk | plain | desk : plain | NTL | desk : NTL | NTL, words | desk : NTL, words | answer |"
    print "|---|---|---|---|---|---|---|---|---|"
    count = split(searches, list, " ")
    for (i = 1; i <= count; i++) {
        name = list[i]
        printf "| %s | %s | %s | %s | %s | %s |\n", label[name], shown_rate(name, "desk"), rate_cells(name, "plain"),
            rate_cells(name, "ntl"), rate_cells(name, "ntl-words"), answer[name]
    }

    print "\n| goal | ratio or time | met |"
    print "|---|---|---|"
    time_goal("multiply: at most NTL's time", "multiply", "ntl", 1)
    time_goal("check, f irreducible: at most 4 times NTL's time", "check-irreducible", "ntl", 4)
    time_goal("check, f a product: at most 4 times NTL's time", "check-product", "ntl", 4)
    time_goal("convert 4,096: at most a tenth of 4,096 single conversions in plain", "convert-4096-singly", "plain", 0.1)
    own_goal("inverse: at most 4 times the time of `times` in this run", "inverse-46", "times-46", 4)
    alone_goal("why, f the slowest product of two of degree 23: at most 100 µs", "why-slowest", 1e5)
    alone_goal("write_matrices: at most 1 ms", "write_matrices-46", 1e6)
    alone_goal("read_matrices: at most 1 ms", "read_matrices-46", 1e6)
    for (i = 2; i <= count; i++) {
        rate_goal(list[i], "ntl", "NTL")
        rate_goal(list[i], "ntl-words", "NTL, words")
    }
}
