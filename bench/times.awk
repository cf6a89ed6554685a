# The times in the lines that the programs print, whose form desk.rs has, and how times and ratios are shown; for the scripts that make
# tables of them.

$1 == "time" {
    times[$2, $3] = times[$2, $3] " " $4
}

function median(list,    values, count, i, j, value) {
    count = split(list, values, " ")
    for (i = 2; i <= count; i++) {
        value = values[i] + 0
        for (j = i - 1; j >= 1 && values[j] + 0 > value; j--) values[j + 1] = values[j]
        values[j + 1] = value
    }
    return values[int((count + 1) / 2)] + 0
}

function time_of(call, program) {
    return (call, program) in times ? median(times[call, program]) : 0
}

function digits(number) {
    return sprintf(number < 0.1 ? "%.3f" : number < 10 ? "%.2f" : number < 100 ? "%.1f" : "%.0f", number)
}

function shown_time(nanoseconds) {
    if (nanoseconds == 0) return "-"
    if (nanoseconds < 1e3) return digits(nanoseconds) " ns"
    if (nanoseconds < 1e6) return digits(nanoseconds / 1e3) " µs"
    return digits(nanoseconds / 1e6) " ms"
}

function shown_ratio(number, other) {
    return number == 0 || other == 0 ? "-" : digits(number / other)
}
