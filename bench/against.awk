# Makes the tables of bench/against of the lines that against.rs prints, with what times.awk has; `goals` are its words CALL=RATIO.
# Exit status 4: a goal is missed.

$1 == "time" && !($2 in known) {
    known[$2] = 1
    calls[++count] = $2
}

function least(list,    values, size, i, found) {
    size = split(list, values, " ")
    found = values[1] + 0
    for (i = 2; i <= size; i++)
        if (values[i] + 0 < found) found = values[i] + 0
    return found
}

function ratio_of(call) {
    return time_of(call, "now") / time_of(call, "before")
}

END {
    print "| call | before | now | now : before | fastest rounds |"
    print "|---|---|---|---|---|"
    for (i = 1; i <= count; i++) {
        call = calls[i]
        printf "| %s | %s | %s | %.3f | %.3f |\n", call, shown_time(time_of(call, "before")), shown_time(time_of(call, "now")),
            ratio_of(call), least(times[call, "now"]) / least(times[call, "before"])
    }

    sizes = split(goals, list, " ")
    if (sizes) print "\n| goal | now : before | met |\n|---|---|---|"
    for (i = 1; i <= sizes; i++) {
        split(list[i], goal, "=")
        met = ratio_of(goal[1]) <= goal[2]
        printf "| %s: at most %s times its time before | %.3f | %s |\n", goal[1], goal[2], ratio_of(goal[1]), met ? "yes" : "no"
        if (!met) missed = 4
    }
    exit missed
}
