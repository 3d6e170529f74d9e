# Makes a row of all repeats of one measurement: sheet (with its rounds, as chart-4, where it is redrawn), call, n, k, F, then
# library / plain program (median, least, greatest), the median nanoseconds of the library and of the plain program, and how
# many repeats there were. Lines that begin with # tell of the machine and are passed on.

/^#/ { print; next }

{
    key = $1 " " $2 " " $3 " " $4 " " $5
    if (!count[key]++) order[++rows] = key
    ratio[key, count[key]] = $6 / $7
    ours[key, count[key]] = $6
    plain[key, count[key]] = $7
}

# Sorts numbers[key, 1..] in place and answers the middle one.
function median(numbers, key,   i, j, held) {
    for (i = 2; i <= count[key]; i++) {
        held = numbers[key, i]
        for (j = i - 1; j >= 1 && numbers[key, j] > held; j--) numbers[key, j + 1] = numbers[key, j]
        numbers[key, j + 1] = held
    }
    return numbers[key, int((count[key] + 1) / 2)]
}

END {
    for (r = 1; r <= rows; r++) {
        key = order[r]
        middle = median(ratio, key)
        printf "%s %.3f %.3f %.3f", key, middle, ratio[key, 1], ratio[key, count[key]]
        printf " %.0f %.0f %d\n", median(ours, key), median(plain, key), count[key]
    }
}
