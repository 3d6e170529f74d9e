# Makes the section of bench/RESULTS.md on how even a check is, of even_before.txt and the rows of bench/even.

/^#/ { next }

{
    cell[$2, $1, $4] = sprintf("%.3f (%.3f to %.3f)", $6, $7, $8)
    repeats = $11
}

function line(whose, named, k) {
    print "| " named " | " k " | " cell[whose, "draws-last", k] " | " cell[whose, "loads-last", k] " | " \
        cell[whose, "loads-none", k] " |"
}

END {
    count = split("4 16 64", ks, " ")
    print "## Even slots\n"
    print "A tick of a check takes as long whichever slot the draw comes from. The sheets here differ in that alone: all draws are of"
    print "one symbol, which is in slot 0, in slot k - 1 or in no slot. A cell has the time of the check with slot k - 1, or with no"
    printf "slot, / the time with slot 0: the median and, in brackets, the least and the greatest of %d repeats, %d with the library's\n",
        repeats, repeats / 4
    print "code in each of four places. Written by `bench/even`."
    print "\nDraws alone: n 4,096 and an empty list. With loads: n 4,095, F 1, and in each tick an event loads what is never drawn into"
    print "slot 1, so that a tick searches the slots twice. These lists have an event too many or never bring the symbol. So each is"
    print "refused after its last tick (14, and 13 with no slot) and none hands out its draws."
    print "\n| check by | k | draws alone, slot k - 1 | with loads, slot k - 1 | with loads, no slot |"
    print "|---|---|---|---|---|"
    for (i = 1; i <= count; i++) line("library", "the library", ks[i])
    for (i = 1; i <= count; i++) line("before", "the library before", ks[i])
    for (i = 1; i <= count; i++) line("plain", "the plain program", ks[i])
    print "\nThe plain program's search leaves at its first find. So did the library's before (even_before.txt, measured once by the same"
    print "program)."
}
