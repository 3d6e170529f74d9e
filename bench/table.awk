# Makes bench/RESULTS.md of the rows of the benchmark and of the lines that tell of the machine. Read after ln.awk.

BEGIN {
    aim = 1.2
    all = "check aggressive conservative opt lru"
    called["chart"] = "like a chart"
    called["different"] = "all draws different"
    called["worst"] = "made to be slow"
    called["longest"] = "the most ticks"
    called["text"] = "a text"
    called["wide"] = "the longest text"
}

/^#/ { key = $2; sub(/^# [^ ]* /, ""); told[key] = $0; next }

# All sheets that are redrawn are of one kind, and all on which it is asked why a draw waited; what they are and their rounds
# stand after n, k and F.
{
    kind = of = $1
    rounds = 1
    sheet = $3 " " $4 " " $5
    texts = kind == "text" || kind == "wide"
    named = called[kind] (texts ? ", " $3 " events" : ", n " $3 ", k " $4 ", F " $5)
    if (match($1, /-[0-9]+$/)) {
        kind = "rounds"
        of = substr($1, 1, RSTART - 1)
        rounds = substr($1, RSTART + 1)
        named = called[of] ", n " $3 ", k " $4 ", F " $5 ", " rounds " rounds"
    }
    whys = $2 ~ /^why-/
    if (whys) kind = "why"
    if (listed(kind)) sheet = sheet " " of " " rounds
    misses = sprintf("%.2f", $6) + 0 > aim
    if (!((kind, sheet) in seen)) { seen[kind, sheet] = 1; order[kind, ++sheets[kind]] = sheet }
    ratio[kind, $2, sheet] = (misses ? "**" shown($6) "**" : shown($6)) " (" shown($7) " to " shown($8) ")"
    ours[kind, $2, sheet] = $9
    plain[kind, $2, sheet] = $10
    repeats = $11
    if (misses) {
        if (!(named in missed)) missing[++lines] = named
        missed[named] = missed[named] (missed[named] == "" ? "" : ", ") sprintf("%s %.2f", $2, $6)
    }
    asked = texts || $2 == "check" ? $2 : whys ? "why" : "plan"
    if ($9 > slowest[asked]) { slowest[asked] = $9; slowestAt[asked] = (asked == "plan" ? $2 ", " : "") named }
}

# Whether the table of a kind has different sheets in different rounds.
function listed(kind) { return kind == "rounds" || kind == "why" }

function shown(v) { return sprintf(v < 0.0095 ? "%.3f" : "%.2f", v) }

function time(ns) {
    if (ns < 9950) return sprintf("%.1f µs", ns / 1e3)
    if (ns < 999500) return sprintf("%.0f µs", ns / 1e3)
    return sprintf(ns < 9.95e6 ? "%.1f ms" : "%.0f ms", ns / 1e6)
}

# The head of a table: the first column, then a column for each call.
function head(first, calls,   count, call, i, line, rule) {
    count = split(calls, call, " ")
    line = first
    rule = first
    gsub(/[^|]+/, "---", rule)
    for (i = 1; i <= count; i++) { line = line " " call[i] " |"; rule = rule "---|" }
    print "\n" line
    print rule
}

# A table of the ratios and the library's times for texts: a line for each number of events, and the longest text last.
function textTable(   i, kind, sheet) {
    head("| events |", "write read")
    for (i = 1; i <= sheets["text"] + 1; i++) {
        kind = i <= sheets["text"] ? "text" : "wide"
        sheet = kind == "text" ? order["text", i] : order["wide", 1]
        printf "| %d%s | %s, %s | %s, %s |\n", sheet, kind == "wide" ? ", lines of 18 bytes" : "",
            ratio[kind, "write", sheet], time(ours[kind, "write", sheet]), ratio[kind, "read", sheet], time(ours[kind, "read", sheet])
    }
}

# A table of the ratios and the library's times on all sheets of a kind.
function table(kind, calls,   count, call, i, w, part, line) {
    count = split(calls, call, " ")
    head((listed(kind) ? "| sheet | rounds |" : "|") " n | k | F |", calls)
    for (i = 1; i <= sheets[kind]; i++) {
        split(order[kind, i], part, " ")
        line = (listed(kind) ? "| " called[part[4]] " | " part[5] " |" : "|") " " part[1] " | " part[2] " | " part[3] " |"
        for (w = 1; w <= count; w++)
            line = line " " ratio[kind, call[w], order[kind, i]] ", " time(ours[kind, call[w], order[kind, i]]) " |"
        print line
    }
}

function power(from, to, first, last) { return ln(to / from) / ln(last / first) }

# A table of how the library's time grows when one of n, k, F grows, as multiples of its first row. The last lines have the
# power that fits the whole range and the one that fits the last step, where what every call costs counts least.
function growth(title, kind, calls, letter, sizes, before, after,   columns, call, count, size, i, w, line, whole, step, at) {
    columns = split(calls, call, " ")
    count = split(sizes, size, " ")
    print "\n" title ":"
    head("| " letter " |", calls)
    for (i = 1; i <= count; i++) {
        line = "| " size[i] " |"
        for (w = 1; w <= columns; w++)
            line = line sprintf(" %.2f |",
                ours[kind, call[w], before size[i] after] / ours[kind, call[w], before size[1] after])
        print line
    }
    whole = "| grows like |"
    step = "| in the last step |"
    for (w = 1; w <= columns; w++) {
        for (i = 1; i <= count; i++) at[i] = ours[kind, call[w], before size[i] after]
        whole = whole sprintf(" %s^%.2f |", letter, power(at[1], at[count], size[1], size[count]))
        step = step sprintf(" %s^%.2f |", letter, power(at[count - 1], at[count], size[count - 1], size[count]))
    }
    print whole
    print step
}

END {
    ns = "256 512 1024 2048 4096"
    ks = "4 8 16 32 64"
    print "# Benchmark\n"
    print "The library against `bench/plain.c`, a plain C program for the same rules with the same searches. Both run in one"
    print "process on the same inputs, turn about, and must give the same bytes. Written by `bench/run`."
    print "\nA cell has the processor time of the library / that of the plain program: the median and, in brackets, the least and"
    printf "the greatest of %d repeats, %d with the library's code in each of four places. After it comes the library's time\n",
        repeats, repeats / 4
    print "for one call, the median. The aim is a ratio of at most 1.2; a ratio above it is bold."
    print "\nThe machine: " told["processor"] ", " told["cores"] (told["cores"] == 1 ? " core" : " cores") \
        (told["emulated"] == "" ? "." : "; of the kind " told["emulated"] ", so all ran under an emulator.")
    print "The kit: " told["kit"] ". The library is as `rt lib` makes it; the plain program is compiled by"
    print "`tests/machine compile` with `" told["flags"] " " told["placed"] "`."
    print "\n![Ratios and growth](RESULTS.svg)"

    print "\n## Sheets like charts\n"
    print "A sheet for k slots has 2k symbols, and its slots start with the symbols 0 to k - 1. The first k + 1 draws are of any of"
    print "the 2k symbols, by chance. Each later draw is, three times in four, that of one of the k draws before it, and else again"
    print "of any symbol. Chance begins at the same number in every run, so the sheets are always the same. The check is given the"
    print "list that conservative plans."
    table("chart", all)
    sheet = order["longest", 1]
    print "\nThe check of the most ticks: n 4,096, k 64, and all draws wait for one load, which begins at tick 8,388,607, the last"
    print "that a list can name. It takes " time(ours["longest", "check", sheet]) ", and the plain program " \
        time(plain["longest", "check", sheet]) ": waits in which nothing else can come up"
    print "are passed over at once, where the plain program goes tick by tick."

    print "\n## Worst sheets\n"
    print "All draws different, and none of them a starting symbol: every draw needs a load, and each search for the next draw of"
    print "what goes out runs to the end of the sheet. F hardly changes the library's time here, as the last row shows; at F 1 the"
    print "plain program is at its best. The check is given the list that conservative plans."
    table("different", all)
    print "\nTwo sheets are made to be slower still. For aggressive: all draws are of the last slot, but at the end each other slot"
    print "is drawn from once, and the very last draw is missing. So every tick searches the sheet to its end for the missing draw,"
    print "and nearly so for each slot, and begins no load. For the check: n loads, each begun a tick after the one before has"
    print "ended. All draws are of the symbol that the last of them brings, into the last slot."
    table("worst", "check aggressive")
    print "\nThe slowest plan found takes " time(slowest["plan"]) " (" slowestAt["plan"] ")."
    print "The slowest check found takes " time(slowest["check"]) " (" slowestAt["check"] ")."

    if (sheets["rounds"]) {
        print "\n## Sheets in rounds\n"
        print "Sheets as above that are redrawn: the n draws of a sheet, in so many rounds. The plain program first copies the draws"
        print "of all rounds into one row. So does the library for a plan; its check reads each draw at its place in the round. The"
        print "check is given the list that conservative plans for all rounds. Every other sheet on this page is drawn once."
        table("rounds", all)
    }

    if (sheets["why"]) {
        print "\n## Why a draw waited\n"
        print "For the draw in the middle of all rounds and for the last draw of the sheets above: which event brought its symbol,"
        print "which took it out, and its waits in three parts. The list is that of the check. It is followed to its end for either"
        print "draw, since what a check refuses is refused also where it comes after the draw."
        table("why", "why-middle why-last")
        print "\nThe slowest of these found takes " time(slowest["why"]) " (" slowestAt["why"] ")."
    }

    print "\n## Texts\n"
    print "A list written as text, and that text read. Its ticks rise by 1 to 500, its slots and symbols are any, by chance. In the"
    print "longest text every line has 18 bytes. The plain program counts the digits of a number and then writes them, and reads a text"
    print "once, from its first byte to its last, into an array of events."
    textTable()

    print "\n## The aim\n"
    if (!lines) print "The aim of 1.2 is met on all sheets and texts."
    else print "The aim of 1.2 is missed on these sheets and texts, by these calls:\n"
    for (i = 1; i <= lines; i++) print "- " missing[i] ": " missed[missing[i]]

    print "\n## Growth\n"
    print "The library's time as a multiple of the first row's. On sheets like charts it grows about as n, at most a little"
    print "faster than k, and not with F. At worst aggressive, conservative and opt grow as n² k: in each of n ticks the"
    print "rest of the sheet is searched for each slot. At worst lru grows as n k², since what its slots hold was drawn lately, and"
    print "the check as n k. Where k is small, what a tick costs besides its searches hides some of the growth in k. Texts grow as"
    print "their events, m."
    growth("In n, sheets like charts with k 16 and F 30", "chart", all, "n", ns, "", " 16 30")
    growth("In k, sheets like charts with n 1,024 and F 30", "chart", all, "k", ks, "1024 ", " 30")
    growth("In F, sheets like charts with n 1,024 and k 16", "chart", all, "F", "1 10 100 1000", "1024 16 ", "")
    growth("In n, all draws different, k 64 and F 1", "different", all, "n", ns, "", " 64 1")
    growth("In k, all draws different, n 1,024 and F 1", "different", all, "k", ks, "1024 ", " 1")
    growth("In n, sheets made to be slow, k 64 and F 1", "worst", "check aggressive", "n", ns, "", " 64 1")
    growth("In k, sheets made to be slow, n 1,024 and F 1", "worst", "check aggressive", "k", ks, "1024 ", " 1")
    if (sheets["why"]) {
        growth("In n, why a draw waited, sheets like charts with k 16 and F 30", "why", "why-middle why-last", "n", ns, "",
            " 16 30 chart 1")
        growth("In k, why a draw waited, sheets like charts with n 1,024 and F 30", "why", "why-middle why-last", "k", ks, "1024 ",
            " 30 chart 1")
    }
    growth("In m, texts of m events", "text", "write read", "m", "64 512 4096", "", " 0 0")
    print ""
}
