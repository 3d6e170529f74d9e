# Makes the bytes of a job from decimal numbers: SLOTS, LOAD_TIME, STARTS and DRAWS in the environment, or a text on standard input
# where FORM is text. Writes them as octal escapes for printf; or `refused N 0` and a line on what was typed, with status 1; or a line
# on what is no job at all, with status 2.
#
# A text has one value a line in that order; or a line for each of the four; or lines that begin with k, F, starts and draws, which
# may go on in the lines after them. From a # to the end of its line it is a remark.

function stop(status, line) { stopped = status; print line; exit status }
function refuse(number, line) { stop(1, "refused " number " 0\n" line) }

# What was typed, as far as a message has room for it.
function typed(text) { return length(text) > 40 ? clean(substr(text, 1, 40)) ".." : clean(text) }

# Splits a list at blanks and commas into out[0..]; a free slot is the number 65535.
function symbols(text, out, free,   count, i, word) {
    gsub(/,/, " ", text)
    count = split(text, word, " ")
    for (i = 1; i <= count; i++) {
        if (free && (word[i] == "." || word[i] == "free")) word[i] = 65535
        if (word[i] !~ /^[0-9]+$/ || word[i] + 0 > 65535)
            stop(2, typed(word[i]) " is no symbol: write 0 to 65534" (free ? ", or . for a free slot" : ""))
        out[i - 1] = word[i] + 0
    }
    return count
}

function single(text, what,   word) {
    if (split(text, word, " ") != 1 || word[1] !~ /^[0-9]+$/)
        stop(2, what " is a decimal number, not " (text ~ /[^ ]/ ? typed(text) : "nothing"))
    return word[1] + 0
}

function many(count, what) { return count " " what (count == 1 ? "" : "s") }

function judge(   i) {
    if (k < 1 || k > 64) refuse(3, many(k, "slot") ": a display has 1 to 64")
    if (f < 1 || f > 1000) refuse(3, "a load time of " f ": a load takes 1 to 1,000 ticks")
    if (n > 4096) refuse(3, many(n, "draw") ": a sheet has at most 4,096")
    if (count != k) refuse(4, many(k, "slot") ", but " many(count, "starting symbol"))
    for (i = 0; i < k; i++) {
        if (starting[i] in slotOf) refuse(5, "symbol " starting[i] " stands in slots " slotOf[starting[i]] " and " i)
        if (starting[i] != 65535) slotOf[starting[i]] = i
    }
    for (i = 0; i < n; i++) if (drawn[i] == 65535) refuse(5, "draw " i " is 65535, the mark of a free slot")
}

# The four values of a text without names: a line each, or one value a line.
function unnamed(   i, word, slots) {
    value["k"] = lineOf[1]
    value["F"] = lineOf[2]
    if (widest > 1) {
        if (lines > 4) stop(2, "a text without names has a line each for k, F, starts and draws, or one value a line")
        value["starts"] = lineOf[3]
        value["draws"] = lineOf[4]
        return
    }
    slots = single(value["k"], "the number of slots")
    for (i = 3; i <= lines; i++) {
        word = i - 2 <= slots ? "starts" : "draws"
        value[word] = value[word] " " lineOf[i]
    }
}

function make() {
    k = single(value["k"], "the number of slots")
    f = single(value["F"], "the load time")
    count = symbols(value["starts"], starting, 1)
    n = symbols(value["draws"], drawn, 0)
    judge()
    writeJob(k, f, n, starting, drawn)
}

BEGIN {
    if (ENVIRON["FORM"] != "text") {
        value["k"] = ENVIRON["SLOTS"]
        value["F"] = ENVIRON["LOAD_TIME"]
        value["starts"] = ENVIRON["STARTS"]
        value["draws"] = ENVIRON["DRAWS"]
        make()
        made = 1
        exit
    }
}

NR == 1 { sub(/^\357\273\277/, "") }
{ sub(/#.*/, ""); gsub(/[\r\t\f\v]/, " "); gsub(/,/, " ") }
!NF { next }
$1 ~ /^(k|K|F|f|starts|draws)[:=]?$/ {
    current = $1
    sub(/[:=]$/, "", current)
    current = current == "K" ? "k" : current == "f" ? "F" : current
    if (current in value) stop(2, "line " NR " of the text says " current " a second time")
    sub(/^ *[^ ]+ *[:=]?/, "")
    value[current] = $0
    named = 1
    next
}
named { value[current] = value[current] " " $0; next }
{ lineOf[++lines] = $0; if (NF > widest) widest = NF }

END {
    if (stopped || made) exit stopped
    if (named && lines) stop(2, "the first line of the text has no name, and a later one has")
    if (!named) unnamed()
    make()
}
