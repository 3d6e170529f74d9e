# A timeline in plain text: a column a tick, a row a slot. `3*` is drawn from, `>3` is being loaded, `.` is free. A wait
# is L where the awaited symbol is being loaded, O where another is, N where nothing is; `!` is where a list is refused. The
# letters of the longest wait have a `^`. Where there are several rounds, a round's number is in its first tick.

function pad(words, width) {
    while (length(words) < width) words = words " "
    return words
}

# Fills cell[slot, tick] and cause[tick] from the stretches; width is that of a column.
function fill(   i, tick, words) {
    for (i = 1; i <= spans; i++) {
        words = spanKind[i] == "free" ? "." : spanKind[i] == "loading" ? ">" spanSymbol[i] : spanSymbol[i] ""
        for (tick = most(first, spanFrom[i]); tick < least(until, spanUntil[i]); tick++) cell[spanSlot[i], tick] = words
        width = most(width, length(words) + 2)
    }
    for (i = 0; i < made; i++) cell[drawSlot[i], drawTick[i]] = drawn[i] "*"
    for (i = 1; i <= stretches; i++)
        for (tick = most(first, waitFrom[i]); tick < least(until, waitUntil[i]); tick++) cause[tick] = waitCause[i]
    for (tick = most(first, pauseFrom); tick < least(until, pauseUntil); tick++) cause[tick] = cause[tick] "^"
    if (refusal != "") cause[refusalTick] = "!"
    for (i = 0; i <= lastRound; i++) begins[roundFrom[i]] = i
    width = most(width, length(columns "") + 1)
}

function content(what, slot, tick) {
    if (what == "tick") return tick ""
    if (what == "round") return tick in begins ? begins[tick] "" : ""
    return (what == "wait" ? cause[tick] : cell[slot, tick]) ""
}

function row(name, from, end, what, slot,   tick, line) {
    line = pad(name, 9)
    for (tick = from; tick < end; tick++)
        line = line pad(content(what, slot, tick), width)
    sub(/ +$/, "", line)
    print line
}

function printBands(   perBand, from, end, slot) {
    perBand = most(1, int((80 - 9) / width))
    for (from = first; from < until; from += perBand) {
        end = least(from + perBand, until)
        print ""
        row("tick", from, end, "tick", 0)
        if (rounds > 1) row("round", from, end, "round", 0)
        for (slot = 0; slot < slots; slot++) row("slot " slot, from, end, "slot", slot)
        row("wait", from, end, "wait", 0)
    }
    print pad("", 9) sumWords()
}

# In characters: the bytes that go on one do not count.
function wideOf(words) {
    gsub(/[\200-\277]/, "", words)
    return length(words)
}

# The names of the symbols that are shown, on lines of up to 80 characters where names are not longer.
function printNames(   symbol, line, words) {
    for (symbol = 0; symbol < 65535; symbol++) {
        if (!(symbol in nameOf) || !(("held", symbol) in shows || ("loading", symbol) in shows)) continue
        words = symbol " " nameOf[symbol]
        if (line == "") line = pad("symbols", 9) words
        else if (wideOf(line "; " words) < 80) line = line "; " words
        else {
            print line ";"
            line = pad("", 9) words
        }
    }
    if (line != "") print line
}

END {
    if (until - first > 2000)
        stop((until - first) " ticks are too many for a text with a column a tick; leave --text out, " \
            "or give --from and --to")
    print ENVIRON["TITLE"] ": " runWords()
    if (refusal != "") print refusalWords()
    if (isCut) print rangeWords()
    if (until > first) {
        fill()
        printBands()
        print "\n3* drawn, >3 being loaded, . free; wait: L awaited symbol is being loaded, O another is, N nothing is" \
            (refusal == "" ? "" : ", ! refused")
        if (rounds > 1) print "round: the number of a round where it begins, counted from 0"
        if (showsLongest()) print "^ " longestWords()
        printNames()
    }
}
