# Reckons what a timeline shows, from what tools/sheet.awk has read; timeline_svg.awk or timeline_text.awk draws it.
#   Shown are the ticks first to until - 1: the environment's FROM and TO, or all up to the end or the refusal.
#   span 1 to spans: what a slot does from a tick until another. wait 1 to stretches: ticks without a draw, by their cause:
#   L, where the awaited symbol is being loaded; O, where another is; N, where nothing is.
#   The longest single wait, the first where several are as long, is from tick pauseFrom until pauseUntil; none where both are 0.
#   round 0 to lastRound: each begins at tick roundFrom[]. Of a sheet that is drawn once none is told, and lastRound is -1.

function countOf(count, thing) { return count " " thing (count == 1 ? "" : "s") }

# How many events begin, how many ticks the run has, and the tick of a refusal, which is -1 where there is none. Refusal 14
# comes when the run is over, so its tick is the first that is not run; it has a column of its own.
function reckonEnd(   afterDraws) {
    afterDraws = made ? drawTick[made - 1] + 1 : 0
    begun = refusal == "" || refusal == 13 ? events : detail
    refusalTick = -1
    if (refusal == 13) refusalTick = most(afterDraws, events ? eventTick[events - 1] + loadTime : 0)
    else if (refusal == 14) refusalTick = afterDraws
    else if (refusal != "") refusalTick = eventTick[detail]
    columns = refusal == "" ? elapsed + 0 : refusalTick + 1
    ticks = refusal == 14 ? columns - 1 : columns
}

function reckonRange(   from, to) {
    from = ENVIRON["FROM"]
    to = ENVIRON["TO"]
    if (from != "" && from + 0 >= ticks)
        stop("tick " from " is past the end: the run has " countOf(ticks, "tick"))
    first = from + 0
    until = to == "" ? columns : least(to + 1, columns)
    isCut = first > 0 || until < columns
}

# kind: held, loading or free. A stretch of no ticks is none, and one that is not shown only counts its symbol.
function addSpan(slot, from, end, kind, symbol) {
    end = least(end, ticks)
    if (from >= end) return
    if (symbol == 65535) kind = "free"
    else inRun[symbol] = 1
    if (from >= until || end <= first) return
    spans++
    spanSlot[spans] = slot
    spanFrom[spans] = from
    spanUntil[spans] = end
    spanKind[spans] = kind
    spanSymbol[spans] = symbol
    shows[kind] = 1
    if (kind != "free") shows[kind, symbol] = 1
}

# At the end, holds[] is what each slot holds or is being loaded with.
function reckonSlots(   i, slot, since) {
    for (slot = 0; slot < slots; slot++) {
        since[slot] = 0
        holds[slot] = starting[slot]
    }
    for (i = 0; i < begun; i++) {
        slot = eventSlot[i]
        addSpan(slot, since[slot], eventTick[i], "held", holds[slot])
        addSpan(slot, eventTick[i], eventTick[i] + loadTime, "loading", eventSymbol[i])
        holds[slot] = eventSymbol[i]
        since[slot] = eventTick[i] + loadTime
    }
    for (slot = 0; slot < slots; slot++) addSpan(slot, since[slot], ticks, "held", holds[slot])
}

function addWait(from, end, cause, awaited, loading) {
    if (from >= until || end <= first) return
    stretches++
    waitFrom[stretches] = from
    waitUntil[stretches] = end
    waitCause[stretches] = cause
    waitAwaited[stretches] = awaited
    waitLoading[stretches] = loading
    waitsOf[cause] += least(end, until) - most(from, first)
    waitsShown += least(end, until) - most(from, first)
}

# The ticks in which a symbol is awaited, cut where loads begin and end. The load at loadAt is the first that may matter.
function addWaits(tick, end, awaited,   to) {
    while (tick < end) {
        while (loadAt < begun && eventTick[loadAt] + loadTime <= tick) loadAt++
        if (loadAt < begun && eventTick[loadAt] <= tick) {
            to = least(eventTick[loadAt] + loadTime, end)
            addWait(tick, to, eventSymbol[loadAt] == awaited ? "L" : "O", awaited, eventSymbol[loadAt])
        } else {
            to = loadAt < begun ? least(eventTick[loadAt], end) : end
            addWait(tick, to, "N", awaited, "")
        }
        tick = to
    }
}

function reckonWaits(   draw, tick) {
    loadAt = tick = 0
    for (draw = 0; draw < made; draw++) {
        addWaits(tick, drawTick[draw], drawn[draw])
        tick = drawTick[draw] + 1
    }
    if (refusal != "" && refusal != 14) addWaits(tick, refusalTick, drawn[made])
}

# Of a refused list no wait is marked: its answer has no longest wait.
function reckonLongest(   draw, tick) {
    pauseFrom = pauseUntil = tick = 0
    if (refusal != "" || !longest) return
    for (draw = 0; draw < made; draw++) {
        if (drawTick[draw] - tick == longest && !asLong++) {
            pauseFrom = tick
            pauseUntil = drawTick[draw]
            pauseDraw = draw
        }
        tick = drawTick[draw] + 1
    }
}

# A round begins in the tick after the last draw of the round before it. A refused list may not come to all rounds.
function reckonRounds(   draw) {
    lastRound = -1
    if (rounds < 2) return
    for (draw = 0; draw < draws && draw <= made; draw += inRound) roundFrom[++lastRound] = draw ? drawTick[draw - 1] + 1 : 0
}

function showsRound(i) { return roundFrom[i] >= first && roundFrom[i] < until }

# Whether any of it is shown.
function showsLongest() { return pauseUntil > first && pauseFrom < until && pauseFrom < pauseUntil }

# What is shown, in words.

function ticksWords(from, end) { return end - from == 1 ? "tick " from : "ticks " from " to " (end - 1) }
function shownWords() { return ticksWords(first, least(until, ticks)) }

function spanWords(i,   what) {
    if (spanKind[i] == "free") what = "free"
    else what = (spanKind[i] == "held" ? "symbol " : "loading symbol ") symbolWords(spanSymbol[i])
    return "slot " spanSlot[i] ": " what ", " ticksWords(spanFrom[i], spanUntil[i])
}

function waitWords(i,   awaited, why) {
    awaited = "symbol " symbolWords(waitAwaited[i])
    if (waitCause[i] == "L") why = awaited " is being loaded"
    else if (waitCause[i] == "O") why = awaited " is awaited, symbol " symbolWords(waitLoading[i]) " is being loaded"
    else why = awaited " is awaited, nothing is being loaded"
    return "waits, " ticksWords(waitFrom[i], waitUntil[i]) ": " why
}

function whichLongest() { return "the longest wait" (asLong > 1 ? ", the first of " asLong " as long" : "") }
function longestWords() { return whichLongest() ": " ticksWords(pauseFrom, pauseUntil) ", before draw " pauseDraw }

# The waits that are shown: each cause that occurs, and their sum.
function sumWords(   i, sum, words, letter) {
    split("L O N", letter, " ")
    for (i = 1; i <= 3; i++) if (letter[i] in waitsOf) {
        words = words letter[i] " " waitsOf[letter[i]] ", "
        sum += waitsOf[letter[i]]
    }
    if (!sum) words = "no waits"
    else words = words "sum " sum
    return words (isCut ? " in " shownWords() : "")
}

function runWords() {
    if (refusal == "") return "elapsed " elapsed ", waits " waits ", loads " loads ", longest " longest
    return "refused at tick " refusalTick " after " made " of " countOf(draws, "draw")
}

function drawsWords() { return (rounds == 1 ? "" : ENVIRON["ROUNDS"] " rounds of ") countOf(inRound, "draw") }
function roundWords(i) { return "round " i " begins: tick " roundFrom[i] ", draw " i * inRound }
function rangeWords() { return "shown: " shownWords() " of 0 to " (ticks - 1) }

function symbolAndName(symbol) { return "symbol " symbol (symbol in nameOf ? ", " nameOf[symbol] : "") }

# An event of refusal 12 comes when no load is under way, so a slot has what holds[] says.
function heldWords(symbol,   slot) {
    if (symbol == 65535) return "loads 65535, the mark of a free slot"
    for (slot = 0; slot < slots - 1 && holds[slot] != symbol; slot++);
    return "loads a symbol that slot " slot " holds"
}

function eventWords(i) {
    return "event " i " (tick " eventTick[i] ", slot " eventSlot[i] ", " symbolAndName(eventSymbol[i]) ") "
}

function refusalWords(   what) {
    if (refusal == 10) what = eventWords(detail) "begins while a load is under way"
    else if (refusal == 11) what = eventWords(detail) "names a slot that the display does not have"
    else if (refusal == 12) what = eventWords(detail) heldWords(eventSymbol[detail])
    else if (refusal == 14) what = eventWords(detail) "is left when all draws are done"
    else what = "draw " detail " (" inRoundWords(detail) symbolAndName(drawn[detail]) ") would wait for ever at tick " refusalTick
    return "refused " refusal ": " what
}

END {
    readSheet()
    holdSymbols()
    reckonEnd()
    reckonRange()
    reckonSlots()
    reckonWaits()
    reckonLongest()
    reckonRounds()
    if (refusal == "" && !isCut && waitsShown + 0 != waits) stop("the picture has " waitsShown + 0 " waits, and the run " waits)
}
