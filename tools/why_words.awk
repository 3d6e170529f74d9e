# Why a draw waited, in words. It needs tools/sheet.awk and tools/account.awk.

function countOf(count, thing) { return count " " thing (count == 1 ? "" : "s") }

function drawOf(i) { return "draw " i " (" inRoundWords(i) symbolOf(drawn[i]) ")" }

# What was loading during a part of the waits. A part that is not the first is said in short.
function loadingWords(which, isFirst) {
    if (which == 1) return "its own symbol was loading"
    if (which == 2) return isFirst ? "another symbol was loading" : "another was"
    return isFirst ? "nothing was loading" : "nothing was"
}

# The waits before a draw. Where one part is all of them, it has no number of its own.
function waitedWords(draw,   ticks, causes, said, i, words) {
    if (!waitsOf(draw)) return "did not wait"
    split(own[draw] " " another[draw] " " nothing[draw], ticks, " ")
    for (i = 1; i <= 3; i++) causes += ticks[i] > 0
    words = "waited " countOf(waitsOf(draw), "tick") ", "
    for (i = 1; i <= 3; i++) if (ticks[i] > 0) {
        if (causes == 1) words = words (ticks[i] > 1 ? "all " : "")
        else words = words (said == 0 ? "" : said == causes - 1 ? " and " : ", ") ticks[i] " "
        words = words "while " loadingWords(i, !said++)
    }
    return words
}

function broughtWords(draw,   event) {
    event = brought[draw]
    if (event == "start") return "it was in slot " drawSlot[draw] " from the start"
    return "event " event " brought it to slot " eventSlot[event] " at tick " eventTick[event] + loadTime
}

# The event that had last taken the symbol out of a slot.
function takenWords(event) { return "; event " event " had taken it out of slot " eventSlot[event] " at tick " eventTick[event] }

# A draw that was made: its waits, what brought its symbol and what had taken it out before.
function whyWords(draw) {
    return drawOf(draw) " " waitedWords(draw) ": " broughtWords(draw) (taken[draw] == "none" ? "" : takenWords(taken[draw]))
}
