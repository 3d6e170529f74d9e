# What a refusal is about, in one line: the event with its tick, slot and symbol, or the draw with its symbol, and what is in its
# way; or the rounds with their draws, also of a draw that they have not. It says nothing of a refusal that is about none of these.

# A tick in digits. In a text it may have more of them than an awk's number has; of a list's great number an awk may make an exponent.
function digitsOf(tick) { return tick ~ /^[0-9]+$/ ? tick "" : sprintf("%.0f", tick) }
function tickOf(i,   digits) {
    digits = digitsOf(eventTick[i])
    return length(digits) > 40 ? substr(digits, 1, 40) ".." : digits
}

function eventOf(i) { return "event " i " (tick " tickOf(i) ", slot " eventSlot[i] ", " symbolOf(eventSymbol[i]) "): " }

# The slot that holds a symbol after the first `begun` events, each of which has ended; -1 for none. The last event that took the
# symbol out of a slot is left in takenBy, -1 for none.
function slotHolding(symbol, begun,   held, i) {
    for (i = 0; i < slots; i++) held[i] = starting[i]
    takenBy = -1
    for (i = 0; i < begun; i++) {
        if (held[eventSlot[i]] == symbol) takenBy = i
        held[eventSlot[i]] = eventSymbol[i]
    }
    for (i = 0; i < slots; i++) if (held[i] == symbol) return i
    return -1
}

function badTick(i) {
    return length(digitsOf(eventTick[i])) > 7 || eventTick[i] > 8388607 ? "the last tick is 8388607" : "the event before it has tick " eventTick[i - 1]
}

function loading(i) { return "event " i " loads " symbolOf(eventSymbol[i]) " into slot " eventSlot[i] " until tick " eventTick[i] + loadTime }

function holder(i) {
    if (eventSymbol[i] == 65535) return "65535 is the mark of a free slot"
    return "slot " slotHolding(eventSymbol[i], i) " holds it"
}

function drawOf(i) { return "draw " i " (" inRoundWords(i) symbolOf(drawn[i]) "): " }

function tooMany() {
    if (!rounds) return "0 rounds: a sheet is drawn once or more"
    return sprintf("%.0f rounds of %d draw%s are %.0f draws: a list covers at most 4,096", rounds, inRound, inRound == 1 ? "" : "s",
        rounds * inRound)
}

# A draw's number may have more digits than an awk prints of a number.
function noDraw(   all) {
    all = inRound * rounds
    if (!all) return "the sheet has no draws"
    if (rounds > 1) return rounds " rounds of " inRound " draw" (inRound == 1 ? "" : "s") " are " all " draws, 0 to " all - 1
    return all == 1 ? "the sheet has 1 draw, draw 0" : "the sheet has " all " draws, 0 to " all - 1
}

function takenOut(symbol) {
    slotHolding(symbol, events)
    if (takenBy < 0) return "it is in no slot at the start, and no event loads it"
    return "event " takenBy " took it out of slot " eventSlot[takenBy] " at tick " eventTick[takenBy]
}

END {
    readSheet()
    if (refusal == 9) print eventOf(detail) badTick(detail)
    if (refusal == 10) print eventOf(detail) loading(detail - 1)
    if (refusal == 11) print eventOf(detail) "the display has slots 0 to " slots - 1
    if (refusal == 12) print eventOf(detail) holder(detail)
    if (refusal == 13) print drawOf(detail) takenOut(drawn[detail])
    if (refusal == 14) print eventOf(detail) "all " draws " draws are done by then"
    if (refusal == 17) print tooMany()
    if (refusal == 18) print "draw " ENVIRON["DRAW"] ": " noDraw()
}
