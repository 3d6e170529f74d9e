# Reckons the account of each draw made, from what tools/sheet.awk has read:
#   brought[]   the event that last brought its symbol into a slot, or `start`
#   taken[]     the event that last took its symbol out of a slot, or `none`
#   own[], another[], nothing[]   its waits while its own symbol was loading, while another was, while nothing was
# A program's answer is held against it.

# Following the events: what each slot holds or is being loaded with is in inSlot[]; of each symbol that an event took out of a
# slot the last such event is in takenBy[], and the last event that loads a symbol in broughtBy[].
function startSlots(   i) {
    split("", inSlot)
    split("", takenBy)
    split("", broughtBy)
    for (i = 0; i < slots; i++) inSlot[i] = starting[i]
}

# An event that follows begins when this one has ended, so that it takes out what this one has brought.
function followEvent(i) {
    takenBy[inSlot[eventSlot[i]]] = i
    broughtBy[eventSymbol[i]] = i
    inSlot[eventSlot[i]] = eventSymbol[i]
}

# The ticks from one until another, by what was loading in them. The load at loadFrom is the first that may matter.
function reckonParts(draw, from, until,   i, ticks) {
    own[draw] = another[draw] = 0
    while (loadFrom < events && eventTick[loadFrom] + loadTime <= from) loadFrom++
    for (i = loadFrom; i < events && eventTick[i] < until; i++) {
        ticks = least(eventTick[i] + loadTime, until) - most(eventTick[i], from)
        if (eventSymbol[i] == drawn[draw]) own[draw] += ticks
        else another[draw] += ticks
    }
    nothing[draw] = until - from - own[draw] - another[draw]
}

function waitsOf(draw) { return own[draw] + another[draw] + nothing[draw] }

# A draw is made where its symbol is in a slot, so that the last event which loads it has ended.
function reckonAccounts(   draw, event, from, symbol) {
    startSlots()
    loadFrom = event = from = 0
    for (draw = 0; draw < made; draw++) {
        symbol = drawn[draw]
        for (; event < events && eventTick[event] <= drawTick[draw]; event++) followEvent(event)
        if (inSlot[drawSlot[draw]] != symbol)
            stop("the run makes draw " draw " from slot " drawSlot[draw] ", which does not hold its symbol")
        brought[draw] = symbol in broughtBy ? broughtBy[symbol] : "start"
        taken[draw] = symbol in takenBy ? takenBy[symbol] : "none"
        reckonParts(draw, from, drawTick[draw])
        from = drawTick[draw] + 1
    }
}
