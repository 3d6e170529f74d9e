# Tells a job in the form that `govahrin job` takes, with the names of its symbols as remarks; or a load list, a line an event: tick,
# slot, symbol and its name. KIND in the environment is job or list.

function symbolOrFree(symbol) { return symbol == 65535 ? "." : symbol }

# A value in lines of at most twenty symbols; the later lines are set in.
function row(word, symbol, count,   i) {
    printf "%s", word
    for (i = 0; i < count; i++) printf "%s%s", (i && i % 20 == 0 ? "\n       " : " "), symbolOrFree(symbol[i])
    print ""
}

function remark(symbol) {
    if (symbol in nameOf && !told[symbol]++) print "# " symbol " " nameOf[symbol]
}

function showJob(   i) {
    print "k " slots
    print "F " loadTime
    row("starts", starting, slots)
    row("draws", drawn, draws)
    for (i = 0; i < slots; i++) remark(starting[i])
    for (i = 0; i < draws; i++) remark(drawn[i])
}

function showList(   i, symbol) {
    for (i = 0; i < events; i++) {
        symbol = eventSymbol[i]
        print eventTick[i], eventSlot[i], symbol (symbol in nameOf ? " " nameOf[symbol] : "")
    }
}

END {
    readSheet()
    if (ENVIRON["KIND"] == "job") showJob(); else showList()
}
