# The front of a sheet as octal escapes: the job with its first CUT_DRAWS draws, or the list with its first CUT_EVENTS events.
END {
    readSheet()
    if ("CUT_DRAWS" in ENVIRON) writeJob(slots, loadTime, ENVIRON["CUT_DRAWS"], starting, drawn)
    else writeList(ENVIRON["CUT_EVENTS"], eventTick, eventSlot, eventSymbol)
}
