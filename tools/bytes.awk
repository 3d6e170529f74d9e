# Writes a job or a load list as octal escapes for printf, some on a line.

function byte(number) {
    printf "\\%03o", number
    if (++written % 32 == 0) print ""
}

function two(number) { byte(int(number / 256)); byte(number % 256) }
function four(number) { two(int(number / 65536)); two(number % 65536) }

# The first `draws` symbols of drawn[0..] for k slots with starting[0..].
function writeJob(k, loadTime, draws, starting, drawn,   i) {
    four(6 + 2 * k + 2 * draws)
    byte(1); byte(k); two(loadTime); two(draws)
    for (i = 0; i < k; i++) two(starting[i])
    for (i = 0; i < draws; i++) two(drawn[i])
    print ""
}

# The first `events` events.
function writeList(events, tick, slot, symbol,   i) {
    four(3 + 7 * events)
    byte(1); two(events)
    for (i = 0; i < events; i++) { four(tick[i]); byte(slot[i]); two(symbol[i]) }
    print ""
}
