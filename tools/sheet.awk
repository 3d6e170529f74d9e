# Reads what the front end hands to its awk programs, in parts on standard input. A line `part NAME` begins each part:
#   job, list   the file's bytes in decimal      names   a line a symbol: its number, a tab, its name
#   run         `accepted ELAPSED WAITS LOADS LONGEST` and a line a draw, from check_sheet; of a refused list the draws before its refusal
#   told        `explained` and a line a draw, from why_sheet
#   refused     the number and the detail of a refusal
#   lines       a load list as text, in place of the part list: eventTick[], eventSlot[] and eventSymbol[] as they stand there
# After readSheet() the job is slots, loadTime, draws, starting[] and drawn[], the list eventTick[], eventSlot[] and eventSymbol[]
# for event 0 to events - 1, the run elapsed, waits, loads, longest, drawTick[], drawSlot[] and drawSymbol[] for draw 0 to made - 1.
# The draws are those of all rounds: of ROUNDS, in the environment, with inRound draws each. Where these are too many (refusal 17),
# neither draws nor events are read.

BEGIN { made = textLines = 0 }
$1 == "part" { part = $2; next }
part == "job" { for (i = 1; i <= NF; i++) jobByte[jobBytes++] = $i; next }
part == "list" { for (i = 1; i <= NF; i++) listByte[listBytes++] = $i; next }
part == "names" { nameOf[$1] = substr($0, index($0, "\t") + 1); next }
part == "refused" { refusal = $1 + 0; detail = $2 + 0; next }
part == "lines" { eventTick[textLines] = $1; eventSlot[textLines] = $2; eventSymbol[textLines++] = $3; next }
part == "run" && $1 == "accepted" { elapsed = $2 + 0; waits = $3 + 0; loads = $4 + 0; longest = $5 + 0; next }
part == "run" { drawSymbol[made] = $2 + 0; drawTick[made] = $3 + 0; drawSlot[made++] = $4 + 0 }

function stop(line) {
    print line > "/dev/stderr"
    exit 2
}

function least(a, b) { return a < b ? a : b }
function most(a, b) { return a > b ? a : b }

# The big-endian number of some bytes at a place of the job, and of the list.
function ofJob(at, count,   sum) {
    while (count-- > 0) sum = sum * 256 + jobByte[at++]
    return sum + 0
}
function ofList(at, count,   sum) {
    while (count-- > 0) sum = sum * 256 + listByte[at++]
    return sum + 0
}

function readSheet(   i, at) {
    slots = ofJob(5, 1)
    loadTime = ofJob(6, 2)
    inRound = ofJob(8, 2)
    rounds = ENVIRON["ROUNDS"] + 0
    if (refusal == 17) return
    draws = rounds * inRound
    for (i = 0; i < slots; i++) starting[i] = ofJob(10 + 2 * i, 2)
    for (i = 0; i < draws; i++) drawn[i] = ofJob(10 + 2 * slots + 2 * (i % inRound), 2)
    events = ofList(5, 2)
    for (i = 0; i < events; i++) {
        at = 7 + 7 * i
        eventTick[i] = ofList(at, 4)
        eventSlot[i] = ofList(at + 4, 1)
        eventSymbol[i] = ofList(at + 5, 2)
    }
}

# A draw's number counts through the rounds, so it is told which draw of its round it is.
function inRoundWords(draw) { return rounds == 1 ? "" : "draw " draw % inRound " of round " int(draw / inRound) ", " }

# What the run draws must be what the sheet draws, through all rounds.
function holdSymbols(   draw) {
    for (draw = 0; draw < made; draw++) if (drawSymbol[draw] != drawn[draw])
        stop("the run draws symbol " drawSymbol[draw] " as draw " draw ", and the sheet symbol " drawn[draw])
}

# A symbol as a person reads it: its number, and its name where one is known.
function symbolWords(symbol) { return symbol in nameOf ? symbol " (" nameOf[symbol] ")" : symbol "" }
function symbolOf(symbol) { return "symbol " symbol (symbol in nameOf ? ", " nameOf[symbol] : "") }
