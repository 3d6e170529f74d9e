# A timeline as a picture (SVG): the ticks run in bands from left to right, as lines of music do, so that it can be read on
# a phone and in print. In each band a row a slot, and below them the waits, each with the letter of its cause; above them
# the rounds, where there are several. A box says in its title, which a browser shows, what it is. Nothing depends on how
# many ticks there are, only on how much happens.

function put(line) { body[++lines] = line }
function number(value) { return sprintf("%.1f", value) + 0 }

function safe(words) {
    gsub(/&/, "\\&amp;", words)
    gsub(/</, "\\&lt;", words)
    gsub(/>/, "\\&gt;", words)
    return words
}

# Words and the room that they take. Each reader has other letters, so all are taken to be as wide as the widest usual ones.

# The place after the character that begins at a place; the bytes that go on a character are those of goesOn.
function after(words, at) {
    for (at++; at <= length(words) && index(goesOn, substr(words, at, 1)); at++);
    return at
}

# How wide a character is, in parts of the size of the letters.
function partOf(character) {
    if (length(character) > 1) return length(character) == 2 ? 0.9 : length(character) == 3 ? 1 : 1.4
    if (index("ijlftr.,:;'!|()I -", character)) return 0.4
    if (index("mwMW@%", character)) return 1
    return character ~ /[A-Z&+<=>]/ ? 0.84 : 0.64
}

function wideOf(words,   at, to, sum) {
    if (words in wideKnown) return wideKnown[words]
    for (at = 1; at <= length(words); at = to) {
        to = after(words, at)
        sum += partOf(substr(words, at, to - at))
    }
    return wideKnown[words] = sum * 13
}

# Words cut to a room, with an ellipsis for what is left out.
function cutTo(room, words,   at, to, sum, kept) {
    for (at = 1; at <= length(words); at = to) {
        to = after(words, at)
        sum += 13 * partOf(substr(words, at, to - at))
        if (sum > room) return substr(words, 1, kept) "\342\200\246"
        if (sum <= room - 13 && substr(words, at, 1) != " ") kept = to - 1
    }
    return words
}

function text(x, y, class, words) {
    sub(/^ /, "", class)
    if (class != "") class = " class=\"" class "\""
    put("<text x=\"" number(x) "\" y=\"" number(y) "\"" class ">" safe(words) "</text>")
}

function rectangle(x, y, width, height, class, more, words) {
    put("<rect class=\"" class "\" x=\"" number(x) "\" y=\"" number(y) "\" width=\"" number(width) "\"" \
        " height=\"" height "\"" more (words == "" ? "/>" : "><title>" safe(words) "</title></rect>"))
}

# A box has an outline where it is wide enough for one.
function box(x, y, width, height, class, words) { rectangle(x, y, width, height, class (width < 2 ? "" : " o"), "", words) }

# A draw's mark: a dot, or less wide than high where ticks are narrow. Draws that are close together have one mark.
function mark(x, y, width, words) {
    rectangle(x, y, width, 6, "d", markWidth > 2 ? " rx=\"" number(markWidth / 2) "\"" : "", words)
}

# Where things are. All heights are multiples of 9, the size of a pattern, so that a pattern lies alike in all boxes.
function top(band) { return head + band * (slots * 27 + 54 + roundRow) }
function down(row, band) { return top(band) + 18 + roundRow + row * 27 }
function startOf(band) { return first + band * perBand }
function endOf(band) { return least(startOf(band) + perBand, until) }
function across(tick, band) { return left + (tick - startOf(band)) * tickWidth }
function bandOf(tick) { return int((tick - first) / perBand) }

function parts(count, size) { return int((count + size - 1) / size) }

# The least of 10, 20, 25, 30, 40, 50, 60, 80, 100, 200 .. that is not less.
function roundUp(count,   unit, i, steps, part) {
    steps = split("10 20 25 30 40 50 60 80", part, " ")
    for (unit = 1; 80 * unit < count; unit *= 10);
    for (i = 1; i < steps && part[i] * unit < count; i++);
    return part[i] * unit
}

# A run of up to 24 ticks has one band. A longer one has bands of 20 ticks, or of more, so that the picture is not too high
# and has no more bands than there is to see. Where bands are few, some ticks that are left are not worth one more.
function setUpBands(   count, mostBands) {
    count = until - first
    mostBands = least(20, most(3, int(320 / (slots + 1))))
    mostBands = least(mostBands, 1 + int((spans + stretches + made) / 4))
    perBand = count <= 24 ? most(10, count) : roundUp(most(20, parts(count, mostBands)))
    bands = parts(count, perBand)
    if (bands > 1 && bands < 5 && count - (bands - 1) * perBand < perBand / 8) perBand = parts(count, --bands)
}

function setUp(   i) {
    setUpBands()
    roundRow = rounds > 1 ? 18 : 0
    left = 54
    bandWidth = 418
    tickWidth = bandWidth / perBand
    markWidth = most(0.8, least(6, tickWidth * 0.6))
    for (i = 128; i < 192; i++) goesOn = goesOn sprintf("%c", i)
}

# Tints. The symbols of the run have the tints of a table in turn, chosen so that all are apart, for the colour-blind too,
# and neighbours most of all. Where there are more symbols than tints, the further ones have a pattern on their tint. The
# class of the 5th tint is t5, and p2t5 under the 2nd pattern.

function setUpTints(   symbol) {
    tints = split("#8af #fd7 #4b8 #e8a #7ef #c94 #bac #afb #eb9 #2ce #cc6 #9cb #dae #ea4 #7ab #cec #a9d #9b7 #bcf #8da", \
        light, " ")
    split("#227 #960 #160 #715 #079 #753 #558 #030 #a30 #146 #440 #575 #414 #532 #367 #354 #85b #373 #539 #243", dark, " ")
    patterns = split("M0 3h9;M3 0v9;M0 0l9 9;M2 2h3v3h-3z;M0 3h9M3 0v9;M0 0l9 9M9 0l-9 9;M0 6l4-4 5 4;M0 3h4M5 7h4;" \
        "M2 0l4 4-4 5;M4 1v6M1 4h6", stripes, ";")
    for (symbol = 0; symbol < 65535; symbol++) if (symbol in inRun) {
        tintOf[symbol] = inUse % tints + 1
        patternOf[symbol] = int(inUse / tints) % (patterns + 1)
        inUse++
        if (("held", symbol) in shows) noteShown(symbol)
    }
}

function classOf(symbol) { return (patternOf[symbol] ? "p" patternOf[symbol] : "") "t" tintOf[symbol] }

function noteShown(symbol) {
    shownSymbol[++shown] = symbol
    tintShown[tintOf[symbol]] = 1
    if (patternOf[symbol]) patternsShown = 1
    if (classOf(symbol) in classShown) tintsRepeat = 1
    classShown[classOf(symbol)] = 1
}

# The style. The other classes: g the page, q quiet words, b the title, m and e words set to their middle and end, h words on
# a pattern, i words on N and r, o an outline, d a draw and the bar of the longest wait, l a load, L O N the waits, r v a
# refusal, x z lines of patterns, x u the line of a round.

function scheme(page, ink, quiet, outline, hatch, refused, waitL, waitO, waitN, inkOnN, tint,   rules, i) {
    rules = "svg:root{background:" page "}.g{fill:" page "}.h{stroke:" page "}text,.d{fill:" ink "}.x{stroke:" ink "}\n" \
        ".q{fill:" quiet "}.i{fill:" inkOnN "}.o{stroke:" outline "}.z{stroke:" hatch "}.r{fill:" refused "}" \
        ".v{stroke:" refused "}.L{fill:" waitL "}.O{fill:" waitO "}.N{fill:" waitN "}"
    for (i = 1; i <= tints; i++) if (i in tintShown) rules = rules "\n.t" i "{fill:" tint[i] "}"
    return rules
}

# The dark scheme is for screens alone, so that paper stays white.
function style() {
    print "<style>"
    print "text{font:13px sans-serif}.b{font:bold 15px sans-serif}.m{text-anchor:middle}.e{text-anchor:end}"
    print ".o{stroke-width:.6}.x,.z{fill:none}.x{stroke-opacity:.4}.v{fill:none;stroke-width:1.5}"
    print ".h{paint-order:stroke;stroke-width:3px;stroke-opacity:.75}.l{fill:url(#l)}"
    if (rounds > 1) print ".u{stroke-width:1.5;stroke-opacity:1}"
    print scheme("#fff", "#111", "#555", "#555", "#999", "#c00", "#ddd", "#aaa", "#555", "#fff", light)
    print "@media screen and (prefers-color-scheme:dark){"
    print scheme("#16181b", "#eee", "#aaa", "#999", "#666", "#f66", "#333", "#666", "#bbb", "#111", dark)
    print "}"
    print "</style>"
}

function pattern(id, class, lineClass, path) {
    print "<pattern id=\"" id "\" width=\"9\" height=\"9\" patternUnits=\"userSpaceOnUse\">" \
        "<rect class=\"" class "\" width=\"9\" height=\"9\"/><path class=\"" lineClass "\" d=\"" path "\"/></pattern>"
}

function definitions(   i, symbol, class) {
    print "<defs>"
    pattern("l", "g", "z", "M-1 5.5l6.5-6.5M-1 10L10-1M3.5 10l6.5-6.5")
    for (i = 1; i <= shown; i++) {
        symbol = shownSymbol[i]
        class = classOf(symbol)
        if (!patternOf[symbol] || !(class in classShown)) continue
        delete classShown[class]
        pattern(class, "t" tintOf[symbol], "x", stripes[patternOf[symbol]])
        print "<style>." class "{fill:url(#" class ")}</style>"
    }
    print "</defs>"
}

# The bands.

# What is in a box: all of keep and as much of the name as there is room for, or else the short word, or nothing.
function label(x, y, width, class, keep, name, short,   room) {
    room = width - 8
    if (name != "" && wideOf(keep) + 60 <= room) text(x + 4, y, class, cutTo(room, keep " " name))
    else if (wideOf(keep) <= room) text(x + 4, y, class, keep)
    else if (short != "" && wideOf(short) <= width - 2) text(x + width / 2, y, class " m", short)
}

# Draws a stretch of ticks of a row in each band that it touches; what the box says, and keep, name and short for its label.
function stretch(row, from, end, class, words, keep, name, short,   band, x, width, textClass) {
    from = most(from, first)
    end = least(end, until)
    textClass = class == "N" ? "i" : class ~ /^[lp]/ ? "h" : ""
    for (band = bandOf(from); band <= bandOf(end - 1); band++) {
        x = number(across(most(from, startOf(band)), band))
        width = most(0.5, number(across(least(end, endOf(band)), band)) - x)
        box(x, down(row, band), width, row < slots ? 24 : 18, class, words)
        label(x, down(row, band) + 13, width, textClass, keep, name, short)
    }
}

# The name of a symbol, or none. Only to ask for nameOf[] of an unknown symbol would make it known.
function nameFor(symbol) { return symbol in nameOf ? nameOf[symbol] : "" }

function spanBox(i, class, keep, name, short) {
    stretch(spanSlot[i], spanFrom[i], spanUntil[i], class, spanWords(i), keep, name, short)
}

function drawSpan(i,   symbol) {
    symbol = spanSymbol[i] ""
    if (spanKind[i] == "held") spanBox(i, classOf(symbol), symbol, nameFor(symbol), symbol)
    else if (spanKind[i] == "loading") spanBox(i, "l", "load " symbol, nameFor(symbol), symbol)
    else spanBox(i, "g", "free", "", "")
}

# In each band the count is that of the waits in it.
function drawWait(i,   cause, band, from, end) {
    cause = waitCause[i]
    for (band = bandOf(most(first, waitFrom[i])); band < bands && startOf(band) < waitUntil[i]; band++) {
        from = most(waitFrom[i], startOf(band))
        end = least(waitUntil[i], endOf(band))
        stretch(slots, from, end, cause, waitWords(i), cause " " (end - from), "", cause)
    }
}

# A bar below the longest wait, in each band that it touches.
function drawLongest(   band, from, end, x) {
    if (!showsLongest()) return
    for (band = bandOf(most(first, pauseFrom)); band < bands && startOf(band) < pauseUntil; band++) {
        from = most(pauseFrom, startOf(band))
        end = least(pauseUntil, endOf(band))
        x = number(across(from, band))
        rectangle(x, down(slots, band) + 20, most(0.5, number(across(end, band)) - x), 3, "d", "", longestWords())
    }
}

# Draws the mark of the draws that a slot has gathered, if any, and forgets them.
function drawMark(slot,   band, words) {
    if (!gathered[slot]) return
    band = bandOf(markFrom[slot])
    words = gathered[slot] == 1 ? "draw " markDraw[slot] ": " : gathered[slot] " draws of "
    words = words "symbol " symbolWords(drawn[markDraw[slot]]) " from slot " slot ", "
    mark(across(markFrom[slot] + 0.5, band) - markWidth / 2, down(slot, band) + 16.5, \
        (markTo[slot] - markFrom[slot]) * tickWidth + markWidth, words ticksWords(markFrom[slot], markTo[slot] + 1))
    shows["draw"] = 1
    if (gathered[slot] > 1) shows["draws"] = 1
    gathered[slot] = 0
}

# Gathers the draws of a slot that are closer together than a mark is wide.
function drawDraws(   draw, slot, tick) {
    for (draw = 0; draw < made; draw++) {
        tick = drawTick[draw]
        if (tick < first || tick >= until) continue
        slot = drawSlot[draw]
        if (!gathered[slot] || drawn[draw] != drawn[markDraw[slot]] || bandOf(tick) != bandOf(markFrom[slot]) ||
            (tick - markTo[slot]) * tickWidth >= markWidth + 0.4) {
            drawMark(slot)
            markFrom[slot] = tick
            markDraw[slot] = draw
        }
        markTo[slot] = tick
        gathered[slot]++
    }
    for (slot = 0; slot < slots; slot++) drawMark(slot)
}

function roundLine(x, y, height, words) {
    put("<path class=\"x u\" d=\"M" number(x) " " y "v" height "\"" (words == "" ? "/>" : "><title>" words "</title></path>"))
}

# A line through the slots and the waits where a round begins. It goes on upwards beside the round's number, where there is room
# for that.
function drawRound(i, band, x,   up) {
    up = x >= numberTaken && x + 4 + wideOf(i "") <= 479 ? 18 : 0
    roundLine(x, down(0, band) - up, slots * 27 + 18 + up, roundWords(i))
    lineTaken = x + 6
    if (!up) return
    text(x + 4, top(band) + 31, "", i)
    numberTaken = x + 8 + wideOf(i "")
}

# Of rounds that begin too close together only the first is drawn.
function drawRounds(   i, band, x, bandBefore) {
    bandBefore = -1
    for (i = 0; i <= lastRound; i++) {
        if (!showsRound(i)) continue
        band = bandOf(roundFrom[i])
        x = across(roundFrom[i], band)
        if (band != bandBefore) lineTaken = numberTaken = 0
        bandBefore = band
        shows[x < lineTaken ? "rounds" : "round"] = 1
        if (x >= lineTaken) drawRound(i, band, x)
    }
}

# A frame around the tick of a refusal, and a red box in the row of waits.
function drawRefusal(   band, x, width) {
    if (refusalTick < first || refusalTick >= until) return
    shows["refusal"] = 1
    band = bandOf(refusalTick)
    x = across(refusalTick, band)
    width = most(1.5, tickWidth)
    rectangle(x, down(0, band) - 2, width, slots * 27 + 20, "v", "", refusalWords())
    width = most(10, width)
    x = least(x, 478 - width)
    box(x, down(slots, band), width, 18, "r", refusalWords())
    text(x + width / 2, down(slots, band) + 13, "i m", "!")
}

# Every how many ticks there is a number: the first of 1, 2, 5, 10, 20, 50 .. that leaves room for it.
function axisStep(room,   step, digit) {
    step = digit = 1
    while (step * tickWidth < room) {
        step *= digit == 2 ? 2.5 : 2
        digit = digit == 1 ? 2 : digit == 2 ? 5 : 1
    }
    return step
}

# The number of a tick over the tick's middle, unless it would come too near to the one before or run off the edge. The first
# number of a band begins at the band's edge where ticks are narrow.
function axisNumber(tick, band, isFirst,   x, half) {
    x = across(tick + 0.5, band)
    half = wideOf(tick "") / 2
    if (isFirst) x = most(x, left + half)
    else if (x - half < axisTaken + 8 || x + half > 479) return
    text(x, top(band) + 11, "q m", tick)
    put("<path class=\"z\" d=\"M" number(across(tick + 0.5, band)) " " (top(band) + 13) "v3\"/>")
    axisTaken = x + half
}

function axis(band,   step, tick, row) {
    text(left - 6, top(band) + 11, "q e", "tick")
    step = axisStep(wideOf((until - 1) "") + 9)
    axisNumber(startOf(band), band, 1)
    for (tick = (int(startOf(band) / step) + 1) * step; tick < endOf(band); tick += step) axisNumber(tick, band, 0)
    if (rounds > 1) text(left - 6, top(band) + 31, "e", "round")
    for (row = 0; row < slots; row++) text(left - 6, down(row, band) + 16, "e", "slot " row)
    text(left - 6, down(slots, band) + 13, "e", "waits")
}

# The sum of the waits is at the end of their last row, or below it where there is no room, and then clear of the bar.
function drawSum(   x, y) {
    x = across(until, bands - 1) + 8
    y = down(slots, bands - 1) + 13
    below = y + 5
    if (x + wideOf(sumWords()) > 478) {
        x = left
        y += showsLongest() ? 22 : 18
        below += 9
    }
    text(x, y, "", sumWords())
}

# The legend: only what the picture has.

function keys(name) {
    keyX = left
    below += 27
    if (name != "") text(left - 6, below + 12, "q e", name)
}

# A swatch with a sign in it and its words after it; the next one comes after the room of this one, or on a new line.
function key(class, textClass, sign, swatch, words, room) {
    if (keyX > left && keyX + room > left + bandWidth) {
        keyX = left
        below += 18
    }
    if (class == "bar") rectangle(keyX, below + 6, swatch, 3, "d", "", "")
    else if (class == "line") roundLine(keyX + swatch / 2, below, 15, "")
    else if (class == "d") mark(keyX + swatch - markWidth - 1, below + 5, markWidth, "")
    else if (class != "") box(keyX, below, swatch, 15, class, "")
    if (sign != "") text(keyX + swatch / 2, below + 12, textClass " m", sign)
    if (words != "") text(keyX + swatch + 5, below + 12, "", words)
    keyX += room
}

# The symbols that are held, on up to 12 lines.
function symbolKeys(   i, symbol, swatch, room, listed) {
    for (i = 1; i <= shown; i++) {
        symbol = shownSymbol[i]
        swatch = most(swatch, wideOf(symbol "") + 8)
        room = most(room, symbol in nameOf ? wideOf(cutTo(150, nameOf[symbol])) + 16 : 4)
    }
    room += swatch
    listed = 12 * int(bandWidth / room)
    listed = shown <= listed ? shown : listed - 3
    keys("holds")
    for (i = 1; i <= listed; i++) {
        symbol = shownSymbol[i]
        key(classOf(symbol), patternOf[symbol] ? "h" : "", symbol, swatch, cutTo(150, nameFor(symbol)), room)
    }
    if (listed < shown) key("", "", "", 0, "and " (shown - listed) " more", room)
}

function note(words) {
    below += 18
    text(left, below + 12, "q", words)
}

function legend(   cause, words, i) {
    if (shown) symbolKeys()
    if (patternsShown) note("A tint with stripes or dots is another symbol.")
    if (tintsRepeat) note("More than " tints * (patterns + 1) " symbols: tints repeat, the number decides.")
    if (shows["loading"] || shows["free"] || shows["draw"]) keys("slots")
    if (shows["loading"]) key("l", "", "", 24, "being loaded", 140)
    if (shows["free"]) key("g", "", "", 24, "free", 78)
    if (shows["draw"]) key("d", "", "", 10, shows["draws"] ? "a draw or more" : "a draw", 140)
    if (shows["round"]) keys("round")
    if (shows["round"]) key("line", "", "", 24, shows["rounds"] ? "a round or more begin" : "a round begins", bandWidth)
    if (stretches || shows["refusal"]) keys(stretches ? "waits" : "")
    split("L O N", cause, " ")
    split("the awaited symbol is being loaded;another symbol is being loaded;nothing is being loaded", words, ";")
    for (i = 1; i <= 3; i++) if (cause[i] in waitsOf) key(cause[i], i == 3 ? "i" : "", cause[i], 24, words[i], bandWidth)
    if (showsLongest()) key("bar", "", "", 24, whichLongest(), bandWidth)
    if (shows["refusal"]) key("r", "i", "!", 24, "refused", bandWidth)
}

function headLine(class, words) {
    head += 18
    text(10, head, class, cutTo(466, words))
}

# Lines of the head, broken between words; what does not fit on three lines is cut.
function headLines(class, words,   word, count, i, line, broken) {
    count = split(cutTo(3 * 466, words), word, " ")
    line = word[1]
    for (i = 2; i <= count; i++) {
        if (broken < 2 && wideOf(line " " word[i]) > 466) {
            headLine(class, line)
            broken++
            line = word[i]
        } else line = line " " word[i]
    }
    headLine(class, line)
}

# The title's letters are bold and larger than those that cutTo reckons with, so its room is less than there is.
function drawHead() {
    head = 22
    text(10, head, "b", cutTo(350, ENVIRON["TITLE"]))
    headLines("", "k " slots ", F " loadTime ", " drawsWords() ": " runWords())
    if (refusal != "") headLines("r", refusalWords())
    if (isCut) headLines("", rangeWords())
    if (!bands) headLines("q", "The run has no ticks.")
    head += 14
}

END {
    setUp()
    setUpTints()
    drawHead()
    for (band = 0; band < bands; band++) axis(band)
    for (i = 1; i <= spans; i++) drawSpan(i)
    for (i = 1; i <= stretches; i++) drawWait(i)
    drawLongest()
    drawDraws()
    drawRounds()
    drawRefusal()
    below = head
    if (bands) drawSum()
    legend()
    height = below + 27
    print "<svg xmlns=\"http://www.w3.org/2000/svg\" width=\"480\" height=\"" height "\" viewBox=\"0 0 480 " height "\"" \
        " style=\"max-width:100%;height:auto\">"
    print "<title>" safe(ENVIRON["TITLE"]) "</title>"
    style()
    definitions()
    print "<rect class=\"g\" width=\"480\" height=\"" height "\"/>"
    for (i = 1; i <= lines; i++) print body[i]
    print "</svg>"
}
