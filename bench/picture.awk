# Makes bench/RESULTS.svg of the rows of the benchmark: above, the ratios of all sheets with their spread; below, how time
# grows. It is narrow, and its letters are large, so that it can be read on a telephone. Read after ln.awk.

/^#/ { next }

# All sheets that are redrawn are of one kind; their rounds stand after n, k and F. Why a draw waited has its own kinds.
{
    kind = $1
    sheet = $3 " " $4 " " $5
    if (match($1, /-[0-9]+$/)) { kind = "rounds"; sheet = sheet " " substr($1, RSTART + 1) }
    if ($2 ~ /^why-/) kind = "why " kind
    if (!((kind, sheet) in seen)) { seen[kind, sheet] = 1; order[kind, ++sheets[kind]] = sheet }
    ratio[kind, $2, sheet] = $6; least[kind, $2, sheet] = $7; most[kind, $2, sheet] = $8
    ours[kind, $2, sheet] = $9; plain[kind, $2, sheet] = $10
    if ($6 > middle) middle = $6
    if ($8 > high) high = $8
    if (sprintf("%.2f", $6) + 0 > aim) missed[kind, sheet] = 1
}

# What a band is called: a sheet, how often it is redrawn, or a text.
function label(sheet,   count, part) {
    count = split(sheet, part, " ")
    if (!part[2]) return part[1] " events"
    return (count > 3 ? part[4] " × " : "") "n " part[1] ", k " part[2] ", F " part[3]
}

# All shapes are gathered in `body`, since the head of the picture says how tall it is.
function text(x, y, size, anchor, words, extra) {
    body = body sprintf("<text x=\"%.1f\" y=\"%.1f\" font-size=\"%d\" text-anchor=\"%s\"%s>%s</text>\n",
        x, y, size, anchor, extra, words)
}
function rule(x1, y1, x2, y2, tint, extra) {
    body = body sprintf("<line x1=\"%.1f\" y1=\"%.1f\" x2=\"%.1f\" y2=\"%.1f\" stroke=\"%s\"%s/>\n", x1, y1, x2, y2, tint, extra)
}
function dot(x, y, tint) {
    body = body sprintf("<circle cx=\"%.1f\" cy=\"%.1f\" r=\"3\" fill=\"%s\"/>\n", x, y, tint)
}
function band(x, y, wide, tall, tint) {
    body = body sprintf("<rect x=\"%.1f\" y=\"%.1f\" width=\"%.1f\" height=\"%.1f\" fill=\"%s\"/>\n", x, y, wide, tall, tint)
}
function clamp(v, low, high) { return v < low ? low : v > high ? high : v }

# Where a ratio stands. A spread that reaches the end of the scale goes further.
function ratioAt(v) { return 156 + clamp(v, 0, high) / high * 308 }

# The sheets of a kind from `top` down, a band for each and in it a line for each call; answers where they end.
function ratios(top, title, kind, calls,   count, call, i, w, y, tall, v) {
    count = split(calls, call, " ")
    tall = count * 5 + 5
    if (tall < 17) tall = 17
    text(10, top + 14, 14, "start", title, " font-weight=\"bold\"")
    top += 22
    for (i = 1; i <= sheets[kind]; i++) {
        y = top + (i - 1) * tall
        if ((kind, order[kind, i]) in missed) band(6, y, 468, tall, "#fbdcdc")
        else if (i % 2) band(6, y, 468, tall, "#f1f1f1")
        text(10, y + tall / 2 + 5, 13, "start", label(order[kind, i]),
            (kind, order[kind, i]) in missed ? " font-weight=\"bold\"" : "")
    }
    y = top + sheets[kind] * tall
    for (v = 0; v < high + 0.01; v += step) {
        rule(ratioAt(v), top, ratioAt(v), y, "#ccc", "")
        text(ratioAt(v), y + 14, 13, "middle", sprintf("%.1f", v), "")
    }
    rule(ratioAt(1), top, ratioAt(1), y, "#000", "")
    rule(ratioAt(aim), top, ratioAt(aim), y, "#b00000", " stroke-width=\"2\" stroke-dasharray=\"6 4\"")
    for (i = 1; i <= sheets[kind]; i++)
        for (w = 1; w <= count; w++) {
            y = top + (i - 0.5) * tall + (w - (count + 1) / 2) * 5
            rule(ratioAt(least[kind, call[w], order[kind, i]]), y, ratioAt(most[kind, call[w], order[kind, i]]), y,
                colour[call[w]], " stroke-width=\"2\" opacity=\"0.5\"")
            dot(ratioAt(ratio[kind, call[w], order[kind, i]]), y, colour[call[w]])
        }
    return top + sheets[kind] * tall + 26
}

# Growth stands on scales where a power is a straight line: multiples from 0.05 to 1,000 upwards, sizes along.
function multipleAt(top, v) { return top + 150 - 150 * ln(clamp(v, 0.05, 1000) / 0.05) / ln(1000 / 0.05) }
function sizeAt(left, size, first, last) { return left + 172 * ln(size / first) / ln(last / first) }

function curve(left, top, times, kind, call, extra, count, size, before, after,   i, points, first) {
    points = ""
    first = times[kind, call, before size[1] after]
    for (i = 1; i <= count; i++)
        points = points sprintf("%.1f,%.1f ", sizeAt(left, size[i], size[1], size[count]),
            multipleAt(top, times[kind, call, before size[i] after] / first))
    body = body sprintf("<polyline points=\"%s\" fill=\"none\" stroke=\"%s\" stroke-width=\"2\"%s/>\n",
        points, colour[call], extra)
}

# One panel. kinds: the kind of sheet for each call.
function growth(left, top, title, kinds, letter, sizes, before, after,   kind, count, size, i, w, v) {
    split(kinds, kind, " ")
    count = split(sizes, size, " ")
    text(left - 34, top - 13, 13, "start", title, " font-weight=\"bold\"")
    for (v = 0.1; v < 2000; v *= 10) {
        rule(left, multipleAt(top, v), left + 172, multipleAt(top, v), "#ccc", "")
        text(left - 5, multipleAt(top, v) + 5, 13, "end", v, "")
    }
    for (i = 1; i <= count; i++)
        text(sizeAt(left, size[i], size[1], size[count]), top + 166, 13, "middle", (i == 1 ? letter " " : "") size[i], "")
    for (w = 1; w <= calls; w++) {
        curve(left, top, plain, kind[w], name[w], " stroke-dasharray=\"3 4\"", count, size, before, after)
        curve(left, top, ours, kind[w], name[w], "", count, size, before, after)
    }
}

BEGIN {
    aim = 1.2
    all = "check aggressive conservative opt lru"
    calls = split(all, name, " ")
    split("#000000 #d55e00 #0072b2 #009e73 #cc79a7", tints, " ")
    for (w = 1; w <= calls; w++) colour[name[w]] = tints[w]
    colour["write"] = colour["why-middle"] = "#0072b2"
    colour["read"] = colour["why-last"] = "#d55e00"
}

END {
    # The scale ends at the greatest of all repeats, but one repeat gone astray shall not press all medians together.
    if (high > 1.5 * middle) high = 1.5 * middle
    if (high < 1.6) high = 1.6
    step = high > 4 ? 1 : 0.4
    charts = "chart chart chart chart chart"
    worsts = "worst worst different different different"
    ns = "256 512 1024 2048 4096"
    ks = "4 8 16 32 64"
    text(10, 24, 16, "start", "Time of the library / of the plain C program", " font-weight=\"bold\"")
    text(10, 44, 13, "start", "Dot: median; bar: least to greatest. Dashed: the aim, 1.2.", "")
    text(10, 61, 13, "start", "A sheet in red misses the aim.", "")
    x = 10
    for (w = 1; w <= calls; w++) {
        dot(x + 5, 79, colour[name[w]])
        text(x + 14, 84, 13, "start", name[w], "")
        x += 38 + 7 * length(name[w])
    }
    y = ratios(98, "Sheets like charts", "chart", all)
    y = ratios(y, "Sheets with all draws different", "different", all)
    y = ratios(y, "Sheets made to slow check and aggressive", "worst", "check aggressive")
    if (sheets["rounds"]) y = ratios(y, "Sheets in rounds (k 64: all draws different)", "rounds", all)
    if (sheets["why chart"]) {
        whys = "why-middle why-last"
        y = ratios(y, "Why: the middle draw (blue), the last (orange); charts", "why chart", whys)
        y = ratios(y, "Why: all draws different", "why different", whys)
        y = ratios(y, "Why: sheets made to slow the check", "why worst", whys)
        y = ratios(y, "Why: sheets in rounds (k 64: all draws different)", "why rounds", whys)
    }
    y = ratios(y, "Texts: written (blue) and read (orange)", "text", "write read")
    y += 18
    text(10, y, 16, "start", "Growth: time as a multiple of the smallest size's", " font-weight=\"bold\"")
    text(10, y + 20, 13, "start", "Solid: the library; dashed: the plain C program. Colours as above.", "")
    y += 56
    growth(44, y, "Like charts, k 16, F 30", charts, "n", ns, "", " 16 30")
    growth(280, y, "Worst sheets, k 64, F 1", worsts, "n", ns, "", " 64 1")
    y += 208
    growth(44, y, "Like charts, n 1024, F 30", charts, "k", ks, "1024 ", " 30")
    growth(280, y, "Worst sheets, n 1024, F 1", worsts, "k", ks, "1024 ", " 1")
    y += 208
    growth(44, y, "Like charts, n 1024, k 16", charts, "F", "1 10 100 1000", "1024 16 ", "")
    text(246, y + 20, 13, "start", "By their searches, at worst:", "")
    text(246, y + 42, 13, "start", "aggressive, conservative, opt: n² k", "")
    text(246, y + 60, 13, "start", "lru: n k²", "")
    text(246, y + 78, 13, "start", "check: n k", "")
    printf "<svg xmlns=\"http://www.w3.org/2000/svg\" width=\"480\" height=\"%d\" viewBox=\"0 0 480 %d\"", y + 180, y + 180
    print " font-family=\"sans-serif\">"
    print "<title>The library against a plain C program: ratios and growth</title>"
    printf "<rect width=\"480\" height=\"%d\" fill=\"#fff\"/>\n", y + 180
    printf "%s</svg>\n", body
}
