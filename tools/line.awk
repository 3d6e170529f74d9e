# What is wrong with a line of a text, in one line: its number, its bytes, and the first thing from its left that no line may have. It
# reads the parts `refused`, whose detail is the line, and `text`, the text's bytes in decimal. It needs tools/clean.awk.

part == "text" && !ended {
    for (i = 1; i <= NF && !ended; i++) {
        if (line < detail) line += $i == 10
        else if ($i == 10) ended = 1
        else lineByte[size++] = $i + 0
    }
}

function ordinal(number,   last) {
    if (number <= 10) return ordinalWord[number]
    last = number % 100 > 10 && number % 100 < 14 ? 0 : number % 10
    return (number < 1000 ? number : int(number / 1000) "," sprintf("%03d", number % 1000)) \
        (last == 1 ? "st" : last == 2 ? "nd" : last == 3 ? "rd" : "th")
}

# The bytes from a place until another, clean and in quotes. A byte 0 is no character of an awk, so it is written out here.
function quoted(from, until,   i, some, out) {
    for (i = from; i < until; i++) {
        if (lineByte[i]) some = some sprintf("%c", lineByte[i])
        else {
            out = out clean(some) "\\000"
            some = ""
        }
    }
    return "\"" out clean(some)
}

# At most forty of them, and no letter cut in two.
function shownFrom(from, until,   end) {
    end = until - from > 40 ? from + 40 : until
    while (end < until && end > from && goesOn(end)) end--
    return quoted(from, end) (end < until ? "..\"" : "\"")
}

# A byte that goes on a letter of several.
function goesOn(at) { return at < size && lineByte[at] >= 128 && lineByte[at] < 192 }

function letterAt(at,   end) {
    for (end = at + 1; goesOn(end); end++);
    return shownFrom(at, end)
}

function isDigit(at) { return at < size && lineByte[at] >= 48 && lineByte[at] <= 57 }
function isBlank(at) { return at < size && lineByte[at] == 32 }

# The first place from this one on that has no blank.
function pastBlanks(at) {
    while (isBlank(at)) at++
    return at
}

# What stands at a place where it does not belong. Two that a reader cannot see are named.
function strange(at) {
    if (lineByte[at] == 9) return "there is a tab"
    if (lineByte[at] == 13) return "there is a carriage return"
    if (lineByte[at] == 194 && lineByte[at + 1] == 160) return "there is a no-break space"
    if (lineByte[at] == 239 && lineByte[at + 1] == 187 && lineByte[at + 2] == 191) return "there is a byte order mark"
    return "there is " letterAt(at)
}

# A carriage return is seldom alone, so its words tell where all of them come from.
function whyStrange(at, words) { return lineByte[at] == 13 ? ": the file has line ends of another system" : words }

function missing(field) { return field == 2 ? "the slot and the symbol are missing" : "the symbol is missing" }

# What is wrong where a number should begin; nothing where it is right.
function faultBefore(at, field,   blanks) {
    if (pastBlanks(at) == size) return field == 1 ? "it has only blanks" : missing(field)
    if (isBlank(at) && field == 1) return "there is a blank at the front"
    if (isBlank(at)) {
        blanks = pastBlanks(at) - at + 1
        return "there are " (blanks == 2 ? "two" : blanks) " blanks before the " fieldWord[field]
    }
    if (lineByte[at] == 9) return strange(at) (field == 1 ? " at the front" : " before the " fieldWord[field])
    if (lineByte[at] == 43 || lineByte[at] == 45) return "the " fieldWord[field] " has a sign"
    if (!isDigit(at)) return strange(at) whyStrange(at, " where the " fieldWord[field] " should be")
    if (lineByte[at] == 48 && isDigit(at + 1)) return "there is a zero before the " fieldWord[field]
    return ""
}

# What is wrong behind the digits of a tick or a slot, and behind those of a symbol.
function faultBehind(at, field) {
    if (at == size) return missing(field + 1)
    if (isBlank(at)) return ""
    return strange(at) " after the " fieldWord[field] whyStrange(at, ", where a blank belongs")
}

function faultAtEnd(at,   later) {
    if (at == size) return ended ? "" : "it is the last line and has no line feed"
    later = pastBlanks(at)
    if (isBlank(at) && (later == size || lineByte[later] == 13)) return "there is a blank at the end"
    if (isBlank(at) && isDigit(later)) return "there is a fourth number"
    if (isBlank(at)) return "there is " shownFrom(later, size) " after the symbol"
    return strange(at) " after the symbol" whyStrange(at, "")
}

# Digits without a zero before them that name a number over a limit. More digits than the limit has decide it: an awk's numbers end.
function isOver(from, until, limit,   number, i) {
    if (until - from > length(limit "")) return 1
    for (i = from; i < until; i++) number = number * 10 + lineByte[i] - 48
    return number > limit
}

function fault(   at, field, from, words) {
    if (detail >= 4096) return "a list has at most 4,096 events"
    if (size == 0) return "it is empty"
    if (detail == 0 && lineByte[0] == 0) return "it begins with a byte 0, as a load list does that is no text"
    at = 0
    for (field = 1; field <= 3; field++) {
        words = faultBefore(at, field)
        if (words != "") return words
        for (from = at; isDigit(at); at++);
        words = field < 3 ? faultBehind(at, field) : faultAtEnd(at)
        if (words != "") return words
        if (field == 2 && isOver(from, at, 255)) return "the slot is over 255"
        if (field == 3 && isOver(from, at, 65535)) return "the symbol is over 65535"
        at++
    }
    return "nothing was found that is wrong with it"
}

BEGIN {
    split("first second third fourth fifth sixth seventh eighth ninth tenth", ordinalWord, " ")
    split("tick slot symbol", fieldWord, " ")
    line = size = 0
}

END { print "line " detail " (the " ordinal(detail + 1) ")" (size ? ", " shownFrom(0, size) : "") ": " fault() }
