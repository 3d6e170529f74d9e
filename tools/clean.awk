# clean(words): the same words as one line of UTF-8 without control characters, fit for a message and for a picture. A byte that is
# neither becomes a backslash and three octal digits.

function fillBytes(   i) { for (i = 1; i < 256; i++) byteOf[sprintf("%c", i)] = i }

# How many bytes the letter at a place has; 0 where it is no letter of UTF-8, or none that a picture may have.
function letterSize(words, at,   first, second, size, i) {
    first = byteOf[substr(words, at, 1)]
    second = byteOf[substr(words, at + 1, 1)]
    if (first < 128) return first >= 32 && first != 127
    if (first < 194 || first > 244) return 0
    size = first < 224 ? 2 : first < 240 ? 3 : 4
    for (i = 1; i < size; i++) if (int(byteOf[substr(words, at + i, 1)] / 64) != 2) return 0
    if (first == 194 && second < 160 || first == 224 && second < 160 || first == 237 && second > 159) return 0
    if (first == 240 && second < 144 || first == 244 && second > 143) return 0
    if (first == 239 && second == 191 && byteOf[substr(words, at + 2, 1)] > 189) return 0
    return size
}

function clean(words,   at, size, out) {
    if (!(" " in byteOf)) fillBytes()
    for (at = 1; at <= length(words); at += size ? size : 1) {
        size = letterSize(words, at)
        out = out (size ? substr(words, at, size) : sprintf("\\%03o", byteOf[substr(words, at, 1)]))
    }
    return out
}
