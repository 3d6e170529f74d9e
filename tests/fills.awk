# Of a picture's boxes that hold a symbol: how many symbols there are, how many fills, and how many pairs of the two.
match($0, /<rect class="[^"]*"[^>]*><title>slot [0-9]*: symbol [0-9]*/) {
    box = substr($0, RSTART, RLENGTH)
    fill = box
    sub(/^<rect class="/, "", fill)
    sub(/[ "].*/, "", fill)
    symbol = box
    sub(/.* symbol /, "", symbol)
    symbols += !seenSymbol[symbol]++
    fills += !seenFill[fill]++
    pairs += !seenPair[symbol, fill]++
}
END { print symbols " symbols, " fills " fills, " pairs " pairs" }
