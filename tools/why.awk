# Why draws waited, a line each: the draw that was asked about (DRAW in the environment), or all that waited, the longest wait
# first and the earlier draw where two are as long. It reads what why_sheet has told, in the part `told`, and says nothing that
# the list and its check do not bear out.

part == "told" && $1 != "explained" { line[$1 + 0] = $0; asked[told++] = $1 + 0 }

function lineOf(draw) {
    return draw " " drawn[draw] " " brought[draw] " " taken[draw] " " own[draw] " " another[draw] " " nothing[draw]
}

function holdTold(   i, draw) {
    for (i = 0; i < told; i++) if (line[asked[i]] != lineOf(asked[i]))
        stop("the program why_sheet tells another account of draw " asked[i] " than the list and its check")
    if (ENVIRON["DRAW"] != "") return
    for (draw = 0; draw < made; draw++) if (waitsOf(draw) && !(draw in line)) stop("the program why_sheet leaves out draw " draw)
}

# The order of the draws is kept among those that waited as long.
function sortTold(   i, j, draw) {
    for (i = 1; i < told; i++) {
        draw = asked[i]
        for (j = i; j > 0 && waitsOf(asked[j - 1]) < waitsOf(draw); j--) asked[j] = asked[j - 1]
        asked[j] = draw
    }
}

BEGIN { told = 0 }

END {
    readSheet()
    holdSymbols()
    reckonAccounts()
    holdTold()
    sortTold()
    for (i = 0; i < told; i++) print whyWords(asked[i])
    if (!told) print "no draw waited"
}
