# Tells whether the lines of a program are a whole answer: prints `accepted`, or the first line of a refusal; else status 1.
# what: check (its first line and one line for each of `draws` draws, or a refusal and its words), why (`explained` and a line for
# the draw DRAW of the environment or, where that is empty, for some of the `draws` draws; or a refusal and its words), summary
# (four lines, or a refusal), text (a line of three numbers for each of `draws` events) or refusal (a refusal and its words).

function numbers(from, until,   i) {
    for (i = from; i <= until; i++) if ($i !~ /^(0|[1-9][0-9]*)$/) return 0
    return NF == until
}

# A line of a draw: an event or `start`, an event or `none`, and three numbers of waits. Only a draw that was asked about may have
# no wait.
function isAccount() {
    if ($0 !~ account || $1 <= before || $1 >= draws) return 0
    return ENVIRON["DRAW"] == "" ? $5 + $6 + $7 > 0 : $1 == ENVIRON["DRAW"]
}

NR == 1 { refused = $1 == "refused" && numbers(2, 3) && $2 > 0; verdict = refused ? $0 : "accepted" }
refused { wrong += NR > (what == "summary" ? 1 : 2) || $0 == ""; next }
what == "refusal" { wrong++; next }
what == "text" { wrong += !numbers(1, 3) || $0 != $1 " " $2 " " $3; next }
what == "why" && NR == 1 { wrong += $0 != "explained"; before = -1; next }
what == "why" { wrong += !isAccount(); before = $1 + 0; next }
what == "summary" { wrong += $1 != name[NR] || !numbers(2, 4) || $2 < $3; next }
NR == 1 { wrong += $1 != "accepted" || !numbers(2, 5) || $2 != $3 + draws; elapsed = $2; longest = $5; tick = -1; next }
{ wrong += !numbers(1, 4) || $1 != NR - 2 || $3 <= tick; gap = $3 - tick - 1; if (gap > greatest) greatest = gap; tick = $3 }

BEGIN {
    split("aggressive conservative opt lru", name, " ")
    account = "^N N (start|N) (none|N) N N N$"
    gsub("N", "(0|[1-9][0-9]*)", account)
}
END {
    if (refused) lines = what == "summary" ? 1 : 2
    else if (what == "text") lines = draws
    else if (what == "why") lines = ENVIRON["DRAW"] == "" ? NR : 2
    else if (what == "summary") lines = 4
    else { lines = draws + 1; wrong += draws == "" || tick + 1 != elapsed || longest != greatest + 0 }
    if (wrong || NR != lines) exit 1
    print verdict
}
