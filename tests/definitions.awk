# Turns lines of tests/vectors into rows of crates/rules/specs/Worked.antt, as one antt module on standard output.
# most: the greatest elapsed of a row; longest: the most bytes of a text or a list that is written or read; report: the file that
# says how many rows there are, and of which refusals and plans.

function digit(c) { return index("0123456789abcdef", c) - 1 }

# A row of bytes in hexadecimal, as an antt list.
function bytes(hex,   i, out) {
    out = ""
    if (hex != "-")
        for (i = 1; i < length(hex); i += 2)
            out = out (digit(substr(hex, i, 1)) * 16 + digit(substr(hex, i + 1, 1))) " ∷ "
    return "(" out "[])"
}

# Numbers joined by commas, as an antt list.
function numbers(text,   n, i, part, out) {
    out = ""
    if (text != "-") {
        n = split(text, part, ",")
        for (i = 1; i <= n; i++) out = out part[i] " ∷ "
    }
    return "(" out "[])"
}

function row(question, answer) { rows = rows "    row (" question ") " answer "\n    ∷ " }

# Some eight rows to a theorem, so that a refusal names a short stretch of the table.
function flush() {
    if (!held) return
    theorems++
    table = table "\npart_" theorems " : map found (" substr(rows, 5) "[]) ≡ map expected (" substr(rows, 5) "[])\n" \
        "unfolding planned checked run tick beginning happened place symbols times_over doubled missing ranks_from greatest events_in events_bytes\n" \
        "    due first_bad_tick first_of digits_of text_of digit_count number_from read_line read_lines write_tests read_tests told\n" \
        "part_" theorems " = refl\n"
    rows = ""
    held = 0
}

# A question of so many rounds.
function rounds(number, question, answer) { row("in_rounds_asked " number " (" question ")", answer) }

$1 == "plan" && $9 <= most {
    rounds($4, "plan " bytes($2) " " $3 " " $5, numbers($7 "," $8 "," $9 "," $10 "," $11 "," $12))
    rounds($4, "list " bytes($2) " " $3 " " $5, bytes($13))
    seen[$7]++
    if ($7 == 0) plans[$3]++
    used++
    if (++held == 4) flush()
}

$1 == "check" && $10 <= most {
    rounds($4, "check " bytes($2) " " bytes($3) " " $5 " " $6, numbers($8 "," $9 "," $10 "," $11 "," $12 "," $13))
    rounds($4, "ticks " bytes($2) " " bytes($3) " " $5 " " $6, numbers($14))
    rounds($4, "slots " bytes($2) " " bytes($3) " " $5 " " $6, numbers($15))
    seen[$8]++
    used++
    if (++held == 4) flush()
}

# The tick of event i of a list in hexadecimal.
function tick(hex, i,   from, n, value) {
    from = 15 + 14 * i
    value = 0
    for (n = 0; n < 8; n++) value = value * 16 + digit(substr(hex, from + n, 1))
    return value
}

# Whether no event of a list has a tick above the greatest.
function early(hex,   i) {
    for (i = 0; 14 * (i + 2) <= length(hex); i++) if (tick(hex, i) > most) return 0
    return 1
}

# An event, or the number that stands for none; of a refusal both numbers are 0.
function event(text) { return text == "-" ? 0 : text == "start" || text == "none" ? "4294967295" : text }

$1 == "why" && early($3) {
    rounds($5, "reason " bytes($2) " " bytes($3) " " $4, \
        numbers($7 "," $8 "," event($9) "," event($10) "," $11 "," $12 "," $13))
    seen[$7]++
    used++
    if (++held == 8) flush()
}

function size(hex) { return hex == "-" ? 0 : length(hex) / 2 }

# The answer has no size in a vector: it is that of the bytes written, and 0 where there are none.
/^text-/ && size($2) <= longest && size($7) <= longest {
    row(($1 == "text-write" ? "text_written " : "text_read ") bytes($2) " " $3, \
        "(" $5 " ∷ " $6 " ∷ " size($7) " ∷ " substr(bytes($7), 2))
    seen[$5]++
    used++
    if (++held == 8) flush()
}

END {
    flush()
    print "-- The vectors, computed with the definitions."
    print "use Rattle.std.specs.Prelude.{◌≡◌, refl, [], ◌∷◌, map}"
    print "use Rattle.rules.specs.Basics.{place}"
    print "use Rattle.rules.specs.Job.{symbols, times_over}"
    print "use Rattle.rules.specs.Order.{first_of}"
    print "use Rattle.rules.specs.LoadList.{events_in, events_bytes}"
    print "use Rattle.rules.specs.Display.{run, tick, beginning, happened}"
    print "use Rattle.rules.specs.Plans.{missing, ranks_from, greatest}"
    print "use Rattle.rules.specs.Refusals.{checked, planned, due, first_bad_tick, doubled}"
    print "use Rattle.rules.specs.Why.{told}"
    print "use Rattle.rules.specs.Text.{digits_of, text_of, digit_count, number_from, read_line, read_lines, write_tests, read_tests}"
    print "use Rattle.rules.specs.Worked.{Row, row, plan, list, check, ticks, slots, text_written, text_read, reason, in_rounds_asked, found, expected}"
    print table
    line = "tests/definitions: " used " vectors; plans accepted:"
    for (p = 0; p <= 3; p++) line = line " " p " x" plans[p] + 0
    line = line "; by number:"
    for (n = 0; n <= 18; n++) if (seen[n]) line = line " " n " x" seen[n]
    print line > report
}
