# Asking the proved programs, and believing only what they said in full: an answer counts when it begins with the word of success or
# of refusal and is complete. What an empty, half-written or interrupted program leaves behind is never an answer.
if [ -d "$root/programs" ]; then
    programs=$root/programs remedy="install Govahrin anew"
else
    programs=$root/target/bin remedy="remove it, and it is made anew"
fi

need_programs() { # [PROGRAMS beside those that most verbs need]
    [ "$programs" = "$root/programs" ] || "$root/tools/make_programs" "$@" || { ending=2; exit 2; }
}

# A program's table of sections is written last: where it lies within the file and ends it, the file is whole. A shell would run what
# is not a program at all as a script, so this is asked before.
is_program() { # FILE
    [ -f "$1" ] || return 1
    od -An -v -tu1 -N 64 "$1" 2>/dev/null | awk -v size="$(wc -c <"$1")" '
        { for (i = 1; i <= NF; i++) byte[count++] = $i }
        function number(at, bytes,   sum) { while (bytes-- > 0) sum = sum * 256 + byte[at + bytes]; return sum }
        END { exit !(count == 64 && number(0, 4) == 1179403647 && number(40, 8) + number(58, 2) * number(60, 2) == size) }'
}

# Runs a program; its standard output is left at $scratch/NAME, what it says on standard error in `aside`, and that without its last
# line feed in `why`. The dot keeps the line feed, which tells a whole line from one that broke off.
ask() { # NAME PROGRAM [WORDS]
    asked=$2
    is_program "$programs/$2" || fail "the program $(shown "$programs/$2") is not whole: $remedy"
    target=$scratch/$1
    shift 2
    why=$({ "$root/tools/machine" run "$programs/$asked" "$@" >"$target"; } 2>&1 && echo .) ||
        fail "the program $asked ended with status $?${why:+: $why}"
    aside=${why%.}
    why=${aside%"
"}
}

not_in_full() { fail "the program $asked did not answer in full${why:+: $why}"; }

# Sets `verdict` by the lines of an answer: accepted, or refused with its number and detail.
believe() { # NAME WHAT DRAWS
    [ -s "$scratch/$1" ] && [ -z "$(tail -c 1 "$scratch/$1")" ] || not_in_full
    verdict=$(awk -v what="$2" -v draws="$3" -f "$root/tools/believe.awk" "$scratch/$1") || not_in_full
    set -- $verdict
    verdict=$1 number=${2-} detail=${3-}
}

# The number that the bytes at a place name; nothing where the file is shorter.
number_at() { # NAME PLACE BYTES
    od -An -v -tu1 -j "$2" -N "$3" "$scratch/$1" 2>/dev/null |
        awk -v bytes="$3" '{ for (i = 1; i <= NF; i++) { sum = sum * 256 + $i; count++ } } END { if (count == bytes) print sum }'
}

# The draws of all rounds; nothing where the job is shorter than its head.
draws_of() { # JOB ROUNDS
    round=$(number_at "$1" 8 2)
    [ -z "$round" ] || echo $(($2 * round))
}

# Checks one file of the temporary folder against another, in the rounds that were asked for or in as many as said here; leaves the
# lines at $scratch/said.
judge() { # JOB LIST [ROUNDS]
    ask said check_sheet "$scratch/$1" "$scratch/$2" "${3:-$ROUNDS}"
    believe said check "$(draws_of "$1" "${3:-$ROUNDS}")"
    [ -z "$why" ] || not_in_full
}

# Asks why the draw DRAW of the accepted list waited or, where DRAW is empty, every draw that did; leaves the lines at
# $scratch/told. Of the refusals only the last is left: there is no such draw.
account_for() { # DRAWS
    ask told why_sheet "$scratch/sheet.job" "$scratch/sheet.list" "$ROUNDS" ${DRAW:+"$DRAW"}
    believe told why "$1"
    [ -z "$why" ] || not_in_full
    [ "$verdict" = refused ] || return 0
    [ "$number $detail" = "18 0" ] && [ -n "$DRAW" ] && [ "$DRAW" -ge "$1" ] ||
        fail "the programs why_sheet and check_sheet differ: refused $number $detail"
    surely_into said cat "$scratch/told"
    explain job list
    say_refused answer
}

# Plans $scratch/sheet.job; leaves the list at $scratch/sheet.list. A refusal is its line on standard error, and no list.
plan_by() { # PLAN
    ask sheet.list plan_sheet "$1" "$scratch/sheet.job" "$ROUNDS"
    case $why in
    '') is_list sheet.list || not_in_full ;;
    'refused '*) [ ! -s "$scratch/sheet.list" ] || not_in_full; refuse_job "$why" ;;
    *) not_in_full ;;
    esac
}

# Is the file as long as its head says?
is_list() { # NAME
    events=$(number_at "$1" 5 2)
    [ -n "$events" ] && [ "$(number_at "$1" 0 4)" -eq $((3 + 7 * events)) ] && [ "$(wc -c <"$scratch/$1")" -eq $((7 + 7 * events)) ]
}

# Has the text of a list made, or the list of a text: of FROM in the temporary folder, left at TO. A refusal is its line and its words on
# standard error, left at $scratch/said, and nothing else.
turn_into() { # text or list, FROM, TO
    ask "$3" text_sheet "$1" "$scratch/$2"
    if [ -n "$aside" ]; then
        [ ! -s "$scratch/$3" ] || not_in_full
        surely_into said printf '%s' "$aside"
        why=''
        believe said refusal 0
        return
    fi
    verdict=accepted
    "is_whole_$1" "$2" "$3" || not_in_full
}

# Has the text a line for each event of the list?
is_whole_text() { # LIST TEXT
    events=$(number_at "$1" 5 2)
    [ -n "$events" ] || return 1
    [ "$events" -gt 0 ] || { [ ! -s "$scratch/$2" ]; return; }
    believe "$2" text "$events"
    [ "$verdict" = accepted ]
}

# Has the list an event for each line of the text?
is_whole_list() { # TEXT LIST
    is_list "$2" && [ "$events" -eq "$(wc -l <"$scratch/$1")" ]
}

# The job at $scratch/sheet.job with a list of no events: refused 1 to 5 or 17 exactly where the job or the number of rounds is.
judge_job() {
    printf '\0\0\0\003\001\0\0' >"$scratch/empty.list" 2>/dev/null || fail "cannot write in the temporary folder $(shown "$scratch")"
    judge sheet.job empty.list
}

is_of_job() { [ "$verdict" = refused ] && { [ "$number" -le 5 ] || [ "$number" -eq 17 ]; }; }

# Says why the job or the number of rounds is refused, in the words of the check, and ends. LINE is what another program said of it.
refuse_job() { # LINE
    other=$asked
    judge_job
    [ "$1" = "$verdict $number $detail" ] && is_of_job || fail "the programs $other and check_sheet differ: $1"
    surely_into names true
    explain job
    say_refused answer
}

# Says a refusal and ends. Words that answer a question go to standard output; beside a file's bytes they go to standard error.
say_refused() { # NAME
    if [ "$answers" = words ]; then write_out "$1"; else cat "$scratch/$1" >&2; fi
    refuse
}
