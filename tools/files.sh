# What the front end reads and writes. It reads no more of a file than its format has, plus one byte; it writes an answer only when
# it has all of it, and says so where that cannot be done.
most_job=8331 most_list=28680 most_lines=262145 most_text=1048577

# A descriptor that is closed would be given to the next file that is opened, so the three are open from here on.
input=open output=open
(true 3>&2) || exec 2>/dev/null
(true 3<&0) 2>/dev/null || { input=closed; exec </dev/null; }
(true 3>&1) 2>/dev/null || { output=closed; exec >/dev/null; }
exec 5>&1 # standard output, from within a substitution

open_scratch() {
    scratch=$(mktemp -d 2>/dev/null) || { scratch=''; fail "cannot make a temporary folder in $(shown "${TMPDIR:-/tmp}")"; }
    case $scratch in /*) ;; *) scratch=$PWD/$scratch ;; esac
}

# Runs a command of the front end's own with its standard output in a file of the temporary folder. Leaves in `why` what it says on
# standard error, and answers its status.
into() { # NAME COMMAND [WORDS]
    target=$scratch/$1
    shift
    why=$("$@" 2>&1 >"$target")
}

# The same where any failure is the end.
surely_into() { # NAME COMMAND [WORDS]
    into "$@" || fail "cannot work in the temporary folder $(shown "$scratch"): ${why##*: }"
}

# Leaves FILE's bytes, or those of standard input for -, at $scratch/NAME, as many as LIMIT and no more.
take() { # FILE NAME LIMIT
    [ "$1" != - ] || [ "$input" = open ] || fail "cannot read standard input: it is closed"
    why=$({
        if [ "$1" = - ]; then head -c "$3" 2>&4; else head -c "$3" -- "$1" 2>&4; fi |
            cat 2>/dev/null >"$scratch/$2" || echo unwritten >&4
    } 4>&1 >/dev/null 2>/dev/null)
    case $why in
    '') ;;
    *unwritten) fail "cannot write in the temporary folder $(shown "$scratch")" ;;
    *) fail "cannot read $(shown "$(named "$1")"): ${why##*: }" ;;
    esac
}

# What a message or a title calls a file.
named() { if [ "$1" = - ]; then printf 'standard input'; else printf '%s' "$1"; fi; }

# Hands out the answer at $scratch/answer: on standard output, or as the whole of the file of -o.
hand_out() {
    if [ -n "$out" ]; then write_whole "$out"; else write_out answer; fi
}

write_out() { # NAME
    [ "$output" = open ] || fail "cannot write the answer: standard output is closed"
    why=$({ cat "$scratch/$1" >&5; } 2>&1) || fail "cannot write the answer on standard output${why:+: ${why##*: }}"
}

# The file reads as before, or has the whole answer: it is written beside FILE and then renamed. A device or a pipe has no before.
write_whole() { # FILE
    file=$1
    while [ -L "$file" ]; do
        link=$(readlink -- "$file") || fail "cannot write $(shown "$1")"
        case $link in /*) file=$link ;; *) case $file in */*) file=${file%/*}/$link ;; *) file=$link ;; esac ;; esac
    done
    [ ! -d "$file" ] || fail "cannot write $(shown "$1"): Is a directory"
    if [ -e "$file" ] && [ ! -f "$file" ]; then
        why=$(cat "$scratch/answer" 2>&1 >"$file") || fail "cannot write $(shown "$1"): ${why##*: }"
        return
    fi
    [ ! -e "$file" ] || [ -w "$file" ] || fail "cannot write $(shown "$1"): Permission denied"
    case $file in */*) folder=${file%/*} ;; *) folder=. ;; esac
    [ -d "$folder/" ] || fail "cannot write $(shown "$1"): there is no folder $(shown "$folder")"
    unfinished=$folder/.govahrin.$$
    why=$(set -C && cat "$scratch/answer" 2>&1 >"$unfinished") || fail "cannot write $(shown "$1"): ${why##*: }"
    why=$(mv -f -- "$unfinished" "$file" 2>&1) || fail "cannot write $(shown "$1"): ${why##*: }"
    unfinished=''
}

# Bytes are no words: a terminal gets them only by the user's own pipe.
not_to_terminal() { # WHAT
    [ -n "$out" ] || [ ! -t 1 ] || fail "$1 is bytes and not words: write -o FILE, or send it through a pipe"
}

# Writes the bytes that lines of octal escapes name.
unescape() { # NAME
    while read -r line; do printf "$line" || return; done <"$scratch/$1"
}

numbers_of() { od -An -v -tu1 "$scratch/$1"; } # NAME
