# Takes a verb's words apart: its options into out, names, text, FROM, TO and ROUNDS, its other words into word1 to word4, their
# number into count. A word with a leading dash that is no option is a file's name where there is such a file.

options() { # OPTIONS WORDS
    known=" --help -h $1 "
    shift
    out='' names='' text='' FROM='' TO='' ROUNDS=1 count=0 word1='' word2='' word3='' word4=''
    export ROUNDS
    while [ $# -gt 0 ]; do
        word=$1
        shift
        case $word in
        --) for word; do add_word "$word"; done; return ;;
        --*=*) if is_option "${word%%=*}"; then set -- "${word%%=*}" "${word#*=}" "$@"; else add_dashed "$word"; fi ;;
        -?*)
            if ! is_option "$word"; then add_dashed "$word"; continue; fi
            case $word in
            --help | -h) help_on "$verb"; finish ;;
            --text) text=text; continue ;;
            esac
            [ $# -gt 0 ] && [ -n "$1" ] || fail "$word needs a word after it (govahrin $verb --help says more)"
            take_option "$word" "$1"
            shift
            ;;
        *) add_word "$word" ;;
        esac
    done
    [ -z "$FROM" ] || [ -z "$TO" ] || [ "$FROM" -le "$TO" ] || fail "--from $FROM is after --to $TO"
}

is_option() { case $known in *" $1 "*) ;; *) return 1 ;; esac; }

take_option() { # OPTION VALUE
    case $1 in
    -o) if [ "$2" = - ]; then out=''; else out=$2; fi ;;
    --names) names=$2 ;;
    --from) FROM=$(tick_of "$1" "$2") || { ending=2; exit 2; } ;;
    --to) TO=$(tick_of "$1" "$2") || { ending=2; exit 2; } ;;
    --rounds) ROUNDS=$(number_of "--rounds takes a number of rounds" "$2") || { ending=2; exit 2; } ;;
    esac
}

# A tick without leading zeros, which a shell would read as octal.
tick_of() { # OPTION VALUE
    case $2 in
    *[!0-9]* | ??????????*) say "$1 takes a tick, a decimal number, not $(shown "$2")"; return 1 ;;
    esac
    plain "$2"
}

plain() { printf '%s' "$1" | sed 's/^0*\(.\)/\1/'; } # DIGITS

# A number of 32 bits without leading zeros, as the programs take it. Which of these numbers is refused is theirs to say.
number_of() { # WHAT-IS-TAKEN VALUE
    case $2 in '' | *[!0-9]*) ;; *) digits=$(plain "$2"); ! fits "$digits" || { printf '%s' "$digits"; return; } ;; esac
    say "$1, a decimal number of at most 4294967295, not $(shown "$2")"
    return 1
}

fits() { case $1 in ???????????*) return 1 ;; esac; [ "$1" -le 4294967295 ]; } # DIGITS

add_word() { # WORD
    count=$((count + 1))
    [ $count -gt 4 ] || eval "word$count=\$1"
}

add_dashed() { # WORD
    [ -e "$1" ] || fail "$(shown "$1") is no option of $verb and no file (govahrin $verb --help says more)"
    add_word "$1"
}
