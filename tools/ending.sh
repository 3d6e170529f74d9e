# How a run of the front end ends, and what it says. Nothing but `finish` ends it with status 0 and nothing but `refuse` with
# status 1: whatever else happens, foreseen or not, ends it with status 2 and one line on standard error.
ending='' scratch='' unfinished=''

leave() {
    status=$?
    [ -z "$scratch" ] || rm -rf -- "$scratch"
    [ -z "$unfinished" ] || rm -f -- "$unfinished"
    [ -n "$ending" ] || { say "something unforeseen ended it (status $status)"; ending=2; }
    exit "$ending"
}
trap leave EXIT
trap 'fail "stopped by a signal"' HUP INT TERM

# What a command said may have several lines; the first tells most.
say() {
    words=$*
    printf 'govahrin: %s\n' "${words%%"
"*}" >&2
}
fail() { say "$@"; ending=2; exit 2; }
usage() { fail "write: govahrin $* (govahrin help says more)"; }
finish() { ending=0; exit 0; }
refuse() { ending=1; exit 1; }

# A name as one line of UTF-8, for a message or a title.
shown() { # NAME
    case $1 in
    *[!A-Za-z0-9._/\ -]*) NAME=$1 awk -f "$root/tools/clean.awk" -f "$root/tools/clean_name.awk" ;;
    *) printf '%s' "$1" ;;
    esac
}
