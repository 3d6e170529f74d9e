# The front end's help: `help_on` prints all of it, or that of one verb.

help_summary() {
    cat <<'TEXT'
  govahrin summary SHEET.job
      Each of the four plans in a line: its name, elapsed ticks, waits, loads.
TEXT
}

help_plan() {
    cat <<'TEXT'
  govahrin plan NAME SHEET.job [--rounds R] [-o FILE]
      The load list of a plan, as bytes. NAME is aggressive, conservative, opt or lru.
TEXT
}

help_check() {
    cat <<'TEXT'
  govahrin check SHEET.job SHEET.list [--rounds R] [--names FILE]
      `accepted`, elapsed, waits, loads and the longest wait before one draw, then a line for each draw: draw, symbol, tick, slot, and
      the symbol's name where it is known. A refused list: which event or draw it is, and what is in its way.
TEXT
}

help_why() {
    cat <<'TEXT'
  govahrin why SHEET.job WHAT [DRAW] [--rounds R] [--names FILE]
      Why a draw waited: how many ticks, and what was loading meanwhile; the event that brought its symbol, or that it was in a
      slot from the start; and the event that had last taken it out of a slot, where one had. Without DRAW every draw that waited
      has such a line, the longest wait first. WHAT is a load list or a plan's name, as for `govahrin timeline`.
TEXT
}

help_timeline() {
    cat <<'TEXT'
  govahrin timeline SHEET.job [WHAT] [--rounds R] [--text] [--from TICK] [--to TICK] [--names FILE] [-o FILE]
      A picture (SVG) of the sheet's run; with --text in plain text. WHAT is a load list or a plan's name (conservative if nothing is
      said); a plan's name wins over a file of that name, and ./opt is the file. The longest wait is marked, and where each of
      several rounds begins. Of a refused list the run up to its refusal is drawn, and the refusal marked.
TEXT
}

help_text() {
    cat <<'TEXT'
  govahrin text SHEET.list [-o FILE]
      A load list as text, an event a line: tick, slot and symbol in decimal, one blank between, a line feed after each. The list of no
      events is the empty text.
TEXT
}

help_list() {
    cat <<'TEXT'
  govahrin list SHEET.txt [-o FILE]
      The load list of such a text, as bytes. A text that is refused: which line it is, counted from 0, and what is wrong with it.
TEXT
}

help_job() {
    cat <<'TEXT'
  govahrin job K F STARTS DRAWS [-o FILE]
  govahrin job TEXT [-o FILE]
      A job of K slots and load time F, as bytes. STARTS and DRAWS are symbols in decimal, as "1 2", with . for a free slot. A text
      file has the same values in the same order, one a line; or lines that begin with k, F, starts and draws. From a # to the end
      of its line it is a remark.
TEXT
}

help_show() {
    cat <<'TEXT'
  govahrin show FILE [--names FILE]
      A job in decimals, in the form that `govahrin job` takes; a load list as lines: tick, slot, symbol, and its name where it is known.
      Without such names they are the list's text.
TEXT
}

help_demo() {
    cat <<'TEXT'
  govahrin demo
      All of this on bundled sheets.
TEXT
}

help_common() {
    cat <<'TEXT'

--rounds R: the sheet is drawn R times over, and one list covers all rounds. Draws are counted through the rounds. Without it there
is one round.
A file may be - for standard input; one whose name begins with a dash may be written ./-name, or after a word --.
SHEET.list may be the text of a list wherever a list is read but in `govahrin text`: its first byte, a digit, tells. An empty file is the
empty text to `govahrin list` alone, and no list.
-o FILE writes FILE whole or not at all. --names FILE has symbols' names, a line each: the number, a blank, the name; the file
SHEET.names beside SHEET.job (for show: beside the file) is taken by itself.

Exit status: 0 done; 1 the job or the list was refused; 2 anything else, with one line on standard error that says what.
A refusal is the line `refused N D`, a line in words and, where it names an event, a draw or a line, a line about that. It is said on
standard output by the verbs that answer in words (summary, check, text, show), and on standard error by those that write a file's
content (plan, list, job, timeline).
TEXT
}

help_on() { # [VERB]
    out=''
    case ${1-} in
    summary | plan | check | why | timeline | text | list | job | show | demo) surely_into answer help_verb "$1" ;;
    '') surely_into answer help_all ;;
    *) fail "there is no verb $(shown "$1") (govahrin help names them)" ;;
    esac
    hand_out
}

help_verb() { # VERB
    "help_$1"
    help_common
}

help_all() {
    echo "govahrin: plan and check the symbol loads of a bridge display"
    echo
    for verb_of_help in summary plan check why timeline text list job show demo; do "help_$verb_of_help"; done
    printf '  govahrin help [VERB], govahrin VERB --help\n      This text, or the part on a verb.\n'
    printf '  govahrin --version\n      The version, the commit, the kit that the library is proved with.\n'
    help_common
}
