# shellcheck shell=sh
# Runs a program of the laboratory, and says beneath it what its status means.
: "${program:?}" "${signals:?}"

# Stops if the stack is so small that the program, or a tool that this script uses, would end by a fault.
need_stack() {
    # shellcheck disable=SC3045 # dash, bash and busybox have it
    stack=$(ulimit -s)
    [ "$stack" = unlimited ] || [ "$stack" -ge 128 ] ||
        stop "the stack is limited to $stack KiB, and the program needs 128: allow 8192, as ulimit -s 8192 does in a new shell"
}

# The value of an option among these words, as in: value_of --load WORDS..
value_of() {
    option=$1
    shift
    while [ $# -gt 0 ]; do
        case $1 in
        "$option") printf '%s\n' "${2-}" && return ;;
        "$option"=*) printf '%s\n' "${1#*=}" && return ;;
        esac
        shift
    done
    return 1
}

# Stops with the program's own status for a file among these words that is given where no file belongs.
refuse_script_word() {
    case ${1-} in run | serve) verb=$1 ;; *) return ;; esac
    shift
    while [ $# -gt 0 ]; do
        case $1 in
        --*=* | -h | --help) ;;
        -*) [ $# = 1 ] || shift ;;
        *)
            [ ! -f "$1" ] || break
            ;;
        esac
        shift
    done
    [ $# -gt 0 ] || return 0
    say "$verb takes no file. To run a script: ./gaslab run < $1"
    exit 2
}

# What the word of a failed load means, for a file: load_fault WORD FILE. No word: no temporary file could be made.
load_fault() {
    case $1 in
    read) say "$2 can't be opened or read" ;;
    short) say "$2 ends too early: it is cut off, or no snapshot" ;;
    magic) say "$2 is not a snapshot: the command save writes one" ;;
    size) say "$2 is not a snapshot: its width or height is out of range" ;;
    tick) say "$2 is not a snapshot: its tick is out of range" ;;
    port) say "$2 is not a snapshot: one of its sources or drains is wrong" ;;
    trailing) say "$2 goes on after the end of the snapshot" ;;
    *) say "status 3: $2 can't be loaded, and the word above says why. To have it explained, allow writing to ${TMPDIR:-/tmp}" ;;
    esac
}

# Names the words that are not UTF-8, which the program can't read and so refuses without a text.
name_unreadable() {
    for word in "$@"; do
        printf %s "$word" | iconv -f UTF-8 -t UTF-8 >/dev/null 2>&1 ||
            say "the program reads words and names of files in UTF-8, and this is none: $word"
    done
}

# Says in a line what a status means and what to try: explain STATUS ERRORS WORDS.. ERRORS is a file with what the program wrote
# to standard error, or /dev/null.
explain() {
    ended=$1
    errors=$2
    shift 2
    case $ended:${1-} in
    1:serve)
        address=$(value_of --listen "$@") || address=127.0.0.1:0
        say "status 1: standard output failed, or $address can't be used: is another server running there?"
        ;;
    1:*) say "status 1: standard input or output failed (a closed pipe, a full disk?), or the input needs more than 2^24 reads" ;;
    2:*) name_unreadable "$@" ;;
    3:*) load_fault "$(sed -n 's/^load: //p' "$errors")" "$(value_of --load "$@")" ;;
    4:*) say "status 4: memory ran out: try a smaller --width and --height, or close other programs" ;;
    5:*) say "status 5: a line has more than 2,048 bytes or is not UTF-8, and nothing after it was read: fix that line" ;;
    134:*) say "status 134: the program was stopped, as said above. This should not happen: please report it with your input" ;;
    esac
}

pass_on() {
    caught=$1
    [ -z "$child" ] || kill "$child" 2>/dev/null
}

# Waits for the program in the background to end. A signal ends a wait before the program has ended.
await_program() {
    while
        wait "$child" 2>/dev/null
        status=$?
        kill -0 "$child" 2>/dev/null
    do :; done
}

# Runs the program in the background, with our input, until it ends. Such a command is given no input and ignores Ctrl-C. So it
# gets our input by descriptor 3. A file that grows past the limit of its size is a fault of writing, with its status, and no
# signal.
run_in_background() {
    exec 3<&0
    trap '' XFSZ
    if [ "$errors" = /dev/null ]; then "$@" <&3 3<&- & else "$@" <&3 3<&- 2>"$errors" & fi
    child=$!
    exec 3<&-
    [ -z "$caught" ] || kill "$child"
    await_program
}

# Runs a program: run_program PROGRAM WORDS.. Each signal that would end this script ends the program first. What the program
# writes to standard error is kept for a while if it loads a file, since only that tells what is wrong with the file.
run_program() {
    if ! (: 3<&0) 2>/dev/null; then exec "$@"; fi
    caught='' child='' errors=/dev/null
    for it in $signals; do
        # shellcheck disable=SC2064 # the name of the signal is to be that of now
        trap "pass_on $it" "$it"
    done
    if value_of --load "$@" >/dev/null; then errors=$(mktemp 2>/dev/null) || errors=/dev/null; fi
    [ -n "$caught" ] || run_in_background "$@"
    on_signals -
    trap - XFSZ
    if [ "$errors" != /dev/null ]; then cat "$errors" >&2; fi
    [ -z "$caught" ] || { forget_errors && kill -s "$caught" $$; }
    shift
    explain "$status" "$errors" "$@"
    forget_errors
    exit "$status"
}

forget_errors() { [ "$errors" = /dev/null ] || rm -f "$errors"; }
