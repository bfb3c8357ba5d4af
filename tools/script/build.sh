# shellcheck shell=sh
# Proves the program's crates side by side, and builds the program.
: "${here:?}" "${folder:?}" "${program:?}" "${mark:?}"
disk=3000000 # kilobytes that a build may need

# Those of our crates that a crate names as used.
used_by() {
    awk -F: -v name="$1" '
        /^[a-z]/ { own[$1] = 1; uses[$1] = $2 }
        END {
            n = split(uses[name], below, " ")
            for (i = 1; i <= n; i++) if (below[i] in own) print below[i]
        }' "$here/crates.txt"
}

# The crates of the program, those first on which most stands, each as SUM:NAME. What counts is the longest chain of crates
# from there up to the program, in bytes of sources, with 100,000 for what any crate takes.
most_needed_first() {
    for crate in $(with_below gaslab_program); do
        echo "$crate $(cd "$here" && sources_of "$crate" | xargs cat | wc -c)" "$(used_by "$crate" | xargs)"
    done | awk '
        { names[NR] = $1; chain[$1] = $2 + 100000; $1 = $2 = ""; uses[NR] = $0 }
        # each crate stands after those that it uses: from the last on, a chain is whole when its turn comes
        END {
            for (n = NR; n > 0; n--) {
                sum = chain[names[n]] += above[names[n]]
                print sum ":" names[n]
                count = split(uses[n], below, " ")
                for (i = 1; i <= count; i++) if (above[below[i]] < sum) above[below[i]] = sum
            }
        }' | sort -rn
}

free_disk() { df -Pk "$here" | awk 'NR == 2 { print $4 }'; }

# Says why the build has stopped, with the last lines of what was said.
failed() {
    on_signals -
    # shellcheck disable=SC2086 # numbers of processes are words
    kill $running 2>/dev/null
    log=$here/crates/$1/out/build.log
    say "the build stopped at $1. The last lines of $log:"
    tail -n 8 "$log" >&2
    if [ "$(free_disk)" -lt 100000 ]; then say "the disk is full: free some space, and run ./gaslab --build again"; fi
    stop "nothing was built. Fix that and run ./gaslab --build again: it keeps what is proved so far"
}

cut_off() {
    on_signals -
    # shellcheck disable=SC2086 # numbers of processes are words
    kill $running 2>/dev/null
    say "the build was interrupted, and no program was built. Run ./gaslab --build again: it keeps what is proved so far"
    exit 6
}

# Takes what was made in a crate's room to the crate's own folder, and gives the room up. A library's kept proofs, over half of
# what a build makes, are needed no more, unless somebody's own checks had kept some. The program's are: with them it is compiled
# for other processors.
take_home() {
    [ "$1" = gaslab_program ] || [ -e "$room/kept" ] || rm -rf "$room/crates/$1/out/incremental"
    for made in "$room/crates/$1/out"/*; do
        rm -rf "$here/crates/$1/out/${made##*/}" && mv "$made" "$here/crates/$1/out/" || return
    done
    rm -rf "$room"
}

# Proves and builds a crate by so many jobs.
make_crate() {
    room=$folder/out/rooms/$1
    furnish "$1" && cd "$room/crates/$1" || return
    case $1 in
    gaslab_program) rt run --cpu="$cpu" --jobs "$2" -- run 3>&- & ;;
    *) rt lib --jobs "$2" 3>&- & ;;
    esac
    child=$!
    wait "$child" && cd "$here" && take_home "$1"
}

# Makes a crate, and writes to the pipe of ends how that went.
prove() {
    trap 'kill "$child" 2>/dev/null; exit 1' TERM
    log=$here/crates/$1/out/build.log
    if mkdir -p "${log%/*}" && make_crate "$@" >"$log" 2>&1 </dev/null; then end=proved; else end=failed; fi
    echo "$1 $end" >&3
}

is_ready() {
    for lower in $(used_by "$1"); do
        case " $proved " in *" $lower "*) ;; *) return 1 ;; esac
    done
}

# Whether a crate may start: a core is idle, or more stands on it than on one that is being proved.
has_turn() {
    [ "$busy" -ge "$cores" ] || return 0
    for other in $proving; do
        [ "${1%%:*}" -le "${other%%:*}" ] || return 0
    done
    return 1
}

# Whether more stands on a crate than on each that is being proved.
is_first() {
    for other in $proving; do
        [ "${1%%:*}" -gt "${other%%:*}" ] || return 1
    done
}

# Starts crates that use only proved ones. Each has one job; but that on which most stands has two where there are four cores,
# and two of them idle: two jobs take 0.74 to 0.94 of the time of one, and 0.15 to 0.45 more of the processor.
start_ready() {
    rest=
    for it in $waiting; do
        if is_ready "${it#*:}" && has_turn "$it"; then
            jobs=1
            if [ "$cores" -ge 4 ] && [ $((cores - busy)) -ge 2 ] && is_first "$it"; then jobs=2; fi
            prove "${it#*:}" $jobs &
            running="$running $!"
            proving="$proving $it:$jobs"
            busy=$((busy + jobs))
        else
            rest="$rest $it"
        fi
    done
    waiting=$rest
}

# Takes a crate from those that are being proved to those that are.
is_done() {
    proved="$proved $1"
    left=$((left - 1))
    rest=
    for it in $proving; do
        case $it in
        *":$1:"*) busy=$((busy - ${it##*:})) ;;
        *) rest="$rest $it" ;;
        esac
    done
    proving=$rest
    say "$1 is proved, $(($(date +%s) - began)) s after the start; $left to go"
}

# Proves all crates, each as soon as it can, side by side. The first that fails ends all.
prove_all() {
    ends=$folder/out/ends
    if ! { rm -f "$ends" && mkfifo "$ends" && exec 3<>"$ends" && rm "$ends"; }; then not_written "$folder/out"; fi
    waiting=$(most_needed_first)
    left=$(echo "$waiting" | wc -l)
    proving='' proved='' running='' busy=0
    cores=$(nproc)
    [ "$cores" -le 4 ] || cores=4
    while [ "$left" -gt 0 ]; do
        start_ready
        read -r crate end <&3
        [ "$end" = proved ] || failed "$crate"
        is_done "$crate"
    done
    rm -rf "$folder/out/rooms"
    [ -x "$program" ] || failed gaslab_program
}

need_disk() {
    [ -d "$folder/out/rooms" ] || [ -f "$mark" ] || [ "$(free_disk)" -ge $disk ] ||
        stop "a build needs $((disk / 1000000)) GB of disk, and there are $(($(free_disk) / 1000)) MB. Free some, and run ./gaslab --build again"
}

# Proves and builds the program for these processors.
build() {
    cpu=$1
    need_kit
    if is_built && [ "$(noted cpu)" = "$cpu" ]; then
        say "nothing to do: the program for $cpu is built from the present sources: $program"
        return
    fi
    need_disk
    if ! { mkdir -p "$folder/out" && rm -f "$mark" "$program"; }; then not_written "$folder/out"; fi
    on_signals cut_off
    began=$(date +%s)
    before=$(sources_sum)
    say "proving $(with_below gaslab_program | wc -l) crates and building the program for $cpu. The log of each is its out/build.log"
    prove_all
    [ "$(sources_sum)" = "$before" ] || stop "a source was changed meanwhile. Run ./gaslab --build again: it keeps what is proved so far"
    if ! { note_build "$cpu" "$before" && is_built; }; then not_written "$mark"; fi
    on_signals -
    say "built in $(($(date +%s) - began)) s. ./gaslab now starts at once"
}

# Builds the program for the processors that these words name, or for this one.
build_as_asked() {
    take rooms
    asked_cpu "$@" || stop "--build takes --cpu x86-64-v2 or --cpu x86-64-v3, or nothing"
    runs_here "${asked:?}" || stop "this processor can't run a program for $asked: use --cpu x86-64-v2"
    build "$asked"
}
