# shellcheck shell=sh
# Compiles the tests and runs them, unproved, side by side.
: "${here:?}"

# The crates that have tests, those first whose tests take longest to compile.
test_crates() {
    sed -n 's/^\([a-z][a-z_]*\):.*/\1/p' "$here/crates.txt" | while read -r crate; do
        if grep -rqs '^ *#\[test\]' "$here/crates/$crate/src"; then
            echo "$(with_below "$crate" | wc -l) $crate"
        fi
    done | sort -rn | sed 's/.* //'
}

# Takes three tests out of this copy of the sources, which are left to the gate: with checks, one that makes 2^24 reads and two
# that wait until they see no thread but their own take many minutes.
without_long_tests() {
    grep -rlE '^fn (too_many_reads|(server_)?workers_are_threads)\(' src | while read -r file; do
        awk '
            skipped { skipped = $0 != "}"; next }
            /^(#\[test\]$|\/\/\/)/ { held = held $0 "\n"; next }
            held && /^fn (too_many_reads|(server_)?workers_are_threads)\(/ { held = ""; skipped = 1; next }
            { printf "%s", held; held = ""; print }' "$file" >"$room/file" && mv "$room/file" "$file" || return
    done
}

# Compiles and runs the tests of a crate, in a room of its own, and writes its name to the pipe of ends.
test_crate() {
    trap 'kill "$child" 2>/dev/null; exit 1' TERM
    room=$rooms/$1
    {
        gather "$1" && cd "$room/crates/$1" && without_long_tests && {
            rt try --test --seconds 600 3>&- &
            child=$!
            wait "$child"
        }
    } >"$rooms/$1.log" 2>&1 </dev/null
    echo "$1" >&3
}

tests_cut_off() {
    on_signals -
    # shellcheck disable=SC2086 # numbers of processes are words
    kill $running 2>/dev/null
    wait
    rm -rf "$rooms"
    say "the tests were cut off"
    exit 1
}

# Says how the tests of a crate went, and counts them.
count_tests() {
    log=$rooms/$1.log
    counts=$(sed -n 's/^test result: .* \([0-9]*\) passed; \([0-9]*\) failed;.*/\1 \2/p' "$log")
    if [ -z "$counts" ]; then
        say "the tests of $1 were not compiled, or did not run:"
        tail -n 8 "$log" >&2
        counts='0 1'
    elif [ "${counts#* }" != 0 ]; then
        grep -v -e ' \.\.\. ok$' "$log" >&2
    fi
    passed=$((passed + ${counts% *}))
    failed=$((failed + ${counts#* }))
    say "$1: ${counts% *} passed, ${counts#* } failed, $(($(date +%s) - began)) s after the start"
}

# Tests these crates side by side, each as soon as a core is idle.
test_all() {
    cores=$(nproc)
    [ "$cores" -le 4 ] || cores=4
    busy=0 passed=0 failed=0 running=''
    began=$(date +%s)
    while [ $# -gt 0 ] || [ $busy -gt 0 ]; do
        if [ $# -gt 0 ] && [ $busy -lt "$cores" ]; then
            test_crate "$1" &
            running="$running $!"
            busy=$((busy + 1))
            shift
        else
            read -r crate <&3
            busy=$((busy - 1))
            count_tests "$crate"
        fi
    done
}

# Runs the tests of all crates that have some, or of those named, and says how many passed.
run_tests() {
    take rooms
    need_kit
    for name in "$@"; do
        test_crates | grep -qx -e "$name" || stop "$name is no crate with tests. These are: $(test_crates | xargs)"
    done
    # shellcheck disable=SC2046 # names of crates are words
    [ $# -gt 0 ] || set -- $(test_crates)
    rooms=$(mktemp -d) || not_written "${TMPDIR:-/tmp}"
    if ! { mkfifo "$rooms/ends" && exec 3<>"$rooms/ends"; }; then not_written "$rooms"; fi
    on_signals tests_cut_off
    say "compiling and running the tests of $*"
    say "they are NOT PROVED, and run with checks. 'too_many_reads', 'workers_are_threads' and 'server_workers_are_threads' are left to the gate"
    test_all "$@"
    on_signals -
    rm -rf "$rooms"
    echo "$passed passed, $failed failed"
    [ $failed = 0 ]
}
