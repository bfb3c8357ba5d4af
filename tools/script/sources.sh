# shellcheck shell=sh
# What the program is made from, and whether it is built from that. `here` is the repository's folder, or a package's.
: "${here:?}"

if [ -d "$here/crates" ]; then
    folder=$here/crates/gaslab_program
    program=$folder/out/gaslab_program
else
    folder=$here/lib
    program=$folder/gaslab_program
fi
# what is noted of a build, each as NAME VALUE: version, cpu, sources, program, kit, commit
mark=$program.mark

# the signals that end a script and that it can catch, but for those of its own faults
signals='HUP INT QUIT PIPE ALRM TERM USR1 USR2 XCPU VTALRM PROF'

# (echo of some shells reads backslashes in names)
say() { printf 'gaslab: %s\n' "$*" >&2; }

stop() {
    say "$*"
    exit 6
}

# Prints a line of an answer on standard output.
tell() { printf '%s\n' "$*" || not_written 'standard output'; }

not_written() { stop "$1 can't be written. Free disk space or allow writing there, and run this again"; }

# Says what each signal does that ends this script: a command, nothing if that is empty, or what is usual if it is -.
on_signals() {
    # shellcheck disable=SC2064,SC2086 # the command is that of now, and names of signals are words
    trap "$1" $signals
}

# Has a function take away, when this script ends, what was made until then. Each signal that ends it does so by this.
clear_by() {
    # shellcheck disable=SC2064 # the function is that of now
    trap "$1" EXIT
    on_signals 'stop "interrupted, and nothing is left of it: run this again"'
}

need_kit() {
    command -v rt >/dev/null 2>&1 ||
        stop "the command rt was not found. Install the Rattle kit and put its bin folder on the PATH: 'rt version' then prints a line"
}

is_package() { [ ! -d "$here/crates" ]; }

# The crates that a crate stands on, each after those that it uses, and the crate itself last.
with_below() {
    awk -F: -v name="$1" '
        /^[a-z]/ { sub(/ .*/, "", $1); uses[$1] = $2 }
        function list(name,   i, n, below) {
            if (!(name in uses) || listed[name]++) return
            n = split(uses[name], below, " ")
            for (i = 1; i <= n; i++) list(below[i])
            print name
        }
        END { list(name) }' "$here/crates.txt"
}

# The files that these crates are proved from, in the repository's folder.
sources_of() {
    for crate in "$@"; do echo "crates/$crate/src" "crates/$crate/specs" "crates/$crate/proofs"; done |
        xargs sh -c 'find "$@" -type f 2>/dev/null' find
}

sum_of() { sha256sum <"$1" | cut -d' ' -f1; }

# A sum over the names and contents of the files that the program is made from, wherever the repository is.
sources_sum() {
    (
        cd "$here" || exit
        # shellcheck disable=SC2046 # names of crates are words
        { echo crates.txt && sources_of $(with_below gaslab_program); } | LC_ALL=C sort | xargs sha256sum
    ) | sum_of /dev/stdin
}

# The processors that this one belongs to: x86-64-v3 has AVX2 and what came with it.
this_cpu() {
    flags=$(sed -n '/^flags/{p;q;}' /proc/cpuinfo)
    for flag in avx2 bmi1 bmi2 fma f16c movbe abm; do
        case "$flags " in *" $flag "*) ;; *) echo x86-64-v2 && return ;; esac
    done
    echo x86-64-v3
}

# Whether a program for these processors runs on this one.
runs_here() { [ "$1" = x86-64-v2 ] || [ "$1" = "$(this_cpu)" ]; }

# What is noted under a name of the program that is built.
noted() { sed -n "s/^$1 //p" "$mark" 2>/dev/null; }

# Returns 0 if the program is built from the sources as they are, 1 if from others, 2 if there is none.
built_state() {
    if [ ! -x "$program" ] || [ ! -f "$mark" ]; then return 2; fi
    [ "$(noted program)" = "$(sum_of "$program")" ] || return 1
    is_package || [ "$(noted sources)" = "$(sources_sum)" ] || return 1
}

# Whether the program is built from the sources as they are, and runs on this processor.
is_built() { built_state && runs_here "$(noted cpu)"; }

# Says in a line on standard output whether the program is built, and tells it by the status too.
tell_state() {
    built_state
    state=$?
    if [ $state = 0 ] && ! runs_here "$(noted cpu)"; then state=3; fi
    # a wheel's folder has this file
    if [ -f "$here/platform" ]; then afresh='install the wheel again'; else afresh='unpack the package again'; fi
    case $state in
    0) tell "built from these sources for $(noted cpu), proved at commit $(noted commit)" && return ;;
    1) said='built from other sources' again="the program was changed since: $afresh" ;;
    2) said='not built' again="the program is missing: $afresh" ;;
    3) said="not built for this processor, but for $(noted cpu)" again="$said: use the package for x86-64-v2" state=2 ;;
    esac
    if is_package; then tell "$again"; else tell "$said: run ./gaslab --build"; fi
    return $state
}

# Says whether the program is built. With --path it prints where that is, and says on standard error why there is none.
is_built_as_asked() {
    case "$#:${1-}" in
    0:) tell_state ;;
    1:--path)
        if is_built; then tell "$program" && return; fi
        tell_state >&2
        ;;
    *) stop "--is-built takes --path, or nothing" ;;
    esac
}

# The version: the first heading of CHANGELOG.md.
version() { sed -n 's/^## \([0-9][0-9.]*\).*/\1/p' "$here/CHANGELOG.md" | head -n 1; }

# The commit that the sources are at, if they are in a repository, and whether they were changed since.
commit() {
    at=$(git -C "$here" rev-parse --short=12 HEAD 2>/dev/null) || { echo unknown && return; }
    git -C "$here" diff --quiet HEAD -- crates crates.txt 2>/dev/null || at="$at with changes"
    echo "$at"
}

# The version, the commit and the kit: of the program if it is built, and else of these files.
tell_version() {
    if is_package || is_built; then
        echo "gaslab $(noted version) (commit $(noted commit), $(noted kit))"
    else
        kit=$(rt version 2>/dev/null) || kit="no kit"
        echo "gaslab $(version) (commit $(commit), $kit; not built)"
    fi
}

# Notes what the program that was just made was made from: for these processors, and from sources of this sum.
note_build() {
    cat >"$mark.new" <<END_OF_MARK && mv "$mark.new" "$mark"
version $(version)
cpu $1
sources $2
program $(sum_of "$program")
kit $(rt version)
commit $(commit)
END_OF_MARK
}
