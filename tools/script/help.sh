# shellcheck shell=sh
# The program's help, and the words that the script takes.
: "${program:?}" "${parts:?}"

# Whether the words ask for help and nothing else.
asks_for_help() {
    case "$*" in
    --help | -h | help | "run --help" | "run -h" | "help run" | "serve --help" | "serve -h" | "help serve") return 0 ;;
    *) return 1 ;;
    esac
}

help_of_script() {
    echo
    echo 'The script gaslab takes these too:'
    is_package || cat <<'END_OF_HELP'
  --build            Proves and builds the program. After that it starts at once.
                     It is built for this processor; --build --cpu x86-64-v2 builds it for any
  --test [CRATE..]   Compiles the tests and runs them, unproved, with checks while they run
  --package          Packs the proved program for machines without the kit, as gaslab-VERSION-x86-64-v2.tar.gz, and as
                     a wheel for pip. --package --cpu x86-64-v3 packs it for newer processors, without a wheel
  --verbose ..       Before other words: shows what the compiler says
END_OF_HELP
    cat <<'END_OF_HELP'
  --is-built         Says whether the program is built. Status 0: from these sources, 1: from others, 2: not built
                     --is-built --path prints where the proved program is, if it is built from these sources
END_OF_HELP
    [ ! -f "$parts/install.sh" ] || cat <<'END_OF_HELP'
  --install PREFIX   Installs the proved program as PREFIX/bin/gaslab, with its man page, lessons and completions.
                     --install --force PREFIX also replaces files that it did not install, but no folder
END_OF_HELP
    cat <<'END_OF_HELP'
  --version          Says the version, the commit and the kit
Exit status 6: there was no program to run.
END_OF_HELP
}

# The program says its help on standard error, with status 2. Here it goes to standard output, with status 0.
show_help() {
    if is_built; then
        shows=$program
    elif is_package; then
        stop "$(tell_state)"
    else
        take run
        take unproved
        need_unproved
        shows=${kept:?}
    fi
    told=$("$shows" "$@" 2>&1 </dev/null)
    status=$?
    if [ $status != 2 ]; then
        printf '%s\n' "$told" >&2
        exit $status
    fi
    printf '%s\n' "$told" || exit 1
    case $1 in
    run | serve | help) ;;
    *) help_of_script ;;
    esac
}
