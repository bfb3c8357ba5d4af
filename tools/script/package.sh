# shellcheck shell=sh
# Packs the proved program with all that somebody without the kit needs.
: "${here:?}" "${folder:?}" "${program:?}" "${mark:?}" "${parts:?}"

# The section of README.md that says what is proved, under a heading that says of which program.
write_proved() {
    echo "# What is proved of this program"
    echo
    echo "gaslab $(noted version) for $1, commit $(noted commit), proved with $(noted kit)."
    echo
    sed -n '/^## What is proved$/,/^## /{/^## /d;p;}' "$here/README.md"
    echo "The functions and documents that are named here are in the repository, at that commit."
}

# Writes the pages that come from the program's help. What is packed for other processors may not run here.
write_pages() {
    pages=$1/lib/pages
    "$here/tools/help_pages" --version "$(noted version)" "$program" "$pages" || stop "the man page can't be written to $pages"
}

# Compiles the proved program for other processors. rt begins with what the build kept, so nothing is proved again. That it runs
# here is not asked.
compile_for() {
    need_kit
    [ -d "$folder/out/incremental" ] || stop "to pack for $1, the program has to be built by ./gaslab --build --cpu $1"
    say "compiling the proved program for $1: about a minute"
    room=$folder/out/rooms/$1
    log=$room.log
    packed=$room/crates/gaslab_program/out/gaslab_program
    if ! { rm -rf "$room" && mkdir -p "$room"; }; then not_written "$room"; fi
    (furnish_program && cd "$room/crates/gaslab_program" && exec rt run --cpu="$1" -- run) >"$log" 2>&1 </dev/null &
    child=$!
    wait "$child"
    child=''
    if [ ! -x "$packed" ] || ! grep -q '^crate gaslab_program: .*checked=0$' "$log" || ! grep -q " cpu=$1 " "$log"; then
        tail -n 8 "$log" >&2
        stop "the program was not compiled for $1. The lines above say why"
    fi
}

# Finds or compiles the proved program for these processors: its path is then `packed`.
need_program_for() {
    is_built || stop "the program is not built from the present sources: run ./gaslab --build first"
    packed=$program
    if [ "$(noted cpu)" != "$1" ]; then compile_for "$1"; fi
}

# Copies that program, and what is noted of it.
copy_program() {
    cp "$packed" "$2" && { sed "s/^cpu .*/cpu $1/; /^program /d" "$mark" && echo "program $(sum_of "$2")"; } >"$2.mark"
}

# Copies the Python client, without its tests and what Python keeps. Its link to the lessons becomes a folder.
copy_client() {
    mkdir -p "$1/clients" && cp -RL "$here/clients/python" "$1/clients/" || return
    rm -rf "$1/clients/python/tests"
    find "$1/clients/python" \( -name __pycache__ -o -name '*.egg-info' -o -name build \) -prune -exec rm -rf {} +
}

# Writes the sums of the files in a folder, beside them.
write_sums() {
    (cd "$1" && find . -type f | LC_ALL=C sort | xargs -d '\n' sha256sum) >"$1.sums" && mv "$1.sums" "$1/SHA256SUMS"
}

# Copies to a new folder what a package has, for these processors.
stage() {
    to=$2
    # PROVED.md comes from there
    grep -q '^## What is proved$' "$here/README.md" &&
        mkdir -p "$to/lib" "$to/docs" &&
        cp "$here/gaslab" "$here/gaslab.html" "$here/CHANGELOG.md" "$to/" &&
        cp "$here/LICENSE-MIT" "$here/LICENSE-APACHE" "$here/NOTICE" "$to/" &&
        cp "$parts/sources.sh" "$parts/run.sh" "$parts/help.sh" "$parts/install.sh" "$to/lib/" &&
        cp "$here/docs/FORMATS.md" "$here/docs/CLASS.md" "$here/docs/TEACH.md" "$here/docs/GAS.md" "$to/docs/" &&
        cp "$here/docs/PACKAGE.md" "$to/README.md" &&
        cp -RL "$here/examples" "$to/" &&
        copy_client "$to" &&
        copy_program "$1" "$to/lib/gaslab_program" &&
        write_proved "$1" >"$to/PROVED.md" &&
        write_pages "$to" &&
        write_sums "$to" &&
        chmod -R u=rwX,go=rX,a-st "$to"
}

# Packs a folder of that name, in a folder, so that the same files give the same bytes.
pack() {
    tar -C "$1" --sort=name --owner=0 --group=0 --numeric-owner --mtime='2000-01-01 00:00Z' -cf "$1/tar" "$2" &&
        gzip -9n <"$1/tar" >"$drafts/$2.tar.gz"
}

# Puts what was made into the current folder.
put_packages() {
    chmod 644 "$drafts"/* || return
    on_signals ''
    for made in "$drafts"/*; do mv -T "$made" "./${made##*/}" || return; done
}

# Takes away all that packing made, but the packages.
clear_packing() {
    if [ -n "$child" ]; then kill "$child" 2>/dev/null && wait "$child"; fi
    rm -rf "$staged" "$drafts" "$room" "$log"
    rmdir "$folder/out/rooms" 2>/dev/null
}

# Packs the program for the processors that these words name, or for x86-64-v2, into files in the current folder. A wheel has no
# tag for processors, so there is one for x86-64-v2 alone, which every machine runs.
package_as_asked() {
    take rooms
    take wheel
    asked=x86-64-v2
    [ $# = 0 ] || asked_cpu "$@" || stop "--package takes --cpu x86-64-v2 or --cpu x86-64-v3, or nothing"
    umask 022
    child='' staged='' drafts='' room='' log=''
    clear_by clear_packing
    [ "$asked" != x86-64-v2 ] || need_wheel_tools
    need_program_for "$asked"
    name=gaslab-$(noted version)-$asked
    staged=$(mktemp -d) || not_written "${TMPDIR:-/tmp}"
    stage "$asked" "$staged/$name" || not_written "$staged"
    drafts=$(mktemp -d ./.gaslab.XXXXXX) || not_written "$PWD"
    pack "$staged" "$name" || not_written "$name.tar.gz"
    [ "$asked" != x86-64-v2 ] || make_wheel "$staged/$name" "$staged/wheel"
    names=$(ls "$drafts")
    put_packages || not_written "$PWD"
    # shellcheck disable=SC2086 # names of packages are words
    sha256sum $names
}
