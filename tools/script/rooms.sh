# shellcheck shell=sh
# A room: a repository of its own for a crate, of links. `rt` lets one command at a time into a crate's folder and those below
# it, so crates that use the same ones could not be proved side by side.
: "${here:?}" "${room=}"

# The processors that the words --cpu NAME name, or without words these: asked_cpu WORDS.. sets `asked`.
asked_cpu() {
    case ${1-} in
    "") asked=$(this_cpu) ;;
    --cpu=*) asked=${1#--cpu=} ;;
    --cpu) asked=${2-} ;;
    *) return 1 ;;
    esac
    case $asked in x86-64-v2 | x86-64-v3) ;; *) return 1 ;; esac
}

# Copies a folder by links if the file system has them.
link_folder() { cp -Rl "$1" "$2" 2>/dev/null || { rm -rf "$2" && cp -R "$1" "$2"; }; }

# Makes a crate's room, in $room: its files, and what those below it were built to.
gather() {
    mkdir -p "$room" && cp "$here/HANDLES" "$room" && : >"$room/crates.txt" || return
    for part in $(with_below "$1"); do
        from=$here/crates/$part
        to=$room/crates/$part
        grep "^${part}[ :]" "$here/crates.txt" >>"$room/crates.txt" || return
        rm -rf "$to/src" "$to/specs" "$to/proofs" "$to/out/rlib" && mkdir -p "$to/out" || return
        for it in src specs proofs out/rlib; do
            [ ! -e "$from/$it" ] || link_folder "$from/$it" "$to/$it" || return
        done
    done
}

# Makes a room for a crate's build: the same, with what an earlier build or somebody's checks kept of the crate itself, unless it
# is there. The file `kept` tells that something was kept.
furnish() {
    gather "$1" || return
    [ -e "$from/out/incremental" ] || return 0
    : >"$room/kept"
    [ -e "$to/out/incremental" ] || mv "$from/out/incremental" "$to/out/"
}

# Makes a room for the program, which is as it was built, with what the build kept of it.
furnish_program() { gather gaslab_program && link_folder "$from/out/incremental" "$to/out/incremental"; }
