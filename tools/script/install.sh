# shellcheck shell=sh
# Installs the proved program, with all that a package has, under a prefix.
: "${here:?}"
page_places='share/man/man1/gaslab.1 share/bash-completion/completions/gaslab share/zsh/site-functions/_gaslab
    share/fish/vendor_completions.d/gaslab.fish'
# what is put under the prefix
places="share/gaslab bin/gaslab $page_places"

# Reads the prefix among these words, and whether files of others may be replaced.
read_prefix() {
    force=
    if [ "${1-}" = --force ]; then
        force=1
        shift
    fi
    if [ $# != 1 ] || [ -z "${1##-*}" ]; then stop "--install takes a folder, as in --install ~/.local"; fi
    # (what $() gives loses newlines at its end)
    prefix=$(readlink -m -- "$1" && echo .)
    prefix=${prefix%??}
    [ -n "$prefix" ] || not_written "$1"
}

# The first file in a folder, or in parts of it, that its sums don't name. Python keeps its own there: unlisted FOLDER PARTS..
unlisted() {
    (
        cd "$1" && shift && find "$@" -name __pycache__ -prune -o ! -type d -print |
            grep -vxF -e ./SHA256SUMS -e "$(cut -c67- SHA256SUMS)" | head -n 1
    )
}

# Whether this package is as it was packed. Somebody's files beside its own don't matter.
is_as_packed() {
    (cd "$here" && sha256sum -c --quiet --strict SHA256SUMS) >/dev/null 2>&1 && [ -z "$(unlisted "$here" ./gaslab ./lib)" ]
}

# Stops if there is nothing to install, or this script is what is installed there.
need_installable() {
    case $here/ in "$(readlink -m -- "$prefix/share/gaslab")"/*) stop "this is what is installed under $prefix" ;; esac
    if is_package; then
        is_as_packed ||
            stop "this package was changed: unpack it again. 'sha256sum -c --quiet SHA256SUMS' in $here says where"
    else
        take package
        need_program_for "$(noted cpu)"
    fi
}

# Copies to a new folder the files that this package was packed with.
copy_package() {
    mkdir "$1" && (cd "$here" && { cut -c67- SHA256SUMS && echo SHA256SUMS; } | xargs -d '\n' cp --parents -t "$1") &&
        chmod -R u=rwX,go=rX,a-st "$1"
}

# The page of a package that is put at a place.
page_of() {
    case $1 in
    share/bash-completion/*) echo gaslab.bash ;;
    *) echo "${1##*/}" ;;
    esac
}

# Makes in a new folder all that is put under the prefix.
make_installation() {
    for place in $places; do mkdir -p "$1/${place%/*}" || return; done
    if is_package; then copy_package "$1/share/gaslab"; else stage "$(noted cpu)" "$1/share/gaslab"; fi || return
    target=../share/gaslab/gaslab
    [ ! -L "$prefix/bin" ] || target=$prefix/share/gaslab/gaslab
    ln -s "$target" "$1/bin/gaslab" || return
    for place in $page_places; do cp "$1/share/gaslab/lib/pages/$(page_of "$place")" "$1/$place" || return; done
}

# Whether something is at a path, be it a link to nothing.
is_there() { [ -e "$1" ] || [ -L "$1" ]; }

# Stops if a folder is no installation, or has a file that isn't of the installation.
need_own_folder() {
    if [ -d "$1/crates" ] || [ ! -f "$1/SHA256SUMS" ] || ! grep -qs '^program ' "$1/lib/gaslab_program.mark"; then
        stop "$1 is a folder that --install did not make, so it stays. Move it, or install to another folder"
    fi
    other=$(unlisted "$1" .)
    [ -z "$other" ] || stop "$1 has a file that --install did not put there: ${other#./}. Move it, and run this again"
}

# Whether the file at a place is of an installation: the link to it, or a copy of its page.
is_own_file() {
    at=$prefix/$1
    case $1 in
    share/gaslab) return 1 ;;
    bin/gaslab) [ -L "$at" ] && [ "$(readlink -m "$at")" = "$(readlink -m "$prefix/share/gaslab")/gaslab" ] ;;
    *) [ ! -L "$at" ] && { cmp -s "$at" "$prefix/share/gaslab/lib/pages/$(page_of "$1")" || cmp -s "$at" "$new/made/$1"; } ;;
    esac
}

# Stops if what is at a place may not be replaced.
need_own() {
    at=$prefix/$1
    if [ -d "$at" ] && [ ! -L "$at" ]; then
        [ "$1" = share/gaslab ] || stop "$at is a folder, so it stays. Move it, or install to another folder"
        need_own_folder "$at"
    elif [ -z "$force" ] && is_there "$at" && ! is_own_file "$1"; then
        stop "$at is a file that --install did not put there. Move it, or replace it by --install --force"
    fi
}

# Makes a folder under the prefix, and notes how many of its parents were missing.
make_folder() {
    at=$prefix/$1 count=0
    while [ -n "$at" ] && [ ! -d "$at" ]; do at=${at%/*} count=$((count + 1)); done
    missing="$count:$1 $missing"
    mkdir -p "$prefix/$1" 2>/dev/null || not_written "$prefix/$1"
}

# Removes the folders that were missing, the last first.
remove_folders() {
    for it in $missing; do
        at=$prefix/${it#*:} count=${it%%:*}
        while [ "$count" -gt 0 ]; do
            rmdir "$at" 2>/dev/null
            at=${at%/*} count=$((count - 1))
        done
    done
}

# Puts all at its places. What was there is kept until all is there.
put_in_place() {
    on_signals ''
    for place in $places; do
        mkdir -p "$new/old/${place%/*}" || return
        if is_there "$prefix/$place"; then mv -T "$prefix/$place" "$new/old/$place" || return; fi
        mv -T "$new/made/$place" "$prefix/$place" || return
        put="$put $place"
    done
}

# Takes the new things away, and puts back what was there.
put_back() {
    for place in $put; do rm -rf "${prefix:?}/$place"; done
    for place in $places; do
        if is_there "$new/old/$place" && ! mv -T "$new/old/$place" "$prefix/$place"; then
            say "$prefix/$place can't be put back: it is now $new/old/$place"
            return 1
        fi
    done
    rm -rf "$new"
}

# Leaves everything as it was before a failed installation.
undo_installation() {
    on_signals ''
    if [ -z "$new" ] || put_back; then remove_folders; fi
}

# Installs under the prefix that is named, in place of an older version.
install_as_asked() {
    read_prefix "$@"
    need_installable
    umask 022
    new='' missing='' put=''
    clear_by undo_installation
    make_folder share
    new=$(mktemp -d "$prefix/share/.gaslab.XXXXXX" 2>/dev/null) || not_written "$prefix/share"
    make_installation "$new/made" || not_written "$prefix/share"
    for place in $places; do need_own "$place"; done
    for place in $places; do make_folder "${place%/*}"; done
    put_in_place || not_written "$prefix/$place"
    trap - EXIT
    rm -rf "$new"
    say "installed as $prefix/bin/gaslab"
}
