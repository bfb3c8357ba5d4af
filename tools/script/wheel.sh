# shellcheck shell=sh
# Makes the wheel: the Python client with the proved program in it.
: "${here:?}" "${drafts=}"

# Whether a Python can make wheels. (setuptools does it alone since 70.1.)
makes_wheels() {
    "$1" -c 'import setuptools.command.bdist_wheel' 2>/dev/null || "$1" -c 'import setuptools, wheel' 2>/dev/null
}

# Stops unless there is what a wheel is made with. Debian's packages are for /usr/bin/python3, which another may hide.
need_wheel_tools() {
    command -v objdump >/dev/null 2>&1 || stop "objdump was not found, which the wheel needs: apt-get install binutils"
    for python in python3 /usr/bin/python3; do if makes_wheels "$python"; then return; fi; done
    stop "no setuptools was found, which the wheel needs: apt-get install python3-setuptools python3-wheel"
}

# The tag of the systems on which a program runs: those whose C library has the newest version that a symbol of it needs.
platform_of() {
    newest=$(objdump -T "$1" | sed -n 's/.*GLIBC_2\.\([0-9]*\).*/\1/p' | sort -n | tail -n 1)
    [ -n "$newest" ] && echo "manylinux_2_${newest}_x86_64"
}

# Copies from a package to a new folder what the wheel is made of: stage_wheel PACKAGE FOLDER
stage_wheel() {
    own=$2/gaslab/program
    cp -R "$1/clients/python" "$2" && cp -R "$1/examples" "$2/gaslab/lessons" && mkdir -p "$own/lib" && cp "$1/gaslab" "$1/PROVED.md" "$own/" || return
    for it in sources.sh run.sh help.sh gaslab_program gaslab_program.mark; do cp "$1/lib/$it" "$own/lib/" || return; done
    platform_of "$own/lib/gaslab_program" >"$own/platform" || return
    for it in LICENSE-MIT LICENSE-APACHE NOTICE; do [ ! -f "$here/$it" ] || cp "$here/$it" "$2/" || return; done
    chmod -R u=rwX,go=rX,a-st "$2"
}

# Makes the wheel of a package, so that the same files give the same bytes: make_wheel PACKAGE FOLDER
make_wheel() {
    stage_wheel "$1" "$2" || not_written "$2"
    made=$(readlink -f "$drafts") || not_written "$drafts"
    said=$2.log
    if ! (cd "$2" && SOURCE_DATE_EPOCH=946684800 exec "$python" -c 'import sys, setuptools.build_meta
setuptools.build_meta.build_wheel(sys.argv[1])' "$made") >"$said" 2>&1 </dev/null; then
        tail -n 8 "$said" >&2
        stop "the wheel was not made. The lines above say why"
    fi
}
