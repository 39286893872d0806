# Sourced from the repository's root: which compiler and which way to run suit this machine, and how the archives are proved and
# built. They are for x86-64; elsewhere, or with FLYTEWOOD_EMULATED=1, programs are built for x86-64 and run by qemu. With
# FLYTEWOOD_ARCHIVE_DIR the archive of that folder is used as it is.

archive=${FLYTEWOOD_ARCHIVE_DIR:-target/staticlib}/libflytewood.a
archive_folder=$(realpath -m "$(dirname "$archive")")
c_warnings=(-std=c99 -Wall -Wextra -Wpedantic -Wconversion -Werror)

if [ "$(uname -m)" = x86_64 ] && [ "${FLYTEWOOD_EMULATED:-0}" != 1 ]; then
    emulated=''
    compiler=(cc)
    cpp_compiler=(g++)
    runner=()
else
    emulated=yes
    compiler=(x86_64-linux-gnu-gcc -static)
    cpp_compiler=(x86_64-linux-gnu-g++ -static)
    runner=(qemu-x86_64)
fi
# Debian's rustc has a library for x86-64 on a machine of any kind, which another one may lack.
rustc=${FLYTEWOOD_RUSTC:-/usr/bin/rustc}

# crates_are_newer ARCHIVE CRATE: whether a file of the crate, or of one that it uses, is newer than its archive. What rt makes
# in out/ does not count.
crates_are_newer() {
    local crate newer
    for crate in "$2" $(sed -nE "s/^$2( staticlib)?: *//p" crates.txt); do
        newer=$(find "crates/$crate" \( -name must-fail -o -name out \) -prune -o -type f -newer "$1" -print -quit)
        [ -z "$newer" ] || return 0
    done
    return 1
}

archive_is_ready() {
    [ -f "$archive" ] && { [ -n "${FLYTEWOOD_ARCHIVE_DIR:-}" ] || ! crates_are_newer "$archive" flytewood_c; }
}

# Ends with what is missing, if there is no archive and no way to build it. Scripts ask first of all.
need_kit() {
    archive_is_ready && return
    if [ -n "${FLYTEWOOD_ARCHIVE_DIR:-}" ]; then
        echo "missing: $archive" >&2
        exit 1
    fi
    if ! command -v rt >/dev/null; then
        echo "missing: rt, the Rattle kit's command, to prove the kernel and build $archive (README.md, \"What you need\")" >&2
        exit 1
    fi
}

# Builds the archive if it is missing or old.
need_archive() {
    need_kit
    archive_is_ready && return
    echo "proving the kernel and building $archive (minutes on a new machine; each crate is named once proved)" >&2
    build_archive flytewood_c
}

# name_proved: of what rt says, a line for each crate that is proved.
name_proved() {
    awk '/^crate [^ ]*:/ { crate = $2 } /^logic=proved/ { print crate, "proved"; fflush() }'
}

# build_archive CRATE: proves the crate and those that it uses, naming each, and builds target/staticlib/libCRATE.a; an ending _c
# of the crate's name is left out in the archive's.
build_archive() {
    local made=target/staticlib/lib${1%_c}.a log=target/staticlib/$1.log
    mkdir -p target/staticlib
    (cd "crates/$1" && rt lib) 2>&1 | tee "$log" | name_proved >&2 || {
        echo "$made could not be built; $log has what rt said" >&2
        exit 1
    }
    cp "crates/$1/out/lib$1.a" "$made"
}

# compile PROGRAM FLAG.. SOURCE..: with the helpers and the archive.
compile() {
    local program=$1
    shift
    "${compiler[@]}" "${c_warnings[@]}" -Iinclude "$@" include/flytewood_help.c "$archive" -o "$program"
}

run() { "${runner[@]}" "$@"; }
