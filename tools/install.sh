#!/bin/sh
# install.sh [--fast] PREFIX: proves and builds the C library and the programs, and installs them in the folder PREFIX,
# or, if DESTDIR is set, in $DESTDIR$PREFIX:
#
#     include/nlroute*.h         the headers
#     lib/libnlroute.a           the library, with what it needs of the kit's archives. Only nlroute_* are global names
#     lib/libnlroute.so          the same as a shared object. This is a link; the name that programs load has the major
#                                and minor version
#     lib/pkgconfig/nlroute.pc   finds the other files from its own place: the tree can be moved
#     bin/                       the programs nlroute and nlshow
#     share/man/                 the man pages nlroute(1), nlshow(1) and nlroute(3)
#     share/jq/nlshow.jq         functions for jq, which reads what `nlshow --format json` prints
#
# LIBDIR names another folder of PREFIX for the library, as lib64 or lib/x86_64-linux-gnu.
#
# With --fast the builds are those of bench/unproved.py: they take four to five minutes, and nothing of them is proved.
# Otherwise the first call takes half an hour or more. If a build fails, nothing is installed.
# It needs ld, objcopy and ar of Debian's package binutils, and git, which names the commit.
#
# Each binary has a mark: version, `proved` or `unproved`, commit (with `+changes` if files of the tree differ) and kit.
# `readelf -p .note.nlroute FILE` prints it for the libraries, for bin/ and for programs with the static library.
# nlroute_build() returns it, `pkg-config --variable=build nlroute` prints it. It is a label: whoever builds can write any.
#
# If NLROUTE_BUILT names a folder with libnlroute_ffi.a, nlroute and nlshow, these are installed, and nothing is built.
# Nobody knows whether they are proved, so they are marked `unproved`.
set -eu

usage() {
    echo "usage: tools/install.sh [--fast] PREFIX" >&2
    exit 2
}

fast=
if [ "${1-}" = --fast ]; then
    fast=yes
    shift
fi
[ $# = 1 ] || usage
[ -z "${NLROUTE_BUILT-}" ] || fast=yes
case $1 in
'' | -*) usage ;;
/*) into=${DESTDIR-}$1 ;;
*)
    if [ -n "${DESTDIR-}" ]; then
        echo "install.sh: with DESTDIR, PREFIX has to start with a slash" >&2
        exit 2
    fi
    into=$PWD/$1
    ;;
esac
libdir=${LIBDIR-lib}
case /$libdir/ in
// | *//* | */./* | */../*)
    echo "install.sh: LIBDIR has to be a folder of PREFIX, such as lib64" >&2
    exit 2
    ;;
esac
cd "$(dirname "$0")/.."
kit=$(dirname "$(rt doc)")
room=$(mktemp -d)
trap 'rm -rf "$room"' EXIT
trap 'exit 1' INT TERM

number=$(sed -n 's/^#define NLROUTE_VERSION \(0x[0-9A-Fa-f]*\)u$/\1/p' crates/nlroute_ffi/include/nlroute.h)
name=libnlroute.so.$((number >> 16)).$((number >> 8 & 255))
version=$((number >> 16)).$((number >> 8 & 255)).$((number & 255))
commit=unknown
if [ -e .git ] && head=$(git rev-parse HEAD 2>/dev/null); then
    commit=$head
    [ -z "$(git status --porcelain)" ] || commit=$commit+changes
fi
mark="nlroute $version, ${fast:+un}proved, commit $commit, $(rt version)"

# Builds the three crates, and copies the results to $room.
build() {
    [ -z "$fast" ] || echo "install.sh: unproved build: nothing of it is proved" >&2
    if [ -n "${NLROUTE_BUILT-}" ]; then
        cp "$NLROUTE_BUILT/libnlroute_ffi.a" "$NLROUTE_BUILT/nlroute" "$NLROUTE_BUILT/nlshow" "$room"
    elif [ -n "$fast" ]; then
        for crate in nlroute_ffi nlroute nlshow; do
            bench/unproved.py "crates/$crate" >&2
        done
        cp bench/out/libnlroute_ffi.a bench/out/nlroute bench/out/nlshow "$room"
    else
        # `rt run` proves and builds a program, and runs it: here, without input
        (cd crates/nlroute_ffi && rt lib) >&2
        (cd crates/nlroute && rt run -- dsa) </dev/null >/dev/null
        (cd crates/nlshow && rt run) </dev/null >/dev/null
        cp crates/nlroute_ffi/out/libnlroute_ffi.a crates/nlroute/out/nlroute crates/nlshow/out/nlshow "$room"
    fi
}

# Writes the mark in assembly: an ELF note, and the function that returns its text.
write_mark() {
    cat <<END
    .section .note.nlroute,"a",@note
    .balign 4
    .long 8, end - text, 1
    .asciz "nlroute"
text:
    .asciz "$mark"
end:
    .balign 4
    .section .text.nlroute_build,"ax",@progbits
    .globl nlroute_build
    .type nlroute_build,@function
nlroute_build:
    lea text(%rip), %rax
    ret
    .size nlroute_build, . - nlroute_build
    .section .note.GNU-stack,"",@progbits
END
}

# Makes one object of the three archives and the mark, which exports only nlroute_*, and from it the archive and the
# shared object. The compiler of this machine is not used: the shared object has no start files, and no .comment. Level
# x86-64-v2 is that of the code: the loader refuses the library on older processors, where it would end with SIGILL.
# (-z ibt would be false: few of the code's indirect jumps lead to an endbr64. -z shstk would be true, but nothing tests it.)
link() {
    write_mark >mark.s
    "$kit/toolchain/bin/clang" --no-default-config -c -o mark.o mark.s
    ld -r -z x86-64-v2 -o nlroute.o mark.o --whole-archive libnlroute_ffi.a --no-whole-archive \
        "$kit/c/libos_c.a" "$kit/c/liblibc_c.a"
    objcopy --remove-section=.comment --wildcard --keep-global-symbol='nlroute_*' nlroute.o
    ar rcsD libnlroute.a nlroute.o
    echo "NLROUTE_${version%.*} { global: nlroute_*; local: *; };" >exports
    ld -shared -o "libnlroute.so.$version" nlroute.o "$kit/toolchain/lib/libc.so.6" -soname "$name" \
        --version-script exports --gc-sections --build-id=sha1 --hash-style=gnu \
        -z defs -z relro -z now -z x86-64-v2
}

# Adds the mark to the programs. It is not loaded, so the bytes that run are those that were built.
mark_programs() {
    objcopy -O binary --only-section=.note.nlroute nlroute.o note
    for it in nlroute nlshow; do
        objcopy --add-section .note.nlroute=note --set-section-flags .note.nlroute=noload,readonly "$it"
    done
}

# Writes nlroute.pc.
describe() {
    cat <<END
prefix=\${pcfiledir}/../$(echo "$libdir" | sed 's,[^/]*,..,g')
includedir=\${prefix}/include
libdir=\${prefix}/$libdir
build=$mark

Name: nlroute
Description: Netlink link attributes, messages about links, and requests${fast:+ (unproved build)}
Version: $version
Cflags: -I\${includedir}
Libs: -L\${libdir} -lnlroute
END
}

# Installs files in a folder, with a mode.
put() {
    mode=$1 folder=$into/$2
    shift 2
    install -d -m 755 "$folder"
    install -m "$mode" "$@" "$folder"
}

build
(
    cd "$room"
    link
    mark_programs
    describe >nlroute.pc
)
put 644 include crates/nlroute_ffi/include/*.h
put 644 "$libdir" "$room/libnlroute.a"
put 755 "$libdir" "$room/libnlroute.so.$version"
ln -sf "libnlroute.so.$version" "$into/$libdir/$name"
ln -sf "$name" "$into/$libdir/libnlroute.so"
put 644 "$libdir/pkgconfig" "$room/nlroute.pc"
put 755 bin "$room/nlroute" "$room/nlshow"
put 644 share/man/man1 docs/nlroute.1 docs/nlshow.1
put 644 share/man/man3 docs/nlroute.3
put 644 share/jq docs/nlshow.jq
echo "nlroute $version is installed in $into"
