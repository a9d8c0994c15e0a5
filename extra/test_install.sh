#!/bin/sh
# Tests tools/install.sh and extra/dist.sh, with an unproved build. Not part of CI, since it needs pkg-config. It takes
# four minutes. It needs what install.sh needs, cc, pkg-config, and GNU tar; man, jq, g++, clang and clang++ if they are
# there.
#
# It installs into a temporary folder, packs that, and unpacks it in another place. What is there is compiled with, run,
# formatted, and compared with the headers, as each function below says.
#
# Prints a line `ok ..` or `FAILED ..` for each test. The last line is 'N passed, M failed', and the status 0 only if
# nothing failed.
set -eu

cd "$(dirname "$0")/.."
. tools/counted.sh

# Compiles calls.c with compiler and flags $1, without warnings, and links it with the words after it. pkg-config gives
# several words.
compile() {
    compiler=$1
    shift
    # shellcheck disable=SC2046,SC2086
    $compiler -Wall -Wextra -pedantic -Werror -O2 -o "$room/calls" $(pkg-config --cflags nlroute) \
        crates/nlroute_ffi/examples/calls.c -x none "$@"
    readelf -d "$room/calls" >"$room/needed"
}

# calls.c with the archive. The program needs no shared object.
static() {
    compile "$1" -Wl,--wrap=malloc,--wrap=realloc "$tree/lib/libnlroute.a"
    if grep -q libnlroute "$room/needed"; then exit 1; fi
    "$room/calls"
}

# calls.c with the shared object, whose allocations --wrap does not reach: the program's own malloc() serves both.
shared() {
    # shellcheck disable=SC2046
    compile "$1" "$room/malloc.o" $(pkg-config --libs nlroute)
    grep -q "libnlroute.so.$series" "$room/needed"
    LD_LIBRARY_PATH=$tree/lib "$room/calls"
}

cc -c -O2 -fno-builtin -x c -o "$room/malloc.o" - <<'END'
#include <stddef.h>
void *__libc_malloc(size_t), *__libc_realloc(void *, size_t), *__wrap_malloc(size_t), *__wrap_realloc(void *, size_t);
void *__real_malloc(size_t size) { return __libc_malloc(size); }
void *__real_realloc(void *old, size_t size) { return __libc_realloc(old, size); }
void *malloc(size_t size) { return __wrap_malloc(size); }
void *realloc(void *old, size_t size) { return __wrap_realloc(old, size); }
END

# The example of the page, compiled by the command of the page.
example() (
    page=$PWD/docs/c.md
    cd "$room"
    awk '/^```c$/ { on = 1; next } /^```$/ { on = 0 } on' "$page" >main.c
    eval "$(grep '^cc main.c ' "$page")"
    LD_LIBRARY_PATH=$tree/lib ./a.out >said_by_page
    grep -qxF "$(cat said_by_page)" "$page"
)

# Compares what nm prints of a library with the names that the headers declare as functions, but for those they define.
exports() {
    cat crates/nlroute_ffi/include/*.h | grep -v '^static' |
        sed -n 's/^[A-Za-z].*[ *]\(nlroute_[a-z0-9_]*\)(.*/\1/p' | sort >"$room/declared"
    grep -qx nlroute_rewrite "$room/declared"
    # (A is the version of the symbols)
    nm --defined-only --without-symbol-versions "$@" | sed -n 's/^[0-9a-f]* [B-Z] //p' | sort | diff - "$room/declared"
}

# Calls with wrong arguments have the status 2, and say why.
wrong_calls() {
    for it in "" "--fast" "--slow" "one two"; do
        # shellcheck disable=SC2086
        status=0 && { tools/install.sh $it 2>"$room/usage" || status=$?; }
        test "$status" = 2 -a -s "$room/usage"
    done
    status=0 && { DESTDIR=$room/wrong tools/install.sh relative || status=$?; }
    test "$status" = 2 -a ! -e "$room/wrong"
}

# Runs a program, with the arguments after it, on the input in its crate.
runs() {
    "$tree/bin/$@" <"crates/$1/stdin" | diff - "crates/$1/stdout"
}

man_page() {
    man --warnings=w -E UTF-8 -l -Tutf8 -Z "$tree/share/man/man${1##*.}/$1" 2>&1 >/dev/null | diff - /dev/null
}

# jq with the function for documents of nlshow.
function_of_jq() {
    echo dsa 08000100 2a000000 | "$tree/bin/nlshow" --format json |
        jq -L "$tree/share/jq" 'include "nlshow"; .list.attrs | o | .conduit' | grep -qx 42
}

# The same files, wherever they were installed, and the manuals beside them.
is_moved() {
    for it in bin include lib share; do
        diff -r --exclude doc "$staged/$it" "$tree/$it"
    done
    test -f "$tree/share/doc/nlroute/c.md"
}

# Packing again, at another time, gives the same bytes.
same_tar() {
    touch "$staged/lib/"*
    (umask 077 && TZ=UTC-5 extra/dist.sh "$staged" "$room/again")
    cmp "$tar" "$room/again/${tar##*/}"
}

staged=$room/staged/opt/nlroute
DESTDIR=$room/staged tools/install.sh --fast /opt/nlroute 2>"$room/warned" || {
    cat "$room/warned"
    exit 1
}
check "--fast says that nothing is proved" grep -q 'nothing of it is proved' "$room/warned"
tar=$(extra/dist.sh "$staged" "$room/packed" | tail -n 1)
mkdir "$room/moved"
tar -xf "$tar" -C "$room/moved"
tree=$(echo "$room"/moved/*)
check "the name of the tar says so too" test "${tar%-unproved-*}" != "$tar"
check "the tar has the installed files" is_moved
check "the same tar at another time" same_tar
# what follows must not use the files in their first place
rm -rf "$room/staged"
export PKG_CONFIG_PATH="$tree/lib/pkgconfig"
version=$(pkg-config --modversion nlroute)
series=${version%.*}
check "README, LICENSE and licences" test -s "$tree/README" -a -s "$tree/LICENSE" -a -d "$tree/licences/bitflags"
check "a wrong call of install.sh" wrong_calls
check "the archive exports what the headers declare" exports -g "$tree/lib/libnlroute.a"
check "the shared object exports what they declare" exports -D "$tree/lib/libnlroute.so"
for it in "gcc -std=c11" "g++ -std=c++17 -x c++" "clang -std=c11" "clang++ -std=c++17 -x c++"; do
    command -v "${it%% *}" >/dev/null || { echo "skipped: there is no ${it%% *}" && continue; }
    check "calls.c, static, $it" static "$it"
    check "calls.c, shared, $it" shared "$it"
done
check "the example of the page" example
check "nlroute" runs nlroute dsa
check "nlshow" runs nlshow
command -v man >/dev/null || echo "skipped: there is no man"
for it in nlroute.1 nlshow.1 nlroute.3; do
    ! command -v man >/dev/null || check "$it" man_page "$it"
done

command -v jq >/dev/null || echo "skipped: there is no jq"
! command -v jq >/dev/null || check "nlshow.jq" function_of_jq

echo "$passed passed, $failed failed"
[ "$failed" = 0 ]
