#!/bin/sh
# test.sh [PREFIX]: builds and tests the bindings for Rust and Python, and two examples in C, with the library that
# tools/install.sh has installed in the folder PREFIX or, if none is named, in $NLROUTE_PREFIX. Without both, it first
# installs an unproved build in a temporary folder: four to five minutes more.
#
# It needs cc. What needs python3 from 3.9 on, cargo, clippy, pip, mypy or pyroute2 is skipped if that is missing, and a
# line says so. If there is a python3.9, its tests run too. It uses no network.
#
# Prints a line `ok ..` or `FAILED ..` for each check. The last line is 'N passed, M failed', and the status 0 only if
# nothing failed.
set -eu

[ $# -le 1 ] || {
    echo "usage: bindings/test.sh [PREFIX]" >&2
    exit 2
}
prefix=${1-${NLROUTE_PREFIX-}}
[ -z "$prefix" ] || prefix=$(cd "$prefix" && pwd)
cd "$(dirname "$0")/.."
. tools/counted.sh

# Whether a command succeeds, which shows that what it needs is there. Otherwise says what is skipped.
has() {
    what=$1
    shift
    "$@" >/dev/null 2>&1 || {
        echo "skipped: there is no $what" >&2
        return 1
    }
}

# Runs Python on the package of this tree or, with FOLDER, on the one that is installed there.
python() {
    PYTHONPATH=${folder-$top/bindings/python} PYTHONDONTWRITEBYTECODE=1 python3 -W error "$@"
}

# Prints the command of Python 3.9, if it is there, or in a folder of pyenv.
oldest_python() {
    for it in python3.9 "${PYENV_ROOT:-$HOME/.pyenv}"/versions/3.9.*/bin/python; do
        if "$it" --version >"$room/version" 2>&1; then echo "$it" && return; fi
    done
    return 1
}

# Runs the tests with the Python that is named.
python_tests() {
    cd bindings/python
    PYTHONPATH=$PWD PYTHONDONTWRITEBYTECODE=1 "$1" -W error -m unittest discover -s tests -t tests
}

python_doctests() {
    python -c 'import doctest, nlroute, sys; sys.exit(doctest.testmod(nlroute).failed)'
}

# The samples of the page print what the page says.
python_page() {
    python bindings/python/page.py docs/python.md
}

# An example prints the requests of manager.txt, as those in the other languages do.
prints_requests() {
    "$@" >"$room/requests"
    cmp "$room/requests" "$top/bindings/manager.txt"
}

# Runs an example in C, with the headers and the library that are installed.
in_c() {
    cc -std=c99 -O1 -Wall -Wextra -Werror -I"$prefix/include" -o "$room/$1" "$top/crates/nlroute_ffi/examples/$1.c" \
        -L"$prefix/lib" -lnlroute
    "$room/$1"
}

# Whether this machine has sockets of that kind.
netlink() {
    python3 -c 'import socket as s; s.socket(s.AF_NETLINK, s.SOCK_RAW, s.NETLINK_ROUTE)'
}

prints_links() {
    "$@" >"$room/links"
    grep -q '^1: lo$' "$room/links"
}

types() {
    cd bindings/python
    MYPYPATH=$PWD mypy --strict --cache-dir "$room/mypy" nlroute
    MYPYPATH=$PWD mypy --strict --cache-dir "$room/mypy" tests/typed.py examples/links.py examples/manager.py
}

# Installs the package without a library, and imports it with one that is named, and without.
package() {
    NLROUTE_LIB_DIR='' python3 -m pip install -q --no-index --target "$room/plain" bindings/python
    folder=$room/plain
    cd "$room"
    python -c 'import nlroute; assert nlroute.__file__.startswith("'"$room"'/plain/"); nlroute.Family.BOND'
    if NLROUTE_LIBRARY='' LD_LIBRARY_PATH='' python -c 'import nlroute' 2>"$room/missing"; then
        ldconfig -p | grep -q 'libnlroute\.so'
    else
        grep -q '^ImportError: .*NLROUTE_LIBRARY' "$room/missing"
    fi
    if NLROUTE_LIBRARY=libc.so.6 python -c 'import nlroute' 2>"$room/missing"; then exit 1; fi
    grep -q '^ImportError: .*nlroute_version' "$room/missing"
}

# Makes the wheel with the library twice: it has the same bytes, and needs nothing but itself.
wheel() {
    for it in one two; do
        python3 -m pip wheel -q --no-index -w "$room/$it" bindings/python
    done
    set -- "$room"/one/nlroute-*-manylinux_*.whl
    cmp "$1" "$room/two/${1##*/}"
    python3 -m pip install -q --no-index --target "$room/whole" "$1"
    folder=$room/whole
    cd "$room"
    unset NLROUTE_LIBRARY LD_LIBRARY_PATH
    program='import nlroute; print(nlroute.text(nlroute.Family.BOND, bytes.fromhex("0800030064000000")))'
    test "$(python -c "$program")" = "IFLA_BOND_MIIMON 100 ms"
}

in_crate() {
    cd bindings/rust
    "$@"
}

# The example with typed attributes prints the values of its list.
prints_typed() {
    in_crate cargo run --offline --quiet --example typed >"$room/typed"
    grep -q '^mode 802.3ad$' "$room/typed"
    grep -q '^2 ports are aggregated$' "$room/typed"
    grep -q '^unknown: type 99 hex 07$' "$room/typed"
}

shared_crate() {
    cd bindings/rust
    NLROUTE_STATIC=0 CARGO_TARGET_DIR=$room/shared cargo test --offline --quiet --tests
}

# Without a library, the build fails, and says what to do.
no_library() {
    cd bindings/rust
    if NLROUTE_LIB_DIR='' PKG_CONFIG_PATH='' PKG_CONFIG_LIBDIR=$room CARGO_TARGET_DIR=$room/none \
        cargo build --offline 2>"$room/missing"; then exit 1; fi
    grep -q 'tools/install.sh' "$room/missing"
}

top=$PWD
if [ -z "$prefix" ]; then
    prefix=$room/prefix
    echo "installing an unproved build of the library"
    tools/install.sh --fast "$prefix" >"$room/said" 2>&1 || {
        cat "$room/said"
        exit 1
    }
fi
began=$(date +%s)
export NLROUTE_LIB_DIR="$prefix/lib" LD_LIBRARY_PATH="$prefix/lib" PKG_CONFIG_PATH="$prefix/lib/pkgconfig"
export NLROUTE_LIBRARY="$prefix/lib/libnlroute.so" CARGO_TARGET_DIR="$room/target"

check "c: the requests of a manager" prints_requests in_c manager
check "c: values of other sets are not attributes of the message" in_c marks
if has "python3 from 3.9 on" python3 -c 'import sys; sys.exit(sys.version_info < (3, 9))'; then
    check "generate.py: the tables are those of the library" bindings/generate.py --check
    check "python: tests" python_tests python3
    if has python3.9 oldest_python; then check "python 3.9: tests" python_tests "$(oldest_python)"; fi
    check "python: doctests" python_doctests
    check "python: the samples of docs/python.md" python_page
    check "python: the requests of a manager" prints_requests python bindings/python/examples/manager.py
    if has "netlink socket" netlink; then
        check "python: the links of this machine" prints_links python bindings/python/examples/links.py
    fi
    if has mypy mypy --version; then check "python: mypy" types; fi
    if has pip python3 -m pip --version; then
        check "python: the package" package
        check "python: a wheel with the library" wheel
    fi
    # Debian's package is for Debian's Python
    for it in python3 /usr/bin/python3; do
        if "$it" -c 'import pyroute2' 2>/dev/null; then break; fi
    done
    if has pyroute2 "$it" -c 'import pyroute2'; then
        check "python: five times as fast as pyroute2" "$it" bindings/python/speed.py --check
    fi
fi
if has cargo cargo --version; then
    check "rust: tests" in_crate env LD_LIBRARY_PATH='' cargo test --offline --quiet
    check "rust: tests with the shared library" shared_crate
    check "rust: the example with typed attributes" prints_typed
    check "rust: the requests of a manager" prints_requests in_crate cargo run --offline --quiet --example manager
    check "rust: pages of the crate" in_crate env RUSTDOCFLAGS='-D warnings' cargo doc --offline --quiet --no-deps
    if has clippy cargo clippy --version; then
        check "rust: clippy" in_crate cargo clippy --offline --quiet --all-targets -- -D warnings
    fi
    if has "netlink socket" netlink; then
        check "rust: the links of this machine" prints_links in_crate cargo run --offline --quiet --example links
    fi
    check "rust: a build without the library" no_library
    check "rust, python and c: random lists" bindings/compare.py
else
    check "python and c: random lists" bindings/compare.py --without-rust
fi
echo "the checks took $(($(date +%s) - began)) s"
echo "$passed passed, $failed failed"
[ "$failed" = 0 ]
