#!/bin/sh
# test_release.sh [PREFIX]: makes a release of what tools/install.sh has installed in the folder PREFIX or, if none is
# named, in $NLROUTE_PREFIX, and uses each of its files as users do, without `rt` in PATH. Without both, it first installs
# an unproved build in a temporary folder: four to five minutes more.
#
# It needs what release.sh needs, and cc. What needs c++, pkg-config, venv, cargo, debhelper or lintian is skipped if that
# is missing, and a line says so. It uses no network.
#
# Prints a line `ok ..` or `FAILED ..` for each check. The last line is 'N passed, M failed', and the status 0 only if
# nothing failed.
set -eu

[ $# -le 1 ] || {
    echo "usage: extra/test_release.sh [PREFIX]" >&2
    exit 2
}
prefix=${1-${NLROUTE_PREFIX-}}
[ -z "$prefix" ] || prefix=$(cd "$prefix" && pwd)
cd "$(dirname "$0")/.."
top=$PWD
. tools/counted.sh

# Whether a command succeeds, which shows that what it needs is there. Otherwise says what is skipped.
has() {
    what=$1
    shift
    "$@" >/dev/null 2>&1 || {
        echo "skipped: there is no $what" >&2
        return 1
    }
}

# Runs a command in an environment without `rt`, and without names of folders of the library.
as_user() {
    env -i PATH="$path" HOME="$HOME" LC_ALL=C.UTF-8 CARGO_TARGET_DIR="$room/target" CARGO_NET_OFFLINE=true "$@"
}

same_bytes() {
    (umask 077 && NLROUTE_PREFIX=$prefix extra/release.sh "$room/again")
    diff -r "$made" "$room/again"
}

sums() {
    cd "$made"
    sha256sum -c SHA256SUMS
    sed 's/.* //' SHA256SUMS | diff - "$room/names"
}

# All binaries have the same mark, also when stripped. It is not loaded in programs, so the bytes that run have not changed.
marks() {
    case $mark in
    "nlroute $version, proved, commit "* | "nlroute $version, unproved, commit "*) ;;
    *) return 1 ;;
    esac
    strip -o "$room/stripped" "$tree/bin/nlshow"
    for it in lib/libnlroute.a lib/libnlroute.so bin/nlshow bin/nlroute ../../stripped; do
        readelf -p .note.nlroute "$tree/$it" | grep -qF "$mark"
    done
    for it in nlshow nlroute; do
        readelf -SW "$tree/bin/$it" | grep -q '\.note\.nlroute *NOTE *0000000000000000'
    done
}

# The shared object needs what the wheel's tag and the README say: of glibc what 2.14 has, and x86-64-v2.
needs() {
    readelf -d "$so" >"$room/dynamic"
    test "$(grep '(NEEDED)' "$room/dynamic" | grep -o '\[.*\]')" = '[libc.so.6]'
    test "$(readelf -V "$so" | grep -o 'GLIBC_[0-9.]*' | sort -uV | tail -n 1)" = GLIBC_2.14
    if grep -q TEXTREL "$room/dynamic"; then exit 1; fi
    for it in "$so" "$tree/lib/libnlroute.a"; do
        readelf -n "$it" | grep -q 'x86 ISA needed: x86-64-v2'
        if readelf -SW "$it" | grep -qw '\.comment'; then exit 1; fi
    done
}

# The shared object exports what the symbols file promises, with its versions.
symbols() {
    nm -D --defined-only "$so" | sed -n 's/.* A \(.*\)$/ \1@\1/p; s/.* T \(.*\)@@/ \1@/p' | sort >"$room/exports"
    sed -n 's/^\( .*\) .*/\1/p' extra/release/debian/*.symbols | sort | diff - "$room/exports"
}

# Each package with binaries has all licence texts that the kit has, and the list of its crates.
licences() {
    (cd "$tree" && find licences -type f | sed 's,^licences/,,' | sort) >"$room/licences"
    grep -qx CRATES "$room/licences"
    (cd "$tree/licences" && sed -n 's/^  [a-z0-9_]*  *//p' CRATES | tr ' ' '\n' | grep -vx none | sort -u) |
        diff - "$room/texts_of_crates" || return 1
    python3 -m zipfile -l "$wheel" | sed -n 's,.*/licenses/\([^ ]*\) .*,\1,p' | sort | grep -vx LICENSE |
        diff - "$room/licences"
    test -z "$crate" || (cd "$crate/licences" && find . -type f | sed 's,^\./,,' | sort) | diff - "$room/licences"
}

# The SBOM has the licence of each crate that the kit has a licence text of, of no other crate, and of each text file.
licences_in_sbom() {
    python3 - "$room/sbom" "$tree/licences/CRATES" <<'END'
import json, re, sys
with open(sys.argv[1], encoding="utf-8") as file:
    sbom = json.load(file)
licences = {it["name"]: it["licenseConcluded"] for it in sbom["packages"]}
with open(sys.argv[2], encoding="utf-8") as file:
    crates = re.findall(r"^  (\w+)  +(.*)$", file.read(), re.MULTILINE)
assert len(crates) > 20
for name, texts in crates:
    assert (licences[f"rattle-{name}"] == "NOASSERTION") == (texts == "none"), name
assert licences["rattle-bitflags"] == "Apache-2.0 OR MIT"
assert licences["rattle-ryu"] == "Apache-2.0 AND MIT"
for it in sbom["files"]:
    assert (it["licenseConcluded"] == "NOASSERTION") == bool(re.match(r"\./(bin/|lib/lib)", it["fileName"])), it["fileName"]
END
}

# Each text that says what is proved says of which builds: an unproved release has the same texts.
proofs_said() {
    find "$tree" -type f ! -path '*/bin/*' ! -path '*/lib/*' ! -path '*/licences/*' >"$room/texts"
    while read -r it; do
        sed 's,^[ */#!]*,,' "$it" | tr '\n' ' ' | sed 's/\. /.\n/g' | grep -E '\b(is|are|was|were) proved\b' |
            grep -vE 'builds that say|[Ww]hat is proved|whether it is|[Nn]othing|neither' || true
    done <"$room/texts" >"$room/claimed"
    diff /dev/null "$room/claimed"
}

# The folders and files of the README are there, and each link of the pages below $1 leads to a file.
pages() {
    sed -n '/^Contents$/,/^Use$/ s,^  \([^ ].*[^ ]\)   *[^ ].*,\1,p' "$tree/README" | tr -d , | tr ' ' '\n' >"$room/listed"
    grep -qx CHANGELOG.md "$room/listed"
    while read -r it; do
        test -e "$tree/$it"
    done <"$room/listed"
    find "$1" -name '*.md' | while read -r page; do
        grep -o '](\([^)#:]*\)' "$page" | sed 's/^](//' | while read -r link; do
            test -e "$(dirname "$page")/$link" || echo "$page: $link"
        done
    done >"$room/broken"
    diff /dev/null "$room/broken"
}

# The examples in C and C++ in the folder $1 compile with the options after it.
examples() {
    folder=$1
    shift
    for it in "$folder"/*.c; do
        cc -std=gnu99 -Wall -Wextra -Werror -o "$room/example" "$it" "$@"
    done
    test -e "$folder/structs.cpp"
    ! has c++ c++ --version || c++ -Wall -Wextra -Werror -o "$room/example" "$folder/structs.cpp" "$@"
}

# The program of docs/c.md, with the shared and with the static library.
c_program() {
    awk '/^```c$/ { on = 1; next } /^```$/ && on { exit } on' docs/c.md >"$room/main.c"
    cd "$room"
    # shellcheck disable=SC2046
    cc main.c $(flags)
    as_user LD_LIBRARY_PATH="$tree/lib" ./a.out | grep -qx 'a request of 8 bytes'
    cc -I "$tree/include" main.c "$tree/lib/libnlroute.a"
    as_user ./a.out | grep -qx 'a request of 8 bytes'
}

# What the first programs of README.md print first: the values of a bond.
is_first() {
    printf 'IFLA_BOND_MODE 802.3ad (4)\nIFLA_BOND_MIIMON 100 ms\n' >"$room/bond"
    head -n 2 | diff - "$room/bond"
}

first_in_c() {
    # shellcheck disable=SC2046
    cc -o "$room/first" crates/nlroute_ffi/examples/first.c $(flags)
    as_user LD_LIBRARY_PATH="$tree/lib" "$room/first" | is_first
}

# The structs of the headers, without the word `struct`.
structs_in_cpp() {
    # shellcheck disable=SC2046
    c++ -std=c++11 -Wall -Wextra -Werror -o "$room/structs" crates/nlroute_ffi/examples/structs.cpp $(flags)
    as_user LD_LIBRARY_PATH="$tree/lib" "$room/structs" | grep -qx 'high at 2: 65535'
}

# Prints the options for the compiler: those of pkg-config, if it is there.
flags() {
    if [ -n "$has_pkg_config" ]; then
        PKG_CONFIG_PATH=$tree/lib/pkgconfig pkg-config --cflags --libs nlroute
    else
        echo "-I $tree/include -L $tree/lib -lnlroute"
    fi
}

# A C program with the static library has the mark, also if unused sections are removed.
mark_of_program() {
    echo '#include <nlroute.h>
int main(void) { return nlroute_version() != NLROUTE_VERSION; }' >"$room/small.c"
    cd "$room"
    cc -I "$tree/include" -Wl,--gc-sections -o small small.c "$tree/lib/libnlroute.a"
    ./small
    readelf -p .note.nlroute small | grep -qF "$mark"
}

shows() {
    echo 'bond 08000300 64000000' | as_user "$1" | grep -qx '  IFLA_BOND_MIIMON 100 ms'
}

# Installs with pip, in the environment of all of these checks, and runs a program with the variables that $1 has.
python_package() {
    variables=$1
    shift
    as_user "$room/env/bin/pip" install --quiet --no-index --force-reinstall "$@"
    cd "$room"
    program='import nlroute as n; print(n.text(n.Family.BOND, bytes.fromhex("0800030064000000"))); print(n.build(), n.__version__)'
    # shellcheck disable=SC2086
    as_user $variables "$room/env/bin/python" -W error -c "$program" >said_by_python
    printf 'IFLA_BOND_MIIMON 100 ms\n%s %s\n' "$mark" "$version" | diff - said_by_python
    # shellcheck disable=SC2086
    as_user $variables "$room/env/bin/python" -W error "$top/bindings/python/examples/first.py" | is_first
}

# A new project that uses the crate in the folder $1.
rust_program() {
    rm -rf "$room/project"
    mkdir -p "$room/project/src"
    mkdir "$room/project/src/bin"
    cp bindings/rust/examples/bridge.rs "$room/project/src/main.rs"
    cp bindings/rust/examples/first.rs "$room/project/src/bin"
    cat >"$room/project/Cargo.toml" <<END
[package]
name = "project"
version = "0.1.0"
edition = "2021"

[dependencies]
nlroute = { path = "$1" }
END
    cd "$room/project"
    as_user cargo run --quiet --bin project 2>"$room/warned" | grep -qx 'a request of 16 bytes'
    as_user cargo run --quiet --bin first 2>>"$room/warned" | is_first
    diff /dev/null "$room/warned"
    readelf -p .note.nlroute "$room/target/debug/project" | grep -qF "$mark"
}

# The same with Debian's cargo, which is older: it warns of keys of Cargo.toml that it does not know.
with_old_cargo() {
    path=/usr/bin:$path
    rust_program "$crate"
}

# The crate's own tests; cargo compiles the examples with them.
crate_tests() {
    cd "$crate"
    test -f CHANGELOG.md -a -f examples/first.rs
    as_user cargo test --quiet
}

# The crate's pages if there is no library, as on docs.rs.
crate_pages() {
    cp -R "$crate" "$room/bare"
    cd "$room/bare"
    rm -r native
    as_user DOCS_RS=1 RUSTDOCFLAGS='-D warnings' cargo doc --quiet --no-deps
}

# The files of the Debian packages, in a folder in place of /.
debian_packages() {
    for it in "$made"/*.deb; do
        dpkg-deb -x "$it" "$room/system"
    done
    cd "$room"
    libraries=$(echo "$PWD"/system/usr/lib/*-linux-gnu)
    for it in "$libraries"/libnlroute.* system/usr/bin/*; do
        readelf -p .note.nlroute "$it" | grep -qF "$mark"
    done
    cc main.c -I system/usr/include -L "$libraries" -lnlroute
    as_user LD_LIBRARY_PATH="$libraries" ./a.out | grep -qx 'a request of 8 bytes'
    shows system/usr/bin/nlshow
    for it in system/usr/share/doc/*/copyright; do
        grep -q '^  core  *none$' "$it"
    done
}

# The package of Python, and its version as pip finds it: that of the wheel.
debian_python() {
    case $mark in
    *", unproved, "*) said=$version.dev0+unproved ;;
    *) said=$version ;;
    esac
    program='import importlib.metadata, nlroute; print(importlib.metadata.version("nlroute"))'
    as_user LD_LIBRARY_PATH="$libraries" PYTHONPATH="$system/lib/python3/dist-packages" python3 -c "$program" |
        grep -qxF "$said"
    as_user LD_LIBRARY_PATH="$libraries" PYTHONPATH="$system/lib/python3/dist-packages" \
        python3 "$system/share/doc/python3-nlroute/examples/first.py" | is_first
}

# Man pages, manuals, changelog and examples, and the file for jq, where the tarball has it.
debian_manuals() {
    for it in man1/nlroute.1.gz man1/nlshow.1.gz man3/nlroute.3.gz; do
        test -f "$system/share/man/$it"
    done
    for it in libnlroute-dev/c.md nlshow/programs.md nlshow/json.md python3-nlroute/python.md \
        libnlroute0.3/CHANGELOG.md libnlroute0.3/changelog.gz; do
        test -f "$system/share/doc/$it"
    done
    pages "$system/share/doc"
    examples "$system/share/doc/libnlroute-dev/examples" -I "$system/include" -L "$libraries" -lnlroute
    cmp "$tree/share/jq/nlshow.jq" "$system/share/jq/nlshow.jq"
}

lints() {
    lintian --fail-on error --suppress-tags bogus-mail-host,bogus-mail-host-in-debian-changelog "$made"/*.deb
}

if [ -z "$prefix" ]; then
    prefix=$room/prefix
    echo "installing an unproved build"
    tools/install.sh --fast "$prefix" >"$room/said" 2>&1 || {
        cat "$room/said"
        exit 1
    }
fi
began=$(date +%s)
made=$room/made
NLROUTE_PREFIX=$prefix extra/release.sh "$made"
path=$(echo "$PATH" | tr : '\n' | while read -r it; do [ -x "$it/rt" ] || echo "$it"; done | paste -sd :)
mkdir "$room/unpacked"
tar -xf "$made"/nlroute-*-linux.tar.gz -C "$room/unpacked"
tree=$(echo "$room"/unpacked/*)
so=$tree/lib/libnlroute.so
mark=$(sed -n 's/^build=//p' "$tree/lib/pkgconfig/nlroute.pc")
version=$(sed -n 's/^Version: //p' "$tree/lib/pkgconfig/nlroute.pc")
wheel=$(echo "$made"/*.whl)
(cd "$made" && find . -type f ! -name SHA256SUMS | sed 's,^\./,,' | LC_ALL=C sort) >"$room/names"
(cd "$tree/licences" && find . -type f | sed 's,^\./,,' | sort | grep -vx CRATES) >"$room/texts_of_crates"
crate=
if ls "$made"/*.crate >/dev/null 2>&1; then
    tar -xf "$made"/*.crate -C "$room"
    crate=$(echo "$room"/nlroute-"$version"*)
fi
has_pkg_config=
! has pkg-config pkg-config --version || has_pkg_config=yes
check "the same bytes again" same_bytes
check "SHA256SUMS" sums
check "the mark of each binary" marks
check "what the shared object needs" needs
check "the symbols and their versions" symbols
check "the SBOM is JSON" python3 -m json.tool "$(echo "$made"/*.spdx.json)" "$room/sbom"
check "the licences in the SBOM" licences_in_sbom
check "the licences in each package" licences
check "what is proved, of which builds" proofs_said
check "the README and the manuals" pages "$tree"
check "C: the program of docs/c.md" c_program
check "C: the program of README.md" first_in_c
# shellcheck disable=SC2046
check "C: the examples" examples "$tree/share/doc/nlroute/examples" $(flags)
check "C: the mark of a program" mark_of_program
! has c++ c++ --version || check "C++: the structs" structs_in_cpp
check "nlshow" shows "$tree/bin/nlshow"
if has venv python3 -m venv "$room/env"; then
    check "Python: the wheel" python_package "" "$wheel"
    check "Python: the folder of the tarball" python_package "" "$tree/python"
    check "Python: the folder, editable" python_package "NLROUTE_LIBRARY=$so" --editable "$tree/python"
    check "Python: the sdist" python_package "NLROUTE_LIBRARY=$so" "$made/nlroute-$version.tar.gz"
fi
if [ -n "$crate" ]; then
    check "Rust: the crate" rust_program "$crate"
    check "Rust: no key that is new" test -z "$(grep '^autolib' "$crate/Cargo.toml")"
    ! has "cargo of Debian" /usr/bin/cargo --version || check "Rust: the crate, with Debian's cargo" with_old_cargo
    check "Rust: the folder of the tarball" rust_program "$tree/rust"
    check "Rust: the tests of the crate" crate_tests
    check "Rust: the pages of the crate, without a library" crate_pages
fi
if ls "$made"/*.deb >/dev/null 2>&1; then
    check "Debian: the packages" debian_packages
    system=$room/system/usr
    libraries=$(echo "$system"/lib/*-linux-gnu)
    check "Debian: the Python package" debian_python
    check "Debian: manuals, examples and the file for jq" debian_manuals
    ! has lintian lintian --version || check "Debian: lintian" lints
fi
echo "the checks took $(($(date +%s) - began)) s"
echo "$passed passed, $failed failed"
[ "$failed" = 0 ]
