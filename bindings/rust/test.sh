#!/bin/sh
# Tests the crate with each toolchain that is there: cargo's, Debian's, and a nightly one, which also checks the error
# codes of what must not compile, and adds the address sanitizer. Not part of CI. It takes two minutes.
#
# It needs the installed C library, as build.rs finds it, and cargo. clippy, valgrind, Debian's package cargo and
# rustup's toolchain `nightly` are used if they are there. Nothing needs the network.
#
# Prints a line `ok ..` or `FAILED ..` for each test. The last line is 'N passed, M failed', and the status 0 only if
# nothing failed.
cd "$(dirname "$0")" || exit 1
room=$(mktemp -d) || exit 1
trap 'rm -rf "$room"' EXIT
trap 'exit 1' INT TERM
passed=0
failed=0
export CARGO_NET_OFFLINE=true CARGO_TARGET_DIR="$room/target" RUSTDOCFLAGS="-D warnings"

# Runs a command, the words after the name of the test, and counts whether it succeeds.
check() {
    name=$1
    shift
    if "$@" >"$room/said" 2>&1; then
        echo "ok $name"
        passed=$((passed + 1))
    else
        echo "FAILED $name"
        cat "$room/said"
        failed=$((failed + 1))
    fi
}

# Runs cargo of Debian.
debian() {
    PATH=/usr/bin:$PATH CARGO_TARGET_DIR=$room/debian cargo "$@"
}

nightly() {
    CARGO_TARGET_DIR=$room/nightly cargo +nightly "$@"
}

sanitized() {
    host=$(rustc -vV | sed -n 's/^host: //p')
    RUSTFLAGS=-Zsanitizer=address RUSTDOCFLAGS=-Zsanitizer=address nightly test --target "$host"
}

# Runs each test program under valgrind.
watched() {
    cargo test --tests --no-run 2>&1 | sed -n 's/^ *Executable .*(\(.*\))$/\1/p' >"$room/programs"
    test -s "$room/programs" || return 1
    while read -r program; do
        valgrind -q --error-exitcode=99 --leak-check=full --errors-for-leak-kinds=definite \
            "$program" --test-threads=1 || return 1
    done <"$room/programs"
}

# The build fails with a message if there is no library.
unfound() {
    NLROUTE_LIB_DIR=$room/none cargo build >"$room/unfound" 2>&1 && return 1
    grep -q 'libnlroute.a' "$room/unfound" && grep -q 'tools/install.sh' "$room/unfound"
}

check "kinds.rs and attributes.rs are what the library says" ../generate.py --check
check "the layout of the sources" cargo fmt --check
check "cargo test" cargo test
check "cargo doc" cargo doc --no-deps
cargo clippy --version >/dev/null 2>&1 && check "clippy" cargo clippy --all-targets -- -D warnings
check "the links of this machine" cargo run --example links
check "a build without the library" unfound
command -v valgrind >/dev/null && check "valgrind" watched
if [ -x /usr/bin/cargo ]; then
    check "cargo test, Debian's" debian test
    check "cargo doc, Debian's" debian doc --no-deps
fi
if cargo +nightly --version >/dev/null 2>&1; then
    check "what must not compile, nightly" nightly test --doc
    check "the address sanitizer" sanitized
fi
echo "$passed passed, $failed failed"
[ "$failed" = 0 ]
