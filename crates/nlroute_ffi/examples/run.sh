#!/bin/sh
# Builds and runs the examples in C, in Rust and, if there is a c++, in C++ with the static library, using cc and rustc, and
# compiles the headers as C99, C11 and C++11 with gcc and clang, if they are there. Not part of CI.
# The library is out/libnlroute_ffi.a, as `rt lib` leaves it in this crate; with none there, `rt lib` is run first.
# If there is a valgrind, it watches the examples that do not initialize what the library writes to.
# The last line is 'N passed, M failed', and the status 0 only if nothing failed.
cd "$(dirname "$0")/.." || exit 1
library=$PWD/out/libnlroute_ffi.a
kit=$(dirname "$(rt doc)")
room=$(mktemp -d) || exit 1
trap 'rm -rf "$room"' EXIT
trap 'exit 1' INT TERM
failed=0
watch=
command -v valgrind >/dev/null && watch="valgrind -q --error-exitcode=99"

[ -f "$library" ] || rt lib >&2 || exit 1

# Runs a command, and counts a failure if it fails without a line that says so.
counted() {
    before=$(grep -c '^FAILED ' "$room/said")
    "$@" >>"$room/said" || [ "$(grep -c '^FAILED ' "$room/said")" != "$before" ] || failed=$((failed + 1))
}

# Compiles an example in C.
compile() {
    name=$1
    shift
    counted cc -std=c11 -Wall -Wextra -Werror -O2 -I include "$@" -o "$room/$name" "examples/$name.c" "$library" \
        "$kit/c/libos_c.a" "$kit/c/liblibc_c.a"
}

# Compiles an example in C++.
compile_cpp() {
    counted c++ -std=c++11 -Wall -Wextra -Werror -Wold-style-cast -O2 -I include -o "$room/$1" "examples/$1.cpp" "$library" \
        "$kit/c/libos_c.a" "$kit/c/liblibc_c.a"
}

# Compiles the headers with a compiler and its options, if there is one, without warnings.
headers() {
    command -v "${1%% *}" >/dev/null || return 0
    # shellcheck disable=SC2086
    if $1 -Wall -Wextra -Werror -pedantic -fsyntax-only -I include "$room/headers.c" >&2; then
        echo "ok the headers by $1"
    else
        echo "FAILED the headers by $1"
    fi >>"$room/said"
}

# Runs an example, and compares what it prints with standard input.
prints() {
    name=$1
    shift
    if $watch "$room/$name" >"$room/printed" && diff - "$room/printed" >&2; then
        echo "ok $*"
    else
        echo "FAILED $*"
    fi >>"$room/said"
}

: >"$room/said"
cat >"$room/headers.c" <<'END'
#include "nlroute.h"
#include "nlroute_kinds.h"
#include "nlroute_numbers.h"
#include "nlroute_requests.h"

ptrdiff_t measured(size_t *at);
ptrdiff_t requested(uint8_t *out, size_t room, size_t *at);

ptrdiff_t measured(size_t *at)
{
    struct nlroute_value value = nlroute_flags(NLROUTE_IFLA_VLAN_FLAGS, NLROUTE_VLAN_FLAG_GVRP, 2);
    return value.mask == value.second ? nlroute_measure(NLROUTE_VLAN, &value, 1, NLROUTE_NO_OCTETS, at) : -1;
}

ptrdiff_t requested(uint8_t *out, size_t room, size_t *at)
{
    const struct nlroute_head head = nlroute_up(nlroute_change(3), true);
    const struct nlroute_value values[] = {
        nlroute_name("lan0"),
        NLROUTE_PORT_DATA("bond"),
        nlroute_below(2, nlroute_number(NLROUTE_IFLA_BOND_SLAVE_PRIO, 1)),
    };
    return nlroute_request(&head, NLROUTE_VALUES(values), NLROUTE_NO_OCTETS, out, room, at);
}
END
for it in c99 c11; do
    headers "gcc -std=$it -x c"
    headers "clang -std=$it -x c"
done
headers "g++ -std=c++11 -Wold-style-cast -x c++"
headers "clang++ -std=c++11 -Wold-style-cast -x c++"
compile calls -Wl,--wrap=malloc,--wrap=realloc
counted "$room/calls"
compile tasks
counted $watch "$room/tasks"
compile requests
counted $watch "$room/requests"
compile marks
counted $watch "$room/marks"
compile manager
prints manager "the requests of a network manager are printed" <../../bindings/manager.txt
compile bridge
prints bridge "a request is printed" <<'END'
08000300 62723000 30001200 0a000100 62726964 67650000 20000200 08000100 bc020000 08000200 64000000 0a001400 0180c200 00040000
IFLA_IFNAME "br0"
IFLA_LINKINFO
  IFLA_INFO_KIND "bridge"
  IFLA_INFO_DATA
    IFLA_BR_FORWARD_DELAY 700 (7.00 s)
    IFLA_BR_HELLO_TIME 100 (1.00 s)
    IFLA_BR_GROUP_ADDR 01:80:c2:00:00:04
END
if command -v c++ >/dev/null; then
    compile_cpp structs
    prints structs "the fields of a struct are printed in C++" <<'END'
a struct of 4 bytes with no unit
low at 0: 32768
high at 2: 65535
END
fi
compile links
if $watch "$room/links" >"$room/printed" && grep -q '^1: lo$' "$room/printed"; then
    echo "ok the links of this machine are printed"
else
    echo "FAILED the links of this machine are printed"
fi >>"$room/said"
counted rustc --edition 2021 -D warnings -O -o "$room/in_rust" examples/calls.rs \
    -C link-arg="$library" -C link-arg="$kit/c/libos_c.a" -C link-arg="$kit/c/liblibc_c.a"
counted "$room/in_rust"
cat "$room/said"
passed=$(grep -c '^ok ' "$room/said")
failed=$((failed + $(grep -c '^FAILED ' "$room/said")))
echo "$passed passed, $failed failed"
[ "$failed" = 0 ]
