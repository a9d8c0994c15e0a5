#!/bin/sh
# Builds and runs c_refusals.c with the static library: out/libnlroute_ffi.a of that crate, which `rt lib` makes, or that
# of an argument. Not part of CI. It needs cc and python3. The lists are those of bench, and payloads that Linux sent. The
# last line counts lists, failed allocations and short buffers. The status is 0 only if all results are as the header
# describes.
cd "$(dirname "$0")/../crates/nlroute_ffi" || exit 1
library=${1:-$PWD/out/libnlroute_ffi.a}
kit=$(dirname "$(rt doc)")
room=$(mktemp -d) || exit 1
trap 'rm -rf "$room"' EXIT
trap 'exit 1' INT TERM

[ -f "$library" ] || rt lib >&2 || exit 1
wrap=-Wl,--wrap=malloc,--wrap=realloc,--wrap=free
cc -std=c11 -Wall -Wextra -Werror -O2 -I include "$wrap" -o "$room/c_refusals" \
    ../../extra/c_refusals.c "$library" "$kit/c/libos_c.a" "$kit/c/liblibc_c.a" || exit 1
python3 ../../bench/make_lists.py "$room/lists" || exit 1
{
    tail -n +2 ../../bench/original.tsv | while IFS="$(printf '\t')" read -r list family _; do
        echo "$family $(cat "$room/lists/$list.hex")"
    done
    PYTHONPATH=../../extra python3 -B -c 'from random_lines import captured
for name, data in captured(): print(name, data.hex())'
} | python3 -B -c '
import sys
sys.path.insert(0, "../../tools")
from families import names
sets = names()
for line in sys.stdin:
    name, blank, digits = line.partition(" ")
    print(sets.index(name) if name in sets else name, digits, sep=blank, end="")
' | "$room/c_refusals"
