#!/bin/sh
# run.sh [requests|views|captures] [SECONDS [OBJECT]]: builds the fuzzer of the C API, of its requests, of views, or of what
# nlshow reads, and runs it for so long, or for ten minutes. It is not part of CI. It needs clang with libFuzzer (Debian's
# packages clang and libclang-rt-14-dev) and python3. The library is built with counters by counted.sh, views/lib.rs and
# nlshow without proofs by bench/unproved.py; or OBJECT is taken, which was built earlier: also the library, by
# `bench/unproved.py crates/nlroute_ffi OBJECT`. What it found is kept in out/corpus, of views in views/out/corpus and so
# on, and an input that fails beside it as crash-*.
cd "$(dirname "$0")" || exit 1
kit=$(dirname "$(rt doc)")
ffi=../../crates/nlroute_ffi
part=.
case $1 in
requests | views | captures) part=$1 && shift ;;
esac
out=$part/out
object=${2:-$out/counted.o}
mkdir -p "$out/corpus" "$out/seeds"

case $part$2 in
views) ../../bench/unproved.py views "$object" || exit 1 ;;
captures) ../../bench/unproved.py ../../crates/nlshow "$object" || exit 1 ;;
. | requests) ./counted.sh "$ffi" "$object" || exit 1 ;;
esac
if [ "$part" = captures ]; then
    objcopy --redefine-sym main=nlshow_main --redefine-sym rattle_arg=fuzz_arg \
        --redefine-sym read=fuzz_read --redefine-sym write=fuzz_write "$object" "$out/renamed.o" || exit 1
    object=$out/renamed.o
fi
clang -std=gnu11 -Wall -Wextra -Werror -g -O1 -fsanitize=fuzzer,address \
    -I "$ffi/include" -o "$out/fuzz" "$part/fuzz.c" "$object" "$kit/c/libos_c.a" "$kit/c/liblibc_c.a" || exit 1
./seeds.py "$out/seeds" "$part" || exit 1
exec "$out/fuzz" -max_total_time="${1:-600}" -max_len=131072 -timeout=60 -artifact_prefix="$out/" "$out/corpus" "$out/seeds"
