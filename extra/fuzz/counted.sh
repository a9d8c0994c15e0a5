#!/bin/sh
# counted.sh CRATE OBJECT: builds the static library in the folder CRATE as `rt lib` does, and the same code once more,
# with the counters of libFuzzer, as OBJECT. For that a copy of the kit, made of links, has a script for its clang,
# which calls that clang twice on an LLVM module. The library itself, CRATE/out/lib*.a, has no counters.
kit=$(dirname "$(rt doc)")
object=$(realpath "$2")
cd "$1" || exit 1
room=$(mktemp -d) || exit 1
trap 'rm -rf "$room"' EXIT
trap 'exit 1' INT TERM

mkdir -p "$room/toolchain/bin"
ln -s "$kit"/* "$room" 2>/dev/null
ln -s "$kit/toolchain/lib" "$room/toolchain"
ln -s "$kit"/toolchain/bin/* "$room/toolchain/bin"
rm "$room/bin" "$room/toolchain/bin/clang"
cp -R "$kit/bin" "$room"
cat >"$room/toolchain/bin/clang" <<END
#!/bin/sh
case " \$* " in
*" -x ir "*) '$kit/toolchain/bin/clang' "\$@" -fsanitize=fuzzer-no-link -o '$object' || exit ;;
esac
exec '$kit/toolchain/bin/clang' "\$@"
END
chmod +x "$room/toolchain/bin/clang"
rm -f "$object"
"$room/bin/rt" lib >&2 || exit 1
[ -f "$object" ]
