#!/bin/sh
# dist.sh PREFIX [FOLDER]: packs what tools/install.sh has installed in PREFIX, and nothing else that is there, so that
# machines without the kit can use it. The result is FOLDER/nlroute-VERSION-MACHINE-linux.tar.gz. FOLDER is out/ if none
# is named. The name of an unproved build has `-unproved` after the version. The last line is the path.
#
# It adds a README, the changelog, manuals and examples, the sources of both bindings, which use the library beside them, and
# licences: that of this repository, and those of the kit's crates, as the binaries have code of them. The same PREFIX and
# commit give the same bytes: names are sorted, and owner and times fixed. The time is that of the commit, or
# SOURCE_DATE_EPOCH if it is set. It needs GNU tar, gzip, git, binutils and Python 3.
set -eu

if [ $# = 0 ] || [ $# -gt 2 ]; then
    echo "usage: extra/dist.sh PREFIX [FOLDER]" >&2 && exit 2
fi
top=$(cd "$(dirname "$0")/.." && pwd)
prefix=$(cd "$1" && pwd)
mkdir -p "${2:-$top/out}"
to=$(cd "${2:-$top/out}" && pwd)
kit=$(dirname "$(rt doc)")
date=${SOURCE_DATE_EPOCH:-$(git -C "$top" log -1 --format=%ct)}
version=$(sed -n 's/^Version: //p' "$prefix/lib/pkgconfig/nlroute.pc")
series=${version%.*}
unproved=
proved="Every function of the library and of the programs is proved to be safe and to meet its contract, in builds that say
proved; the Rust and Python packages are only tested. This build says proved. nlroute.h has what is proved of the C
functions, for callers that meet its requirements. The toolchain and its C code are trusted."
if grep -q 'unproved build' "$prefix/lib/pkgconfig/nlroute.pc"; then
    unproved=-unproved
    proved="Every function of the library and of the programs is proved to be safe and to meet its contract, in builds that say
proved; the Rust and Python packages are only tested. This build says unproved: nothing of it is proved. Use it only to
try the library."
fi
name=nlroute-$version$unproved-$(uname -m)-linux
room=$(mktemp -d)
trap 'rm -rf "$room"' EXIT
trap 'exit 1' INT TERM

# Prints the kit's crates that the library and the programs have code of, in order.
crates_of_kit() {
    crates="nlroute_ffi nlroute nlshow"
    : >"$room/crates"
    while [ -n "$crates" ]; do
        below=
        for crate in $crates; do
            ! grep -qx "$crate" "$room/crates" || continue
            echo "$crate" >>"$room/crates"
            format=$kit/rlibs/$crate.rlib/format
            if [ -f "$format" ]; then
                echo "$crate"
                below="$below $(sed -n 's/^dep //p' "$format")"
            else
                below="$below $(sed -n "s/#.*//; s/^$crate\\( [a-z]*\\)*: *//p" "$top/crates.txt")"
            fi
        done
        crates=${below# }
    done | LC_ALL=C sort
}

# Copies the licence texts of these crates to the folder licences, and writes CRATES there, which lists them.
licences() {
    cat <<END
Names and behaviour of nlroute follow the Rust crate netlink-packet-route (MIT, Copyright (c) The netlink-packet-route
Contributors).

The binaries have code of these crates of Rattle's kit, and of its two C archives. Beside each crate are the files of this
folder that have its licence. For the others, and for the C archives, the kit has no licence text.

END
    for crate in $(crates_of_kit); do
        texts=$(cd "$kit/rattle" && echo "$crate"/LICENSE*)
        case $texts in
        *\*) texts=none ;;
        *) install -D -m 644 -t "$crate" "$kit/rattle/$crate"/LICENSE* ;;
        esac
        printf '  %-20s %s\n' "$crate" "$texts"
    done
}

# Prints the README.
readme() {
    glibc=$(objdump -T "$prefix"/bin/nl* "$prefix/lib/libnlroute.so" | grep -o 'GLIBC_[0-9.]*' | sort -uV | tail -n 1)
    cat <<END
nlroute $version$unproved

Linux describes a bond, a bridge or a VLAN device in netlink messages, by lists of attributes such as IFLA_INFO_DATA. The
program nlshow prints such messages, live or from captures, as text or JSON. The library nlroute finds the lists in messages,
checks, reads, changes and writes them, and writes requests, from C, C++, Rust and Python. The program nlroute decodes a list
and encodes it again. They cover the devices and ports of share/doc/nlroute/families.md, with what links of every kind have.
They open no sockets: you bring the bytes.

$proved

The toolchain was $(rt version).

It needs Linux, glibc ${glibc#GLIBC_} or later, and a processor of level x86-64-v2.

Contents

  include/                the C API
  lib/libnlroute.a        the static library
  lib/libnlroute.so       the shared object
  lib/pkgconfig/          its description for pkg-config
  bin/                    the programs
  share/man/              their man pages, and nlroute(3) for C
  share/doc/nlroute/      manuals: c.md, rust.md and python.md for the library, programs.md and json.md for the programs,
                          messages.md and families.md for all; examples/ in C and C++
  share/jq/               nlshow.jq: functions for jq, which reads what nlshow --format json prints
  rust/, python/          the Rust crate and the Python package, each with its examples
  CHANGELOG.md            what has changed
  licences/               which other code is in the binaries, and its licences

How a binary was built, readelf -p .note.nlroute FILE prints: version, proved or unproved, commit and toolchain.

Use

The folder can be anywhere. Here, it is the current one:

  export PKG_CONFIG_PATH=\$PWD/lib/pkgconfig LD_LIBRARY_PATH=\$PWD/lib
  cc main.c \$(pkg-config --cflags --libs nlroute)

The program loads libnlroute.so.$series, from LD_LIBRARY_PATH or from a folder that ldconfig knows. Without pkg-config
and without the shared object:

  cc -I include main.c lib/libnlroute.a

From Rust, with the static library; the path in Cargo.toml is that of the folder rust:

  [dependencies]
  nlroute = { path = "../$name/rust" }

From Python, from 3.9 on: the package that is installed contains the shared object:

  pip install ./python

The man pages: man -l share/man/man1/nlshow.1, or share/man/man3/nlroute.3 for the C API

Licence

MIT: see LICENSE. The binaries also contain code of Rattle's kit: licences/CRATES lists it.
END
}

mkdir -p "$room/$name/licences" "$room/$name/rust" "$room/$name/python"
readme >"$room/$name/README"
cp "$top/LICENSE" "$room/$name"
cd "$room/$name/licences"
licences >"$room/list"
mv "$room/list" CRATES
cd "$top/bindings/rust"
cp -R --parents Cargo.toml LICENSE README.md build.rs src "$room/$name/rust"
install -D -m 644 -t "$room/$name/rust/include" "$top/crates/nlroute_ffi/include/nlroute_kinds.h"
cd "$top/bindings/python"
cp -R --parents LICENSE README.md backend.py pyproject.toml nlroute/*.py nlroute/py.typed "$room/$name/python"
cd "$prefix"
tar -cf "$room/files.tar" bin/nlroute bin/nlshow include/nlroute*.h lib/libnlroute.a lib/libnlroute.so \
    "lib/libnlroute.so.$series" "lib/libnlroute.so.$version" lib/pkgconfig/nlroute.pc \
    share/man/man1/nlroute.1 share/man/man1/nlshow.1 share/man/man3/nlroute.3 share/jq/nlshow.jq
tar -xf "$room/files.tar" -C "$room/$name"
"$top/extra/release/manuals.py" "$room/$name"
cd "$room"
tar --sort=name --format=ustar --owner=0 --group=0 --numeric-owner --mode=u=rwX,go=rX --mtime="@$date" \
    -cf "$name.tar" "$name"
gzip -9n "$name.tar"
mv "$name.tar.gz" "$to"
echo "$to/$name.tar.gz"
