#!/bin/sh
# release.sh [--fast] [FOLDER]: proves and builds a release, and writes it to the new folder FOLDER, which is release/ in
# the top folder if none is named:
#
#     nlroute-VERSION-MACHINE-linux.tar.gz     libraries, programs, headers, manuals, examples, both bindings (dist.sh)
#     nlroute-VERSION-py3-none-manylinux*.whl  the Python package, with the shared library
#     nlroute-VERSION.tar.gz                   the Python package, without it (sdist)
#     nlroute-VERSION.crate                    the Rust crate, with the static library
#     *.deb                                    Debian packages: libnlroute0.3, libnlroute-dev, nlshow, python3-nlroute
#     nlroute-VERSION.spdx.json                what the binaries are made of (SPDX 2.3)
#     SHA256SUMS                               the checksums of these
#
# With --fast nothing is proved, and the names say so, except that of the sdist, which has no binary. Versions are then
# lower, so no tool takes an unproved package in place of a proved one: 0.3.0~unproved for Debian, 0.3.0.dev0+unproved for
# Python, 0.3.0-unproved for Rust.
#
# Each package has the file CRATES, which lists the kit's crates that the binaries have code of, and the licences of these.
# For some, such as core and std, and for its C code, the kit has no licence text: before a release is published, its makers
# have to license these.
#
# If NLROUTE_PREFIX names a folder that tools/install.sh has installed to, nothing is built. One commit and the same tools
# give the same bytes. DEBFULLNAME and DEBEMAIL name the maintainer of the Debian packages.
#
# It needs what install.sh needs, GNU tar, gzip, git and Python 3.9; cargo for the crate; debhelper, dh-python and
# fakeroot for the Debian packages. What cannot be made is left out, and a line says so. It uses no network.
set -eu

fast=
if [ "${1-}" = --fast ]; then
    fast=--fast
    shift
fi
if [ $# -gt 1 ]; then
    echo "usage: extra/release.sh [--fast] [FOLDER]" >&2 && exit 2
fi
top=$(cd "$(dirname "$0")/.." && pwd)
to=${1:-$top/release}
if [ -e "$to" ]; then
    echo "release.sh: $to exists" >&2 && exit 2
fi
umask 022
mkdir -p "$(dirname "$to")"
to=$(cd "$(dirname "$to")" && pwd)/$(basename "$to")
room=$(mktemp -d)
trap 'rm -rf "$room"' EXIT
trap 'exit 1' INT TERM
made=$room/made
mkdir "$made"
SOURCE_DATE_EPOCH=$(git -C "$top" log -1 --format=%ct)
export SOURCE_DATE_EPOCH LC_ALL=C.UTF-8 TZ=UTC PYTHONDONTWRITEBYTECODE=1

# Whether there are the commands after the first word. Otherwise says that what the word names is left out.
has() {
    what=$1
    shift
    for it; do
        command -v "$it" >/dev/null || {
            echo "release.sh: there is no $it: $what left out" >&2
            return 1
        }
    done
}

# Makes the wheel and the sdist. (The folder of the package has the library beside it.)
python_package() (
    cd "$tree/python"
    NLROUTE_LIB_DIR='' python3 -c "import backend; backend.build_wheel('$made'); backend.build_sdist('$made')"
)

# Packs a folder, always to the same bytes, as dist.sh does.
pack() {
    tar --sort=name --format=ustar --owner=0 --group=0 --numeric-owner --mode=u=rwX,go=rX --mtime="@$SOURCE_DATE_EPOCH" \
        -cf "$1.tar" "$1"
    gzip -9n "$1.tar"
}

# Makes the crate.
crate() (
    cp -R "$tree/rust" "$tree/licences" "$room"
    cd "$room/rust"
    mv ../licences .
    mkdir native
    cp "$tree/lib/libnlroute.a" native
    sed -i "s/^version = \"$version\"$/version = \"$version${unproved:+-unproved}\"/" Cargo.toml
    CARGO_TARGET_DIR=$room/target cargo package --quiet --offline --allow-dirty --no-verify
    cd "$room/target/package"
    crate=$(basename ./*.crate .crate)
    tar -xf "$crate.crate"
    # new cargo writes this key, and old cargo warns of it; the table `lib` says as much
    sed -i '/^autolib = /d' "$crate/Cargo.toml"
    pack "$crate"
    mv "$crate.tar.gz" "$made/$crate.crate"
)

# Moves a tree to where Debian has its files, as $1/usr.
as_debian() {
    packages=$1/usr/lib/python3/dist-packages
    mkdir -p "$packages"
    cp -R "$tree/bin" "$tree/include" "$tree/share" "$1/usr"
    rm -r "$1/usr/share/doc"
    "$top/extra/release/manuals.py" --debian "$1/usr"
    cp -R "$tree/python/nlroute" "$packages"
    # importlib.metadata and pip find name and version there, as the wheel has them
    python3 -m zipfile -e "$made"/*.whl "$room/wheel"
    info=$packages/$(basename "$room"/wheel/*.dist-info)
    mkdir "$info"
    cp "$room"/wheel/*.dist-info/METADATA "$info"
    echo debian >"$info/INSTALLER"
    folder=lib/$(dpkg-architecture -q DEB_HOST_MULTIARCH)
    cp -R "$tree/lib" "$1/usr/$folder"
    sed -i "s,^prefix=.*,prefix=/usr,; s,^libdir=.*,libdir=\${prefix}/$folder," "$1/usr/$folder/pkgconfig/nlroute.pc"
}

# Makes the Debian packages.
debian() (
    maintainer="${DEBFULLNAME:-nlroute} <${DEBEMAIL:-nlroute@localhost}>"
    sources=$room/sources/nlroute
    mkdir -p "$sources"
    as_debian "$sources/files"
    cp -R "$top/extra/release/debian" "$sources"
    cp "$tree/python/CHANGELOG.md" "$sources/debian"
    cd "$sources"
    sed -i "s/@MAINTAINER@/$maintainer/" debian/control
    "$top/extra/release/copyright.py" "$tree" >debian/copyright
    cat >debian/changelog <<END
nlroute ($version${unproved:+~unproved}) UNRELEASED; urgency=medium

  * Commit $(git -C "$top" rev-parse HEAD).

 -- $maintainer  $(date -R -d "@$SOURCE_DATE_EPOCH")
END
    fakeroot debian/rules binary >"$room/said" 2>&1 || {
        cat "$room/said" >&2
        return 1
    }
    cp ../*.deb "$made"
)

prefix=${NLROUTE_PREFIX-}
if [ -z "$prefix" ]; then
    prefix=$room/prefix
    "$top/tools/install.sh" $fast "$prefix" >&2
fi
mark=$(sed -n 's/^build=//p' "$prefix/lib/pkgconfig/nlroute.pc")
version=$(sed -n 's/^Version: //p' "$prefix/lib/pkgconfig/nlroute.pc")
unproved=
case $mark in
*", unproved, "*) unproved=unproved ;;
esac
case $mark in
*" commit $(git -C "$top" rev-parse HEAD),"*) ;;
*) echo "release.sh: the library was built from another commit, or with changes: $mark" >&2 ;;
esac
tar=$("$top/extra/dist.sh" "$prefix" "$made" | tail -n 1)
tar -xf "$tar" -C "$room"
tree=$room/$(basename "$tar" .tar.gz)
python_package
! has "the crate is" cargo || crate
! has "the Debian packages are" dh dh_python3 fakeroot dpkg-deb || debian
"$top/extra/release/sbom.py" "$tree" >"$made/nlroute-$version${unproved:+-unproved}.spdx.json"
(cd "$made" && sha256sum -- * >"$room/sums")
mv "$room/sums" "$made/SHA256SUMS"
# (only now, when nothing has failed)
cp -R "$made" "$to"
echo "$to"
