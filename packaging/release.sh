#!/bin/sh
# Makes what a release offers, of the program that is built: packaging/release.sh VERSION [FOLDER]. `make release` calls it.
#   mcserver_VERSION-1_amd64.deb       the package of Debian; left out where debhelper isn't installed
#   mcserver-VERSION-x86_64.tar.xz     the program, its manual page, its documents and licence
#   SHA256SUMS, BUILD                  checksums of both, and the commit and the toolchain that the program was built of
set -eu
version=$1
SOURCE=$(cd "$(dirname "$0")/.." && pwd)
PROGRAM=${PROGRAM:-$SOURCE/crates/mc_server/out/mc_server}
test -x "$PROGRAM" || { echo "$PROGRAM isn't there: run make build first" >&2; exit 1; }
mkdir -p "${2:-out/release}"
folder=$(cd "${2:-out/release}" && pwd)
: "${SOURCE_DATE_EPOCH:=$(git -C "$SOURCE" log -1 --format=%ct 2> /dev/null || stat -c %Y "$SOURCE/CHANGELOG.md")}"
export SOURCE_DATE_EPOCH

work=$(mktemp -d)
trap 'rm -rf "$work"' EXIT
name=mcserver-$version-x86_64
make -s -C "$SOURCE" install PROGRAM="$PROGRAM" DESTDIR="$work/root" PREFIX=/usr
mkdir "$work/$name"
cp "$work/root/usr/bin/mcserver" "$work/root/usr/share/man/man1/mcserver.1" "$work/$name/"
cp -r "$work/root/usr/share/doc/mcserver" "$work/$name/doc"
tar --sort=name --owner=0 --group=0 --numeric-owner --mtime="@$SOURCE_DATE_EPOCH" -C "$work" -cJf "$folder/$name.tar.xz" "$name"
if command -v dh > /dev/null; then
    PROGRAM=$PROGRAM sh "$SOURCE/packaging/deb.sh" "$version-1" "$folder" > /dev/null
else
    echo "no package is made: dh isn't there (apt-get install debhelper)" >&2
fi
cp "$(dirname "$PROGRAM")/BUILD" "$folder/BUILD" 2> /dev/null || echo "no BUILD beside $PROGRAM: make build writes it" >&2
cd "$folder"
set -- "$name.tar.xz"
test ! -f "mcserver_$version-1_amd64.deb" || set -- "$@" "mcserver_$version-1_amd64.deb"
sha256sum "$@" > SHA256SUMS
ls "$folder"
