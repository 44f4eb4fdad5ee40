#!/bin/sh
# Makes a package of Debian by debhelper, of what `make install` installs: packaging/deb.sh VERSION [FOLDER]. It needs the package debhelper.
# Two runs over one build make the same bytes: all moments are SOURCE_DATE_EPOCH, or that of the last commit.
set -eu
version=$1
SOURCE=$(cd "$(dirname "$0")/.." && pwd)
mkdir -p "${2:-out}"
folder=$(cd "${2:-out}" && pwd)
command -v dh > /dev/null || { echo "dh isn't there: apt-get install debhelper" >&2; exit 1; }
: "${SOURCE_DATE_EPOCH:=$(git -C "$SOURCE" log -1 --format=%ct 2> /dev/null || stat -c %Y "$SOURCE/CHANGELOG.md")}"
export SOURCE SOURCE_DATE_EPOCH

work=$(mktemp -d)
trap 'rm -rf "$work"' EXIT
mkdir "$work/mcserver"
cp -r "$SOURCE/packaging/debian" "$work/mcserver/debian"
cd "$work/mcserver"
cat > debian/changelog <<END
mcserver ($version) unstable; urgency=medium

  * See changelog.gz.

 -- mcserver's maintainers <maintainers@mcserver.invalid>  $(LC_ALL=C date -u -R -d "@$SOURCE_DATE_EPOCH")
END
{
    echo "Format: https://www.debian.org/doc/packaging-manuals/copyright-format/1.0/"
    echo
    echo "Files: *"
    echo "Copyright: 2026 the mcserver authors, and those of the crates that are named below"
    echo "License: Expat"
    sed 's/^$/./; s/^/ /' "$SOURCE/LICENSE"
} > debian/copyright
debian/rules binary > "$work/log" 2>&1 || { cat "$work/log" >&2; exit 1; }
cp "$work/mcserver_${version}_amd64.deb" "$folder/"
echo "$folder/mcserver_${version}_amd64.deb"
