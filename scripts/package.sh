#!/bin/sh
# Makes a Debian package of the planner and its manual page: scripts/package.sh [FOLDER]. The package is put into FOLDER,
# else into the folder of the call, and its name is printed. Its version is that of the program, which the manual page has too,
# and the date of the last commit.
set -eu

if [ $# -gt 1 ]; then
    echo "usage: scripts/package.sh [FOLDER]" >&2
    exit 2
fi
here=$(dirname "$(dirname "$(readlink -f "$0")")")
into=$(readlink -f "${1:-.}")
tree=$(mktemp -d)
trap 'rm -rf "$tree"' EXIT
chmod 755 "$tree"

DESTDIR=$tree "$here/scripts/install.sh" /usr >/dev/null
gzip -9n "$tree/usr/share/man/man1/migrate.1"

version=$(sed -n 's/^pub const VERSION: &str = "\(.*\)";$/\1/p' "$here/crates/migrate_words/src/version.rt")
if ! grep -qx "\.Os migrate $version" "$here/docs/migrate.1"; then
    echo "package.sh: the manual page isn't that of version $version" >&2
    exit 1
fi
date=$(git -C "$here" log -1 --format=%cd --date=format:%Y%m%d 2>/dev/null || true)
version=$version+${date:-0}
processor=$(dpkg --print-architecture)
# The C library that the program was built with, or a later one.
libc=$(dpkg-query -W -f '${Version}' libc6)
install -d "$tree/DEBIAN"
cat >"$tree/DEBIAN/control" <<CONTROL
Package: limpetplate
Version: $version
Architecture: $processor
Maintainer: Limpetplate maintainers <limpetplate@localhost>
Section: net
Priority: optional
Depends: libc6 (>= ${libc%%-*})
Installed-Size: $(du -sk --exclude=DEBIAN "$tree" | cut -f 1)
Description: planner for the move of a network from OSPF to IS-IS
 The program migrate reads the configurations of the routers of a network and
 plans their move from OSPF to IS-IS, router by router, so that no packet
 circles in between.
CONTROL
package=$into/limpetplate_${version}_$processor.deb
dpkg-deb --root-owner-group --build "$tree" "$package" >/dev/null
echo "$package"
