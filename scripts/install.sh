#!/bin/sh
# Puts the built planner and its manual page in place: scripts/install.sh PREFIX, as /usr/local. Where the planner isn't
# built yet, or is older than one of its sources, `./migrate` builds it first. DESTDIR, if it is set, stands before PREFIX.
set -eu

if [ $# -ne 1 ]; then
    echo "usage: scripts/install.sh PREFIX" >&2
    exit 2
fi
here=$(dirname "$(dirname "$(readlink -f "$0")")")
to=${DESTDIR:-}$1

# A call that is answered, so that the planner is built and works.
triangle=$here/examples/triangle
"$here/migrate" check "$triangle/safe.txt" "$triangle/r1.cfg" "$triangle/r2.cfg" "$triangle/r3.cfg" >/dev/null

install -d "$to/bin" "$to/share/man/man1"
install -m 755 "$here/crates/migrate/out/migrate" "$to/bin/migrate"
install -m 644 "$here/docs/migrate.1" "$to/share/man/man1/migrate.1"
echo "$to/bin/migrate"
echo "$to/share/man/man1/migrate.1"
