#!/usr/bin/env bash
# packaging/package.sh PROGRAM VERSION
#
# Makes the Debian package rpq_VERSION_ARCHITECTURE.deb of a built program, in the current folder:
# the program without its symbols, and all else that packaging/install.sh installs.
set -eu
[ $# -eq 2 ] || { echo "usage: packaging/package.sh PROGRAM VERSION" >&2; exit 1; }
program="$1"
version="$2"
top="$(cd "$(dirname "$0")/.." && pwd)"
place="$(mktemp -d)"
trap 'rm -rf "$place"' EXIT
chmod 755 "$place"
architecture="$(dpkg --print-architecture)"

"$top/packaging/install.sh" "$place/usr" "$program" > /dev/null
strip "$place/usr/bin/rpq"
gzip -9n "$place/usr/share/man/man1/rpq.1"
mkdir "$place/DEBIAN"
cat > "$place/DEBIAN/control" <<END
Package: rpq
Version: $version
Architecture: $architecture
Maintainer: the rpq authors <rpq@localhost>
Depends: libc6
Recommends: python3
Section: utils
Priority: optional
Description: path queries over streams of edges
 Reads streams of edges and reports, after each edge, which pairs of vertices are
 joined by a path of a given kind from now on, and which no longer are.
END
dpkg-deb --root-owner-group --build "$place" "rpq_${version}_$architecture.deb"
