#!/bin/sh
# Makes a Debian package of a release. It needs dpkg-deb.
# usage: deb.sh RELEASE VERSION FILE.deb
# ARCH in the environment is the package's architecture where it isn't this machine's. MAINTAINER is who is named in it.
# exit: 0 FILE.deb, which wasn't there, is made; 1 the release isn't whole, or it can't be made; 2 the words are wrong
set -eu
if [ $# != 3 ] || [ ! -d "$1" ] || [ -e "$3" ]; then
    echo "usage: deb.sh RELEASE VERSION FILE.deb, which isn't there yet" >&2
    exit 2
fi
case $2 in
    [0-9]*) ;;
    *) echo 'deb.sh: a version begins with a digit' >&2; exit 2 ;;
esac
command -v dpkg-deb > /dev/null || { echo 'deb.sh: dpkg-deb is missing' >&2; exit 2; }
work=$(mktemp -d)
trap 'rm -rf "$work"' EXIT
trap 'exit 1' HUP INT TERM
chmod 755 "$work"
mkdir "$work/DEBIAN"
"$(dirname "$0")/install.sh" "$1" "$work" || exit 1
cat > "$work/DEBIAN/control" <<END
Package: update-client
Version: $2
Architecture: ${ARCH:-$(dpkg --print-architecture)}
Maintainer: ${MAINTAINER:-nobody <nobody@localhost>}
Depends: libc6 (>= 2.34)
Section: admin
Priority: optional
Description: device side of a Mender update without a server
 Installs an unpacked artifact through update modules and state scripts, and goes on
 after a loss of power. The package brings the client, two modules, what says who
 signed an artifact, and a boot script with its unit, which is not enabled.
END
dpkg-deb --root-owner-group -Zgzip --build "$work" "$3" > /dev/null || { rm -f "$3"; exit 1; }
