#!/bin/sh
# Puts a release into a root: the programs, the man pages, the boot script with its unit, and the rule by which systemd makes the
# data folder. deb.sh and the recipe of Yocto use it; a maker with another way may too.
# usage: install.sh RELEASE ROOT
# exit: 0 all is in ROOT, which was there; 1 a file of the release is missing or ROOT can't be written; 2 the words are wrong
set -eu
if [ $# != 2 ] || [ ! -d "$1" ] || [ ! -d "$2" ]; then
    echo 'usage: install.sh RELEASE ROOT' >&2
    exit 2
fi
here=$(cd "$(dirname "$0")" && pwd)
put() {
    install -D -m "$1" "$2" "$3" || exit 1
}
put 755 "$1/client_cli" "$2/usr/sbin/client_cli"
[ ! -e "$1/signed_cli" ] || put 755 "$1/signed_cli" "$2/usr/sbin/signed_cli"
put 755 "$here/../unpack.sh" "$2/usr/sbin/unpack.sh"
put 755 "$here/boot.sh" "$2/usr/sbin/update-boot"
for module in file_module_cli ab_image_cli; do
    put 755 "$1/$module" "$2/usr/lib/update-client/$module"
done
for page in client_cli signed_cli; do
    put 644 "$here/../../docs/$page.1" "$2/usr/share/man/man1/$page.1"
done
put 644 "$here/update-boot.service" "$2/usr/lib/systemd/system/update-boot.service"
put 644 "$here/tmpfiles.conf" "$2/usr/lib/tmpfiles.d/update-client.conf"
put 644 "$1/about" "$2/usr/share/doc/update-client/about"
