#!/bin/bash
# The package in Debian 13, each machine booted with systemd: a quota server and two mail hosts from nothing to the first 550 by INSTALL's words, an upgrade
# while mail is sent, a removal, a purge, and an installation over the old ledger. installs.py says what has to hold.
#
# usage: run.sh [PACKAGE]    by default the one that `make deb` made
#        WITHOUT_SYSTEMD=1 run.sh ..    without booting: maintainer scripts, and the lines of units that start something; so too where systemd does not boot
#
# bases.sh says what it wants. All but the folders there is in namespaces of its own, and all processes end with it.
set -euo pipefail

here=$(cd "$(dirname "$0")" && pwd)
version=$(sed -n '1s/.*(\(.*\)).*/\1/p' "$here/../../debian/changelog")
package=$(realpath "${1:-$here/../../dist/mailquota_${version}_amd64.deb}")
. "$here/bases.sh"

make_base plain make_plain
make_base mail with_packages mail opensmtpd
make_base lint with_packages lint lintian
install -m 644 "$package" "$root/lint/root/tried.deb"
if said=$(timeout 5m chroot "$root/lint" lintian --pedantic --allow-root /root/tried.deb 2>&1) && [ -z "$said" ]; then
    echo 'lintian --pedantic: nothing'
else
    printf 'NOT lintian --pedantic:\n%s\n' "$said"
    exit 1
fi
work=$(mktemp -d "$root/tried.XXXXXX")
trap 'rm -rf "$work"' EXIT

# package_at FOLDER UMASK ZONE JOBS: the package of the same texts, and of a small program, made in a tree in this folder
package_at() {
    mkdir -p "$1/tree"
    (cd "$here/../.." && cp -r CHANGELOG CONTRIBUTING.md LICENSE Makefile NOTICE README.md SECURITY.md contrib debian docs man "$1/tree")
    (cd "$1/tree" && umask "$2" && TZ=$3 LC_ALL=C timeout 5m make -j"$4" -f debian/rules binary PROGRAM="$(type -P true)" DIST="$1" >"$1/log" 2>&1) ||
        { tail -n 5 "$1/log" >&2 && return 1; }
    sha256sum <"$(ls "$1"/*.deb)"
}

first=$(package_at "$work/first" 022 UTC 1)
second=$(package_at "$work/second/elsewhere" 077 Asia/Tokyo 4)
if [ "$first" != "$second" ]; then
    echo "NOT the same package twice: $first and $second"
    exit 1
fi
echo 'the same package twice'
BASES=$root WORK=$work unshare --mount --net --pid --fork --kill-child --mount-proc python3 "$here/installs.py" "$package"
