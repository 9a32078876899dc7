#!/bin/bash
# An upgrade from the release that scripts/release.py names, in Debian 13, on two quota servers and two mail hosts by INSTALL's words, while mail is sent, and
# the way back. upgrades.py says what has to hold of that, and compare.py of what both programs print over the same ledgers.
#
# usage: run.sh [PACKAGE]    by default the one that `make deb` made
#        RELEASED=FILE run.sh ..    the release's package, where it isn't to be made
#
# tests/package/bases.sh says what it wants. The release's package is kept in its folder too: it is made once, in minutes, of a program without proofs.
# All else is in namespaces of its own, and all processes end with it.
set -euo pipefail

here=$(cd "$(dirname "$0")" && pwd)
version=$(sed -n '1s/.*(\(.*\)).*/\1/p' "$here/../../debian/changelog")
package=$(realpath "${1:-$here/../../dist/mailquota_${version}_amd64.deb}")
. "$here/../package/bases.sh"
released=${RELEASED:-$(python3 "$here/../../scripts/release.py" "$root")}

make_base plain make_plain
make_base mail with_packages mail opensmtpd
make_base turns with_packages turns keepalived
work=$(mktemp -d "$root/tried.XXXXXX")
trap 'rm -rf "$work"' EXIT
BASES=$root WORK=$work unshare --mount --net --pid --fork --kill-child --mount-proc python3 "$here/upgrades.py" "$released" "$package"
