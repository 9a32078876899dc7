# For the scripts of tests/package and tests/upgrade, which source it: folders with systems of Debian 13, from which their machines are copied.
#
# It wants root, debootstrap, systemd-container, iproute2, openssl and python3, and once the mirror of Debian that the machine's own package list names.
# The folders are kept in PACKAGE_ROOT (/var/tmp/mailquota-package).
root=${PACKAGE_ROOT:-/var/tmp/mailquota-package}
mirror=$(cat /etc/apt/sources.list /etc/apt/sources.list.d/* 2>/dev/null | grep -v '^#' | grep -oE 'https?://[^ ]+/debian/?' | head -n 1 || true)
if [ "$(id -u)" -ne 0 ]; then
    echo "$(basename "$(dirname "$0")") wants root" >&2
    exit 1
fi
mkdir -p "$root"

# make_base NAME COMMAND..: the folder of a system, which this command makes in NAME.part
make_base() {
    local name=$1
    shift
    if [ ! -d "$root/$name" ]; then
        if [ -z "$mirror" ]; then
            echo "the machine's package list names no mirror of Debian to fetch a system from" >&2
            exit 1
        fi
        rm -rf "$root/$name.part"
        "$@" >&2
        mv "$root/$name.part" "$root/$name"
    fi
}

make_plain() {
    timeout 30m debootstrap --variant=minbase --include=systemd-sysv,dbus,ca-certificates,iproute2,nftables trixie "$root/plain.part" "$mirror"
}

# with_packages NAME PACKAGES..: the plain system with these
with_packages() {
    local part=$root/$1.part
    shift
    cp -a "$root/plain" "$part"
    printf '#!/bin/sh\nexit 101\n' >"$part/usr/sbin/policy-rc.d"
    chmod +x "$part/usr/sbin/policy-rc.d"
    timeout 30m chroot "$part" env DEBIAN_FRONTEND=noninteractive apt-get install -y --no-install-recommends "$@"
    rm "$part/usr/sbin/policy-rc.d"
}
