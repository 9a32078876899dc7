# For the scripts of tests/smtpd and tests/takeover, which source it: a folder with an OpenSMTPD from Debian, and mailquota installed there.
#
# It wants root, debootstrap, openssl, ip and python3, and once the mirror of Debian that the machine's own package list names: OpenSMTPD 7.6
# speaks protocol 0.7, and what older suites have doesn't. The folder is kept in SMTPD_ROOT (/var/tmp/mailquota-smtpd). Nothing outside it is changed.
root=${SMTPD_ROOT:-/var/tmp/mailquota-smtpd}
export SMTPD_ROOT=$root
etc=$root/etc/mailquota

# make_root TOP PROGRAM: the folder, with the program and contrib's files as `make install` puts them
make_root() {
    local mirror
    mirror=$(cat /etc/apt/sources.list /etc/apt/sources.list.d/* 2>/dev/null | grep -v '^#' |
        grep -oE 'https?://[^ ]+/debian/?' | head -n 1 || true)
    if [ "$(id -u)" -ne 0 ]; then
        echo 'smtpd wants root' >&2
        exit 1
    fi
    if [ ! -x "$root/usr/sbin/smtpd" ] || [ ! -x "$root/usr/sbin/keepalived" ] || [ ! -x "$root/usr/bin/wg" ]; then
        if [ -z "$mirror" ]; then
            echo "the machine's package list names no mirror of Debian, so there is no smtpd to fetch" >&2
            exit 1
        fi
        rm -rf "$root"
        timeout 30m debootstrap --variant=minbase --include=opensmtpd,ca-certificates,keepalived,iproute2,nftables,wireguard-tools,wireguard-go,tcpdump trixie "$root" "$mirror" >&2
    fi
    mkdir -p "$etc"
    printf '#!/bin/sh\nexit 101\n' >"$root/usr/sbin/policy-rc.d"
    chmod +x "$root/usr/sbin/policy-rc.d"
    : >"$root/etc/resolv.conf"
    echo quota.test >"$root/etc/mailname"
    make -s -C "$1" install PROGRAM="$2" DESTDIR="$root" PREFIX=/usr
    [ -f "$etc/key.pem" ] || openssl req -x509 -newkey rsa:2048 -nodes -days 3650 -subj /CN=quota.test \
        -keyout "$etc/key.pem" -out "$etc/cert.pem" 2>/dev/null
    chmod 600 "$etc/key.pem"
}

# make_logins NAME..: their credentials, with the password `secret`, where the tests' and contrib's smtpd.conf look for them, and its certificate
make_logins() {
    local login secret
    secret=$(openssl passwd -6 secret)
    for login in "$@"; do
        printf '%s %s\n' "$login" "$secret"
    done >"$etc/credentials"
    chmod 644 "$etc/credentials"
    mkdir -p "$root/etc/mail" "$root/etc/ssl/private"
    install -m 644 "$etc/credentials" "$root/etc/mail/credentials"
    install -m 644 "$etc/cert.pem" "$root/etc/ssl/mx1.example.org.crt"
    install -m 600 "$etc/key.pem" "$root/etc/ssl/private/mx1.example.org.key"
}
