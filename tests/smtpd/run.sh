#!/bin/bash
# A real smtpd with a listener for each of several hosts, and one quota server: shows what is asked and answered by
# SMTP.
#
# usage: run.sh PROGRAM [SCRIPT [WORDS..]]
#
# root.sh says what it wants. No address but the loopback of a network namespace of its own is used, and all processes end with it.
set -euo pipefail

here=$(cd "$(dirname "$0")" && pwd)
program=$(realpath "$1")
script=${2:-$here/ask.py}
shift $(($# < 2 ? $# : 2))
. "$here/root.sh"
make_root "$here/../.." "$program"
make_logins u01 u02 u03 u04 u05 u06 u07 u08 u09
for host in 1 2 3; do
    cat >"$etc/filter$host.toml" <<FILTER
host = "mx$host.quota.test"
server = "127.0.0.1:7025"
tries = 2
timeout = 1000
FILTER
done
rm -f "$root"/var/lib/mailquota/*
mkdir -p "$root/var/lib/mailquota"
for kind in memory:memory file:/var/lib/mailquota/tested; do
    cat >"$etc/server-${kind%%:*}.toml" <<SERVER
listen = "127.0.0.1:7025"
store = "${kind#*:}"
default = 3
offset = 0
timeout = 500
SERVER
done
cat >"$etc/smtpd.conf" <<'CONF'
pki quota.test cert "/etc/mailquota/cert.pem"
pki quota.test key "/etc/mailquota/key.pem"
table credentials file:/etc/mailquota/credentials
filter quota1 proc-exec "/usr/sbin/mailquota filter --config /etc/mailquota/filter1.toml"
filter quota2 proc-exec "/usr/sbin/mailquota filter --config /etc/mailquota/filter2.toml"
filter quota3 proc-exec "/usr/sbin/mailquota filter --config /etc/mailquota/filter3.toml"
filter spelling proc-exec "filter-one-spelling"
filter both chain { spelling, quota3 }
listen on 127.0.0.1 port 2501 tls pki quota.test auth-optional <credentials> filter quota1
listen on 127.0.0.1 port 2502 tls pki quota.test auth-optional <credentials> filter quota2
listen on 127.0.0.1 port 2503 tls pki quota.test auth-optional <credentials> filter both
action "sink" mda "cat >/dev/null" virtual { "@" = nobody }
match from any for any action "sink"
CONF

# contrib's files where they say that they belong, and unchanged
install -m 644 "$here/../../contrib/smtpd.conf" "$root/etc/mail/smtpd.conf"
install -m 644 "$here/../../contrib/filter.toml" "$root/etc/mailquota/filter.toml"
install -m 644 "$here/../../contrib/server.toml" "$root/etc/mailquota/server.toml"

exec unshare --mount --net --pid --fork --kill-child --mount-proc bash -c '
    ip link set lo up
    ip address add 192.0.2.1/32 dev lo
    ip address add 192.0.2.7/32 dev lo
    mount --bind /proc "$SMTPD_ROOT/proc"
    mount --bind /dev "$SMTPD_ROOT/dev"
    exec python3 "$@"' smtpd "$script" "$@"
