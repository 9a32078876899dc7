#!/bin/bash
# usage: run.sh PROGRAM [BEFORE]     over tests/smtpd, whose needs it shares; wants rustc too
set -euo pipefail
here=$(cd "$(dirname "$0")" && pwd)
root=${SMTPD_ROOT:-/var/tmp/mailquota-smtpd}
[ -d "$root/etc/mailquota" ] || { echo "run 'make smtpd' first" >&2; exit 1; }
rustc -O --edition 2021 -o "$root/etc/mailquota/yes" "$here/yes.rs"
rm -f "$root/usr/sbin/mailquota-before"
[ -z "${2:-}" ] || install -m 755 "$2" "$root/usr/sbin/mailquota-before"
exec bash "$here/../../tests/smtpd/run.sh" "$1" "$here/recipients.py"
