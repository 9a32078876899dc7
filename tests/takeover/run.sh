#!/bin/bash
# Two quota servers of which one has the address that two mail hosts ask: real smtpds, real keepalived, the files of contrib. The first server is killed,
# cut off, restarted, forgets a day and comes back, while logins send: takeover.py says what has to hold.
#
# Then once over WireGuard: tunnel.py.
#
# usage: run.sh PROGRAM [ROUNDS [SEED]]
#        ONLY=tunnel run.sh PROGRAM    the latter alone
#
# All takes twenty minutes. A program that isn't optimized, as `make demo` builds one, is too slow: its starts come to take a minute.
# tests/smtpd/root.sh says what it wants. All is in namespaces of its own, and all processes end with it.
set -euo pipefail

here=$(cd "$(dirname "$0")" && pwd)
program=$(realpath "$1")
shift
. "$here/../smtpd/root.sh"
make_root "$here/../.." "$program"
make_logins u01 u02 u03 u04 u05 u06 u07 u08
# (of `make smtpd`)
rm -f "$root"/var/lib/mailquota/*
work=$(mktemp -d "${TMPDIR:-/var/tmp}/mailquota-takeover.XXXXXX")
trap 'rm -rf "$work"' EXIT

# scene NAME WORDS..
scene() {
    mkdir "$work/$1"
    WORK=$work/$1 unshare --mount --net --pid --fork --kill-child --mount-proc python3 "$here/$1.py" "${@:2}"
}

# (the last line is of both, and a scene that breaks off has failed)
scenes=${ONLY:-takeover tunnel}
for it in $scenes; do
    scene "$it" "$@" || true
done | awk -v wanted="$(wc -w <<<"$scenes")" '
    /^[0-9]+ passed, [0-9]+ failed$/ { passed += $1; failed += $3; ended++; next }
    { print; fflush() }
    END { print passed + 0 " passed, " failed + wanted - ended " failed"; exit failed > 0 || ended < wanted }'
