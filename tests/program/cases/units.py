"""What the units, the drop-in and the settings of contrib have to say, and what systemd says of
them where it is there."""
import os
import re
import shutil
import subprocess
import time

from cases.contrib import text_of
from cases.filters import PROCEED
from cases.rules import CENTRAL_EUROPE
from ends import TOP, Server, soon
from smtpd import TOKEN, Smtpd, result

# The values of a key, in their order: a later one would count in place of an earlier one, or in
# addition.
SERVER = {
    "Unit": {
        "Wants": ["network-online.target"],
        "After": ["network-online.target"],
        # it is restarted however often it ends
        "StartLimitIntervalSec": ["0"],
    },
    "Service": {
        # (else both it and what waits for it would make the folder, and one of them fail)
        "Type": ["exec"],
        # started once it answers, and never killed while it reads its ledger
        "ExecStart": ["/usr/sbin/mailquota server --config /etc/mailquota/server.toml --endless"],
        "ExecStartPost": ["/usr/libexec/mailquota/await-server /etc/mailquota/server.toml"],
        "TimeoutStartSec": ["infinity"],
        # it ends only by a fault or a signal
        "Restart": ["always"],
        "RestartSec": ["1"],
        # nobody else reaches it, whatever the packet filter lets through, but whom addresses.conf
        # adds
        "IPAddressDeny": ["any"],
        "IPAddressAllow": ["localhost"],
        # the ledger belongs to it alone
        "DynamicUser": ["yes"],
        "User": ["mailquota"],
        "StateDirectory": ["mailquota"],
        "StateDirectoryMode": ["0700"],
        "UMask": ["0077"],
        # what it may take of the machine
        "MemoryMax": ["1G"],
        "TasksMax": ["8"],
        # what it may do there
        "CapabilityBoundingSet": [""],
        "NoNewPrivileges": ["yes"],
        "LockPersonality": ["yes"],
        "MemoryDenyWriteExecute": ["yes"],
        "PrivateDevices": ["yes"],
        "PrivateTmp": ["yes"],
        "PrivateUsers": ["yes"],
        "ProcSubset": ["pid"],
        "ProtectProc": ["invisible"],
        "ProtectClock": ["yes"],
        "ProtectControlGroups": ["yes"],
        "ProtectHome": ["yes"],
        "ProtectHostname": ["yes"],
        "ProtectKernelLogs": ["yes"],
        "ProtectKernelModules": ["yes"],
        "ProtectKernelTunables": ["yes"],
        "ProtectSystem": ["strict"],
        "RestrictAddressFamilies": ["AF_INET AF_INET6"],
        "RestrictNamespaces": ["yes"],
        "RestrictRealtime": ["yes"],
        "RestrictSUIDSGID": ["yes"],
        # (a new log gets the owner of its database file)
        "SystemCallArchitectures": ["native"],
        "SystemCallFilter": ["@system-service", "~@privileged @resources", "@chown"],
    },
    "Install": {"WantedBy": ["multi-user.target"]},
}
# smtpd ends with status 0 where its filter ends, and starts also where a retire fails, but not with
# settings that it can't use
RESTARTS = {
    "Unit": {
        "Wants": ["network-online.target"],
        "After": ["network-online.target wg-quick@quota.service"],
        "StartLimitIntervalSec": ["0"],
    },
    "Service": {
        "ExecStartPre": ["/usr/sbin/smtpd -n", "-/usr/sbin/mailquota retire"],
        "Restart": ["always"],
        "RestartSec": ["1"],
    },
}
# What mails logins near their limits is as shut off as the server, but that it reads the log, and
# that sendmail speaks to smtpd.
MAILS = {
    "Unit": {
        # (a start without an address fails, and says so)
        "AssertFileNotEmpty": ["/etc/mailquota/mail-to"],
        "StartLimitIntervalSec": ["0"],
    },
    "Service": {
        **{
            key: values
            for key, values in SERVER["Service"].items()
            if key not in ("ExecStartPost", "TimeoutStartSec", "ProcSubset")
        },
        "ExecStart": ["/usr/libexec/mailquota/limit-mails /etc/mailquota/mail-to"],
        "RestartSec": ["10"],
        "RestartPreventExitStatus": ["2"],
        "IgnoreSIGPIPE": ["no"],
        "User": ["mailquota-mail"],
        "Group": ["opensmtpq"],
        "SupplementaryGroups": ["systemd-journal"],
        "StateDirectory": ["mailquota-mail"],
        "MemoryMax": ["200M"],
        "TasksMax": ["24"],
        "RestrictAddressFamilies": ["AF_UNIX AF_INET AF_INET6"],
        # (OpenSMTPD's sendmail gives up its group)
        "SystemCallFilter": ["@system-service", "~@privileged @resources", "@setuid"],
    },
    "Install": {"WantedBy": ["multi-user.target"]},
}
# what gives the address to the server that answers: root's, but for WireGuard's settings without a
# right
TAKEOVER = {
    "Unit": {
        "Wants": ["wg-quick@quota.service"],
        "After": ["wg-quick@quota.service"],
        "StartLimitIntervalSec": ["0"],
    },
    "Service": {
        "ExecStart": [
            "/usr/libexec/mailquota/wireguard-takeover quota 10.70.25.7 10.70.25.5 10.70.25.6"
        ],
        "Restart": ["always"],
        "RestartSec": ["1"],
        "CapabilityBoundingSet": ["CAP_NET_ADMIN"],
        "NoNewPrivileges": ["yes"],
        "ProtectHome": ["yes"],
        "ProtectSystem": ["strict"],
    },
    "Install": {"WantedBy": ["multi-user.target"]},
}
UNITS = {
    "mailquota.service": SERVER,
    "mailquota-mail.service": MAILS,
    "wireguard-takeover.service": TAKEOVER,
    "addresses.conf": {"Service": {"IPAddressAllow": ["192.0.2.0/24"]}},
    # (neither the folder nor its owner keeps the server from starting)
    "metrics.conf": {
        "Service": {
            "ReadWritePaths": ["-/var/lib/prometheus/node-exporter"],
            "ExecStartPre": [
                "-+/bin/chown --reference=/var/lib/mailquota/. /var/lib/prometheus/node-exporter"
            ],
        }
    },
    "smtpd-restart.conf": RESTARTS,
}
OF_KEEPALIVED = [
    "enable_script_security",
    "script_user nobody nogroup",
    'script "/usr/libexec/mailquota/keepalived-check"',
    "interval 1",
    "timeout 1",
    "fall 3",
    "rise 2",
    "init_fail",
    "state BACKUP",
    "virtual_router_id 70",
    "advert_int 1",
    "garp_master_refresh 1",
    "192.0.2.7/32",
    "answers",
]
LINES = {
    "keepalived-first.conf": [
        *OF_KEEPALIVED,
        "priority 150",
        "preempt_delay 60",
        "unicast_src_ip 192.0.2.5",
        "192.0.2.6",
    ],
    "keepalived-second.conf": [
        *OF_KEEPALIVED,
        "priority 100",
        "unicast_src_ip 192.0.2.6",
        "192.0.2.5",
    ],
}
# What names its device, and what its settings stand in.
BLOCKS_IN_ORDER = [
    "global_defs {",
    "}",
    "vrrp_script answers {",
    "}",
    "vrrp_instance mailquota {",
    "interface eth0",
    "unicast_peer {",
    "}",
    "virtual_ipaddress {",
    "}",
    "track_script {",
    "}",
    "}",
]
BLOCKS = {*BLOCKS_IN_ORDER}
# What a unit says of itself.
DESCRIBED = {"Description", "Documentation"}
# The first that fits counts.
RULES = [
    "type filter hook input priority filter; policy accept;",
    'iif "lo" accept',
    "# uncomment this with a tunnel, whose addresses are those above then",
    '#tcp dport 7025 iifname != "quota" drop',
    "tcp dport 7025 ip saddr @servers accept",
    "tcp dport 7025 ip saddr != @mailhosts drop",
    "ip protocol 112 ip saddr != @servers drop",
    "tcp dport 7025 meta nfproto ipv6 drop",
]
RULES_OF_A_MAIL_HOST = {
    "output": [
        "type filter hook output priority filter; policy accept;",
        "# uncomment this with a tunnel: while that is down, all would go out beside it",
        '#tcp dport 7025 oifname != "quota" reject with tcp reset',
        "tcp dport 7025 meta skuid != { root, opensmtpd } reject with tcp reset",
    ],
    "forward": ["type filter hook forward priority filter; policy accept;", "tcp dport 7025 drop"],
}
SETS = {"mailhosts": "192.0.2.1, 192.0.2.2, 192.0.2.9", "servers": "192.0.2.5, 192.0.2.6"}
# The settings of a tunnel: an interface, and its peers, each with its addresses outside and inside.
INTERFACE = ["PrivateKey = PRIVATE-KEY-OF-THIS-MACHINE", "ListenPort = 51820"]
TUNNEL = {
    "wireguard-server.conf": (
        "10.70.25.5/32, 10.70.25.7/32",
        {
            "MX1": ("192.0.2.1", "10.70.25.1/32"),
            "MX2": ("192.0.2.2", "10.70.25.2/32"),
            "THE-ADMINISTRATORS-HOST": ("192.0.2.9", "10.70.25.9/32"),
            "THE-OTHER-SERVER": ("192.0.2.6", "10.70.25.6/32"),
        },
    ),
    "wireguard-mailhost.conf": (
        "10.70.25.1/32",
        {
            "THE-FIRST-SERVER": ("192.0.2.5", "10.70.25.5/32, 10.70.25.7/32"),
            "THE-SECOND-SERVER": ("192.0.2.6", "10.70.25.6/32"),
        },
    ),
}
# How far the server's service may be open by systemd, in tenths: it is 1.3 by systemd 252, and
# other versions may weigh otherwise.
MOST_EXPOSED = 20
# For how many seconds a retire of 600,000 answers may hold up a server, as it was measured.
RETIRES = 4.8
SMTPD = (
    "[Unit]\nDescription=OpenSMTPD SMTP"
    " server\n[Service]\nType=forking\nExecStart=/bin/true\n[Install]\nWantedBy=multi-user.target\n"
)


def run(world, checks):
    values_of_units(checks)
    nothing_else(checks)
    both_retires(checks)
    settings_of_others(checks)
    settings_of_a_tunnel(checks)
    settings_of_smtpd(checks)
    settings_of_both(checks)
    settings_of_a_filter(world, checks)
    a_long_retire(world, checks)
    verified(world, checks)
    exposed(world, checks)


def assignments(text):
    """The values of each key of each section, in their order, as systemd reads them."""
    found, section = {}, None
    for line in text.replace("\\\n", " ").splitlines():
        if head := re.fullmatch(r"\[(\w+)\]", line):
            section = found.setdefault(head[1], {})
        elif line and line[0] not in "#;":
            key, _, value = line.partition("=")
            section.setdefault(key.strip(), []).append(value.strip())
    return found


def values_of_units(checks):
    for name, wanted in UNITS.items():
        found = assignments(text_of(name))
        for section, keys in wanted.items():
            its = found.get(section, {})
            other = {key: its.get(key) for key, values in keys.items() if its.get(key) != values}
            checks.equal(
                f"contrib/{name}, {section}: keys of {len(keys)} that have other values", other, {}
            )


def nothing_else(checks):
    """A further key may take back what these say, as what a service may do, or when it starts."""
    for name, wanted in UNITS.items():
        besides = [
            f"{section}: {key}"
            for section, keys in assignments(text_of(name)).items()
            for key in keys
            if key not in wanted.get(section, {}) and key not in DESCRIBED
        ]
        checks.equal(f"contrib/{name}: keys that it has besides", besides, [])
    for name, wanted in LINES.items():
        lines = [line.strip() for line in text_of(name).splitlines()]
        besides = [
            line
            for line in lines
            if line and line[0] != "#" and line not in wanted and line not in BLOCKS
        ]
        checks.equal(f"contrib/{name}: lines that it has besides", besides, [])
        checks.equal(
            f"contrib/{name}: its blocks, in their order",
            [line for line in lines if line in BLOCKS],
            BLOCKS_IN_ORDER,
        )


def both_retires(checks):
    """The lines for two servers, which are to be uncommented in place of the one, retire the same
    host at both."""
    text = re.sub(r"^ExecStartPre=.*\n", "", text_of("smtpd-restart.conf"), flags=re.MULTILINE)
    found = assignments(re.sub(r"^#(?=ExecStartPre)", "", text, flags=re.MULTILINE))["Service"][
        "ExecStartPre"
    ]
    wanted = [f"-/usr/sbin/mailquota retire --server 192.0.2.{it}:7025" for it in (5, 6)]
    checks.equal("contrib/smtpd-restart.conf: the lines for two servers", found, wanted)


def settings_of_others(checks):
    for name, wanted in LINES.items():
        found = [line.strip() for line in text_of(name).splitlines()]
        checks.equal(
            f"contrib/{name}: lines of {len(wanted)} that it lacks",
            [line for line in wanted if line not in found],
            [],
        )
    first, second = (text_of(f"keepalived-{it}.conf").splitlines() for it in ("first", "second"))
    differ = {
        line.split()[0]
        for line in set(first) ^ set(second)
        if line.strip() and not line.strip().startswith("#")
    }
    checks.equal(
        "the settings of keepalived: what differs",
        differ,
        {"priority", "preempt_delay", "unicast_src_ip", "192.0.2.5", "192.0.2.6"},
    )
    rules = text_of("nftables.conf")
    checks.equal("the packet filter: its rules, in their order", chains_of(rules), {"input": RULES})
    sets = dict(re.findall(r"set (\w+) \{\n\s*type ipv4_addr\n\s*elements = \{ (.*) \}", rules))
    checks.equal("the packet filter: its addresses", sets, SETS)
    its = text_of("nftables-mailhost.conf")
    checks.equal(
        "a mail host's packet filter: its rules, in their order",
        chains_of(its),
        RULES_OF_A_MAIL_HOST,
    )
    # (a machine may have both)
    for what, text, table in (
        ("the packet filter", rules, "mailquota"),
        ("a mail host's packet filter", its, "mailquota_mailhost"),
    ):
        loads = [line for line in text.splitlines() if line and line[0] not in "#\t}"]
        checks.equal(
            f"{what}: what a repeated load does first",
            loads,
            [f"table inet {table}", f"delete table inet {table}", f"table inet {table} {{"],
        )


def chains_of(rules):
    """The lines of each chain of a packet filter."""
    found = re.findall(r"chain (\w+) \{\n(.*?)\n\t\}", rules, re.DOTALL)
    return {name: [line.strip() for line in lines.splitlines()] for name, lines in found}


def settings_of_a_tunnel(checks):
    """Each machine sends from its own addresses alone, and of the two that a mail host may ask at
    the address that filters ask, the first has it."""
    for name, (own, peers) in TUNNEL.items():
        wanted = ["[Interface]", *INTERFACE, f"Address = {own}"]
        for peer, (endpoint, allowed) in peers.items():
            wanted += [
                "[Peer]",
                f"PublicKey = PUBLIC-KEY-OF-{peer}",
                f"Endpoint = {endpoint}:51820",
                f"AllowedIPs = {allowed}",
                "PersistentKeepalive = 25",
            ]
        lines = [line for line in text_of(name).splitlines() if line and line[0] != "#"]
        checks.equal(f"contrib/{name}: its lines, in their order", lines, wanted)


def settings_of_smtpd(checks):
    """A login's spelling is refused before it counts, and who has no login sends nothing; INSTALL
    shows the same lines of filters."""
    lines = [line for line in text_of("smtpd.conf").splitlines() if line and line[0] != "#"]
    limited = [
        'filter spelling proc-exec "filter-one-spelling"',
        'filter quota proc-exec "filter-mailquota"',
        "filter limited chain { spelling, quota }",
        (
            "listen on 192.0.2.1 port 587 tls-require pki mx1.example.org auth <credentials> filter"
            " limited"
        ),
    ]
    wanted = [
        'pki mx1.example.org cert "/etc/ssl/mx1.example.org.crt"',
        'pki mx1.example.org key "/etc/ssl/private/mx1.example.org.key"',
        "table credentials file:/etc/mail/credentials",
        *limited,
        'action "outbound" relay',
        'match auth from any for any action "outbound"',
    ]
    checks.equal("contrib/smtpd.conf: its lines, in their order", lines, wanted)
    with open(f"{TOP}/docs/INSTALL.md", encoding="utf-8") as file:
        shown = [
            line[4:]
            for line in file.read().splitlines()
            if line.startswith(("    filter ", "    listen "))
        ]
    checks.equal("the filters of smtpd.conf in INSTALL", shown, limited)


def settings_of_both(checks):
    """OPERATING counts with these: a recipient waits for six seconds at most, and a peer of the
    server for a third of one."""
    for name, wanted in (
        (
            "filter.toml",
            [
                'host = "mx1.example.org"',
                'server = "192.0.2.7:7025"',
                "tries = 3",
                "timeout = 2000",
                "pause = 10",
                "hold = 5",
                "keep_connection = true",
                'log = "warn"',
            ],
        ),
        (
            "server.toml",
            [
                'listen = "192.0.2.7:7025"',
                'store = "/var/lib/mailquota/ledger"',
                "default = 1000",
                "offset = 0",
                "keep = 2",
                "timeout = 300",
                'log = "info"',
            ],
        ),
    ):
        checks.equal(
            f"contrib/{name}: its settings",
            [line for line in text_of(name).splitlines() if line[0] != "#"],
            wanted,
        )
    checks.equal(
        "contrib/server.toml: the rule that may stand in place of its offset",
        re.findall(r"^# (rule = .*)$", text_of("server.toml"), re.MULTILINE),
        [f'rule = "{CENTRAL_EUROPE}"'],
    )


def settings_of_a_filter(world, checks):
    """The example holds back for a time that helps: `filter --check` has no word against it."""
    with Server(world) as server:
        config = world.new_file(text_of("filter.toml").replace("192.0.2.7:7025", server.address))
        came = world.run("filter", "--config", config, "--check")
    wanted = (
        f"settings are right\nquota server {server.address} answers\nrequests of host"
        " mx1.example.org are taken\npause 10 s, hold 5 s\n"
    )
    checks.equal(
        "contrib/filter.toml: what filter --check says of it", came, (0, wanted.encode(), "")
    )


def a_long_retire(world, checks):
    """While a server answers nobody for so long, a recipient waits by the example, and gets no 451;
    and no pause begins."""
    its = {
        name: {
            key: int(value) for key, value in re.findall(r"^(\w+) = (\d+)$", text_of(name), re.M)
        }
        for name in ("filter.toml", "server.toml")
    }

    def asked():
        with Server(world, timeout=its["server.toml"]["timeout"]) as server:
            filter_ = Smtpd(
                world, "mx1", server.address, **its["filter.toml"], keep_connection=True
            )
            at = int(time.time())
            filter_.login(at, b"s1", b"alice")
            filter_.begin(at, b"s1", b"m1")
            came = [filter_.recipient(at, b"s1")]
            line = b"filter|0.7|%d.000002|smtp-in|rcpt-to|s1|%s|b@example.org\n" % (at, TOKEN)
            with server.stopped():
                filter_.say(line)
                time.sleep(RETIRES)
            came.append(filter_.process.stdout.readline())
            filter_.log.seek(0)
            return came, filter_.log.read(), filter_.end()[:2]

    came, _ = soon(asked, RETIRES + 1)
    checks.equal(
        "a server that stands still, by the examples: what recipients get, and the filter's log",
        came,
        ([result(PROCEED, b"s1")] * 2, b"", (0, b"")),
    )


def of_systemd(checks, what):
    """Whether systemd's own check is there; says so where it isn't."""
    if shutil.which("systemd-analyze"):
        return True
    checks.skip(what, "there is no systemd-analyze")
    return False


def units_in(folder, changed=lambda name, text: text):
    """All units in a folder, with programs that are there, and a unit of smtpd as Debian has one,
    with the drop-ins."""
    texts = {name: text_of(name) for name in UNITS}
    for unit, its in (
        ("opensmtpd", "smtpd-restart.conf"),
        ("mailquota", "addresses.conf"),
        ("mailquota", "metrics.conf"),
    ):
        os.makedirs(f"{folder}/{unit}.service.d", exist_ok=True)
        texts[f"{unit}.service.d/{its}"] = texts.pop(its)
    for name, text in {**texts, "opensmtpd.service": SMTPD}.items():
        with open(f"{folder}/{name}", "w", encoding="ascii") as file:
            file.write(
                changed(name, re.sub(r"/usr/(?:sbin|libexec/mailquota)/[\w-]+", "/bin/true", text))
            )
    return [f"{folder}/{name}" for name in (*texts, "opensmtpd.service") if "/" not in name]


def said_of(folder, units):
    """What systemd says of these units, without what it says of the machine's own."""
    run = subprocess.run(
        ["systemd-analyze", "verify", "--man=no", *units], capture_output=True, text=True
    )
    return [
        line
        for line in (run.stdout + run.stderr).splitlines()
        if folder in line or re.search(r"mailquota|opensmtpd", line)
    ]


def verified(world, checks):
    if not of_systemd(checks, "units by systemd-analyze verify"):
        return
    folder = f"{world.folder}/units"
    checks.equal(
        "units by systemd-analyze verify: what it says of them",
        said_of(folder, units_in(folder)),
        [],
    )
    # (it looks into each of them: a key that isn't one is told)
    folder = f"{world.folder}/units-with-a-fault"
    units = units_in(
        folder, lambda name, text: text.replace("[Service]\n", "[Service]\nRestrat=no\n")
    )
    told = " ".join(said_of(folder, units))
    names = [
        "mailquota.service",
        "mailquota-mail.service",
        "opensmtpd.service",
        "smtpd-restart.conf",
        "addresses.conf",
        "metrics.conf",
    ]
    checks.equal(
        "units with a fault each: those of which it says nothing",
        [it for it in names if f"/{it}:" not in told],
        [],
    )


def exposed(world, checks):
    for name in ("mailquota", "mailquota-mail"):
        what = f"{name}.service by systemd-analyze security"
        if not of_systemd(checks, what):
            return
        path = f"{world.folder}/{name}.service"
        with open(path, "w", encoding="ascii") as file:
            file.write(text_of(f"{name}.service"))
        run = subprocess.run(
            ["systemd-analyze", "security", "--offline=yes", f"--threshold={MOST_EXPOSED}", path],
            capture_output=True,
            text=True,
        )
        if "unrecognized option" in run.stderr:
            checks.skip(what, "this systemd takes no unit's file")
            return
        told = re.search(rf"exposure level for {name}\.service: (\d+\.\d+)", run.stdout)
        checks.holds(
            what,
            run.returncode == 0 and told is not None,
            f"at most {MOST_EXPOSED / 10}",
            told and told[1] or run.stderr,
        )
