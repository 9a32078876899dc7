"""`make demo` over the program, also over one that answers something else, what `make install` puts
where, and in what order `make build` proves."""
import os
import re
import shutil
import stat
import subprocess
import sys

from ends import TOP

DAY = """init: made FOLDER/ledger
server: quota server ADDRESS answers
alice gets a limit of 2: set
mx1, alice to her first recipient: proceed
mx1, alice to her second recipient: proceed
mx2, alice to her third recipient: reject|550 daily recipient limit reached
mx2, bob to his first recipient: proceed
mx1, carol to her first recipient: proceed
what is sent, under way and allowed: 
      2       0       2 alice
      0       1    1000 bob
      0       1    1000 carol
the server is killed; mx2, bob to his next recipient: reject|451 quota service unavailable
server: quota server ADDRESS answers
it is started again, with the same counts: 
      2       0       2 alice
      0       1    1000 bob
      0       1    1000 carol
mx2, bob to the same recipient: proceed
bob's password is stolen: stopped: bob used 2 on day TODAY
limit before: 1000
mx2, bob to one more, in the same message: reject|550 daily recipient limit reached
both filters end, with status: 0 0
one request as it goes over the network: 0021010161000000000000000100000001000000010000000000015180017500000001
its reply: 001381016100000000000000010000000100000001
all as it is to be
"""
# what the program is in turn: a command that does nothing, with a status of its own
OTHERWISE = {
    "report": "exit 0",
    "stop": "echo 'stopped: bob used 1 on day 1'",
    "filter": "exit 1",
    "server": "exit 1",
    "replay": "echo 00",
}
INSTALLED = {
    "lib/systemd/system/mailquota-mail.service": 0o644,
    "lib/systemd/system/mailquota.service": 0o644,
    "libexec/mailquota/await-server": 0o755,
    "libexec/mailquota/keepalived-check": 0o755,
    "libexec/mailquota/limit-mails": 0o755,
    "libexec/mailquota/mail-host-check": 0o755,
    "libexec/mailquota/wireguard-takeover": 0o755,
    "libexec/opensmtpd/filter-mailquota": 0o755,
    "libexec/opensmtpd/filter-one-spelling": 0o755,
    "sbin/mailquota": 0o755,
    "sbin/mailquota-backup": 0o755,
    "sbin/mailquota-limits": 0o755,
    "sbin/mailquota-recipients": 0o755,
    "share/bash-completion/completions/mailquota": 0o644,
    "share/doc/mailquota/CHANGELOG": 0o644,
    "share/doc/mailquota/INSTALL.md": 0o644,
    "share/doc/mailquota/LICENSE": 0o644,
    "share/doc/mailquota/NOTICE": 0o644,
    "share/doc/mailquota/OPERATING.md": 0o644,
    "share/doc/mailquota/SECURITY.md": 0o644,
    "share/doc/mailquota/examples/addresses.conf": 0o644,
    "share/doc/mailquota/examples/filter.toml": 0o644,
    "share/doc/mailquota/examples/keepalived-first.conf": 0o644,
    "share/doc/mailquota/examples/keepalived-second.conf": 0o644,
    "share/doc/mailquota/examples/mailquota-dashboard.json": 0o644,
    "share/doc/mailquota/examples/mailquota-rules.yml": 0o644,
    "share/doc/mailquota/examples/metrics.conf": 0o644,
    "share/doc/mailquota/examples/nftables-mailhost.conf": 0o644,
    "share/doc/mailquota/examples/nftables.conf": 0o644,
    "share/doc/mailquota/examples/permits.toml": 0o644,
    "share/doc/mailquota/examples/servers.toml": 0o644,
    "share/doc/mailquota/examples/server.toml": 0o644,
    "share/doc/mailquota/examples/smtpd-restart.conf": 0o644,
    "share/doc/mailquota/examples/smtpd.conf": 0o644,
    "share/doc/mailquota/examples/wireguard-mailhost.conf": 0o644,
    "share/doc/mailquota/examples/wireguard-server.conf": 0o644,
    "share/doc/mailquota/examples/wireguard-takeover.service": 0o644,
    "share/man/man5/mailquota.toml.5": 0o644,
    "share/man/man8/mailquota-filter.8": 0o644,
    "share/man/man8/mailquota-forget.8": 0o644,
    "share/man/man8/mailquota-limit.8": 0o644,
    "share/man/man8/mailquota-server.8": 0o644,
    "share/man/man8/mailquota.8": 0o644,
    "share/zsh/site-functions/_mailquota": 0o644,
}


def run(world, checks):
    a_day(world, checks)
    a_day_of_another_program(world, checks)
    installed(world, checks)
    a_schedule(checks)
    a_build(world, checks)


def demo(program):
    words = [sys.executable, f"{TOP}/examples/demo.py", program, f"{TOP}/examples/one-reserve.hex"]
    return subprocess.run(words, stdin=subprocess.DEVNULL, capture_output=True, text=True)


def a_day(world, checks):
    came = demo(world.program)
    for pattern, name in (
        (r"made \S+/ledger", "made FOLDER/ledger"),
        (r"127\.0\.0\.1:\d+", "ADDRESS"),
        (r"on day \d{5}\b", "on day TODAY"),
    ):
        came.stdout = re.sub(pattern, name, came.stdout)
    checks.equal("the demo: status and what is said", (came.returncode, came.stderr), (0, ""))
    checks.equal("the demo: what it prints", came.stdout.splitlines(), DAY.splitlines())


def a_day_of_another_program(world, checks):
    for command, does in OTHERWISE.items():
        path = f"{world.folder}/without-{command}"
        with open(path, "w", encoding="ascii") as file:
            file.write(
                f'#!/bin/sh\nif [ "$1" = {command} ]; then {does}; else exec {world.program} "$@";'
                " fi\n"
            )
        os.chmod(path, 0o755)
        came = demo(path)
        good = (
            came.returncode == 1
            and "not as it is to be: " in came.stderr
            and "all as it is to be" not in came.stdout
        )
        checks.holds(
            f"the demo over a program whose {command} is wrong",
            good,
            "status 1, and what was wanted",
            came.stderr[-200:],
        )


def installed(world, checks):
    for prefix in ("/usr/local", "/opt/quota"):
        tree = f"{world.folder}/tree{prefix.replace('/', '-')}"
        words = [
            "make",
            "-s",
            "-C",
            TOP,
            "install",
            f"PROGRAM={os.path.realpath(world.program)}",
            f"DESTDIR={tree}",
            f"PREFIX={prefix}",
        ]
        # (`make check` may run this)
        environment = {
            key: value
            for key, value in os.environ.items()
            if not key.startswith("MAKE") and key != "MFLAGS"
        }
        came = subprocess.run(
            words, stdin=subprocess.DEVNULL, capture_output=True, text=True, env=environment
        )
        checks.equal(f"make install PREFIX={prefix}", (came.returncode, came.stderr), (0, ""))
        found = {}
        for folder, _, names in os.walk(tree):
            for name in names:
                path = f"{folder}/{name}"
                found[os.path.relpath(path, f"{tree}{prefix}")] = stat.S_IMODE(
                    os.stat(path).st_mode
                )
        checks.equal(
            f"make install PREFIX={prefix}: files with their modes",
            dict(sorted(found.items())),
            INSTALLED,
        )
        settings = f"{tree}/etc/mailquota"
        checks.equal(
            f"make install PREFIX={prefix}: the folder of the settings, and what is in it",
            (os.path.isdir(settings), os.path.isdir(settings) and os.listdir(settings)),
            (True, []),
        )
        # (INSTALL and OPERATING speak of the package, and smtpd and sendmail aren't of it)
        own = [it for it in found if it != "sbin/mailquota" and not it.endswith(".md")]
        texts = {it: open(f"{tree}{prefix}/{it}", encoding="utf-8").read() for it in own}
        wrong = [
            it
            for it, text in texts.items()
            if re.search(
                r'(?<!\w)/usr/(sbin/(?!smtpd |sendmail\b)|libexec/|share/doc/)|proc-exec "filter-',
                text,
            )
        ]
        checks.equal(
            f"make install PREFIX={prefix}: files that name the package's folders", wrong, []
        )


# commands rt, rattle and rattle-link that prove and link nothing: rattle wants each library that it
# is given to be there, and notes when it begins and ends with a crate
RT = "#!/bin/sh\n"
RATTLE = """#!/bin/sh
crate=$3
for it; do case $it in *=*/out/build/*.rlib) [ -e "${{it#*=}}" ] || {{ echo "there is no ${{it#*=}}"; exit 4; }};; esac; done
echo "begins $crate $1" >>{folder}/noted
[ ! -e src/version.rt ] || cat src/version.rt >>{folder}/noted
sleep 0.1
[ "$crate" = "$(cat {folder}/fails)" ] && {{ echo "no proof of $crate"; exit 3; }}
while [ "$1" != -o ]; do shift; done
touch "$2"
echo "ends $crate" >>{folder}/noted
"""
LINK = """#!/bin/sh
while [ "$1" != -o ]; do shift; done
touch "$2"
echo links >>{folder}/noted
"""
CRATES = {
    "low": [],
    "left": ["low"],
    "right": ["low"],
    "mailquota": ["left", "right"],
    "further": ["low"],
}
ALL_BUILT = [
    "begins left build",
    "begins low build",
    "begins mailquota build",
    "begins right build",
    "ends left",
    "ends low",
    "ends mailquota",
    "ends right",
    "links",
]


def write(path, text):
    with open(path, "w", encoding="ascii") as file:
        file.write(text)


def a_schedule(checks):
    """How long a build still takes, by a clock that is set."""
    sys.path.append(f"{TOP}/scripts")
    from schedule import Schedule, Work

    works = {
        "low": Work(10, 1, []),
        "left": Work(20, 1, ["low"]),
        "right": Work(30, 1, ["low"]),
        "mailquota": Work(5, 1, ["left", "right"]),
    }
    minutes = [0]
    schedule = Schedule(works, 2, lambda: 60 * minutes[0])
    said = [schedule.said()]
    for now, begins, ends in [
        (0, ["low"], []),
        (10, [], []),
        (20, ["left", "right"], ["low"]),
        (60, [], ["left"]),
        (80, ["mailquota"], ["right"]),
        (90, [], ["mailquota"]),
    ]:
        minutes[0] = now
        for it in begins:
            schedule.begin(it)
        for it in ends:
            schedule.end(it)
        said.append(schedule.said())
    checks.equal(
        "make build, twice as slow as planned: how far it says that it is",
        said,
        [
            "0 of 4, about 45 minutes left",
            "0 of 4, about 45 minutes left",
            "0 of 4, about 36 minutes left",
            "1 of 4, about 59 minutes left",
            "2 of 4, about 25 minutes left",
            "3 of 4, about 10 minutes left",
            "4 of 4",
        ],
    )


def a_build(world, checks):
    """Over crates of one line each, and a kit that notes what it is asked for."""
    folder = f"{world.folder}/build"
    os.makedirs(f"{folder}/scripts")
    for it in ("build.py", "kit.py", "schedule.py", "version.py"):
        shutil.copy(f"{TOP}/scripts/{it}", f"{folder}/scripts")
    os.makedirs(f"{folder}/gate")
    write(f"{folder}/gate/minutes.txt", "# prove test edit\nlow 10 0 0\nleft 20 1 1\n")
    for crate in CRATES:
        os.makedirs(f"{folder}/crates/{crate}/src")
        write(f"{folder}/crates/{crate}/src/{'main' if crate == 'mailquota' else 'lib'}.rt", crate)
    write(
        f"{folder}/crates.txt",
        "".join(f"{crate}: {' '.join([*below, 'thiserror'])}\n" for crate, below in CRATES.items()),
    )
    os.makedirs(f"{folder}/kit/bin")
    write(f"{folder}/kit/KIT-ID", "kit\n")
    for name, text in (("rt", RT), ("rattle", RATTLE), ("rattle-link", LINK)):
        write(f"{folder}/kit/bin/{name}", text.format(folder=folder))
        os.chmod(f"{folder}/kit/bin/{name}", 0o755)

    def build(fails="none"):
        """The status, what was printed, and what was begun and ended."""
        write(f"{folder}/fails", fails)
        write(f"{folder}/noted", "")
        environment = {**os.environ, "RT": f"{folder}/kit/bin/rt"}
        came = subprocess.run(
            [sys.executable, f"{folder}/scripts/build.py"],
            env=environment,
            capture_output=True,
            text=True,
        )
        with open(f"{folder}/noted", encoding="ascii") as it:
            return came.returncode, came.stdout, came.stderr, it.read().splitlines()

    def in_order(noted):
        return all(
            noted.index(f"ends {low}") < place
            for place, it in enumerate(noted)
            if it.startswith("begins ")
            for low in CRATES[it.split()[1]]
        )

    status, output, _, noted = build()
    checks.equal(
        "make build: each crate of the program once, and the program linked last",
        (sorted(noted), noted[-1:]),
        (ALL_BUILT, ["links"]),
    )
    checks.equal("make build: each after those below it", (status, in_order(noted)), (0, True))
    said = re.sub(r" (in|about) [0-9.]+ ", r" \1 N ", output).splitlines()
    wanted = (
        [
            "0 of 4, about N minutes left",
            "low: begun",
            "low: done in N s, 1 of 4, about N minutes left",
        ],
        [
            "mailquota: begun",
            "mailquota: done in N s, 4 of 4",
            "4 crates in N minutes",
            "built crates/mailquota/out/mailquota",
        ],
    )
    checks.equal("make build: what it says first and last", (said[:3], said[-4:]), wanted)
    checks.equal(
        "make build again, with no change",
        build(),
        (0, "built crates/mailquota/out/mailquota\n", "", []),
    )
    write(f"{folder}/crates/left/src/lib.rt", "more")
    status, _, errors, noted = build(fails="left")
    checks.equal(
        "make build, where one isn't proved: status, why, and the program isn't begun",
        (status, "no proof of left" in errors, noted),
        (1, True, ["begins left build"]),
    )
    status, _, _, noted = build()
    above = ["begins left build", "ends left", "begins mailquota build", "ends mailquota", "links"]
    checks.equal(
        "make build, once it is proved: what changed, and what stands on it",
        (status, noted),
        (0, above),
    )
    os.remove(f"{folder}/crates/low/out/build/low.rlib")
    status, _, _, noted = build()
    checks.equal(
        "make build, with a library gone: all that stands on it",
        (status, sorted(noted)),
        (0, ALL_BUILT),
    )
    # (an archive of `make dist` says of which commit it is)
    version = 'pub const VERSION: &str = "{}";'
    write(f"{folder}/crates/mailquota/src/version.rt", f"{version.format('1.2.3')}\n")
    write(f"{folder}/COMMIT", f"{'0123456789' * 4}\n")
    status, _, _, noted = build()
    of_program = [
        "begins mailquota build",
        version.format("1.2.3 (012345678901)"),
        "ends mailquota",
        "links",
    ]
    checks.equal(
        "make build, of a commit: what is proved of the program has it in its version",
        (status, noted),
        (0, of_program),
    )
    with open(f"{folder}/crates/mailquota/src/version.rt", encoding="ascii") as it:
        checks.equal(
            "make build, of a commit: the source stays as it is",
            it.read(),
            f"{version.format('1.2.3')}\n",
        )
    checks.equal("make build of that commit again", build()[3], [])
    os.remove(f"{folder}/COMMIT")
    checks.equal(
        "make build, of no commit: the version alone",
        build()[3],
        [of_program[0], version.format("1.2.3"), *of_program[2:]],
    )
