"""What the package's scripts do to a machine, and README's way from nothing to the first 550.

The scripts run in folders of their own, and what stands for systemd's programs notes how it is
called. That the package can be installed at all only tests/package sees.
"""
import glob
import os
import re
import shutil
import stat

from cases.contrib import Machine, text_of
from cases.examples import INSTALLED
from ends import TOP, Server, toml, wait_past_midnight
from pages import blocks_of
from smtpd import Smtpd, clock

TIMER = "mailquota-forget.timer"
FILTERS_RUN_ON = (
    "mailquota: the filter of before runs on until smtpd is restarted. Once the quota server is"
    " upgraded too, when\nmailquota: little mail is sent: systemctl restart opensmtpd\n"
)
TIMER_IS_GONE = (
    "mailquota: mailquota-forget.timer is gone: with keep = 2 in /etc/mailquota/server.toml the"
    " server drops\nmailquota: old days by itself, once it is restarted: systemctl restart"
    " mailquota\n"
)
FILTERS_ARE_NAMED = (
    "mailquota: /etc/smtpd.conf names filters of this package: take their lines out, and restart"
    " smtpd. It\nmailquota: runs on with the filters that run, but a start without their files"
    " fails.\n"
)
# How debhelper is asked for the server's unit: nothing runs before an administrator says so, and an
# upgrade restarts what runs.
OF_UNITS = ["--no-enable", "--no-start", "--restart-after-upgrade"]


def run(world, checks):
    an_installation(world, checks)
    an_upgrade(world, checks)
    a_timer_that_goes(world, checks)
    a_removal(world, checks)
    a_purge(world, checks)
    other_steps(world, checks)
    units_of_the_package(checks)
    fields_of_the_package(checks)
    what_is_packaged(world, checks)
    quick_start(world, checks)
    by_install(world, checks)


class Installed:
    """The folders of a machine on which a package's script runs, with the timers of before that it
    has, and those of them that are enabled."""

    def __init__(self, world, name, has=(), enabled=(), boots=True):
        said = {
            "debian-installed": " || ".join(f"[ $2 = {it} ]" for it in has) or "false",
            "--quiet": " || ".join(f"[ $3 = {it} ]" for it in enabled) or "false",
        }
        helper = "".join(
            f'if [ "$1" = {key} ]; then {does}; exit; fi\n' for key, does in said.items()
        )
        self.machine = Machine(
            world, name, **{"deb-systemd-helper": helper, "deb-systemd-invoke": ""}
        )
        self.folder = self.machine.folder
        if boots:
            os.makedirs(f"{self.folder}/run/systemd/system")

    def script(self, name, *words):
        """What a script of the package comes to by these words: its status, what it prints and
        says, and the calls of systemd's programs that change something."""
        with open(f"{TOP}/debian/mailquota.{name}", encoding="ascii") as file:
            text = file.read()
        assert text.startswith("#!/bin/sh\nset -e\n") and text.endswith("\n#DEBHELPER#\n"), name
        text = self.machine.here(text).replace(
            " /run/systemd/system", f" {self.folder}/run/systemd/system"
        )
        status, output, errors = self.machine.started(["sh", "-c", text, "script", *words])
        calls = []
        if os.path.exists(f"{self.folder}/calls"):
            calls = self.machine.read("calls").splitlines()
            os.remove(f"{self.folder}/calls")
        asks = ("deb-systemd-helper debian-installed", "deb-systemd-helper --quiet was-enabled")
        # (what it prints names the machine's places)
        said = (output + errors).replace(f"{self.folder}/etc/", "/etc/")
        return status, said, [it for it in calls if not it.startswith(asks)]

    def write(self, name, text=""):
        os.makedirs(os.path.dirname(f"{self.folder}/{name}"), exist_ok=True)
        self.machine.write(name, text)

    def left(self):
        """All that is below etc and lib, without folders that have something."""
        return sorted(
            os.path.relpath(f"{at}/{it}", self.folder)
            for top in ("etc", "lib")
            for at, folders, names in os.walk(f"{self.folder}/{top}")
            for it in [*names, *(it for it in folders if self.is_end(f"{at}/{it}"))]
        )

    @staticmethod
    def is_end(path):
        return os.path.islink(path) or not os.listdir(path)


def an_installation(world, checks):
    """Nothing runs yet, /etc/mailquota is empty, and there is a folder for the ledger, which nobody
    else may enter."""
    new = Installed(world, "new")
    came = new.script("postinst", "configure", "")
    checks.equal(
        "the package is installed: status, what it says and asks of systemd, and what is there",
        (came, new.left()),
        ((0, "", []), ["etc/mailquota", "lib/mailquota"]),
    )
    mode = stat.S_IMODE(os.stat(f"{new.folder}/lib/mailquota").st_mode)
    checks.equal("the package is installed: who may enter the ledger's folder", mode, 0o700)
    # (as a server's unit has left it, with the ledger in it, or with nothing)
    for name, makes in (("again", True), ("again-without", False)):
        again = Installed(world, name)
        if makes:
            again.write("lib/private/mailquota/ledger", "a ledger")
        os.symlink("private/mailquota", f"{again.folder}/lib/mailquota")
        before = again.left()
        checks.equal(
            f"the package is installed over a folder that is a link, {name}",
            (again.script("postinst", "configure", ""), again.left()),
            ((0, "", []), before),
        )


def an_upgrade(world, checks):
    """On a mail host it says that the filter of before runs on; the server's machine has no
    filter."""
    for name, has_filter, since, said in (
        ("upgraded-mx", True, "1.0.0", FILTERS_RUN_ON),
        ("upgraded-server", False, "1.0.0", ""),
        ("installed-mx", True, "", ""),
    ):
        machine = Installed(world, name)
        os.mkdir(f"{machine.folder}/lib/mailquota")
        if has_filter:
            machine.write("etc/mailquota/filter.toml", text_of("filter.toml"))
        checks.equal(
            f"an upgrade, {name}", machine.script("postinst", "configure", since), (0, said, [])
        )


def a_timer_that_goes(world, checks):
    """The timer of packages of before is stopped and forgotten, and where it dropped days and
    nothing does so from then on, that is said."""
    goes = [
        f"deb-systemd-helper purge {TIMER}",
        f"deb-systemd-helper unmask {TIMER}",
    ]
    stops = f"deb-systemd-invoke stop {TIMER} mailquota-forget.service"
    for name, enabled, settings, said in (
        ("enabled", True, "default = 1\n", TIMER_IS_GONE),
        ("remarked", True, "# keep = 2\n", TIMER_IS_GONE),
        ("keeping", True, "default = 1\nkeep = 2\n", ""),
        ("keeping-by-tabs", True, "\tkeep\t=2\n", ""),
        ("disabled", False, "default = 1\n", ""),
        ("without-settings", True, None, TIMER_IS_GONE),
    ):
        for boots in (True, False):
            machine = Installed(
                world, f"timer-{name}-{boots}", [TIMER], [TIMER] if enabled else [], boots
            )
            if settings is not None:
                machine.write("etc/mailquota/server.toml", settings)
            checks.equal(
                f"a timer that goes, {name}{'' if boots else ', on a machine that has not booted'}",
                machine.script("postinst", "configure", "0.9"),
                (0, said, [stops] * boots + goes),
            )


def a_removal(world, checks):
    """It stops the server, and keeps settings and ledger; on a mail host it says what smtpd names
    still."""
    for name, smtpd, said in (
        ("removed", None, ""),
        ("removed-mx", text_of("smtpd.conf"), FILTERS_ARE_NAMED),
        ("removed-mx-one", 'filter s proc-exec "filter-one-spelling"\n', FILTERS_ARE_NAMED),
        ("removed-mx-none", 'filter dkim proc-exec "filter-dkimsign"\n', ""),
    ):
        for boots in (True, False):
            machine = Installed(world, f"{name}-{boots}", boots=boots)
            for it in ("etc/mailquota/server.toml", "lib/mailquota/ledger"):
                machine.write(it, "kept")
            if smtpd is not None:
                machine.write("etc/smtpd.conf", smtpd)
            before = machine.left()
            stops = ["deb-systemd-invoke stop mailquota.service mailquota-mail.service"] * boots
            came = machine.script("prerm", "remove"), machine.script("postrm", "remove")
            checks.equal(
                f"the package is removed, {name}{'' if boots else ', on one that has not booted'}",
                (came, machine.left()),
                (((0, said, stops), (0, "", [])), before),
            )


def a_purge(world, checks):
    """It removes the settings. A ledger stays, and that is said; without one the folder goes, also
    where it is a link."""
    for name, ledger, is_link in (
        ("purged", True, False),
        ("purged-link", True, True),
        ("purged-empty", False, False),
        ("purged-empty-link", False, True),
    ):
        machine = Installed(world, name)
        machine.write("etc/mailquota/server.toml", "default = 1\n")
        machine.write("etc/smtpd.conf", "kept")
        folder = f"lib/{'private/' * is_link}mailquota"
        os.makedirs(f"{machine.folder}/{folder}")
        # (and what the unit of mails kept)
        machine.write(f"{folder}-mail/hour", "1 1\n")
        if is_link:
            for it in ("mailquota", "mailquota-mail"):
                os.symlink(f"private/{it}", f"{machine.folder}/lib/{it}")
        if ledger:
            machine.write(f"{folder}/ledger", "kept")
        place = os.path.realpath(f"{machine.folder}/{folder}")
        said = (
            f"mailquota: the ledger, with all counts and limits, stays in {place}: remove it"
            " yourself if nobody wants it back\n"
        )
        left = [f"{folder}/ledger", *["lib/mailquota"] * is_link] if ledger else []
        left += ["lib/private"] if is_link and not ledger else []
        checks.equal(
            f"the package is purged, {name}",
            (machine.script("postrm", "purge"), machine.left()),
            ((0, said if ledger else "", []), sorted(["etc/smtpd.conf", *left])),
        )
    machine = Installed(world, "purged-nothing")
    os.rmdir(f"{machine.folder}/etc/mailquota")
    checks.equal(
        "the package is purged, where nothing is left",
        (machine.script("postrm", "purge"), machine.left()),
        ((0, "", []), []),
    )


def other_steps(world, checks):
    """At the other steps of an upgrade nothing is stopped, changed or said."""
    for script, words in (
        ("prerm", ["upgrade", "1.1.1"]),
        ("prerm", ["failed-upgrade", "1.0.0"]),
        ("postrm", ["upgrade", "1.1.1"]),
        ("postrm", ["abort-install"]),
        ("postrm", ["disappear", "other", "1.0.0"]),
        ("postinst", ["abort-upgrade", "1.1.1"]),
        ("postinst", ["abort-remove"]),
    ):
        machine = Installed(world, f"{script}-{words[0]}", [TIMER], [TIMER])
        for it in ("etc/mailquota/server.toml", "etc/mailquota/filter.toml"):
            machine.write(it, "kept")
        machine.write("lib/mailquota/ledger", "kept")
        before = machine.left()
        came = machine.script(script, *words)
        checks.equal(f"{script} {words[0]}", (came, machine.left()), ((0, "", []), before))


def units_of_the_package(checks):
    with open(f"{TOP}/debian/rules", encoding="utf-8") as file:
        text = file.read()
    asked = re.findall(r"^\tdh_installsystemd(.*)$", text, re.MULTILINE)
    checks.equal(
        "the package's unit: how debhelper is asked for it",
        [it.split() for it in asked],
        [OF_UNITS],
    )


FIELDS = [
    {
        "Source": "mailquota",
        "Section": "mail",
        "Priority": "optional",
        "Build-Depends": "debhelper-compat (= 13), python3",
        "Rules-Requires-Root": "no",
        "Standards-Version": "4.7.2",
    },
    {
        "Package": "mailquota",
        "Architecture": "amd64",
        "Depends": "${misc:Depends}, ${shlibs:Depends}",
        "Suggests": "iproute2, keepalived, nftables, opensmtpd (>= 7), wireguard-tools",
        "Enhances": "opensmtpd",
    },
]


def fields_of_the_package(checks):
    """Those of debian/control that a machine goes by. The program calls nothing but what each
    Debian has; what the manual's commands and contrib want besides is suggested."""
    with open(f"{TOP}/debian/control", encoding="utf-8") as file:
        paragraphs = file.read().split("\n\n")
    # (what follows a field in lines of its own is for people)
    found = [dict(re.findall(r"^([\w-]+): (.*)$", it, re.MULTILINE)) for it in paragraphs]
    for it in found:
        for field in ("Maintainer", "Description"):
            it.pop(field, None)
    checks.equal("debian/control: its fields", found, FIELDS)


# The steps of debhelper that debian/rules leaves out, for another program than the proved one, and
# those that it has in its own way, in the order in which they come.
LEFT_OUT = ["auto_clean", "auto_build", "auto_test"]
STEPS = [
    "auto_install",
    "installdocs",
    "installsystemd",
    "compress",
    "strip",
    "gencontrol",
    "builddeb",
]
# What debhelper's programs are called with, of a package with another program than the proved one.
CALLS = [
    "dh_installdocs ",
    "dh_installsystemd --no-enable --no-start --restart-after-upgrade",
    "dh_compress -X.md -X.svg -X.json -X.yml -XNEWS",
    "dh_strip --no-automatic-dbgsym",
    "dh_gencontrol -- -v{version}~unproved",
    "dh_builddeb --destdir={dist}",
]
# Where they find the units, as debhelper knew before.
SEES = "find debian/mailquota/lib -type f | sort >>{folder}/units"
OUR_UNITS = ["mailquota-mail.service", "mailquota.service"]
DOCS = "mkdir -p debian/mailquota/{doc} && cp $(cat debian/mailquota.docs) debian/mailquota/{doc}/"


# The scripts of which mailquota(8) tells.
OF_THE_FIRST_PAGE = ["mailquota-backup", "mailquota-limits", "mailquota-recipients"]


def what_is_packaged(world, checks):
    """debian/rules, step by step, over a tree of its own, with what notes its calls in place of
    debhelper's programs."""
    doc = "usr/share/doc/mailquota"
    does = dict.fromkeys(["dh_compress", "dh_strip", "dh_gencontrol", "dh_builddeb"], "")
    folder = f"{world.folder}/packaged"
    does["dh_installdocs"] = DOCS.format(doc=doc)
    does["dh_installsystemd"] = SEES.format(folder=folder)
    machine = Machine(world, "packaged", **does)
    tree, dist = f"{folder}/tree", f"{folder}/dist"
    os.mkdir(tree)
    for it in PACKAGED:
        copy = shutil.copytree if os.path.isdir(f"{TOP}/{it}") else shutil.copy
        copy(f"{TOP}/{it}", f"{tree}/{it}")
    program = world.new_file("#!/bin/sh\n")
    os.chmod(program, 0o755)
    with open(f"{TOP}/debian/changelog", encoding="utf-8") as file:
        version = re.search(r"\((.*?)\)", file.readline())[1]
    for step in STEPS:
        words = ["make", "-C", tree, "-f", "debian/rules", f"override_dh_{step}"]
        # (`make check` may run this)
        came = machine.started(
            ["env", "-u", "MAKEFLAGS", "-u", "MFLAGS", "-u", "MAKELEVEL", *words]
            + [f"PROGRAM={program}", f"DIST={dist}"]
        )
        checks.equal(f"debian/rules, {step}: status, and what it says", (came[0], came[2]), (0, ""))
    checks.equal(
        "debian/rules: the steps that it has in its own way",
        sorted(re.findall(r"^override_dh_(\w+):", read_at(f"{TOP}/debian/rules"), re.MULTILINE)),
        sorted([*STEPS, *LEFT_OUT]),
    )
    checks.equal(
        "debian/rules: what debhelper is called with",
        machine.read("calls").splitlines(),
        [it.format(version=version, dist=dist) for it in CALLS],
    )
    checks.equal(
        "debian/rules: the units that debhelper finds",
        machine.read("units").splitlines(),
        [f"debian/mailquota/lib/systemd/system/{it}" for it in OUR_UNITS],
    )
    whole = f"{tree}/debian/mailquota"
    found = sorted(
        os.path.relpath(f"{at}/{it}", whole)
        for at, folders, names in os.walk(whole)
        for it in [*names, *(it for it in folders if not os.listdir(f"{at}/{it}"))]
    )
    pages = [
        os.path.basename(it)
        for it in glob.glob(f"{TOP}/docs/*.md") + glob.glob(f"{TOP}/docs/*.svg")
    ]
    wanted = [
        "etc/mailquota",
        *(f"usr/lib/systemd/system/{it}" for it in OUR_UNITS),
        *(f"usr/share/man/man8/{it}.8" for it in OF_THE_FIRST_PAGE),
        f"{doc}/NEWS",
        *(f"{doc}/{it}" for it in [*pages, "README.md", "CONTRIBUTING.md"]),
        # (what `make install` puts there, by the cases of examples)
        *(
            f"usr/{it.replace('site-functions', 'vendor-completions')}"
            for it in INSTALLED
            if not it.endswith(("LICENSE", "CHANGELOG"))
        ),
    ]
    checks.equal("the package: what is in it", found, sorted(set(wanted)))
    for it in OF_THE_FIRST_PAGE:
        checks.equal(
            f"the package: the page of {it}",
            os.readlink(f"{whole}/usr/share/man/man8/{it}.8"),
            "mailquota.8",
        )
    folder_of_pages = f"{whole}/{doc}"
    leads_nowhere = [
        (page, to)
        for page in os.listdir(folder_of_pages)
        if page.endswith(".md")
        for to in re.findall(r"\]\(([^):#]+)[#)]", read_at(f"{folder_of_pages}/{page}"))
        if not os.path.exists(f"{folder_of_pages}/{to}")
    ]
    checks.equal("the package: links of its pages that lead nowhere", leads_nowhere, [])


# What a package is made of.
PACKAGED = [
    *("CHANGELOG", "CONTRIBUTING.md", "LICENSE", "Makefile", "NOTICE", "README.md", "SECURITY.md"),
    *("contrib", "debian", "docs", "man"),
]


def read_at(path):
    with open(path, encoding="utf-8") as file:
        return file.read()


class Sided(Machine):
    """A machine beside a server that answers: its commands have the settings that are copied to it,
    and these programs do nothing."""

    def __init__(self, world, name, server, *quiet):
        settings = f"{world.folder}/{name}/etc/mailquota"
        super().__init__(world, name, **dict.fromkeys(quiet, ""))
        self.server = server
        os.mkdir(f"{self.folder}/lib/mailquota")
        path = f"{self.folder}/bin/mailquota"
        with open(path, "w", encoding="ascii") as file:
            file.write(
                "#!/bin/sh\nword=$1; shift\ncase $word in filter) its=filter ;; *) its=server ;;"
                f' esac\nexec {world.program} $word --config {settings}/$its.toml "$@"\n'
            )
        os.chmod(path, 0o755)

    def edit(self):
        """What an administrator edits: here both files have the server's address, and the ledger
        has a place of the test's."""
        for it in os.listdir(f"{self.folder}/etc/mailquota"):
            text = self.read(f"etc/mailquota/{it}").replace("192.0.2.7:7025", self.server.address)
            self.write(f"etc/mailquota/{it}", self.here(text))

    def run_edited(self, commands, word):
        """What the commands come to before the first that begins with this word, and, once the
        settings are edited, that one with the others."""
        at = next(n for n, it in enumerate(commands) if it.startswith(word))
        copied = self.run(commands[:at])
        self.edit()
        return [copied, self.run(commands[at:])]


def quick_start(world, checks):
    """README's commands, as they stand there but for the folders: the files that they put in place
    are the examples, and they print what README shows."""
    on_server, on_host, limits = blocks_of("../README.md", "From nothing to the first 550")
    with Server(world, default=1_000) as server:
        machine = Sided(world, "quick", server, "apt", "systemctl", "vi")
        commands, printed = parted(on_server)
        checks.equal(
            "README's server: status, what it prints and says",
            machine.run_edited(commands, "mailquota init"),
            [(0, "", ""), (0, "".join(f"{machine.here(it)}\n" for it in printed), "")],
        )
        unit = "etc/systemd/system/mailquota.service.d/addresses.conf"
        checks.equal(
            "README's server: who reaches it", machine.read(unit), text_of("addresses.conf")
        )
        commands, printed = parted(on_host)
        shown = [it.replace("192.0.2.7:7025", server.address) for it in printed]
        checks.equal(
            "README's mail host: status, what it prints and says",
            machine.run_edited(commands, "mailquota filter"),
            [(0, "", ""), (0, "".join(f"{it}\n" for it in shown), "")],
        )
        calls = machine.read("calls").splitlines()
        checks.equal(
            "README's server and mail host: what else is called",
            [it for it in calls if not it.startswith("apt ")],
            [
                "systemctl enable --now mailquota",
                f"vi {machine.folder}/etc/smtpd.conf",
                "systemctl daemon-reload",
                "systemctl restart opensmtpd",
            ],
        )
        checks.equal(
            "README's server and mail host: what restarts smtpd",
            machine.read("etc/systemd/system/opensmtpd.service.d/smtpd-restart.conf"),
            text_of("smtpd-restart.conf"),
        )
        the_first_550(world, checks, machine, server, limits)


def the_first_550(world, checks, machine, server, block):
    """The limit of 2, then three recipients, then the report, below whose columns a terminal has
    them; and that a stolen password sends nothing more."""
    wait_past_midnight()
    sets, printed, *report = block
    came = machine.run([sets])
    checks.equal("README's first limit", came, (0, f"{printed}\n", ""))
    smtpd = Smtpd(world, "mx1.example.org", server.address)
    now = clock() // 1_000
    smtpd.login(now, b"s1", b"alice")
    smtpd.begin(now, b"s1", b"m1")
    answers = [smtpd.recipient(now, b"s1") for _ in range(3)]
    smtpd.commit(now, b"s1", b"m1")
    smtpd.end()
    checks.equal(
        "README's first 550: recipients that get one",
        [b"550 daily recipient limit reached" in it for it in answers],
        [False, False, True],
    )
    command, columns, row = report
    checks.equal("README's report", machine.run([command]), (0, f"{row}\n", ""))
    checks.equal("README's report: its columns", columns, "settled reserved  limit login")
    _, stops, stopped, before = blocks_of("../README.md", "A password is stolen")[0]
    resumes, resumed = blocks_of("../README.md", "A password is stolen")[1]
    checks.equal(
        "README's stop and resume: status, what they print and say",
        [re.sub(r"\d+", "N", str(it)) for it in machine.run([stops, resumes])],
        [re.sub(r"\d+", "N", str(it)) for it in (0, f"{stopped}\n{before}\n{resumed}\n", "")],
    )


def parted(block):
    """The commands of a block, and what they print by the page."""
    is_command = re.compile(r"(apt|cd|cp|mkdir|mailquota|sed|systemctl|smtpd|vi) ")
    commands = [it for it in block if is_command.match(it)]
    return commands, [it for it in block if it not in commands]


def by_install(world, checks):
    """INSTALL's commands for the quota server and for a mail host: they copy the examples, as they
    are, to where systemd and the program look for them, and print what the page shows."""
    copies, adds, permits, makes, starts, *_ = blocks_of("INSTALL.md", "The quota server")
    of_filter, checked, _, restarts, retires = blocks_of("INSTALL.md", "Each mail host")
    with Server(world, default=1_000) as server:
        machine = Sided(world, "by-install", server, "systemctl", "smtpd")
        copied = machine.run([*copies, *adds, *permits, *of_filter, *retires])
        found = {
            os.path.relpath(f"{at}/{it}", f"{machine.folder}/etc"): machine.read(
                os.path.relpath(f"{at}/{it}", machine.folder)
            )
            for at, _, names in os.walk(f"{machine.folder}/etc")
            for it in names
        }
        wanted = {
            f"{folder}/{it}": text_of(it)
            for folder, it in (
                ("mailquota", "permits.toml"),
                ("mailquota", "filter.toml"),
                ("systemd/system/mailquota.service.d", "addresses.conf"),
                ("systemd/system/opensmtpd.service.d", "smtpd-restart.conf"),
            )
        }
        wanted["mailquota/server.toml"] = text_of("server.toml").replace("\n# permits", "\npermits")
        checks.equal(
            "INSTALL's copies: status, what they print and say, and what is there",
            (copied, found),
            ((0, "", ""), wanted),
        )
        machine.edit()
        for what, block in (
            ("the ledger", makes),
            ("the server", starts),
            ("the filter's settings", checked),
            ("smtpd", restarts),
        ):
            commands, printed = parted(block)
            shown = machine.here("".join(f"{it}\n" for it in printed if it != "configuration OK"))
            checks.equal(
                f"INSTALL's commands for {what}: status, what they print and say",
                machine.run(commands),
                (0, shown.replace("192.0.2.7:7025", server.address), ""),
            )
    checks.equal(
        "INSTALL's commands: what is asked of systemd and smtpd, in this order",
        machine.read("calls").splitlines(),
        [
            "systemctl daemon-reload",
            "systemctl restart opensmtpd",
            "systemctl enable --now mailquota",
            "smtpd -n",
            "systemctl restart opensmtpd",
        ],
    )
