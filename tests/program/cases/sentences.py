"""Code within the sentences of the pages, which no block has: each command of the program is one
that it takes, each text of the log or of an error one that a source writes, each setting one of the
manual's; what remains is listed here."""
import glob
import re
import shlex

import wire
from ends import TOP, Server, toml

PAGES = [
    *("README.md", "SECURITY.md", "docs/INSTALL.md", "docs/OPERATING.md", "docs/STABLE.md"),
    *(f"man/{it}" for it in ("mailquota.8", "mailquota-server.8", "mailquota-filter.8")),
]
# those of the manual's that stand without `mailquota` before them
COMMANDS = r"(?:status|filter|limit|stop|resume|report|retire|forget|audit|limits|init|day|server)"
# commands of others, each as it stands
OTHERS = {
    "apt install",
    "apt purge mailquota",
    "apt remove mailquota",
    "apt show mailquota",
    "df /var/lib/mailquota",
    "install -d -m 700 /var/lib/mailquota",
    "ip address show to 192.0.2.7",
    "ln -s private/mailquota /var/lib/mailquota",
    "mailquota-limits --stopped",
    "ls -l",
    "rmdir /var/lib/mailquota",
    "rt version",
    "smtpctl update table credentials",
    "systemctl edit mailquota",
    "systemctl enable --now nftables",
    "systemctl enable nftables",
    "systemctl restart keepalived",
    "systemctl show -p NRestarts mailquota",
    "systemctl status mailquota",
}
# what a text has in place of a value
VALUES = (
    r"\.\.|\b[A-Z]\b|\b\d[\d.:]*M?\b|localhost:7025|Too many open files \(os error \d+\)|^ledger: "
)
# no command, and no text of the program: lines of smtpd.conf and nftables.conf, what `rt version`
# prints, and what the store's library says
WORDS = {
    "filter limited chain { spelling, quota, dkim }",
    "filter limited",
    "filter quota",
    "logic dac8208d650f15bf",
    "unable to open database file",
}


def run(world, checks):
    codes = [(page, code) for page in PAGES for code in codes_in(page)]
    with Server(world) as server:
        server.ask(wire.reserve(1))
        config = world.new_file(
            toml({"listen": server.address, "store": "memory", "default": 3, "offset": 0})
        )
        commands = [it for it in codes if is_command(it[1])]
        for page, code in commands:
            takes(world, checks, server, config, page, code)
    texts, keys, targets = texts_of_sources(), keys_of_settings(), targets_of_make()
    others = [it for it in codes if it not in commands]
    checks.equal(
        f"code within sentences, {len(codes)} pieces: what is no command of the program or of"
        " others, no text that it writes and no setting",
        [
            it
            for it in others
            if it[1] not in OTHERS | WORDS
            and not is_key(it[1], keys)
            and not is_target(it[1], targets)
            and not is_written(it[1], texts)
        ],
        [],
    )
    checks.equal(
        "commands of others that stand in no sentence any more",
        sorted(OTHERS - {code for _, code in codes}),
        [],
    )


def codes_in(page):
    """The code within the sentences of a page that has more than one word."""
    with open(f"{TOP}/{page}", encoding="utf-8") as file:
        text = file.read()
    if page.startswith("man/"):
        # (a macro's argument, and what follows it on the line is text)
        found = re.findall(r"^\.(?:Ql|Dl) (.*)$", text, re.MULTILINE)
        found = [re.sub(r" [.,;:)]$", "", it).strip('"') for it in found]
    else:
        text = re.sub(r"^    .*$", "", re.sub(r"```.*?```", "", text, flags=re.DOTALL), flags=re.M)
        found = re.findall(r"`([^`]+)`", text)
    found = [" ".join(it.split()) for it in found]
    return [it for it in found if " " in it and re.match(r"[a-z]", it)]


def is_command(code):
    return re.match(rf"mailquota |{COMMANDS} --", code) is not None


def takes(world, checks, server, config, page, code):
    """The program takes these words. Where they ask a server, one answers."""
    first, *rest = code.split(" | ")
    words = [it for it in shlex.split(first) if it != ".."]
    words = words[1:] if words[0] == "mailquota" else words
    for old, new in (
        ("192.0.2.7:7025", server.address),
        ("/etc/mailquota/server.toml", config),
    ):
        words = [new if it == old else it for it in words]
    if words[-1] in ("--server", "--config", "--host"):
        words.append({"--server": server.address, "--config": config, "--host": "mx1"}[words[-1]])
    # (with --help it says only whether it takes the words before)
    status, output, errors = world.run(*words, *([] if words == ["--version"] else ["--help"]))
    checks.holds(
        f"{page}, {code}: the program takes it",
        status == 0 and output != b"" and errors == "",
        "status 0",
        (status, errors),
    )
    for it in rest:
        checks.holds(f"{page}, {code}: and what follows", it.startswith("awk '"), "awk", it)


def texts_of_sources():
    """What stands in texts of the sources, with a space in place of each value."""
    found = []
    for path in glob.glob(f"{TOP}/crates/*/src/**/*.rt", recursive=True):
        with open(path, encoding="utf-8") as file:
            found += re.findall(r'"((?:\\.|[^"\\])*)"', file.read())
    return [re.sub(r"\{[^}]*\}", " ", it) for it in found]


def is_written(code, texts):
    """Whether a text of a source has it, or each part of it that stands around values and '..'."""
    parts = [it.strip(" :;") for it in re.split(VALUES, code) if it.strip(" :;")]
    return any(all(part in text for part in parts) for text in texts)


def keys_of_settings():
    with open(f"{TOP}/man/mailquota.toml.5", encoding="utf-8") as file:
        return set(re.findall(r"^\.It Va (\w+)", file.read(), re.MULTILINE))


def is_key(code, keys):
    return (found := re.fullmatch(r"(\w+) = (\d+|\"[^\"]+\")", code)) and found[1] in keys


def targets_of_make():
    with open(f"{TOP}/Makefile", encoding="utf-8") as file:
        return set(re.findall(r"^([\w-]+):", file.read(), re.MULTILINE))


def is_target(code, targets):
    return code.startswith("make ") and code.split()[1] in targets
