"""Settings of the server: accepted ones end in the refusal of a port that is in use, so that
nothing is served."""
import socket

from cases.rules import CENTRAL_EUROPE, NO_RULES, RULES
from cases.texts_of_settings import NOT_TOML, is_no_toml, log_of
from ends import (
    NO_FILE,
    NO_NUMERIC_ADDRESS,
    NO_PORT,
    PORT_TOO_LARGE,
    begun,
    fault,
    of_settings,
    without_time,
)

ACCEPTED = "listen failed"
# addresses that none can listen at, and what each lacks
ADDRESSES = {
    '"localhost:7025"': NO_NUMERIC_ADDRESS,
    '"127.0.0.1"': NO_PORT,
    '"*:7025"': NO_NUMERIC_ADDRESS,
    '"127.0.0.1:65536"': PORT_TOO_LARGE,
    "7025": None,
    '""': NO_PORT,
}


def run(world, checks):
    with socket.create_server(("127.0.0.1", 0)) as taken:
        cases = Cases(world, checks, taken.getsockname()[1])
        cases.files()
        cases.order()
        cases.values()


class Cases:
    def __init__(self, world, checks, port):
        self.world = world
        self.checks = checks
        self.address = f"127.0.0.1:{port}"
        self.good = {
            "listen": f'"{self.address}"',
            "store": '"memory"',
            "default": "3",
            "offset": "0",
        }

    def text_of(self, **settings):
        return "".join(
            f"{key} = {value}\n"
            for key, value in {**self.good, **settings}.items()
            if value is not None
        )

    def expect(self, what, content, wanted, *words, lacks=None, log=None):
        """What a server comes to by this file of settings, and what its log says before: of an
        address its fault, where it is a text, or this log."""
        path = self.world.new_file(content)
        came = self.world.run("server", "--config", path, *words)
        if wanted == NOT_TOML:
            self.checks.holds(
                f"server settings, {what}", is_no_toml(path, came), "refused, with the place", came
            )
            return
        came = *came[:2], "".join(f"{line}\n" for line in without_time(came[2].splitlines()))
        if log is None:
            log = self.in_use() if wanted == ACCEPTED else log_of(path, wanted, lacks)
        self.checks.equal(f"server settings, {what}", came, fault(wanted, log=log))

    def in_use(self, address=None, cause="Address already in use (os error 98)"):
        return f"[ERROR server] listening on {address or self.address}: {cause}\n"

    def files(self):
        for what, path, cause in [
            ("no file", f"{self.world.folder}/none", NO_FILE),
            ("a folder", self.world.folder, "Is a directory (os error 21)"),
        ]:
            came = self.world.run("server", "--config", path)
            self.checks.equal(
                f"server settings, {what}",
                came,
                fault("settings can't be read", log=of_settings(path, cause)),
            )
        text = self.text_of()
        self.expect("65,536 bytes", text + "#" * (65_536 - len(text)), ACCEPTED)
        self.expect("65,537 bytes", text + "#" * (65_537 - len(text)), "settings too large")
        self.expect("no TOML", "listen\n", NOT_TOML)

    def order(self):
        keys = ["listen", "store", "default", "offset"]
        rule = f'"{CENTRAL_EUROPE}"'
        for key in keys:
            self.expect(f"{key} missing", self.text_of(**{key: None}), f"setting {key}: missing")
        self.expect("empty", "", "setting listen: missing")
        self.expect("all that is wanted, the port in use", self.text_of(), ACCEPTED)
        self.expect("the same with --create", self.text_of(), ACCEPTED, "--create")
        self.expect("an unknown key", self.text_of(tries=3), "setting tries: unknown")
        self.expect("an unknown key before what is missing", "hots = 1\n", "setting hots: unknown")
        self.expect("a key of the filter", self.text_of(host='"mx1"'), "setting host: unknown")
        for first in range(len(keys)):
            bad = {key: "{}" for key in keys[first:]}
            self.expect(
                f"{', '.join(bad)} bad", self.text_of(**bad), f"setting {keys[first]}: bad value"
            )
        self.expect("a rule in place of an offset", self.text_of(offset=None, rule=rule), ACCEPTED)
        self.expect("an offset and a rule", self.text_of(rule=rule), "setting rule: bad value")
        self.expect(
            "an offset and no rule's text", self.text_of(rule='"CET"'), "setting rule: bad value"
        )
        self.expect(
            "a bad offset and a rule",
            self.text_of(offset=1440, rule=rule),
            "setting offset: bad value",
        )
        self.expect(
            "default and rule bad",
            self.text_of(default=-1, offset=None, rule='"CET"'),
            "setting default: bad value",
        )
        self.expect(
            "rule and timeout bad",
            self.text_of(offset=None, rule='"CET"', timeout=0),
            "setting rule: bad value",
        )
        self.expect(
            "rule and keep bad",
            self.text_of(offset=None, rule='"CET"', keep=0),
            "setting rule: bad value",
        )
        self.expect(
            "keep and timeout bad", self.text_of(keep=0, timeout=0), "setting keep: bad value"
        )
        self.expect(
            "timeout, idle and log bad",
            self.text_of(timeout=0, idle=0, log=0),
            "setting timeout: bad value",
        )
        self.expect("idle and log bad", self.text_of(idle=0, log=0), "setting idle: bad value")
        self.expect(
            "log, permits and metrics bad",
            self.text_of(log=0, permits=0, metrics=0),
            "setting log: bad value",
        )
        self.expect(
            "permits and metrics bad",
            self.text_of(permits=0, metrics=0),
            "setting permits: bad value",
        )
        self.expect(
            "store missing, default bad",
            self.text_of(store=None, default='"x"'),
            "setting store: missing",
        )

    def values(self):
        accepted = [
            ("default", ["0", "1000000"]),
            ("offset", ["-1439", "1439", "+60"]),
            ("keep", ["1", "366"]),
            ("timeout", ["1", "60000"]),
            ("idle", ["1", "3600"]),
            ("log", ['"off"', '"error"', '"warn"', '"info"']),
            ("metrics", [f'"{self.world.folder}/mailquota.prom"', "'a'"]),
        ]
        refused = [
            ("listen", ADDRESSES),
            ("store", ['""', "1", "true"]),
            ("default", ["-1", "1000001", '"3"', "3.5", "true"]),
            ("offset", ["-1440", "1440", '"0"', "0.0", "true"]),
            ("keep", ["0", "367", "-1", '"2"', "2.0"]),
            ("timeout", ["0", "60001", '"300"', "300.0"]),
            ("idle", ["0", "3601", "-1", '"60"', "60.0"]),
            ("log", ['"debug"', '"Info"', "1"]),
            ("permits", ['""', "1", "true", "['a']"]),
            ("metrics", ['""', "1", "true", "['a']", "{}"]),
        ]
        # (with "info" it says first what it has opened, and with "off" nothing)
        logs = {'"off"': "", '"info"': f"{begun('memory')}\n{self.in_use()}"}
        logs |= dict.fromkeys(
            ["1", "366"],
            (
                "[WARN  server] a ledger in memory forgets nothing, whatever `keep`"
                f" says\n{self.in_use()}"
            ),
        )
        for key, spellings in accepted:
            for value in spellings:
                self.expect(
                    f"{key} = {value}",
                    self.text_of(**{key: value}),
                    ACCEPTED,
                    log=logs.get(value) if key in ("keep", "log") else None,
                )
        for key, spellings in refused:
            for value in spellings:
                self.expect(
                    f"{key} = {value}",
                    self.text_of(**{key: value}),
                    f"setting {key}: bad value",
                    lacks=ADDRESSES.get(value) if key == "listen" else None,
                )
        for value in RULES:
            self.expect(f"rule = {value}", self.text_of(offset=None, rule=f'"{value}"'), ACCEPTED)
        for value in [f'"{it}"' for it in NO_RULES] + ["60", "true", "{}"]:
            self.expect(
                f"rule = {value}", self.text_of(offset=None, rule=value), "setting rule: bad value"
            )
        log = self.in_use("192.0.2.1:7025", "Cannot assign requested address (os error 99)")
        self.expect(
            "an address of another machine",
            self.text_of(listen='"192.0.2.1:7025"'),
            ACCEPTED,
            log=log,
        )
