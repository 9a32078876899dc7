#!/usr/bin/env python3
"""The dashboard and the alerts of contrib, with Debian's Prometheus and node_exporter.

- promtool takes the alerts, and each comes and doesn't come as rules*.test.yml say.
- A day of two quota servers and two mail hosts is lived through by real servers and filters whose
  clocks are set (day.py); real node_exporters hand on what they write, which promtool takes. Each
  figure that an alert or a query names is one of theirs, with its labels and their values.
- The day is put into a real Prometheus, over which each query brings series, with the labels that
  its legend names; the alerts that come are those of the day's troubles, each in its time.
- Of a server and a filter that run, a real Prometheus scrapes all figures, and takes each alert.

With --draw docs/dashboard.svg is drawn anew, of that day. The last line is 'N passed, M failed',
and the status 1 where any failed, and 2 where a program is missing.
"""
import argparse
import os
import re
import sys
import tempfile
import time

sys.dont_write_bytecode = True

HERE = os.path.dirname(os.path.abspath(__file__))
# (Python before 3.12 has an smtpd of its own)
sys.path[:0] = [f"{HERE}/../program", f"{HERE}/../model"]

import monitors
import picture
import boards
from checks import Checks
from day import BEGIN, DAY, HOSTS, HOUR, MINUTE, SERVERS, TROUBLES, Day
from ends import Server, World, wait_until
from smtpd import Smtpd, clock

# memory that is a folder
SHARED = "/dev/shm"
# how long after a trouble its alerts may come, in seconds
LATE = 15 * MINUTE
SETTINGS = """
global: {{scrape_interval: 1s, evaluation_interval: 1s}}
rule_files: ["{rules}"]
scrape_configs: [{{job_name: node, static_configs: [{{targets: ["{address}"]}}]}}]
"""


def of_the_alerts(checks):
    for words in (
        ("check", "rules", boards.RULES),
        ("test", "rules", f"{HERE}/rules.test.yml"),
        ("test", "rules", f"{HERE}/rules_over_days.test.yml"),
    ):
        status, said = monitors.run("promtool", *words)
        name = os.path.basename(words[2])
        checks.holds(f"promtool {' '.join(words[:2])}, {name}", status == 0, "status 0", said)
    tested = ""
    for name in ("rules", "rules_over_days"):
        with open(f"{HERE}/{name}.test.yml", encoding="utf-8") as file:
            tested += file.read()
    for alert in boards.alerts():
        its = re.findall(rf"alertname: {alert.name}\n( +exp_alerts:\n)?", tested)
        comes = sorted(map(bool, its))
        checks.equal(f"{alert.name}: tests in which it comes or not", comes, [False, True])


def of_the_figures(checks, day):
    """What servers and filters write is what promtool takes, and rules and dashboard name no
    more."""
    for machine in (*SERVERS, *HOSTS):
        kind = "server" if machine in SERVERS else "filter"
        text = read(f"{day.folder_of(machine)}/mailquota-{kind}.prom")
        came = monitors.run("promtool", "check", "metrics", text=text)
        checks.equal(f"{machine}: promtool check metrics", came, (0, ""))
    # (some aren't known at each moment, as those of a night before the first one)
    hourly = [text for moment, _, text in day.scrapes if moment % HOUR == MINUTE - 1]
    figures = boards.figures_of("\n".join(hourly))
    for alert in boards.alerts():
        checks.equal(f"{alert.name}: names no figure", boards.unknown_in(alert.text, figures), [])
    for it in boards.queries():
        wrong = boards.unknown_in(it.text, figures)
        checks.equal(f"{it.panel}, query {it.letter}: names no figure", wrong, [])
    checks.equal("figures that nothing shows", boards.unshown(figures), [])
    troubled = [it for _, machine, it in day.scrapes if "node_textfile_scrape_error 0" not in it]
    checks.equal("scrapes in which node_exporter had trouble with a file", troubled, [])


def of_the_day(checks, database):
    """Each query of the dashboard brings series, and the alerts are those of the troubles."""
    end = BEGIN + DAY
    for it in boards.queries():
        found = database.range(it.text, BEGIN, end)
        named = re.findall(r"\{\{(\w+)\}\}", it.legend)
        checks.holds(
            f"{it.panel}, query {it.letter}: its series over the day",
            found
            and all(label in labels for labels, _ in found for label in named)
            and any(value == value for _, values in found for value in values.values()),
            f"at least one, with {', '.join(named) or 'no labels'}",
            [labels for labels, _ in found],
        )
    came = [
        (alert.name, labels.get("instance", ""), moment)
        for alert in boards.alerts()
        for labels, values in database.range(alert.text, BEGIN, end)
        for moment in starts(alert, values)
    ]
    for (begin, ends), wanted in TROUBLES.items():
        for name, instance in sorted(wanted):
            its = [it for *who, it in came if who == [name, instance]]
            checks.holds(
                f"{name} of {instance}: comes in the trouble of {clock_of(begin)}",
                any(begin <= it <= ends + LATE for it in its),
                f"between {clock_of(begin)} and {clock_of(ends + LATE)}",
                list(map(clock_of, its)),
            )
    checks.equal(
        "alerts of no trouble",
        [
            (name, instance, clock_of(it))
            for name, instance, it in came
            if not any(
                (name, instance) in wanted and begin <= it <= ends + LATE
                for (begin, ends), wanted in TROUBLES.items()
            )
        ],
        [],
    )


def clock_of(moment):
    return time.strftime("%H:%M", time.gmtime(moment))


def starts(alert, values):
    """The moments at which an alert comes: its expression has held for as long as it is to."""
    found, since = [], None
    for moment in range(BEGIN, BEGIN + DAY + 1, monitors.STEP):
        if moment not in values:
            since = None
            continue
        since = since or moment
        # (once, at the first step at which it has held so long)
        if alert.holds <= moment - since < alert.holds + monitors.STEP:
            found.append(moment)
    return found


def of_what_runs(checks, world):
    """A server and a filter that run by the machine's clock: Prometheus has all that they write."""
    folder = f"{world.folder}/live"
    os.makedirs(f"{folder}/textfiles")
    files = [f"{folder}/textfiles/mailquota-{it}.prom" for it in ("server", "filter")]
    with Server(
        world, words=["--create"], store=f"{folder}/ledger", default=3, metrics=files[0]
    ) as server:
        smtpd = Smtpd(world, "mx1.example.org", server.address, metrics=files[1])
        at = clock() // 1_000
        smtpd.login(at, b"s1", b"alice")
        smtpd.begin(at, b"s1", b"m1")
        for _ in range(4):
            smtpd.recipient(at, b"s1")
        smtpd.commit(at, b"s1", b"m1")
        wait_until(lambda: all(map(os.path.exists, files)))
        with monitors.exporter(f"{folder}/textfiles", f"{folder}/exporter.log") as address:
            settings = SETTINGS.format(address=address, rules=boards.RULES)
            with monitors.prometheus(folder, settings) as it:
                written = {name for path in files for name in boards.figures_of(read(path))}

                def names():
                    found = it.ask("query", query='{__name__=~"mailquota_.*"}')["result"]
                    return {one["metric"]["__name__"] for one in found}

                wait_until(lambda: names() >= written)
                checks.equal("a scrape: figures that are missing", sorted(written - names()), [])
                checks.holds("a scrape: figures", len(written) > 20, "more than 20", len(written))

                def health():
                    [group] = it.ask("rules")["groups"]
                    return {one["name"]: one["health"] for one in group["rules"]}

                wait_until(lambda: "unknown" not in health().values())
                wanted = {alert.name: "ok" for alert in boards.alerts()}
                checks.equal("a scrape: how the alerts are", health(), wanted)
        smtpd.end()


def read(path):
    with open(path, encoding="utf-8") as file:
        return file.read()


def parsed():
    parser = argparse.ArgumentParser(
        description=__doc__, formatter_class=argparse.RawDescriptionHelpFormatter
    )
    parser.add_argument("program", metavar="PROGRAM", type=os.path.abspath)
    parser.add_argument("--draw", action="store_true", help="docs/dashboard.svg is drawn anew")
    return parser.parse_args()


def main():
    asked = parsed()
    if monitors.missing():
        print(
            f"{', '.join(monitors.missing())} missing: apt-get install prometheus"
            " prometheus-node-exporter",
            file=sys.stderr,
        )
        return 2
    checks = Checks()
    of_the_alerts(checks)
    # (each answer is synced: on a disk the day would last longer)
    place = SHARED if os.access(SHARED, os.W_OK) else None
    with tempfile.TemporaryDirectory(prefix="dashboard-", dir=place) as folder:
        world = World(asked.program, folder)
        of_what_runs(checks, world)
        day = Day(world)
        try:
            scrapes = day.play()
        finally:
            day.end()
        of_the_figures(checks, day)
        monitors.backfill(f"{folder}/prometheus", scrapes)
        with monitors.prometheus(f"{folder}/prometheus", "scrape_configs: []\n") as database:
            of_the_day(checks, database)
            if asked.draw:
                picture.draw(database)
    print(f"{checks.passed} passed, {checks.failed} failed")
    return 1 if checks.failed or not checks.passed else 0


if __name__ == "__main__":
    sys.exit(main())
