"""The dashboard and the alerts of contrib: what they name is what a server and a filter write,
their form is Grafana's, and the commands of OPERATING bring settings that the program takes.

That the queries bring something, and that each alert comes, only tests/dashboard sees.
"""
import os

import boards
from cases.contrib import Machine, text_of
from ends import Server
from pages import block_with
from smtpd import Smtpd, clock

SECTION = "What a dashboard shows"
# what Debian's package of Prometheus has there
PROMETHEUS = """rule_files:
  # - "first_rules.yml"

scrape_configs:
  - job_name: 'prometheus'
    static_configs:
      - targets: ['localhost:9090']

  - job_name: node
    static_configs:
      - targets: ['localhost:9100']
"""


def run(world, checks):
    figures(world, checks)
    form(checks)
    a_server_by_the_page(world, checks)
    a_mail_host_by_the_page(world, checks)
    prometheus_by_the_page(world, checks)


def written(world):
    """The figures of a server and of a filter that had a recipient and ended, and those that
    mail-host-check writes."""
    folder = f"{world.folder}/figures"
    os.makedirs(folder)
    files = [f"{folder}/{it}.prom" for it in ("server", "filter")]
    store = {"store": f"{folder}/ledger", "keep": 2, "metrics": files[0]}
    with Server(world, connections=1, words=["--create"], **store) as server:
        smtpd = Smtpd(world, "mx1.example.org", server.address, metrics=files[1])
        at = clock() // 1_000
        smtpd.login(at, b"s1", b"alice")
        smtpd.begin(at, b"s1", b"m1")
        smtpd.recipient(at, b"s1")
        server.status()
        smtpd.end()
    texts = [text_of("mail-host-check").replace("\\n", "\n").replace("%d", "0")]
    for path in files:
        with open(path, encoding="utf-8") as file:
            texts.append(file.read())
    return boards.figures_of("\n".join(texts).replace("printf '", "\n"))


def figures(world, checks):
    found = written(world)
    # (these are known once a night is over)
    found.update({f"mailquota_server_last_night_{it}": {} for it in boards.OF_NIGHTS})
    checks.holds("figures of a server and a filter", len(found) > 30, "more than 30", len(found))
    for it in boards.alerts():
        wrong = boards.unknown_in(it.text, found)
        checks.equal(f"alert {it.name}: names nothing that isn't written", wrong, [])
    for it in boards.queries():
        wrong = boards.unknown_in(it.text, found)
        checks.equal(f"{it.panel}, query {it.letter}: names nothing that isn't written", wrong, [])
    checks.equal("figures that nothing shows", boards.unshown(found), [])


def form(checks):
    wrong = boards.wrong_form(boards.dashboard())
    checks.equal("what is wrong with the dashboard's form", wrong, [])
    sections = boards.sections()
    for it in boards.alerts():
        checks.holds(
            f"alert {it.name}: the sections of OPERATING that it names",
            it.sections and {*it.sections} <= sections,
            "are there",
            it.sections,
        )


def settings_after(world, machine, name):
    """Whether the program takes the settings of a machine, and their last line."""
    path = f"{machine.folder}/etc/mailquota/{name}"
    words = {"server.toml": ["day"], "filter.toml": ["filter", "--check"]}[name]
    _, output, _ = world.run(*words, "--config", path)
    is_taken = output.startswith(b"settings are right\n") or output.strip().isdigit()
    return is_taken, machine.read(f"etc/mailquota/{name}").splitlines()[-1]


def a_server_by_the_page(world, checks):
    """The drop-in comes beside the others, and the setting names a file in its folder."""
    machine = Machine(world, "board-server", apt="", systemctl="")
    os.makedirs(f"{machine.folder}/etc/systemd/system/mailquota.service.d")
    machine.write("etc/mailquota/server.toml", text_of("server.toml"))
    came = machine.run(block_with("OPERATING.md", SECTION, "server.toml"))
    folder = machine.here("/var/lib/prometheus/node-exporter")
    checks.equal(
        "figures of a server by OPERATING: status and what is said, what is asked of systemd",
        (came, machine.read("calls").splitlines()[1:]),
        ((0, "", ""), ["systemctl daemon-reload", "systemctl restart mailquota"]),
    )
    checks.equal(
        "figures of a server by OPERATING: the drop-in",
        machine.read("etc/systemd/system/mailquota.service.d/metrics.conf"),
        text_of("metrics.conf"),
    )
    checks.equal(
        "figures of a server by OPERATING: whether the settings are taken, their last line",
        settings_after(world, machine, "server.toml"),
        (True, f'metrics = "{folder}/mailquota-server.prom"'),
    )
    checks.holds(
        "figures of a server by OPERATING: the drop-in has the file's folder",
        "ReadWritePaths=-/var/lib/prometheus/node-exporter\n" in text_of("metrics.conf"),
        "as it has",
        text_of("metrics.conf"),
    )


def a_mail_host_by_the_page(world, checks):
    machine = Machine(world, "board-host", apt="", chown="", systemctl="")
    machine.write("etc/mailquota/filter.toml", text_of("filter.toml").replace("7025", "1"))
    came = machine.run(block_with("OPERATING.md", SECTION, "filter.toml"))
    folder = machine.here("/var/lib/prometheus/node-exporter")
    checks.equal(
        "figures of a mail host by OPERATING: status and what is said, what is asked",
        (came, machine.read("calls").splitlines()[1:]),
        ((0, "", ""), [f"chown opensmtpd {folder}", "systemctl restart opensmtpd"]),
    )
    checks.equal(
        "figures of a mail host by OPERATING: whether the settings are taken, their last line",
        settings_after(world, machine, "filter.toml"),
        (True, f'metrics = "{folder}/mailquota-filter.prom"'),
    )


def prometheus_by_the_page(world, checks):
    """Prometheus reads the alerts, and scrapes each machine."""
    machine = Machine(world, "board-prometheus", promtool="", systemctl="")
    os.makedirs(f"{machine.folder}/etc/prometheus")
    machine.write("etc/prometheus/prometheus.yml", PROMETHEUS)
    came = machine.run(block_with("OPERATING.md", SECTION, "promtool"))
    checks.equal(
        "Prometheus by OPERATING: status and what is said, what is asked",
        (came, machine.read("calls").splitlines()),
        (
            (0, "", ""),
            [
                f"promtool check config {machine.folder}/etc/prometheus/prometheus.yml",
                "systemctl restart prometheus",
            ],
        ),
    )
    machines = "'192.0.2.7:9100', '192.0.2.1:9100', '192.0.2.2:9100'"
    checks.equal(
        "Prometheus by OPERATING: its settings",
        machine.read("etc/prometheus/prometheus.yml"),
        PROMETHEUS.replace("files:\n", "files:\n  - mailquota-rules.yml\n").replace(
            "'localhost:9100'", machines
        ),
    )
    checks.equal(
        "Prometheus by OPERATING: the alerts",
        machine.read("etc/prometheus/mailquota-rules.yml"),
        text_of("mailquota-rules.yml"),
    )
