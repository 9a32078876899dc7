"""Debian's node_exporter and Prometheus on loopback, each at a port that was free and over folders
of a test, for as long as a `with` lasts."""
import contextlib
import json
import os
import re
import shutil
import socket
import subprocess
import time
import urllib.error
import urllib.parse
import urllib.request

PROGRAMS = ("promtool", "prometheus", "prometheus-node-exporter")
# What of node_exporter's figures rules and dashboard name, beside those of the files.
KEPT = ("mailquota_", "node_textfile_", "node_filesystem_avail_bytes", "node_memory_MemTotal_bytes")
# seconds after which whatever hasn't come is missing
SECONDS = 60
# the longest step of a query over a day, in seconds
STEP = 60


def missing():
    """Which of the programs aren't there."""
    return [it for it in PROGRAMS if not shutil.which(it)]


def run(*words, text=None):
    """The status of a program, and all that it says."""
    came = subprocess.run(
        words, input=text, stdout=subprocess.PIPE, stderr=subprocess.STDOUT, text=True
    )
    return came.returncode, came.stdout


def got(address, path):
    with urllib.request.urlopen(f"http://{address}{path}", timeout=SECONDS) as came:
        return came.read().decode()


@contextlib.contextmanager
def listening(words, path, log):
    """A program that listens at the address that stands for ADDRESS in its words; yields that
    address once it answers this path."""
    with socket.socket() as probe:
        probe.bind(("127.0.0.1", 0))
        address = f"127.0.0.1:{probe.getsockname()[1]}"
    with open(log, "w", encoding="utf-8") as said, subprocess.Popen(
        [it.replace("ADDRESS", address) for it in words],
        stdin=subprocess.DEVNULL,
        stdout=said,
        stderr=subprocess.STDOUT,
    ) as process:
        try:
            end = time.monotonic() + SECONDS
            while True:
                try:
                    got(address, path)
                    break
                except (urllib.error.URLError, OSError):
                    if process.poll() is not None or time.monotonic() > end:
                        with open(log, encoding="utf-8") as file:
                            raise AssertionError(f"{words[0]}: {file.read()[-2_000:]}") from None
                    time.sleep(0.05)
            yield address
        finally:
            process.terminate()


@contextlib.contextmanager
def exporter(folder, log):
    """A node_exporter over the textfiles of a folder, with its address."""
    collectors = ("textfile", "filesystem", "meminfo")
    words = [
        "prometheus-node-exporter",
        "--web.listen-address=ADDRESS",
        "--collector.disable-defaults",
        *(f"--collector.{it}" for it in collectors),
        f"--collector.textfile.directory={folder}",
    ]
    with listening(words, "/", log) as address:
        yield address


SAMPLE = re.compile(r"([a-zA-Z_:][\w:]*)(?:\{(.*)\})? (\S+)(?: \d+)?")


def samples(text):
    """Of a text of figures those that are kept: their names, labels as they stand there, values."""
    found = (SAMPLE.fullmatch(it) for it in text.splitlines() if not it.startswith("#"))
    return [it.groups("") for it in found if it and it[1].startswith(KEPT)]


class Prometheus:
    """One at an address."""

    def __init__(self, address):
        self.address = address

    def ask(self, what, **words):
        """What the HTTP API tells, or why it doesn't."""
        try:
            came = got(self.address, f"/api/v1/{what}?{urllib.parse.urlencode(words)}")
        except urllib.error.HTTPError as refused:
            came = refused.read().decode()
        answer = json.loads(came)
        if answer["status"] != "success":
            raise ValueError(answer["error"])
        return answer["data"]

    def range(self, expression, start, end, step=STEP):
        """The series of an expression from one moment to another: of each its labels, and its
        values by their moments."""
        came = self.ask("query_range", query=expression, start=start, end=end, step=step)["result"]
        return [
            (it["metric"], {int(at): float(value) for at, value in it["values"]}) for it in came
        ]


@contextlib.contextmanager
def prometheus(folder, settings):
    """A Prometheus with these settings over the database in a folder, where one may be already."""
    os.makedirs(f"{folder}/data", exist_ok=True)
    with open(f"{folder}/prometheus.yml", "w", encoding="utf-8") as file:
        file.write(settings)
    words = [
        "prometheus",
        f"--config.file={folder}/prometheus.yml",
        f"--storage.tsdb.path={folder}/data",
        "--storage.tsdb.retention.time=100y",
        "--web.listen-address=ADDRESS",
    ]
    with listening(words, "/-/ready", f"{folder}/prometheus.log") as address:
        yield Prometheus(address)


def backfill(folder, scrapes):
    """A database in a folder of what was scraped: for each scrape its moment, the machine, and the
    text."""
    os.makedirs(folder)
    path = f"{folder}/day.om"
    with open(path, "w", encoding="utf-8") as file:
        for moment, instance, text in scrapes:
            for name, labels, value in samples(text):
                more = f",{labels}" if labels else ""
                file.write(f'{name}{{job="node",instance="{instance}"{more}}} {value} {moment}\n')
        file.write("# EOF\n")
    status, said = run(
        "promtool", "tsdb", "create-blocks-from", "openmetrics", path, f"{folder}/data"
    )
    os.remove(path)
    assert status == 0, said[-2_000:]
