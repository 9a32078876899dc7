#!/usr/bin/env python3
"""Reserves a second over loopback, over memory and over a file, by so many clients at once: on a
connection each, and on one that each client keeps. By turns with the program of before, with a peer
that only echoes (echo.rs), and with servers of Postfix's policies that count by login, where they
are installed (Debian: policyd-rate-limit, whose file is synced, and postfwd, which has none).

A server's ledger is empty at each start. With --sync each fdatasync of the servers takes so much
longer. asker.rs asks all of them; what is printed is the median of the rounds: requests a second,
how often those of the first kind (of the program of before, where there is one), and what the
server takes of a processor for each.
"""
import argparse
import contextlib
import itertools
import os
import shutil
import signal
import statistics
import subprocess
import sys
import tempfile
import time
from pathlib import Path

HERE = Path(__file__).parent
sys.path.append(str(HERE.parent / "tests" / "program"))

from ends import World, free_port, toml, wait_for_listener  # noqa: E402

SLOW = """#include <unistd.h>
#include <sys/syscall.h>
int fdatasync(int file) { usleep(%d); return syscall(SYS_fdatasync, file); }
int fsync(int file) { usleep(%d); return syscall(SYS_fsync, file); }
"""
POLICYD = """debug: False
user: root
group: root
pidfile: {folder}/policyd.pid
sqlite_config:
    database: {folder}/policyd.sqlite3
backend: 0
SOCKET: ["127.0.0.1", {port}]
limits:
    - [1000000, 86400]
limits_by_id: {{}}
limit_by_sasl: True
limit_by_sender: False
limit_by_ip: False
limited_networks: []
success_action: dunno
fail_action: defer
db_error_action: defer
report: False
delay_to_close: 300
"""


class Kinds:
    """What is asked, each as a call that starts its server: words, environment, what is spoken,
    whether connections are kept."""

    def __init__(self, folder, sync):
        self.folder, self.files = folder, itertools.count()
        self.environment = dict(os.environ)
        if sync:
            made, source = f"{folder}/slow.so", f"{folder}/slow.c"
            with open(source, "w", encoding="ascii") as file:
                file.write(SLOW % (1000 * sync, 1000 * sync))
            subprocess.run(["cc", "-shared", "-fPIC", "-o", made, source], check=True)
            self.environment["LD_PRELOAD"] = made

    def ours(self, program, store):
        world = World(program, self.folder)

        def words(port, connections):
            place = "memory" if store == "memory" else f"{self.folder}/{next(self.files)}.db"
            settings = {
                "listen": f"127.0.0.1:{port}",
                "store": place,
                "default": 1_000_000,
                "offset": 0,
                "timeout": 10_000,
            }
            file = world.new_file(toml(settings))
            return [program, "server", "--config", file, "--create", "--connections"] + [
                str(connections)
            ]

        return words

    def echo(self, port, connections):
        return [f"{self.folder}/echo", str(port), str(connections)]

    def policyd(self, port, _):
        for it in Path(self.folder).glob("policyd.*"):
            it.unlink()
        with open(f"{self.folder}/policyd.yaml", "w", encoding="ascii") as file:
            file.write(POLICYD.format(folder=self.folder, port=port))
        return ["policyd-rate-limit", "--file", file.name]

    def postfwd(self, port, _):
        rule = "id=R1; action=rate(sasl_username/1000000/86400/REJECT)"
        # (without its daemon it counts nothing)
        return [
            *("postfwd2", "-d", "-i", "127.0.0.1", "-p", str(port), "-u", "root", "-g", "root"),
            *("--pidfile", f"{self.folder}/postfwd.pid", "-r", rule),
            *("--cache_port", str(free_port())),
        ]

    def end_daemon(self):
        with contextlib.suppress(FileNotFoundError, ProcessLookupError):
            with open(f"{self.folder}/postfwd.pid", encoding="ascii") as file:
                os.kill(int(file.read()), signal.SIGTERM)
            os.remove(file.name)

    def all(self, program, before, store, clients):
        kinds = {"new": (self.ours(program, store), "quota", "new")}
        kinds["kept"] = (self.ours(program, store), "quota", "kept")
        if before:
            kinds["before"] = (self.ours(before, store), "quota", "new")
            kinds["before, kept"] = (self.ours(before, store), "quota", "kept")
        # (it serves one connection at a time)
        kinds["echo"] = (self.echo, "quota", "new")
        if store == "file":
            for name, words in (
                ("policyd-rate-limit", self.policyd),
                ("postfwd2", self.postfwd),
            ):
                if shutil.which(name):
                    kinds[name] = (words, "policy", "new")
                    kinds[f"{name}, kept"] = (words, "policy", "kept")
        return kinds


def worked(process):
    """The seconds that a process has run so far, in all its threads; postfwd2 has others for its
    work."""
    folder = f"/proc/{process.pid}/task"
    return sum(
        int(Path(f"{folder}/{it}/schedstat").read_text(encoding="ascii").split()[0]) / 1e9
        for it in os.listdir(folder)
    )


def is_there(port):
    """Whether somebody listens at this port, without a connection that a server would count."""
    with open("/proc/net/tcp", encoding="ascii") as table:
        return f"0100007F:{port:04X} 00000000:0000 0A" in table.read()


def seconds(kinds, kind, clients, requests):
    """How long so many requests take, by the clock and of the server's processor."""
    words, spoken, kept = kind
    port = free_port()
    # (one more than there are, so that it is there still)
    connections = 1 + requests
    quiet = subprocess.DEVNULL
    server = subprocess.Popen(
        words(port, connections),
        env=kinds.environment,
        stdin=quiet,
        stdout=quiet,
        stderr=quiet,
        start_new_session=True,
    )
    try:
        if spoken == "quota":
            wait_for_listener(server)
        else:
            until = time.monotonic() + 20
            while not is_there(port):
                assert time.monotonic() < until, "it doesn't listen"
                time.sleep(0.05)
        before = worked(server)
        run = subprocess.run(
            [f"{kinds.folder}/asker", str(port), str(clients), str(requests), spoken, kept],
            capture_output=True,
            check=True,
            timeout=300,
        )
        return float(run.stdout), worked(server) - before
    finally:
        with contextlib.suppress(ProcessLookupError):
            os.killpg(server.pid, signal.SIGKILL)
        server.wait()
        kinds.end_daemon()
        for file in Path(kinds.folder).glob("*.db*"):
            file.unlink()


def main():
    parser = argparse.ArgumentParser(
        description=__doc__, formatter_class=argparse.RawDescriptionHelpFormatter
    )
    parser.add_argument("program", metavar="PROGRAM", type=os.path.abspath)
    parser.add_argument("--before", metavar="PROGRAM", type=os.path.abspath)
    parser.add_argument("--clients", metavar="N", type=int, nargs="*", default=[1, 4, 16])
    parser.add_argument("--stores", metavar="STORE", nargs="*", default=["memory", "file"])
    parser.add_argument("--requests", metavar="N", type=int, default=1_000, help="of each run")
    parser.add_argument("--rounds", metavar="N", type=int, default=7)
    parser.add_argument("--sync", metavar="MS", type=int, default=0)
    parser.add_argument("--folder", metavar="FOLDER", help="on the disk that is to be measured")
    parser.add_argument("--without", metavar="WORD", nargs="*", default=[], help="kinds left out")
    asked = parser.parse_args()
    print(f"{os.cpu_count()} processors, load of {os.getloadavg()[0]:.1f}, {asked.rounds} rounds")
    with tempfile.TemporaryDirectory(dir=asked.folder) as folder:
        for name in ("echo", "asker"):
            made = ["rustc", "-O", "--edition", "2021", "-o", f"{folder}/{name}"]
            subprocess.run([*made, HERE / f"{name}.rs"], check=True)
        kinds = Kinds(folder, asked.sync)
        for store, clients in itertools.product(asked.stores, asked.clients):
            every = kinds.all(asked.program, asked.before, store, clients)
            every = {
                name: it
                for name, it in every.items()
                if not any(name.startswith(word) for word in asked.without)
            }
            times = {name: [] for name in every}
            for _, name in itertools.product(range(asked.rounds), every):
                times[name].append(seconds(kinds, every[name], clients, asked.requests))
            medians = {name: list(map(statistics.median, zip(*it))) for name, it in times.items()}
            first = medians["before" if asked.before else next(iter(medians))][0]
            told = [
                f"{name} {asked.requests / taken:,.0f}/s ({first / taken:.2f},"
                f" {1e6 * work / asked.requests:.0f} us)"
                for name, (taken, work) in medians.items()
            ]
            print(f"{store}, {clients} clients: {'; '.join(told)}", flush=True)


if __name__ == "__main__":
    main()
