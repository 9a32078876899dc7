"""`metrics`: the file of figures that a server writes once a minute. Known requests are sent, and
each figure is what was worked out of them by hand; those of the files, of the memory and of the log
are compared with what the system and the log say. `promtool` reads the file, where it is there."""
import contextlib
import os
import re
import shutil
import subprocess
import threading
import time

import clocks
import wire
from cases.nights import DEFAULT, KEEP, filled, first_day, is_through
from cases.permits import text_of
from ends import NO_FILE, Server, files_in, send_no_more, wait_past_a_night, wait_until

DAY = 86_400
NAME = "mailquota_server_"
HEAD = re.compile(r"# (HELP|TYPE) (\w+) (.+)")
VALUE = re.compile(r"(\w+)(\{[^}]*\})? ([0-9.]+)")
# Who may ask what of the server that counts: the host of most requests, and no other.
PERMITS = {"hosts": {"a": ["127.0.0.1"]}, "admin": ["127.0.0.1"], "report": []}


def run(world, checks):
    for case in (
        requests,
        connections,
        a_night,
        whole_at_any_moment,
        a_folder_that_isnt_there,
        a_restart,
        in_memory,
        without_the_setting,
    ):
        wait_past_a_night()
        case(world, checks)


class Counting(Server):
    """A server that writes its figures, and whose clock the case sets."""

    def __init__(self, world, name, **settings):
        self.path = f"{world.folder}/{name}.prom"
        super().__init__(world, metrics=self.path, limit=clocks.limit(0), **settings)
        self.clock = clocks.Clock(self.process.pid)

    def minute(self, wakes=False):
        """What the file says once a minute has passed. A server that isn't woken by requests looks
        at its clock within five seconds."""
        before = moment_of(self.path)
        self.clock.pass_to(self.clock.now() + 61)
        wait_until(lambda: (not wakes or self.ask(wire.page())) and moment_of(self.path) != before)
        return figures(self.path)


def moment_of(path):
    """When the file was written, by itself; None where there is none."""
    with contextlib.suppress(FileNotFoundError):
        return figures(path)["written_time_seconds"]


def figures(path):
    """The figures of a file, each by its name without what all begin with, and with its labels.
    Each line has to be of the format, and each figure to have its two lines before it."""
    found, told = {}, {}
    with open(path, encoding="utf-8") as file:
        text = file.read()
    assert text.endswith("\n"), text
    for line in text.splitlines():
        if head := HEAD.fullmatch(line):
            told.setdefault(head[2], []).append(head[1])
            continue
        value = VALUE.fullmatch(line)
        assert value and value[1].startswith(NAME), line
        family = re.sub(r"_(bucket|sum|count)$", "", value[1]) if "seconds_" in line else value[1]
        assert told.get(family) == ["HELP", "TYPE"], line
        key = value[1].removeprefix(NAME) + (value[2] or "")
        assert key not in found, line
        found[key] = float(value[3])
    return found


def labelled(found, name):
    """The figures of one name that aren't 0, by the values of their labels."""
    rows = {}
    for key, value in found.items():
        if key.startswith(f"{name}{{") and value:
            rows[tuple(re.findall(r'"([^"]*)"', key))] = int(value)
    return rows


def requests(world, checks):
    """Each kind of request and what it may come to, one after another. The recipients that were
    granted less those that were given back are those that a report has."""
    settings = {"store": f"{world.folder}/counted", "permits": world.new_file(text_of(**PERMITS))}
    ahead = int(time.time()) + 3 * DAY
    frames = [
        wire.reserve(1, txn=1, count=2),
        wire.reserve(1, txn=1, count=2),
        wire.reserve(2, txn=1, count=2),
        wire.reserve(3, txn=2, login=b"v", count=3),
        wire.reserve(4, txn=2, login=b"w"),
        wire.reserve(3, txn=9, login=b"v"),
        wire.settle(5, txn=2, login=b"v", count=4),
        wire.settle(6, txn=1, count=1),
        wire.settle(6, txn=1, count=1),
        wire.settle(7, txn=1, count=1),
        wire.release(8, txn=2, login=b"v"),
        wire.reserve(9, txn=3, count=2),
        wire.limit(10, 1, 9),
        wire.limit(11, 1, 1),
        wire.reserve(12, txn=4, at=ahead),
        wire.reserve(1, host=b"b"),
        wire.usage(),
    ]
    with Counting(world, "counted", words=["--create"], **settings) as server:
        wait_until(lambda: os.path.exists(server.path))
        checks.equal("requests: the file at the start", figures(server.path)["answers"], 0)
        for frame in frames:
            server.ask(frame)
        came = server.minute()
        checks.equal("requests: open transactions before a retire", came["open_transactions"], 1)
        asked = labelled(came, "requests_total")
        wanted = {
            ("reserve", "granted"): 3,
            ("reserve", "repeated"): 1,
            ("reserve", "full"): 1,
            ("reserve", "mismatch"): 1,
            ("reserve", "conflict"): 1,
            ("reserve", "ahead"): 1,
            ("reserve", "forbidden"): 1,
            ("settle", "done"): 2,
            ("settle", "too_many"): 1,
            ("settle", "closed"): 1,
            ("release", "done"): 1,
            ("limit", "done"): 1,
            ("limit", "over"): 1,
            ("usage", "done"): 1,
        }
        checks.equal("requests: what each kind came to", asked, wanted)
        # 2 + 3 + 2; 1 that a settle left over, and 3 of a release
        checks.equal(
            "requests: recipients that were granted, and given back",
            (came["recipients_granted_total"], came["recipients_released_total"]),
            (7, 4),
        )
        # (of the two that may not be asked the ledger hears nothing)
        checks.equal(
            "requests: how often the ledger was timed",
            came["commit_seconds_count"],
            len(frames) - 2,
        )
        server.ask(wire.retire(1, run=2))
        server.ask(wire.reserve(13))
        came = server.minute()
        asked = labelled(came, "requests_total")
        checks.equal(
            "requests: a retire, and a reserve of what it retired",
            (asked[("retire", "done")], asked[("reserve", "old")], came["open_transactions"]),
            (1, 1, 0),
        )
        granted, released = came["recipients_granted_total"], came["recipients_released_total"]
        checks.equal(
            "requests: granted less released, and the report",
            (granted - released, server.ask(wire.page())),
            (3, wire.page_reply([wire.row(b"u", 3, 0, 9), wire.row(b"v", 0, 0, 3)])),
        )
        # 1 to 11, of which 3 and 6 came twice, and the retire
        checks.equal("requests: answers", came["answers"], 12)
        checks.equal("requests: the default", came["default_limit"], 3)
        of_the_system(checks, server, came, settings["store"])
        of_the_log(checks, server, came)
    reads_promtool(checks, server.path)
    checks.equal("requests: who may read it", os.stat(server.path).st_mode & 0o7777, 0o644)


def of_the_system(checks, server, came, store):
    """What the system says of the files and the memory."""
    sizes = [came[f'file_bytes{{file="{it}"}}'] for it in ("ledger", "log")]
    checks.equal(
        "requests: the sizes of the ledger's file and its log",
        sizes,
        [os.path.getsize(store), os.path.getsize(f"{store}-wal")],
    )
    with open(f"/proc/{server.process.pid}/status", encoding="ascii") as lines:
        memory = next(1_024 * int(it.split()[1]) for it in lines if it.startswith("VmRSS:"))
    checks.holds(
        "requests: the memory",
        0.5 * memory < came["memory_bytes"] < 2 * memory,
        f"about {memory}",
        came["memory_bytes"],
    )


def of_the_log(checks, server, came):
    """The warnings that were counted are those of the log."""
    told = [it for it in server.all_log_lines() if it.startswith("[WARN  requests] ")]
    warned = labelled(came, "warnings_total")
    checks.equal(
        "requests: warnings", (warned, bool(told)), ({("warn", "requests"): len(told)}, True)
    )


def reads_promtool(checks, path):
    if not shutil.which("promtool"):
        checks.skip("promtool check metrics", "it isn't there")
        return
    with open(path, "rb") as file:
        run = subprocess.run(
            ["promtool", "check", "metrics"],
            stdin=file,
            stdout=subprocess.PIPE,
            stderr=subprocess.STDOUT,
        )
    checks.equal("promtool check metrics", (run.returncode, run.stdout), (0, b""))


def connections(world, checks):
    """Each way in which a connection may end. The first ones are of requests."""
    with Counting(world, "connected", timeout=30_000) as server:
        wait_until(lambda: os.path.exists(server.path))
        for number in range(1, 4):
            server.ask(wire.usage())
        with server.connect() as peer:
            peer.sendall(wire.usage()[:5])
            send_no_more(peer)
            peer.recv(1)
        server.ask(wire.frame(b"\x7f"))
        # (one that asks nothing is given up once its time is over; one that comes after it is
        # answered, so that it was accepted by then)
        with server.connect() as peer:
            server.ask(wire.usage())
            came = server.minute()
            wait_until(lambda: not peer.recv(1))
            came = server.minute()
        checks.equal(
            "connections: accepted, and open",
            (came["connections_accepted_total"], came["connections"]),
            (3 + 1 + 1 + 1 + 1, 0),
        )
        checks.equal(
            "connections: given up",
            labelled(came, "connections_given_up_total"),
            {("silent",): 1, ("cut_frame",): 1, ("bad_frame",): 1},
        )
        buckets = [value for key, value in came.items() if key.startswith("reply_seconds_bucket")]
        checks.holds(
            "connections: the times of replies",
            buckets == sorted(buckets) and buckets[-1] == came["reply_seconds_count"] > 0,
            "each bound has those of the one before, and the last all",
            buckets,
        )
        reads_promtool(checks, server.path)


def a_night(world, checks):
    """A start over days that are due, and what its night left; the ledger that it made goes on."""
    path, day = f"{world.folder}/night", first_day()
    kept = len(filled(world, path).remembered(day).answers)
    settings = {"store": path, "default": DEFAULT, "keep": KEEP, "log": "info"}
    with Counting(world, "night", **settings) as server:
        good, begun = wait_until(lambda: is_through(server)), time.time()
        came = server.minute()
        checks.equal(
            "a night: the first day that it kept, and how many answers",
            [good, *(came.get(it) for it in ("last_night_day", "last_night_answers", "answers"))],
            [True, day, kept, kept],
        )
        with open(f"{path}.night", encoding="ascii") as file:
            note = file.read()
        took = int(re.search(r"in (\d+) ms", note)[1])
        checks.equal("a night: how long it took", came["last_night_seconds"], took / 1000)
        checks.holds(
            "a night: when it was",
            begun - 60 < came["last_night_time_seconds"] < begun + 60,
            f"about {begun}",
            came["last_night_time_seconds"],
        )
        checks.equal(
            "a night: the sizes of the files that it left",
            [came[f'file_bytes{{file="{it}"}}'] for it in ("ledger", "log")],
            [os.path.getsize(path), os.path.getsize(f"{path}-wal")],
        )
        server.ask(wire.reserve(1, at=int(time.time()), host=b"mx9"))
        came = server.minute()
        checks.equal(
            "a night: what comes after it",
            (labelled(came, "requests_total"), came["default_limit"]),
            ({("reserve", "granted"): 1}, DEFAULT),
        )
        reads_promtool(checks, server.path)
    last = {key: value for key, value in came.items() if key.startswith("last_night_")}
    restarts_after_a_night(world, checks, settings, note, last)


def restarts_after_a_night(world, checks, settings, note, last):
    """A start has the figures of the last night, which are noted beside the ledger. A note of 1.0.0
    has none."""
    for what, said, wanted in (
        ("restarted", note, last),
        ("restarted over a note of one line", note.splitlines(keepends=True)[0], {}),
        ("restarted over no note", "", {}),
    ):
        with open(f"{settings['store']}.night", "w", encoding="ascii") as file:
            file.write(said)
        with Counting(world, what.replace(" ", "-"), **settings) as server:
            wait_until(lambda: os.path.exists(server.path))
            came = figures(server.path)
        told = {key: value for key, value in came.items() if key.startswith("last_night_")}
        checks.equal(f"a night: {what}", (told, len(last)), (wanted, 4))


def whole_at_any_moment(world, checks):
    """A reader reads on while the file is written again and again."""
    with Counting(world, "whole") as server:
        wait_until(lambda: os.path.exists(server.path))
        is_over, wrong, read = threading.Event(), [], []

        def read_on():
            while not is_over.is_set():
                try:
                    read.append(figures(server.path)["written_time_seconds"])
                except (AssertionError, KeyError, OSError) as cause:
                    wrong.append(repr(cause))

        reader = threading.Thread(target=read_on, daemon=True)
        reader.start()
        for _ in range(20):
            server.minute(wakes=True)
        is_over.set()
        reader.join()
        checks.equal("read while it is written: what isn't whole", wrong, [])
        checks.holds(
            "read while it is written: how often it was another",
            len(set(read)) > 10,
            "most of 20",
            len(set(read)),
        )
        checks.equal(
            "read while it is written: nothing is left beside it",
            [it for it in files_in(world.folder) if it.startswith("whole.prom")],
            ["whole.prom"],
        )


def a_folder_that_isnt_there(world, checks):
    """A file that can't be written is told once an hour, and keeps nobody waiting."""
    prom = f"{world.folder}/nowhere/mailquota.prom"
    wanted = f"[WARN  server] no figures can be written to {prom}: {NO_FILE}"

    def told():
        return [it for it in server.all_log_lines() if "figures" in it]

    with Server(world, metrics=prom, limit=clocks.limit(0)) as server:
        clock = clocks.Clock(server.process.pid)
        checks.equal("no folder: at the start", (wait_until(told), told()), (True, [wanted]))
        for _ in range(5):
            clock.pass_to(clock.now() + 61)
            reply = server.ask(wire.usage())
        checks.equal("no folder: five minutes later", told(), [wanted])
        checks.equal(
            "no folder: what is asked is answered",
            reply,
            wire.frame(b"\x8b" + wire.row(b"u", 1, 0, 0) + wire.number(3)),
        )
        clock.pass_to(clock.now() + 3_600)
        wait_until(lambda: server.ask(wire.page()) and len(told()) > 1)
        checks.equal("no folder: an hour later", told(), [wanted, wanted])
        os.mkdir(os.path.dirname(prom))
        clock.pass_to(clock.now() + 61)
        good = wait_until(lambda: server.ask(wire.page()) and os.path.exists(prom))
        # (the two times that it was told)
        checks.equal(
            "no folder: once it is there",
            (good, labelled(figures(prom), "warnings_total")),
            (True, {("warn", "server"): 2}),
        )


def a_restart(world, checks):
    """Figures begin at zero, with the start's time; what the ledger has stays."""
    path, begun = f"{world.folder}/restarted", []
    for number, words in ((1, ["--create"]), (2, [])):
        with Counting(world, "restarted", store=path, words=words) as server:
            before = time.time()
            wait_until(lambda: os.path.exists(server.path))
            server.ask(wire.reserve(number))
            came = server.minute()
            begun.append(came["start_time_seconds"])
            checks.equal(
                f"start {number}: its reserve, its answers, and how long ago it was",
                (
                    labelled(came, "requests_total")[("reserve", "granted")],
                    came["recipients_granted_total"],
                    came["answers"],
                    abs(begun[-1] - before) < 30,
                ),
                (1, 1, number, True),
            )
            version = world.run("--version")[1].decode().strip().partition(" ")[2]
            wanted = f'info{{version="{version}",zone="offset 0"}}'
            checks.equal(f"start {number}: what it is", came.get(wanted), 1)
    checks.equal("starts one after the other", begun == sorted(set(begun)), True)


def in_memory(world, checks):
    """A ledger in memory has no files, and its figures are written as well, at its end too."""
    with Counting(world, "memory", connections=2) as server:
        wait_until(lambda: os.path.exists(server.path))
        server.ask(wire.reserve(1) + wire.reserve(2))
        server.ask(wire.settle(3))
        status = server.status()
        came = figures(server.path)
        checks.equal(
            "in memory: its end, the requests, the answers and the sizes",
            (
                status,
                labelled(came, "requests_total"),
                came["connections_accepted_total"],
                labelled(came, "file_bytes"),
            ),
            (0, {("reserve", "granted"): 2, ("settle", "done"): 1}, 2, {}),
        )


def without_the_setting(world, checks):
    """Nothing is written, and a server without `keep` logs and leaves what 1.0.0 did."""
    before = files_in(world.folder)
    with Server(world, limit=clocks.limit(0)) as server:
        clock = clocks.Clock(server.process.pid)
        clock.pass_to(clock.now() + 61)
        server.ask(wire.page())
        lines = server.all_log_lines()
    new = [it for it in files_in(world.folder) if it not in before and not it.endswith(".toml")]
    checks.equal("without the setting: new files, and lines of the log", (new, lines), ([], []))
