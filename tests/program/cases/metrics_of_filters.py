"""The file of a filter's figures: what it says after a known run of lines, when it is written, that
it is whole at any moment, and what a filter does that can't write it."""
import os
import re
import shutil
import signal
import subprocess
import threading
import time

import clocks
from cases.filters import (
    AUTH,
    BEGIN,
    COMMIT,
    CONFIG,
    FULL,
    GRANTED,
    INPUT,
    LIMIT,
    MX1,
    PROCEED,
    RCPT,
    REGISTRATION,
    SERVICE,
    answer,
)
from cases.holding_back import numbered
from ends import RESET, SECONDS, SILENCE, Script, Server, nobody_there, under, wait_until
from wire import BAD, RETRY, full, granted, old, settled

PREFIX = "mailquota_filter_"
# each figure with its values, in the order of the file: of times a word, since they differ
FIGURES = """
info{{version="{version}",host="mx1"}} 1
running 0
start_time_seconds TIME
written_time_seconds TIME
answers_total{{answer="proceed"}} 2
answers_total{{answer="no_login"}} 1
answers_total{{answer="550"}} 1
answers_total{{answer="451"}} 1
answers_total{{answer="spelling"}} 2
held_back_total{{answer="451"}} 0
held_back_total{{answer="550"}} 0
requests_total 4
timeouts_total 0
pauses_total 0
exchanges_total{{outcome="answer"}} 4
exchanges_total{{outcome="no_answer"}} 0
exchanges_total{{outcome="timeout"}} 0
exchanges_total{{outcome="down"}} 0
exchanges_total{{outcome="memory"}} 0
waited_seconds_total WAITED
last_answer_time_seconds TIME
open_transactions 0
waiting_closings 0
run_retired 0
"""
TIMES = "start_time_seconds", "written_time_seconds", "last_answer_time_seconds"
LAST = "run_retired"
WAITED = "waited_seconds_total"
# of a filter that asked nothing
NOTHING = {
    "running": 0,
    "answers_total proceed": 0,
    "answers_total no_login": 0,
    "answers_total 550": 0,
    "answers_total 451": 0,
    "answers_total spelling": 0,
    "held_back_total 451": 0,
    "held_back_total 550": 0,
    "requests_total": 0,
    "timeouts_total": 0,
    "pauses_total": 0,
    "exchanges_total answer": 0,
    "exchanges_total no_answer": 0,
    "exchanges_total timeout": 0,
    "exchanges_total down": 0,
    "exchanges_total memory": 0,
    "open_transactions": 0,
    "waiting_closings": 0,
    LAST: 0,
}
HOUR = 3_600


def run(world, checks):
    each_line(world, checks)
    a_server_that_is_away(world, checks)
    a_server_that_is_silent(world, checks)
    replies_that_answer_nothing(world, checks)
    a_login_that_is_held_back(world, checks)
    a_run_that_is_retired(world, checks)
    what_is_in_hand(world, checks)
    once_a_minute(world, checks)
    whole_at_any_moment(world, checks)
    its_mode(world, checks)
    no_folder(world, checks)
    a_disk_that_is_full(world, checks)
    without_the_setting(world, checks)


def file_of(world, name):
    """The path of a file in a folder of its own."""
    folder = f"{world.folder}/metrics-{name}"
    os.mkdir(folder)
    return f"{folder}/filter.prom"


def text_of(path):
    with open(path, encoding="utf-8") as file:
        return file.read()


def values_in(text):
    """The figures of a text, by their names without the prefix and by their label, but those of
    `info`."""
    lines = [line.rpartition(" ") for line in text.splitlines() if not line.startswith("#")]
    return {
        re.sub(r'\{.*="(.*)"\}', r" \1", name).removeprefix(PREFIX): float(value)
        for name, _, value in lines
        if not name.startswith(f"{PREFIX}info")
    }


def counted(text):
    """The same without times."""
    return {name: it for name, it in values_in(text).items() if name not in (*TIMES, WAITED)}


def figures_of(world, name, address, lines, **settings):
    """What a filter answers these lines, and the figures that it leaves, but times, and how long
    it waited."""
    path = file_of(world, name)
    status, output, _ = world.filter(address, lines, metrics=path, **settings)
    text = text_of(path)
    came = output.removeprefix(REGISTRATION) if status == 0 else (status, output)
    return came, counted(text), values_in(text)[WAITED]


def scripted(world, name, lines, script, **settings):
    with Script(script) as server:
        return figures_of(world, name, server.address, lines, **settings)


def of_login(login, session):
    """The lines of a session of this login."""
    return AUTH.replace(b"alice", login).replace(b"7641df9771b4ed00", session)


def of(lines, session):
    return lines.replace(b"7641df9771b4ed00", session)


def each_line(world, checks):
    """Two recipients that go on and one above the limit; one without a login; one without a
    message; two of logins that can't be asked for; and the end of a message."""
    path = file_of(world, "each-line")
    lines = INPUT + RCPT * 2 + of(RCPT, b"s2")
    lines += of_login(b"bob", b"s3") + of(RCPT, b"s3")
    lines += of_login(b"c" * 256, b"s4") + of(BEGIN, b"s4").replace(b"4c56", b"4c57")
    lines += of(RCPT, b"s4") * 2 + COMMIT
    script = [
        granted(1, 1, **MX1),
        granted(2, 2, **MX1),
        full(3, 3, 3, **MX1),
        settled(4, 2, **MX1),
    ]
    before = int(time.time())
    with Script(script) as server:
        came = world.filter(server.address, lines, metrics=path)
    after = time.time()
    results = [
        answer(PROCEED),
        answer(PROCEED),
        answer(LIMIT),
        answer(PROCEED, b"s2"),
        answer(SERVICE, b"s3"),
        *[answer(SERVICE, b"s4")] * 2,
    ]
    checks.equal(
        "figures of a filter: the answers", came[:2], (0, REGISTRATION + b"".join(results))
    )
    text = text_of(path)
    shown = re.sub(r"(_time_seconds) [0-9]+$", r"\1 TIME", text, flags=re.M)
    shown = re.sub(rf"({WAITED}) [0-9]+\.[0-9]{{9}}$", r"\1 WAITED", shown, flags=re.M)
    version = world.run("--version")[1].decode().removeprefix("mailquota ").strip()
    wanted = FIGURES.format(version=version).strip().splitlines()
    checks.equal(
        "figures of a filter: each value, in its order",
        [line for line in shown.splitlines() if not line.startswith("#")],
        [PREFIX + line for line in wanted],
    )
    heads = re.findall(r"^# HELP (\S+) \S.*\.\n# TYPE (\S+) (\S+)\n(\S+?)[{ ]", text, re.M)
    names = dict.fromkeys(re.match(r"\w+", line)[0] for line in wanted)
    checks.equal(
        "figures of a filter: each has a line of help and one of its type",
        heads,
        [
            (*[PREFIX + name] * 2, "counter" if name.endswith("_total") else "gauge", PREFIX + name)
            for name in names
        ],
    )
    values = values_in(text)
    start, written, last = (values[name] for name in TIMES)
    checks.holds(
        "figures of a filter: its times",
        before <= start <= last <= written <= after and 0 < values[WAITED] < SECONDS,
        f"from {before} on, the start first, the last answer and then the file",
        (start, last, written, values[WAITED]),
    )
    tell_promtool(checks, "figures of a filter: promtool check metrics", text)


def tell_promtool(checks, what, text):
    """Prometheus' own tool reads a text, where it is installed."""
    if not shutil.which("promtool"):
        checks.skip(what, "promtool isn't installed")
        return
    came = subprocess.run(
        ["promtool", "check", "metrics"], input=text, capture_output=True, text=True
    )
    checks.equal(what, (came.returncode, came.stdout, came.stderr), (0, "", ""))


def a_server_that_is_away(world, checks):
    """Two tries of each of two recipients, and two of their message's end as the input ends."""
    with nobody_there() as address:
        came = figures_of(world, "away", address, INPUT + RCPT + COMMIT, tries=2)
    checks.equal(
        "figures where nobody listens",
        came[:2],
        (
            answer(SERVICE) * 2,
            {
                **NOTHING,
                "answers_total 451": 2,
                "requests_total": 3,
                # (the end is sent at once, and once more as the input ends)
                "exchanges_total down": 8,
                "waiting_closings": 1,
            },
        ),
    )


def a_server_that_is_silent(world, checks):
    """The first of three recipients waits for two tries; the others, and the end, come in the pause
    that begins then. As the input ends nobody listens any more."""
    came, figures, waited = scripted(
        world,
        "silent",
        INPUT + RCPT * 2 + COMMIT,
        [SILENCE] * 2,
        tries=2,
        timeout=300,
        pause=30,
    )
    checks.equal(
        "figures of a silent server and a pause",
        (came, figures),
        (
            answer(SERVICE) * 3,
            {
                **NOTHING,
                "answers_total 451": 3,
                "held_back_total 451": 2,
                "requests_total": 2,
                "timeouts_total": 1,
                "pauses_total": 1,
                "exchanges_total timeout": 2,
                "exchanges_total down": 2,
                "waiting_closings": 1,
            },
        ),
    )
    checks.holds(
        "figures of a silent server: how long it waited",
        0.6 <= waited < SECONDS,
        "two timeouts of 0.3 s at least",
        waited,
    )
    came, figures, _ = scripted(
        world, "no-pause", INPUT + RCPT, [SILENCE] * 2, tries=1, timeout=300
    )
    checks.equal(
        "figures of a silent server without a pause",
        (came, figures),
        (
            answer(SERVICE) * 2,
            {
                **NOTHING,
                "answers_total 451": 2,
                "requests_total": 2,
                "timeouts_total": 2,
                "exchanges_total timeout": 2,
                "open_transactions": 1,
            },
        ),
    )


def replies_that_answer_nothing(world, checks):
    """A server that can't take the request now, one that takes it for none, one that ends the
    connection, and then the answer."""
    came = scripted(world, "nothing", INPUT, [RETRY, BAD, RESET, GRANTED], tries=4)
    checks.equal(
        "figures of replies that answer nothing",
        came[:2],
        (
            answer(PROCEED),
            {
                **NOTHING,
                "answers_total proceed": 1,
                "requests_total": 1,
                "exchanges_total answer": 1,
                "exchanges_total no_answer": 2,
                "exchanges_total down": 1,
                "open_transactions": 1,
            },
        ),
    )


def a_login_that_is_held_back(world, checks):
    came = scripted(world, "hold", INPUT + RCPT * 2, [FULL], hold=60)
    checks.equal(
        "figures of a login that is held back",
        came[:2],
        (
            answer(LIMIT) * 3,
            {
                **NOTHING,
                "answers_total 550": 3,
                "held_back_total 550": 2,
                "requests_total": 1,
                "exchanges_total answer": 1,
                "open_transactions": 1,
            },
        ),
    )


def a_run_that_is_retired(world, checks):
    """A refusal says so, and an answer of another server that it isn't."""
    retired = {
        **NOTHING,
        "answers_total 451": 1,
        "requests_total": 1,
        "exchanges_total answer": 1,
        "open_transactions": 1,
        LAST: 1,
    }
    came = scripted(world, "retired", INPUT, [old(1, **MX1)])
    checks.equal("figures of a retired run", came[:2], (answer(SERVICE), retired))
    came = scripted(world, "moved", INPUT + RCPT, [old(1, **MX1), numbered(GRANTED, 2)])
    checks.equal(
        "figures of a retired run at another server",
        came[:2],
        (
            answer(SERVICE) + answer(PROCEED),
            {
                **retired,
                "answers_total proceed": 1,
                "requests_total": 2,
                "exchanges_total answer": 2,
                LAST: 0,
            },
        ),
    )


class Counting:
    """A filter that writes its figures, by a clock that a test sets."""

    def __init__(self, world, address, path, begins=None, umask=None, **settings):
        self.path = path
        file = world.filter_file(address, metrics=path, **settings)
        self.errors = open(world.new_file(""), "w+b")
        ahead = int(begins - time.time()) + 1 if begins else 0
        self.process = subprocess.Popen(
            [*under(clocks.limit(ahead)), world.program, "filter", "--config", file, "--run", "1"],
            stdin=subprocess.PIPE,
            stdout=subprocess.PIPE,
            stderr=self.errors,
            umask=-1 if umask is None else umask,
        )
        self.write(CONFIG + AUTH + BEGIN)
        self.process.stdout.read(len(REGISTRATION))
        wait_until(self.is_waiting)
        self.clock = clocks.Clock(self.process.pid, ahead)

    def __enter__(self):
        return self

    def __exit__(self, *_):
        self.end()
        self.errors.close()

    def end(self):
        """The input ends; gives the status."""
        if not self.process.stdin.closed:
            self.process.stdin.close()
        status = self.process.wait(timeout=SECONDS)
        self.process.stdout.close()
        return status

    def write(self, lines):
        self.process.stdin.write(lines)
        self.process.stdin.flush()

    def is_waiting(self):
        """Whether it waits in a read(2) of its input: then it has written what it writes."""
        with open(f"/proc/{self.process.pid}/syscall", encoding="ascii") as call:
            return call.read().startswith("0 0x0 ")

    def ask(self):
        """The answer to one recipient, once the filter has done all that it does then."""
        self.write(RCPT)
        came = self.process.stdout.readline()
        wait_until(self.is_waiting)
        return came

    def text(self):
        return text_of(self.path)

    def log(self):
        with open(self.errors.name, encoding="ascii") as log:
            return log.read().splitlines()


def grants(heard):
    """The answer of a server that grants whatever is asked for."""
    sequence = int.from_bytes(heard[15:19], "big")
    return granted(sequence, sequence, **MX1)


def what_is_in_hand(world, checks):
    """Of a filter that runs, one message is open; one that is killed leaves the file as it was."""
    path = file_of(world, "in-hand")
    with Script([], otherwise=grants) as server, Counting(world, server.address, path) as it:
        first = counted(it.text())
        checks.equal("figures as a filter begins", first, {**NOTHING, "running": 1})
        came = it.ask()
        it.clock.pass_to(it.clock.now() + 61)
        came += it.ask()
        wanted = {
            **NOTHING,
            "running": 1,
            "answers_total proceed": 2,
            "requests_total": 2,
            "exchanges_total answer": 2,
            "open_transactions": 1,
        }
        checks.equal(
            "figures of a filter that runs",
            (came, counted(it.text())),
            (answer(PROCEED) * 2, wanted),
        )
        it.process.send_signal(signal.SIGKILL)
        it.process.wait(timeout=SECONDS)
        checks.equal("figures of a filter that was killed", counted(it.text()), wanted)


def once_a_minute(world, checks):
    """It is written at the first line of a minute of the clock, and not again in it."""
    path = file_of(world, "minutes")
    minute = (int(time.time()) // 60 + 10) * 60
    with Script([], otherwise=grants) as server:
        with Counting(world, server.address, path, begins=minute + 1) as it:
            came = []
            for after in (10, 20, 70, 80, 400):
                it.clock.pass_to(minute + after)
                it.ask()
                values = values_in(it.text())
                at = int(values["written_time_seconds"]) - minute
                came.append((at // 60, values["requests_total"]))
            checks.equal(
                "figures, asked at seconds 10, 20, 70, 80 and 400: the minute in which they were"
                " written, and the requests that they have",
                came,
                [(0, 0), (0, 0), (1, 3), (1, 3), (6, 5)],
            )
            status = it.end()
        values = values_in(text_of(path))
        checks.equal(
            "figures, at the end: the status, whether it runs, and its requests",
            (status, values["running"], values["requests_total"]),
            (0, 0, 5),
        )


def whole_at_any_moment(world, checks):
    """Whoever reads it meanwhile has it from its first line to its last."""
    path = file_of(world, "whole")
    torn, reads, is_over = [], [], threading.Event()

    def look():
        while not is_over.is_set():
            text = text_of(path)
            reads.append(values_in(text)["requests_total"])
            if not text.startswith("# HELP ") or not text.endswith(f"{PREFIX}{LAST} 0\n"):
                torn.append(text)

    with Script([], otherwise=grants) as server, Counting(world, server.address, path) as it:
        looking = threading.Thread(target=look)
        looking.start()
        for _ in range(200):
            it.clock.pass_to(it.clock.now() + 61)
            it.ask()
        it.end()
        is_over.set()
        looking.join()
    checks.equal("figures that are read as they are written: those that aren't whole", torn, [])
    checks.holds(
        "figures that are read as they are written: which were seen",
        len(set(reads)) > 20 and reads == sorted(reads),
        "more than 20 of 200, in their order",
        (len(reads), len(set(reads))),
    )
    checks.equal(
        "figures that are read as they are written: what is in the folder",
        os.listdir(os.path.dirname(path)),
        ["filter.prom"],
    )


def its_mode(world, checks):
    """Everybody may read it, whatever the umask, and whatever was there."""
    for what, there in (("new", None), ("private", 0o600), ("of an earlier filter", 0o644)):
        path = file_of(world, f"mode-{there}")
        if there:
            with open(path, "w", encoding="ascii") as file:
                file.write("what was there")
            os.chmod(path, there)
        with nobody_there() as address, Counting(world, address, path, umask=0o077) as it:
            mode, running = os.stat(path).st_mode & 0o777, values_in(it.text())["running"]
        checks.equal(
            f"figures where the file is {what}: the mode, and that it was written",
            (oct(mode), running),
            ("0o644", 1),
        )


def unwritten(path, cause):
    return f"[WARN  filter] no figures can be written to {path}: {cause}"


def no_folder(world, checks):
    """One warning an hour, and the filter goes on."""
    path = f"{world.folder}/nowhere/filter.prom"
    warning = unwritten(path, "No such file or directory (os error 2)")
    with Server(world, default=9) as server:
        with Counting(world, server.address, path) as it:
            begun, came, logs = it.clock.now(), [], []
            for after in (0, 60, 120, HOUR - 60, HOUR + 60, HOUR + 120):
                it.clock.pass_to(begun + after)
                came.append(it.ask())
                logs.append(it.log())
            status = it.end()
            log = it.log()
    checks.equal(
        "figures that can't be written: the answers, the log at each, the status and the log",
        (came, logs, status, log),
        (
            [answer(PROCEED)] * 6,
            [[warning]] * 4 + [[warning] * 2] * 2,
            0,
            [warning] * 2,
        ),
    )


def a_disk_that_is_full(world, checks):
    """Of a file that can't be written to its end nothing is left, and the last one stays."""
    path = file_of(world, "full")
    with open(path, "w", encoding="ascii") as file:
        file.write("what was there")
    with Server(world, default=9) as server:
        words = "--config", world.filter_file(server.address, metrics=path), "--run", "1"
        came = world.run("filter", *words, text=INPUT, limit=("RLIMIT_FSIZE", 1_000))
    checks.equal(
        "figures of which 1,000 bytes have room: what is told",
        came,
        (
            0,
            REGISTRATION + answer(PROCEED),
            unwritten(path, "File too large (os error 27)") + "\n",
        ),
    )
    checks.equal(
        "figures of which 1,000 bytes have room: what is in the folder",
        (os.listdir(os.path.dirname(path)), text_of(path)),
        (["filter.prom"], "what was there"),
    )


def without_the_setting(world, checks):
    """No file is made, and no word more is said."""
    folder = f"{world.folder}/no-metrics"
    os.mkdir(folder)
    with Script([GRANTED]) as server:
        words = "--config", world.filter_file(server.address), "--run", "1"
        came = world.run("filter", *words, text=INPUT, folder=folder)
    checks.equal(
        "a filter without metrics: the run, and what is in its folder",
        (came, os.listdir(folder)),
        ((0, REGISTRATION + answer(PROCEED), ""), []),
    )
