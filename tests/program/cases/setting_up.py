"""`init`, `filter --check` and `status`: what an administrator asks before mail depends on it."""
import os
import re
import stat
import subprocess
import time

from cases.permits import not_taken, untaken
from ends import (
    DRIP,
    IS_THERE,
    LOCKED,
    NO_DATABASE,
    NO_FILE,
    NO_PORT,
    RESET,
    SILENCE,
    Script,
    Server,
    as_user,
    bad_address,
    crowded_port,
    fault,
    ledger_settings,
    nobody_there,
    of_settings,
    of_store,
    refusal,
    soon,
    toml,
    unavailable,
    unreached,
)
from pages import section_of
from rows import rows_in
from smtpd import clock
from wire import (
    BAD,
    RETRY,
    frame,
    granted,
    limit,
    number,
    old,
    page_reply,
    release,
    reserve,
    retire,
    retired,
    settle,
    text,
)

ASKED = frame(b"\x05" + text(b"-") + number(0))
ANSWER = frame(b"\x8b" + text(b"-") + number(0) + number(0) * 2 + number(3))
SETTINGS_ARE_RIGHT = b"settings are right\n"


def run(world, checks):
    inits(world, checks)
    refused_inits(world, checks)
    inits_by_root(world, checks)
    inits_through_a_link(world, checks)
    forgets_by_root(world, checks)
    statuses(world, checks)
    statuses_by_script(world, checks)
    statuses_of_a_file(world, checks)
    hosts(world, checks)
    hosts_by_script(world, checks)
    hosts_in_words(world, checks)
    checked_filters(world, checks)
    devices_that_are_full(world, checks)
    monitoring(world, checks)


def answers(address, before=b""):
    return 0, before + f"quota server {address} answers\n".encode(), ""


def takes(address, before=b"", host="mx1"):
    """What is told of a server that takes a host's requests."""
    return (
        0,
        before + f"quota server {address} answers\nrequests of host {host} are taken\n".encode(),
        "",
    )


def refuses(run, before=b""):
    return fault(
        (
            f"requests of this host are refused, run {run} is retired: correct its clock, or give"
            " it a new name"
        ),
        before,
    )


# a host is asked about by the last number and transaction of a run, that of the next full ten
# minutes, and at its moment
LAST, STEP = 2**32 - 1, 600_000


def asked_of_host(run, host=b"mx1"):
    return release(LAST, txn=LAST, login=b"-", at=max(run // 1_000, 86_400), host=host, run=run)


def run_of(heard):
    """The run of a question about a host, and whether it is such a question, of a moment that is
    now."""
    place = 4 + heard[3]
    run = int.from_bytes(heard[place : place + 8], "big")
    return run, heard == asked_of_host(run) and run % STEP == 0 and -1_000 < run - clock() < STEP


def wait_past_the_step():
    """Waits, if a full ten minutes are near: then two questions would have two runs."""
    while clock() % STEP > STEP - 30_000:
        time.sleep(1)


def inits(world, checks):
    """A ledger is made, and a server and an audit find it."""
    path = f"{world.folder}/made"
    is_there = 1, b"", refusal(path, IS_THERE) + "mailquota: store is not this ledger\n"
    config = ledger_settings(world, path)
    checks.equal("init", world.run("init", "--config", config), (0, f"made {path}\n".encode(), ""))
    modes = [
        stat.S_IMODE(os.stat(f"{path}{it}").st_mode)
        for it in ("", "-wal")
        if os.path.exists(f"{path}{it}")
    ]
    checks.equal("init: who may read and write the files", set(modes), {0o600})
    checks.equal(
        "an audit of what init made",
        world.run("audit", "--config", config),
        (0, b"sound days=0 transactions=0\n", ""),
    )
    checks.equal("init again", world.run("init", "--config", config), is_there)
    with Server(world, store=path) as server:
        came = server.ask(reserve(1))
        checks.equal("a server over what init made", came[2], 0x81)
    checks.equal(
        "init where a ledger with an answer is", world.run("init", "--config", config), is_there
    )
    checks.equal(
        "the answer is there still",
        world.run("audit", "--config", config),
        (0, b"sound days=1 transactions=1\n", ""),
    )
    empty = f"{world.folder}/empty"
    open(empty, "wb").close()
    came = world.run("init", "--config", ledger_settings(world, empty))
    checks.equal("init over an empty file", came, (0, f"made {empty}\n".encode(), ""))
    by_rule = f"{world.folder}/by rule"
    config = ledger_settings(
        world, by_rule, offset=None, rule="CET-1CEST,M3.5.0,M10.5.0/3", log="info"
    )
    checks.equal(
        "init by a rule, of a path with a space",
        world.run("init", "--config", config),
        (0, f"made {by_rule}\n".encode(), ""),
    )
    came = world.run("audit", "--config", ledger_settings(world, by_rule))
    made = refusal(by_rule, "made with rule CET-1CEST,M3.5.0,M10.5.0/3, the settings have offset 0")
    checks.equal("an audit of it by another zone", came, fault("store has another zone", log=made))


def refused_inits(world, checks):
    checks.equal(
        "init in memory",
        world.run("init", "--config", ledger_settings(world, "memory")),
        fault("store is memory"),
    )
    nowhere = f"{world.folder}/nowhere/ledger"
    came = world.run("init", "--config", ledger_settings(world, nowhere))
    checks.equal(
        "init in a folder that isn't there",
        came,
        fault("store can't be opened", log=of_store(nowhere, NO_FILE)),
    )
    for error, came in ((1, "made"), (5, "refused")):
        path = f"{world.folder}/given-{error}"
        wanted = (
            (0, f"made {path}\n".encode(), "")
            if came == "made"
            else fault(
                "store can't be opened",
                log=of_store(path, f"{os.strerror(error)} (os error {error})"),
            )
        )
        made = world.run("init", "--config", ledger_settings(world, path), limit=("fchown", error))
        checks.equal(
            (
                f"init where its file's owner can't be set, for {os.strerror(error)}: {came}, and"
                " whether it is there"
            ),
            (made, os.path.exists(path)),
            (wanted, came == "made"),
        )
    path = f"{world.folder}/text"
    with open(path, "w", encoding="ascii") as file:
        file.write("no database\n" * 1_000)
    came = world.run("init", "--config", ledger_settings(world, path))
    wanted = (
        fault("store can't be opened", log=of_store(path, NO_DATABASE)),
        "no database\n" * 1_000,
    )
    checks.equal(
        "init over a file that is no database", (came, open(path, encoding="ascii").read()), wanted
    )
    nothing = f"{world.folder}/nothing"
    checks.equal(
        "init without settings",
        world.run("init", "--config", nothing),
        fault("settings can't be read", log=of_settings(nothing, NO_FILE)),
    )
    with Server(world, words=["--create"], store=f"{world.folder}/open") as server:
        came = world.run("init", "--config", ledger_settings(world, f"{world.folder}/open"))
        checks.equal(
            "init of a file that a server has open",
            came,
            fault("store can't be opened", log=of_store(f"{world.folder}/open", LOCKED)),
        )
        checks.equal("the server goes on", server.ask(reserve(1))[2], 0x81)


def whose(folder):
    """The owner, the group and the mode of each file in a folder."""
    found = {it: os.stat(f"{folder}/{it}") for it in os.listdir(folder)}
    return {it: (its.st_uid, its.st_gid, stat.S_IMODE(its.st_mode)) for it, its in found.items()}


def inits_by_root(world, checks):
    """What root makes belongs to its folder's owner, with which the server runs; what others make
    is theirs, whosever the folder is."""
    if os.geteuid():
        checks.skip("a ledger that root makes", "who tests isn't root")
        return
    owner, other = (60_001, 60_002), 60_003
    os.chmod(world.folder, 0o711)
    for name, words, mode, is_of in (
        ("by root", [], 0o700, owner),
        ("by root, of a name alone", [], 0o700, owner),
        ("by root, of a folder here", [], 0o700, owner),
        (
            "by another user",
            as_user(other),
            0o777,
            (other, other),
        ),
    ):
        above = f"{world.folder}/{name.replace(' ', '-')}"
        folder = f"{above}/d"
        os.makedirs(folder)
        os.chmod(above, 0o711)
        os.chown(folder, *owner)
        os.chmod(folder, mode)
        path, here = {"alone": ("ledger", folder), "here": ("d/ledger", above)}.get(
            name.rpartition(" ")[2], (f"{folder}/ledger", folder)
        )
        config = ledger_settings(world, path)
        run = subprocess.run(
            [*words, world.program, "init", "--config", config],
            cwd=here,
            capture_output=True,
            text=True,
        )
        checks.equal(
            f"a ledger made {name}",
            (run.returncode, run.stdout, run.stderr),
            (0, f"made {path}\n", ""),
        )
        checks.equal(
            f"a ledger made {name}: whose it is, and its log",
            whose(folder),
            {it: (*is_of, 0o600) for it in ("ledger", "ledger-wal")},
        )


def inits_through_a_link(world, checks):
    """The folder in the settings may be a link, as systemd makes it: what root makes belongs to the
    owner of the folder that it leads to."""
    if os.geteuid():
        checks.skip("a ledger that root makes through a link", "who tests isn't root")
        return
    owner, folder, link = (60_001, 60_002), f"{world.folder}/led-to", f"{world.folder}/leads"
    os.mkdir(folder)
    os.chown(folder, *owner)
    os.symlink(folder, link)
    path = f"{link}/ledger"
    checks.equal(
        "a ledger made by root through a link",
        world.run("init", "--config", ledger_settings(world, path)),
        (0, f"made {path}\n".encode(), ""),
    )
    checks.equal(
        "a ledger made by root through a link: whose it is, and its log",
        whose(folder),
        {it: (*owner, 0o600) for it in ("ledger", "ledger-wal")},
    )


def forgets_by_root(world, checks):
    """Where systemd makes the server's user only while it runs, root forgets by hand: the new file
    belongs to the folder's owner, with its log."""
    if os.geteuid():
        checks.skip("a new file that root makes without old days", "who tests isn't root")
        return
    owner, folder = (60_001, 60_002), f"{world.folder}/forgets"
    os.mkdir(folder)
    os.chown(folder, *owner)
    config = ledger_settings(world, f"{folder}/ledger")
    world.run("init", "--config", config)
    checks.equal(
        "a new file that root makes without old days",
        world.run("forget", "--config", config, "--before", "1", "--into", f"{folder}/new"),
        (0, b"kept answers=0 of 0, limits=0\n", ""),
    )
    checks.equal(
        "a new file that root makes without old days: whose each file is",
        whose(folder),
        {it: (*owner, 0o600) for it in ("ledger", "ledger-wal", "new", "new-wal")},
    )


def statuses(world, checks):
    with Server(world, log="info") as server:
        address = server.address
        config = world.new_file(
            toml({"listen": address, "store": "memory", "default": 3, "offset": 0})
        )
        # (it says that it listens before it answers)
        server.ask(ASKED)
        lines = server.log_lines()
        for words in (["--server", address], ["--config", config]):
            checks.equal(f"status {words[0]}", world.run("status", *words), answers(address))
        checks.equal("status: the server's log has nothing of it", server.log_lines(), lines)
        with Server(world, host="127.0.0.2") as other:
            config = world.new_file(
                toml({"listen": other.address, "store": "memory", "default": 3, "offset": 0})
            )
            checks.equal(
                "status --config of a server at another address",
                world.run("status", "--config", config),
                answers(other.address),
            )
        server.ask(reserve(1))
        checks.equal(
            "status changes nothing",
            world.run("report", "--server", address, "--day", "1"),
            (0, b"      0       1       3 u\n", ""),
        )
        checks.equal(
            "status: nothing on the day that it asks of",
            world.run("report", "--server", address, "--day", "0"),
            (0, b"", ""),
        )
    with nobody_there() as address:
        config = world.new_file(
            toml({"listen": address, "store": "memory", "default": 3, "offset": 0})
        )
        # (of a ledger in memory there is no file to look at)
        nothing = (
            1,
            b"",
            (
                f"{unreached(address)}mailquota: quota service unavailable\nmailquota: store is"
                " memory\n"
            ),
        )
        for words, wanted in (
            (["--server", address], unavailable(address)),
            (["--config", config], nothing),
        ):
            checks.equal(f"status {words[0]}, nobody there", world.run("status", *words), wanted)
    path = f"{world.folder}/nothing"
    checks.equal(
        "status --config, which isn't there",
        world.run("status", "--config", path),
        fault("settings can't be read", log=of_settings(path, NO_FILE)),
    )


def statuses_by_script(world, checks):
    """It asks once, and takes no other reply for an answer."""
    cut, other = "closed before its reply was whole", fault("quota service unavailable")
    for what, answer, wanted in [
        ("an answer", ANSWER, answers),
        (
            "no memory for it",
            RETRY,
            not_taken,
        ),
        (
            "a request that is taken for none",
            BAD,
            lambda address: unavailable(address, "it takes the request for none"),
        ),
        # (what came is a reply, if not to this request: the log has nothing of it)
        (
            "another login's",
            frame(b"\x8b" + text(b"u") + number(0) + number(0) * 2 + number(3)),
            lambda _: other,
        ),
        (
            "another day's",
            frame(b"\x8b" + text(b"-") + number(1) + number(0) * 2 + number(3)),
            lambda _: other,
        ),
        ("a page", page_reply([], day=0), lambda _: other),
        ("a reply cut short", ANSWER[:-1], lambda address: unavailable(address, cut)),
        ("closed at once", b"", lambda address: unavailable(address, cut)),
        (
            "a reset",
            RESET,
            lambda address: unavailable(address, "Connection reset by peer (os error 104)"),
        ),
        # ('SS' would be a length of 21,331)
        (
            "words of another protocol",
            b"SSH-2.0-OpenSSH_9.2\r\n",
            lambda address: unavailable(address, cut),
        ),
    ]:
        with Script([answer, b"", b""]) as server:
            came = world.run("status", "--server", server.address)
        checks.equal(f"status, {what}", (came, server.heard), (wanted(server.address), [ASKED]))
    for what, answer in (("silent", SILENCE), ("dripping", DRIP)):
        (came, address), took = soon(lambda: asked_of(world, answer), 4)
        checks.equal(f"status of a {what} server", came, unavailable(address, "no answer in time"))
        checks.holds(f"status of a {what} server: one try", 1.99 < took < 4, "2 s", f"{took:.1f} s")


def asked_of(world, answer):
    with Script([answer, b"", b""]) as server:
        return world.run("status", "--server", server.address), server.address


def of_file(path, address, terms, counts, answers):
    """How `status` ends that reads a file, since nobody answers at the address, by its zone and
    default, and what it counts there."""
    bytes_of = os.path.getsize(path)
    seconds, megabytes = answers // 27_000 + 1, bytes_of // 333_333 + 14
    start = f"a start takes up to about {seconds} s and {megabytes} MB\n"
    said = f"ledger {path}: version 3, {bytes_of} bytes\n{terms}\n{counts}\n{start}"
    return 3, said.encode(), f"{unreached(address)}mailquota: quota service unavailable\n"


def statuses_of_a_file(world, checks):
    """Where no server answers at the settings' address and none has the file open, it is read: the
    status is 3 then."""

    def settings(path, address, **more):
        return world.new_file(
            toml({"listen": address, "store": path, "default": 3, "offset": 0, **more})
        )

    path = f"{world.folder}/held"
    with Server(world, words=["--create"], store=path) as server:
        server.ask(
            reserve(1)
            + settle(2)
            + limit(3, 1, 9)
            + limit(4, 2, 8)
            + limit(5, 2, 7)
            + reserve(6, txn=2, login=b"v")
            + limit(7, 1, 0)
        )
        checks.equal(
            "status of a file that a server serves",
            world.run("status", "--config", settings(path, server.address)),
            answers(server.address),
        )
        with open("/dev/full", "wb") as device:
            came = world.run("status", "--config", settings(path, server.address), output=device)
        checks.equal(
            "status of a file that a server serves, to a full device",
            (came[0], came[2]),
            (1, "mailquota: write failed\n"),
        )
        with nobody_there() as address:
            came = world.run("status", "--config", settings(path, address))
            wanted = (
                1,
                b"",
                (
                    f"{unreached(address)}mailquota: quota service"
                    f" unavailable\n{of_store(path, LOCKED)}mailquota: store can't be opened\n"
                ),
            )
            checks.equal(
                "status of a file that is open, by an address that nobody has", came, wanted
            )
        server.process.kill()
        server.status()
    rows = rows_in(path)
    by_rule = f"{world.folder}/held by a rule"
    zone = {"offset": None, "rule": "<-03>3<-02>,M3.5.0,M10.5.0/3"}
    world.run("init", "--config", ledger_settings(world, by_rule, **zone))
    west = f"{world.folder}/west"
    world.run("init", "--config", ledger_settings(world, west, offset=-90, default=0))
    link = f"{world.folder}/a link"
    os.symlink(path, link)
    with nobody_there() as address:
        for what, name, more, terms, counts, count in [
            (
                "a file with answers",
                path,
                {},
                "default 3, offset 0",
                "answers=7 days=2 transactions=2 limits=2",
                7,
            ),
            (
                "a file behind a link",
                link,
                {},
                "default 3, offset 0",
                "answers=7 days=2 transactions=2 limits=2",
                7,
            ),
            (
                "a ledger by a rule",
                by_rule,
                zone,
                f"default 3, rule {zone['rule']}",
                "answers=0 days=0 transactions=0 limits=0",
                0,
            ),
            (
                "a ledger west of UTC",
                west,
                {"offset": -90, "default": 0},
                "default 0, offset -90",
                "answers=0 days=0 transactions=0 limits=0",
                0,
            ),
        ]:
            came = world.run("status", "--config", settings(name, address, **more))
            checks.equal(f"status of {what}", came, of_file(name, address, terms, counts, count))
        nothing = f"{world.folder}/nothing"
        for what, name, more, log, said in [
            (
                "with another zone",
                path,
                {"offset": 60},
                refusal(path, "made with offset 0, the settings have offset 60"),
                "store has another zone",
            ),
            (
                "with another default",
                path,
                {"default": 4},
                refusal(path, "made with default 3, the settings have default 4"),
                "store has another default",
            ),
            ("that isn't there", nothing, {}, of_store(nothing, NO_FILE), "store can't be opened"),
        ]:
            came = world.run("status", "--config", settings(name, address, **more))
            checks.equal(
                f"status of a file {what}",
                came,
                (
                    1,
                    b"",
                    (
                        f"{unreached(address)}mailquota: quota service unavailable\n{log}mailquota:"
                        f" {said}\n"
                    ),
                ),
            )
        with open("/dev/full", "wb") as device:
            came = world.run("status", "--config", settings(path, address), output=device)
        wanted = (
            1,
            f"{unreached(address)}mailquota: quota service unavailable\nmailquota: write failed\n",
        )
        checks.equal("status of a file to a full device", (came[0], came[2]), wanted)
    checks.equal("status changes no row of the file", rows_in(path), rows)


def hosts(world, checks):
    """Whether a host's requests are taken: they aren't where a retire is ahead of the clock. Each
    ten minutes leave one answer."""
    wait_past_the_step()
    path = f"{world.folder}/of hosts"
    with Server(world, words=["--create"], store=path) as server:
        address, now = server.address, clock()
        server.ask(reserve(1, host=b"mx1", run=now) + limit(2, 1, 9, host=b"mx1", run=now))
        words = ["status", "--server", address, "--host"]
        checks.equal(
            "status of a host that nobody retired", world.run(*words, "mx1"), takes(address)
        )
        checks.equal(
            "the same again, and of another host",
            (world.run(*words, "mx1"), world.run(*words, "b")),
            (takes(address), takes(address, host="b")),
        )
        # as the restart of smtpd does
        checks.equal(
            "retire by the clock",
            world.run("retire", "--server", address, "--host", "b"),
            (0, b"retired\n", ""),
        )
        checks.equal(
            "status of a host that was just retired",
            world.run(*words, "b"),
            takes(address, host="b"),
        )
        for day in ("0", "1"):
            lines = b"      0       1       9 u\n" if day == "1" else b""
            checks.equal(
                f"a report of day {day} has nothing of it",
                world.run("report", "--server", address, "--day", day),
                (0, lines, ""),
            )
        checks.equal(
            "a recipient of the host's run still",
            server.ask(reserve(3, host=b"mx1", run=now)),
            granted(3, 2, host=b"mx1", run=now),
        )
        ahead, step = clock() + 50 * 60_000, -(-clock() // STEP) * STEP
        checks.equal(
            "a retire that is 50 minutes ahead",
            server.ask(retire(1, host=b"c", run=ahead)),
            retired(1, host=b"c", run=ahead),
        )
        checks.equal(
            "a recipient of a filter that starts now",
            server.ask(reserve(1, host=b"c", run=clock()))[2:3],
            old(1)[2:3],
        )
        came = world.run(*words, "c")
        checks.equal("status of that host", came, refuses(step))
        check = ["filter", "--config", world.filter_file(address, host="c"), "--check"]
        checks.equal(
            "filter --check of that host", world.run(*check), refuses(step, SETTINGS_ARE_RIGHT)
        )
        checks.equal("status of another one", world.run(*words, "mx1"), takes(address))
        checks.equal(
            "a server that only is asked whether it answers",
            world.run("status", "--server", address),
            answers(address),
        )
        server.process.kill()
        server.status()
    rows = rows_in(path)
    asked = [(host, run, seq) for _, host, run, seq, _, _ in rows["answer"] if seq == LAST]
    checks.equal(
        "an answer for each host that isn't refused",
        sorted(asked),
        [(b"b", step, LAST), (b"mx1", step, LAST)],
    )
    nothing = [row for row in rows["trans"] if row[2] == LAST]
    moment = step // 1_000
    day = moment // 86_400
    wanted = [(host, step, LAST, b"-", moment, day, 0, 0, 1) for host in (b"b", b"mx1")]
    checks.equal("a transaction for each, which holds nothing", nothing, wanted)
    checks.equal(
        "no use of a login, and no limit",
        (rows["usage"], rows["ceiling"]),
        ([(b"u", 1, 0, 2)], [(b"u", 1, 9)]),
    )
    words = ["--before", str(int(time.time()) // 86_400), "--into", f"{path}.new"]
    came = world.run("forget", "--config", ledger_settings(world, path), *words)
    kept = [row[1:4] for row in rows_in(f"{path}.new")["answer"] if row[3] == LAST]
    checks.equal(
        "forget leaves those, which are of today",
        (came, sorted(kept)),
        ((0, b"kept answers=5 of 7, limits=1\n", ""), sorted(asked)),
    )


def hosts_by_script(world, checks):
    """What is asked, once, and what each answer says."""

    def by(kind, more=b"", other=False):
        return lambda heard: frame(
            kind
            + (b"\x01b" if other else heard[3 : 5 + heard[3] - 1])
            + heard[4 + heard[3] : 16 + heard[3]]
            + more
        )

    for what, answer, wanted in [
        ("released", by(b"\x84", number(0)), takes),
        ("closed", by(b"\x87"), takes),
        ("mismatch", by(b"\x88"), takes),
        ("conflict", by(b"\x8a"), takes),
        ("old", by(b"\x90"), refuses),
        ("old, of another host", by(b"\x90", other=True), None),
        ("released, of another host", by(b"\x84", number(0), True), None),
        ("granted", by(b"\x81", number(1)), None),
        ("too many", by(b"\x89", number(0)), None),
        ("settled", by(b"\x83", number(1)), None),
        ("retired", by(b"\x8f"), None),
        ("what is used", ANSWER, None),
        ("no memory for it", RETRY, untaken),
        ("a request that is taken for none", BAD, "it takes the request for none"),
        ("closed at once", b"", "closed before its reply was whole"),
        ("a reset", RESET, "Connection reset by peer (os error 104)"),
    ]:
        for name, before in (("status", b""), ("filter", SETTINGS_ARE_RIGHT)):
            with Script([answer, b"", b""]) as server:
                words = {
                    "status": ["--server", server.address, "--host", "mx1"],
                    "filter": ["--check", "--config", world.filter_file(server.address, tries=3)],
                }[name]
                came = world.run(name, *words)
                address = server.address
            [heard] = server.heard
            run, is_right = run_of(heard)
            # (another reply is one, and so the log has nothing of it)
            told = {
                takes: takes(address, before),
                refuses: refuses(run, before),
                untaken: untaken(address, before),
                None: fault("quota service unavailable", before),
            }.get(wanted) or unavailable(address, wanted, before)
            checks.equal(
                f"{name} of a host, {what}: what is told, and whether it was asked",
                (came, is_right),
                (told, True),
            )
    with nobody_there() as address:
        checks.equal(
            "status of a host, nobody there",
            world.run("status", "--server", address, "--host", "mx1"),
            unavailable(address),
        )


def hosts_in_words(world, checks):
    """A host that is none goes before an address that is none, and keeps each server from being
    asked."""
    bad = 2, b"", "mailquota: bad host\n"
    with Script([b""]) as server:
        for host in ("", "a_b", "a" * 65, "m\u00e4il"):
            checks.equal(
                f"status of host {host!r}",
                world.run("status", "--server", server.address, "--host", host),
                bad,
            )
        checks.equal(
            "a bad host and a bad address",
            world.run("status", "--server", "127.0.0.1", "--host", "a_b"),
            bad,
        )
        checks.equal(
            "a bad address",
            world.run("status", "--server", "127.0.0.1", "--host", "a"),
            bad_address("127.0.0.1", NO_PORT),
        )
        came = world.run("status", "--config", world.new_file(""), "--host", "a")
        checks.holds(
            "status of settings and a host",
            came[0] == 2 and came[2].startswith("error: "),
            "status 2, and a line that begins with `error: `",
            came,
        )
        checks.equal("what was sent", server.heard, [])
    longest = "mx-1." + "a" * 59
    with Server(world) as first, Server(world) as second:
        came = world.run(
            "status", "--server", first.address, "--server", second.address, "--host", longest
        )
        told = [
            f"server {it.address}:\n".encode() + takes(it.address, host=longest)[1]
            for it in (first, second)
        ]
        checks.equal("status of a host at two", came, (0, b"".join(told), ""))
        ahead = clock() + 50 * 60_000
        second.ask(retire(1, host=b"a", run=ahead))
        came = world.run(
            "status", "--server", first.address, "--server", second.address, "--host", "a"
        )
        printed = (
            f"server {first.address}:\n".encode()
            + takes(first.address, host="a")[1]
            + f"server {second.address}:\n".encode()
        )
        checks.holds(
            "status of a host that one of two refuses",
            came[:2] == (1, printed) and came[2].endswith(f"not done by server {second.address}\n"),
            (1, printed),
            came,
        )


def checked_filters(world, checks):
    def check(address, *words, **settings):
        return world.run(
            "filter", "--config", world.filter_file(address, **settings), "--check", *words
        )

    with Server(world) as server:
        checks.equal(
            "filter --check", check(server.address), takes(server.address, SETTINGS_ARE_RIGHT)
        )
        checks.equal(
            "filter --check --run 7, with a log of nothing",
            check(server.address, "--run", "7", log="off"),
            takes(server.address, SETTINGS_ARE_RIGHT),
        )
    with nobody_there() as address:
        checks.equal(
            "filter --check, nobody there",
            check(address),
            unavailable(address, output=SETTINGS_ARE_RIGHT),
        )
    host = "setting host: bad value"
    for what, settings, said, log in [
        (
            "a bad host",
            {"host": "a_b"},
            host,
            f"{host}, it has to be 1 to 64 letters, digits, '.' and '-', in quotes",
        ),
        ("no host", {"host": None}, "setting host: missing", "setting host: missing"),
        ("a key too many", {"port": 1}, "setting port: unknown", "setting port: unknown"),
    ]:
        with nobody_there() as address:
            path = world.filter_file(address, **settings)
            came = world.run("filter", "--config", path, "--check")
            checks.equal(f"filter --check, {what}", came, fault(said, log=of_settings(path, log)))
    (came, address), took = soon(lambda: timed_check(world), 2)
    checks.equal(
        "filter --check, a silent server",
        came,
        unavailable(address, "no answer in time", SETTINGS_ARE_RIGHT),
    )
    checks.holds(
        "filter --check, a silent server: one timeout of the settings",
        0.29 < took < 2,
        "0.3 s",
        f"{took:.1f} s",
    )
    with crowded_port() as address:
        came, took = soon(lambda: check(address, timeout=1000), 1.9)
    checks.equal(
        "filter --check, a port that takes no connection",
        came,
        unavailable(address, "no answer in time", SETTINGS_ARE_RIGHT),
    )
    checks.holds(
        "filter --check, a port that takes no connection: one timeout of the settings",
        0.99 < took < 1.9,
        "1 s",
        f"{took:.1f} s",
    )


def timed_check(world):
    with Script([SILENCE, b""]) as server:
        return (
            world.run(
                "filter", "--config", world.filter_file(server.address, timeout=300), "--check"
            ),
            server.address,
        )


def devices_that_are_full(world, checks):
    path = f"{world.folder}/full"
    with Server(world) as server, open("/dev/full", "wb") as device:
        config = world.filter_file(server.address)
        served = world.new_file(
            toml({"listen": server.address, "store": "memory", "default": 3, "offset": 0})
        )
        for what, words in [
            ("init", ["init", "--config", ledger_settings(world, path)]),
            ("status", ["status", "--server", server.address]),
            ("status --config", ["status", "--config", served]),
            ("filter --check", ["filter", "--config", config, "--check"]),
        ]:
            came = world.run(*words, output=device)
            checks.equal(
                f"{what} to a full device", (came[0], came[2]), (1, "mailquota: write failed\n")
            )
    came = world.run("audit", "--config", ledger_settings(world, path))
    checks.equal("the ledger is made all the same", came, (0, b"sound days=0 transactions=0\n", ""))


def monitoring(world, checks):
    """The line that OPERATING has for a server and Nagios, as it stands there but for the path and
    the address."""
    section = section_of("OPERATING.md", "Monitoring")
    [line] = re.findall(r"^    command\[mailquota-server\]=(.*)$", section, re.MULTILINE)

    def nagios(address):
        words = line.replace("/usr/sbin/mailquota", world.program)
        came = subprocess.run(
            ["sh", "-c", words.replace("192.0.2.7:7025", address)],
            stdin=subprocess.DEVNULL,
            capture_output=True,
            text=True,
        )
        return came.returncode, came.stdout

    with Server(world) as server:
        checks.equal(
            "the page's line for Nagios",
            nagios(server.address),
            (0, answers(server.address)[1].decode()),
        )
    with nobody_there() as address:
        checks.equal(
            "the page's line for Nagios, nobody there",
            nagios(address),
            (2, unavailable(address)[2]),
        )
