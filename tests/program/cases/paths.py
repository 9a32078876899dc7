"""Paths that are relative, or lie where who asks may not write or read, and settings over links.
Each command and the server either do the same as by another path, or say at which file and why."""
import os

from books import Books
from cases.attempts import FEW
from cases.audits import audit
from cases.damage import sound
from cases.forgetting import forget
from cases.nights import (
    DEFAULT,
    KEEP,
    NOTED,
    NOT_OPENED,
    SWITCHED,
    asked,
    filled,
    first_day,
    has_note,
    is_through,
    names,
    nightly,
    request,
    requests,
    today,
    warned_of,
)
from ends import (
    IS_THERE,
    NOT_ALLOWED,
    NO_FILE,
    Server,
    World,
    as_user,
    copied,
    fault,
    files_in,
    ledger_settings,
    nobody_there,
    of_settings,
    of_store,
    refusal,
    toml,
    unavailable,
    unreached,
    wait_past_a_night,
    wait_until,
)
from rows import same_rows

UNREADABLE = "settings can't be read"
LOOP = "Too many levels of symbolic links (os error 40)"
UNABLE = "unable to open database file"
USER = 60_001
# each that reads settings
COMMANDS = (
    ["server"],
    ["init"],
    ["audit"],
    ["limits"],
    ["forget", "--before", "1", "--into", "new"],
    ["status"],
    ["day"],
    ["report"],
    ["filter"],
    ["filter", "--check"],
)


def run(world, checks):
    for case in (
        relative,
        settings_of_links,
        over_a_folder,
        over_a_link,
        links_beside_a_ledger,
    ):
        wait_past_a_night()
        case(world, checks)
    if os.geteuid():
        checks.skip("paths of another user", "who tests isn't root")
        return
    user = user_of(world)
    for case in (folders_of_others, nights_of_others, settings_of_others):
        wait_past_a_night()
        case(world, checks, user)


# ---- relative paths


def relative(world, checks):
    """By a path that is relative, to the folder in which a command or the server is started, all is
    made and found there, and named so."""
    folder = f"{world.folder}/relative"
    os.makedirs(f"{folder}/below")
    for place, path in enumerate(["ledger", "below/../ledger2"]):
        what = f"store = {path!r}"
        settings = {"store": path, "default": DEFAULT, "offset": 0}
        with open(f"{folder}/{place}.toml", "w", encoding="ascii") as file:
            file.write(toml({"listen": "127.0.0.1:0", "keep": KEEP, "log": "info", **settings}))
        quiet = f"{place}.quiet.toml"
        with open(f"{folder}/{quiet}", "w", encoding="ascii") as file:
            file.write(toml({"listen": "127.0.0.1:1", **settings}))

        def told(*words, quiet=quiet):
            return world.run(words[0], "--config", quiet, *words[1:], folder=folder)

        checks.equal(
            f"{what}: init, and again",
            (told("init"), told("init")),
            (
                (0, f"made {path}\n".encode(), ""),
                fault("store is not this ledger", log=refusal(path, IS_THERE)),
            ),
        )
        books = filled(world, f"{folder}/made", FEW)
        copied(f"{folder}/made", f"{folder}/{path}")
        os.remove(f"{folder}/made")
        os.remove(f"{folder}/made-wal")
        checks.equal(f"{what}: audit", told("audit"), sound(books))
        status, output, errors = told("status")
        checks.equal(
            f"{what}: status, its first line, and what is logged",
            (status, output.partition(b", ")[0], errors.partition("mailquota:")[0]),
            (3, f"ledger {path}: version 3".encode(), unreached("127.0.0.1:1")),
        )
        into, day = f"{path}.into", first_day()
        kept = books.remembered(day)
        line = f"kept answers={len(kept.answers)} of {len(books.answers)}, limits=11\n"
        checks.equal(
            f"{what}: forget, and again",
            (
                told("forget", "--before", str(day), "--into", into),
                told("forget", "--before", str(day), "--into", into),
            ),
            ((0, line.encode(), ""), fault("file exists")),
        )
        same_rows(checks, f"{what}: the new file of forget", f"{folder}/{into}", kept)
        with Server.of_words(world, "--config", f"{place}.toml", folder=folder) as server:
            good = wait_until(lambda: has_note(f"{folder}/{path}") or warned_of(server))
            lines = [
                it.partition("ledger ")[2].partition(": ")[0]
                for it in server.log_lines()
                if " ledger " in it
            ]
            checks.equal(
                f"{what}: a night, and how its lines name it", (good, lines), (True, [path] * 3)
            )
        # (beside the new file of `forget`)
        at = os.path.normpath(f"{folder}/{path}")
        came = [it for it in names(at) if not it.startswith(".into")]
        checks.equal(f"{what}: files then", came, NOTED)
        same_rows(checks, f"{what}: a night", at, kept)
    nothing = world.run("audit", "--config", quiet, folder=f"{folder}/below")
    checks.equal(
        "settings of a relative path, from another folder",
        nothing,
        fault(UNREADABLE, log=of_settings(quiet, NO_FILE)),
    )
    came = world.run("audit", "--config", f"../{quiet}", folder=f"{folder}/below")
    checks.equal(
        "a store of a relative path, from another folder",
        came,
        fault(NOT_OPENED, log=of_store(path, NO_FILE)),
    )


# ---- links


def settings_of_links(world, checks):
    """Settings are read over links; a link to nothing, and one to itself, are no settings."""
    path = f"{world.folder}/of-settings"
    books = filled(world, path, FEW)
    real = ledger_settings(world, path, default=DEFAULT)
    folder = f"{world.folder}/links of settings"
    os.mkdir(folder)
    os.symlink(real, f"{folder}/once")
    os.symlink("once", f"{folder}/twice")
    for name in ("once", "twice"):
        checks.equal(
            f"settings over a link, {name}",
            world.run("audit", "--config", name, folder=folder),
            sound(books),
        )
    with nobody_there() as address:
        os.symlink(world.filter_file(address, tries=1), f"{folder}/of a filter")
        checks.equal(
            "settings over a link, of a filter",
            world.run("filter", "--check", "--config", "of a filter", folder=folder),
            unavailable(address, output=b"settings are right\n"),
        )
    os.symlink("no-such-file", f"{folder}/nothing")
    os.symlink("itself", f"{folder}/itself")
    for name, cause in (("nothing", NO_FILE), ("itself", LOOP)):
        for word, *words in COMMANDS:
            checks.equal(
                f"settings that are a link to {name}: {' '.join([word, *words])}",
                world.run(word, "--config", name, *words, folder=folder),
                fault(UNREADABLE, log=of_settings(name, cause)),
            )
    checks.equal(
        "settings that are a link: what is made",
        sorted(os.listdir(folder)),
        ["itself", "nothing", "of a filter", "once", "twice"],
    )


def over_a_folder(world, checks):
    """A link to the ledger's folder is as that folder: days leave, and the new file of `forget` is
    made there."""
    what, folder, link = "a link to the folder", f"{world.folder}/real", f"{world.folder}/to-real"
    os.mkdir(folder)
    os.symlink("real", link)
    books, day = filled(world, f"{link}/ledger", FEW), first_day()
    checks.equal(f"{what}: files", names(f"{folder}/ledger"), ["", "-wal"])
    into = f"{link}/into"
    came = forget(world, f"{link}/ledger", day, into, default=DEFAULT)
    checks.equal(
        f"{what}: forget, and where its file is",
        (came[0], os.path.isfile(f"{folder}/into")),
        (0, True),
    )
    with nightly(world, f"{link}/ledger") as server:
        good = wait_until(
            lambda: is_through(server) and has_note(f"{link}/ledger") or warned_of(server)
        )
        checks.equal(f"{what}: days leave, and warnings", (good, warned_of(server)), (True, []))
    checks.equal(
        f"{what}: files then, and the link",
        (names(f"{folder}/ledger"), os.readlink(link)),
        (NOTED, "real"),
    )
    same_rows(checks, what, f"{folder}/ledger", books.remembered(day))


def over_a_link(world, checks):
    """Over a link to the ledger's file that is served, with its own log, and by each command; the
    link stays. A link to nothing, and one to itself, are no ledger."""
    what, path, link = "a link to the file", f"{world.folder}/its-file", f"{world.folder}/its-link"
    books = filled(world, path, FEW)
    os.symlink("its-file", link)
    frames = [request(number, today(), host=b"mx2") for number in range(1, 20)]
    with Server(world, store=link, default=DEFAULT) as server:
        wanted = [books.serve(it) for it in frames]
        checks.equal(f"{what}: replies", asked(server, frames), wanted)
        server.process.kill()
        server.status()
    checks.equal(
        f"{what}: files beside it, and beside the file",
        (names(link), os.readlink(link), names(path)),
        ([""], "its-file", ["", "-wal"]),
    )
    for it in (link, path):
        checks.equal(
            f"{what}: audit of {os.path.basename(it)}",
            audit(world, it, default=DEFAULT),
            sound(books),
        )
    config = ledger_settings(world, link, default=DEFAULT)
    checks.equal(
        f"{what}: init",
        world.run("init", "--config", config),
        fault("store is not this ledger", log=refusal(link, IS_THERE)),
    )
    into = f"{world.folder}/of-link"
    checks.equal(f"{what}: forget", forget(world, link, first_day(), into, default=DEFAULT)[0], 0)
    same_rows(checks, f"{what}: forget", into, books.remembered(first_day()))
    same_rows(checks, what, path, books)
    for of, to, cause in [("nothing", "no-such-file", NO_FILE), ("itself", "to-itself", LOOP)]:
        link = f"{world.folder}/to-{of}"
        os.symlink(to, link)
        with nobody_there() as address:
            config = ledger_settings(world, link, default=DEFAULT, listen=address)
            asks = f"{unreached(address)}mailquota: quota service unavailable\n"
            for word in ("server", "audit", "limits", "status"):
                log = (asks if word == "status" else "") + of_store(link, cause)
                checks.equal(
                    f"a link to {of}: {word}",
                    world.run(word, "--config", config),
                    fault(NOT_OPENED, log=log),
                )
        checks.equal(
            f"a link to {of}: forget",
            forget(world, link, 1, into + of, default=DEFAULT),
            fault(NOT_OPENED, log=of_store(link, cause)),
        )
        checks.equal(f"a link to {of}: no file is made", os.path.exists(link), False)


def links_beside_a_ledger(world, checks):
    """Of links that have the names of what a night makes or left, none is followed: those of files
    that a night replaces go, and one that would be the former ledger's name prevents it."""
    day, other = first_day(), f"{world.folder}/another-file"
    source = f"{world.folder}/beside-links"
    books = filled(world, source, FEW)
    for place, (ends, left) in enumerate(
        [
            ([".part"], NOTED),
            ([".part", ".part-wal"], NOTED),
            ([".next"], NOTED),
            ([".old-wal"], NOTED),
            ([".old"], ["", "-wal", ".old"]),
        ]
    ):
        what = f"links to another file: {' '.join(ends)}"
        path = copied(source, f"{world.folder}/linked{place}")
        with open(other, "wb") as file:
            file.write(b"text")
        for end in ends:
            os.symlink(other, path + end)
        with nightly(world, path) as server:
            # (where one is prevented, that is two lines)
            wait_until(lambda: has_note(path) or len(warned_of(server)) > 1)
            came = is_through(server), warned_of(server)
        prevented = [
            of_store(f"{path}.old", "not a plain file").rstrip(),
            (f"[WARN  night] days before {day} stay: no new store; next attempt in" " an hour"),
        ]
        is_over = left == NOTED
        checks.equal(
            f"{what}: days leave, and warnings", came, (is_over, [] if is_over else prevented)
        )
        with open(other, "rb") as file:
            content = file.read()
        links = [it for it in names(path) if os.path.islink(path + it)]
        checks.equal(
            f"{what}: files, those that are links, and the other file",
            (names(path), links, content),
            (left, [] if is_over else [".old"], b"text"),
        )
        same_rows(checks, what, path, books.remembered(day) if is_over else books)


# ---- another user


def user_of(world):
    """The world of a user who isn't root, and has this world's folder."""
    os.chmod(world.folder, 0o711)
    path = world.new_file(f'#!/bin/sh\nexec {" ".join(as_user(USER))} {world.program} "$@"\n')
    os.chmod(path, 0o755)
    user = World(path, world.folder)
    user.numbers = world.numbers
    return user


def given(path, mode, owner=USER):
    os.chown(path, owner, owner)
    os.chmod(path, mode)
    return path


def folder_of(world, name, source):
    """A folder with a copy of a ledger, all of it the user's; gives the ledger's path."""
    folder = f"{world.folder}/{name}"
    os.mkdir(folder)
    path = copied(source, f"{folder}/ledger")
    for it, mode in ((folder, 0o700), (path, 0o600), (f"{path}-wal", 0o600)):
        given(it, mode)
    return path


def folders_of_others(world, checks, user):
    """Where the user may write the file and its log, the folder may be another's. Where it may not
    write one of both, or not look into the folder, each command says so, and nothing is changed."""
    source = f"{world.folder}/to-be-others"
    books = filled(world, source, FEW)
    commands = [["audit"], ["limits"], ["status"], ["server"]]
    for what, changes, cause in [
        ("a folder that may not be written", {"": 0o555}, None),
        ("a file that may not be written", {"/ledger": 0o400}, UNABLE),
        ("a file that may not be read", {"/ledger": 0o200}, UNABLE),
        ("a log that may not be written", {"/ledger-wal": 0o400}, UNABLE),
        ("a folder that may not be searched", {"": 0o600}, NOT_ALLOWED),
    ]:
        path = folder_of(world, what.replace(" ", "-"), source)
        for end, mode in changes.items():
            os.chmod(os.path.dirname(path) + end, mode)
        before = files_in(os.path.dirname(path))
        if cause is None:
            checks.equal(f"{what}: audit", audit(user, path, default=DEFAULT), sound(books))
            with Server(user, store=path, default=DEFAULT) as server:
                frame = request(900, today())
                checks.equal(f"{what}: a reply", server.ask(frame), books.serve(frame))
            checks.equal(f"{what}: audit then", audit(user, path, default=DEFAULT), sound(books))
        else:
            with nobody_there() as address:
                config = ledger_settings(world, path, default=DEFAULT, listen=address)
                asks = f"{unreached(address)}mailquota: quota service unavailable\n"
                for words in commands:
                    log = (asks if words == ["status"] else "") + of_store(path, cause)
                    checks.equal(
                        f"{what}: {words[0]}",
                        user.run(*words, "--config", config),
                        fault(NOT_OPENED, log=log),
                    )
        checks.equal(f"{what}: files", files_in(os.path.dirname(path)), before)
        os.chmod(os.path.dirname(path), 0o700)
        if cause:
            same_rows(checks, what, path, filled_books())
    what, path = "a folder of another user", folder_of(world, "of-another", source)
    given(os.path.dirname(path), 0o755, owner=USER + 1)
    into, made = (f"{os.path.dirname(path)}/{it}" for it in ("into", "made"))
    checks.equal(
        f"{what}: forget into it",
        forget(user, path, 1, into, default=DEFAULT),
        fault(NOT_OPENED, log=of_store(into, NOT_ALLOWED)),
    )
    for words in (["init"], ["server", "--create"]):
        checks.equal(
            f"{what}: {' '.join(words)}",
            user.run(*words, "--config", ledger_settings(world, made)),
            fault(NOT_OPENED, log=of_store(made, NOT_ALLOWED)),
        )
    checks.equal(f"{what}: files", names(path), ["", "-wal"])


def filled_books():
    """The books of `filled`, by its requests."""
    books = Books(0, DEFAULT)
    for frame in requests(FEW):
        books.serve(frame)
    return books


def nights_of_others(world, checks, user):
    """In a folder that may not be written no new file can be made: days stay, and it is said why. A
    start once it may be written forgets. A note that may be neither read nor written isn't
    told, prevents no night, and goes, since it isn't of the last one any more."""
    source = f"{world.folder}/nights-of-others"
    books, day = filled(world, source, FEW), first_day()
    path = folder_of(world, "not-to-be-written", source)
    folder = os.path.dirname(path)
    what = "a night in a folder that may not be written"
    os.chmod(folder, 0o555)
    with nightly(user, path) as server:
        wait_until(lambda: is_through(server) or len(warned_of(server)) > 1)
        frame = request(900, today())
        checks.equal(f"{what}: a reply", asked(server, [frame]), [books.serve(frame)])
        checks.equal(
            f"{what}: what is logged",
            warned_of(server),
            [
                of_store(f"{path}.part", NOT_ALLOWED).rstrip(),
                (f"[WARN  night] days before {day} stay: no new store; next attempt" " in an hour"),
            ],
        )
        server.process.kill()
        server.status()
    checks.equal(f"{what}: files", names(path), ["", "-wal"])
    os.chmod(folder, 0o700)
    note = f"{path}.night"
    with open(note, "w", encoding="ascii") as file:
        file.write("forgot the days before 5 on day 8, in 3 ms\n")
    os.chmod(note, 0)
    config = ledger_settings(world, path, default=DEFAULT)
    came = user.run("status", "--config", config)
    checks.equal(
        "a note that may not be read: status, and whether it is told",
        (came[0], b"forgot" in came[1]),
        (3, False),
    )
    with nightly(user, path) as server:
        wait_until(lambda: is_through(server) or warned_of(server))
        # (it answers once the note is written)
        asked(server, [request(900, today())] * 3)
        told = [it for it in server.log_lines() if "day 8" in it]
        checks.equal(
            f"{what}, once it may be: days leave, warnings, and whether the earlier note is told",
            (is_through(server), warned_of(server), told),
            (True, [f"[WARN  night] {note}: {NOT_ALLOWED}"], []),
        )
        server.process.kill()
        server.status()
    same_rows(checks, f"{what}, once it may be", path, books.remembered(day))
    checks.equal(f"{what}, once it may be: files", names(path), SWITCHED)
    owners = {it: os.stat(path + it).st_uid for it in SWITCHED}
    checks.equal(f"{what}, once it may be: whose they are", owners, dict.fromkeys(SWITCHED, USER))


def settings_of_others(world, checks, user):
    """Settings that the user may not read, or whose folder it may not search."""
    folder = f"{world.folder}/settings-of-others"
    os.mkdir(folder)
    hidden = f"{folder}/hidden.toml"
    with open(hidden, "w", encoding="ascii") as file:
        file.write(toml({"listen": "127.0.0.1:1", "store": "memory", "default": 3, "offset": 0}))
    for what, mode, of_folder in [
        ("settings that may not be read", 0o600, 0o755),
        ("settings in a folder that may not be searched", 0o644, 0o644),
    ]:
        os.chmod(hidden, mode)
        os.chmod(folder, of_folder)
        for words in COMMANDS:
            checks.equal(
                f"{what}: {' '.join(words[:2])}",
                user.run(*words, "--config", hidden, folder=world.folder),
                fault(UNREADABLE, log=of_settings(hidden, NOT_ALLOWED)),
            )
    os.chmod(folder, 0o755)
