"""A body of each length from 1 to 512 bytes: each kind of request that has one of that length,
short and long hosts, and bodies that spell nothing. Over a list, over tables in memory, and over a
file that is closed and opened again."""
import wire
from books import Books
from cases.edges import LONGEST_HOST, MOST, answers
from ends import Server, ledger_settings
from rows import same_rows

LONGEST = 512
LONGEST_SPELLED = 350
# what a body has in addition to its host and its login
NUMBERED = {wire.reserve: 31, wire.settle: 31, wire.release: 27, wire.limit: 23}
# what that of a retire has besides its host
RETIRE = 14
HOSTS = [1, 22, 64]
TOGETHER = 10


def run(world, checks):
    sizes = {length: requests_of(length) for length in range(1, LONGEST + 1)}
    spelled = {len(frame) - 2 for frames in sizes.values() for frame in frames}
    checks.equal("lengths that have a request", spelled, set(range(6, LONGEST_SPELLED + 1)))
    for first in range(1, LONGEST + 1, TOGETHER):
        lengths = range(first, min(first + TOGETHER, LONGEST + 1))
        replayed(world, checks, f"bodies of {lengths[0]} to {lengths[-1]} bytes", sizes, lengths)
    over_a_file(world, checks, sizes)
    count = sum(map(len, sizes.values()))
    print(
        (
            f"    {len(sizes)} lengths, {count} requests and {3 * len(sizes)} bodies that are none;"
            " each over a list, tables and a file"
        ),
        flush=True,
    )


def requests_of(length):
    """Requests whose bodies have this length. Their numbers are their own."""
    frames, sequence = [], length * 100
    for spelled, rest in NUMBERED.items():
        for host in HOSTS:
            if 1 <= length - rest - host <= 255:
                sequence += 1
                more = {"from_day": 1, "cap": MOST} if spelled is wire.limit else {"txn": length}
                frames.append(
                    spelled(
                        sequence,
                        host=LONGEST_HOST[:host],
                        login=name_of(length - rest - host),
                        **more,
                    )
                )
    if 1 <= length - RETIRE <= len(LONGEST_HOST):
        # (no run is below the first)
        frames.append(wire.retire(sequence + 1, host=LONGEST_HOST[: length - RETIRE]))
    if 1 <= length - 6 <= 255:
        frames.append(wire.usage(name_of(length - 6)))
    if 0 <= length - 6 <= 255:
        frames.append(wire.page(name_of(length - 6)[::-1]))
    return frames


def name_of(length):
    return bytes((length + place) % 256 for place in range(length))


def asked(frames):
    """Each request, the same again, and another under its number."""
    sent = b""
    for frame in frames:
        sent += frame + frame
        if frame[2] in (1, 2):
            sent += frame[:-1] + b"\x05"
    return sent


def nothing(length):
    """Bodies of this length that spell no request: a byte left over, a field cut short, an unknown
    kind."""
    good = wire.reserve(1, host=b"a" * 64, login=b"u" * 255)[2:]
    shorter = (requests_of(length - 1) or [wire.usage()])[0][2:]
    cut = good[:length] if length < LONGEST_SPELLED else good + bytes(length - LONGEST_SPELLED + 1)
    return [
        wire.frame(it[:length].ljust(length, b"\0"))
        for it in (shorter + b"\0", cut[: length - 1] + b"\0", b"\xff" * length)
    ]


def replayed(world, checks, what, sizes, lengths):
    sent = [asked(sizes[it]) for it in lengths if sizes[it]]
    good = len(sent)
    sent += [wire.usage() + it for length in lengths for it in nothing(length)]
    for words in ([], ["--sql"]):
        books = Books(0, MOST)
        printed = "".join(f"{books.serve(it).hex()}\n" for it in sent)
        came = world.run(
            "replay",
            "--default",
            str(MOST),
            *words,
            text="\n\n".join(it.hex() for it in sent).encode(),
        )
        checks.equal(
            " ".join([f"{what}: replay", *words]),
            came,
            (1, printed.encode(), f"mailquota: connection {good + 1}: bad frame\n"),
        )


def over_a_file(world, checks, sizes):
    path, books = f"{world.folder}/bodies", Books(0, MOST)
    settings = {"store": path, "default": MOST, "log": "off"}
    for what, words in [("a file", ["--create"]), ("the file opened again", [])]:
        with Server(world, words=words, **settings) as server:
            for length, frames in sizes.items():
                sent = [asked(frames), *nothing(length)]
                checks.equal(
                    f"{what}, bodies of {length} bytes",
                    [answers(server, it) for it in sent],
                    [books.serve(it) for it in sent],
                )
    same_rows(checks, "the file", path, books)
    came = world.run("audit", "--config", ledger_settings(world, path, default=MOST))
    checks.equal(
        "audit",
        came,
        (0, f"sound days={len(books.usage)} transactions={len(books.transactions)}\n".encode(), ""),
    )
