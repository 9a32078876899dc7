"""`replay`: frames in hexadecimal, answered over a list and over tables (`--sql`) alike. That
tables are used shows by the memory that they take."""
import collections
import os
import subprocess

import wire

# What a text prints over a new ledger with such a default, where spaces are for the reader alone,
# and what is said on standard error.
Example = collections.namedtuple("Example", "what default text printed said")

ONE_RESERVE = "0021010161000000000000000100000001000000010000000000015180017500000001"
ITS_REPLY = "001381016100000000000000010000000100000001\n"
CUT, BAD = ("mailquota: connection 1: " + what + " frame\n" for what in ("cut", "bad"))

EXAMPLES = [
    Example(
        "one reserve",
        3,
        "0021010161000000000000000100000001000000010000000000015180017500000001",
        "001381016100000000000000010000000100000001\n",
        "",
    ),
    Example(
        "repeats over two connections",
        3,
        (
            "0021010161000000000000000100000001000000010000000000015180017500000001\n"
            "0021010161000000000000000100000001000000010000000000015180017500000001\n"
            "0021010161000000000000000100000001000000010000000000015180017500000001\n\n"
            "0021010161000000000000000100000001000000010000000000015180017500000001\n"
            "0007 05 0175 00000001"
        ),
        (
            "001381016100000000000000010000000100000001"
            "001381016100000000000000010000000100000001"
            "001381016100000000000000010000000100000001\n"
            "001381016100000000000000010000000100000001 "
            "0013 8b 0175 00000001 00000000 00000001 00000003\n"
        ),
        "",
    ),
    Example(
        "other content under a used number",
        3,
        (
            "0021010161000000000000000100000001000000010000000000015180017500000001 "
            "0021 01 0161 0000000000000001 00000001 00000001 0000000000015180 0175 00000002 "
            "0007 05 0175 00000001"
        ),
        (
            "001381016100000000000000010000000100000001 "
            "000f 8a 0161 0000000000000001 00000001 "
            "0013 8b 0175 00000001 00000000 00000001 00000003\n"
        ),
        "",
    ),
    Example(
        "three reserves, of which the third passes the cap",
        3,
        (
            "0021 01 0161 0000000000000001 00000001 00000001 0000000000015180 0175 00000001 "
            "0021 01 0161 0000000000000001 00000002 00000001 0000000000015180 0175 00000002 "
            "0021 01 0161 0000000000000001 00000003 00000001 0000000000015180 0175 00000001"
        ),
        (
            "0013 81 0161 0000000000000001 00000001 00000001 "
            "0013 81 0161 0000000000000001 00000002 00000003 "
            "0017 82 0161 0000000000000001 00000003 00000003 00000003\n"
        ),
        "",
    ),
    Example(
        "a release, and then an old number again",
        3,
        (
            "0021 01 0161 0000000000000001 00000001 00000001 0000000000015180 0175 00000001 "
            "0021 01 0161 0000000000000001 00000002 00000001 0000000000015180 0175 00000002 "
            "0021 01 0161 0000000000000001 00000003 00000001 0000000000015180 0175 00000001 "
            "001d 03 0161 0000000000000001 00000004 00000001 0000000000015180 0175 "
            "0021 01 0161 0000000000000001 00000003 00000001 0000000000015180 0175 00000001 "
            "0021 01 0161 0000000000000001 00000005 00000002 0000000000015180 0175 00000001"
        ),
        (
            "0013 81 0161 0000000000000001 00000001 00000001 "
            "0013 81 0161 0000000000000001 00000002 00000003 "
            "0017 82 0161 0000000000000001 00000003 00000003 00000003 "
            "0013 84 0161 0000000000000001 00000004 00000003 "
            "0017 82 0161 0000000000000001 00000003 00000003 00000003 "
            "0013 81 0161 0000000000000001 00000005 00000001\n"
        ),
        "",
    ),
    Example(
        "the same number from another host",
        3,
        (
            "0021010161000000000000000100000001000000010000000000015180017500000001 "
            "0021 01 0162 0000000000000001 00000001 00000001 0000000000015180 0175 00000001"
        ),
        (
            "001381016100000000000000010000000100000001 "
            "0013 81 0162 0000000000000001 00000001 00000002\n"
        ),
        "",
    ),
    Example(
        "a release of an unheard transaction",
        3,
        (
            "001d 03 0161 0000000000000001 00000002 00000001 0000000000015180 0175 "
            "0021010161000000000000000100000001000000010000000000015180017500000001"
        ),
        "0013 84 0161 0000000000000001 00000002 00000000 000f 87 0161 0000000000000001 00000001\n",
        "",
    ),
    Example(
        "two reserves and one settle",
        3,
        (
            "0021 01 0161 0000000000000001 00000001 00000001 0000000000015180 0175 00000001 "
            "0021 01 0161 0000000000000001 00000002 00000001 0000000000015180 0175 00000001 "
            "0021 02 0161 0000000000000001 00000003 00000001 0000000000015180 0175 00000001 "
            "0007 05 0175 00000001 "
            "0021 02 0161 0000000000000001 00000004 00000001 0000000000015180 0175 00000001"
        ),
        (
            "0013 81 0161 0000000000000001 00000001 00000001 "
            "0013 81 0161 0000000000000001 00000002 00000002 "
            "0013 83 0161 0000000000000001 00000003 00000001 "
            "0013 8b 0175 00000001 00000001 00000000 00000003 "
            "000f 87 0161 0000000000000001 00000004\n"
        ),
        "",
    ),
    Example(
        "limits over later days",
        3,
        (
            "0021 01 0161 0000000000000001 00000001 00000001 0000000000015180 0175 00000001 "
            "0021 01 0161 0000000000000001 00000002 00000001 0000000000015180 0175 00000002 "
            "0021 01 0161 0000000000000001 00000003 00000001 0000000000015180 0175 00000001 "
            "0019 04 0161 0000000000000001 00000004 00000001 00000002 0175 "
            "0019 04 0161 0000000000000001 00000005 00000001 00000003 0175 "
            "0019 04 0161 0000000000000001 00000006 00000000 00000002 0175"
        ),
        (
            "0013 81 0161 0000000000000001 00000001 00000001 "
            "0013 81 0161 0000000000000001 00000002 00000003 "
            "0017 82 0161 0000000000000001 00000003 00000003 00000003 "
            "0017 86 0161 0000000000000001 00000004 00000001 00000003 "
            "000f 85 0161 0000000000000001 00000005 "
            "0017 86 0161 0000000000000001 00000006 00000001 00000003\n"
        ),
        "",
    ),
    Example(
        "an empty input",
        3,
        "",
        "",
        "",
    ),
    Example(
        "the list page",
        3,
        (
            "0021010161000000000000000100000001000000010000000000015180017500000001 "
            "0006 06 00000001 00 "
            "0007 06 00000001 0175"
        ),
        (
            "001381016100000000000000010000000100000001 "
            "0014 8c 00000001 01 0175 00000000 00000001 00000003 "
            "0006 8c 00000001 00\n"
        ),
        "",
    ),
    Example(
        "a transaction of another login, and a settle of too many",
        3,
        (
            "0021 01 0161 0000000000000001 00000001 00000001 0000000000015180 0175 00000001 "
            "0021 01 0161 0000000000000001 00000002 00000001 0000000000015180 0176 00000001 "
            "0021 02 0161 0000000000000001 00000003 00000001 0000000000015180 0175 00000002"
        ),
        (
            "0013 81 0161 0000000000000001 00000001 00000001 "
            "000f 88 0161 0000000000000001 00000002 "
            "0013 89 0161 0000000000000001 00000003 00000001\n"
        ),
        "",
    ),
    Example(
        "a cap of nothing",
        0,
        ONE_RESERVE,
        "0017 82 0161 0000000000000001 00000001 00000000 00000000\n",
        "",
    ),
    Example(
        "a cut frame",
        3,
        "002101",
        "\n",
        "mailquota: connection 1: cut frame\n",
    ),
    Example(
        "a length of nothing",
        3,
        "0000",
        "00018e\n",
        "mailquota: connection 1: bad frame\n",
    ),
    Example(
        "a length above the limit",
        3,
        "0201",
        "00018e\n",
        "mailquota: connection 1: bad frame\n",
    ),
    Example(
        "a usage with a byte too many",
        3,
        "0008 05 0175 00000001 00",
        "00018e\n",
        "mailquota: connection 1: bad frame\n",
    ),
    Example(
        "a moment before day 1",
        3,
        "002101016100000000000000010000000100000001000000000001517f017500000001",
        "00018e\n",
        "mailquota: connection 1: bad frame\n",
    ),
    Example(
        "the first of several, where those behind it are answered",
        3,
        (
            "0021010161000000000000000100000001000000010000000000015180017500000001\n\n"
            "0000\n\n"
            "00\n\n"
            "0021010161000000000000000100000001000000010000000000015180017500000001\n"
        ),
        (
            "001381016100000000000000010000000100000001\n"
            "00018e\n\n"
            "001381016100000000000000010000000100000001\n"
        ),
        "mailquota: connection 2: bad frame\n",
    ),
    Example(
        "no hexadecimal",
        3,
        "0g",
        "",
        "mailquota: line 1: not hex\n",
    ),
]

# How lines become connections: texts, what they print and what is said. The replies to a usage show
# its login's bytes.
TEXTS = [
    ("", "", ""),
    ("\n \n\n", "", ""),
    ("00 21\n0A", "\n", CUT),
    ("00 07\n05 014A 00000001", "0013 8b 014a 00000001 00000000 00000000 00000003\n", ""),
    ("aB c D\n\n  \nff\n", "00018e\n\n", BAD),
    (
        "00 0 8 05 02 aB c D 00000001\n\n  \n0007 05 01 ff 00000001\n",
        (
            "0014 8b 02abcd 00000001 00000000 00000000 00000003\n0013 8b 01ff 00000001 00000000"
            " 00000000 00000003\n"
        ),
        "",
    ),
    ("\n00", "\n", CUT),
    ("\n0007 05 0175 00000001", "0013 8b 0175 00000001 00000000 00000000 00000003\n", ""),
    ("0g", "", "mailquota: line 1: not hex\n"),
    ("00\n0", "", "mailquota: line 2: not hex\n"),
    ("00\n\n\n\t11", "", "mailquota: line 4: not hex\n"),
    ("00\r\n", "", "mailquota: line 1: not hex\n"),
    ("0 0\n1 1 1\n0g", "", "mailquota: line 2: not hex\n"),
]

MOST_BYTES = 1_048_576
MOST_REQUESTS = 10_000

# Each kind of request, asked many times.
MANY = 257
LONG = {
    "reserves of a transaction": [wire.reserve(n) for n in range(1, MANY)],
    "reserves of logins": [wire.reserve(n, txn=n, login=b"%d" % n) for n in range(1, MANY)],
    "settles": [wire.settle(n, txn=n) for n in range(1, MANY)],
    "releases": [wire.release(n, txn=n) for n in range(1, MANY)],
    "limits": [wire.limit(n, from_day=n, cap=n) for n in range(1, MANY)],
    "retires": [wire.retire(1, run=n) for n in range(1, MANY)],
    "one reserve, and what is used": [
        wire.reserve(1),
        *(wire.usage(day=n) for n in range(1, MANY)),
    ],
    "one reserve, and pages": [wire.reserve(1), *(wire.page(day=n) for n in range(1, MANY))],
}
# So many pages more are touched at least where tables are made and asked: it is 20 to 200.
MORE = 10


def run(world, checks):
    for example in EXAMPLES:
        expect(world, checks, *example)
    for text, printed, said in TEXTS:
        expect(world, checks, f"the text {text!r}", 3, text, printed, said)
    a_reserve_on_two_lines(world, checks)
    largest_text(world, checks)
    enough(world, checks)
    outputs(world, checks)
    an_input_that_fails(world, checks)
    for example in EXAMPLES:
        # (a text that is no hexadecimal gets no ledger)
        if example.printed:
            over_tables(world, checks, example.what, example.text)
    for what, requests in LONG.items():
        over_tables(world, checks, f"many {what}", b"".join(requests).hex())


def expect(world, checks, what, default, text, printed, said):
    wanted = (1 if said else 0, printed.replace(" ", "").encode(), said)
    for words in ([], ["--sql"]):
        came = world.run("replay", "--default", str(default), *words, text=text.encode())
        checks.equal(" ".join([f"replay, {what}", *words]), came, wanted)


def a_reserve_on_two_lines(world, checks):
    """A line break may stand after any whole byte."""
    for cut in range(1, 35):
        text = f"{ONE_RESERVE[:2 * cut]}\n{ONE_RESERVE[2 * cut:]}\n"
        expect(
            world, checks, f"a reserve with a line break behind {cut} bytes", 3, text, ITS_REPLY, ""
        )


def largest_text(world, checks):
    text = " " * MOST_BYTES
    expect(world, checks, "the largest text", 3, text, "", "")
    expect(
        world, checks, "a text of a byte more", 3, f"{text}\n", "", "mailquota: input too large\n"
    )


def enough(world, checks):
    """The last of 10,001 requests isn't answered."""
    asked, reply = "000705017500000001\n", "00138b017500000001000000000000000000000003"
    came = world.run("replay", "--default", "3", text=(asked * (MOST_REQUESTS + 1)).encode())
    wanted = (1, f"{reply * MOST_REQUESTS}\n".encode(), "mailquota: connection 1: enough\n")
    checks.equal("replay, 10,001 requests on a connection", came, wanted)


def outputs(world, checks):
    for room in (0, 1, len(ITS_REPLY) - 1):
        came = world.run_with_room(room, "replay", "--default", "3", text=ONE_RESERVE.encode())
        wanted = (1, ITS_REPLY[:room].encode(), "mailquota: write failed\n")
        checks.equal(f"replay over an output with room for {room} bytes", came, wanted)


def an_input_that_fails(world, checks):
    folder = os.open(world.folder, os.O_RDONLY)
    run = subprocess.run([world.program, "replay"], stdin=folder, capture_output=True)
    os.close(folder)
    checks.equal(
        "replay of a folder",
        (run.returncode, run.stdout, run.stderr),
        (1, b"", b"mailquota: read failed\n"),
    )


def over_tables(world, checks, what, text):
    """Both ledgers answer alike, so which one did shows by the pages of memory that the process
    touched."""
    few, many = touched(world, text), touched(world, text, "--sql")
    checks.holds(
        f"replay --sql, {what}: pages of tables",
        few + MORE < many,
        f"{MORE} more than of a list",
        f"{few} of a list, {many} of tables",
    )


def touched(world, text, *words):
    """How many pages of its memory the program touches as it answers the text."""
    with open(world.new_file(text), "rb") as given:
        process = subprocess.Popen(
            [world.program, "replay", "--default", "1000", *words],
            stdin=given,
            stdout=subprocess.DEVNULL,
            stderr=subprocess.DEVNULL,
        )
        _, status, used = os.wait4(process.pid, 0)
        process.returncode = os.waitstatus_to_exitcode(status)
    return used.ru_minflt
