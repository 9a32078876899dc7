"""A clock that a test sets: one program runs by it, and nobody else does.

Linux hands each process the code that reads its clocks (vdso(7)). In the one process this code is
replaced by some that asks the system and adds what the test says, so nothing is preloaded, and the
program is the one that is installed. It is for x86-64, as what traces a program in ends.py is.
"""
import os
import re
import struct
import time

# Asks the system for the clock in edi, and adds the seconds of the realtime clock (0) or of the
# monotonic one (1), which stand behind the code.
CODE = bytes.fromhex("b8e4000000 0f05 89ff 83ff01 770e 488d150b000000 488b0cfa 48010e 31c0 c3 90")
# The last moment that a request may have: 3000-01-01.
LAST_MOMENT = 32_503_680_000
# Runs a program whose realtime clock is ahead: "clock", the seconds that it is, and the words. A
# process that nobody waits for traces it until its code is in memory, and puts in the other.
TICKING = f"""import ctypes, os, sys
sys.path.insert(0, {os.path.dirname(os.path.abspath(__file__))!r})
import clocks
from tracing import let_begin, libc, ptrace, seize
GO_ON, DETACH, TRACED_BY, OF_EXECUTIONS, EXECUTES = 7, 17, 0x59616d61, 16, 4
traced = os.getpid()
ready, is_ready = os.pipe()
child = os.fork()
if child:
    libc.prctl(TRACED_BY, ctypes.c_long(-1), 0, 0, 0)
    os.close(is_ready)
    os.waitpid(child, 0)
    assert os.read(ready, 1), "it can't be traced"
    os.execv(sys.argv[3], sys.argv[3:])
if os.fork():
    os._exit(0)
seize(traced, OF_EXECUTIONS)
let_begin(is_ready)
while True:
    status = os.waitpid(traced, 0x40000000)[1]
    if not os.WIFSTOPPED(status):
        break
    if status >> 16 == EXECUTES:
        clocks.replace(traced, int(sys.argv[2]))
        ptrace(traced, DETACH, 0, 0)
        break
    ptrace(traced, GO_ON, 0, 0 if status >> 16 else os.WSTOPSIG(status))
os._exit(0)"""


def place_in(process):
    """Where the code is in a process that reads a clock."""
    with open(f"/proc/{process}/maps", encoding="ascii") as maps:
        found = re.search(r"^([0-9a-f]+)-([0-9a-f]+) .*\[vdso\]$", maps.read(), re.M)
    start, end = (int(it, 16) for it in found.groups())
    with open(f"/proc/{process}/mem", "rb") as memory:
        memory.seek(start)
        return start + function_in(memory.read(end - start), b"__vdso_clock_gettime")


def function_in(library, wanted):
    """Where a function begins in an ELF library of 64 bits."""
    (table,) = struct.unpack_from("<Q", library, 0x28)
    size, count = struct.unpack_from("<HH", library, 0x3A)
    places = range(table, table + size * count, size)
    sections = [struct.unpack_from("<IIQQQQIIQQ", library, it) for it in places]
    symbols = next(it for it in sections if it[1] == 11)
    names = sections[symbols[6]][4]
    for at in range(symbols[4], symbols[4] + symbols[5], 24):
        name, _, _, _, value, length = struct.unpack_from("<IBBHQQ", library, at)
        if library[names + name :].partition(b"\0")[0] == wanted and length >= len(CODE) + 16:
            return value
    raise ValueError(f"there is no function {wanted.decode()} that can be replaced")


def write(process, place, code):
    with open(f"/proc/{process}/mem", "r+b", buffering=0) as memory:
        memory.seek(place)
        memory.write(code)


def replace(process, ahead):
    """From now on the realtime clock of a process is so many seconds ahead, and both may be set."""
    write(process, place_in(process), CODE + struct.pack("<qq", ahead, 0))


def limit(ahead):
    """The limit under which a program runs whose realtime clock is so many seconds ahead."""
    return "clock", ahead


def at(moment):
    """The same of a program whose clock shows this moment, or less than a second more, as it
    begins."""
    return limit(int(moment - time.time()) + 1)


def late():
    """The same of a server of which no moment is ahead: it shows the last one that there is."""
    return at(LAST_MOMENT)


class Clock:
    """The clocks of a program that runs under `limit`."""

    def __init__(self, process, ahead=0):
        self.process, self.ahead, self.passed = process, ahead, 0
        self.place = place_in(process) + len(CODE)

    def now(self):
        """What it shows, in seconds since 1970-01-01."""
        return time.time() + self.ahead

    def pass_to(self, moment):
        """Time passes until this moment."""
        seconds = int(moment - self.now())
        self.set(self.ahead + seconds, self.passed + seconds)

    def jump_to(self, moment):
        """It shows another moment, though no time passes: somebody sets it."""
        self.set(self.ahead + int(moment - self.now()), self.passed)

    def set(self, ahead, passed):
        self.ahead, self.passed = ahead, passed
        write(self.process, self.place, struct.pack("<qq", ahead, passed))
