"""What a process does that traces another one by ptrace(2), from its fork on. It is for x86-64."""
import ctypes
import os
import time

SEIZE = 0x4206
libc = ctypes.CDLL(None)


def ptrace(traced, what, argument, data):
    return libc.ptrace(
        ctypes.c_long(what), ctypes.c_long(traced), ctypes.c_void_p(argument), ctypes.c_void_p(data)
    )


def seize(traced, options):
    """Traces a process, once that lets this one, in a session of its own; ends where it can't."""
    os.setsid()
    for _ in range(1_000):
        if ptrace(traced, SEIZE, 0, options) == 0:
            return
        time.sleep(0.001)
    os._exit(1)


def let_begin(is_ready):
    """Tells the traced process to go on, and keeps none of its files open."""
    os.write(is_ready, b"1")
    os.closerange(0, 3)
    os.close(is_ready)
