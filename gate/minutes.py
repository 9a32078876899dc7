"""Processor time by crate, so that what each crate costs the gate is seen."""
import collections
import os
import threading

TICKS = os.sysconf("SC_CLK_TCK")


class Watch:
    """Looks once a second at the processes that work in a repository's crates, and adds up what
    each took for its crate."""

    def __init__(self, root):
        self.crates = os.path.realpath(f"{root}/crates")
        self.seen, self.ended = {}, threading.Event()
        self.thread = threading.Thread(target=self.look_on, daemon=True)

    def __enter__(self):
        self.thread.start()
        return self

    def __exit__(self, *_):
        self.ended.set()
        self.thread.join()

    def look_on(self):
        while not self.ended.wait(1):
            for pid in filter(str.isdigit, os.listdir("/proc")):
                try:
                    self.look(pid)
                except (OSError, IndexError, ValueError):
                    # (it ended)
                    pass

    def look(self, pid):
        folder = os.readlink(f"/proc/{pid}/cwd")
        if not folder.startswith(self.crates + "/"):
            return
        with open(f"/proc/{pid}/cmdline", "rb") as it:
            words = it.read().split(b"\0")
        with open(f"/proc/{pid}/stat", encoding="utf-8", errors="replace") as it:
            fields = it.read().rpartition(")")[2].split()
        is_of_tests = any(it == b"--test" or it.endswith(b"_tests.o") for it in words)
        crate = folder[len(self.crates) + 1 :].partition("/")[0]
        # (a process is its number and when it began)
        self.seen[pid, fields[19]] = (
            crate,
            "test" if is_of_tests else "prove",
            (int(fields[11]) + int(fields[12])) / TICKS,
        )

    def by_crate(self):
        """Returns the seconds that were seen, by crate and by whether they proved or tested."""
        found = collections.Counter()
        for crate, kind, seconds in self.seen.values():
            found[crate, kind] += seconds
        return found


def table(seconds, whole):
    """Returns lines of the minutes of what was seen (crate, kind) by crate, as minutes.txt has
    them, and a line of the whole."""
    kinds = ["prove", "test", "edits"]
    told = lambda given: " ".join(f"{it / 60:.1f}".removesuffix(".0") for it in given)
    crates = sorted(
        {it for it, _ in seconds}, key=lambda it: -sum(seconds[it, kind] for kind in kinds)
    )
    lines = [f"{crate} {told(seconds[crate, kind] for kind in kinds)}" for crate in crates]
    together = [sum(seconds[crate, kind] for crate in crates) for kind in kinds]
    return [
        "Minutes of processor time by crate, to prove, to test and to try edits:",
        *lines,
        (
            f"together {told(together)}, and {(whole - sum(together)) / 60:.1f} that rt itself and"
            " the runs of tests and programs took"
        ),
        f"This run took {whole / 60:.0f} minutes of processor time.",
    ]
