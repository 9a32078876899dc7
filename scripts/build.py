#!/usr/bin/env python3
"""Proves and compiles the crates that the program stands on.

It says with which crate it begins, which is done, of how many, how long that took, and how long the
others take, by gate/minutes.txt and how quick it was so far; at a terminal its last line says so all
the time. What rattle says of a crate stands in crates/NAME/out/build.log. A crate is proved again
where its files, those of a crate below it, or the kit have changed; where nothing has, it does
nothing. RT in the environment is the command rt, whose kit proves.

A crate is proved over the statements of those below it, without their proofs, as rt ci has it: a
check then loads a fraction of them, and any two crates can be proved at once. These libraries stand
in crates/NAME/out/build, apart from what rt keeps there for checks of a single crate. Which crate
waits for which stands in a makefile, crates/mailquota/out/mailquota.mk, by which make runs this
script for each crate, with '--prove' and how many jobs it has.

The program prints its version with the commit that it is built of. So its own crate, and no other,
is proved and compiled from a copy, in crates/mailquota/out/build/source, in which the version has
that commit; no source is written.
"""
import argparse
import hashlib
import os
import re
import selectors
import shutil
import signal
import subprocess
import sys
import time

sys.dont_write_bytecode = True

from kit import (
    KIT,
    PARTS,
    RATTLE,
    TOP,
    below as all_below,
    kit_version,
    rows_of,
    without_kit,
    words_of,
)
from schedule import Schedule, Work, minutes_of
from version import NOTE, add_to_version, note_word, word_of

PROGRAM = "mailquota"
BINARY = f"{TOP}/crates/{PROGRAM}/out/{PROGRAM}"
MINUTES = f"{TOP}/gate/minutes.txt"
# the memory that a check is given, in kilobytes
MEMORY = 4_000_000
# How many jobs prove a crate, where not one for each processor along the longest chain, and one
# elsewhere: each job does part of the work of the others again, and while other crates are ready,
# two or three jobs of each are better than four of one.
JOBS = {"mq_request": 2, "mq_frame": 2, "mq_ledger": 2, "mq_rows": 2, "mq_tables": 2, "mq_store": 3}


def folder(name):
    return f"{TOP}/crates/{name}"


def rlib(name):
    return f"{folder(name)}/out/build/{name}.rlib"


def made(name):
    return BINARY if name == PROGRAM else rlib(name)


def sum_file(name):
    """The file with the sum of all that a build of the crate reads."""
    return f"{folder(name)}/out/build/sum"


def stamp(name):
    """A file that is younger than the sums of the crate and of those below it, once it is built
    from what they have."""
    return f"{folder(name)}/out/build/done"


def source_of(name):
    """The folder from which a crate is proved: its own, or the program's copy."""
    if name != PROGRAM:
        return folder(name)
    copy = f"{folder(name)}/out/build/source"
    shutil.rmtree(copy, ignore_errors=True)
    for part in PARTS:
        if os.path.isdir(f"{folder(name)}/{part}"):
            shutil.copytree(f"{folder(name)}/{part}", f"{copy}/{part}")
    with open(f"{folder(PROGRAM)}/{NOTE}", encoding="ascii") as file:
        of = file.read()
    if of:
        add_to_version(copy, of)
    return copy


def crates(rows):
    """The program and the crates that it stands on, each with those of ours that its line names."""
    return {
        name: [it for it in rows[name] if it in rows]
        for name in [*all_below(PROGRAM, rows), PROGRAM]
    }


def files_of(crate):
    """What a build of a crate reads of it."""
    for part in PARTS:
        for at, folders, names in os.walk(f"{folder(crate)}/{part}"):
            folders.sort()
            yield from (f"{at}/{it}" for it in sorted(names))


def sums_of(rows, known, of):
    """Of each crate the sum of all that its build reads of it, the kit and its line of crates.txt,
    and of the program's also the commit."""
    sums, kit = {}, kit_version()
    for name in known:
        total = hashlib.sha256(kit + repr(rows[name]).encode())
        if name == PROGRAM:
            total.update(of.encode())
        for path in files_of(name):
            with open(path, "rb") as file:
                total.update(
                    f"{os.path.relpath(path, TOP)}\n".encode()
                    + hashlib.sha256(file.read()).digest()
                )
        sums[name] = total.hexdigest()
    return sums


def write_sums(rows, known):
    """Writes the sum of each crate where that changed. Where what was made of it is gone, it isn't
    built."""
    of = word_of(TOP)
    note_word(folder(PROGRAM), of)
    for name, total in sums_of(rows, known, of).items():
        os.makedirs(os.path.dirname(sum_file(name)), exist_ok=True)
        if not os.path.exists(made(name)) and os.path.exists(stamp(name)):
            os.remove(stamp(name))
        with open(sum_file(name), "a+", encoding="utf-8") as file:
            file.seek(0)
            if file.read() != total:
                file.truncate(0)
                file.write(total)


def is_built(rows, known):
    """Whether the program is there as a build would make it of the tree as it is."""
    if not all(
        os.path.exists(it) for name in known for it in (made(name), stamp(name), sum_file(name))
    ):
        return False
    for name, total in sums_of(rows, known, word_of(TOP)).items():
        with open(sum_file(name), encoding="utf-8") as file:
            if file.read() != total:
                return False
    # (a crate is built after its sum is written, and after those below it)
    age = {name: os.stat(stamp(name)).st_mtime_ns for name in known}
    return all(
        age[name] >= max([os.stat(sum_file(name)).st_mtime_ns, *map(age.get, known[name])])
        for name in known
    )


def costs(below):
    """The minutes that each crate takes by gate/minutes.txt; one that isn't there yet takes as many
    as the others do on average."""
    known = minutes_of(MINUTES)
    mean = sum(known.values()) / len(known) if known else 1
    return {name: max(known.get(name, mean), 0.1) for name in below}


def lengths_above(below):
    """How many minutes there are from each crate up to the program, along the longest way."""
    minutes = costs(below)

    def longest(name):
        return minutes[name] + max((longest(it) for it in below if name in below[it]), default=0)

    return {name: longest(name) for name in below}


def chain_of(below, lengths):
    """The crates along the longest way up to the program."""
    chain = [max(below, key=lengths.get)]
    while chain[-1] != PROGRAM:
        chain.append(max((it for it in below if chain[-1] in below[it]), key=lengths.get))
    return chain


def at_once():
    """How many crates are proved at once: one for each processor, as far as there is memory for a
    check of each."""
    with open("/proc/meminfo", encoding="ascii") as lines:
        free = next(int(it.split()[1]) for it in lines if it.startswith("MemAvailable:"))
    return max(1, min(len(os.sched_getaffinity(0)), free // MEMORY))


def order_of(rows, below):
    """The crates in the order in which they are begun: what the chain waits for soonest stands
    first, and of that what has the most minutes above it. With the chain's crates."""
    lengths = lengths_above(below)
    chain = chain_of(below, lengths)
    # the place in the chain of the first crate that stands on each
    stand = [{name, *all_below(name, rows)} for name in chain]
    needed = {it: next(place for place, found in enumerate(stand) if it in found) for it in below}
    return sorted(below, key=lambda it: (needed[it], -lengths[it])), chain


def works_of(rows, below, lanes):
    """What each crate costs, in the order in which they are begun."""
    order, chain = order_of(rows, below)
    minutes = costs(below)
    jobs = lambda name: min(lanes, JOBS.get(name, lanes if name in chain else 1))
    return {name: Work(minutes[name], jobs(name), below[name]) for name in order}


def makefile_of(works):
    """Which crate waits for which. make begins them in the order of its first line."""
    lines = ["all: " + " ".join(map(stamp, works))]
    for name, work in works.items():
        lines += [
            f"{stamp(name)}: {sum_file(name)} {' '.join(map(stamp, work.below))}",
            f"\t@{sys.executable} {TOP}/scripts/build.py --prove {name} {work.jobs}",
        ]
    return "\n".join(lines) + "\n"


def words_for(name, rows, jobs):
    words = [
        RATTLE,
        "build",
        *words_of(name, rows, folder(name), rlib),
        "--links",
        f"{name}=",
        "--jobs",
        str(jobs),
    ]
    if name == PROGRAM:
        return [*words, "--toolchain", f"{KIT}/toolchain", "--backend", "llvm", "-o", f"{BINARY}.o"]
    return [*words, "--statements", "-o", rlib(name)]


def tell(line):
    # (in one call, since other crates have their lines at the same time)
    print(line + "\n", end="", flush=True)


def prove(name, jobs):
    """Proves and compiles a crate. Where that fails, it says why, and ends the whole build."""
    rows, begun = rows_of(TOP), time.monotonic()
    tell(f"{name}: begun")
    at = source_of(name)
    with open(f"{folder(name)}/out/build.log", "wb") as log:
        run = lambda words: subprocess.run(
            words, cwd=at, stdin=subprocess.DEVNULL, stdout=log, stderr=log
        ).returncode
        status = run(words_for(name, rows, jobs))
        if status == -signal.SIGKILL and jobs > 1:
            # (most likely for memory)
            status = run(words_for(name, rows, 1))
        if not status and name == PROGRAM:
            to = [
                "--target",
                "x86_64-unknown-linux-gnu",
                "--toolchain",
                f"{KIT}/toolchain",
                "-o",
                BINARY,
            ]
            status = run(
                [
                    f"{KIT}/bin/rattle-link",
                    *to,
                    f"{BINARY}.o",
                    f"{KIT}/c/libos_c.a",
                    f"{KIT}/c/liblibc_c.a",
                ]
            )
    if status:
        with open(f"{folder(name)}/out/build.log", encoding="utf-8", errors="replace") as log:
            said = log.read().splitlines()[-30:]
        print(
            (
                f"{name}: the build ended with status {status}; the end of"
                f" crates/{name}/out/build.log:"
            ),
            *said,
            sep="\n",
            file=sys.stderr,
            flush=True,
        )
        os.killpg(0, signal.SIGKILL)
    with open(stamp(name), "w", encoding="utf-8"):
        tell(f"{name}: done in {time.monotonic() - begun:.0f} s")


class Telling:
    """Hands on what the crates say, with how far the build is. At a terminal that is also the last
    line, which is written again each second."""

    def __init__(self, schedule):
        self.schedule, self.is_terminal = schedule, sys.stdout.isatty()

    def clear(self):
        if self.is_terminal:
            print("\r\x1b[K", end="", flush=True)

    def tell(self, line, output):
        name, _, said = line.partition(": ")
        if said == "begun":
            self.schedule.begin(name)
        elif said.startswith("done in "):
            self.schedule.end(name)
            line = f"{line}, {self.schedule.said()}"
        self.clear()
        print(line, file=output, flush=True)

    def follow(self, process):
        """Until the process says no more."""
        parts = {process.stdout.fileno(): b"", process.stderr.fileno(): b""}
        with selectors.DefaultSelector() as selector:
            for file in parts:
                selector.register(file, selectors.EVENT_READ)
            while parts:
                for key, _ in selector.select(1):
                    came = os.read(key.fd, 1 << 16)
                    *lines, parts[key.fd] = (parts[key.fd] + came).split(b"\n")
                    output = sys.stdout if key.fd == process.stdout.fileno() else sys.stderr
                    for line in lines:
                        self.tell(line.decode(errors="replace"), output)
                    if not came:
                        selector.unregister(key.fd)
                        del parts[key.fd]
                self.show()
        self.clear()

    def show(self):
        if self.is_terminal:
            said = f"{self.schedule.said()}: {', '.join(self.schedule.running())}"
            width = shutil.get_terminal_size().columns - 1
            print(f"\r\x1b[K{said[:width]}", end="", flush=True)


def build(rows, known):
    """Builds what isn't built; gives the status."""
    begun, lanes, file = time.monotonic(), at_once(), f"{BINARY}.mk"
    write_sums(rows, known)
    works = works_of(rows, known, lanes)
    with open(file, "w", encoding="utf-8") as makefile:
        makefile.write(makefile_of(works))
    make = ["make", "-rs", "-f", file, f"-j{lanes}"]
    environment = {
        key: value
        for key, value in os.environ.items()
        if key not in ("MAKEFLAGS", "MFLAGS", "MAKELEVEL")
    }
    asked = subprocess.run(
        [*make, "-n"],
        env=environment,
        stdin=subprocess.DEVNULL,
        capture_output=True,
        text=True,
        check=True,
    ).stdout
    left = re.findall(r" --prove (\w+) \d+$", asked, re.M)
    if not left:
        return 0
    schedule = Schedule({name: works[name] for name in works if name in left}, lanes)
    print(schedule.said(), flush=True)
    # (in a process group of its own, so that it can be ended with all that it started, and not in a
    # session, to which Linux gives as much as to all others)
    with subprocess.Popen(
        make,
        env=environment,
        stdin=subprocess.DEVNULL,
        stdout=subprocess.PIPE,
        stderr=subprocess.PIPE,
        preexec_fn=os.setpgrp,
    ) as process:
        try:
            Telling(schedule).follow(process)
        finally:
            try:
                os.killpg(process.pid, signal.SIGKILL)
            except ProcessLookupError:
                pass
    if len(schedule.took) < len(left):
        return 1
    print(f"{len(left)} crates in {(time.monotonic() - begun) / 60:.1f} minutes")
    return 0


def plan(rows, below):
    """Says what a build costs by the minutes of gate/minutes.txt, which are those of one job."""
    lanes = at_once()
    works = works_of(rows, below, lanes)
    chain = chain_of(below, lengths_above(below))
    print(
        f"{sum(works[it].minutes for it in chain):.0f} minutes for the crates that wait for one"
        f" another: {', '.join(chain)}"
    )
    print(
        f"{sum(it.minutes for it in works.values()):.0f} minutes of processor time for all"
        f" {len(works)} crates"
    )
    print(f"{Schedule(works, lanes).minutes_left():.0f} minutes by the clock, {lanes} at once")
    return 0


def parsed():
    parser = argparse.ArgumentParser(
        description=__doc__, formatter_class=argparse.RawDescriptionHelpFormatter
    )
    way = parser.add_mutually_exclusive_group()
    way.add_argument(
        "--plan",
        action="store_true",
        help="run nothing: say what a build costs, by gate/minutes.txt",
    )
    way.add_argument(
        "--prove",
        nargs=2,
        metavar=("CRATE", "JOBS"),
        help="one crate alone, as the makefile has it",
    )
    return parser.parse_args()


def main():
    asked, rows = parsed(), rows_of(TOP)
    known = crates(rows)
    if asked.plan:
        return plan(rows, known)
    if without_kit():
        return 2
    if asked.prove:
        name, jobs = asked.prove
        return prove(name, int(jobs))
    # (so that what runs is ended)
    signal.signal(signal.SIGTERM, lambda number, _: sys.exit(128 + number))
    if build(rows, known):
        return 1
    print(f"built {os.path.relpath(BINARY, TOP)}")
    return 0


if __name__ == "__main__":
    sys.exit(main())
