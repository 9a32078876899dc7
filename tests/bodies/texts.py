#!/usr/bin/env python3
"""Tries wrong texts of contrib, debian, docs and man, each over the case of tests/program that is
to fail.

A text is a file tests/bodies/FOLDER/NAME.edit, written as a must-fail edit over the files of that
folder, with a line 'case: GROUP: NAME' for each case that begins so and is to fail. It is tried in
a copy of what the cases read. What is to fail has to pass without it. The last line is
'N passed, M failed', and the status 1 where any failed.
"""
import argparse
import os
import shutil
import sys
import tempfile

sys.dont_write_bytecode = True

HERE = os.path.dirname(os.path.realpath(__file__))
TOP = os.path.dirname(os.path.dirname(HERE))
sys.path[:0] = [f"{TOP}/scripts", f"{TOP}/gate"]

from bodies import cases_in, outcomes, unseen
from edit import edits_in

FOLDERS = ("contrib", "debian", "docs", "man")
READ = (
    "contrib",
    "debian",
    "docs",
    "examples",
    "man",
    "scripts",
    "tests/model",
    "tests/program",
    "Makefile",
    "README.md",
    "CHANGELOG",
    "LICENSE",
    "NOTICE",
    "SECURITY.md",
)


def copied(place):
    """A copy of what the cases read."""
    for it in READ:
        os.makedirs(os.path.dirname(f"{place}/{it}"), exist_ok=True)
        (shutil.copytree if os.path.isdir(f"{TOP}/{it}") else shutil.copy2)(
            f"{TOP}/{it}", f"{place}/{it}"
        )
    return place


def change(place, folder, file):
    """Makes the changes of an edit in a copy."""
    with open(file, encoding="utf-8") as lines:
        path = old = None
        for line in lines.read().split("\n"):
            key, _, text = line.partition(": ")
            if key == "file":
                path = f"{place}/{folder}/{text}"
            elif key == "old":
                old = text
            elif key in ("new", "new:"):
                with open(path, encoding="utf-8") as it:
                    was = it.read()
                assert (
                    was.count(old) == 1
                ), f"{file}: an 'old:' text is there {was.count(old)} times"
                with open(path, "w", encoding="utf-8") as it:
                    it.write(was.replace(old, text))


def words_in(place, program):
    """What gives the words that run a group over a copy, or of it one function."""

    def words(group, _, function=None):
        return [
            sys.executable,
            f"{place}/tests/program/run.py",
            "--group",
            group,
            program,
            *([function] if function else []),
        ]

    return words


def parsed():
    """The program, and the texts that are asked for, each with the folder that it changes."""
    parser = argparse.ArgumentParser(
        description=__doc__, formatter_class=argparse.RawDescriptionHelpFormatter
    )
    parser.add_argument("program", metavar="PROGRAM", type=os.path.abspath)
    parser.add_argument(
        "names", metavar="NAME", nargs="*", default=[], help="only the texts of these names"
    )
    asked = parser.parse_args()
    found = [
        (folder, it[: -len(".edit")])
        for folder in FOLDERS
        for it in edits_in(f"{HERE}/{folder}")[0]
    ]
    unknown = {*asked.names} - {name for _, name in found}
    if unknown:
        parser.error(f"no text has this name: {', '.join(sorted(unknown))}")
    return asked.program, [
        (folder, f"{HERE}/{folder}/{it}.edit")
        for folder, it in found
        if not asked.names or it in asked.names
    ]


def main():
    program, files = parsed()
    with tempfile.TemporaryDirectory(prefix="texts-") as root:
        plain = words_in(copied(f"{root}/without"), program)
        groups = dict.fromkeys(group for _, file in files for group, _ in cases_in(file))
        without = {group: outcomes(plain(group, None), 0) for group in groups}
        good = 0
        for number, (folder, file) in enumerate(files):
            place = copied(f"{root}/{number}")
            change(place, folder, file)
            planted = words_in(place, program)
            missed = unseen(cases_in(file), lambda group, _: without[group], planted, plain)
            shutil.rmtree(place)
            good += not missed
            cases = "; ".join(missed or (": ".join(it) for it in cases_in(file)))
            print(
                (
                    f"{'NOT SEEN' if missed else 'failed as it must:'} {folder}:"
                    f" {os.path.basename(file)[:-len('.edit')]}: {cases}"
                ),
                flush=True,
            )
    print(f"{good} passed, {len(files) - good} failed")
    return 0 if files and good == len(files) else 1


if __name__ == "__main__":
    sys.exit(main())
