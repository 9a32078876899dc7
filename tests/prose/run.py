#!/usr/bin/env python3
"""Whether the documents agree with the tree.

- Each crate has a front page at the head of its root: its example stands in the file that it names,
  and it names the crates of ours that it stands on as crates.txt has them. Each other file of its
  source begins with a line of what it is.
- docs/ARCHITECTURE.md lists each crate of crates.txt once, and no other, in layers: a crate stands
  on none of a higher one. docs/crates.svg draws them so.
- Each place that CONTRIBUTING.md sends a reader to is there, with the words that it says of it.
- What docs/PROOFS.md names under a crate stands in that crate, and the clauses in brackets after a
  function stand in a contract of such a function.
- Each crate that has a contract with clauses is one of docs/PROOFS.md's.
- Each command of CONTRIBUTING.md and docs/GATE.md is one that commands.py, beside this, runs, or
  leaves out with a reason.
- The lines of prose of the pages below have at most 100 columns.
- Each command of the program stands in the synopsis of one manual page, with its options and no
  others, and that page says what each of them does. man/mailquota.8 lists the commands, and the
  pages have at most 7,200 words. Each diagnostic of the commands stands in one page, once.
- No modules of a crate use each other in a circle, but those that tests/prose/circles.txt has.
- A name is defined once in all `specs/`, a function has at most ten clauses, a line of `specs/` at
  most 100 columns, and what a crate hands out another takes, but for what names.txt, clauses.txt,
  columns.txt and exports.txt still have, which only get shorter.
- Names of code that were given up stand in no source, definition or proof.
- No lemma or definition of two lines or more stands twice.
- The program's version is that of CHANGELOG's first release, and of the package.
- The completion of shells is what scripts/completion.py makes of the program's commands.
- NOTICE lists the kit's libraries in the program.
- The figures of the pages are those of the program, as tests/prose/figures.txt lists both.
- Each line of the log that the manual shows, and each that it says is printed, is one that the
  program has a text for, and so is each that docs/OPERATING.md tells an administrator to look for,
  at that level where its text has one.
- README.md has about as many wrong bodies as the gate has the prover refuse.
- Each wrong body can be tried: the text that it changes stands once in its file, in a function. So
  can each wrong text of scripts, units and pages.
- tests/last_runs.txt has a line for each command that is in it, as scripts/last_runs.py writes it.

A test of these checks comes first: over small trees with one thing wrong, each has to find it. The
last line is 'N passed, M failed', and the status 1 where anything failed.
"""
import argparse
import collections
import glob
import itertools
import os
import re
import sys
import tempfile

sys.dont_write_bytecode = True

TOP = os.path.dirname(os.path.dirname(os.path.dirname(os.path.realpath(__file__))))
sys.path += [f"{TOP}/scripts", f"{TOP}/gate"]

import clauses
import commands
import completion
import definitions
import drawing
import edit
import exports
import last_runs
import lemmas
import modules
import shrinking
from results import status_of

SOURCES = ["crates/*/src/**/*.rt"]
SPECS = ["crates/*/specs/**/*.antt"]
DEFINITIONS = [*SPECS, "crates/*/proofs/**/*.antt"]
# What runs crates besides the program and the tests.
BENCHES = ["bench/**/*.rattle"]
# The roots of tests say which libraries they call, and crates.txt has them.
OF_TESTS = ("mq_ends_tests", "mq_store_tests")
# The folders of tests/bodies that have wrong texts, each of the folder of that name.
OF_TEXTS = ("contrib", "debian", "docs", "man")
# The crate that only proofs stand on, which front pages needn't name, and what still stands twice,
# with the crates.
OF_PROOFS = "mq_lemmas"
NOT_YET = {}

# Names of code that were given up: what is found, and what is said instead. Of sources and
# definitions the code alone is read, without comments and texts: a ledger's file has a table
# `ceiling` and a column `seq`.
NAMES = {
    r"seq'?": "number",
    r"at: (?:&\s*)?(?:u64|Option<u64>)": "moment",
    r"txn at'? (?:login|name)": "moment",
    r"CloseEnd(?:::|\.)Drop": "Rollback",
    r"Standing::(?:Login|Open)\s*\{\s*name": "login",
    r"CeilingRecord|ceilings": "LimitRecord, limits",
    r"crate::faults|declared\.faults": "fault",
    r"(\w+) as An?\1": "Any..",
}

# The pages whose prose is wrapped, and how far.
WRAPPED = ["README.md", "CONTRIBUTING.md", "SECURITY.md"] + [
    f"docs/{it}.md"
    for it in (
        "ARCHITECTURE",
        "CLIENT",
        "DECISIONS",
        "FRAMES",
        "GATE",
        "INSTALL",
        "LEDGER",
        "LINES",
        "OPERATING",
        "PROOFS",
        "STABLE",
        "STORE",
    )
]
COLUMNS = 100

# The table of the program's commands and their options, the options that clap adds, and how many
# words the manual has at most, as `wc -w` counts them.
SUBCOMMANDS = "crates/mq_words/src/subcommands.rt"
OF_CLAP = {"help", "version"}
# The crates whose errors end a command, and those of their texts that stand behind another alone,
# as why an address is bad, or that are said with more.
OF_COMMANDS = ["mq_settings", "mq_command", "mq_process", "mq_remote", "mq_program"]
BEHIND = {
    "no port",
    "port above 65535",
    "no numeric address before the port; an IPv6 address stands in brackets",
    "quota server didn't take this: its log says why",
}
VERSION = "crates/mailquota/src/version.rt"
WORDS = 7_200
# The page that says for which lines of the log to look, and what the pages show for a value: of a
# number, a name, an address, a path, a session, and what the system and the store say.
WATCHED = "docs/OPERATING.md"
VALUE = re.compile(
    r"""-?\d[\d,]* | alice | mx\d(?:\.example\.org)? | [0-9a-f]{16}
    | (?:192\.0\.2\.\d|localhost|\[2001:db8::7\])(?::\d+)? | (?:/var/lib/mailquota/)?ledger(?:\.ballast)?
    | Connection\ refused\ \(os\ error\ 111\) | Too\ many\ open\ files\ \(os\ error\ 24\)
    | No\ space\ left\ on\ device(?:\ \(os\ error\ 28\))?
    | No\ such\ file\ or\ directory | no\ such\ table | unable\ to\ open\ database\ file
    | database\ (?:or\ disk\ is\ full|disk\ image\ is\ malformed)
    | file\ is\ not\ a\ database\ that\ obeys\ its\ schema""",
    re.VERBOSE,
)

TOKEN = re.compile(
    r"""//[^\n]* | "(?:\\.|[^"\\])*" | '(?:\\.[^']*|[^'\\])' | [^/"']+ | .""",
    re.VERBOSE | re.DOTALL,
)
# Which modules of a crate still use each other in a circle: a line for each.
CIRCLES = "tests/prose/circles.txt"
# What is left of names with several definitions, of functions with more clauses than these, of long
# lines of definitions, and of what a crate hands out for nobody.
NAMED_TWICE = "tests/prose/names.txt"
LONG_CONTRACTS = "tests/prose/clauses.txt"
LONG_LINES = "tests/prose/columns.txt"
TAKEN_BY_NONE = "tests/prose/exports.txt"
CLAUSES = 10
PLACE = re.compile(r"`([a-z_]+/(?:src/[a-z_/]+\.rt|proofs/\w+\.antt))`")


def read(tree, file):
    with open(f"{tree}/{file}", encoding="utf-8", errors="replace") as it:
        return it.read()


def files(tree, patterns):
    found = {
        os.path.relpath(it, tree)
        for pattern in patterns
        for it in glob.glob(f"{tree}/{pattern}", recursive=True)
    }
    return sorted(
        it
        for it in found
        if os.path.isfile(f"{tree}/{it}") and "/out/" not in it and "__pycache__" not in it
    )


def rows_of(tree):
    """The crates with the libraries that each names."""
    rows = [it.partition("#")[0].partition(":") for it in read(tree, "crates.txt").split("\n")]
    return {name.strip(): libraries.split() for name, colon, libraries in rows if colon}


def crates_of(tree):
    """The crates with those of ours that each stands on."""
    rows = rows_of(tree)
    return {name: [it for it in libraries if it in rows] for name, libraries in rows.items()}


def code_of(source):
    return "".join(it for it in TOKEN.findall(source) if not it.startswith("//"))


def squeezed(text):
    return re.sub(r"\s+", "", text)


def pages(tree):
    """Yields of each crate what is wrong with its front page."""
    for crate, below in crates_of(tree).items():
        root = next(
            iter(files(tree, [f"crates/{crate}/src/lib.rt", f"crates/{crate}/src/main.rt"])), None
        )
        page = (
            "\n".join(it[4:] for it in read(tree, root).split("\n") if it.startswith("//!"))
            if root
            else ""
        )
        prose, wrong = [], []
        for part in page.split("\n\n"):
            if not part.startswith("    "):
                prose.append(part)
                continue
            place = (PLACE.findall(" ".join(prose)) or [None])[-1]
            if not place or not os.path.isfile(f"{tree}/crates/{place}"):
                wrong.append("its example names no file that is there")
            elif squeezed(part) not in squeezed(code_of(read(tree, f"crates/{place}"))):
                wrong.append(f"its example doesn't stand in {place}")
        if len(prose) == len(page.split("\n\n")):
            wrong.append("it has no example")
        if crate not in OF_TESTS:
            stands = re.search(
                r"It stands on (.*?)(?:\.\s|\.$|;)", " ".join(" ".join(prose).split())
            )
            named = {it for it in re.findall(r"`(\w+)`", stands[1])} if stands else set()
            if not stands or named & {*crates_of(tree)} != {*below} - {OF_PROOFS}:
                wrong.append(
                    "it doesn't say that it stands on"
                    f" {', '.join(it for it in below if it != OF_PROOFS) or 'no crate of ours'}"
                )
        if not re.search(r"Begin\s+with|one\s+file", page):
            wrong.append("it doesn't say where to begin reading")
        sources = files(tree, [f"crates/{crate}/src/**/*.rt"])
        wrong += [
            f"{it} doesn't begin with a line of what it is"
            for it in sources
            if not read(tree, it).startswith("//! ")
        ]
        yield f"the front page of {crate}", wrong


def layers_of(tree):
    """The layers of crates that docs/ARCHITECTURE.md lists, the lowest first, each with its
    crates."""
    layers = {}
    for title, name in re.findall(
        r"^\| (?:\*\*(.*)\*\*|`(\w+)`) \|", read(tree, "docs/ARCHITECTURE.md"), re.MULTILINE
    ):
        if title or not layers:
            layers[title] = its = []
        its += [name] if name else []
    return layers


def listed(tree):
    """Yields what is wrong with the list of crates."""
    rows, crates = [it for names in layers_of(tree).values() for it in names], crates_of(tree)
    wrong = [f"it hasn't {it}" for it in crates if it not in rows]
    wrong += [f"it has {it}, which is no crate" for it in rows if it not in crates]
    wrong += [f"it has {it} more than once" for it in sorted({*rows}) if rows.count(it) > 1]
    yield "docs/ARCHITECTURE.md", wrong


def layered(tree):
    """Yields which crates stand on one of a higher layer."""
    layer = {
        name: number for number, names in enumerate(layers_of(tree).values()) for name in names
    }
    yield "the layers", [
        f"{name} stands on {it} of a higher layer"
        for name, below in crates_of(tree).items()
        for it in below
        if name in layer and layer[name] < layer.get(it, 0)
    ]


def drawn(tree):
    """Yields whether the drawing of the crates is that of these layers and of crates.txt."""
    is_right = read(tree, "docs/crates.svg") == drawing.drawn(layers_of(tree), crates_of(tree))
    yield "docs/crates.svg", (
        [] if is_right else ["it isn't of these crates: run tests/prose/drawing.py"]
    )


def sources_of(tree, crate):
    """The texts of the files of a crate's `src/`, by their names there."""
    place = f"crates/{crate}/src/"
    return {
        it.removeprefix(place): read(tree, it)
        for it in files(tree, [f"{glob.escape(place)}**/*.rt"])
    }


def circles(tree):
    """Yields of each crate which of its modules use each other in a circle that isn't one of the
    list, and which circles of the list are no more."""
    still = {it: set() for it in crates_of(tree)}
    lines = [it.partition(":") for it in read(tree, CIRCLES).splitlines() if it[:1] != "#"]
    for crate, _, its in lines:
        still.setdefault(crate, set()).add(tuple(its.split()))
    for crate, its in still.items():
        found = modules.circles(sources_of(tree, crate))
        yield f"the modules of {crate}", [
            *(f"they go in a circle: {', '.join(it)}" for it in sorted(found - its)),
            *(f"no circle of all these is left: {', '.join(it)}" for it in sorted(its - found)),
        ]


def named_twice(tree):
    """The places of each name that has a definition in more than one, of all `specs/`."""
    return definitions.more_than_once(
        {
            re.sub(r"crates/(.*)/specs/(.*)\.antt", r"\1/\2", it): read(tree, it)
            for it in files(tree, SPECS)
        }
    )


def beyond_words(tree, file, found, *said):
    """What is wrong with words of things, by the list in this file."""
    return [*shrinking.words_wrong(shrinking.words_of(read(tree, file)), found, file, *said)]


def defined_once(tree):
    """Yields which definitions have a name that another has."""
    yield "names of definitions", beyond_words(
        tree,
        NAMED_TWICE,
        named_twice(tree),
        "has one of several definitions in",
        "give it another name there, or use the definition that there is",
    )


def long_contracts(tree):
    """The clauses of each function of the files that have one with too many."""
    found = {}
    for file in files(tree, SOURCES):
        text = read(tree, file)
        if clauses.may_exceed(text, CLAUSES):
            of_file = clauses.clauses_of(text).items()
            found.update(
                {f"{file.removeprefix('crates/')}: {it}": number for it, number in of_file}
            )
    return found


def contracts_fit(tree):
    """Yields of each crate which functions have a contract of too many clauses."""
    yield from by_crate(
        tree,
        "the contracts of",
        LONG_CONTRACTS,
        long_contracts(tree),
        CLAUSES,
        "clauses",
        "say several by one definition of specs/, or part the function",
    )


def long_lines(tree):
    """The number of long lines of each file of all `specs/`."""
    return {
        it.removeprefix("crates/"): sum(len(line) > COLUMNS for line in read(tree, it).split("\n"))
        for it in files(tree, SPECS)
    }


def specs_fit(tree):
    """Yields of each crate which files of its `specs/` have too many long lines."""
    yield from by_crate(
        tree,
        "the specs of",
        LONG_LINES,
        long_lines(tree),
        0,
        f"of its lines beyond {COLUMNS} columns",
        "break them",
    )


def by_crate(tree, of_what, file, found, most, *said):
    """Yields of each crate what is wrong with numbers of its files, by the list in this file, given
    those of all crates."""
    parts = {it: ({}, {}) for it in crates_of(tree)}
    for at, its in enumerate((shrinking.numbers_of(read(tree, file)), found)):
        for name, number in its.items():
            parts.setdefault(name.partition("/")[0], ({}, {}))[at][name] = number
    for crate, its in parts.items():
        yield f"{of_what} {crate}", [*shrinking.numbers_wrong(*its, most, file, *said)]


def taken_by_none(tree):
    """The functions and constants that each crate hands out and no other takes."""
    crates, found = crates_of(tree), {}
    words = {
        crate: exports.words_in(
            read(tree, it)
            for it in files(tree, [f"crates/{crate}/src/**/*.rt", f"crates/{crate}/*/**/*.antt"])
        )
        for crate in crates
    }
    words[""] = exports.words_in(read(tree, it) for it in files(tree, BENCHES))
    for crate in crates:
        its = exports.handed_out(sources_of(tree, crate))
        found[crate] = exports.taken_by_none(crate, its, words)
    return found


def taken(tree):
    """Yields what crates hand out and no other takes."""
    yield "what crates hand out", beyond_words(
        tree,
        TAKEN_BY_NONE,
        taken_by_none(tree),
        "hands out, and no other crate names,",
        "take it from lib.rt, or make it pub(crate)",
    )


def shrink(tree):
    """Takes from the lists of what is left what was mended."""
    for file, found in ((NAMED_TWICE, named_twice), (TAKEN_BY_NONE, taken_by_none)):
        write(tree, file, shrinking.words_left(read(tree, file), found(tree)))
    for file, found, most in (
        (LONG_CONTRACTS, long_contracts, CLAUSES),
        (LONG_LINES, long_lines, 0),
    ):
        write(tree, file, shrinking.numbers_left(read(tree, file), found(tree), most))


def sent_to(tree):
    """Yields of each row of CONTRIBUTING.md that sends a reader into the source what isn't
    there."""
    rows = re.findall(
        r"^\| ([^|]+) \| ([^|]*\.rt`[^|]*) \| ([^|]+) \|$",
        read(tree, "CONTRIBUTING.md"),
        re.MULTILINE,
    )
    if not rows:
        yield "CONTRIBUTING.md", ["it sends nobody into the source"]
    for what, where, says in rows:
        wrong, folder = [], ""
        for file, name in re.findall(r"`([\w/]+\.rt)`: `([\w:]+)`", where):
            # (a file without a folder is in the folder of the one before it)
            file = file if "/" in file else f"{folder}/{file}"
            folder = os.path.dirname(file)
            text = read(tree, f"crates/{file}") if os.path.isfile(f"{tree}/crates/{file}") else ""
            if not re.search(rf"\b(?:fn|struct) {name.split('::')[-1]}\b", text):
                wrong.append(f"{file} has no {name}")
        named = {*re.findall(r"`(mq_\w+)/", where + says)}
        texts = [
            read(tree, it)
            for name in named
            for it in files(tree, [f"crates/{name}/src/**/*.rt", f"crates/{name}/specs/**/*.antt"])
        ]
        for word in re.findall(r"`([^`]+)`", says):
            if word.endswith(".antt"):
                places = [word] if word.startswith("mq_") else [f"{it}/{word}" for it in named]
                if not any(os.path.isfile(f"{tree}/crates/{it}") for it in places):
                    wrong.append(f"there is no {word}")
            elif not any(re.search(rf"\b{re.escape(word)}\b", it) for it in texts):
                wrong.append(f"{' and '.join(sorted(named))} have no {word}")
        yield f"CONTRIBUTING.md, {what.replace('*', '')}", wrong


def contracts(tree, crate):
    """Returns the names that stand in a crate's source and definitions, and of each function the
    clauses of its contracts."""
    known, clauses = set(), {}
    for file in files(tree, [f"crates/{crate}/src/**/*.rt", f"crates/{crate}/specs/**/*.antt"]):
        text = without_texts(read(tree, file), file)
        known.update(re.findall(r"\w+", text))
        parts = re.split(r"\bfn (\w+)", text)
        for name, contract in zip(parts[1::2], parts[2::2]):
            clauses.setdefault(name, set()).update(re.findall(r"\bensures (\w+) \{", contract))
    return known, clauses


def carriers(tree):
    """Yields of each section on crates in docs/PROOFS.md which of the names and clauses there don't
    stand in them."""
    crates = {it: contracts(tree, it) for it in crates_of(tree)}
    # (a trait's clauses stand in the crate that has the trait)
    of_all = {}
    for _, clauses in crates.values():
        for name, its in clauses.items():
            of_all.setdefault(name, set()).update(its)
    head, _, tested = read(tree, "docs/PROOFS.md").partition("\n## What is only tested\n")
    parts = re.split(r"^### (.*)$", head, flags=re.MULTILINE)
    for title, text in zip(parts[1::2], parts[2::2]):
        wrong, named = [], re.findall(r"\w+", title)
        for name, of in re.findall(r"`([^`]+)`(?:\s+of\s+`(\w+)`)?", text):
            known = set().union(*(crates[it][0] for it in ([of] if of else named) if it in crates))
            if "/" in name:
                found = any(os.path.isfile(f"{tree}/crates/{it}/{name}") for it in named)
            elif name.endswith("*"):
                found = any(it.startswith(name[:-1]) for it in known)
            else:
                found = all(it in known or it in crates for it in re.findall(r"\w+", name))
            if not found:
                wrong.append(f"{title} has no {name}")
        for name, listed_ in re.findall(r"`(?:\w+::)?(\w+)`\s+\((`\w+`(?:,\s+`\w+`)*)\)", text):
            wrong += [
                f"no contract of {name} has a clause {it}"
                for it in re.findall(r"\w+", listed_)
                if it not in of_all.get(name, ())
            ]
        yield f"docs/PROOFS.md, {title}", wrong
    missing = [
        it
        for it, (_, clauses) in crates.items()
        if it not in OF_TESTS
        and any(clauses.values())
        and not any(it in re.findall(r"\w+", title) for title in parts[1::2])
    ]
    yield "docs/PROOFS.md", [f"it has nothing of {it}" for it in missing]


def columns(tree):
    """Yields of each page which of its lines of prose are too long."""
    for file in files(tree, WRAPPED):
        prose = re.sub(
            r"^```.*?^```$",
            lambda it: blank(it[0]),
            read(tree, file),
            flags=re.MULTILINE | re.DOTALL,
        )
        yield file, [
            f"its line {number} has more than {COLUMNS} columns"
            for number, line in enumerate(prose.split("\n"), 1)
            if len(line) > COLUMNS and not line.startswith(("|", "    ", "#", "!["))
        ]


def commands_of(tree):
    """The commands with their options, as help prints them, and those of the program itself."""
    source = read(tree, SUBCOMMANDS)
    options = dict(
        re.findall(r'const (\w+): CommandOption = CommandOption \{\s*name: "([\w-]+)"', source)
    )
    rows = re.findall(
        r'Subcommand \{\s*name: "([\w-]+)".*?options: &\[([^\]]*)\]', source, re.DOTALL
    )
    return {
        "": OF_CLAP,
        **{name: {options[it] for it in re.findall(r"\w+", its)} for name, its in rows},
    }


def synopses(page):
    """Yields the commands of each synopsis of a manual page with its options; the program's own has
    no command."""
    for one in re.split(r"^\.Nm\b.*$", section_of(page, "SYNOPSIS"), flags=re.MULTILINE)[1:]:
        yield re.findall(r"[a-z]+", " ".join(re.findall(r"^\.Cm (.*)$", one, re.MULTILINE))) or [
            ""
        ], options_in(one)


def section_of(page, title):
    return page.partition(f".Sh {title}\n")[2].partition("\n.Sh ")[0]


def options_in(text):
    return {*re.findall(r"\bFl -([\w-]+)", text)}


def manual(tree):
    """Yields of each command what is wrong with it in the manual, and what is wrong with all of its
    pages."""
    texts, shown = {it: read(tree, it) for it in files(tree, ["man/*"])}, {}
    for page, text in texts.items():
        for commands, options in synopses(text):
            for command in commands:
                shown.setdefault(command, {}).setdefault(page, set()).update(options)
    listed_ = re.findall(r"^\.It Cm (\w+)$", texts.get("man/mailquota.8", ""), re.MULTILINE)
    for command, options in commands_of(tree).items():
        its = shown.pop(command, {})
        wrong = (
            []
            if len(its) == 1
            else [f"it stands in {len(its)} synopses: {', '.join(its) or 'none'}"]
        )
        wrong += ["man/mailquota.8 doesn't list it"] if command and command not in listed_ else []
        for page, found in its.items():
            told = options_in(texts[page].replace(section_of(texts[page], "SYNOPSIS"), ""))
            wrong += [f"{page} hasn't --{it} in its synopsis" for it in sorted(options - found)]
            wrong += [
                f"{page} has --{it} in its synopsis, which the program doesn't take"
                for it in sorted(found - options)
            ]
            wrong += [
                f"{page} doesn't say what --{it} does" for it in sorted((options & found) - told)
            ]
        yield f"the manual, {command or 'of all commands'}", wrong
    words = sum(len(it.split()) for it in texts.values())
    wrong = [f"the program has no command {it}" for it in shown]
    yield "the manual", wrong + (
        [f"its pages have {words} words, and not {WORDS} at most"] if words > WORDS else []
    )


def completed(tree):
    """Yields of each shell's completion whether it is of the table of commands."""
    for file, text in completion.made(read(tree, SUBCOMMANDS)).items():
        is_right = read(tree, file) == text
        yield file, [] if is_right else ["run scripts/completion.py"]


def diagnostics_in(page):
    """The diagnostics that a manual page lists: a word in capitals stands for what differs, and
    '..' for how it goes on."""
    return [it.replace('"', "") for it in items_of(section_of(page, "DIAGNOSTICS"))]


def items_of(section):
    """The literal items of a section of a page of the manual, of which a line may have several."""
    lines = re.findall(r"^\.It Li (.*)$", section, re.MULTILINE)
    return [it.replace("\\&", "") for line in lines for it in line.split(" , ")]


def errors_of(tree):
    """The texts of the errors that end commands, with a word in capitals in place of each value."""
    sources = [
        read(tree, it)
        for crate in OF_COMMANDS
        for it in files(tree, [f"crates/{crate}/src/**/*.rt"])
    ]
    texts = {
        it for source in sources for it in re.findall(r'#\[error\(\s*"((?:[^"\\]|\\.)*)"', source)
    }
    return {re.sub(r"\{[^}]*\}", "N", it) for it in texts} - BEHIND - {"N"}


def is_of(item, error):
    """Whether an item of a manual page is this error."""
    item, one = re.sub(r"\b[A-Z]+\b", "N", item), re.sub(r"\b[A-Z]+\b", "N", error)
    return one.startswith(item[:-2]) if item.endswith("..") else one == item


def diagnostics(tree):
    """Yields of each error that ends a command, and of what the manual lists twice, where that
    stands in other than one page, once."""
    items = [
        (page, it) for page in files(tree, ["man/*"]) for it in diagnostics_in(read(tree, page))
    ]
    for error in sorted(errors_of(tree)):
        its = [page for page, item in items if is_of(item, error)]
        yield f"the manual, '{error}'", (
            [] if len(its) == 1 else [f"it stands in {len(its)} places: {', '.join(its) or 'none'}"]
        )
    counts = collections.Counter(it for _, it in items)
    yield "the manual's diagnostics", [
        f"'{it}' stands in it {number} times" for it, number in counts.items() if number > 1
    ]


def blank(text):
    """As many lines of nothing."""
    return "\n" * text.count("\n")


def without_texts(text, file):
    """The code of a source or of definitions, without comments and texts."""
    if file.endswith(".rt"):
        return "".join(
            blank(it) if it.startswith(("//", '"')) else it for it in TOKEN.findall(text)
        )
    return re.sub(r'"(?:\\.|[^"\\\n])*"|(?:(?<=\s)|\A)--[^\n]*', "", text)


def names(tree):
    """Yields of each name of code that was given up where it stands."""
    texts = {
        file: without_texts(read(tree, file), file)
        for file in files(tree, [*SOURCES, *DEFINITIONS])
    }
    for name, instead in NAMES.items():
        found = [
            f"{file}:{text.count(chr(10), 0, it.start()) + 1}: '{' '.join(it[0].split())}' was"
            f" given up ({instead})"
            for file, text in texts.items()
            for it in re.finditer(rf"\b(?:{name})\b", text)
        ]
        yield f"the name {name}", found


def standing_twice(tree):
    """Yields which lemmas and definitions stand in more than one place."""
    found = lemmas.twice({file: read(tree, file) for file in files(tree, DEFINITIONS)})
    wrong = [
        f"{name} stands in {' and '.join(its)}"
        for name, its in found
        if NOT_YET.get(name) != sorted({it.split("/")[1] for it in its})
    ]
    yield "lemmas and definitions", wrong


def versions(tree):
    """Yields whether the program, CHANGELOG and the package have one version."""
    places = {
        VERSION: r'VERSION: &str = "(.*)"',
        # (above the first release may stand what comes with the next one)
        "CHANGELOG": r"\A(?:Not released yet\n(?:\n|[^0-9\n].*\n)*)?([^,\n]*),",
        "debian/changelog": r"\Amailquota \((.*?)\)",
    }
    found = {
        file: (re.findall(pattern, read(tree, file)) or ["none"])[0]
        for file, pattern in places.items()
    }
    yield "the version", (
        []
        if len({*found.values()}) == 1
        else [", ".join(f"{file} has {version}" for file, version in found.items())]
    )


def noticed(tree):
    """Yields which of the kit's libraries NOTICE lacks, but for os and sqlite_*, for which the kit
    has no licence."""
    rows = rows_of(tree)
    named = {
        it
        for name, libraries in rows.items()
        if name not in OF_TESTS
        for it in libraries
        if it not in rows and it != "os" and not it.startswith("sqlite_")
    }
    yield "NOTICE", [
        f"it hasn't {it}"
        for it in sorted(named - {*re.findall(r"^(\w+) ", read(tree, "NOTICE"), re.MULTILINE)})
    ]


def figure(text):
    """The number of a text that has commas or underscores between its digits."""
    return int(re.sub(r"\D", "", text))


def told(page, words):
    """The figures that a page has in these words, each time that they stand there: N is one, and ..
    anything."""
    page = re.sub(r"^\.(?:It (?:Fl |Va |Cm )?|[A-Z][a-z] )", "", page, flags=re.MULTILINE)
    wanted = re.escape(words).replace(r"\.\.", ".{,80}?")
    found = re.finditer(re.sub(r"\bN\b", r"(\\d[\\d,]*\\b)", wanted), " ".join(page.split()))
    return [[figure(it) for it in one.groups()] for one in found]


def had(source, what):
    """The figures that a source has in its place: those of a constant, or of the groups of a
    text."""
    name, _, less = what.partition(" - ")
    if re.fullmatch(r"[A-Z_]+", name):
        found = re.search(rf"const {name}: \w+ = (\d[\d_]*);", source)
        return found and [figure(found[1]) - int(less or 0)]
    found = re.search(what, source)
    return found and [figure(it) for it in found.groups()]


def figures(tree):
    """Yields of each page which of its figures aren't the program's."""
    wrong = {}
    for row in read(tree, "tests/prose/figures.txt").splitlines():
        if not row or row[0] == "#":
            continue
        page, words, file, what = row.split(" | ")
        its = wrong.setdefault(page, [])
        said, is_so = told(read(tree, page), words), had(read(tree, f"crates/{file}"), what)
        if not is_so:
            its.append(f"crates/{file} hasn't {what}")
        elif not said:
            its.append(f"it doesn't say {words!r}")
        elif any(it != is_so for it in said):
            its.append(f"of {words!r} it says {said}, and the program has {is_so}")
    for page, its in wrong.items():
        yield f"the figures of {page}", its


def texts_of(tree):
    """The texts in the program's sources, as they stand there but for a source's escapes, and those
    of them that are logged where they stand, each with its levels."""
    found, levels = set(), {}
    for file in files(tree, SOURCES):
        if file.split("/")[1] in OF_TESTS:
            continue
        tokens = TOKEN.findall(read(tree, file))
        for before, token in zip(["", *tokens], tokens):
            if token.startswith('"') and len(token) > 2:
                text = re.sub(r"\\(.)", r"\1", re.sub(r"\\\n\s*", "", token[1:-1]))
                found.add(text)
                level = re.search(r"\b(error|warn|info)!\(\s*[\w.]+;\s*\Z", before)
                if level:
                    levels.setdefault(text, set()).add(level[1].upper())
    return found, levels


def patterns_of(texts):
    """What lines come of these texts, or of what stands in them behind what they are about: of each
    the patterns, in which a group stands for values that follow one another."""
    found = []
    for text in {*texts, *(it.partition("}: ")[2] for it in texts)}:
        parts = re.split(r"(?:\{[^{}]*\})+", text)
        if re.search(r"[^\W\d_]|: ", "".join(parts)):
            found += [re.compile(group.join(map(re.escape, parts))) for group in ("(.+)", "(.+?)")]
    return found


def comes_of(line, patterns, known):
    """Whether a line comes of these texts: what stands for a value in one is a value of the pages,
    or comes of another, behind which a third may stand that begins with a comma. What is known
    isn't looked for again."""
    if line not in known:
        known[line] = bool(VALUE.fullmatch(line)) or any(
            all(comes_of(it, patterns, known) for it in found.groups())
            for pattern in patterns
            if (found := pattern.fullmatch(line))
        )
    if not known[line]:
        known[line] = any(
            comes_of(line[: it.start()], patterns, known)
            and comes_of(line[it.start() :], patterns, known)
            for it in re.finditer(r"(?<=.), ", line)
        )
    return known[line]


def quoted_in(section):
    """What a section of a page of the manual has in quotation marks."""
    quoted = re.findall(r"\\\(lq(.*?)\\\(rq", section, re.DOTALL)
    return [" ".join(it.replace("\\&", "").split()) for it in quoted]


def shown_in(page):
    """The lines of the log that a page of the manual shows: the items and the lines of its section
    of the log, the lines beside its diagnostics, and what both have in quotation marks."""
    log, diagnostics = section_of(page, "LOG"), section_of(page, "DIAGNOSTICS")
    both = f"{log}\n{diagnostics}"
    blocks = re.findall(r"^\.Bd -literal.*\n((?:.*\n)*?)\.Ed$", both, re.MULTILINE)
    return [
        *items_of(log),
        *re.findall(r"^\.Dl (.*)$", both, re.MULTILINE),
        *(it for block in blocks for it in block.splitlines()),
        *quoted_in(both),
    ]


def is_printed(line, texts):
    """Whether each part of a line stands in one of these texts; a word in capitals stands for what
    differs."""
    parts = [it for it in re.split(r"\b[A-Z]+\b", line) if it.strip()]
    return all(any(part in it for it in texts) for part in parts)


def logged(tree):
    """Yields of each page which of the lines that it says are logged or printed, or of the log that
    it has one look for, the program hasn't."""
    texts, levels = texts_of(tree)
    patterns, known = patterns_of(texts), {}
    for page in files(tree, ["man/*"]):
        text = read(tree, page)
        wrong = [it for it in shown_in(text) if not comes_of(it, patterns, known)]
        wrong += [
            it
            for it in quoted_in(section_of(text, "DESCRIPTION"))
            if not VALUE.fullmatch(it) and not is_printed(it, texts)
        ]
        yield f"the lines of the log in {page}", [
            f"no text of the program gives {it!r}" for it in wrong
        ]
    words = re.findall(
        r"(ERROR|WARN|INFO)\b[^`;:]{,40}\bwith\s+`([^`]*)`"
        r"(?:(?:\s+or|,\s+in\s+smtpd's\s+with)\s+`([^`]*)`)?",
        read(tree, WATCHED),
    )
    wrong = []
    for level, word in ((level, " ".join(it.split())) for level, *its in words for it in its if it):
        its = {it for it in texts if word in it}
        if not its:
            wrong.append(f"no text of the program has {word!r}")
        elif its <= {*levels} and not any(level in levels[it] for it in its):
            wrong.append(f"{word!r} isn't logged as {level}")
    yield f"the lines of the log in {WATCHED}", wrong


def refused(tree):
    """Yields whether README.md says how many wrong bodies the prover has to refuse, within a
    tenth."""
    count = len(files(tree, ["crates/*/must-fail/*.edit"]))
    said = re.search(r"about\s+([\d,]+)\s+wrong\s+bodies", read(tree, "README.md"))
    is_right = said and abs(int(said[1].replace(",", "")) - count) * 10 <= count
    yield "the wrong bodies in README.md", [] if is_right else [f"the gate has {count}"]


def applied(tree):
    """Yields of each crate, and of each folder of texts, which of its wrong bodies or texts can't
    be tried, and why."""
    wrong = {it: [] for it in rows_of(tree)}
    for file in files(
        tree,
        ["crates/*/must-fail/*.edit", "crates/*/further/*.edit", "tests/bodies/*/*.edit"],
    ):
        parts = file.split("/")
        crate = parts[2] if parts[0] == "tests" else parts[1]
        if crate in wrong:
            try:
                edit.Edit(f"{tree}/{file}", f"{tree}/crates/{crate}")
            except (edit.BadEdit, OSError, UnicodeDecodeError) as why:
                wrong[crate].append(f"{file}: {why}")
    for crate, its in wrong.items():
        yield f"the wrong bodies of {crate}", its
    for folder in OF_TEXTS:
        its = [untried(tree, folder, it) for it in files(tree, [f"tests/bodies/{folder}/*.edit"])]
        yield f"the wrong texts of {folder}", [it for it in its if it]


def untried(tree, folder, file):
    """Why the changes of a wrong text of this folder can't be made, one after another, if they
    can't."""
    texts, path, old = {}, None, None
    for line in read(tree, file).split("\n"):
        key, _, text = line.partition(": ")
        if key == "file":
            path = os.path.normpath(f"{folder}/{text}")
            if path not in texts:
                texts[path] = read(tree, path)
        elif key == "old":
            old = text
        elif key in ("new", "new:"):
            if texts[path].count(old) != 1:
                return f"{file}: {path} has {old!r} {texts[path].count(old)} times"
            texts[path] = texts[path].replace(old, text)
    return None


def noted(tree):
    """Yields of each line of the last runs whether it is as it is written, with as many names as it
    says, and whether its command is one of the Makefile."""
    wrong, commands = [], []
    for line in read(tree, last_runs.FILE).splitlines():
        found = last_runs.LINE.fullmatch(line)
        if found:
            commands.append(found["command"])
            names = found["names"].split(", ") if found["names"] else []
            if len(names) != int(found["failed"] or 0) or len(names) > int(found["tried"]):
                wrong.append(f"{line[:60]!r} counts {found['failed'] or 0} and names {len(names)}")
        elif not line.startswith("# "):
            wrong.append(f"{line[:60]!r} is no line of a run")
    targets = re.findall(r"^([a-z-]+):", read(tree, "Makefile"), re.M)
    wrong += [f"the Makefile has no {it}" for it in commands if it not in targets]
    wrong += [f"{it} stands twice" for it in {*commands} if commands.count(it) > 1]
    yield last_runs.FILE, wrong


CHECKS = [
    pages,
    listed,
    layered,
    drawn,
    circles,
    defined_once,
    contracts_fit,
    specs_fit,
    taken,
    sent_to,
    carriers,
    commands.known,
    columns,
    manual,
    completed,
    diagnostics,
    names,
    standing_twice,
    versions,
    noticed,
    figures,
    logged,
    refused,
    applied,
    noted,
]

TEN_CLAUSES = "\n".join(f"        ensures is_{it} {{ result ≡ {it} }}" for it in range(10))
# A tree with nothing wrong, and what each of these changes makes of it: the file, the text there,
# what takes its place, and the checks that find it.
TREE = {
    "README.md": "The prover refuses about\n1 wrong bodies.\n",
    "Makefile": "all: build\nedits:\n\tfirst: one\n",
    last_runs.FILE: (
        "# When.\nmake edits: 2026-05-01, commit 0123456789ab: 3 tried, 2 failed: mq_low/a, b\n"
    ),
    "crates/mq_low/must-fail/low.edit": 'file: src/lib.rt\nold:     "after"\nnew: b\n',
    "tests/bodies/mq_low/bar.edit": "file: src/lib.rt\nold: let bar\nnew: let foo\n",
    "tests/bodies/docs/gate.edit": "file: GATE.md\nold: A gate\nnew: No gate\n",
    "crates.txt": "# crates\nmq_lemmas:\nmq_low: mq_lemmas thiserror\nmq_high: mq_low\n",
    "docs/GATE.md": (
        f"A gate.\n\n    make check  # {'code ' * 30}\n\n```\n{'code ' * 30}\n```\n\n| {'row ' * 30}|\n"
    ),
    VERSION: '//! The version.\npub const VERSION: &str = "1.2.3";\n',
    "CHANGELOG": "Not released yet\n\n- More.\n\n1.2.3, 1 May 2026\n",
    "debian/changelog": "mailquota (1.2.3) trixie; urgency=medium\n",
    "NOTICE": "thiserror  MIT\n",
    "docs/crates.svg": drawing.drawn(
        {"low": ["mq_lemmas", "mq_low"], "high": ["mq_high"]},
        {"mq_lemmas": [], "mq_low": ["mq_lemmas"], "mq_high": ["mq_low"]},
    ),
    "docs/ARCHITECTURE.md": (
        "| **low** | |\n| `mq_lemmas` | words |\n| `mq_low` | words |\n| **high** | |\n| `mq_high`"
        " | words |\n"
    ),
    "CONTRIBUTING.md": (
        "| a call | `mq_high/src/lib.rt`: `call` | `done`: so it is (`IsDone`,"
        " `specs/Done.antt`) |\n"
    ),
    "docs/PROOFS.md": (
        "# Proved\n\n### mq_low\n\n- Low: `low`, `Far` of `mq_high`.\n\n### mq_high\n\n- What is"
        " done (`specs/Done.antt`): `call` (`done`).\n\n## What is only tested\n\n`nowhere`\n"
    ),
    "crates/mq_low/src/lib.rt": (
        "//! Low. From `mq_high/src/lib.rt`:\n//!\n//!     low(1)\n//!\n//! It stands on no crate"
        " of ours. Begin with `low.rt`.\npub mod laws;\nmod order;\npub use laws::always;\npub use"
        " order::{MOST, Order, least, timed};\npub fn low(at: u8) -> &'static str {\n    let bar ="
        ' b\'"\'; // after it\n    "after"\n}\n'
    ),
    "crates/mq_high/src/lib.rt": (
        "//! High. From `mq_high/src/lib.rt`:\n//!\n//!     low(1)\n//!\n//! It stands on `mq_low`."
        " Begin with `high.rt`.\nuse mq_low::{MOST, low};\npub fn call(byte: u8) -> u8\n    ensures"
        " done { IsDone result }\n{\n    low(1)\n}\n\nstruct Far;\n"
    ),
    "crates/mq_high/src/high.rt": "//! What is high.\nuse crate::steps::{STEPS, Steps};\n",
    CIRCLES: "# The circles.\nmq_high: high steps\n",
    SUBCOMMANDS: (
        '//! The commands.\nconst FAR: CommandOption = CommandOption {\n    name: "far",\n};\nconst'
        ' OFF: CommandOption = CommandOption {\n    name: "far-off",\n};\nstatic GO: Subcommand'
        ' = Subcommand {\n    name: "go",\n    options: &[FAR, OFF],\n};\nstatic STAY: Subcommand ='
        ' Subcommand {\n    name: "stay",\n    options: &[],\n};\n'
    ),
    "man/mailquota.8": (
        ".Sh SYNOPSIS\n.Nm\n.Ar command\n.Fl -help | Fl -version\n.Sh DESCRIPTION\n.Fl -help\n.Fl"
        " -version\n.It Cm go\n.It Cm stay\n.Sh DIAGNOSTICS\n.It Li too far , over day D used"
        " N\n.It Li no day; copy ..\n"
    ),
    "crates/mq_command/src/fault.rt": (
        '//! Faults.\n#[error("too far")]\n#[error("over day {0} used {1}")]\n#[error("no day; copy'
        ' one")]\n#[error("{0}")]\n#[error("no port")]\n'
    ),
    "man/mailquota-go.8": (
        ".Sh NAME\n.Nm mailquota-go\n.Sh SYNOPSIS\n.Nm mailquota\n.Cm go\n.Op Fl -far\n.Nm"
        " mailquota\n.Cm go\n.Op Fl -far-off\n.Nm mailquota\n.Cm stay\n.Sh DESCRIPTION\n.It Fl"
        " -far\nfar\n.It Fl -far-off\nfarther,\n.Ar steps ,\n2 to 1,000, by default 20\n\\(lqgone"
        " by N\nsteps\\(rq.\n.Sh LOG\n\\(lqhost mx3\\(rq\n.It Li host mx1: gone by 3 steps, at"
        " last , gone by 1 steps\n.Dl host mx2: gone by 2 steps\n.Sh DIAGNOSTICS\n.Bd -literal"
        " -compact\ngone by 5 steps\n.Ed\n"
    ),
    "crates/mq_high/src/log.rt": (
        "//! What is logged.\nuse crate::{steps::{Steps}};\n"
        'fn tell() {\n    warn!(self.log; "{whom}: gone by {steps} steps");\n}'
        '\n\nfn say() {\n    write(f, "host {host}", ", at last")\n}\n'
    ),
    WATCHED: "- **The log:** any ERROR; WARN with `gone\n  by` or ` steps`.\n",
    "crates/mq_high/src/steps.rt": (
        "//! Steps.\npub const STEPS: u32 = 1_001;\nfn steps() -> u32 {\n    read(2, 20)\n}\n\n"
        "fn up() {\n    super::high::rise()\n}\n"
    ),
    "tests/prose/figures.txt": (
        "# The figures.\n\nman/mailquota-go.8 | steps , .. to N, | mq_high/src/steps.rt | STEPS -"
        " 1\nman/mailquota-go.8 | steps , N to .. by default N | mq_high/src/steps.rt | read\\((\\d+),"
        " (\\d+)\\)\n"
    ),
    # (its last lines have 100 columns, in more bytes, and 101)
    "crates/mq_high/specs/Done.antt": (
        "-- done\npub use Rattle.mq_high.specs.Far.{Far}\n\nabbrev pub IsDone : ℕ → Type"
        f" 0\nIsDone n = n ≡ 1\n\nabbrev pub Sound : Type 0\nSound = IsDone 1\n\n-- {'ℕ' * 97}\n--"
        f" {'n' * 98}\n"
    ),
    "crates/mq_low/specs/Low.antt": (
        "-- low\npub use Rattle.mq_high.specs.Done.{IsDone}\n\n{- no more:\nIsDone : ℕ -}\nmodule"
        " _\n    (n : ℕ)\n    (m : ℕ) where\n  abbrev pub Sound : Type 0\n  Sound = n ≡ m\n   "
        " where\n    IsDone : ℕ\n    IsDone = n\n\npub record Row : Type 0 where\n  IsDone : ℕ\n"
    ),
    NAMED_TWICE: "# The names.\nSound: mq_high/Done mq_low/Low\n",
    LONG_LINES: "# The lines.\nmq_high/specs/Done.antt: 1\n",
    # (a function without a body that has one more than ten, and one that has ten, with a closure)
    "crates/mq_low/src/wide.rt": (
        "//! What is wide.\npub trait Wide {\n    fn ask(&self) -> u8\n        requires { 1 ≡ 1"
        f" }}\n{TEN_CLAUSES};\n}}\n\nimpl Wide for Low {{\n    // ensures so {{ 1 ≡ 1 }}\n    fn"
        f" tell(&self) -> u8\n{TEN_CLAUSES}\n    {{\n        let same = |at| -> u8\n           "
        " ensures { result ≡ at }\n        {\n            at\n        };\n        same(1)\n   "
        " }\n}\n"
    ),
    LONG_CONTRACTS: "# The contracts.\nmq_low/src/wide.rt: Wide::ask 11\n",
    "crates/mq_low/src/order.rt": (
        "//! Orders.\npub const MOST: u8 = 1;\n\npub fn least() -> u8 {\n    MOST\n}\n\npub fn"
        " timed() {}\n\npub struct Order;\n"
    ),
    "bench/time/main.rattle": "use mq_low::timed;\n",
    "crates/mq_low/src/laws.rt": "//! Laws.\npub fn always() {}\n",
    TAKEN_BY_NONE: "# What is handed out.\nmq_high: call\nmq_low: least\n",
    "crates/mq_lemmas/src/lib.rt": (
        "//! Lemmas. From `mq_lemmas/proofs/Both.antt`:\n//!\n//!     both true = refl\n//!\n//! It"
        " stands on no crate of ours. Begin with that.\n"
    ),
    "crates/mq_lemmas/proofs/Both.antt": (
        "pub both : (b : Bool) → b ≡ b\nboth true = refl\nboth false = refl\n"
    ),
    # (the same words of other things, and answers to the goals of two functions)
    "crates/mq_low/proofs/Sound.antt": (
        "use Rattle.mq_low.specs.Low.{Sound}\n\nabbrev Far : Type 0\nFar = Sound\n\nsound : Sound"
        " 1\nsound = refl\n\nfar : (x : Far) → x ≡ x\nfar x = refl\n"
    ),
    "crates/mq_high/proofs/Sound.antt": (
        "use Rattle.mq_high.specs.Done.{Sound}\n\nabbrev Far : Type 0\nFar = Sound\n\nsound : Sound"
        " 1\nsound = refl\n\nmodule _ (n : ℕ) where\n  far : (x : Far) → x ≡ x\n  far x = refl\n"
    ),
    "crates/mq_high/proofs/call/Answers.antt": (
        "use Rattle.mq_high.proofs.call.Goals as goal\n\nreturns : goal.returns\nreturns c = refl\n"
    ),
    "crates/mq_low/proofs/low/Answers.antt": (
        "use Rattle.mq_low.proofs.low.Goals as goal\n\nreturns : goal.returns\nreturns c = refl\n"
    ),
}
TREE.update(completion.made(TREE[SUBCOMMANDS]))
WRONG = [
    ("docs/GATE.md", "make check", "make nothing", commands.known),
    ("CONTRIBUTING.md", "| a call |", "| `make nothing` |", commands.known),
    ("README.md", "1 wrong", "2 wrong", refused),
    ("README.md", "about", "over", refused),
    ("crates/mq_low/must-fail/low.edit", '"after"', '"before"', applied),
    ("crates/mq_low/must-fail/low.edit", 'old:     "after"', "old: Low.", applied),
    ("tests/bodies/mq_low/bar.edit", "lib.rt", "low.rt", applied),
    ("tests/bodies/docs/gate.edit", "old: A gate", "old: The gate", applied),
    (last_runs.FILE, ", b", "", noted),
    (last_runs.FILE, ", 2 failed: mq_low/a, b", ", one failed", noted),
    (last_runs.FILE, "make edits", "make wrong", noted),
    (last_runs.FILE, "3 tried", "1 tried", noted),
    ("crates/mq_low/src/lib.rt", "//!     low(1)", "//!     low(2)", pages),
    ("crates/mq_low/src/lib.rt", "on no crate of ours", "on `mq_high`", pages),
    ("crates/mq_high/src/lib.rt", "on `mq_low`", "on no crate of ours", pages),
    ("crates/mq_high/src/lib.rt", "Begin with", "Look at", pages),
    ("crates/mq_high/src/high.rt", "//! What is high.", "", pages),
    ("crates/mq_high/src/lib.rt", "on `mq_low`", "on `thiserror`", pages),
    ("docs/crates.svg", ">mq_low<", ">mq_lower<", drawn),
    ("docs/crates.svg", ">low<", ">high<", drawn),
    ("docs/ARCHITECTURE.md", "| `mq_low` | words |\n", "", listed, drawn),
    ("docs/ARCHITECTURE.md", "| `mq_low` |", "| `mq_lower` |", listed, drawn),
    (
        "docs/ARCHITECTURE.md",
        "| `mq_high` | words |",
        "| `mq_low` | words |\n| `mq_high` | words |",
        listed,
        drawn,
    ),
    (
        "docs/ARCHITECTURE.md",
        "| **low** | |\n| `mq_lemmas` | words |\n| `mq_low` | words |\n| **high** | |\n| `mq_high`",
        "| **high** | |\n| `mq_high` | words |\n| **low** | |\n| `mq_lemmas` | words |\n| `mq_low`",
        layered,
        drawn,
    ),
    ("crates/mq_high/src/high.rt", "crate::steps", "crate::log", circles),
    ("crates/mq_high/src/steps.rt", "super::high::rise()", "// super::high::rise()", circles),
    ("crates/mq_high/src/high.rt", "steps::{STEPS, Steps}", "{log, steps::{self, Steps}}", circles),
    (
        "crates/mq_high/src/high.rt",
        "crate::steps::{STEPS, Steps};",
        "crate::{high::{High}, steps::{self}};\nmod log;\n#[cfg(test)]\nmod tests;",
    ),
    (CIRCLES, "mq_high: high steps\n", "", circles),
    (CIRCLES, "high steps", "high log steps", circles),
    ("crates/mq_low/specs/Low.antt", "{- no more:", "", defined_once),
    ("crates/mq_low/specs/Low.antt", "record Row", "record IsDone", defined_once),
    ("crates/mq_low/specs/Low.antt", "  abbrev pub Sound", "  pub IsDone", defined_once),
    ("crates/mq_low/specs/Low.antt", "    where\n    IsDone", "\n  IsDone", defined_once),
    ("crates/mq_low/specs/Low.antt", "pub Sound", "pub Loud", defined_once),
    (NAMED_TWICE, "Sound: mq_high/Done mq_low/Low\n", "", defined_once),
    (NAMED_TWICE, " mq_low/Low", "", defined_once),
    (NAMED_TWICE, "mq_low/Low", "mq_low/Low mq_low/Lower", defined_once),
    (NAMED_TWICE, "mq_low/Low\n", "mq_low/Low\nIsDone: mq_high/Done\n", defined_once),
    (
        "crates/mq_low/src/wide.rt",
        "{ 1 ≡ 1 }\n",
        "{ 1 ≡ 1 }\n        requires* so { 1 ≡ 1 }\n",
        contracts_fit,
    ),
    ("crates/mq_low/src/wide.rt", "        requires { 1 ≡ 1 }\n", "", contracts_fit),
    ("crates/mq_low/src/wide.rt", "// ensures", "/// ensures"),
    (
        "crates/mq_low/src/wide.rt",
        "tell(&self) -> u8\n",
        "tell(&self) -> u8\n        requires { 1 ≡ 1 }\n",
        contracts_fit,
    ),
    ("crates/mq_low/src/wide.rt", "fn ask", "fn asked", contracts_fit),
    (LONG_CONTRACTS, "mq_low/src/wide.rt: Wide::ask 11\n", "", contracts_fit),
    (LONG_CONTRACTS, "ask 11", "ask 12", contracts_fit),
    (LONG_CONTRACTS, "ask 11", "ask 10", contracts_fit),
    (LONG_CONTRACTS, "ask 11\n", "ask 11\nmq_low/src/wide.rt: LowWide::tell 10\n", contracts_fit),
    (LONG_CONTRACTS, "ask 11\n", "ask 11\nmq_lower/src/wide.rt: Wide::ask 11\n", contracts_fit),
    ("crates/mq_high/specs/Done.antt", "-- ℕ", "--  ℕ", specs_fit),
    ("crates/mq_high/specs/Done.antt", "-- n", "n", specs_fit),
    ("crates/mq_low/specs/Low.antt", "no more", "more " * 20, specs_fit),
    (LONG_LINES, "mq_high/specs/Done.antt: 1\n", "", specs_fit),
    (LONG_LINES, "Done.antt: 1", "Done.antt: 2", specs_fit),
    (LONG_LINES, "Done.antt: 1\n", "Done.antt: 1\nmq_low/specs/Low.antt: 0\n", specs_fit),
    ("crates/mq_high/src/lib.rt", "{MOST, low}", "low", taken),
    (
        "crates/mq_high/src/lib.rt",
        "use mq_low::{MOST, low};\n",
        "use mq_low::{MOST, least, low};\n",
        taken,
    ),
    ("crates/mq_high/src/lib.rt", "use mq_low::", "use crate::", taken),
    ("crates/mq_low/src/lib.rt", "least, ", "", taken),
    ("crates/mq_low/src/lib.rt", "mod order;", "pub mod order;", taken),
    ("bench/time/main.rattle", "timed", "Timed", taken),
    (TAKEN_BY_NONE, "mq_low: least\n", "", taken),
    (TAKEN_BY_NONE, "least", "least MOST", taken),
    (TAKEN_BY_NONE, "least\n", "least\nmq_lemmas:\n", taken),
    ("CONTRIBUTING.md", "`call`", "`calls`", sent_to),
    ("CONTRIBUTING.md", "`done`", "`well`", sent_to),
    ("CONTRIBUTING.md", "specs/Done", "specs/Gone", sent_to),
    ("docs/PROOFS.md", "`low`", "`lower`", carriers),
    ("docs/PROOFS.md", "`low`", "`call`", carriers),
    ("docs/PROOFS.md", "`done`", "`well`", carriers),
    ("docs/PROOFS.md", "specs/Done", "specs/Gone", carriers),
    ("docs/PROOFS.md", "### mq_high", "### mq_higher", carriers),
    ("docs/GATE.md", "A gate.", "A gate, " + "and more " * 12, columns),
    ("man/mailquota-go.8", ".Op Fl -far\n", "", manual),
    ("man/mailquota-go.8", ".Op Fl -far\n", ".Op Fl -far\n.Op Fl -near\n", manual),
    ("man/mailquota-go.8", ".Cm stay", ".Cm leave", manual),
    ("man/mailquota-go.8", ".It Fl -far\n", "", manual),
    (
        "man/mailquota.8",
        ".Fl -help | Fl -version",
        ".Fl -help | Fl -version\n.Nm\n.Cm stay",
        manual,
    ),
    ("man/mailquota.8", ".It Cm stay\n", "", manual),
    ("man/mailquota.8", ".It Cm go", "word " * 7_200 + "\n.It Cm go", manual),
    (SUBCOMMANDS, 'name: "far-off"', 'name: "farther"', manual, completed),
    (completion.BASH, "--far-off", "--farther", completed),
    (completion.ZSH, "go:", "gone:", completed),
    ("man/mailquota.8", "too far , ", "", diagnostics),
    ("man/mailquota.8", "used N", "is used", diagnostics),
    ("man/mailquota.8", "too far , ", "too far , too far , ", diagnostics),
    ("man/mailquota.8", "too far , ", "farther , farther , too far , ", diagnostics),
    ("crates/mq_command/src/fault.rt", "no day; copy", "no day; take", diagnostics),
    (VERSION, "1.2.3", "1.2.4", versions),
    ("CHANGELOG", "1.2.3", "1.2.4", versions),
    ("CHANGELOG", "Not released yet\n", "1.2.4, 2 May 2026\n", versions),
    ("debian/changelog", "1.2.3", "1.2.4", versions),
    ("NOTICE", "thiserror", "another", noticed),
    ("man/mailquota-go.8", "1,000", "1,001", figures),
    ("man/mailquota-go.8", "default 20", "default 2", figures),
    ("man/mailquota-go.8", "by default", "usually", figures),
    ("crates/mq_high/src/steps.rt", "1_001", "1_000", figures),
    ("crates/mq_high/src/steps.rt", "read(2", "read(3", figures),
    ("crates/mq_high/src/steps.rt", "const STEPS", "const PACES", figures),
    ("man/mailquota-go.8", "mx1: gone by", "mx1: gone in", logged),
    ("man/mailquota-go.8", "Li host mx1", "Li hosts mx1", logged),
    ("man/mailquota-go.8", "at last", "at least", logged),
    ("man/mailquota-go.8", ", gone by 1", ", gone by some", logged),
    ("man/mailquota-go.8", "mx2: gone by", "mx2: gone in", logged),
    ("man/mailquota-go.8", "by 5 steps", "by 5 paces", logged),
    ("man/mailquota-go.8", "gone by N", "gone in N", logged),
    ("man/mailquota-go.8", "lqhost", "lqhosts", logged),
    ("crates/mq_high/src/log.rt", "host {host}", "{host}", logged),
    ("crates/mq_high/src/log.rt", "warn!", "info!", logged),
    (WATCHED, "gone\n  by", "gone\n  in", logged),
    (WATCHED, "` steps`", "` paces`", logged),
    (WATCHED, "; WARN", "; INFO", logged),
    ("crates/mq_low/src/lib.rt", "pub fn low(at: u8)", "pub fn low(seq: u8)", names),
    ("crates/mq_low/src/lib.rt", "pub fn low(at: u8)", "pub fn low(at: u64)", names),
    ("crates/mq_high/specs/Done.antt", "IsDone n = n", "IsDone txn at login = txn", names),
    ("crates/mq_high/specs/Done.antt", "IsDone n = n", "IsDone seq' = seq'", names),
    (
        "crates/mq_high/src/lib.rt",
        "    low(1)\n}",
        "    low(1);\n    low(CloseEnd::Drop)\n}",
        names,
    ),
    (
        "crates/mq_high/src/lib.rt",
        "    low(1)\n}",
        "    low(1);\n    low(Standing::Login { name })\n}",
        names,
    ),
    ("crates/mq_high/specs/Done.antt", "n ≡ 1", "n.ceilings ≡ 1", names),
    ("crates/mq_high/src/lib.rt", "pub fn call(", "use crate::faults;\npub fn call(", names),
    ("crates/mq_high/specs/Done.antt", "IsDone n", "use Low.{Done as ADone}\nIsDone n", names),
    ("crates/mq_lemmas/src/lib.rt", "both true", "both so", pages),
    (
        "crates/mq_low/proofs/Sound.antt",
        "far : ",
        "both : (b : Bool) → b ≡ b\nboth true = refl\nboth false =\n    refl\n\nfar : ",
        standing_twice,
    ),
    ("crates/mq_low/proofs/Sound.antt", "mq_low.specs.Low", "mq_high.specs.Done", standing_twice),
    (
        "crates/mq_low/proofs/Sound.antt",
        "far x = refl",
        "far x = refl\n\nmodule _ (n : ℕ) where\n  far : (x : Far) → x ≡ x\n  far x = refl",
        standing_twice,
    ),
    (
        "crates/mq_low/proofs/low/Answers.antt",
        "mq_low.proofs.low",
        "mq_high.proofs.call",
        standing_twice,
        taken,
    ),
]


# Lists that say something else, and what is left of that once what was mended is taken from them.
LEFT = [
    (NAMED_TWICE, " mq_low/Low", " mq_low/Low mq_lower/Low", " mq_low/Low"),
    (NAMED_TWICE, "Sound", "Sounds: mq_high/Done mq_low/Low\nSound", "Sound"),
    (LONG_CONTRACTS, "ask 11", "ask 12", "ask 11"),
    (
        LONG_CONTRACTS,
        "mq_low/src/wide.rt: Wide::ask 11\n",
        "mq_low/src/wide.rt: Wide::tell 11\n",
        "",
    ),
    (LONG_CONTRACTS, "ask 11\n", "ask 11\nmq_low/src/wide.rt: LowWide::tell 11\n", "ask 11\n"),
    (LONG_LINES, "Done.antt: 1", "Done.antt: 3", "Done.antt: 1"),
    (LONG_LINES, "Done.antt: 1\n", "Done.antt: 1\nmq_low/specs/Low.antt: 1\n", "Done.antt: 1\n"),
    (TAKEN_BY_NONE, "least", "MOST least", "least"),
    (TAKEN_BY_NONE, "mq_low: least\n", "mq_low: MOST\n", ""),
]


def write(tree, file, text):
    os.makedirs(os.path.dirname(f"{tree}/{file}"), exist_ok=True)
    with open(f"{tree}/{file}", "w", encoding="utf-8") as it:
        it.write(text)


def own_test():
    """Yields of each wrong thing whether its checks, and no other, find it."""
    with tempfile.TemporaryDirectory(prefix="prose-") as tree:
        for file, text in TREE.items():
            write(tree, file, text)
        for file, old, new, *checks in [("docs/GATE.md", "A gate", "A gate"), *WRONG]:
            write(tree, file, TREE[file].replace(old, new, 1))
            found = {it.__name__ for it in CHECKS if any(wrong for _, wrong in it(tree))}
            write(tree, file, TREE[file])
            wanted = {it.__name__ for it in checks}
            yield f"{new!r} in {file}", (
                []
                if old in TREE[file] and found == wanted
                else [f"it is found by {sorted(found)}, and not by {sorted(wanted)}"]
            )
        for file, old, new, left in LEFT:
            write(tree, file, TREE[file].replace(old, new, 1))
            shrink(tree)
            found, wanted = read(tree, file), TREE[file].replace(old, left, 1)
            write(tree, file, TREE[file])
            yield f"what is left of {new!r} in {file}", (
                [] if old in TREE[file] and found == wanted else [f"it is {found!r}"]
            )


def main():
    parser = argparse.ArgumentParser(
        description=__doc__, formatter_class=argparse.RawDescriptionHelpFormatter
    )
    parser.add_argument(
        "tree",
        metavar="TREE",
        nargs="?",
        default=TOP,
        help="by default the one that this file is in",
    )
    parser.add_argument(
        "--shrink",
        action="store_true",
        help="take what was mended from the lists beside this of what is left",
    )
    given = parser.parse_args()
    if given.shrink:
        shrink(given.tree)
    return status_of(itertools.chain(own_test(), *(it(given.tree) for it in CHECKS)))


if __name__ == "__main__":
    sys.exit(main())
