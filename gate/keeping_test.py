"""The test of what the gate keeps: over a small tree, and a kit that proves nothing and notes what
it is asked for, one byte after the other is changed, and exactly what reads it is to be tried
again."""
import os
import shutil
import sys
import tempfile
import time
import unittest

from prover import run

TOP = os.path.dirname(os.path.dirname(os.path.realpath(__file__)))
# So many seconds a run over the small tree takes at most.
LONGEST = 120

# A function is right where its body has a 1. A library is what its sources and specs say, but for
# comments.
SOURCE = "pub fn {name}() -> u8 {{ 1 }}\npub fn {name}_witness() -> u8 {{ 1 }}\n"
EDIT = "file: src/lib.rt\nold: {name}() -> u8 {{ 1 }}\nnew: {name}() -> u8 {{ 2 }}\n"
CASES = (
    "import os\nopen(os.environ['NOTED'], 'a').write('{name}\\n')\nprint('2 passed, 0 failed')\n"
)
GROUPS = """\
import os, sys
first = [it for it in sys.argv[2:] if sys.argv[1] == "--unproved"]
open(os.environ["NOTED"], "a").write("".join(f"first {it}\\n" for it in first) or "cases\\n")
broken = [it for it in first if it == os.environ.get("BROKEN")]
for it in first or ["cases"]:
    print(f"NOT {it}: 1 passed, 1 failed, 0 s" if it in broken else f"ok  {it}: 2 passed, 0 s")
if sys.argv[1] == "--over" and "1.1.0 (" not in open(sys.argv[2]).read():
    sys.exit("the program's version has no commit")
print(f"{2 * len(first or ['cases']) - len(broken)} passed, {len(broken)} failed")
sys.exit(len(broken))
"""
TEST = """\
import os
import unittest

class {name}(unittest.TestCase):
    name, seconds = "{name}", 0.0

    def test(self):
        open(os.environ['NOTED'], 'a').write('{name}\\n')
"""
FILES = {
    "crates.txt": "low:\nhigh: low\nmailquota: low\nmq_store_tests: low\n",
    "HANDLES": "Handles allowed: none.\n",
    "crates/low/src/lib.rt": SOURCE.format(name="low"),
    "crates/low/specs/Lib.antt": "is_one\n",
    "crates/low/must-fail/low.edit": EDIT.format(name="low"),
    "crates/low/further/witness.edit": EDIT.format(name="low_witness"),
    "crates/high/src/lib.rt": SOURCE.format(name="high"),
    "crates/high/proofs/high.antt": "by one\n",
    "crates/high/must-fail/high.edit": "case: peers: one\n" + EDIT.format(name="high"),
    "crates/high/must-fail/witness.edit": EDIT.format(name="high_witness"),
    "crates/mailquota/src/main.rt": "main\n",
    "crates/mailquota/src/version.rt": 'pub const VERSION: &str = "1.1.0";\n',
    "crates/mq_store_tests/src/lib.rt": "test\n",
    "scripts/tests.py": "tests\n",
    "contrib/smtpd.conf": "listen\n",
    "docs/GATE.md": "The gate.\n",
    "tests/run.py": GROUPS,
    "tests/program/cases/peers.py": "peers\n",
    "tests/model/ledger.py": "ledger\n",
    "tests/refusals/run.py": CASES.format(name="refusals"),
    "tests/near_the_end/run.py": "near\n",
    "tests/near_the_end/low/low.rt.in": "near\n",
    "tests/prose/run.py": "print('1 passed, 0 failed')\n",
    "gate/own_test.py": TEST.format(name="RoundsTest"),
    "gate/keeping_test.py": TEST.format(name="KeepingTest"),
    "kit/KIT-ID": "kit 1\n",
    "COMMIT": "0123456789012345678901234567890123456789\n",
}
# `rt ci` builds each crate; of one whose library's text it has built before it says that it is
# kept, and so of what an earlier run told proved.
COMMANDS = {
    "rt": """\
import hashlib, os, re, sys
if sys.argv[1] == "help":
    print("--anew")
    sys.exit()
if sys.argv[1] == "check":
    for it in re.findall(r"fn (\\w+)", open("src/lib.rt").read()):
        print(f"fn {os.path.basename(os.getcwd())}::{it}: proved")
    sys.exit()
kit = os.path.dirname(os.path.dirname(os.path.abspath(__file__)))
kept, whole = f"{kit}/kept", "".join(open(it).read() for it in ("HANDLES", f"{kit}/KIT-ID", f"{kit}/bin/rattle"))
os.makedirs(kept, exist_ok=True)
built = {}
for crate, uses in re.findall(r"^(\\w+):(.*)", open("crates.txt").read(), re.M):
    below = "".join(built.get(it, "") for it in uses.split())
    read = lambda part: "".join(open(f"{at}/{it}").read() for at, _, names in os.walk(f"crates/{crate}/{part}") for it in sorted(names))
    text = re.sub(r"//.*\\n", "", read("src") + read("specs"))
    sum_ = hashlib.sha256(repr((whole, crate, uses, below, read("src"), read("specs"), read("proofs"))).encode()).hexdigest()
    rlib = f"crates/{crate}/out/rlib/{crate}.rlib"
    os.makedirs(rlib)
    for file in (f"{rlib}/format", *(f"crates/{crate}/out/mailquota{it}" for it in ("", ".by-rattle") if crate == "mailquota")):
        open(file, "w").write(below + text)
    built[crate] = below + text
    if os.path.exists(f"{kept}/{sum_}") and "--anew" not in sys.argv:
        print(f"rt: {crate} is kept: an earlier run on this machine proved the same files over the same libraries")
        continue
    open(f"{kept}/{sum_}", "w").close()
    print(f"== {crate}")
    for it in re.findall(r"fn (\\w+)", text):
        print(f"fn {crate}::{it}: proved")
    print(f"rt: {crate} proved")
print("3 passed, 0 failed")
""",
    "rattle": """\
import os, re, resource, sys
# (the gate lets it write no file)
resource.setrlimit(resource.RLIMIT_FSIZE, (resource.getrlimit(resource.RLIMIT_FSIZE)[1],) * 2)
crate, asked = sys.argv[sys.argv.index("--crate-name") + 1], [it for word, it in zip(sys.argv, sys.argv[1:]) if word == "--only"]
bodies = dict(re.findall(r"fn (\\w+)\\(\\) -> u8 (.*)", open("src/lib.rt").read()))
wrong = [it for it in asked or bodies if "1" not in bodies[it]]
missed = os.environ.get("MISSED", "")
for it in asked or bodies:
    print(f"fn {crate}::{it}: {'not proved' if it in wrong and it != missed else 'proved'}")
open(os.environ["NOTED"], "a").write("".join(f"{it}\\n" for it in wrong) or f"{crate}, as it stands\\n")
print(f"only={len(asked)} holes=1")
sys.exit(1 if wrong and wrong != [missed] else 0)
""",
}

# The last line of a gate over this tree.
PASSED = "25 passed, 0 failed"
EDITS = ["high", "high_witness"]
IN_RATTLE = ["first near_the_end_low", "first mq_store_tests"]
UNPROVED = ["first program", "first refused_allocations"]
FIRST = [*IN_RATTLE, "first model", *UNPROVED]
PROVED = ["cases", "cases", "refusals"]
CASES_ALONE = ["first program", "cases", "cases"]
OTHERS = [*FIRST, *PROVED]
OWN = ["RoundsTest", "KeepingTest"]
ALL = ["low", *EDITS, *OTHERS, *OWN]
OF_KIT = ["low", *EDITS, *FIRST, *OWN]
# What is changed, the file, its old and its new text, and what is to be tried again.
CHANGES = [
    ("a source", "crates/high/src/lib.rt", "pub fn high_w", "pub  fn high_w", EDITS),
    (
        "a comment of a library",
        "crates/low/src/lib.rt",
        "",
        "// as it is\n",
        ["low", *IN_RATTLE, *UNPROVED],
    ),
    (
        "a library",
        "crates/low/src/lib.rt",
        "pub fn low_w",
        "pub  fn low_w",
        ["low", *EDITS, *IN_RATTLE, *UNPROVED, *PROVED],
    ),
    ("a spec", "crates/low/specs/Lib.antt", "is_one", "is_two", ["low", *EDITS, *PROVED]),
    ("a proof", "crates/high/proofs/high.antt", "by one", "by two", EDITS),
    ("an edit", "crates/low/must-fail/low.edit", "{ 2 }", "{ 3 }", ["low"]),
    ("a further edit", "crates/low/further/witness.edit", "{ 2 }", "{ 3 }", []),
    ("an edit's case", "crates/high/must-fail/high.edit", "peers: one", "peers: two", ["high"]),
    ("a row of crates.txt", "crates.txt", "low:\n", "low: hex\n", ["low", *IN_RATTLE, *UNPROVED]),
    ("the handles", "HANDLES", "none", "Net", ["low", *EDITS, *IN_RATTLE, *UNPROVED]),
    ("a script of the gate", "gate/source.py", "", "# as it is\n", ALL),
    ("a test of the gate", "gate/own_test.py", "", "# as it is\n", OWN),
    ("a script that it uses", "scripts/kit.py", "", "# as it is\n", ALL),
    (
        "a case",
        "tests/program/cases/peers.py",
        "peers",
        "peer",
        [*UNPROVED, *PROVED],
    ),
    (
        "what refuses",
        "tests/refusals/run.py",
        "",
        "# as it is\n",
        ["first refused_allocations", "refusals"],
    ),
    ("what a case reads", "contrib/smtpd.conf", "listen", "accept", CASES_ALONE),
    (
        "a test near the end",
        "tests/near_the_end/low/low.rt.in",
        "near",
        "nearer",
        ["first near_the_end_low"],
    ),
    (
        "a test in Rattle",
        "crates/mq_store_tests/src/lib.rt",
        "test",
        "tests",
        ["first mq_store_tests"],
    ),
    (
        "the program",
        "crates/mailquota/src/main.rt",
        "main",
        "main()",
        [*UNPROVED, *PROVED],
    ),
    ("the kit's name", "kit/KIT-ID", "1", "2", OF_KIT),
    ("the prover", "kit/bin/rattle", "import os", "import  os", OF_KIT),
    ("a document", "docs/GATE.md", "gate", "way", CASES_ALONE),
    ("the commit", "COMMIT", "0", "1", []),
]


class KeepingTest(unittest.TestCase):
    """Has the gate run over a small tree as it is changed, and looks at what it tries."""

    # the name by which the gate tells of it, and the processor seconds of its runs
    name, seconds = "keeping", 0.0

    def setUp(self):
        room = tempfile.TemporaryDirectory(prefix="keeping-")
        self.addCleanup(room.cleanup)
        self.room, self.tree, self.cache = room.name, f"{room.name}/tree", f"{room.name}/cache"
        shutil.copytree(
            f"{TOP}/gate", f"{self.tree}/gate", ignore=shutil.ignore_patterns("__pycache__")
        )
        os.mkdir(f"{self.tree}/scripts")
        for it in ("files.py", "kit.py", "last_runs.py", "version.py"):
            shutil.copy(f"{TOP}/scripts/{it}", f"{self.tree}/scripts")
        commands = {
            f"kit/bin/{name}": f"#!{sys.executable}\n{text}" for name, text in COMMANDS.items()
        }
        for path, text in {**FILES, **commands}.items():
            file = f"{self.room}/{path}" if path.startswith("kit/") else f"{self.tree}/{path}"
            os.makedirs(os.path.dirname(file), exist_ok=True)
            with open(file, "w", encoding="utf-8") as it:
                it.write(text)
        for it in COMMANDS:
            os.chmod(f"{self.room}/kit/bin/{it}", 0o755)

    def test_keeping(self):
        self.tries("the first time", ALL)
        self.tries("with no change", [])
        for of, path, old, new, wanted in CHANGES:
            self.change(path, old, new)
            self.tries(of, wanted)
        self.tries("with no further change", [])
        # (each goes on where the one before it ended)
        self.elsewhere()
        self.not_whole()
        self.missed()
        self.ended()

    def change(self, path, old, new):
        file = f"{self.room}/{path}" if path.startswith("kit/") else f"{self.tree}/{path}"
        with open(file, encoding="utf-8") as it:
            text = it.read()
        with open(file, "w", encoding="utf-8") as it:
            it.write(text.replace(old, new, 1) if old else text + new)

    def gate(self, *words, **environment):
        """Runs the gate over the tree, and returns what it tried and what it printed."""
        noted = f"{self.room}/noted"
        with open(noted, "w", encoding="utf-8"):
            pass
        given = {
            "XDG_CACHE_HOME": self.cache,
            "RT": f"{self.room}/kit/bin/rt",
            "NOTED": noted,
            "RT_JOBS": "1",
            **environment,
        }
        ran = run(
            [
                "env",
                *(f"{name}={it}" for name, it in given.items()),
                sys.executable,
                f"{self.tree}/gate/run.py",
                *words,
            ],
            self.room,
            LONGEST,
        )
        KeepingTest.seconds += ran.seconds
        with open(noted, encoding="utf-8") as it:
            return it.read().split("\n")[:-1], ran.said

    def tries(self, of, wanted, *words, last=PASSED, **environment):
        """Looks whether the gate tries this alone, and what its last line is."""
        tried, said = self.gate(*(words or ["gate"]), **environment)
        with self.subTest(of):
            self.assertEqual(
                (sorted(tried), said.split("\n")[-2:]), (sorted(wanted), [last, ""]), said[-2000:]
            )

    def elsewhere(self):
        """Another checkout takes what this one kept; `--from-nothing` takes nothing, and keeps."""
        os.rename(self.tree, f"{self.room}/other")
        self.tree = f"{self.room}/other"
        self.tries("in another checkout", [])
        self.tries("from nothing", ALL, "gate", "--from-nothing")
        self.tries("after that", [])
        self.tries(
            "where nothing can be kept", ALL, "gate", "--from-nothing", XDG_CACHE_HOME="/dev/null"
        )
        self.tries("the edits alone", [], "must-fail", last="3 passed, 0 failed")
        for of, wanted in (("the further edits", ["low_witness"]), ("these, once more", [])):
            self.tries(of, wanted, "further", last="1 passed, 0 failed")

    def not_whole(self):
        """What is cut off, changed or no file counts as none; then rt has proved a crate, and a
        check has to tell its functions."""
        folder = f"{self.cache}/mailquota"
        for number, it in enumerate(sorted(os.listdir(folder))):
            if number % 3 == 2:
                os.remove(f"{folder}/{it}")
                os.mkdir(f"{folder}/{it}")
            else:
                with open(f"{folder}/{it}", "r+", encoding="utf-8") as file:
                    text = file.read()
                    file.seek(0)
                    file.truncate()
                    file.write(
                        text[:-1] if number % 3 else f"{'0' if text[0] != '0' else '1'}{text[1:]}"
                    )
        self.tries(
            "of kept results that aren't whole", [*ALL, "low, as it stands", "high, as it stands"]
        )
        shutil.rmtree(folder)
        self.tries("of no kept results", [*ALL, "low, as it stands", "high, as it stands"])

    def missed(self):
        """A failure is not kept."""
        self.change("crates/low/must-fail/low.edit", "{ 3 }", "{ 4 }")
        for of in ("an edit that isn't refused", "an edit that isn't refused, once more"):
            self.tries(of, ["low"], last="24 passed, 1 failed", MISSED="low")
        self.tries("an edit that is refused now", ["low"])
        self.change("tests/near_the_end/low/low.rt.in", "nearer", "nearest")
        first, last = ["first near_the_end_low"], "10 passed, 1 failed"
        self.tries(
            "a test that fails, and nothing behind it", first, last=last, BROKEN="near_the_end_low"
        )
        self.tries("with a test that passes again", first)

    def ended(self):
        """What is long unused goes, and what was being written when its run was killed; what was
        taken just now stays."""
        folder = f"{self.cache}/mailquota"
        there = {*os.listdir(folder)}
        for name, days in (("unused", 31), ("used", 29), ("new-killed", 1)):
            with open(f"{folder}/{name}", "w", encoding="utf-8"):
                pass
            os.utime(f"{folder}/{name}", (time.time() - days * 24 * 3600,) * 2)
        self.tries("with results that are long unused", [])
        with self.subTest("what is removed"):
            self.assertEqual({*os.listdir(folder)} - there, {"used"})


if __name__ == "__main__":
    unittest.main()
