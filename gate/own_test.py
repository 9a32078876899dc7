"""The test of the rounds themselves, over a crate of five functions: what must not pass for refused
doesn't."""
import os
import tempfile
import unittest

from prover import Crate, Ran, Told
from rounds import Result, Rounds

SOURCE = """\
//! Counting up to a hundred.
#![tactic(auto)]
ghost use Rattle.std.specs.Prelude.{◌≡◌, ◌≤◌, ◌+◌, IfSome, length};
ghost use Rattle.counting.specs.Levels.{any_loud};

const MOST: u32 = 100;

/// The most.
pub fn most() -> u32
    ensures { result ≡ 100 }
{
    MOST
}

/// The next number, where it is not above the most.
pub fn next(number: u32) -> u32
    ensures { result ≤ 100 }
{
    if number < LAST {
        number + 1
    } else {
        most()
    }
}

const LAST: u32 = 100;

/// Twice the number.
pub fn twice(number: u8) -> u16
    ensures { result ≡ number + number }
{
    u16::from(number) + u16::from(number)
}

/// The level after.
pub fn after(level: u8) -> u16
    ensures above { level ≤ result }
    ensures near { result ≤ level + 1 }
{
    u16::from(level) + 1
}

/// Whether a level is above 90, where there are few.
pub fn loud(levels: &[u8]) -> Option<bool>
    ensures found { IfSome result (λ it. it ≡ any_loud levels.now) }
    ensures few { IfSome result (λ _. length levels.now ≤ 99) }
{
    if levels.len() < 100 {
        Some(levels.iter().any(|level| *level > 90))
    } else {
        None
    }
}
"""
LEVELS = """\
use Rattle.std.specs.Prelude.{ℕ, Bool, false, ◌||◌, List, [], ◌∷◌, nat_lt}

-- some level is above 90
abbrev pub any_loud : List ℕ → Bool
any_loud [] = false
any_loud (x ∷ xs) = nat_lt 90 x || any_loud xs
"""
ANSWERS = """\
use Rattle.std.proofs.Common.{ℕ, ◌<◌, ◌≤◌, Bool, true, false, ltb, List, length, Decides, MatchBool, refl, arith, rules, tests}
use Rattle.std.specs.List.{HoldsAt, AllWithin}
use Rattle.std.proofs.lemmas.Iterator.{cases_from_any, YieldsList-from_slice}
use Rattle.std.proofs.lemmas.Bool.{false≢true}
use Rattle.std.proofs.lemmas.Bool.Decides.{same_from_decides, Decides-by_or, Decides-ltb}
use Rattle.counting.specs.Levels.{any_loud}
use Rattle.counting.proofs.loud.Goals as goal

abbrev HasLoud : List ℕ → Type 0
HasLoud xs = (k : ℕ) × (k < length xs) × HoldsAt (λ x. 90 < x) xs k

Decides-from_cases : (r : Bool) (xs : List ℕ) → MatchBool r (HasLoud xs) (AllWithin (λ x. x ≤ 90) xs 0 (length xs)) → Decides r (HasLoud xs)
Decides-from_cases true xs h = (λ _. h, λ _. refl)
Decides-from_cases false xs h =
    (λ e. absurd (false≢true e), λ w. absurd (omega (arith, h w.0 0 (omega arith) w.1, w.2 0)))

pub returns-then-levels-lt100-clause-found : goal.returns-then-levels-lt100-clause-found
returns-then-levels-lt100-clause-found c =
    let xs = c.args.levels.now in
    let by_call = cases_from_any _ _ _ (λ x. 90 < x) (λ x. x ≤ 90) c.any.ensures.ran (YieldsList-from_slice xs cc) (λ x q k. search (rules, tests))
        (λ x q k. search (rules, tests)) in
    let by_spec = Decides-by_or (ltb 90) (λ x. 90 < x) any_loud (Decides-ltb 90) refl (λ _ _. refl) xs in
    same_from_decides _ (any_loud xs) (Decides-from_cases _ xs by_call) by_spec
"""
FILES = {
    "crates.txt": "counting:\n",
    "crates/counting/src/lib.rt": SOURCE,
    "crates/counting/specs/Lib.antt": "pub mod Levels\n",
    "crates/counting/specs/Levels.antt": LEVELS,
    "crates/counting/proofs/loud/Answers.antt": ANSWERS,
}

TRIPLES = (
    "old: u16::from(number) + u16\nnew: if number > 2 { return u16::from(number) + 3; }"
    " u16::from(number) + u16"
)
# Each group of edits is a crate's: the name, its text after the file's line, whether it must count
# as refused, and words of what must be said of it.
GROUPS = [
    [
        (
            "adds_one",
            "old: u16::from(number) + u16\nnew: u16::from(number) + 1 + 0 * u16",
            True,
            "refused, as it must be",
        ),
        (
            "adds_two",
            "old: u16::from(number) + u16\nnew: u16::from(number) + 2 + 0 * u16",
            True,
            "refused, as it must be",
        ),
        ("is_harmless", "old: number + 1\nnew: 1 + number", False, "NOT REFUSED"),
        ("is_harmless_too", "old: number < LAST\nnew: LAST > number", False, "NOT REFUSED"),
        (
            "does_not_compile",
            "function: most\nold: LAST: u32 = 100\nnew: LAST: u32 = true",
            False,
            "BAD EDIT",
        ),
        ("is_nowhere", "old: number + 9\nnew: 7", False, "BAD EDIT: an 'old:' text"),
        (
            "names_no_function",
            "old: LAST: u32 = 100\nnew: LAST: u32 = 101",
            False,
            "BAD EDIT: what it changes lies in no function",
        ),
    ],
    [
        # Over the first edit the second one is right, and alone it is wrong.
        (
            "hides_another",
            "function: most\nold: LAST: u32 = 100\nnew: LAST: u32 = 99",
            False,
            "NOT REFUSED",
        ),
        ("is_hidden", "old: number + 1\nnew: number + 2", True, "refused, as it must be"),
        ("is_not_seen", "old: number + 1\nnew: 7", False, "NOT REFUSED"),
        (
            "spoils_an_unedited_function",
            "function: next\nold: MOST: u32 = 100\nnew: MOST: u32 = 101",
            False,
            "NOT REFUSED",
        ),
        ("most", None, False, "refused, though no edit of its round changes it"),
    ],
    [
        # With fewer levels it still says the truth: the goal has another name, and the answer fits
        # it.
        (
            "gives_up_above_ten",
            "old: levels.len() < 100\nnew: levels.len() < 10",
            False,
            "is true, and only without an answer",
        ),
        (
            "adds_a_wrong_way",
            "old: if number < LAST\nnew: if number == 7 { return 101; } if number < LAST",
            True,
            "one can't hold there",
        ),
        # (of 3 it is right)
        ("may_be_wrong", TRIPLES, False, "a case that refuses the body is to be named"),
        ("has_a_case", f"case: rows: a row\n{TRIPLES}", True, "and rows: a row refuses the body"),
        (
            "has_a_case_elsewhere",
            f"case: columns: a column\n{TRIPLES}",
            False,
            "BAD EDIT: it names a case of what isn't there",
        ),
    ],
    [
        # Against the one clause that each names, and where that holds against both.
        (
            "is_too_far",
            "clause: near\nold: u16::from(level) + 1\nnew: u16::from(level) + 2",
            True,
            "_copy",
        ),
        (
            "is_too_far_for_another_clause",
            "clause: above\nold: u16::from(level) + 1\nnew: u16::from(level) + 3",
            True,
            "fn counting::after: ",
        ),
        ("is_before", "clause: above\nold: u16::from(level) + 1\nnew: 1", True, "_copy"),
        (
            "is_the_number",
            "clause: near\nold: u16::from(level) + 1\nnew: u16::from(level)",
            False,
            "NOT REFUSED",
        ),
        ("is_loud_above_89", "clause: found\nold: *level > 90\nnew: *level > 89", True, "_copy"),
        (
            "names_no_clause",
            "clause: far\nold: u16::from(level) + 1\nnew: u16::from(level) + 2",
            False,
            "BAD EDIT: after has no clause far",
        ),
    ],
    [
        (
            "is_of_what_was_not_proved",
            "function: never\nold: u16::from(number) + u16\nnew: 1 + u16",
            False,
            "BAD EDIT: never is none of",
        )
    ],
]
# What the prover says of a function, and whether it is refused for itself by that.
LINES = [
    (
        (
            "no proof: expected answers in ./proofs/next/Answers.antt; `search` did not prove"
            " `returns`; it calls `counting::most`, which is not proved"
        ),
        True,
    ),
    (
        (
            "not proved; it stands on `Rattle.counting.proofs.next.Answers.returns`, which antt"
            " refuses"
        ),
        True,
    ),
    ("not proved; it calls `counting::most`, which is not proved", False),
    (
        (
            "no proof: the borrow checker's part in its proof is not made yet: a call of"
            " `counting::most`, which has no proof"
        ),
        False,
    ),
    (
        (
            "no proof: expected `next_spec` in ./proofs/next/Proof.antt; the borrow checker does"
            " not cover this function yet"
        ),
        False,
    ),
    ("depends on a hole in `Rattle.counting.proofs.Taken.taken`", False),
    ("no holes", False),
]
# The functions of the crate that are told proved as they stand.
PROVED = ["most", "next", "twice", "after", "loud"]


class RoundsTest(unittest.TestCase):
    """Has the rounds try edits whose end is known, and finds of each whether what they say of it is
    right."""

    # the name by which the gate tells of it, and the processor seconds of its checks
    name, seconds = "gate", 0.0

    def test_lines(self):
        for why, is_refused in LINES:
            with self.subTest(why):
                told = Told(Ran(1, f"fn counting::next: {why}\nonly=1 holes=1\n", 0.0), "counting")
                self.assertTrue(told.ended)
                self.assertEqual(told.refused.keys() == {"next"}, is_refused)

    def test_edits(self):
        for group in GROUPS:
            said = {it.name.partition("/")[2].partition(".")[0]: it for it in self.tried(group)}
            for name, _, is_refused, words in group:
                with self.subTest(name):
                    it = said.pop(name, Result(not is_refused, name, "nothing"))
                    self.assertEqual(it.is_well, is_refused, it.said)
                    self.assertIn(words, it.said)
            self.assertEqual(said, {}, "told of, and not asked for")

    def tried(self, group):
        """Returns what the rounds say of a group of edits."""
        with tempfile.TemporaryDirectory(prefix="edits-own-") as root:
            place = f"{root}/crates/counting/must-fail"
            edits = {
                f"{place}/{name}.edit": f"file: src/lib.rt\n{text}\n"
                for name, text, _, _ in group
                if text
            }
            for file, text in {
                **{f"{root}/{path}": text for path, text in FILES.items()},
                **edits,
            }.items():
                os.makedirs(os.path.dirname(file), exist_ok=True)
                with open(file, "w", encoding="utf-8") as it:
                    it.write(text)
            rounds = Rounds(Crate(root, "counting"), place, lambda _: PROVED, {"rows"})
            rounds.run()
        RoundsTest.seconds += rounds.seconds
        return rounds.results


if __name__ == "__main__":
    unittest.main()
