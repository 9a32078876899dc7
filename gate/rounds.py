"""Tries a crate's must-fail edits many at a time.

A round is one check of the crate over texts in which each function is edited once at most; a
further edit of it is made in a copy (copies.py). A refused function is taken by its contract where
it is called, and of each function the prover says whether a goal of its own was refused, or whether
it only calls or stands on what isn't proved. So an edit is refused where that is said of the very
function that it changes. The functions that a round doesn't edit have holes for proofs there, and
no bodies: they are taken by their contracts, and were proved before.

All this rests on the prover's words, so nothing else is believed of a round: an edit counts only
where its functions were proved as they stand, over the same libraries, and one of a copy only where
a copy without an edit is proved; edits whose functions aren't told of are tried without the others
and at last alone; an unedited function that is refused is a failure, and one of them is asked for
in each round, which no earlier one proved. A check takes what those before it in the run checked of
the crate where nothing of that changed, as specs and statements, and nothing that other runs left.
What a round shows is kept for later runs over the very same files (kept.py), unless a function was
told of that no edit changes.

A refused goal may be true and only without an answer. So an edit that adds a way out of a function,
or takes a goal from its answer, is looked at once more (second.py): it fails where its goals are
true, and where that can't be told it fails unless it names a case that refuses its body.
"""
import re
import tempfile
from collections import namedtuple

from copies import Copy, LawCopy, copy_of
from edit import BadEdit, Edit, edits_in
from prover import Told, is_part
from second import FALSE, TRUE, Look
from source import overlap

# So many copies of laws a round has at most.
MOST_LAWS = 7
# What is to be said of an edit or a crate, and whether it is as it must be.
Result = namedtuple("Result", "is_well name said")


class Killed(Exception):
    """A check was killed, most likely for memory."""


def plain(edit):
    """Returns the edit of the function itself, where this is one of a copy."""
    return edit.edit if is_copy(edit) else edit


def is_copy(edit):
    return isinstance(edit, (Copy, LawCopy))


class Rounds:
    def __init__(self, crate, place, proved, groups=None, kept=None, looks_at_all=False):
        """The edits of the crate that lie in the folder, but for those that are kept. `proved`
        gives the functions that were proved as they stand, and `groups` are the names of what has
        cases, where an edit that adds a way out is to name one.
        """
        self.crate, self.name, self.place, self.proved_of = crate, crate.name, place, proved
        self.groups, self.kept, self.looks_at_all = groups, kept, looks_at_all
        files, self.misnamed = edits_in(place)
        self.files = [it for it in files if not kept or not kept.take(it)]
        self.taken = len(files) - len(self.files)
        self.results, self.edits, self.seconds, self.count = [], [], 0.0, 0

    def is_left(self):
        """Returns whether anything is to be tried or told of."""
        return bool(self.files or self.misnamed)

    def summary(self):
        return f"{len(self.edits)} edits in {self.count} checks"

    def read(self):
        """Reads the edits, and says of which it can't be done."""
        self.edits = []
        for name in self.files:
            try:
                self.edits.append(self.read_one(f"{self.place}/{name}"))
            except (BadEdit, OSError, UnicodeDecodeError) as why:
                self.say(False, name, f"BAD EDIT: {why}")
        for name in self.misnamed:
            self.say(
                False,
                name,
                (
                    "BAD EDIT: its name is of letters, digits, _, - and . and ends in .edit, right"
                    " in the folder (or in .md, if it is only to be read)"
                ),
            )

    def read_one(self, file):
        edit = Edit(file, self.crate.folder)
        if edit.case and self.groups is not None and edit.case.partition(":")[0] not in self.groups:
            raise BadEdit(f"it names a case of what isn't there: {edit.case}")
        for it in sorted(edit.wanted):
            if not overlap({it}, self.proved):
                raise BadEdit(f"{it} is none of the functions that were proved as they stand")
        if edit.clause:
            copy = copy_of(edit, self.crate.folder, 0)
            if not copy:
                raise BadEdit("it names a clause, and its function can't stand twice")
            copy.apply(self.crate.folder, {})
        return edit

    def say(self, is_well, name, said):
        self.results.append(Result(is_well, f"{self.crate.name}/{name}", said))

    def keep(self):
        """Keeps which edits were refused as they must be since it was called last, unless a
        function was told of that no edit changes."""
        if self.kept and all(it.name.endswith(".edit") for it in self.results):
            for it in self.results[self.looked_at :]:
                if it.is_well:
                    self.kept.keep(it.name.partition("/")[2], it.said)
        self.looked_at = len(self.results)

    def unedited(self, edits):
        """Returns the functions with a text of their own that none of the edits changes."""
        touched = set().union(*(it.touched for it in edits))
        return [
            it
            for it in self.proved
            if "+" not in it and "::fn::" not in it and not overlap({it}, touched)
        ]

    def check(self, edits, only, more=None):
        """Checks functions over texts with these edits and more, with the others by their contracts
        and without their bodies."""
        self.count += 1
        # (what an edit outside functions spoils isn't known)
        by_contract = (
            []
            if any(it.is_outside for it in edits)
            else [it for it in self.unedited(edits) if it not in only]
        )
        # (of an impl over one type alone the prover's name isn't that of the text, so it has its
        # body and its proof)
        over_one_type = {re.sub(r"\+\w+", "", it) for it in self.proved if "+" in it}
        kept = set(only).union(over_one_type, *(it.touched for it in edits))
        ran = self.crate.check(
            self.composed(edits, more), only, by_contract, kept, self.folder, self.leaves
        )
        self.seconds += ran.seconds
        if ran.status == -9:
            raise Killed
        return ran

    def composed(self, edits, more=None):
        texts = {}
        for it in edits:
            texts = it.apply(self.crate.folder, texts)
        return {**texts, **(more or {})}

    def planned(self, edits, copies=True):
        """Returns the edits in rounds, in each of which none changes what another is to spoil and
        they can stand together: a further one of a function with a copy of that, and one that names
        a clause with a copy that has this clause alone, unless none are wanted. An edit outside
        functions may spoil any, and is alone."""
        rounds, folder = [], self.crate.folder
        for edit in edits:
            for it in rounds:
                ways = [
                    None if edit.is_outside or copies and edit.clause else edit,
                    copy_of(edit, folder, len(it)) if copies else None,
                ]
                way = next((way for way in ways if way and self.can_join(way, it)), None)
                if way:
                    it.append(way)
                    break
            else:
                first = (
                    copy_of(edit, folder, 0)
                    if copies and (edit.is_outside or edit.clause)
                    else None
                )
                rounds.append([first or edit])
        return rounds

    def can_join(self, edit, edits):
        # (a law's proof may be long: memory has to hold all of a round)
        is_full = isinstance(edit, LawCopy) and len(edits) >= MOST_LAWS
        if (
            is_full
            or edits[0].is_outside
            or any(
                overlap(edit.wanted, it.touched) or overlap(edit.touched, it.wanted) for it in edits
            )
        ):
            return False
        try:
            self.composed([*edits, edit])
        except BadEdit:
            return False
        return True

    def run(self):
        """Tries all edits, and leaves what is to be said of them in results."""
        self.results, self.bad, self.doubted, self.witnesses, self.looked_at = [], [], {}, [], 0
        self.proved = sorted(self.proved_of(self.crate))
        self.read()
        with tempfile.TemporaryDirectory(prefix="edits-") as self.folder:
            rounds = self.planned(self.edits)
            for it in rounds:
                # (what the last one leaves would be of use to few checks)
                self.leaves = it is not rounds[-1]
                self.try_round(it)
            for it in self.planned(
                [edit for edit in self.edits if edit in self.doubted], copies=False
            ):
                self.look_again(it)

    def try_round(self, edits):
        if len(edits) == 1 and not edits[0].clause:
            edits = [plain(it) for it in edits]
        # (one that costs least, and no law: what spoils a definition may spoil each of them)
        unedited = [it for it in self.unedited(edits) if not it.startswith("laws::")]
        unedited.sort(key=lambda it: (it in self.witnesses, *self.crate.cost_of(it)))
        witness = unedited[:1]
        self.witnesses += witness
        # (and where there are copies, the function of them that costs least, as it stands: a copy
        # is to be proved as what it is of; of those that have one clause of a function one each)
        copied = {
            it.kind(): it
            for it in sorted(
                (it for it in edits if is_copy(it)),
                key=lambda it: it.cost(self.crate),
                reverse=True,
            )
        }
        controls = [
            it.as_it_stands(self.crate.folder, len(edits) + number)
            for number, it in enumerate(copied.values())
        ]
        ran = self.check(
            [*edits, *controls],
            sorted(set(witness).union(*(it.wanted for it in (*edits, *controls)))),
        )
        told = Told(ran, self.crate.name)
        if told.ended and ran.status == 1 and not told.unread:
            again = self.judge(edits, told, controls)
            for it in witness:
                if it not in told.functions:
                    self.say(False, it, "not told of, though it was asked for as it stands")
        elif len(edits) > 1:
            left = self.sifted(edits, ran)
            if left and left != edits:
                self.try_round(left)
            again = left if left == edits else []
        elif is_copy(edits[0]):
            again = edits
        else:
            self.say_unjudged(edits[0], ran, told)
            again = []
        self.keep()
        # what the others may have hidden is tried without them, and at last alone
        again = [plain(it) for it in again]
        for group in (
            self.planned(again, copies=False) if len(again) < len(edits) else [[it] for it in again]
        ):
            self.try_round(group)

    def judge(self, edits, told, controls=()):
        """Says which edits were refused, and returns those to be tried without the others. Nothing
        is believed of copies where the one of their kind without an edit isn't proved."""
        touched = set().union(*(it.touched for it in (*edits, *controls)))
        proved = {
            it.kind()
            for it in controls
            if it.named in told.functions and it.named not in told.refused
        }
        for name, line in told.refused.items():
            if not any(is_part(name, it) or it.startswith(name + "::") for it in touched):
                self.say(
                    False,
                    name,
                    (
                        "refused, though no edit of its round changes it; if one does, name it"
                        f" there by a line 'function: {name}': {line[:200]}"
                    ),
                )
        again = []
        for edit in edits:
            own = [it for it in told.refused if any(is_part(it, wanted) for wanted in edit.wanted)]
            real = [
                it
                for it in own
                if it not in told.by_names and (not is_copy(edit) or edit.kind() in proved)
            ]
            case = edit.case if edit.adds_a_way and self.groups is not None else None
            if (
                real
                and not case
                and (
                    edit.adds_a_way
                    or self.looks_at_all
                    or any(told.lost_an_answer(it) for it in real)
                )
            ):
                goals = [
                    (edit.function, edit.goals(told, it)) if is_copy(edit) else (it, told.goals(it))
                    for it in real
                ]
                self.doubted[plain(edit)] = dict(goals)
            elif real:
                by_case = f", and {case} refuses the body" if case else ""
                self.say(
                    True,
                    edit.name,
                    f"refused, as it must be{by_case}: {told.refused[real[0]][:200]}",
                )
            elif len(edits) > 1 or is_copy(edit):
                again.append(edit)
            elif own:
                self.say(
                    False,
                    edit.name,
                    (
                        "refused only because a proof file names what the edit took away, so it"
                        " says nothing of the contract: change a value and keep the names:"
                        f" {told.refused[own[0]][:200]}"
                    ),
                )
            else:
                self.say(
                    False,
                    edit.name,
                    f"NOT REFUSED: no goal of {' or '.join(sorted(edit.wanted))} was refused",
                )
        return again

    def look_again(self, edits):
        """Says of edits that were refused whether their goals are false."""
        looks = {
            edit: [
                Look(self.crate, name, goals) for name, goals in self.doubted[edit].items() if goals
            ]
            for edit in edits
        }
        texts = {
            path: text
            for some in looks.values()
            for it in some
            for path, text in it.texts().items()
        }
        told = Told(
            self.check(edits, sorted(set().union(*(it.wanted for it in edits))), texts),
            self.crate.name,
        )
        for edit in edits:
            found = [it.told(told.untaken) for it in looks[edit]]
            goals = ", ".join(
                f"`{goal}`" for goal in sorted(set().union(*self.doubted[edit].values()))
            )[:200]
            if FALSE in found:
                self.say(
                    True, edit.name, f"refused, as it must be, and of {goals} one can't hold there"
                )
            elif found and all(it == TRUE for it in found) and all(self.doubted[edit].values()):
                self.say(
                    False, edit.name, f"NOT REFUSED: {goals} is true, and only without an answer"
                )
            else:
                self.say_untold(edit, goals)
        self.keep()

    def say_untold(self, edit, goals):
        """Says of an edit that it may be refused for want of an answer alone."""
        if not edit.adds_a_way:
            self.say(
                True,
                edit.name,
                f"refused, as it must be, on a way that the old text has too: {goals}",
            )
        else:
            self.say(
                self.groups is None,
                edit.name,
                (
                    f"refused, and it isn't told whether {goals} is false on the way out that it"
                    " adds: a case that refuses the body is to be named by a line 'case: GROUP:"
                    " NAME'"
                ),
            )

    def sifted(self, edits, ran):
        """Returns the edits of a round that came to no end without those of which it can be told
        that they can't be tried."""
        complaints = [it for it in ran.said.split("\n") if it.startswith("rattle: error:")]
        for edit in edits:
            unknown = [it for it in complaints if any(f"`{name}`" in it for name in edit.wanted)]
            if not unknown and complaints:
                continue
            # (a check of no function ends at once where the text compiles)
            alone = None if unknown else self.check([edit], [""])
            if unknown or not Told(alone, self.crate.name).ended:
                self.spoil(edit, unknown[0] if unknown else alone.said)
        return [it for it in edits if it not in self.bad]

    def spoil(self, edit, said):
        self.bad.append(edit)
        first = " / ".join(it for it in said.split("\n") if "error" in it)[:400] or said[:400]
        self.say(False, edit.name, f"BAD EDIT: it did not reach the prover: {first}")

    def say_unjudged(self, edit, ran, told):
        """Says what became of an edit that was tried alone and not refused in good order."""
        if ran.status is None:
            self.say(False, edit.name, "NOT REFUSED: the check took too long, and was ended")
        elif told.unread:
            self.say(
                False,
                edit.name,
                f"BAD EDIT: the prover cannot read the edited text: {told.unread[:200]}",
            )
        elif not told.ended and ran.status != 3:
            self.spoil(edit, ran.said)
        elif ran.status == 3:
            self.say(False, edit.name, "NOT REFUSED: the prover could not tell")
        else:
            self.say(
                False, edit.name, f"NOT REFUSED: {' and '.join(sorted(edit.wanted))} stay proved"
            )
