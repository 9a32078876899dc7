"""Copies of functions and of laws, so that several edits of one can be tried in one check.

A copy has the text, the contract and the proof files of what it is of under another name, and
nothing calls it. So what is proved or refused of it, with an edit or as it stands, is what would be
of the function itself. A copy may have one clause alone of the contract: a body that breaks this
clause breaks the contract.
"""
import os
import re

import source
from edit import BadEdit, read
from second import ANSWER, clause


class Copy:
    """A copy of a function under another name, of its contract and its proof files too, with an
    edit of it or as it stands. So several edits of a function can be tried in one check. It has
    what an edit has."""

    def __init__(self, function, path, number, edit=None, clause=None):
        self.function, self.path, self.edit, self.clause = function, path, edit, clause
        self.named = f"{function}_copy{number}"
        self.wanted = self.touched = {self.named}
        self.is_outside = False
        if edit:
            self.name, self.case, self.adds_a_way = edit.name, edit.case, edit.adds_a_way

    @classmethod
    def of(cls, edit, folder, number):
        """Returns a copy with the edit, or none where the function can't stand twice: as one of a
        trait, a law, one that calls itself, or one that is proved by hand."""
        paths = {it[0] for it in edit.pairs}
        if (
            edit.is_outside
            or len(edit.touched) != 1
            or edit.wanted != edit.touched
            or len(paths) != 1
        ):
            return None
        (function,), (path,) = edit.touched, paths
        text = read(folder, path)
        it = source.function_named(path, text, function)
        if (
            not it
            or not (it.is_of_type or it.is_of_module)
            or function != "::".join((*source.module_of(path), *it.names))
        ):
            return None
        name = it.names[-1]
        itself = (
            rf"\bself\s*\.\s*{name}\b|\b(?:Self|{it.names[-2]})\s*::\s*{name}\b"
            if it.is_of_type
            else rf"(?<![.:\w]){name}\b|\bself::{name}\b"
        )
        calls_itself = re.search(itself, source.blanked(text[it.body : it.ends]))
        is_by_hand = os.path.lexists(f"{folder}/proofs/{function.replace('::', '/')}/Proof.antt")
        return (
            None
            if calls_itself or is_by_hand or function.startswith("laws::")
            else cls(function, path, number, edit, edit.clause)
        )

    def kind(self):
        """Returns what a copy without an edit has to share with it, so that it shows what this one
        shows: the contract, where that isn't whole."""
        return (self.function, self.clause) if self.clause else None

    def as_it_stands(self, folder, number):
        """Returns a copy of the same function without an edit."""
        return Copy(self.function, self.path, number, None, self.clause)

    def cost(self, crate):
        return crate.cost_of(self.function)

    def apply(self, folder, texts):
        """Returns these texts by path with the copy behind its function, and with its proof
        files."""
        own = self.edit.apply(folder, {})[self.path] if self.edit else read(folder, self.path)
        it, text = source.function_named(self.path, own, self.function), texts.get(
            self.path
        ) or read(folder, self.path)
        behind = source.function_named(self.path, text, self.function)
        if not it or not behind:
            raise BadEdit(f"{self.function} is no function of {self.path} any more")
        copy = source.renamed(own[it.begins : it.ends], self.named.rpartition("::")[2])
        if self.clause:
            copy = source.with_clause(copy, self.clause)
            if not copy:
                raise BadEdit(f"{self.function} has no clause {self.clause}")
        return {
            **texts,
            self.path: f"{text[:behind.ends]}\n\n{copy}{text[behind.ends:]}",
            **self.proofs(folder),
        }

    def proofs(self, folder):
        """Returns the function's proof files for its copy, by path."""
        place, found = f"proofs/{self.function.replace('::', '/')}", {}
        for name in ("Invariants.antt", "Answers.antt"):
            if os.path.isfile(f"{folder}/{place}/{name}"):
                text = read(folder, f"{place}/{name}")
                if self.clause:
                    text = ANSWER.sub(self.answer, text)
                old, new = (
                    f".proofs.{it.replace('::', '.')}." for it in (self.function, self.named)
                )
                found[f"proofs/{self.named.replace('::', '/')}/{name}"] = text.replace(old, new)
        return found

    def answer(self, found):
        """Returns an answer of the function's proof file for a copy that has one clause, of whose
        goals no name says which."""
        goal = found[1]
        if not goal.startswith("returns") or "-clause-" not in goal:
            return found[0]
        return (
            found[0].replace(goal, goal.partition("-clause-")[0])
            if clause(goal) == self.clause
            else ""
        )

    def goals(self, told, name):
        """Returns the open goals that were told of the copy, or of a part of it, by their names in
        its function."""
        return {
            f"{it}-clause-{self.clause}" if self.clause and it.startswith("returns") else it
            for it in told.goals(name)
        }


class LawCopy:
    """A copy of a law, of the laws that it calls, and of all definitions and lemmas of a crate that
    has nothing but laws, under other names, with an edit of a definition or as they stand. So such
    edits can be tried in one check. It has what an edit has.
    """

    def __init__(self, folder, law, number, edit=None):
        self.law, self.number, self.edit = law, number, edit
        self.laws = laws_from(read(folder, "src/laws.rt"), law)
        self.module = f"laws_copy{number}"
        self.named = f"{self.module}::{law}"
        self.wanted, self.touched = {self.named}, {f"{self.module}::{it}" for it in self.laws}
        self.function, self.is_outside, self.clause = f"laws::{law}", False, None
        if edit:
            self.name, self.case, self.adds_a_way = edit.name, edit.case, edit.adds_a_way

    @classmethod
    def of(cls, edit, folder, number):
        """Returns a copy with the edit, or none where it changes more than definitions, or the
        crate has more than laws."""
        (function,) = edit.wanted if len(edit.wanted) == 1 else ("",)
        is_of_laws = sorted(source.texts_in(folder)) == ["src/laws.rt", "src/lib.rt"]
        if (
            not is_of_laws
            or not function.startswith("laws::")
            or any(not re.fullmatch(r"specs/\w+\.antt", it[0]) for it in edit.pairs)
        ):
            return None
        return cls(folder, function[len("laws::") :], number, edit)

    def kind(self):
        return None

    def as_it_stands(self, folder, number):
        """Returns a copy of the same law without an edit."""
        return LawCopy(folder, self.law, number)

    def goals(self, told, name):
        return told.goals(name)

    def cost(self, crate):
        """Returns that it is a law, and how many bytes the proofs of its laws have."""
        places = [f"{crate.folder}/proofs/laws/{it}" for it in self.laws]
        return True, sum(
            os.path.getsize(f"{it}/{name}")
            for it in places
            if os.path.isdir(it)
            for name in os.listdir(it)
        )

    def apply(self, folder, texts):
        """Returns these texts by path with the copies."""
        texts, edited = dict(texts), self.edit.apply(folder, {}) if self.edit else {}
        for part in ("specs", "proofs"):
            modules = re.findall(r"^(?:pub )?mod \w+$", read(folder, f"{part}/Lib.antt"), re.M)
            lib = texts.get(f"{part}/Lib.antt") or read(folder, f"{part}/Lib.antt")
            texts[f"{part}/Lib.antt"] = lib + "".join(f"{it}Copy{self.number}\n" for it in modules)
            for it in (it.split()[-1] for it in modules):
                path = f"{part}/{it}.antt"
                texts[f"{part}/{it}Copy{self.number}.antt"] = self.renamed(
                    folder, edited.get(path) or read(folder, path)
                )
        for law in self.laws:
            place = f"proofs/laws/{law}"
            for it in os.listdir(f"{folder}/{place}") if os.path.isdir(f"{folder}/{place}") else []:
                texts[f"proofs/{self.module}/{law}/{it}"] = self.renamed(
                    folder, read(folder, f"{place}/{it}")
                )
        texts[f"src/{self.module}.rt"] = self.renamed(
            folder, only_laws(read(folder, "src/laws.rt"), self.laws)
        )
        texts["src/lib.rt"] = (
            texts.get("src/lib.rt") or read(folder, "src/lib.rt")
        ) + f"\npub mod {self.module};\n"
        return texts

    def renamed(self, folder, text):
        """Returns the text with the names of the copies."""
        new = lambda it: f"{it[1]}{self.module if it[2] == 'laws' else f'{it[2]}Copy{self.number}'}"
        return re.sub(
            rf"\b(Rattle\.{os.path.basename(folder)}\.(?:specs|proofs)\.)(\w+)", new, text
        )


def laws_from(text, law):
    """Returns a law and those of the same file that it calls, and so on."""
    bodies, found = {it.names[-1]: text[it.body : it.ends] for it in source.functions(text)}, [law]
    for it in found:
        called = re.findall(r"(?<![.:\w])(\w+)\s*\(", source.blanked(bodies.get(it, "")))
        found += [name for name in dict.fromkeys(called) if name in bodies and name not in found]
    return found


def only_laws(text, laws):
    """Returns the text of a file without its functions but for these."""
    parts, last = [], 0
    for it in source.functions(text):
        if it.names[-1] not in laws:
            # (without what is said of it above it)
            parts.append(re.sub(r"(?:[ \t]*///[^\n]*\n)+\Z", "", text[last : it.begins]))
            last = it.ends
    return "".join(parts) + text[last:]


def copy_of(edit, folder, number):
    """Returns a copy with the edit, of its function or of its law, or none."""
    return LawCopy.of(edit, folder, number) if edit.is_outside else Copy.of(edit, folder, number)
