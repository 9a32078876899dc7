"""A must-fail edit: a small change of a crate's text that the prover must refuse.

A file of lines 'file: PATH' and then pairs 'old: TEXT' and 'new: TEXT', as rt reads them: each old
text stands once in the file as the pairs before left it. Lines 'function: module::Type::name' say
which functions it is to spoil, where the text that it changes lies in none, as a constant's does. A
line 'case: GROUP: NAME' says which case of tests/program, or which test of a crate, refuses the
body, where the prover can't tell so. A line 'clause: NAME' says which clause of the function's
contract refuses the body, where it is to be tried against that alone. Any other line is a remark.
"""
import os
import re

import source


# What parts the ways through a function: leaving early, and a branch.
WAY = re.compile(r"\b(?:return|break|continue|if)\b|\?|=>")
# A way that is always taken, where an edit can't change the old one.
ALWAYS = re.compile(r"let wrong = true; if wrong \{ return [^;}]*; \}")


class BadEdit(Exception):
    """Why an edit can't be tried."""


class Edit:
    def __init__(self, file, folder):
        """Reads the edit in `file` of the crate in `folder`."""
        self.name, self.case, self.clause = os.path.basename(file), None, None
        self.pairs, said = [], []
        with open(file, encoding="utf-8") as lines:
            path = old = None
            for line in lines.read().split("\n"):
                if line.startswith("file: "):
                    path = line[6:].strip()
                    if os.path.normpath(path) != path or not path.startswith(
                        ("src/", "specs/", "proofs/")
                    ):
                        raise BadEdit("a 'file:' line names no file below src/, specs/ or proofs/")
                elif line.startswith("old: "):
                    old = line[5:]
                elif line.startswith("new:"):
                    if not path or not old:
                        raise BadEdit("a 'new:' line stands before any 'file:' or 'old:' line")
                    self.pairs.append((path, old, re.sub(r"\A ", "", line[4:])))
                    old = None
                elif line.startswith("function:"):
                    said.append(line[9:].strip())
                elif line.startswith("case:"):
                    self.case = line[5:].strip()
                elif line.startswith("clause:"):
                    self.clause = line[7:].strip()
        if not self.pairs:
            raise BadEdit("it has no 'old:' and 'new:' pair")
        places = []
        self.apply(folder, {}, places)
        changed = set().union(*places)
        # the functions of which the prover must refuse one, and those that nothing else in its
        # round may change
        self.wanted = set(said) or changed
        self.touched = self.wanted | changed
        # it changes what lies in no function, as a constant, and so may spoil any
        self.is_outside = not all(places)
        # (a law does nothing when it is called)
        pairs = [it for it in self.pairs if it[0].startswith("src/") and it[0] != "src/laws.rt"]
        self.adds_a_way = ways_in(*(new for _, _, new in pairs)) > ways_in(
            *(old for _, old, _ in pairs)
        )
        if not self.wanted:
            raise BadEdit(
                "what it changes lies in no function: name one by a line 'function:"
                " module::Type::name'"
            )

    def apply(self, folder, texts, places=None):
        """Returns these texts by path with the edit's changes, over the files of the crate in the
        folder, and adds to `places` the functions that each lies in."""
        texts = dict(texts)
        for path, old, new in self.pairs:
            if path not in texts:
                texts[path] = read(folder, path)
            found = texts[path].count(old)
            if found != 1:
                raise BadEdit(f"an 'old:' text is in {path} {found} times, and not once")
            if places is not None:
                at = texts[path].index(old)
                places.append(functions_between(path, texts[path], at, at + len(old)))
            texts[path] = texts[path].replace(old, new)
        return texts


def read(folder, path):
    try:
        with open(f"{folder}/{path}", encoding="utf-8") as file:
            return file.read()
    except (OSError, UnicodeDecodeError):
        raise BadEdit(f"there is no file {path}") from None


def ways_in(*texts):
    """Returns how many words of these texts part the ways through a function."""
    return sum(len(WAY.findall(source.blanked(ALWAYS.sub("", it)))) for it in texts)


def functions_between(path, text, begins, ends):
    """Returns the names of the functions that hold the first and the last character between two
    places."""
    if not path.startswith("src/"):
        return set()
    # (an old text may begin with the spaces before a function)
    begins += len(text[begins:ends]) - len(text[begins:ends].lstrip())
    return {source.function_at(path, text, it) for it in (begins, ends - 1)} - {None}


def edits_in(place):
    """Returns the files of a folder that are edits, and those that have no place there."""
    if not os.path.isdir(place):
        return [], []
    files = sorted(
        os.path.relpath(f"{at}/{it}", place) for at, _, names in os.walk(place) for it in names
    )
    good = [it for it in files if re.fullmatch(r"[A-Za-z0-9_-][A-Za-z0-9_.-]*\.edit", it)]
    return good, [it for it in files if it not in good and not it.endswith(".md")]
