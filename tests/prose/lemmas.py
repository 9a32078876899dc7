"""Finds the lemmas and definitions that stand twice with the same text.

A name of a crate of ours counts as what the file imports under it, and in a statement or a
definition a name of the file's own as its text: where that is another, so is the statement. Hence
no two answers to goals are the same, since each function has goals of its own.
"""
import collections
import re

WORD = re.compile(r"[^\s(){}\[\],;.]+")
IMPORT = re.compile(r"^\s*(?:pub )?use (Rattle\.[\w.'-]+?)(?:\.\{(.*)\}| as (\S+))\s*$")
HEAD = re.compile(r"((?:(?:abbrev|pub|data|record) )*)(\S+)")
OF_OURS = "Rattle.mq_"


def imports_of(lines):
    """What each name is that a file imports from a crate of ours."""
    found = {}
    for path, names, alias in (it.groups() for it in map(IMPORT.match, lines) if it):
        if path.startswith(OF_OURS):
            pairs = [it.strip().partition(" as ") for it in (names or "").split(",")]
            found.update(
                {alias: path}
                if alias
                else {other or name: f"{path}.{name}" for name, _, other in pairs}
            )
    return found


def definitions_in(lines):
    """Yields each lemma and definition of a file, or of a module in it: its name, and its lines,
    the first of which is what it states."""
    name, found = None, []
    for line in [*lines, "end"]:
        if not line.strip() or line.lstrip().startswith("--"):
            continue
        if line[0] in " )]}":
            found.append(line)
            continue
        kind, head = HEAD.match(line).groups()
        if found and name == head and not re.match(r"\S+ :", line):
            found.append(line)
            continue
        if name == "module":
            body = (
                next((at for at, it in enumerate(found) if it.endswith(" where")), len(found)) + 1
            )
            yield from definitions_in([it[2:] for it in found[body:]])
        elif found:
            yield name, found
        name, found = head, [line]
        if head in ("use", "mod"):
            name, found = None, []


def is_lemma(lines):
    return not re.match(r"(pub )?(abbrev|data|record) ", lines[0])


def plain(lines):
    """The text of a definition or a lemma on one line, whether or not others may use it."""
    return " ".join(re.sub(r"\bpub ", "", " ".join(lines)).split())


def meant(word, imports, own, within):
    """A word as it is meant: what is imported under it, or the text that the file has for it."""
    if word in imports:
        return imports[word]
    if word in own and word not in within:
        return f"({said(own[word], imports, own, {*within, word})})"
    return word


def said(lines, imports, own, within):
    """The text of a definition or a lemma with its words as they are meant, but in a proof for the
    file's own."""
    stated = (
        next((at for at, it in enumerate(lines) if at and it[0] != " "), len(lines))
        if is_lemma(lines)
        else len(lines)
    )
    statement = WORD.sub(lambda it: meant(it[0], imports, own, within), plain(lines[:stated]))
    proof = WORD.sub(
        lambda it: imports.get(it[0], it[0]), " ".join(" ".join(lines[stated:]).split())
    )
    return f"{statement} {proof}"


def twice(texts):
    """Yields each name with the files that have the same lemma or definition of two lines or more
    under it, given texts by file."""
    alike, of_file = collections.defaultdict(list), {}
    for file, text in texts.items():
        lines = text.split("\n")
        found = list(definitions_in(lines))
        of_file[file] = imports_of(lines), dict(found)
        for name, its in found:
            if len(its) > 1:
                alike[name, plain(its)].append((file, its))
    for (name, _), its in alike.items():
        places = collections.defaultdict(list)
        for file, lines in its if len(its) > 1 else []:
            places[said(lines, *of_file[file], {name})].append(file)
        yield from ((name, files) for files in places.values() if len(files) > 1)
