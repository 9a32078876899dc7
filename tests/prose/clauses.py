"""How many clauses the contract of each function has: of what it requires and what it ensures,
whether or not a clause has a name. A trait's functions have theirs, with a body or without; those
of a closure are none of its function's.
"""
import re

import source

CLAUSE = re.compile(r"\b(?:requires|ensures)\b\*?(?:\s+\w+)?\s*\{")
# What ends the head of a function, or opens one of its clauses.
ENDS = re.compile(r"[{;]")


def with_bodies(text):
    """The code of a source, in which a function without a body has an empty one."""
    plain, parts, last = source.blanked(text), [], 0
    for it in source.FUNCTION.finditer(plain):
        at = it.end()
        while (end := ENDS.search(plain, at)) and source.CLAUSE.search(plain[at : end.start()]):
            at = source.closed_at(plain, end.end())
        if end and end[0] == ";":
            parts += [plain[last : end.start()], "{}"]
            last = end.end()
    return "".join(parts) + plain[last:]


def clauses_of(text):
    """The number of clauses of each function of a source by its name, with its type or its trait
    before it; of an impl of a trait they are one word, as in a must-fail edit. Of functions of one
    name the most counts."""
    text, found = with_bodies(text), {}
    for it in source.functions(text):
        name, number = "::".join(it.names), len(CLAUSE.findall(text, it.begins, it.body))
        found[name] = max(number, found.get(name, 0))
    return found


def may_exceed(text, most):
    """Whether a function of a source may have more clauses, as a quick look at it tells."""
    return any(len(CLAUSE.findall(it)) > most for it in source.FUNCTION.split(text))
