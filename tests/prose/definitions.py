"""The names that definitions of the `specs/` have, and those that stand for more than one.

A name is defined by its signature, or by the head of its type or record, wherever this stands: at
the left, or in a block (`module`, `mutual`). The cases of a type, a record's fields, what stands
below a `where`, and what Rattle makes of sources, as `specs.declared`, are named by what they are
of, and don't count. Neither does what a `use` brings, nor hands on (`pub use`).
"""
import collections
import re

# A comment or a text, in which nothing is defined.
UNREAD = re.compile(r'\{-.*?-\}|"(?:\\.|[^"\\\n])*"|(?:(?<=\s)|\A)--[^\n]*', re.DOTALL)
NAME = r'(«[^»\s]+»|[^\s(){}.;,@"«»]+)'
# What stands before the name of a definition; without any of it the name has a colon behind it.
MARK = r"(?:pattern|unfoldable|abbrev|axiom|pub|data|record|ruleset)\s+"
DEFINITION = re.compile(
    rf"(?:(?:{MARK})+(?!(?:use|mod)\s){NAME}|{NAME}(?:\s*\{{[^{{}}]*\}})?\s+:\s)"
)
BLOCK = re.compile(r"(?:unfoldable\s+|abbrev\s+)*(?:(module)|mutual)(?!\S)")


def defined_in(text):
    """The names that a file of definitions defines."""
    text = UNREAD.sub(lambda it: re.sub(r"[^\n]", " ", it[0]), text)
    found, columns, is_block, is_head = [], [0], False, False
    for line in re.finditer(r"^( *)(\S.*)$", text, re.MULTILINE):
        column, at = len(line[1]), line.start(2)
        if is_head:
            is_head, is_block = not line[2].rstrip().endswith("where"), True
            continue
        if is_block and column > columns[-1]:
            columns.append(column)
        is_block = False
        while column < columns[-1]:
            columns.pop()
        if column != columns[-1]:
            continue
        block, one = BLOCK.match(text, at), DEFINITION.match(text, at)
        if block:
            is_block = True
            is_head = bool(block[1]) and not line[2].rstrip().endswith("where")
        elif one:
            found.append((one[1] or one[2]).strip("«»"))
    return found


def more_than_once(texts):
    """The places of each name that stands for more than one definition, given the texts of files by
    their places."""
    places = collections.defaultdict(list)
    for place, text in texts.items():
        for name in defined_in(text):
            places[name].append(place)
    return {name: {*its} for name, its in places.items() if len(its) > 1}
