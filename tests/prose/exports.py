"""The functions and constants that a crate hands out, and those of them that no other crate takes.

A crate that names another takes from it each word that it has, in code or contracts, definitions or
proofs: one that is reported so is surely taken by none. Types and traits aren't looked at, which
what is handed out may mention, and which have to be visible there. Nor are laws, which are there to
be read.
"""
import re

import modules

ITEM = re.compile(r"^pub (?:unsafe )?(?:const|static|fn|const fn) (\w+)", re.MULTILINE)
MODULE = re.compile(r"^pub mod (\w+);", re.MULTILINE)
HANDED_ON = re.compile(r"^pub use ([^;]+);", re.MULTILINE)
LAWS = "laws"
COMMENT = re.compile(r"(?://|--(?<!\S--)).*")


def handed_out(sources):
    """The functions and constants that a crate hands out, given the texts of its `src/` by name:
    those that its root has or hands on, and those of its public modules, each with its module."""
    crate = modules.Crate(sources)
    items = {at: set(ITEM.findall(text)) for at, text in crate.texts.items()}
    root = crate.texts.get((), "")
    paths = [it for tree in HANDED_ON.findall(root) for it in modules.paths_of(tree)]
    handed_on = [it[it[0] in ("crate", "self") :] for it in paths]
    return {
        *items.get((), ()),
        *(it[-1] for it in handed_on if it[-1] in items.get(it[:-1], ()) and LAWS not in it),
        *(
            f"{module}::{it}"
            for module in MODULE.findall(root)
            for it in items.get((module,), ())
            if module != LAWS
        ),
    }


def words_in(texts):
    """The words of a crate's texts, without comments."""
    return set().union(*(re.findall(r"\w+", COMMENT.sub("", it)) for it in texts))


def taken_by_none(crate, its, words):
    """Those of a crate's items that no other takes, given the words of each."""
    others = [it for name, it in words.items() if name != crate and crate in it]
    return {it for it in its if not any(it.rpartition(":")[2] in words for words in others)}
