"""The modules of a crate, which uses which, and the circles among them: modules that each use the
others, at once or by way of more. A crate without circles is read from its lowest module up.

The crate's root isn't among them: what it hands on of a module is that module's. Modules of tests
aren't either, since each uses what it tests.
"""
import os
import re

# A comment or a text, which names nothing.
UNREAD = re.compile(r'//[^\n]*|"(?:\\.|[^"\\])*"')
USE = re.compile(r"(?<!ghost )\buse\s+([^;]+);")
# A path in the code that begins with the crate or the module above.
PATH = re.compile(r"\b(?:crate|super)(?:::\w+)+")
MODULE_OF_TESTS = re.compile(r"#\[cfg\(test\)\]\s*(?:pub(?:\(crate\))?\s+)?mod\s+(\w+)\s*;")


def paths_of(tree):
    """The paths that a tree of a `use` names, each as a tuple of words."""
    head, brace, rest = (it.strip() for it in tree.partition("{"))
    words = tuple(it.split()[0] for it in head.split("::") if it.strip())
    if not brace:
        return [words]
    parts, depth, part = [], 0, ""
    for letter in rest[: rest.rindex("}")]:
        depth += (letter == "{") - (letter == "}")
        if letter == "," and not depth:
            parts, part = [*parts, part], ""
        else:
            part += letter
    return [words + it for part in [*parts, part] if part.strip() for it in paths_of(part)]


class Crate:
    """A crate's sources: the text of each module by its path, that of the root by ()."""

    def __init__(self, sources):
        self.texts = {}
        for name, text in sources.items():
            words = tuple(os.path.splitext(name)[0].split("/"))
            self.texts[() if words in (("lib",), ("main",)) else words] = UNREAD.sub("", text)
        of_tests = [
            (*at, name) for at, text in self.texts.items() for name in MODULE_OF_TESTS.findall(text)
        ]
        for it in [it for it in self.texts for test in of_tests if it[: len(test)] == test]:
            self.texts.pop(it, None)

    def named(self, at):
        """The paths from the root that a module names."""
        text = self.texts[at]
        for path in [
            *(path for tree in USE.findall(text) for path in paths_of(tree)),
            *(tuple(it.split("::")) for it in PATH.findall(USE.sub("", text))),
        ]:
            if path[0] == "crate":
                yield path[1:]
            elif path[0] == "super":
                above = at
                while path[:1] == ("super",):
                    above, path = above[:-1], path[1:]
                yield above + path
            elif (*at, path[0]) in self.texts:
                yield at + path

    def handed_on(self):
        """The module of each name that the root has from one."""
        return {
            path[-1]: self.module_of(path)
            for path in self.named(())
            if self.module_of(path) and path[-1] != "*"
        }

    def module_of(self, path):
        """The module in which a path lies."""
        return next((path[:it] for it in range(len(path), 0, -1) if path[:it] in self.texts), ())

    def uses(self):
        """The modules that each module uses."""
        handed_on = self.handed_on() if () in self.texts else {}
        found = {}
        for at in self.texts:
            if at:
                its = {
                    self.module_of(path) or handed_on.get(path[0])
                    for path in self.named(at)
                    if path
                }
                found[at] = its - {at, None}
        return found

    def circles(self):
        """The modules of each circle, in their order."""
        uses = self.uses()

        def reached(at):
            found, left = set(), [at]
            while left:
                more = uses[left.pop()] - found
                found |= more
                left += more
            return found

        all_reached = {it: reached(it) for it in uses}
        return {
            tuple(sorted("::".join(it) for it in its if at in all_reached[it]))
            for at, its in all_reached.items()
            if at in its
        }


def circles(sources):
    """The circles of a crate, of whose `src/` these are the texts of the files by their names."""
    return Crate(sources).circles()
