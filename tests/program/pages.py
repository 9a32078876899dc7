"""What pages of docs/ and man/ have an administrator type: the blocks of commands of their
sections."""
import os
import re

TOP = os.path.dirname(os.path.dirname(os.path.dirname(os.path.realpath(__file__))))
DOCS, MANUAL = f"{TOP}/docs", f"{TOP}/man"


def section_of(page, heading):
    with open(f"{DOCS}/{page}", encoding="utf-8") as file:
        return file.read().partition(f"\n## {heading}\n")[2].partition("\n## ")[0]


def blocks_of(page, heading):
    """The blocks of a section of a page, each as its lines."""
    return [
        [line[4:] for line in block.splitlines()]
        for block in re.findall(r"(?:^    .*\n)+", section_of(page, heading), re.MULTILINE)
    ]


def block_with(page, heading, word):
    """The one block of a section of a page that has this word, as its lines."""
    [block] = [it for it in blocks_of(page, heading) if any(word in line for line in it)]
    return block


def lines_of_manual(page, title):
    """The lines of a section of a page of the manual, without roff's escapes."""
    with open(f"{MANUAL}/{page}", encoding="utf-8") as file:
        section = file.read().partition(f".Sh {title}\n")[2].partition("\n.Sh ")[0]
    return [it.replace("\\-", "-").replace("\\e", "\\") for it in section.splitlines()]


def block_of_manual(page, title):
    """The one block of lines that a section of a page of the manual shows as they are."""
    lines = lines_of_manual(page, title)
    return lines[lines.index(".Bd -literal") + 1 : lines.index(".Ed")]
