"""Lists of what is left of something that is to go. A list only gets shorter, and its numbers only
get smaller: what is new fails, and what was mended goes from it.
"""


def is_row(line):
    return line[:1] not in ("", "#")


def number_in(row):
    """What a row is of, and the number that stands last in it."""
    name, _, number = row.rpartition(" ")
    return name.removesuffix(":"), int(number)


def words_in(row):
    """What a row is of, and the words behind its colon."""
    name, _, words = row.partition(":")
    return name, words.split()


def numbers_of(text):
    return dict(number_in(it) for it in text.splitlines() if is_row(it))


def words_of(text):
    rows = (words_in(it) for it in text.splitlines() if is_row(it))
    return {name: {*words} for name, words in rows}


def numbers_wrong(listed, found, most, file, what, instead):
    """Yields which things have more of `what` than the most and than the list in the file allows,
    with what to do instead, and which have less than the list says."""
    for name in sorted({*listed, *found}):
        number, allowed = found.get(name, 0), listed.get(name, most)
        if number > allowed:
            yield f"{name} has {number} {what}, and may have {allowed}: {instead}"
        elif name in listed and number <= most:
            yield f"{name} is mended, or gone: take its row from {file}"
        elif name in listed and number < allowed:
            yield f"{name} has {number} {what}: write this in place of {allowed} in {file}"


def words_wrong(listed, found, file, what, instead):
    """Yields which words of things, and what these words are, the list in the file doesn't allow,
    with what to do instead, and which of the list are none of theirs."""
    for name in sorted({*listed, *found}):
        its, allowed = found.get(name, set()), listed.get(name, set())
        if more := sorted(its - allowed):
            yield f"{name} {what} {', '.join(more)}: {instead}"
        if name in listed and not its:
            yield f"{name} is mended, or gone: take its row from {file}"
        elif gone := sorted(allowed - its):
            yield f"{name} is mended as to {', '.join(gone)}: take this from its row in {file}"


def numbers_left(text, found, most):
    """A list of numbers without what was mended. Nothing comes in."""

    def left(row):
        name, number = number_in(row)
        number = min(number, found.get(name, 0))
        return f"{row.rpartition(' ')[0]} {number}" if number > most else None

    return rows_left(text, left)


def words_left(text, found):
    """A list of words without what was mended. Nothing comes in."""

    def left(row):
        name, words = words_in(row)
        words = [it for it in words if it in found.get(name, ())]
        return f"{name}: {' '.join(words)}" if words else None

    return rows_left(text, left)


def rows_left(text, left):
    rows = (left(it) if is_row(it) else it for it in text.splitlines())
    return "".join(f"{it}\n" for it in rows if it is not None)
