"""Which function a place in a .rt file lies in, by the name that the prover prints."""
import functools
import os
import re
from collections import namedtuple

# A function with a body: its first place, that of its body, the place after its last, its names
# from the outermost module or type on, whether it stands in an impl without a trait, and whether in
# a module, and so in no impl, trait or function.
Function = namedtuple("Function", "begins body ends names is_of_type is_of_module")

# Comments, strings, characters and lifetimes, in which a brace opens nothing.
TOKEN = re.compile(
    r"""//[^\n]*|/\*.*?\*/|b?r(#*)".*?"\1|b?"(?:[^"\\]|\\.)*"|b?'(?:[^'\\\n]|\\[^'\n]+|\\')'|'\w+""",
    re.S,
)
# An array's type or value, whose semicolon ends nothing.
ARRAY = re.compile(r"\[[^\[\]{}]*;[^\[\]{}]*\]")
ENSURES = re.compile(r"\bensures\s+(?:(\w+)\s*)?\{")
CLAUSE = re.compile(r"\b(?:requires|ensures)\*?(?:\s+\w+)?\s*\Z|\bghost\b[^;]*\Z")
FUNCTION = re.compile(r"\bfn\s+(\w+)")
TYPE = re.compile(r"\b(impl|trait)\b(.*)", re.S)
BRANCH = re.compile(r"\b(?:if|match|for|while|loop)\b|[?|]")


def blanked(text):
    """Returns the text with spaces for what TOKEN finds and for the semicolons of arrays, each
    character in its place."""
    text = TOKEN.sub(lambda it: re.sub(r"[^\n]", " ", it[0]), text)
    return ARRAY.sub(lambda it: it[0].replace(";", " "), text)


def without_brackets(text):
    """Returns the text without what stands between < and >."""
    kept, depth = [], 0
    for at, char in enumerate(text):
        closes = char == ">" and text[at - 1] not in "-="
        depth += char == "<"
        if not depth:
            kept.append(char)
        depth -= closes and depth > 0
    return "".join(kept)


def argument_name(path):
    """Returns an argument of a trait as names have it: `mq_frame::Memory` is Mq_frameMemory."""
    return "".join(it[:1].upper() + it[1:] for it in re.findall(r"\w+", without_brackets(path)))


def impl_name(head):
    """Returns the name of an impl's functions' place: the type, its trait, and the trait's
    arguments."""
    head = re.split(r"\bwhere\b", head.strip())[0].strip()
    if head.startswith("<"):
        depth = 0
        for at, char in enumerate(head):
            depth += (char == "<") - (char == ">" and head[at - 1] != "-")
            if not depth:
                head = head[at + 1 :].strip()
                break
    last = lambda path: without_brackets(path).strip().lstrip("&").strip().rpartition("::")[2]
    trait, is_of_trait, type_ = head.rpartition(" for ")
    if not is_of_trait:
        return last(head)
    given = re.search(r"<(.*)>\s*\Z", trait, re.S)
    return last(type_) + last(trait) + (argument_name(given[1]) if given else "")


def name_of(head):
    """Returns the name of what a brace opens after such a text, if it is a function, a type's
    functions or a module."""
    function, type_ = FUNCTION.search(head), TYPE.search(head)
    module = re.search(r"\bmod\s+(\w+)\s*\Z", head)
    if function:
        return function[1]
    if type_:
        return impl_name(type_[2]) if type_[1] == "impl" else re.search(r"\w+", type_[2])[0]
    return module[1] if module else None


@functools.lru_cache(maxsize=256)
def functions(text):
    """Returns each function with a body."""
    text, found, open_, head = blanked(text), [], [], 0
    for it in re.finditer(r"[{};]", text):
        at, in_clause = it.start(), bool(open_) and open_[-1] is None
        said = text[head:at]
        if it[0] == "{" and (in_clause or CLAUSE.search(said)):
            # what a function's head says goes on after its clauses
            open_.append(None)
            continue
        if in_clause:
            if it[0] == "}":
                open_.pop()
            continue
        if it[0] == "{":
            open_.append((name_of(said), head + len(said) - len(said.lstrip()), at, said))
        elif it[0] == "}" and open_:
            name, begins, body, said = open_.pop()
            if FUNCTION.search(said):
                names = (*(it[0] for it in open_ if it[0]), name)
                is_of_type = bool(open_) and bool(
                    re.match(r"\s*impl\b(?!.*\bfor\b)", open_[-1][3], re.S)
                )
                is_of_module = all(
                    not FUNCTION.search(it[3]) and not TYPE.search(it[3]) for it in open_ if it
                )
                found.append(Function(begins, body, at + 1, names, is_of_type, is_of_module))
        head = at + 1
    return tuple(sorted(found))


def overlap(some, others):
    """Returns whether two sets of functions share one, of which one may be named by its end
    alone."""
    return any(a == b or a.endswith("::" + b) or b.endswith("::" + a) for a in some for b in others)


def module_of(path):
    """Returns the names of the module that a file of src/ is."""
    return tuple(
        it for it in path[len("src/") : -len(".rt")].split("/") if it not in ("lib", "main", "mod")
    )


def full_name(path, text, function):
    """Returns a function of the file as module::Type::name."""
    # A type's own functions are named by its module: where that is another file, the end of the
    # name has to do.
    is_elsewhere = function.is_of_type and not re.search(
        rf"\b(?:struct|enum)\s+{function.names[-2]}\b", text
    )
    return "::".join((*(() if is_elsewhere else module_of(path)), *function.names))


def function_at(path, text, at):
    """Returns the innermost function that holds the place of the file, as module::Type::name, or
    none."""
    around = [it for it in functions(text) if it.begins <= at < it.ends]
    return full_name(path, text, max(around)) if around else None


def function_named(path, text, name):
    """Returns the function of the file with this full name, or none."""
    return next((it for it in functions(text) if full_name(path, text, it) == name), None)


def renamed(text, new):
    """Returns the text of a function under another name, without what is said of its file above
    it."""
    text = re.sub(r"\A(?:\s*(?://!|#!\[)[^\n]*\n)+", "", text)
    at = FUNCTION.search(blanked(text))
    return text[: at.start(1)] + new + text[at.end(1) :]


def with_clause(text, name):
    """Returns the text of a function with this clause alone of what its contract says of the
    result, and without its name, so that a goal is the clause itself; or none where it has no such
    clause."""
    plain, parts, last, is_there = blanked(text), [], 0, False
    for it in ENSURES.finditer(plain[: functions(text)[0].body]):
        if it[1] == name:
            is_there = True
            parts.append(text[last : it.start(1)])
            last = it.end(1)
        else:
            parts.append(text[last : it.start()])
            last = closed_at(plain, it.end())
    return "".join(parts) + text[last:] if is_there else None


def closed_at(plain, at):
    """Returns the place after the brace that closes the one before a place."""
    depth = 1
    while depth:
        depth += (plain[at] == "{") - (plain[at] == "}")
        at += 1
    return at


def without_bodies(path, text, is_kept):
    """Returns the text, in which a function whose name isn't kept never ends, whatever its type: it
    is there to be called alone."""
    parts, last, over = [], 0, 0
    for it in functions(text):
        # (a function in another one goes or stays with it)
        if it.begins >= over and not is_kept(full_name(path, text, it)):
            parts += [text[last : it.body], "{ loop {} }"]
            last = it.ends
        over = max(over, it.ends)
    return "".join(parts) + text[last:]


def texts_in(folder):
    """Returns the texts of the crate's .rt files by path."""
    found = {}
    for at, _, names in os.walk(f"{folder}/src"):
        for name in names:
            if name.endswith(".rt"):
                with open(f"{at}/{name}", encoding="utf-8") as file:
                    found[os.path.relpath(f"{at}/{name}", folder)] = file.read()
    return found


def generic(folder):
    """Returns the functions of the crate that are over types, or whose impl is, by the name that
    the prover prints."""
    found = set()
    for path, text in texts_in(folder).items():
        plain = blanked(text)
        for it in functions(text):
            heads = [plain[it.begins : it.body]] + re.findall(
                r"\b(?:impl|trait)\b[^{};]*", plain[: it.begins]
            )[-1:] * (len(it.names) > 1)
            if any(
                re.search(r"\b(?:fn\s+\w+|impl|trait\s+\w+)\s*<(?!\s*'\w+\s*>)", head)
                for head in heads
            ):
                found.add("::".join((*module_of(path), *it.names)))
    return found


def costs(folder):
    """Returns of each function of the crate, by the name that the prover prints, whether it has a
    branch, a loop or a closure, and how many characters."""
    return {
        "::".join((*module_of(path), *it.names)): (
            bool(BRANCH.search(blanked(text[it.body : it.ends]))),
            it.ends - it.begins,
        )
        for path, text in texts_in(folder).items()
        for it in functions(text)
    }
