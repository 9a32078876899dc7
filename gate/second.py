"""A second look at a refused edit: whether what was refused is false, or true and only without an
answer.

The prover refuses each goal that it can't prove, and so a true one that no answer of the function's
proof file fits: a goal's name says the way through the function, and a further way out or another
bound takes its name from an answer. So each goal that was refused is offered what the file has for
the same clause on the other ways, and the search. And the other way round: from the goal the search
is to prove that it can't hold there. Of a goal of which neither is proved nothing is told.
"""
import os
import re
from collections import namedtuple

# An answer of a proof file: the goal's name, the names of what it is over, and what proves it.
Answer = namedtuple("Answer", "goal over proof")
# What is tried of a goal, by the name of its declaration in the proof file, and whether it is to
# prove that the goal can't hold.
Try = namedtuple("Try", "name goal denies")

ANSWER = re.compile(
    r"^(?:pub )?(\S+) : goal\.\1\n\1((?: [^\s=]+)*) =([^\n]*\n(?:(?:[ \t][^\n]*)?\n)*)", re.M
)
# From a goal that can't hold all follows: what gives that its value is left open, and taken by its
# statement.
DENIAL = """\
pub deny {ℓ} : {A : Type ℓ} → (A → ⊥) → A
deny f = ?
"""
# What must be refused wherever the declarations of a file are read.
CONTROL = "look-control"

TRUE, FALSE, UNTOLD = "true", "false", "untold"


class Look:
    """What is tried of the refused goals of one function, and the text of its proof file with
    that."""

    def __init__(self, crate, function, goals):
        self.place = f"proofs/{function.replace('::', '/')}"
        self.goals, self.tries = sorted(goals), []
        file = f"{crate.folder}/{self.place}/Answers.antt"
        text = ""
        if os.path.isfile(file):
            with open(file, encoding="utf-8") as it:
                text = it.read().rstrip("\n") + "\n"
        answers = [Answer(it[1], it[2], it[3].rstrip()) for it in ANSWER.finditer(text)]
        parts = [f"{CONTROL} : ⊥\n{CONTROL} = search rules\n"]
        for goal in self.goals:
            parts += self.declared(goal, answers, self.over(crate, function, goal, answers))
        self.text = "\n".join([self.uses(crate.name, function, text), *parts])

    @staticmethod
    def uses(crate, function, text):
        """Returns the file's text with what the tries use."""
        lines = [f"use Rattle.{crate}.proofs.Second.{{deny}}"]
        if not re.search(r"^use Rattle\.std\.proofs\.Common\.\{[^}]*\brules\b", text, re.M):
            lines.append("use Rattle.std.proofs.Common.{rules}")
        if not re.search(r" as goal$", text, re.M):
            lines.append(f"use Rattle.{crate}.proofs.{function.replace('::', '.')}.Goals as goal")
        return "\n".join([*lines, text])

    @staticmethod
    def over(crate, function, goal, answers):
        """Returns what a goal of the function is over: its types, where it has parameters, and the
        place in a run."""
        for it in answers:
            if it.over.split()[:1] in (["c"], ["g"]):
                return " g c" if it.over.split()[0] == "g" else " c"
        return " g c" if crate.is_generic(function) else " c"

    def declared(self, goal, answers, over):
        """Returns the declarations of what is tried of a goal."""
        own = [it for it in answers if it.goal == goal]
        tried = [
            (it.over, proof)
            for it in answers
            if it.goal != goal and clause(it.goal) == clause(goal)
            for proof in on_way(it, goal)
        ]
        tried += [(over, " search rules")] if own else []
        parts = []
        for proof in (*tried, (over, " deny (λ h. search rules)")):
            # (the prover states a goal for which the file has a declaration of that name)
            name = goal if not own and not parts else f"look-{len(self.tries)}"
            self.tries.append(Try(name, goal, proof[1].startswith(" deny (")))
            parts.append(
                f"{'pub ' if name == goal else ''}{name} :"
                f" goal.{goal}\n{name}{proof[0]} ={proof[1]}\n"
            )
        return parts

    def texts(self):
        return {f"{self.place}/Answers.antt": self.text, "proofs/Second.antt": DENIAL}

    def told(self, wrong):
        """Returns what the look found, by the names of the declarations that were refused in each
        file."""
        refused = wrong.get(self.place[len("proofs/") :], set())
        if CONTROL not in refused:
            return UNTOLD
        held = [it for it in self.tries if it.name not in refused]
        proved = {it.goal for it in held if not it.denies}
        # (of a way that no run takes both are proved, so it shows nothing that the goal can't hold
        # there)
        if {it.goal for it in held if it.denies} - proved:
            return FALSE
        return TRUE if proved == {*self.goals} else UNTOLD


def clause(goal):
    """Returns which clause a goal is of, or what kind it is of."""
    _, is_of_clause, name = goal.partition("-clause-")
    return name if is_of_clause else goal.partition("-")[0]


def way(goal):
    """Returns the way through the function on which the goal is."""
    return goal.partition("-clause-")[0].partition("-")[2]


def on_way(answer, goal):
    """Returns the answer's proof as it stands, and with the goal's way in place of its own where it
    names that."""
    old, new = way(answer.goal), way(goal)
    found = [answer.proof]
    if old and new and f"c.{old}." in answer.proof:
        found.append(answer.proof.replace(f"c.{old}.", f"c.{new}."))
    return found
