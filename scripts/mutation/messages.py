"""What the prover said: which place and which clause each of its messages is of, held against a mutant's claim."""

import pathlib
import re
from dataclasses import dataclass

from .claims import OWN, Claim, Fault, is_file, is_same_place
from .sources import Function, all_functions

MESSAGE = re.compile(r"(note: )?(?:\./)?((?:src|proofs|specs)/[\w/+]+\.\w+):(\d+):\d+: (error: )?(.*)")

# A goal that a tactic did not prove, and for which the file of answers has none: such a function has no other message.
UNPROVED = re.compile(
    r"fn \S+: no proof: expected answers in (?:\./)?(proofs/[\w/+]+\.\w+); `\w+` did not prove (`[^`]+`)"
)

# What is owed of a loop: its invariant before and after each turn, and its measure.
LOOP = re.compile(r"-(init|preserved|decreases)(-|$)")

# A proof that names what a mutant took away: it shows nothing of the contract.
LOST = re.compile(r"has no field|is not in scope|has no `|was not admitted")

# What `rt must-fail` prints of a mutant that the prover refused, with the first message.
BY_RT = re.compile(r"rt: must-fail (\w+)/(\S+\.edit): refused, as it must be(?: \(.*?\))?(?:: (.*))?")


@dataclass(frozen=True)
class Refusal:
    """A message of a proof that failed: the file and the function that it is of, if it is of one; what it refuses by,
    and whether it only misses a name."""

    file: str
    function: Function | None
    claim: Claim
    is_lost: bool


def clause_of(label, is_cut):
    """The clause that a label of the prover names; empty for any of a return, None if the label is cut before it."""
    if called := re.search(r"^([\w-]+)-requires(?:-clause-(\w+))?$", label):
        words = called[1].split("-")
        name = next((word for word in words if word in all_functions()), words[-1])
        return f"requires {called[2] + ' ' if called[2] else ''}of {name}"
    if own := next((kind for kind in OWN if label.startswith(kind)), None):
        return own
    if is_cut:
        return None
    if LOOP.search(label):
        return "loop"
    clause = re.search(r"-clause-(\w+)", label)
    return clause[1] if clause else "" if label.startswith("returns") else label


def place_of(sources, name, number):
    """The file and the function of this line of a file, None if it is of none, and its place."""
    if name.startswith("src/"):
        found = name, sources.function_at(name, number)
    else:
        folder = pathlib.PurePosixPath(name).parent.as_posix()
        found = sources.function_proved_in(folder.removeprefix("proofs/")) or (name, None)
    place = found[1].place() if found[1] else name.removesuffix(".antt")
    return *found, place


def refusal_of(sources, message):
    """What refused a mutant, by the prover's message."""
    found = MESSAGE.match(message or "")
    if not found:
        raise Fault(f"the prover names no place: {message}")
    text = found[5]
    file, function, place = place_of(sources, found[2], int(found[3]))
    label = re.search(r"(?:^|\()`([^`]*)(`?)", text)
    if not label:
        clause = None
    elif is_file(place):
        clause = label[1] if label[2] else None
    else:
        clause = clause_of(label[1], not label[2])
    return Refusal(file, function, Claim(place, clause), bool(LOST.search(text)))


def refusals_in(sources, lines):
    """What the messages of a whole check refuse, in their order; those that only miss a name last."""
    lines = [UNPROVED.sub(r"\1:1:1: error: \2", line) for line in lines]
    found = [line for line in lines if (at := MESSAGE.match(line)) and (at[4] or at[1] and "not proved" in at[5])]
    return sorted((refusal_of(sources, line) for line in found), key=lambda each: each.is_lost)


def first_messages(lines):
    """The first message on each mutant that `rt must-fail` printed as refused, by its crate and its file's name."""
    return {found.group(1, 2): found[3] for line in lines if (found := BY_RT.match(line))}


def is_met(said, seen):
    """Whether what was seen is what is said, as far as both name a clause; of a file the clause may be left out. What a
    return owes as a whole may be any clause that the function ensures."""
    if not is_same_place(said.place, seen.place):
        return False
    if seen.clause and seen.clause.startswith("requires of "):
        return said.clause.startswith("requires ") and said.clause.endswith(seen.clause.removeprefix("requires"))
    if seen.clause == "":
        return not (said.clause in OWN or said.clause.startswith("requires "))
    return seen.clause is None or said.clause == seen.clause or is_file(said.place) and not said.clause
