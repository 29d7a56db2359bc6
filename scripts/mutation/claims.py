"""What a mutant says of itself: what is wrong with it, and the place and the clause that refuse it."""

import re
from dataclasses import dataclass

from .sources import CRATES, Sources, all_functions, contract_of, functions_in, functions_of

# What a function owes beside its clauses.
OWN = ("invariant", "loop", "overflow", "bounds")

LINE = re.compile(
    r"Refused by: (?:law )?(?P<place>(?:proofs|specs)/[\w/]+|\w+(?:::\w+)?)"
    r"(?:: (?P<clause>requires (?:\w+ )?of \w+|[\w-]+))?(?:, (?P<remark>.+))?\."
)


@dataclass(frozen=True)
class Claim:
    """What a mutant says refuses it, or what does: the clause is empty if it has no label, None if it isn't known."""

    place: str
    clause: str | None

    def __str__(self):
        return f"{self.place}: {self.clause}" if self.clause else self.place


class Fault(Exception):
    """Why a mutant is not as it should be."""


def is_file(place):
    """Whether a place is a file of definitions or proofs."""
    return place.startswith(("proofs/", "specs/"))


def is_same_place(said, seen):
    """Whether a place is the one that was seen, whose owner may have the name of a trait after it."""
    owner, _, name = said.rpartition("::")
    seen_owner, _, seen_name = seen.rpartition("::")
    return name == seen_name and seen_owner.startswith(owner)


def declared_in(text):
    """The words that lines of a file of definitions or proofs begin with, among them all that it declares."""
    return {found[1] for line in text.splitlines() if (found := re.match(r"([\w-]+)\s", line))}


def need_label(labels, label, what):
    """The label is one of these."""
    if label not in labels:
        known = ", ".join(sorted(each for each in set(labels) if each)) or "none"
        has_not = f"{what} has no clause '{label}'; its labels" if label else f"names no clause of {what}"
        raise Fault(f"{has_not}: {known}")


@dataclass(frozen=True)
class Written:
    """A mutant as it is written: its crate, its name, its lines, and whether the gate tries it."""

    crate: str
    name: str
    lines: tuple
    is_of_gate: bool = False

    def __str__(self):
        return f"{self.crate}/{self.name}"


def changes_in(lines):
    """The changes that lines of a mutant make, in their order: the name of a file, its old text and the new one."""
    name = old = None
    for line in lines:
        kind, _, text = line.partition(" ")
        if kind == "file:":
            name = text
        elif kind == "old:":
            old = text
        elif kind == "new:":
            yield name, old, text
        else:
            raise Fault(f"a line is not read: {line}")


def replaced(text, old, new):
    """A text with this in the place of what it has once."""
    if text.count(old) != 1:
        raise Fault(f"this text is in its file {text.count(old)} times: {old.strip()}")
    return text.replace(old, new)


class Mutant:
    """A mutant: how it is written, what it says, and the texts of the files that it changes."""

    def __init__(self, written):
        self.written, self.crate, self.name = written, written.crate, written.name
        self.sources, lines = Sources(self.crate), written.lines
        if not re.fullmatch(r"\w+", self.name, re.ASCII):
            raise Fault("its name has other characters than letters, digits and underscores")
        if len(lines) < 2 or not re.fullmatch(r"Wrong: .+\.", lines[0]):
            raise Fault("its first line is not 'Wrong: ..'")
        found = LINE.fullmatch(lines[1])
        if not found:
            raise Fault(f"its second line has another form: {lines[1]}")
        self.claim = Claim(found["place"], found["clause"] or "")
        self.apply(lines[2:])

    @property
    def texts(self):
        """The mutated texts, by the names of their files."""
        return self.sources.texts

    def apply(self, lines):
        """Changes the texts: each file exists, and has each old text once."""
        for name, old, new in changes_in(lines):
            self.texts[name] = replaced(self.texts.get(name) or self.read(name), old, new)
        if not self.texts:
            raise Fault("it changes nothing")

    def read(self, name):
        """The text of a file of the crate."""
        if not name or not (self.sources.folder / name).is_file():
            raise Fault(f"there is no file {name}")
        return self.sources.read(name)

    def functions(self):
        """The functions of the crate, and those that the mutant adds."""
        changed = [each for name, text in self.texts.items() if name.startswith("src/") for each in functions_in(text)]
        return functions_of(self.crate) + changed

    def check(self):
        """What its claim names exists."""
        (self.check_file if is_file(self.claim.place) else self.check_function)()

    def check_function(self):
        """The function exists, and has the clause, or calls what requires it."""
        place, clause = self.claim.place, self.claim.clause
        owner, _, name = place.rpartition("::")
        found = [each for each in self.functions() if each.name == name and owner in ("", each.owner)]
        if not found:
            raise Fault(f"{self.crate} has no function {place}")
        if called := re.fullmatch(r"requires (?:(\w+) )?of (\w+)", clause):
            labels = [label for each in all_functions().get(called[2], []) for label in each.requires]
            need_label(labels, called[1] or "", f"what {called[2]} requires")
        elif clause not in OWN:
            need_label([label for each in found for label in contract_of(each, clause)], clause, place)

    def check_file(self):
        """The file exists, and has the declaration."""
        path = self.sources.folder / f"{self.claim.place}.antt"
        if not path.is_file():
            raise Fault(f"{self.crate} has no file {self.claim.place}.antt")
        if self.claim.clause and self.claim.clause not in declared_in(path.read_text(encoding="utf-8")):
            raise Fault(f"{self.claim.place}.antt has no '{self.claim.clause}'")


def gate_mutants(crate):
    """The mutants of a crate that the gate tries: the files must-fail/NAME.edit, in the toolchain's form."""
    files = sorted((CRATES / crate / "must-fail").glob("*.edit"))
    return [Written(crate, file.stem, tuple(file.read_text(encoding="utf-8").splitlines()), True) for file in files]


def written_in(file, crate=""):
    """The mutants of a file, in their order: each is a line `mutant: NAME` and then the lines that a file of must-fail/
    has, and an empty line is before the next."""
    parts = re.split(r"\n\n+", file.read_text(encoding="utf-8").strip("\n")) if file.is_file() else []
    heads = [part.splitlines() for part in parts]
    return [Written(crate, head.removeprefix("mutant: "), tuple(lines)) for head, *lines in heads]


def more_mutants(crate):
    """The other mutants of a crate."""
    return written_in(CRATES / crate / "mutants.txt", crate)


def mutants_of(crate):
    """All mutants of a crate."""
    return gate_mutants(crate) + more_mutants(crate)


def named(word, mutants):
    """Those that a word stands for: all of a crate, or the one CRATE/NAME."""
    crate, _, name = word.partition("/")
    return [each for each in mutants(crate) if name in ("", each.name)]
