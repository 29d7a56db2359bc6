"""The functions of the crates: where each one is, what it owes, and the lines of its body."""

import functools
import pathlib
import re
from dataclasses import dataclass

TOP = pathlib.Path(__file__).resolve().parent.parent.parent
CRATES = TOP / "crates"

FUNCTION = re.compile(r"( *)(?:pub(?:\([^)]*\))? )?((?:const |ghost )*)fn (\w+)")


@dataclass(frozen=True)
class Function:
    """A function: the type or the trait that it is of, and the trait that has its contract, if one has; the first line
    of its file that belongs to it, the labels of its clauses, the lines of its body, and whether it is a `const fn`."""

    owner: str
    trait: str
    name: str
    first: int
    ensures: tuple
    requires: tuple
    body: range
    is_const: bool

    def place(self):
        """Its name as a mutant gives it."""
        return f"{self.owner}::{self.name}" if self.owner else self.name

    def is_proved_in(self, folder):
        """Whether a proof in this folder is its own, as far as names show: of its name, below one of its type."""
        *above, name = folder.split("/")
        owner = above[-1] if above and above[-1][0].isupper() else ""
        is_of_trait = bool(self.trait) and owner.startswith(self.owner + self.trait)
        return name.removeprefix("+") == self.name and (is_of_trait or owner.split("+")[0] == self.owner)


def uses_by_crate():
    """The crates of crates.txt, lowest first, each with the libraries that it uses."""
    text = (TOP / "crates.txt").read_text(encoding="utf-8")
    return {name: uses.split() for name, uses in re.findall(r"^(\w+)[^:#\n]*:(.*)", text, re.M)}


def owners_of(header):
    """The type that an impl is of, and its trait; of a trait its own name."""
    if found := re.match(r"(?:pub )?trait (\w+)", header):
        return found[1], ""
    plain = re.sub(r"\s+", " ", header.removeprefix("impl"))
    while (shorter := re.sub(r"<[^<>]*>", "", plain)) != plain:
        plain = shorter
    *trait, owner = plain.split(" for ")
    return re.findall(r"\w+", owner)[-1], re.findall(r"\w+", trait[0])[-1] if trait else ""


def body_after(lines, number, indent):
    """The lines of the body of the function whose name is in this line; none if it has no body, or is of one line."""
    start = None
    for at in range(number, len(lines) + 1):
        line = lines[at - 1]
        if not line.strip() or line.startswith(indent + " "):
            continue
        if start is not None:
            return range(start, at)
        if not line.startswith(indent) or line.endswith((";", "}")):
            break
        if line.endswith("{"):
            start = at + 1
    return range(0)


@functools.cache
def functions_in(text):
    """The functions of a source, in their order."""
    found, owners, header, clauses, first = [], ("", ""), None, None, None
    lines = text.splitlines()
    for number, line in enumerate(lines, 1):
        if re.match(r"(impl\b|(pub )?trait \w)", line):
            header = ""
        if header is not None:
            header += line
            if "{" in line:
                owners, header = owners_of(header.split("{")[0]), None
            continue
        if line == "}":
            owners = ("", "")
        is_above = re.match(r"\s*(///|#\[)", line)
        if name := FUNCTION.match(line):
            clauses = {"ensures": [], "requires": []}
            body = body_after(lines, number, name[1])
            found.append(((*owners, name[3], first or number), clauses, (body, "const" in name[2])))
        elif clauses and (clause := re.match(r"\s*(ensures|requires)\*?\s+(?:(\w+) )?\{", line)):
            clauses[clause[1]].append(clause[2] or "")
        first = (first or number) if is_above else None
    return [
        Function(*names, tuple(clauses["ensures"]), tuple(clauses["requires"]), *rest) for names, clauses, rest in found
    ]


@functools.cache
def functions_of(crate):
    """All functions of a crate."""
    texts = [path.read_text(encoding="utf-8") for path in sorted((CRATES / crate / "src").rglob("*.rt"))]
    return [function for text in texts for function in functions_in(text)]


@functools.cache
def all_functions():
    """The functions of all crates by their names."""
    named = {}
    for crate in CRATES.iterdir():
        for function in functions_of(crate.name):
            named.setdefault(function.name, []).append(function)
    return named


def contract_of(function, clause):
    """The labels that a function ensures: its own, and those of its trait's function, if it has a trait. A trait of
    another repository may have any clause."""
    if not function.trait:
        return function.ensures or ("",)
    of_trait = [each for each in all_functions()[function.name] if each.owner == function.trait]
    return (function.ensures + of_trait[0].ensures if of_trait else (clause,)) or ("",)


class Sources:
    """The files of a crate, with some of their texts mutated."""

    def __init__(self, crate, texts=None):
        self.crate, self.folder, self.texts = crate, CRATES / crate, texts or {}

    def read(self, name):
        """The text of a file as it is in the crate."""
        return (self.folder / name).read_text(encoding="utf-8")

    def text(self, name):
        """The same, as mutated."""
        return self.texts[name] if name in self.texts else self.read(name)

    def files(self):
        """The names of its sources."""
        return sorted(path.relative_to(self.folder).as_posix() for path in (self.folder / "src").rglob("*.rt"))

    def function_at(self, name, number):
        """The function that this line of a source belongs to, or that is the last before it."""
        before = [each for each in functions_in(self.text(name)) if each.first <= number]
        return before[-1] if before else None

    def function_proved_in(self, folder):
        """The function whose proof is in this folder of proofs/, with its file: of the module that the folder is below,
        or, since a type may have methods in other files, the only one of its type and name."""
        functions = [(name, each) for name in self.files() for each in functions_in(self.text(name))]
        found = [(name, each) for name, each in functions if each.is_proved_in(folder)]
        modules = [module_of(name) for name, _ in found]
        near = [one for one, module in zip(found, modules) if re.fullmatch(rf"{module}([A-Z][^/]*/)?[^/]+", folder)]
        return next((each[0] for each in (near, found) if len(each) == 1), None)


def module_of(name):
    """The folder of the proofs of a source, with a slash after it; empty for the root."""
    module = name.removeprefix("src/").removesuffix(".rt")
    return "" if module in ("lib", "main") else module + "/"
