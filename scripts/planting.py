"""Mutants, planted in the texts of the sources: those of tests/simulation/mutants.txt, of tests/mutants.txt, and the
mutants of a crate.

Those of tests/ have the form of crates/NAME/mutants.txt, without the line of what refuses them. Each `file:` is one of
crates/, or the folder of it. One that a scene of tests/program sees has a line `Seen by: NAME` after the first.
"""

import shutil

from mutation.claims import Fault, changes_in, mutants_of, named, replaced, written_in
from mutation.sources import CRATES, TOP

SIMULATED = written_in(TOP / "tests/simulation/mutants.txt")
PLANTED = SIMULATED + written_in(TOP / "tests/mutants.txt")


def of_words(words):
    """The mutants of these names, or for a mutant of a crate CRATE/NAME. Ends the program if there is none."""
    for word in words:
        found = named(word, mutants_of) if "/" in word else [each for each in PLANTED if each.name == word]
        if not found:
            raise SystemExit(f"there is no mutant {word}")
        yield from found


def sentence_of(mutant):
    """The sentence that says what is wrong, without its full stop."""
    return mutant.lines[0].removeprefix("Wrong: ").removesuffix(".")


def scene_of(mutant):
    """The name of the scene that sees a mutant; empty if none does."""
    return next((line.removeprefix("Seen by: ") for line in mutant.lines if line.startswith("Seen by: ")), "")


def file_with(place, line):
    """The file that has a line: this one, or the one of this folder that has it."""
    if not (TOP / place).is_dir():
        return place
    files = [path for path in sorted((TOP / place).rglob("*.rt")) if line in path.read_text(encoding="utf-8")]
    if len(files) != 1:
        raise Fault(f"{len(files)} files of {place} have this: {line}")
    return files[0].relative_to(TOP)


def mutated(mutant):
    """The texts of the files that a mutant changes, by their names in the repository."""
    texts = {}
    lines = [line for line in mutant.lines[1:] if not line.startswith(("Seen by: ", "Refused by: "))]
    for place, old, new in changes_in(lines):
        file = file_with((CRATES / mutant.crate / place).relative_to(TOP), old)
        texts[file] = replaced(texts.get(file) or (TOP / file).read_text(encoding="utf-8"), old, new)
    return texts


def copy_sources(room, texts):
    """Copies crates.txt, HANDLES and the sources of all crates to a folder, with these texts in place of those of their
    files."""
    for name in ("crates.txt", "HANDLES"):
        shutil.copy(TOP / name, room)
    for part in TOP.glob("crates/*/*"):
        if part.name in ("src", "specs", "proofs"):
            shutil.copytree(part, room / part.relative_to(TOP))
    for file, text in texts.items():
        (room / file).write_text(text, encoding="utf-8")
