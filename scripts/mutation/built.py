"""Checks of mutated crates over the libraries below them, of those functions alone that mutants name."""

import functools
import os
import pathlib
import re
import shutil
import subprocess
import tempfile

from .checks import Checks
from .claims import is_file, is_same_place
from .sources import CRATES, TOP, functions_in, module_of, uses_by_crate

PARTS = ("src", "specs", "proofs")


def kit():
    """The folder of the toolchain, which has the page that `rt doc` names."""
    page = subprocess.run(["rt", "doc"], capture_output=True, text=True, check=True).stdout
    return pathlib.Path(page.strip()).parent


def text_of(folder):
    """What the prover reads of the crate in a folder: each file below its parts, by its path."""
    files = (file for part in PARTS for file in (folder / part).rglob("*") if file.is_file())
    return {file.relative_to(folder): file.read_bytes() for file in files}


def link_proofs(source, target):
    """A second name for a checked proof, which a check never changes, and a copy of the rest that it keeps."""
    if source.endswith(".oantt"):
        try:
            return os.link(source, target)
        except OSError:
            pass
    return shutil.copy2(source, target)


class Built(Checks):
    """Checks over the libraries in a folder in which all crates are proved, or in this repository. One check at a time
    of each crate."""

    def __init__(self, folder, jobs):
        super().__init__()
        self.folder, self.jobs = pathlib.Path(folder).resolve(), str(jobs)
        self.uses, self.kit = uses_by_crate(), kit()
        self.top = pathlib.Path(tempfile.mkdtemp(prefix="try-mutants-"))

    def below(self, crate):
        """The crates of this repository below a crate."""
        own = [name for name in self.uses[crate] if name in self.uses]
        return list(dict.fromkeys([*own, *(low for name in own for low in self.below(name))]))

    def library(self, name):
        """The library of this name that was built in the folder, or that the toolchain has."""
        folder = self.folder / "crates" / name / "out/rlib" if name in self.uses else self.kit / "rlibs"
        return folder / f"{name}.rlib"

    def is_proved(self, crate):
        """Whether `rt ci` has built the library of a crate, which comes last of its proof."""
        return self.library(crate).exists()

    def has_libraries(self, crate):
        """Whether each library that a crate uses is where it is built."""
        return all(self.library(name).exists() for name in {*self.uses[crate], *self.below(crate)})

    @functools.cache
    def functions(self, crate):
        """The functions of a crate by the names that the prover prints, without the crate's; none if no library of it
        is built."""
        file = self.library(crate) / "toolchain/mir.json"
        return set(re.findall(rf'"{crate}::([\w:+]+)"', file.read_text(encoding="utf-8") if file.exists() else ""))

    def path_of(self, crate, name, function):
        """The name of a function as `rattle check --only` takes it: a method by its type, any other by its module too.
        The name of a method of a trait goes on with what the trait is of, as in
        `SocketsSystemSocketPortsConnection::arm`."""
        if not function.owner:
            return (module_of(name) + function.name).replace("/", "::")
        if function.trait:
            method = re.compile(rf"(?:.*::)?{function.owner}{function.trait}\w*::{function.name}")
            found = [each for each in self.functions(crate) if method.fullmatch(each)]
            if len(found) == 1:
                return found[0]
        return f"{function.owner}{function.trait}::{function.name}"

    def paths_of(self, mutant):
        """The functions whose check refuses a mutant: those of the place that it names, or for a file of lemmas the
        laws of the crate, if nothing of the crate is kept. It is empty if they are not known."""
        if is_file(mutant.claim.place):
            return {"laws"} if mutant.written.is_of_gate and "src/laws.rt" in mutant.sources.files() else set()
        named = [(name, each) for name in mutant.sources.files() for each in functions_in(mutant.sources.text(name))]
        place = mutant.claim.place
        return {self.path_of(mutant.crate, *each) for each in named if is_same_place(place, each[1].place())}

    def words(self, crate, paths, kept):
        """The command that checks these functions of a crate, or all if there are none, and keeps what it proves in a
        folder, from which it takes what is there."""
        words = [self.kit / "bin/rattle", "check", "--crate-name", crate, "src/lib.rt"]
        for name in dict.fromkeys(["std", *self.uses[crate]]):
            words += ["--extern", f"{name}={self.library(name)}"]
        for folder in (self.kit / "rlibs", *(self.library(name).parent for name in self.below(crate))):
            words += ["-L", f"dependency={folder}"]
        words += ["--antt-project", self.kit / "rattle/logic/antt-project.json"]
        words += ["--logic-built", self.kit / "logic_built", "--incremental", kept]
        words += ["--links", f"{crate}=", "--jobs", self.jobs]
        return [*words, *(word for path in sorted(paths) for word in ("--only", path))]

    def take(self, crate):
        """Takes a crate as it is now for all its checks; in this repository once `rt check` has proved it, with what
        that keeps. Returns why its mutants can't be tried; empty if they can."""
        own, kept = self.top / crate / "own", self.top / crate / "kept"
        for part in (part for part in PARTS if (CRATES / crate / part).is_dir()):
            shutil.copytree(CRATES / crate / part, own / part)
        if self.folder != TOP:
            kept.mkdir()
            is_same = text_of(own) == text_of(self.folder / "crates" / crate)
            return "" if is_same else "its crate has another text than was proved"
        outcome = self.run(["rt", "check", "--jobs", self.jobs], CRATES / crate)
        if outcome.status:
            return f"its crate is not proved without it: {' '.join(outcome.lines[-1:])[:200]}"
        shutil.copytree(CRATES / crate / "out/incremental", kept, symlinks=True, copy_function=link_proofs)
        return "" if text_of(own) == text_of(CRATES / crate) else "its crate was changed meanwhile"

    def try_texts(self, crate, texts, paths=()):
        """Checks these functions of a crate, or all, with these texts in place of its own, over what earlier checks of
        the crate proved and kept. A check of some functions goes on past what it refuses, so that a function is checked
        too that calls a refused one."""
        room, own = self.top / crate / "mutated", self.top / crate / "own"
        shutil.rmtree(room, ignore_errors=True)
        shutil.copytree(own, room)
        for name, text in texts.items():
            (room / name).write_text(text, encoding="utf-8")
        words = self.words(crate, paths, self.top / crate / "kept")
        return self.run([*words, "--allow-holes"] if paths else words, room)

    def remove(self):
        """Removes the copies."""
        shutil.rmtree(self.top, ignore_errors=True)
