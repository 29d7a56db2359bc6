"""Which mutants can be tried together: those that change bodies of different functions, and nothing else.

A body is proved over the contracts of what it calls, so a mutant of another body changes no verdict on it."""

from .claims import is_same_place
from .sources import functions_in


def function_around(text, number):
    """The function whose body this line is in; None if it is in none, or in one that constants may call."""
    inside = [each for each in functions_in(text) if number in each.body]
    return inside[-1] if inside and not inside[-1].is_const else None


def targets_of(mutant):
    """The functions that a mutant changes, by file and first line; None if it changes more than their bodies, or names
    another place than one of them."""
    found = {}
    for name, after in mutant.texts.items():
        before = mutant.sources.read(name)
        if not name.startswith("src/") or functions_in(before) != functions_in(after):
            return None
        lines = zip(before.split("\n"), after.split("\n"), strict=True)
        for number in (number for number, (old, new) in enumerate(lines, 1) if old != new):
            function = function_around(before, number)
            if function is None:
                return None
            found[name, function.first] = function
    is_named = any(is_same_place(mutant.claim.place, each.place()) for each in found.values())
    return frozenset(found) if is_named else None


def packed(mutants):
    """The mutants in rounds: as few as there are mutants of one function, and of like sizes; each mutant with its
    targets."""
    counts = {}
    for _, targets in mutants:
        for target in targets:
            counts[target] = counts.get(target, 0) + 1
    rounds = [[] for _ in range(max(counts.values(), default=0))]
    taken = [set() for _ in rounds]
    for mutant, targets in sorted(mutants, key=lambda each: -max(counts[target] for target in each[1])):
        free = [at for at, used in enumerate(taken) if not used & targets]
        if not free:
            rounds.append([])
            taken.append(set())
            free = [len(rounds) - 1]
        at = min(free, key=lambda at: len(rounds[at]))
        rounds[at].append((mutant, targets))
        taken[at] |= targets
    return rounds


def merged(mutants):
    """The texts of the files that mutants of different lines change, with the changes of all."""
    texts = {}
    for mutant in mutants:
        for name, after in mutant.texts.items():
            lines = texts.setdefault(name, mutant.sources.read(name).split("\n"))
            for at, (old, new) in enumerate(zip(mutant.sources.read(name).split("\n"), after.split("\n"))):
                if old != new:
                    lines[at] = new
    return {name: "\n".join(lines) for name, lines in texts.items()}
