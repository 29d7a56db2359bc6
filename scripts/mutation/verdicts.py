"""The verdict of a check on each mutant that it tried."""

import re

from .claims import Fault, is_file
from .messages import is_met, refusal_of, refusals_in

# An error of the front end, before anything is proved.
COMPILER = re.compile(r"(?:\./)?((?:src|specs|proofs)/[\w/+]+\.\w+):(\d+):\d+: error\b(?!: `)")


def is_refused(mutant, refusals, targets):
    """Whether one of these is of the place and the clause that the mutant names, and of a target, if there are any. For
    a mutant of the gate it is the first of a target, or without targets the first of all; if it names a lemma, the
    first on the lemma's file, since a changed definition breaks lemmas of many files."""
    if targets is not None:
        refusals = [each for each in refusals if each.function and (each.file, each.function.first) in targets]
    if mutant.written.is_of_gate:
        if is_file(mutant.claim.place):
            refusals = [each for each in refusals if each.claim.place == mutant.claim.place]
        refusals = refusals[:1]
    met = (each for each in refusals if is_met(mutant.claim, each.claim))
    return any(each.claim.clause is not None and not each.is_lost for each in met)


def verdict_of(mutant, outcome):
    """The verdict of a check on its only mutant: None if it is refused as it says, else how it is not."""
    if outcome.status == 0:
        return "not refused"
    bad = next((line for line in outcome.lines if COMPILER.match(line)), "")
    if bad and not (outcome.is_read and bad.startswith(("proofs/", "./proofs/"))):
        return f"not tried: it is not read: {bad[:200]}"
    refusals = refusals_in(mutant.sources, outcome.lines)
    if is_refused(mutant, refusals, None):
        return None
    if not refusals:
        last = next((line for line in reversed(outcome.lines) if not line.startswith("rt: ")), "")
        return f"not tried: its check ended with status {outcome.status}: {last[:200]}"
    first = refusals[0]
    if first.is_lost:
        return f"refused by {first.claim}, but only since a proof names what it took away"
    unknown = "" if first.claim.clause is not None or is_file(first.claim.place) else ", whose clause is not known"
    return f"refused by {first.claim}{unknown}, not by {mutant.claim}"


def verdict_of_message(mutant, message):
    """The verdict on a mutant by the first message of the prover, as `verdict_of`."""
    try:
        seen = refusal_of(mutant.sources, message).claim
    except Fault as fault:
        return str(fault)
    return None if is_met(mutant.claim, seen) else f"refused by {seen}, not by {mutant.claim}"
