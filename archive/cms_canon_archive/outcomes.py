"""What came of messages, as the status that a command ends with: 0 only if each fits."""

from __future__ import annotations

from enum import IntEnum
from typing import Iterable

from .containers.found import State
from .containers.refused import IN_PLACE
from .judging import NOT_ALL_TIMES, Facts


class Outcome(IntEnum):
    """What came of a message: the worst of all is that of a file, or of an archive."""

    FITS = 0
    NOT_KNOWN = 3
    DIFFERS = 1


DOUBTS = (  # what a note has if it is not known whether a message fits: one is enough
    *("readers differ", "readers may differ", "readers do not show", "some readers take", "something else than zeros follows"),
    *(NOT_ALL_TIMES, IN_PLACE),
)
_BY_WEIGHT = (Outcome.FITS, Outcome.NOT_KNOWN, Outcome.DIFFERS)


def worst(outcomes: Iterable[Outcome], default: Outcome = Outcome.NOT_KNOWN) -> Outcome:
    """Returns the worst of some outcomes; that nothing is known if there is none, or as is said."""
    return max(outcomes, key=_BY_WEIGHT.index, default=default)


def outcome_of(facts: Facts) -> Outcome:
    """Returns whether a message fits its document: only if each digest was compared, those of time-stamps too, no reader takes the file otherwise, and each
    signature that was to be verified is right."""
    if State.DIFFERS in (facts.state, *(it.state for it in facts.times)) or facts.verdict == "wrong":
        return Outcome.DIFFERS
    is_known = facts.verdict != "unknown" and not any(it in facts.note for it in DOUBTS)
    is_known = is_known and all(it is State.FITS for it in (facts.state, *(it.state for it in facts.times)))
    return Outcome.FITS if is_known else Outcome.NOT_KNOWN
