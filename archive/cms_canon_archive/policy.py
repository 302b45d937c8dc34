"""Until when algorithms and lengths of keys are accepted, as a file in TOML says it."""

from __future__ import annotations

import re
from datetime import date
from importlib import import_module
from pathlib import Path
from typing import Any, Dict, List, NamedTuple, Optional, Tuple

from .faults import Complaint
from .texts import shown

SHIPPED = Path(__file__).with_name("policy.toml")
MOST_OCTETS = 1 << 16  # of a policy, which is a part of each question
_PARTS = ("digests", "signatures", "keys")
_BITS = re.compile("[1-9][0-9]{0,5}")
_Days = Dict[str, str]  # the last day of each, as 2030-12-31


class Policy(NamedTuple):
    """The last day on which something is accepted, as `2030-12-31`. What is not there is not known."""

    digests: _Days
    signatures: _Days
    keys: _Days
    """Those of which the length does not matter, as a curve."""
    lengths: Dict[str, List[Tuple[int, str]]]
    """Of other keys from how many bits on, the longest first."""

    def of_key(self, key: Optional[str], bits: Optional[int]) -> Optional[str]:
        """Returns the last day of a key; None if it is not known."""
        if key in self.lengths:
            return next((day for least, day in self.lengths[key] if bits is not None and bits >= least), None)
        return self.keys.get(key or "")


def policy_in(path: Path = SHIPPED) -> Policy:
    """Returns the policy in a file. Raises `Complaint` with a line that says what is wrong with it, and where, and `OSError` if it cannot be read."""
    toml = _toml()
    with path.open("rb") as file:
        octets = file.read(MOST_OCTETS + 1)
    if len(octets) > MOST_OCTETS:
        raise _wrong(path, f"a policy has at most {MOST_OCTETS:,} octets")
    try:
        return _policy_of(toml.loads(octets.decode("utf-8")))
    except RecursionError:
        raise _wrong(path, "a policy is not so deep")
    except ValueError as why:  # also what TOML and UTF-8 are not
        raise _wrong(path, str(why))


def _wrong(path: Path, why: str) -> Complaint:
    return Complaint(f"{shown(str(path))}: {shown(why)}")


def _toml() -> Any:
    for name in ("tomllib", "tomli"):  # the first is in Python from 3.11 on
        try:
            return import_module(name)
        except ImportError:
            continue
    raise Complaint("a policy is read by Python 3.11 or later, or by the package tomli: install it")


def _policy_of(found: Dict[str, Any]) -> Policy:
    for name in found:
        if name not in _PARTS:
            raise ValueError(f"{name} is no part of a policy, which has {', '.join(_PARTS)}")
    for name in _PARTS:
        if not isinstance(found.get(name), dict):
            raise ValueError(f"there is no [{name}]")
    keys = found["keys"]
    lengths = {name: _lengths_of(f"keys.{name}", value) for name, value in keys.items() if isinstance(value, dict)}
    others = {name: value for name, value in keys.items() if name not in lengths}
    return Policy(_days_of("digests", found["digests"]), _days_of("signatures", found["signatures"]), _days_of("keys", others), lengths)


def _days_of(part: str, values: Dict[str, Any]) -> _Days:
    return {name: _day_of(f"{part}.{name}", value) for name, value in values.items()}


def _lengths_of(part: str, values: Dict[str, Any]) -> List[Tuple[int, str]]:
    for name in values:
        if not _BITS.fullmatch(name):
            raise ValueError(f"{part}.{name}: {name} is no number of bits")
    return sorted(((int(name), _day_of(f"{part}.{name}", value)) for name, value in values.items()), reverse=True)


def _day_of(name: str, value: Any) -> str:
    if type(value) is not date:  # one with a time of day is a date too
        raise ValueError(f"{name} is not a day as 2030-12-31, without quotes")
    return value.isoformat()
