"""The options of the program: which of them is refused, and why."""
from __future__ import annotations

import re
from typing import List, Sequence

from .nearest import nearest

RANGES = {
    "--seed": (0, 2**64 - 1),
    "--workers": (1, 64),
    "--steps": (1, 1_000_000),
    "--until": (0, 2**62),
}
OPTIONS = {
    "--mode": "run or large",
    **{name: f"{least} to {greatest}" for name, (least, greatest) in RANGES.items()},
    "--trace": "on or off",
}


def option_facts(options: Sequence[str]) -> List[str]:
    """Returns which option is refused, and why."""
    left, seen = [*options], set()
    while left and left != ["--"]:
        name, equals, value = left.pop(0).partition("=")
        if name not in OPTIONS:
            return [f"{name} is no option. {nearest(name, OPTIONS)}"]
        if not equals and left and not left[0].startswith("-"):
            value = left.pop(0)
        if name in seen:
            return [f"{name} stands twice."]
        if not takes(OPTIONS[name], value):
            found = f"and not {value}" if value else "and has no value"
            return [f"{name} takes {OPTIONS[name]}, {found}."]
        seen.add(name)
    return []


def takes(wanted: str, value: str) -> bool:
    """Returns whether a value is one of those, as '1 to 64' or 'on or off'."""
    low, to, high = wanted.partition(" to ")
    if not to:
        return value in wanted.split(" or ")
    return bool(re.fullmatch(r"\+?[0-9]+", value)) and int(low) <= int(value) <= int(high)
