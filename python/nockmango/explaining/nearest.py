"""The name that was probably meant in place of another one."""
from __future__ import annotations

import difflib
from typing import Any, Iterable, Optional

CLOSE = 0.5  # how alike two names are, from 0 to 1, of which one is offered for the other
MOST_SHOWN = 12


def closest(name: str, names: Iterable[Any], close: float = CLOSE) -> Optional[str]:
    """Returns the name that is most like another one, first of all one with other capitals."""
    there = sorted({it for it in names if isinstance(it, str)})
    same = [it for it in there if it.lower() == name.lower()]
    return (same or difflib.get_close_matches(name, there, 1, close) or [None])[0]


def nearest(name: str, names: Iterable[Any], further: Iterable[str] = ()) -> str:
    """Returns the name that was probably meant, also a further one; or, where there is none that is
    alike, which names there are."""
    there = sorted({it for it in names if isinstance(it, str)})
    if found := closest(name, [*there, *further]):
        return f"Did you mean {found}?"
    others = " and others" * (len(there) > MOST_SHOWN)
    return f"There is {', '.join(there[:MOST_SHOWN])}{others}." if there else "There is none."
