"""The modules of a document unfolded, as plainly as can be: its instances, and the compound places
that ports with their sockets and fusion sets make of their places.

A document is a JSON value. A place of an instance is the name of the instance, from the top module
down, and the name of the place: ("Plant/saw", "Idle").
"""
from __future__ import annotations

import collections
from typing import Any, Dict, Iterator, List, Optional, Sequence, Tuple

Part = Dict[str, Any]
Instance = Tuple[str, Part]
PlaceInstance = Tuple[str, str]

LIMITS = {"instances": 4096, "places": 16384, "transitions": 16384}


def named(items: Sequence[Part], name: str) -> Optional[Part]:
    """Returns the one of this name, or None."""
    return next((it for it in items if it["name"] == name), None)


def module_named(document: Part, name: str) -> Optional[Part]:
    return named(document["modules"], name)


def instances(document: Part, name: str, path: str) -> Iterator[Instance]:
    """Yields the instances in preorder, from one of the module of this name on: each one's name,
    and its module."""
    module = module_named(document, name)
    yield path, module
    for sub in module.get("subs", []):
        yield from instances(document, sub["module"], f"{path}/{sub['name']}")


def joined(
    document: Part, found: Sequence[Instance]
) -> Iterator[Tuple[PlaceInstance, PlaceInstance]]:
    """Yields pairs of place instances that are joined: a port and its socket, and the first member
    of a fusion set and each further one."""
    for path, module in found:
        for sub in module.get("subs", []):
            for it in sub["assign"]:
                yield (f"{path}/{sub['name']}", it["port"]), (path, it["socket"])
    for fusion in document.get("fusions", []):
        fused = [
            (path, it["place"])
            for it in fusion["members"]
            for path, module in found
            if module["name"] == it["module"]
        ]
        for other in fused[1:]:
            yield fused[0], other


def compound(document: Part, found: Sequence[Instance]) -> List[List[PlaceInstance]]:
    """Returns the compound places, in order: the members of each, in order. Two that are joined
    have one number, the least of both, until nothing changes."""
    places = [(path, place["name"]) for path, module in found for place in module["places"]]
    first = {place: number for number, place in enumerate(places)}
    pairs, before = [*joined(document, found)], None
    while first != before:
        before = dict(first)
        for one, other in pairs:
            first[one] = first[other] = min(first[one], first[other])
    groups = collections.defaultdict(list)
    for place in places:
        groups[first[place]].append(place)
    return [groups[number] for number in sorted(groups)]


# ---- how large the flat net is, without making it


def counted(document: Part, name: str, known: Optional[Dict[str, Any]] = None) -> Dict[str, int]:
    """Returns how many instances, places and transitions a module unfolds to. `known` has those of
    some modules."""
    known = {} if known is None else known
    if name not in known:
        module = module_named(document, name)
        of_parts = [counted(document, sub["module"], known) for sub in module.get("subs", [])]
        own = {
            "instances": 1,
            "places": len(module["places"]),
            "transitions": len(module["transitions"]),
        }
        known[name] = {key: many + sum(it[key] for it in of_parts) for key, many in own.items()}
    return known[name]


def passed_limit(document: Part) -> Optional[str]:
    """Returns the refusal of the first limit that the flat net passes, or None."""
    counts = counted(document, document["top"])
    for number, (key, most) in enumerate(LIMITS.items(), 1):
        if counts[key] > most:
            return f"error net flat {number} {key}"
    return None
