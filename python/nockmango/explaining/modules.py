"""Refusals by a rule of modules, and of the flat net: which modules, ports, places and markings are
meant."""
from __future__ import annotations

from typing import Any, Dict, Iterator, List, Optional, Tuple

from .document import Document
from .nearest import nearest
from .pages import refusals

# The type of a port by where the arcs of its socket lead.
PORTS = {"transition": "in", "place": "out", "place transition": "io"}
FAULTS = {  # what an inscription has that may have the fault
    "overflow": r"[-+*~]|\bdiv\b",
    "divide_by_zero": r"\b(div|mod)\b",
    "empty_list": r"\b(hd|tl)\b",
    "no_case": r"\bcase\b",
    "not_in_colour": r"\.\.",
    "bad_coefficient": "`",
    "bad_delay": r"@\+|\btime\b",
    "too_large": r"[`^]|::",
}
SWAPPED = (
    "The port and the socket stand the wrong way round: the port is a place of the submodule, and"
    " the socket one of this module."
)
BY_PORTS = (
    "An arc joins a place and a transition of one module: across modules they are joined by ports."
)
Part = Dict[str, Any]


def module_facts(net: Document, name: str, parts: List[str]) -> Iterator[str]:
    """Yields what is to be said of a refusal by a rule of modules."""
    it = net.get(parts)
    module = net.get(parts[:2]) if parts[0] == "modules" else None
    if name == "unknown_module":
        yield nearest(it, names_of(net.document["modules"]))
    elif name == "unknown_transition":
        yield from unknown_transition(net, it, module)
    elif name == "unknown_place":
        yield from unknown_place(net, it, parts, module)
    elif name == "cycle":
        subs = [(one, sub) for one in net.document["modules"] for sub in one.get("subs", [])]
        found = [f"{one['name']} has the part {sub['module']}." for one, sub in subs]
        yield from dict.fromkeys(found)
    elif name == "two_fusions":
        sets = [one for one in net.document["fusions"] if it in one["members"]]
        yield from (f"It is a member of {one['name']}." for one in sets)
    elif name == "port_twice":
        first = [one["port"] for one in net.get(parts[:-1])].index(it["port"]) + 1
        number = int(parts[-1]) + 1
        stands = f"Its port stands in assignment {first} of these already"
        yield f"{stands}, and this is number {number}."
    elif name == "socket_type":
        yield from socket_facts(net, it, net.get(parts[:4]), module)
    elif name == "colour_differs":
        yield from colour_facts(net, it, parts, module)


def names_of(items: List[Part]) -> List[str]:
    return [it["name"] for it in items]


# ---- names that are not there


def elsewhere(net: Document, kind: str, name: str, module: Part) -> Iterator[str]:
    """Yields in which other modules a name stands."""
    others = [one for one in net.document["modules"] if one is not module]
    found = [one["name"] for one in others if name in names_of(one[kind])]
    if found:
        yield f"Module {' and module '.join(found)} has one of this name. {BY_PORTS}"


def unknown_transition(net: Document, name: str, module: Part) -> Iterator[str]:
    """Yields which transition was probably meant, and what has the name."""
    yield nearest(name, names_of(module["transitions"] + module.get("subs", [])))
    if name in names_of(module["places"]):
        owner = module["name"]
        yield f"{name} is a place of module {owner}: an arc joins a place and a transition."
    yield from elsewhere(net, "transitions", name, module)


def unknown_place(
    net: Document, name: str, parts: List[str], module: Optional[Part]
) -> Iterator[str]:
    """Yields which place or port is looked for, and which one was probably meant."""
    is_arc, is_port = "arcs" in parts, parts[-1] == "port"
    owner = module
    if not is_arc and parts[-1] != "socket":
        owner = net.module(net.get(parts[:4] if is_port else parts[:-1])["module"])
    there = [it for it in owner["places"] if not is_port or "port" in it]
    yield f"Looked for is a {'port' if is_port else 'place'} {name} of module {owner['name']}."
    if name in names_of(owner["places"]):
        yield "It has that place, but without the key port."
    else:
        yield nearest(name, names_of(there))
    if "assign" in parts and is_swapped(net, parts, module):
        yield SWAPPED
    if is_arc and name in names_of(owner["transitions"] + owner.get("subs", [])):
        of = owner["name"]
        yield f"{name} is a transition of module {of}: an arc joins a place and a transition."
    if is_arc:
        yield from elsewhere(net, "places", name, owner)


def is_swapped(net: Document, parts: List[str], module: Part) -> bool:
    """Returns whether an assignment would be right with its port and its socket exchanged."""
    assignment, submodule = net.get(parts[:-1]), net.module(net.get(parts[:4])["module"])
    ports = [it["name"] for it in submodule["places"] if "port" in it]
    return assignment["socket"] in ports and assignment["port"] in names_of(module["places"])


# ---- what does not go together


def socket_facts(net: Document, it: Part, sub: Part, module: Part) -> Iterator[str]:
    """Yields of which type the port of an assignment is, and of which it has to be by the arcs of
    its socket."""
    places = net.module(sub["module"])["places"]
    port = next(one["port"] for one in places if one["name"] == it["port"])
    ends = (it["socket"], sub["name"])
    ways = [arc["to"] for arc in module["arcs"] if (arc["place"], arc["transition"]) == ends]
    ways = sorted({*" ".join(ways).replace("both", "place transition").split()})
    wanted = PORTS.get(" ".join(ways))
    yield f"The port is of type {port}."
    if wanted:
        yield f"By the arcs of its socket it has to be of type {wanted}."
    else:
        yield "No arc joins its socket with the substitution transition."


def colour_facts(
    net: Document, it: Part, parts: List[str], module: Optional[Part]
) -> Iterator[str]:
    """Yields the colour sets of two places that are to be one."""
    if module is None:
        first = net.get([*parts[:-1], "0"])
        pairs = [(first["module"], first["place"]), (it["module"], it["place"])]
    else:
        submodule = net.get(parts[:4])["module"]
        pairs = [(submodule, it["port"]), (module["name"], it["socket"])]
    for owner, place in pairs:
        places = net.module(owner)["places"]
        colour = next(one["colour"] for one in places if one["name"] == place)
        text = net.declared.text(colour)
        yield f"The colour set of place {place} of module {owner} is {colour}: {text}"


# ---- the flat net


def flat_facts(net: Document, name: str, detail: str) -> Tuple[Optional[str], List[str]]:
    """Returns the pointer of an initial marking that is meant, where it is one, and what is to be
    said."""
    place, _, fault = detail.rpartition(" ") if name == "init" else (detail, "", "")
    texts = net.flat.markings(place) if place else {}
    if fault:
        texts = {it: text for it, text in texts.items() if net.may_fault(it, FAULTS[fault])}
    said = [f"{net.told(it)}: {text}" for it, text in texts.items()]
    if fault:
        said.append(f"The fault is {fault}: {refusals()[fault][0]}")
    return next(iter(texts), None), said


def flat_name_facts(net: Document, it: Part) -> Iterator[str]:
    """Yields what is to be said of a monitor or an edit whose place or transition the flat net does
    not have by this name."""
    key = "place" if "place" in it else "transition"
    name, names = it[key], net.flat.names(f"{key}s")
    yield f"Looked for is a {key} {name} of the flat net."
    if name in names:
        compound = net.flat.compound_name(name)
        yield f"It is one place with {compound}, and has that name alone."
        return
    ends = [one for one in names if one.endswith(f"/{name}")]
    yield f"Did you mean {ends[0]}?" if len(ends) == 1 else nearest(name, names)
