"""Of a report: how its last run ended, and which inscriptions may have the fault that ended it."""
from __future__ import annotations

from typing import Dict, Iterator, List, Tuple

from .document import Document
from .modules import FAULTS


def report_facts(net: Document, lines: List[str]) -> Tuple[str, List[str]]:
    """Returns the row of how the last run ended, and what is to be said."""
    found: Dict[str, List[str]] = {it.split(" ")[0]: it.split(" ") for it in lines}
    end, runs, total = found["end"], int(found["run"][1]) + 1, found["total"][1]
    made = f"{total} occurrence{'s' * (total != '1')}"
    who, last = ("Its run", "") if runs == 1 else (f"Its {runs} runs", "the last one ")
    clock = found["clock"][1]
    said = [f"The net is accepted. {who} made {made} and {last}ended at the clock {clock}."]
    if end[1] == "fault":
        return end[3], [*said, *fault_facts(net, end[3], " ".join(end[4:]))]
    if end[1] == "stop":
        return "end stop", [*said, f"The monitor is {' '.join(end[2:])}."]
    if end[1] == "dead":
        return "end dead", [*said, *bare_arcs(net)]
    return f"end {end[1]}", said + [f"The next occurrence would be at {it}." for it in end[2:]]


def bare_arcs(net: Document) -> Iterator[str]:
    """Yields which arcs at transitions have no inscription."""
    for number, module in enumerate(net.document["modules"]):
        transitions = {it["name"] for it in module["transitions"]}
        for at, arc in enumerate(module["arcs"]):
            if "expr" not in arc and arc["transition"] in transitions:
                told = net.told(f"/modules/{number}/arcs/{at}")
                yield f"There is no inscription on {told}: it carries no token."


def fault_facts(net: Document, fault: str, element: str) -> Iterator[str]:
    """Yields the transition of an element that has a fault, its binding, and the inscriptions that
    may have it."""
    name, _, binding = element.partition(" {")
    path, _, transition = name.rpartition("/")
    module = net.flat.modules[path]["name"]
    yield (
        f"The transition is {transition} of module {module}, in the instance {path}, with the"
        f" binding {{{binding}"
    )
    parts = net.flat.pointer(name, "transitions").split("/")[1:]
    written = net.texts_of(parts)
    delays = [it for it in written if it[-1] == "delay"]
    arcs = [it for it in written if it[-1] == "expr" and net.get(it[:-1])["to"] != "transition"]
    texts = ["/".join(["", *it]) for it in delays + arcs]
    likely = texts[: len(delays)] if fault == "bad_delay" else []
    likely += [it for it in texts if it not in likely and net.may_fault(it, FAULTS[fault])]
    for it in likely or texts:
        yield f"Probably in {net.told(it)}: {net.get(it.split('/')[1:])}"
