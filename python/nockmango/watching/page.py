"""The page of tools/watch: the data of a report, the pictures of its net, and the script that shows
them, in one file that needs no network."""
from __future__ import annotations

import argparse
import html
import json
import os
import re
import subprocess
import sys
from typing import Any, Dict, Iterable, List, Optional, Sequence

from .. import drawing
from ..commands import Named, NotUsable, ended, net_of
from ..model import Net
from ..model.unfolding import instances
from ..reports import Report
from .recording import recorded

HERE = os.path.dirname(os.path.abspath(__file__))
LARGE = 20_000_000  # bytes of a page that a browser opens slowly
NO_GRAPHVIZ = (
    "Graphviz is not there, so the page has no picture: `apt-get install graphviz` gives it"
)


# ---- modules and instances


def pictures_of(document: Dict[str, Any], used: Iterable[int]) -> Dict[int, str]:
    """Returns the pictures of some modules, drawn by Graphviz; none where that is not there."""
    try:
        return {it: drawing.drawn(drawing.lines_of_module(document, it)) for it in used}
    except FileNotFoundError:
        print(f"tools/watch: {NO_GRAPHVIZ}", file=sys.stderr)
        return {}
    except subprocess.CalledProcessError as problem:
        raise NotUsable(f"Graphviz draws no picture: {problem.stderr.strip()}") from problem


def module_data(number: int, module: Dict[str, Any], picture: Optional[str]) -> Dict[str, Any]:
    """Returns the picture of a module, and the ids in it: of its places, its transitions, its
    substitution transitions, and of each arc with that of its transition."""
    transitions = drawing.transition_ids(number, module)
    ids = [*transitions.values()]
    own = len(module["transitions"])
    return {
        "name": module["name"],
        "picture": picture,
        "places": [*drawing.place_ids(number, module).values()],
        "transitions": ids[:own],
        "subs": ids[own:],
        "arcs": [
            [drawing.arc_id(number, at), transitions[arc["transition"]]]
            for at, arc in enumerate(module["arcs"])
        ],
    }


def instance_data(net: Net) -> List[Dict[str, Any]]:
    """Returns of each instance its module, its compound places, its transitions, and the instances
    of its substitution transitions, all by their numbers."""
    document = net.document
    numbers = {module["name"]: at for at, module in enumerate(document["modules"])}
    places = {name: at for at, name in enumerate(net.timed)}
    transitions = {name: at for at, name in enumerate(net.transitions)}
    found = [*instances(document, document["top"], document["top"])]
    paths = {path: at for at, (path, _) in enumerate(found)}
    return [
        {
            "path": path,
            "module": numbers[module["name"]],
            "places": [places[net.compound[f"{path}/{it['name']}"]] for it in module["places"]],
            "transitions": [transitions[f"{path}/{it['name']}"] for it in module["transitions"]],
            "subs": [paths[f"{path}/{it['name']}"] for it in module.get("subs", [])],
        }
        for path, module in found
    ]


def data_of(net: Net, report: Report, draws: bool = True) -> Dict[str, Any]:
    """Returns all that the page knows, as a JSON value."""
    of_instances = instance_data(net)
    used = sorted({it["module"] for it in of_instances})
    pictures = pictures_of(net.document, used) if draws else {}
    modules = [
        module_data(at, module, pictures.get(at))
        for at, module in enumerate(net.document["modules"])
    ]
    return {"modules": modules, "instances": of_instances, **recorded(net, report)}


# ---- the page


def part(name: str) -> str:
    """Returns a file that stands beside this one."""
    with open(os.path.join(HERE, name), encoding="utf-8") as file:
        return file.read()


def page_of(net: Net, report: Report, title: str) -> str:
    """Returns the page of a report."""
    data = json.dumps(data_of(net, report), separators=(",", ":"))
    parts = {
        "title": html.escape(title),
        "style": part("page.css").strip(),
        "script": part("page.js").strip(),
        "data": data.replace("<", "\\u003c"),
    }
    return re.sub(r"\{\{(\w+)\}\}", lambda found: parts[found[1]], part("page.html"))


def watch(words: Sequence[str], description: str) -> None:
    """Prints the page that the words of a command ask for."""
    parser = argparse.ArgumentParser(
        prog="tools/watch",
        usage="tools/watch NET REPORT > page.html",
        description=description,
        formatter_class=argparse.RawDescriptionHelpFormatter,
    )
    parser.add_argument("net", metavar="NET", help="the net document")
    parser.add_argument("report", metavar="REPORT", help="its report; - is the input")
    given = parser.parse_args(words)
    title = os.path.splitext(os.path.basename(given.net))[0]
    text = page_of(net_of(given.net), Named(given.report).report, title)
    if len(text) > LARGE:  # nearly all of it is ASCII
        size = f"{len(text) / 1_000_000:.0f} MB"
        print(f"tools/watch: the page has {size}; --steps makes a shorter run", file=sys.stderr)
    sys.stdout.buffer.write(text.encode("utf-8"))


def main(description: str, words: Optional[Sequence[str]] = None) -> int:
    """Runs tools/watch."""
    words = sys.argv[1:] if words is None else words
    return ended("tools/watch", lambda given: watch(given, description), words)
