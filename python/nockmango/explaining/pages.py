"""The pages of docs/ that explanations quote: the tables of a page by their headings, and the
schema of a net document.

An installed package has them in the folder pages/ beside this file, where setup.py copies them;
in the repository they are those of docs/.
"""
from __future__ import annotations

import functools
import json
import os
import re
from typing import Any, Dict, List

HERE = os.path.dirname(os.path.abspath(__file__))
INSTALLED = os.path.join(HERE, "pages")
IN_DOCS = os.path.join(HERE, "..", "..", "..", "docs")
FOLDER = INSTALLED if os.path.isdir(INSTALLED) else IN_DOCS
REFUSALS = "REFUSALS.md"
INSCRIPTIONS = "INSCRIPTIONS.md"
OF_REFUSALS = (
    *("The document", "The texts"),
    *("The modules and the flat net", "How a run ends"),
)
CELL = re.compile(r"(?<!\\)\|")
CODE = re.compile(r"(`+) ?(.*?) ?\1(?!`)")
LINK = re.compile(r"\[([^\]]*)\]\([^)]*\)")


@functools.cache
def page(name: str) -> str:
    """Returns the text of a page."""
    with open(os.path.join(FOLDER, name), encoding="utf-8") as file:
        return file.read()


@functools.cache
def schema() -> Dict[str, Any]:
    """Returns the schema of a net document."""
    return json.loads(page("net.schema.json"))


@functools.cache
def table(heading: str, name: str = REFUSALS) -> List[List[str]]:
    """Returns the rows of the table below a heading of a page, cell by cell, as they are written
    there."""
    section = page(name).partition(f"\n## {heading}\n")[2].partition("\n## ")[0]
    lines = [CELL.split(line)[1:-1] for line in section.splitlines() if line.startswith("|")]
    return [[cell.strip().replace(r"\|", "|") for cell in line] for line in lines[2:]]


def plain(cell: str) -> str:
    """Returns a cell as plain text: without the signs of code, and of its links the words alone."""
    return CODE.sub(r"\2", LINK.sub(r"\1", cell))


@functools.cache
def rows(heading: str, name: str = REFUSALS) -> Dict[str, List[str]]:
    """Returns the rows of the table below a heading as plain text: the other cells by the first."""
    cells = [[plain(cell) for cell in row] for row in table(heading, name)]
    return {first: others for first, *others in cells}


@functools.cache
def refusals() -> Dict[str, List[str]]:
    """Returns what each refusal and each end of a run says, its usual cause and its cure."""
    return {key: cells for heading in OF_REFUSALS for key, cells in rows(heading).items()}
