"""The tokens of a text of the inscription language, as far as explanations need them: a text may be
refused, so anything is a token."""
from __future__ import annotations

import re
from typing import List, Tuple

TOKEN = re.compile(
    r'"(?:[^"\\]|\\.)*"?|[A-Za-z]\w*|~?\d+|::|\^\^|\+\+|@\+|<>|<=|>=|=>|\.\.|\S'
)
NAME = re.compile(r"[A-Za-z]\w*")
BODIES = ("unit", "bool", "int", "string", "with", "product", "list", "union")  # of colour sets
DECLARATIONS = ("colset", "var", "val", "fun")
BEFORE_OPERANDS = ("if", "case", "let", "val", "foldl", "not")
AFTER_OPERANDS = (
    *("then", "else", "of", "in", "end", "over", "from", "do"),
    *("andalso", "orelse", "div", "mod"),
)
VALUES = ("true", "false")
RESERVED = {
    *(*BODIES, *DECLARATIONS, *BEFORE_OPERANDS, *AFTER_OPERANDS, *VALUES),
    *("timed", "empty", "time"),
}
OPENING, CLOSING = ("(", "["), (")", "]")


def tokens_of(text: str) -> List[str]:
    return TOKEN.findall(text)


def is_name(token: str) -> bool:
    """Returns whether a token is a name, and no reserved word."""
    return bool(NAME.fullmatch(token)) and token not in RESERVED


def depths_of(tokens: List[str]) -> List[int]:
    """Returns how many brackets are open at each token; at a bracket itself, how many are open
    around it."""
    depths, depth = [], 0
    for token in tokens:
        depth -= token in CLOSING
        depths.append(depth)
        depth += token in OPENING
    return depths


def parted(tokens: List[str], signs: Tuple[str, ...]) -> List[List[str]]:
    """Returns the parts of some tokens between signs that stand in no brackets."""
    parts: List[List[str]] = [[]]
    for token, depth in zip(tokens, depths_of(tokens)):
        if token in signs and not depth:
            parts.append([])
        else:
            parts[-1].append(token)
    return parts


def unwrapped(tokens: List[str]) -> List[str]:
    """Returns the tokens without the parentheses around all of them; those of a tuple or of ()
    stay."""
    while tokens[:1] == ["("] and tokens[-1] == ")" and len(tokens) > 2:
        within = [*zip(tokens, depths_of(tokens))][1:-1]
        if any(not depth or depth == 1 and token == "," for token, depth in within):
            break
        tokens = tokens[1:-1]
    return tokens
