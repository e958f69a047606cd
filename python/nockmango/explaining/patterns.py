"""How a form of another language is found in a refused text, where that is not by its cell alone in
the table 'Forms of other languages' of docs/REFUSALS.md.

The refused character has to be one of what the pattern finds or, where it has such a group, one of
its group `at`; or it begins the token after the group `before`. A form whose group `word` is a
declared name is none.
"""
from __future__ import annotations

from typing import Dict, Tuple

from .document import ARCS, BOTH, DECLARATION, DELAY, GUARD, INITIAL, INPUT, MONITOR
from .tokens import RESERVED

Patterns = Dict[str, Tuple[str, ...]]
Sites = Tuple[str, ...]

MULTISETS = (*ARCS, INITIAL)
INSCRIBED = (*MULTISETS, GUARD, DELAY, MONITOR)
NO_WORD = rf"(?!(?:{'|'.join(sorted(RESERVED))})\b)"
AFTER_WORD = rf"\b(?:{'|'.join(sorted(RESERVED))})\s+"
CALLED = r"\s*\([^()]*\)?"  # what a function is given in parentheses
GIVEN = r"\s*(?=[\w(\[{]).*"  # the same, or without parentheses, and the rest of the text


def word(words: str, behind: str = "") -> str:
    """Returns the pattern of one of some words, with what may stand behind it."""
    return rf"\b(?P<word>{words})\b{behind}"


def before(words: str, behind: str = "") -> str:
    """Returns the pattern of one of some words after which the refused token stands."""
    return rf"\b(?P<before>{words})\b{behind}"


def listed(words: str) -> str:
    """Returns the pattern of a function of the library of lists."""
    return word(rf"(?:List\.)?(?:{words})", GIVEN)


ANYWHERE: Patterns = {
    # signs
    "of |": (r"\bof\s*(?P<at>\|)",),
    "b %1`x": (r"%\s*\d+\s*`",),
    ":=": (r":=|<-(?!\d)",),
    "+=": (r"[-+*]=",),
    "**": (r"\*\*", word("pow|power")),
    "--": ("--", r"`[^`]*(?P<at>-\s*\d+\s*`)"),
    "-": (
        r"(?:\A|[^\w)\]\"\s])\s*(?P<at>(?P<word>-))",
        rf"{AFTER_WORD}(?P<at>(?P<word>-))",
    ),
    "–": ("[–—−]",),
    "≤": ("[≤≥≠×÷·∧∨¬]",),
    "“": ("[“”„«»]",),
    "´": ("[´‘’]",),
    "2'x": (r"(?<!\w)\d+\s*(?P<at>')",),
    "'ab'": (r"(?<![\w)])'[^'`]*'?",),
    "l @ [x]": (r"@\s*(?P<at>\[)",),
    "7 @ t": (r"@\s*(?P<at>[A-Za-z]\w*|[(\"~])",),
    "#n": (r"#\s*(?P<at>[A-Za-z]\w*)",),
    '#"a"': (r"#\s*(?P<at>\")",),
    "p.1": (r"\b[A-Za-z]\w*(?P<at>\.)\d+",),
    "1.5": (r"\d+(?P<at>\.)\d+", r"(?<![\w.])(?P<at>\.)\d+"),
    # the clock, and chance
    "ModelTime": (rf"\b(?P<word>ModelTime\.\w+)(?:{CALLED})?",),
    "time()": (r"\btime\s*\(\s*\)",),
    "intTime()": (r"\bintTime\s*\(\s*\)",),
    "exponential": (
        word("exponential|normal|poisson|uniform|bernoulli|binomial|erlang", CALLED),
        word("chisq|student|rayleigh|weibull", CALLED),
    ),
    "discrete": (word("discrete"), word("random|rand|ran", CALLED)),
    ".ran": (r"\.ran\b", r"\bran'\w+"),
    # libraries
    "map": (listed("map|mapPartial|app"),),
    "filter": (listed("filter|partition|find"),),
    "exists": (listed("exists|all|forall|any"),),
    "foldl f 0 l": (word(r"(?:List\.)?fold[lr]", r"(?!\s*\w+\s*,\s*\w+\s+over\b).*"),),
    "nth": (listed("nth|last|take|drop"),),
    "sort": (
        listed("sort|ins|ins_new|rm|rmall|remdupl"),
        listed("concat|contains|contains_all|intersect"),
    ),
    "substring": (
        word(r"String\.(?:sub|substring|explode|implode|extract|tokens)"),
        word("substring|explode|implode"),
    ),
    "Int.toString": (word(r"(?:\w+\.)?(?:toString|makestring|mkstr|str|itoa)"),),
    "fromString": (word(r"(?:\w+\.)?(?:fromString|valOf|atoi|parseInt)"),),
    "round": (
        word(r"(?:Real|Math)\.\w+", rf"(?:{CALLED})?"),
        word("round|floor|ceil|trunc|real|sqrt", CALLED),
    ),
    "abs": (word(r"(?:Int\.)?abs"),),
    "min": (word(r"(?:Int\.)?(?:min|max)"),),
    "fst": (word("fst|snd"), before("fst|snd")),
    "list_to_ms": (word("list_to_ms|ms_to_list|ext_col|ext_ms|cf"), r"\.(?:all|mkms)\b"),
    "print": (word("print|println|display"), before("print|println|display")),
    "raise": (before("raise"),),
    # words
    "and": (r"(?i:\band\b)", before("and")),
    "or": (r"(?i:\bor\b)", before("or")),
    "null l": (r"\b(?P<word>null)\s*\(", before("null", r"(?=\s+[\w(])")),
    "null": (word("null|NULL|Null|None|undefined"),),
    "fn": (before("fn"),),
    "elseif": (r"\b(?:elseif|elsif|elif)\b",),
    "if b then x": (r"\bif\b(?:(?!\belse\b).)*(?P<at>\Z|;\s*\Z)",),
    "if .. end": (r"\bif\b(?:(?!\blet\b).)*(?P<at>\b(?:end|endif|fi)\b)",),
    "x if b else y": (r"\S\s+(?P<at>if)\b(?:(?!\bthen\b).)*\belse\b",),
    "1 + if": (
        r"[-+*^=<>:`]\s*(?P<at>\b(?:if|case|foldl)\b)",
        r"\b(?:andalso|orelse|div|mod|not)\s*(?P<at>\b(?:if|case|foldl)\b)",
    ),
    "for": (before("for|while|repeat"),),
    "return": (before("return"),),
    "x in l": (r"\A(?:(?!\blet\b).)*?(?P<at>\bin\b)",),
    "val (": (r"\bval\s*(?P<at>\()",),
    # two values side by side, whatever they are
    "f x": (rf"\b{NO_WORD}[A-Za-z]\w*\s+(?P<at>\w+|[\"(\[~])",),
}

IN_MULTISETS: Patterns = {
    "1`a + 1`b": (
        r"\w*`[^`+]*(?P<at>\+(?!\+)[^`+]*`)\w*",
        r"\w*`[^`]*(?P<at>,)[^,`]*`\w*",
        r"\w*`[^`]*?(?P<at>\b\d+\s*`)\w*",
    ),
    "@+ 5": (r"\A\s*(?P<at>@\+)",),
    "x, y": (",",),
}

IN_INSCRIPTIONS: Patterns = {
    "l[0]": (r"[\w)\]]+\s*(?P<at>\[)[^\[\]]*\]?",),
    "x;": (";",),
    "2()": (rf"(?<![\w.])\d+\s*(?P<at>{NO_WORD}[A-Za-z]\w*|\(\)?|[\"\[])",),
}

IN_GUARDS: Patterns = {"b, x > 3": (",",)}
ON_INPUTS: Patterns = {"x @+ 3": (r"[\w)\]\"]\s*(?P<at>@\+)",)}

IN_DECLARATIONS: Patterns = {
    "union a | b": (r"\bunion\b[^|]*(?P<at>\|)",),
    "{red, green}": (r"\A\s*colset\b[^{]*(?P<at>\{)",),
    "color": (r"\A\s*(?P<at>[Cc]olou?r)\b",),
    "const": (r"\A\s*(?P<at>const|let|define)\b",),
    "record": (r"=\s*(?P<before>record)\b",),
    "subset": (r"=\s*(?P<before>subset)\b",),
    "index": (r"=\s*(?P<before>index)\b",),
    "real": (word("real|float|double|decimal"),),
    "bool with": (r"\bbool\s+(?P<at>with)\b",),
    "unit with": (r"\bunit\s+(?P<at>with)\b",),
    "string with": (r"\bstring\s+(?P<at>with)\b",),
    "int with 1..n": (
        r"\bint\s+with\s+(?:~?\d+\s*\.\.\s*)?(?P<at>[A-Za-z]\w*)",
        r"\bint\s+with\s+~?\d+\s*(?P<at>[^.\d\s])",
        r"\bint\s+(?:with\s*)?(?P<at>[(\[])",
        r"\bint\s+(?P<at>\d+)",
        r"\.\.(?P<at>\.)",
    ),
    "with red, green": (r"\bwith\s+\w+(?:\s*\|\s*\w+)*\s*(?P<at>,)",),
    "= A * B": (r"\A\s*colset\s+\w+\s*=\s*\w+\s*(?P<at>\*)",),
    "product (A, B)": (r"\bproduct\b[^;(,]*(?P<at>[(,])",),
    "list of A": (r"\blist\s+(?P<at>of)\b",),
    "A list": (r"=\s*\w+\s+(?P<at>list)\b",),
    "union a of A": (r"\bunion\b.*?(?P<at>\bof\b)",),
    "timed int": (r"=\s*(?P<at>timed)\b",),
    "int time": (r"(?P<at>\btime)\s*;",),
    "ms": (r"(?P<at>\bms\b)",),
    "fun f()": (r"\A\s*fun\s+\w+\s*\(\s*(?P<at>\))",),
    "fun f(x)": (r"\A\s*fun\s+\w+\s*\((?:[^()]*,)?\s*\w+\s*(?P<at>[),])",),
    "fun f x": (r"\A\s*fun\s+\w+\s+(?P<at>[^\s(])",),
    "fun f(x : A) =": (r"\A\s*fun\s+\w+\s*\([^()]*\)\s*(?P<at>=)",),
    "fun f(..) = .. f(..)": (r"\A\s*fun\s+(?P<name>\w+)\b.*?=.*?(?P<at>\b(?P=name)\b)",),
    "val x : A": (r"\A\s*val\s+\w+\s*(?P<at>:)",),
    "var x =": (r"\A\s*var\b[^:;=]*(?P<at>=)",),
    "var x;": (r"\A\s*var\b[^:;]*(?P<at>;)",),
    "var A x": (r"\A\s*var\s+(?P<at>\w+\s+\w+)",),
    **{kind: (rf"(?P<at>\b{kind}\b)",) for kind in ("int", "string", "bool", "unit")},
    ";": (r"(?P<before>;)",),
}

BY_SITES: Tuple[Tuple[Sites, Patterns], ...] = (
    ((), ANYWHERE),
    (MULTISETS, IN_MULTISETS),
    (INSCRIBED, IN_INSCRIPTIONS),
    ((GUARD,), IN_GUARDS),
    ((INPUT, BOTH), ON_INPUTS),
    ((DECLARATION,), IN_DECLARATIONS),
)
# How a form is found, and at which sites alone; at all, where there are none.
SPECIAL: Dict[str, Tuple[Tuple[str, ...], Sites]] = {
    written: (patterns, sites) for sites, found in BY_SITES for written, patterns in found.items()
}
GENERAL = ("2()", "f x")  # forms that fit where a word is misspelt too
