"""What the program's error lines and ends of runs mean, in words: where, what is usually the cause,
and the cure.

    explain(document_text, error_line)    the explanation, in lines
    explained(data, options, printed)     the same line by line, of all that the program printed for
                                          the bytes of a document
    LINE                                  what an error line looks like

What each refusal means, its usual cause and its cure stand in the tables of docs/REFUSALS.md, what
CPN Tools writes otherwise in docs/INSCRIPTIONS.md, and which keys an object has in
docs/net.schema.json: all three are read from there.
"""
from .explanation import LINE, explain, explained

__all__ = ["LINE", "explain", "explained"]
