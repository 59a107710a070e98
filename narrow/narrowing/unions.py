"""When a value of a union would come back as a value of another member.

A number comes back in canonical spelling. Of a union of NMTOKEN and int, `+7` is a number, and `7` a name.
"""
from __future__ import annotations

import re

from .facts import Facts

CANONICAL = re.compile(r"0|-?[1-9][0-9]{0,60}")  # a whole number as it comes back
OPEN = ("string", "normalizedString", "token", "anyURI")  # texts that accept each word


def accepts_all(f: Facts) -> bool:
    """Says whether a text accepts each word."""
    return f.words is None and f.root in OPEN and f.shortest <= 1 and f.longest is None


def accepts_single_spaces(f: Facts) -> bool:
    """Says whether a text may accept words with single spaces between them, and not with others."""
    return f.kind == "text" and f.space != "collapse" and not accepts_all(f)


def accepts_respelled(earlier: Facts, f: Facts) -> bool:
    """Says whether a type may accept the canonical spelling of a value of `f`, and not each other one. Neither has parts."""
    if f.kind == "int" and earlier.kind == "bool":
        return any(f.has_number(n) for n in (0, 1))
    if f.kind not in ("int", "bool") or earlier.kind != "text" or accepts_all(earlier):
        return False
    if earlier.words is not None:
        return any(is_canonical(word, f) for text in earlier.words for word in text.split())
    if f.kind == "int":
        return earlier.root not in ("Name", "NCName", "language")  # These begin with a letter.
    return earlier.root != "NMTOKEN" or earlier.shortest > 1 or earlier.longest is not None


def is_canonical(word: str, f: Facts) -> bool:
    """Says whether a word is the canonical spelling of a value of a type of numbers or truth values."""
    if f.kind == "bool":
        return word in ("true", "false")
    return bool(CANONICAL.fullmatch(word)) and f.has_number(int(word))
