"""What can be said of a pattern: the words that it matches, where they are few, and how long they are."""
from __future__ import annotations

import importlib
import re
import sys
from typing import Any, Optional

sre_parse: Any = importlib.import_module("re._parser" if sys.version_info >= (3, 11) else "sre_parse")

MOST_WORDS = 256  # A pattern that matches this many words or fewer becomes an enumeration.
MOST_LENGTH = 65_535  # A greater length than this isn't written.


class Many(Exception):
    """The words aren't few, or can't be listed."""


class Words:
    """Lists the words that a parsed pattern matches. `digits`: of the category of digits, those of ASCII."""

    def __init__(self, digits: bool) -> None:
        self.digits = digits

    def of_all(self, items: Any) -> list[str]:
        """Returns the words of a sequence of items."""
        words = [""]
        for op, arg in items:
            words = [a + b for a in words for b in self.of_one(str(op), arg)]
            if len(words) > MOST_WORDS:
                raise Many
        return words

    def of_one(self, op: str, arg: Any) -> list[str]:
        """Returns the words of one item."""
        if op == "LITERAL":
            return [chr(arg)]
        if op in ("AT", "ASSERT_NOT"):  # The end of each pattern of xmlschema.
            return [""]
        if op == "IN":
            return [w for o, a in arg for w in self.of_class(str(o), a)]
        if op == "BRANCH":
            return [w for items in arg[1] for w in self.of_all(items)]
        if op == "SUBPATTERN":
            return self.of_all(arg[-1])
        if op == "MAX_REPEAT" and arg[1] <= 16:
            return [w for n in range(arg[0], arg[1] + 1) for w in self.of_all(list(arg[2]) * n)]
        raise Many

    def of_class(self, op: str, arg: Any) -> list[str]:
        """Returns the characters of a part of a character class."""
        if op == "RANGE":
            if arg[1] - arg[0] > MOST_WORDS:
                raise Many
            return [chr(c) for c in range(arg[0], arg[1] + 1)]
        if op == "CATEGORY" and self.digits and str(arg) == "CATEGORY_DIGIT":
            return list("0123456789")
        return self.of_one(op, arg)


def few_words(patterns: list[Any], digits: bool = False) -> Optional[list[str]]:
    """Returns the words that one of the compiled patterns matches, or None where they aren't few."""
    words: list[str] = []
    for pattern in patterns:
        try:
            words += Words(digits).of_all(sre_parse.parse(pattern.pattern))
        except (Many, ValueError, re.error, RecursionError, OverflowError):
            return None
    words = list(dict.fromkeys(words))
    return words if len(words) <= MOST_WORDS else None


def width_of(patterns: list[Any]) -> tuple[int, Optional[int]]:
    """Returns the least and the greatest length of words that one of the patterns matches; None is no bound."""
    try:
        spans = [sre_parse.parse(p.pattern).getwidth() for p in patterns]
    except (re.error, RecursionError, OverflowError):
        return 0, None
    shortest, longest = min(s[0] for s in spans), max(s[1] for s in spans)
    return min(int(shortest), MOST_LENGTH), int(longest) if longest <= MOST_LENGTH else None
