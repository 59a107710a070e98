"""What the rewriting has to know of a simple type: `finding` and `restricting` find it from its base and its facets."""
from __future__ import annotations

from dataclasses import dataclass, field
from typing import Any, Optional

from .names import XS, split

INTEGERS: dict[str, tuple[Optional[int], Optional[int]]] = {
    "integer": (None, None),
    "nonPositiveInteger": (None, 0),
    "negativeInteger": (None, -1),
    "nonNegativeInteger": (0, None),
    "positiveInteger": (1, None),
}
for _bits, _word in ((8, "byte"), (16, "short"), (32, "int"), (64, "long")):
    INTEGERS[_word] = (-(2 ** (_bits - 1)), 2 ** (_bits - 1) - 1)
    INTEGERS["unsigned" + _word.capitalize()] = (0, 2**_bits - 1)
# The texts of the profile, with their treatment of white space.
TEXTS = {
    "string": "preserve",
    "normalizedString": "replace",
    "token": "collapse",
    "anyURI": "collapse",
    "language": "collapse",
    "NMTOKEN": "collapse",
    "Name": "collapse",
    "NCName": "collapse",
}
BY_SPACE = {"preserve": "string", "replace": "normalizedString", "collapse": "token"}
# Types that become xs:NCName, and what is no longer checked.
CHECKED = {"ID": "values differ", "IDREF": "values lead to an ID", "ENTITY": "values are declared entities"}
LISTS = {"NMTOKENS": "NMTOKEN", "IDREFS": "IDREF", "ENTITIES": "ENTITY"}


@dataclass(eq=False)
class Facts:
    """Facts about a simple type. Its kind is text, int, bool, list or union, and its root a built-in type.

    `alien`: one value has several spellings, which the texts of the profile don't know. `loose`: the rewritten
    type accepts texts that the original doesn't. `lo` and `hi` are kept for decimals too, which fractionDigits
    may make whole numbers. `unit` is the number of characters that the unit of a length takes, 0 for none.
    `cut` is the member from which on a union becomes a text; `members` and `member_words` count what it has of
    both, with those of its unions. `patterns` are those that the spelling of numbers has to match, as they were
    written and as the library has them, and `notes` the lines of this step: rule, details, node."""

    kind: str
    root: Optional[str]
    space: str = "collapse"
    lo: Any = None
    hi: Any = None
    words: Optional[list[Any]] = None
    item: Any = None
    shortest: int = 0
    longest: Any = None
    unit: int = 1
    alien: bool = False
    loose: bool = False
    decimal: bool = False
    cut: Optional[int] = None
    members: int = 1
    member_words: int = 0
    patterns: list[tuple[str, list[Any]]] = field(default_factory=list)
    notes: list[tuple[str, tuple[str, ...], Any]] = field(default_factory=list)

    def number_of_words(self) -> int:
        """Returns the number of words in the enumerations of a type and of its members."""
        return self.member_words + len(self.words or ())

    def has_number(self, n: int) -> bool:
        """Says whether whole numbers have this one."""
        bounds = (self.lo is None or self.lo <= n) and (self.hi is None or n <= self.hi)
        return bounds and (self.words is None or n in self.words)

    def become_text(self, root: str) -> None:
        """Makes the type a text without bounds on its length."""
        self.kind, self.root, self.unit, self.shortest, self.longest = "text", root, 0, 0, None


def is_builtin(t: Any) -> bool:
    """Says whether a type is one of XML Schema's own."""
    return bool(t.name) and split(t.name)[0] == XS


def accepts(t: Any, text: str) -> bool:
    """Says whether a simple type accepts a text. Where the library fails, as at an empty base64Binary with a length, it doesn't."""
    try:
        return bool(t.is_valid(text))
    except (ArithmeticError, LookupError, TypeError, ValueError):
        return False
