"""One restriction of a simple type: what its facets add to the facts of its base."""
from __future__ import annotations

import math
import re
from decimal import Decimal
from typing import Any, Protocol

from .facts import BY_SPACE, Facts, accepts
from .names import XS
from .patterns import few_words, width_of

# Patterns that the canonical spelling of each whole number matches.
DIGITS = {r"[0-9]+", r"\d+", r"[0-9]*", r"\d*", r"-?[0-9]+", r"-?\d+", r"[+\-]?[0-9]+", r"[\-+]?[0-9]+", r"[+-]?\d+"}
MOST_TRIED = 70_000  # numbers that are tried with a pattern one by one


class Finder(Protocol):
    """What a restriction asks of other types."""

    def base_of(self, t: Any) -> Any:
        """Returns the simple type that t restricts."""

    def facts(self, t: Any) -> Facts:
        """Returns the facts of a simple type."""


class Step:
    """One restriction: adds its facets to the facts of its base."""

    def __init__(self, finder: Finder, t: Any, facts: Facts) -> None:
        self.finder, self.t, self.f = finder, t, facts
        node = t.elem if t.elem.tag.endswith("}restriction") else t.elem.find("{%s}restriction" % XS)
        self.own = [
            (k.tag.rsplit("}", 1)[-1], k.get("value", ""), k)
            for k in (node if node is not None else ())
            if isinstance(k.tag, str) and k.get("value") is not None
        ]
        self.words = [v for n, v, _ in self.own if n == "enumeration"]
        said = [v for n, v, _ in self.own if n == "pattern"]
        self.patterns = list(t.patterns.patterns) if said and t.patterns is not None else []
        self.said = "|".join(said) or "of its base"

    def note(self, rule: str, *details: str, facet: str = "") -> None:
        """Adds a note, at the first facet of a name where one is given."""
        node = next((k for n, _, k in self.own if n == facet), self.t.elem)
        self.f.notes.append((rule, details, node))

    def run(self) -> None:
        """Adds all facets, first that by which decimals become whole numbers."""
        for name, value, node in sorted(self.own, key=lambda own: own[0] != "fractionDigits"):
            value = value.strip() if name not in ("enumeration", "pattern") else value
            try:
                self.facet(name, value)
            except (ValueError, ArithmeticError):
                pass  # The schema is wrong here, which the library's own errors say.
            self.note_ignored(name, value, node)
        if self.f.kind == "list":
            self.restrict_list()
        elif self.f.kind == "union" and (self.words or self.patterns):
            self.restrict_union()
        if self.f.kind == "int" and (self.words or self.f.words is not None):
            self.enumerate_numbers()
        if self.f.kind == "int" and (self.patterns or self.f.patterns):
            self.spell_numbers()
        elif self.f.kind == "bool" and self.patterns:
            self.restrict_boolean()
        elif self.f.kind == "text" and self.f.alien and self.words:
            self.note("text-enumeration", facet="enumeration")
            self.f.loose = True
        self.restrict_text()
        self.keep_some_value()

    def keep_some_value(self) -> None:
        """Drops the facets where they leave no value, since the profile has no type without values."""
        f, base = self.f, self.finder.facts(self.finder.base_of(self.t))
        numbers = f.kind == "int" and None not in (f.lo, f.hi) and f.lo > f.hi
        lengths = f.longest is not None and f.shortest > f.longest
        if f.words == [] or f.words is None and (numbers or lengths):
            self.note("no-value")
            f.words, f.loose = base.words, True
            same = (base.kind, base.root) == (f.kind, f.root)
            f.lo, f.hi = (base.lo, base.hi) if same else (None, None)
            f.shortest, f.longest = (base.shortest, base.longest) if same else (0, None)

    def facet(self, name: str, value: str) -> None:
        """Adds a facet other than enumeration and pattern."""
        f = self.f
        if name in ("length", "minLength") and f.unit:
            f.shortest = max(f.shortest, int(value) * f.unit)
        if name in ("length", "maxLength") and f.unit:
            f.longest = min(int(value) * f.unit, math.inf if f.longest is None else f.longest)
        if name == "whiteSpace" and f.kind == "text" and not f.alien:
            f.space = value
        if name == "fractionDigits" and f.decimal and int(value) == 0:
            f.kind, f.root, f.alien, f.loose, f.decimal = "int", "integer", False, False, False
            f.lo = None if f.lo is None else math.ceil(f.lo)
            f.hi = None if f.hi is None else math.floor(f.hi)
            self.note("point", facet="fractionDigits")
        if f.kind == "int" or f.decimal:
            self.bound(name, value)

    def bound(self, name: str, value: str) -> None:
        """Adds a bound of numbers."""
        f, lo, hi = self.f, None, None
        if name == "totalDigits":
            lo, hi = 1 - 10 ** min(int(value), 400), 10 ** min(int(value), 400) - 1
        elif name in ("minInclusive", "minExclusive"):
            lo = Decimal(value)
            if f.kind == "int":
                lo = math.floor(lo) + 1 if name == "minExclusive" else math.ceil(lo)
        elif name in ("maxInclusive", "maxExclusive"):
            hi = Decimal(value)
            if f.kind == "int":
                hi = math.ceil(hi) - 1 if name == "maxExclusive" else math.floor(hi)
        f.lo = max((n for n in (lo, f.lo) if n is not None), default=None)
        f.hi = min((n for n in (hi, f.hi) if n is not None), default=None)

    def note_ignored(self, name: str, value: str, node: Any) -> None:
        """Notes a facet that a text that was a number, a date or binary can't keep."""
        kept = ("enumeration", "pattern", "whiteSpace")
        if self.f.alien and name not in kept and not (name.endswith("ength") and self.f.unit):
            self.f.notes.append(("text-facet", ("%s %s" % (name, value),), node))
            self.f.loose = True

    def restrict_list(self) -> None:
        """Adds enumeration and pattern of a list, which becomes a text where it is one of texts."""
        item = self.finder.facts(self.f.item)
        if self.words and not self.f.alien or self.patterns and item.kind != "text":
            self.f.become_text("token")
        elif self.words:
            self.note("list-enumeration", facet="enumeration")
            self.f.loose = True

    def restrict_union(self) -> None:
        """Adds enumeration and pattern of a union."""
        f = self.f
        if self.patterns or not f.alien:
            f.kind, f.root, f.unit, f.loose = "text", BY_SPACE[f.space], 0, True
        else:
            self.note("union-enumeration", facet="enumeration")
            f.loose = True

    def enumerate_numbers(self) -> None:
        """Adds an enumeration of whole numbers, or keeps those of the base that are within the bounds."""
        f = self.f
        own = {int(w) for w in self.words if re.fullmatch(r"\s*[+-]?[0-9]{1,60}\s*", w, re.ASCII)}
        f.words = sorted(n for n in (own if self.words else f.words or ()) if f.has_number(n))

    def restrict_boolean(self) -> None:
        """Adds a pattern of truth values, which come back as true and false."""
        f = self.f
        good = [w for w in ("true", "false", "1", "0") if accepts(self.t, w)]
        if good[:2] != ["true", "false"]:
            f.kind, f.root, f.words, f.alien = "text", "token", good, True
        elif len(good) < 4:
            self.note("boolean-pattern", self.said, facet="pattern")
            f.loose = True

    def restrict_text(self) -> None:
        """Adds enumeration and pattern of a text."""
        f = self.f
        if f.kind == "text" and not f.alien:
            if self.words:
                f.words, f.loose = self.words, False
            elif self.patterns and f.words is None:
                few = few_words(self.patterns)
                if few is not None:
                    f.words, f.loose = few, False
        if f.kind == "text" and f.words is not None:
            f.words = list(dict.fromkeys(self.t.normalize(w) for w in f.words if accepts(self.t, w)))
        elif f.kind in ("text", "list") and self.patterns:
            self.drop_pattern()

    def drop_pattern(self) -> None:
        """Notes a pattern that isn't checked, and keeps the lengths that follow from it."""
        f = self.f
        if not f.alien or f.root == "NCName" or self.finder.facts(self.finder.base_of(self.t)).alien:
            self.note("pattern", self.said, facet="pattern")
        f.loose = True
        if f.decimal:
            f.patterns = f.patterns + [(self.said, self.patterns)]  # They matter where a restriction makes whole numbers of it.
        if f.kind == "text" and (f.unit or f.space == "collapse"):
            shortest, longest = width_of(self.patterns)
            f.shortest = max(f.shortest, shortest)
            if longest is not None:
                f.longest = min(longest, math.inf if f.longest is None else f.longest)

    def spell_numbers(self) -> None:
        """Adds patterns of whole numbers. These come back in canonical spelling: where a pattern refuses that, as text."""
        f = self.f
        f.patterns = f.patterns + [(self.said, self.patterns)] if self.patterns else f.patterns
        numbers: Any = f.words
        if numbers is None and None not in (f.lo, f.hi) and f.hi - f.lo <= MOST_TRIED:
            numbers = range(f.lo, f.hi + 1)
        few = few_words(self.patterns, digits=True) if numbers is None and self.patterns else None
        if few is not None:
            self.spell_few([w for w in few if accepts(self.t, w)])
        elif self.keeps_canonical(numbers):
            self.note("number-pattern", self.said, facet="pattern")
            f.loose = True
        else:
            self.note("number-spelling", self.said, facet="pattern")
            f.become_text("token")
            f.loose, f.alien, f.words = True, True, None
            base = self.finder.facts(self.finder.base_of(self.t))
            if base.kind == "text":  # A decimal.
                f.shortest, f.longest = base.shortest, base.longest

    def keeps_canonical(self, numbers: Any) -> bool:
        """Says whether the patterns accept the canonical spelling of each number."""
        if numbers is None:
            return all(p in DIGITS for said, _ in self.f.patterns for p in said.split("|"))
        return all(any(p.match(str(n)) for p in step) for n in numbers for _, step in self.f.patterns)

    def spell_few(self, words: list[str]) -> None:
        """Keeps the few spellings that the patterns accept: as numbers where the canonical ones are among them."""
        f = self.f
        if all(str(int(w)) in words for w in words):
            self.note("number-pattern", self.said, facet="pattern")
            f.words, f.loose = sorted({int(w) for w in words}), True
        else:
            f.kind, f.root, f.words, f.alien = "text", "token", words, True
