"""What a simple type becomes in the profile (docs/reference/SIMPLE-TYPES.md).

A type becomes whole numbers, truth values, a list or a union where it can, and else a text, as it was written.
A number comes back from octets in canonical spelling, and what comes back has to be valid by the original.
"""
from __future__ import annotations

from dataclasses import replace
from typing import Any, Optional

from xmlschema.validators import XsdAtomicRestriction, XsdList, XsdUnion

from .facts import BY_SPACE, CHECKED, INTEGERS, LISTS, TEXTS, Facts, accepts, is_builtin
from .finding import FactFinder
from .names import EMPTY_TEXT, Listed, Ref, Restriction, Union, split, xs
from .report import Report

MOST_WORDS = 10_000
MOST_NUMBER = 2**127
MOST_LENGTH = 2**32 - 1


class SimpleTypes(FactFinder):
    """Writes simple types, and notes what they no longer say."""

    def __init__(self, maps: Any, report: Report) -> None:
        super().__init__(maps)
        self.report = report

    def note_builtin(self, t: Any, node: Any = None, subject: str = "") -> None:
        """Notes what a built-in type loses, at its use."""
        name = split(t.name)[1]
        if name in ("QName", "NOTATION"):
            self.report.note("qname", node=node, subject=subject)
            self.report.note("qname-prefix", node=node, subject=subject)
        elif name in CHECKED:
            self.report.note("id", "xs:" + name, CHECKED[name], node=node, subject=subject)
        elif name in LISTS and name != "NMTOKENS":
            self.report.note("id", "each of xs:" + name, CHECKED[LISTS[name]], node=node, subject=subject)
        elif name not in TEXTS and name not in INTEGERS and name not in ("boolean", "NMTOKENS", "anySimpleType"):
            self.report.note("text", "xs:" + name, node=node, subject=subject)

    def type_ref(self, t: Any, node: Any = None, subject: str = "") -> Any:
        """Returns the name of t, or else its definition in place."""
        if is_builtin(t):
            self.note_builtin(t, node, subject)
            return self.builtin_ref(split(t.name)[1])
        if t.name and self.maps.types.get(t.name) is t:
            return Ref(t.name)
        return self.definition(t)

    def builtin_ref(self, name: str) -> Any:
        """Returns what a built-in type becomes."""
        if name in LISTS and name != "NMTOKENS":
            return Restriction(Listed(xs("NCName")), [("minLength", "1")])
        return xs(self.builtin(name).root or name)

    def definition(self, t: Any) -> Any:
        """Returns what the definition of t becomes."""
        facts = self.facts(t)
        for rule, details, node in facts.notes:
            self.report.note(rule, *details, node=node)
        if isinstance(t, XsdList):
            return Listed(self.type_ref(t.item_type, t.elem)) if facts.kind == "list" else xs("token")
        if isinstance(t, XsdUnion):
            return self.written_union(t)
        if not isinstance(t, XsdAtomicRestriction):
            return xs("string")
        return self.restriction(t, facts)

    def restriction(self, t: Any, f: Facts) -> Any:
        """Returns what a restriction becomes."""
        base = self.base_of(t)
        b = self.facts(base)
        if f.kind in ("list", "union") or (b.kind, b.root) == (f.kind, f.root):
            node = self.type_ref(base, t.elem)
        else:
            node, b = xs(f.root or "string"), self.builtin(f.root or "string")
        f = self.short_numbers(t, f) if f.kind == "int" else f
        facets = number_facets(f, b) if f.kind == "int" else []
        if f.kind == "text" and f.space != b.space:
            facets.append(("whiteSpace", f.space))
        if f.words is not None and f.words != b.words:
            facets += self.enumeration(t, f.words)
        elif f.kind in ("text", "list") and f.words is None:
            facets += length_facets(f, b)
        return Restriction(node, facets) if facets or node == Ref(t.name or "") else node

    def short_numbers(self, t: Any, f: Facts) -> Facts:
        """Returns facts without the bounds and words that have more than 128 bits."""
        if all(n is None or is_short(n) for n in [f.lo, f.hi] + (f.words or [])):
            return f
        self.report.note("big-number", node=t.elem)
        lo, hi = (n if n is not None and is_short(n) else None for n in (f.lo, f.hi))
        words = [n for n in f.words if is_short(n)] if f.words else f.words
        if f.words and not words:
            self.report.note("no-value", node=t.elem)
            words = None
        return replace(f, lo=lo, hi=hi, words=words)

    def enumeration(self, t: Any, words: list[Any]) -> list[tuple[str, str]]:
        """Returns the facets of an enumeration, as far as the profile has room."""
        if len(words) > MOST_WORDS:
            self.report.note("many-words", node=t.elem)
        return [("enumeration", str(w)) for w in words[:MOST_WORDS]]

    def written_union(self, t: Any) -> Any:
        """Returns the members of a union, as far as it doesn't become a text."""
        cut = self.facts(t).cut
        nodes = [self.type_ref(member, t.elem) for member in t.member_types[:cut]]
        if cut is not None:
            spaces = {self.facts(m).space for m in t.member_types[cut:]}
            self.report.note("union-text", str(cut + 1), node=t.elem)
            nodes.append(xs(BY_SPACE[next(s for s in BY_SPACE if s in spaces)]))
        return nodes[0] if len(nodes) == 1 else Union(nodes) if nodes else xs("string")

    def with_constraint(self, t: Any, node: Any, constraint: tuple[str, ...], subject: str = "") -> Any:
        """Returns a type for elements with a default or fixed value: it accepts the empty text too, which means that value."""
        f = self.facts(t)
        if constraint[0] == "fixed":
            fixed = self.fixed_value(t, f, node, constraint[1])
            if fixed is not None:
                return fixed
            self.report.note("element-fixed", constraint[1], subject=subject)
        texts = ("string", "normalizedString", "token", "anyURI")
        takes_empty = f.kind == "text" and f.words is None and not f.shortest and f.root in texts
        return node if takes_empty or f.kind == "list" and not f.shortest else Union([node, EMPTY_TEXT])

    @staticmethod
    def fixed_value(t: Any, f: Facts, node: Any, text: str) -> Optional[Any]:
        """Returns a type that accepts the fixed value alone, or None where the profile can't say that."""
        value = t.normalize(text)
        words: tuple[str, ...] = (value,)
        if f.kind == "bool":
            node, words = xs("token"), (("true", "1") if value in ("true", "1") else ("false", "0"))
        if not (f.kind in ("int", "bool") or f.kind == "text" and not f.alien) or not accepts(t, text):
            return None
        if f.kind == "int" and not (is_integer(value) and is_short(int(value))):
            return None
        fixed = Restriction(node, [("enumeration", w) for w in words])
        return Union([fixed, EMPTY_TEXT]) if value else fixed


def is_integer(text: str) -> bool:
    """Says whether a text is a whole number."""
    try:
        int(text)
    except ValueError:
        return False
    return True


def is_short(n: int) -> bool:
    """Says whether a number has 128 bits."""
    return -MOST_NUMBER <= n < MOST_NUMBER


def number_facets(f: Facts, b: Facts) -> list[tuple[str, str]]:
    """Returns the bounds of whole numbers that a base doesn't have. Over an enumeration there is none: it has the numbers within them."""
    facets: list[tuple[str, str]] = []
    if b.words is not None:
        return facets
    if f.lo is not None and (b.lo is None or f.lo > b.lo):
        facets.append(("minInclusive", str(f.lo)))
    if f.hi is not None and (b.hi is None or f.hi < b.hi):
        facets.append(("maxInclusive", str(f.hi)))
    return facets


def length_facets(f: Facts, b: Facts) -> list[tuple[str, str]]:
    """Returns the bounds of the length of a text or a list."""
    facets = []
    if f.shortest > b.shortest:
        facets.append(("minLength", str(min(f.shortest, MOST_LENGTH))))
    if f.longest is not None and f.longest != b.longest and f.longest <= MOST_LENGTH:
        facets.append(("maxLength", str(f.longest)))
    return facets
