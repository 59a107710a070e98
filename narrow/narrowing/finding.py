"""Finds the facts of simple types, each once."""
from __future__ import annotations

from dataclasses import replace
from typing import Any, Optional

from xmlschema.validators import XsdAtomicRestriction, XsdList, XsdSimpleType, XsdUnion

from .facts import BY_SPACE, CHECKED, INTEGERS, LISTS, TEXTS, Facts, is_builtin
from .names import XS, split
from .restricting import Step
from .unions import accepts_respelled, accepts_single_spaces

# What the profile accepts of a union, less two members: a text after the cut, and the empty one of elements with a default value.
MOST_MEMBERS, MOST_WORDS = 998, 10_000
CUT = Facts("text", "token", alien=True, loose=True)  # what a union becomes from its cut on


class FactFinder:
    """Finds the facts of simple types, each once."""

    def __init__(self, maps: Any) -> None:
        self.maps = maps
        self.known: dict[int, tuple[Any, Facts]] = {}
        self.known_atoms: dict[int, list[Facts]] = {}  # Of types in `known`, which keeps them alive.

    def base_of(self, t: Any) -> Any:
        """Returns the simple type that t restricts."""
        base = t.base_type
        if t.redefine is not None and t.redefine is not t and t.redefine.name == t.name:
            base = t.redefine  # xmlschema 1.10 leaves this step out.
        if base is not None and base.is_complex():
            base = base.content if isinstance(base.content, XsdSimpleType) else None
        return base if base is not None else self.maps.types["{%s}anySimpleType" % XS]

    def facts(self, t: Any) -> Facts:
        """Returns the facts of a simple type; of one that is made of itself, those of any text."""
        if id(t) not in self.known:
            self.known[id(t)] = t, Facts("text", "string", space="preserve", loose=True)
            self.known[id(t)] = t, self.find(t)
        return self.known[id(t)][1]

    def find(self, t: Any) -> Facts:
        """Returns the facts of a type that is met for the first time."""
        if is_builtin(t):
            return self.builtin(split(t.name)[1])
        if isinstance(t, XsdList) and self.has_list(t.item_type):
            words = "the items of a list are lists"
            return Facts("text", "token", alien=True, loose=True, unit=0, notes=[("not-valid", (words,), t.elem)])
        if isinstance(t, XsdList):
            item = self.facts(t.item_type)
            alien = item.alien or item.kind != "text"
            return Facts("list", None, item=t.item_type, alien=alien, loose=item.loose)
        if isinstance(t, XsdUnion):
            return self.union(t)
        if not isinstance(t, XsdAtomicRestriction):
            return self.builtin("anySimpleType")
        base = self.facts(self.base_of(t))
        facts = replace(base, patterns=list(base.patterns), notes=[])
        Step(self, t, facts).run()
        return facts

    def builtin(self, name: str) -> Facts:
        """Returns the facts of a built-in type."""
        if name in INTEGERS:
            return Facts("int", name, lo=INTEGERS[name][0], hi=INTEGERS[name][1])
        if name == "boolean":
            return Facts("bool", name)
        if name in TEXTS:
            return Facts("text", name, space=TEXTS[name])
        if name in CHECKED or name in ("QName", "NOTATION"):
            alien = name not in CHECKED  # Of these no length is checked (XML Schema Part 2, section 4.3.1).
            return Facts("text", "NCName", alien=alien, loose=alien, unit=0 if alien else 1)
        if name in LISTS:
            return Facts("list", name, item=self.maps.types["{%s}%s" % (XS, LISTS[name])], shortest=1)
        if name == "anySimpleType":
            return Facts("text", "string", space="preserve")
        unit = 2 if name == "hexBinary" else 0
        return Facts("text", "token", alien=True, loose=True, decimal=name == "decimal", unit=unit)

    def union(self, t: Any) -> Facts:
        """Returns the facts of a union."""
        members = [self.facts(m) for m in t.member_types]
        cut = self.cut_of(t)
        if cut is None and len(members) == 1 and members[0].loose and members[0].kind == "text":
            return replace(members[0], cut=None, notes=[])  # It is written as its member, with the lengths of that.
        spaces = {m.space for m in members}
        alien = len(spaces) > 1 or not all(m.kind == "text" and not m.alien for m in members)
        whole = Facts("union", None, loose=cut is not None or any(m.loose for m in members), alien=alien, cut=cut)
        whole.members = sum(m.members for m in members[:cut]) + (cut is not None)
        whole.member_words = sum(m.number_of_words() for m in members[:cut])
        whole.space = next((s for s in ("preserve", "replace") if s in spaces), "collapse")
        if not members or cut == 0:
            whole.become_text(BY_SPACE[whole.space])
        return whole

    def cut_of(self, t: Any) -> Optional[int]:
        """Returns the member of a union from which on it becomes a text, or None where it needn't.

        That is the first that accepts more texts than it did, whose values could come back as those of another, or that
        is over a limit of the profile."""
        earlier: dict[int, Facts] = {}
        members = words = 0
        for i, member in enumerate(t.member_types):
            f, is_last = self.facts(member), i + 1 == len(t.member_types)
            members, words = members + f.members, words + f.number_of_words()
            is_large = members > MOST_MEMBERS or words > MOST_WORDS
            if is_large or f.loose and not is_last or self.changes(member, list(earlier.values())):
                return i
            earlier.update((id(a), a) for a in self.atoms(member))
        return None

    def changes(self, t: Any, earlier: list[Facts]) -> bool:
        """Says whether a value of a member of a union may come back as a value of an earlier member."""
        if any(accepts_respelled(e, f) for f in self.atoms(t) for e in earlier):
            return True
        return any(map(accepts_single_spaces, earlier)) and self.has_list(t)

    def parts(self, t: Any) -> list[Any]:
        """Returns the item of a list, the members of a union, and nothing of other types."""
        while isinstance(t, XsdAtomicRestriction):
            t = self.base_of(t)
        return [t.item_type] if isinstance(t, XsdList) else list(t.member_types) if isinstance(t, XsdUnion) else []

    def atoms(self, t: Any) -> list[Facts]:
        """Returns the facts of the types without parts of which t is made, each once."""
        if id(t) not in self.known_atoms:
            f = self.facts(t)
            inner = [a for m in self.parts(t) for a in self.atoms(m)] if f.kind in ("list", "union") else [f]
            inner += [CUT] if f.cut is not None else []
            self.known_atoms[id(t)] = list({id(a): a for a in inner}.values())
        return self.known_atoms[id(t)]

    def has_list(self, t: Any) -> bool:
        """Says whether t is a list or has one as a member."""
        f = self.facts(t)
        return f.kind == "list" or f.kind == "union" and any(map(self.has_list, self.parts(t)))
