"""What a content model becomes: groups in place, substitution groups and wildcards as choices, all of it clear."""
from __future__ import annotations

from typing import Any, Protocol

from xmlschema.validators import XsdAnyElement, XsdElement

from .index import Index
from .names import Spec, Use, split
from .particles import EMPTY, NEVER, Particle, is_written, leaves, repeat, simplified, widened
from .report import Report

MOST_OCCURRENCES = 2**32 - 1
MOST_KNOWN = 300  # A wildcard that allows more elements of the set than this is dropped.
MOST_SHOWN = 8  # Names in one line of the report.


class Elements(Protocol):
    """What content models ask of the rewriting."""

    def spec(self, x: Any, hint: str) -> Spec:
        """Returns the type of an element declaration."""

    def is_alive(self, g: Any) -> bool:
        """Says whether a global element can be valid at all."""

    def constraints(self, x: Any) -> None:
        """Notes the identity constraints of an element."""


class Contents:
    """Rewrites content models."""

    def __init__(self, index: Index, report: Report, elements: Elements, wildcards: str) -> None:
        self.index, self.report, self.elements, self.wildcards = index, report, elements, wildcards
        # For each content model that is being rewritten, the notes of its wildcards: rule, words, node.
        self.pending: list[list[tuple[str, str, Any]]] = []

    def content(self, group: Any) -> Particle:
        """Returns the particle of a content model: one that the profile accepts, NEVER or EMPTY."""
        for known in (True, False) if self.wildcards == "known" else (False,):
            self.pending.append([])
            p = self.flat(self.particle(group, known))
            q = simplified(p)
            notes = self.pending.pop()
            differ = self.differing(p)
            good = q in (NEVER, EMPTY) or q is not None and is_written(q) and not differ
            if good or not (known and notes):  # Else once more, without wildcards.
                break
        for rule, words, node in notes:
            self.report.note(rule, words, node=node)
        if differ:
            self.report.note("two-types", ", ".join(sorted(split(n)[1] for n in differ)))
            unify(p)
        return q if q is not None and good and not differ else self.made_clear(p if q is None else q)

    def made_clear(self, q: Particle) -> Particle:
        """Returns a particle that the profile accepts, which may be wider."""
        if q in (NEVER, EMPTY) or is_written(q):
            return q
        q, part = widened(q)
        names = list(dict.fromkeys(split(u.name)[1] for u in leaves(part)))
        more = " and %d more" % (len(names) - MOST_SHOWN) if len(names) > MOST_SHOWN else ""
        self.report.note("not-clear", " ".join(names[:MOST_SHOWN]) + more)
        return q

    def flat(self, p: Particle) -> Particle:
        """Returns the particle without groups of one part around it, and with an `all` as the profile has it."""
        while p.kind == "sequence":
            children = [k for k in p.body if k != EMPTY]
            if len(children) != 1:
                break
            q = repeat(children[0], p.lo, p.hi)
            if q.body == (children[0],):  # The numbers of occurrences leave a gap, so the group stays.
                return q
            p = q
        return self.all_group(p) if p.kind == "all" else p

    @staticmethod
    def differing(p: Particle) -> set[str]:
        """Returns the names of elements that have two types."""
        types: dict[str, Spec] = {}
        return {u.name for u in leaves(p) if types.setdefault(u.name, u.spec) is not u.spec}

    def particle(self, x: Any, known: bool) -> Particle:
        """Returns the particle as it is, with groups and substitution groups in place."""
        lo, hi = x.min_occurs, x.max_occurs
        if hi == 0:
            return EMPTY
        if hi is not None and hi > MOST_OCCURRENCES:
            self.report.note("occurrences", str(hi), node=x.elem)
            lo, hi = min(lo, MOST_OCCURRENCES), None
        if isinstance(x, XsdElement):
            uses = self.uses(x)
            children = tuple(Particle("element", u, 1, 1) for u in uses)
            return Particle("element", uses[0], lo, hi) if len(uses) == 1 else Particle("choice", children, lo, hi)
        if isinstance(x, XsdAnyElement):
            return self.wildcard(x, lo, hi, known)
        if x.ref is not None:
            inner = self.particle(x.ref, known)
            if inner.kind == "all":
                return Particle("all", inner.body, lo, 1)
            return inner if (lo, hi) == (1, 1) else Particle("sequence", (inner,), lo, hi)
        return Particle(x.model, tuple(self.particle(k, known) for k in x), lo, hi)

    def uses(self, x: Any) -> list[Use]:
        """Returns the elements that an element particle allows."""
        if x.ref is None and x.parent is not None:
            spec = self.elements.spec(x, x.local_name)
            self.elements.constraints(x)
            return [Use(x.name, False, spec, x.nillable)] if spec.definition is not None else []
        members = self.index.members(x.ref if x.ref is not None else x)
        return [self.global_use(g) for g in members if self.elements.is_alive(g)]

    def global_use(self, g: Any) -> Use:
        """Returns a reference to a global element."""
        return Use(g.name, True, self.elements.spec(g, g.local_name), g.nillable)

    def wildcard(self, x: Any, lo: int, hi: Any, known: bool) -> Particle:
        """Returns the choice of the elements of the set that a wildcard allows."""
        found = []
        if known:
            found = [
                c
                for namespace, c in self.index.order
                if isinstance(c, XsdElement) and x.is_namespace_allowed(namespace) and not c.abstract and self.elements.is_alive(c)
            ]
        if len(found) > MOST_KNOWN:
            found = []
        if not x.namespace:
            pass  # This wildcard allows nothing.
        elif not found:
            words = "each element that the wildcard allows here is refused" + (", and one is required" if lo else "")
            self.pending[-1].append(("any", words, x.elem))
        elif x.process_contents != "strict":
            words = "of the elements that the wildcard allows here, those that the set doesn't declare are refused"
            words += ", and the others are checked as declared" if x.process_contents == "skip" else ""
            self.pending[-1].append(("any", words, x.elem))
        return Particle("choice", tuple(Particle("element", self.global_use(g), 1, 1) for g in found), lo, hi)

    def all_group(self, p: Particle) -> Particle:
        """Returns an `all` of elements that occur at most once, or a sequence where less than two are left."""
        children: list[Particle] = []
        for k in p.body:
            if k.kind == "element":
                children.append(k)
            elif k != EMPTY and k.body:
                self.report.note("substituted-all", " ".join(split(m.body.name)[1] for m in k.body[:MOST_SHOWN]))
                children += [Particle(m.kind, m.body, 0, 1) for m in k.body]
            elif k != EMPTY and k.lo:
                return EMPTY if p.lo == 0 else NEVER
        if p.lo == 0 and any(k.lo for k in children):
            if len(children) == 1:
                return Particle("sequence", tuple(children), 0, 1)
            self.report.note("optional-all")
            children = [Particle(k.kind, k.body, 0, k.hi) for k in children]
        return Particle("sequence" if len(children) < 2 else "all", tuple(children), 1, 1)


def unify(p: Particle) -> None:
    """Gives all elements of one name the type of the first."""
    uses: dict[str, Use] = {}
    for use in leaves(p):
        first = uses.setdefault(use.name, use)
        use.spec, use.ref, use.nillable = first.spec, first.ref, first.nillable
