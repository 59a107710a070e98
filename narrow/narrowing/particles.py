"""Particles, and how a content model is made clear (docs/reference/CONTENT-MODELS.md).

A particle is an element, whose body has a `name`, or a sequence, a choice or an all, whose body is a tuple of
particles. NEVER is the particle that nothing matches, as an empty choice. EMPTY is the one that matches no
element. Each function keeps the language of the particle, except `widest` and `widened`, which widen it.
"""
from __future__ import annotations

from typing import Any, Iterator, NamedTuple, Optional

# A content model with more parts than this after it was made clear is widened instead, unless it had half of
# them before.
MOST_LEAVES = 2000
# The profile's greatest number of particles in a group and of groups inside each other, less one for the group
# that the writer may add.
MOST_PARTICLES, MOST_LEVELS = 400, 14


class Particle(NamedTuple):
    """A particle; `hi` is None where the number of its occurrences has no bound."""

    kind: str
    body: Any
    lo: int
    hi: Optional[int]


class TooLarge(Exception):
    """The content model would grow over its limit."""


EMPTY = Particle("sequence", (), 1, 1)
NEVER = Particle("choice", (), 1, 1)


def product(a: Optional[int], b: Optional[int]) -> Optional[int]:
    """Returns a times b, where None is no bound."""
    return None if a is None or b is None else a * b


def nullable(p: Particle) -> bool:
    """Says whether the particle matches no element at all."""
    return p.lo == 0 or empty_body(p)


def empty_body(p: Particle) -> bool:
    """Says whether one occurrence of the particle may be empty."""
    if p.kind == "element":
        return False
    return (any if p.kind == "choice" else all)(nullable(k) for k in p.body)


def first(p: Particle) -> set[str]:
    """Returns the names with which the particle can begin."""
    if p.kind == "element":
        return {p.body.name}
    names: set[str] = set()
    for k in p.body:
        names |= first(k)
        if p.kind == "sequence" and not nullable(k):
            break
    return names


def leaves(p: Particle) -> Iterator[Any]:
    """Yields the bodies of the element particles."""
    if p.kind == "element":
        yield p.body
    else:
        for k in p.body:
            yield from leaves(k)


def count(p: Particle) -> int:
    """Returns the number of the particle's groups and elements."""
    return 1 if p.kind == "element" else 1 + sum(map(count, p.body))


def levels(p: Particle) -> int:
    """Returns how many groups are inside each other."""
    return 0 if p.kind == "element" else 1 + max(map(levels, p.body), default=0)


def faults(p: Particle, follow: frozenset[str] = frozenset(), top: bool = True) -> Iterator[int]:
    """Yields the rules 1 to 4 of docs/reference/CONTENT-MODELS.md that the particle, or one in it, breaks."""
    starts = first(p)
    if (p.lo, p.hi) != (1, 1) and empty_body(p):
        yield 1
    if p.lo != p.hi and starts & follow:
        yield 2
    inner = follow | starts if p.hi is None or p.hi > 1 else follow
    if p.kind == "choice" and is_doubtful_choice(p, starts, inner):
        yield 3
    if p.kind == "all":
        if not top or (p.lo, p.hi) != (1, 1) or follow:
            yield 4
        inner = frozenset()
    if p.kind == "sequence":
        for k in reversed(p.body):
            yield from faults(k, inner, False)
            inner = frozenset(first(k) | inner if nullable(k) else first(k))
    elif p.kind != "element":
        for k in p.body:
            yield from faults(k, inner, False)


def is_doubtful_choice(p: Particle, starts: set[str], follow: frozenset[str]) -> bool:
    """Says whether a choice breaks rule 3."""
    return (
        sum(len(first(k)) for k in p.body) != len(starts)
        or sum(map(nullable, p.body)) > 1
        or (empty_body(p) and bool(starts & follow))
    )


def clear(p: Particle) -> bool:
    """Says whether the particle keeps the rules of the profile."""
    return next(faults(p), None) is None


def same(p: Particle, q: Particle) -> bool:
    """Says whether two particles are the same, element by element."""
    if (p.kind, p.lo, p.hi) != (q.kind, q.lo, q.hi):
        return False
    if p.kind == "element":
        return bool(p.body.name == q.body.name)
    return len(p.body) == len(q.body) and all(map(same, p.body, q.body))


def without_doubles(parts: list[Particle]) -> list[Particle]:
    """Returns the parts, each once."""
    kept: list[Particle] = []
    for k in parts:
        if not any(same(k, other) for other in kept):
            kept.append(k)
    return kept


def repeat(p: Particle, lo: int, hi: Optional[int]) -> Particle:
    """Returns p from lo to hi times, in one particle where the numbers of occurrences leave no gap."""
    if hi == 0:
        return EMPTY
    if (lo, hi) == (1, 1):
        return p
    # From k to k + 1 repetitions there is no gap where k * p.hi + 1 >= (k + 1) * p.lo: so for all k where for k = lo.
    if lo == hi or p.hi is None and lo > 0 or lo * (p.hi or 0) + 1 >= (lo + 1) * p.lo:
        return Particle(p.kind, p.body, p.lo * lo, product(p.hi, hi))
    return Particle("sequence", (p,), lo, hi)


class Simplifier:
    """Rewrites particles so that they keep rules 1 and 3 as far as that needs no look-ahead."""

    def __init__(self, most: int) -> None:
        self.most = most

    def bound(self, p: Particle) -> Particle:
        """Returns p, unless it has grown over the limit."""
        if count(p) > self.most:
            raise TooLarge
        return p

    def simple(self, p: Particle) -> Particle:
        """Returns a flatter particle of the same language."""
        if p.kind == "element":
            return p
        p = self.starred(p)  # Before what may be empty in it is written as what isn't.
        if p.kind == "choice":
            return self.simple_choice(p)
        children: list[Particle] = []
        for k in map(self.simple, p.body):
            if k == NEVER:
                return NEVER if p.lo else EMPTY
            if k.kind == p.kind == "sequence" and (k.lo, k.hi) == (1, 1):
                children.extend(k.body)
            elif p.kind == "sequence" and children and self.absorbs(children[-1], k):
                children.append(self.joined(children.pop(), k))
            elif k != EMPTY:
                children.append(k)
        return self.grouped(p, children, p.lo)

    def simple_choice(self, p: Particle) -> Particle:
        """Returns a choice in which no alternative is empty, twice there, or begins as another."""
        children: list[Particle] = []
        optional = False
        for k in map(self.simple, p.body):
            if k == EMPTY:
                optional = True
            elif k != NEVER:
                children += k.body if k.kind == "choice" and (k.lo, k.hi) == (1, 1) else [k]
        children = without_doubles(children)
        if not children:
            return EMPTY if optional or not p.lo else NEVER
        lo = p.lo
        if optional or sum(map(nullable, children)) > 1:
            children, lo = without_doubles([q for k in children for q in alternatives(self.some(k))]), 0
        return self.grouped(p, self.factored(children), lo)

    def grouped(self, p: Particle, children: list[Particle], lo: int) -> Particle:
        """Returns the children as a group like p."""
        if not children:
            return EMPTY
        if len(children) == 1 and p.kind != "all":
            return self.bounded(repeat(children[0], lo, p.hi))
        return self.bounded(self.bound(Particle(p.kind, tuple(children), lo, p.hi)))

    @staticmethod
    def absorbs(last: Particle, k: Particle) -> bool:
        """Says whether two particles in a row are one element, whose number isn't fixed, as a?, a."""
        return last.kind == k.kind == "element" and last.body.name == k.body.name and last.lo != last.hi

    @staticmethod
    def joined(last: Particle, k: Particle) -> Particle:
        """Returns two particles of one element as one."""
        hi = None if last.hi is None or k.hi is None else last.hi + k.hi
        return Particle("element", k.body, last.lo + k.lo, hi)

    def bounded(self, p: Particle) -> Particle:
        """Returns a particle that keeps rule 1: one whose body may be empty occurs once."""
        if p.kind in ("element", "all") or (p.lo, p.hi) == (1, 1):
            return p
        p = self.starred(p)
        if len(p.body) == 1:
            return repeat(p.body[0], p.lo, p.hi)
        if not empty_body(p):
            return p
        if p.hi == 1:
            return Particle(p.kind, p.body, 1, 1)
        return self.simple(Particle("choice", (self.some(Particle(p.kind, p.body, 1, 1)),), 0, p.hi))

    def starred(self, p: Particle) -> Particle:
        """Returns the star normal form (Brueggemann-Klein) of a group that is repeated without bound."""
        if p.hi is not None or p.kind in ("element", "all") or not (empty_body(p) or p.kind == "choice"):
            return p
        empty = empty_body(p)
        parts = star_parts(p) if empty else [part for k in p.body for part in star_parts(k)]
        return Particle("choice", tuple(self.factored(without_doubles(parts))), 0 if empty else p.lo, None)

    def some(self, p: Particle) -> Particle:
        """Returns the particle of p's language without the empty list."""
        if not nullable(p):
            return p
        if p.kind == "element" or not empty_body(p):
            return Particle(p.kind, p.body, 1, p.hi)
        if p.kind == "choice":
            body = Particle("choice", tuple(self.some(k) for k in p.body if k != EMPTY), 1, 1)
        else:  # (a?, b?) is (a, b?) | b
            parts = (Particle("sequence", (self.some(k),) + p.body[i + 1 :], 1, 1) for i, k in enumerate(p.body))
            body = Particle("choice", tuple(map(self.bound, parts)), 1, 1)
        return self.simple(repeat(self.bound(body), 1, p.hi))

    def factored(self, children: list[Particle]) -> list[Particle]:
        """Returns alternatives that begin with different elements where that is possible: (a, b) | (a, c) is a, (b | c)."""
        out: list[Particle] = []
        for k in children:
            items = parts_of(k)
            for i, other in enumerate(out):
                theirs = parts_of(other)
                if items[0].kind == "element" and same(items[0], theirs[0]):
                    tails = tuple(Particle("sequence", tuple(t[1:]), 1, 1) for t in (theirs, items))
                    out[i] = self.simple(Particle("sequence", (theirs[0], Particle("choice", tails, 1, 1)), 1, 1))
                    break
            else:
                out.append(k)
        return out


def parts_of(p: Particle) -> tuple[Particle, ...]:
    """Returns the parts of a sequence that occurs once, and else the particle alone."""
    return tuple(p.body) if p.kind == "sequence" and (p.lo, p.hi) == (1, 1) and p.body else (p,)


def alternatives(p: Particle) -> tuple[Particle, ...]:
    """Returns the alternatives of a choice that occurs once, and else the particle alone."""
    return tuple(p.body) if p.kind == "choice" and (p.lo, p.hi) == (1, 1) else (p,)


def star_parts(p: Particle) -> list[Particle]:
    """Returns particles that can't be empty, whose choice, repeated, is p repeated."""
    if p.kind == "element":
        return [Particle("element", p.body, 1, 1)] if p.lo < 2 else [p]
    if p.lo > 1 and not empty_body(p):
        return [p]
    if p.kind == "choice" or empty_body(p):
        return [part for k in p.body for part in star_parts(k)]
    return [Particle(p.kind, p.body, 1, 1)]


def simplified(p: Particle) -> Optional[Particle]:
    """Returns a flatter particle of the same language, or None where it would be too large."""
    try:
        return Simplifier(max(MOST_LEAVES, 2 * count(p))).simple(p)
    except TooLarge:
        return None


def widest(p: Particle) -> Particle:
    """Returns a WIDER particle: any number of the particle's elements, in any order."""
    uses: dict[str, Any] = {}
    for use in leaves(p):
        uses.setdefault(use.name, use)
    body = tuple(Particle("element", use, 1, 1) for use in uses.values())
    lo = 0 if nullable(p) else 1
    return Particle("choice", body, lo, None) if len(body) > 1 else Particle("element", body[0].body, lo, None)


def groups(p: Particle, path: tuple[int, ...] = ()) -> list[tuple[int, tuple[int, ...]]]:
    """Returns the places of all groups in p with the number of their elements, in no order."""
    if p.kind == "element":
        return []
    found = [entry for i, k in enumerate(p.body) for entry in groups(k, path + (i,))]
    return found + [(sum(1 for _ in leaves(p)), path)]


def replaced(p: Particle, path: tuple[int, ...], new: Particle) -> Particle:
    """Returns p with another particle at a place."""
    if not path:
        return new
    i = path[0]
    body = p.body[:i] + (replaced(p.body[i], path[1:], new),) + p.body[i + 1 :]
    return Particle(p.kind, body, p.lo, p.hi)


def at(p: Particle, path: tuple[int, ...]) -> Particle:
    """Returns the particle at a place."""
    for i in path:
        p = p.body[i]
    return p


def widened(p: Particle) -> tuple[Particle, Particle]:
    """Returns a WIDER, clear particle, and the group of p whose order and numbers it no longer checks."""
    places = sorted(groups(p))
    if len(places) * count(p) < 200_000:
        for _, path in places:
            q = replaced(p, path, widest(at(p, path)))
            if is_written(q):
                return q, at(p, path)
    return widest(p), p


def is_written(p: Particle) -> bool:
    """Says whether the profile accepts the particle: it is clear, flat enough, and an all isn't too large."""
    return levels(p) <= MOST_LEVELS and (p.kind != "all" or len(p.body) <= MOST_PARTICLES) and clear(p)


def chunked(p: Particle, most: int = MOST_PARTICLES) -> Particle:
    """Returns the particle with at most `most` particles in one sequence or choice."""
    if p.kind == "element":
        return p
    children = [chunked(k, most) for k in p.body]
    while p.kind != "all" and len(children) > most:
        children = [Particle(p.kind, tuple(children[i : i + most]), 1, 1) for i in range(0, len(children), most)]
    return Particle(p.kind, tuple(children), p.lo, p.hi)
