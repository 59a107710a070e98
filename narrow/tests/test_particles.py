"""Random particles: `simplified` keeps the language and what is clear; `widened` gives a wider, clear particle.

MANY in the environment is the number of particles (400), SEED the first random number (1)."""
from __future__ import annotations

import itertools
import os
import random
import unittest

import support  # noqa: F401  # It makes the modules known.
from narrowing.names import Spec, Use
from narrowing.particles import EMPTY, NEVER, Particle, chunked, clear, count, faults, leaves, simplified, widened

SPEC = Spec("", "a")
USES = {n: Use(n, True, SPEC, False) for n in "abc"}
BOUNDS = [(1, 1), (1, 1), (0, 1), (0, None), (1, None), (2, 2), (0, 2), (2, 3), (1, 2)]
WORDS = ["".join(w) for n in range(6) for w in itertools.product("abc", repeat=n)]


def random_particle(depth: int, rng: random.Random) -> Particle:
    """Returns a random particle with at most `depth` groups inside each other."""
    lo, hi = rng.choice(BOUNDS)
    if depth == 0 or rng.random() < 0.4:
        return Particle("element", USES[rng.choice("abc")], lo, hi)
    kids = tuple(random_particle(depth - 1, rng) for _ in range(rng.choice([0, 1, 2, 2, 3])))
    return Particle(rng.choice(["sequence", "choice"]), kids, lo, hi)


class Language:
    """Says which short words a particle matches, by sets of the places where it can end."""

    def __init__(self, p: Particle) -> None:
        self.words = {w for w in WORDS if len(w) in self.ends(p, w, 0)}

    def ends(self, p: Particle, word: str, start: int) -> set[int]:
        """Returns where the particle can end in a word."""
        found: set[int] = {start} if p.lo == 0 else set()
        current, seen, turns = {start}, set(), 0
        while current and (p.hi is None or turns < p.hi):
            turns += 1
            current = set().union(*(self.body(p, word, j) for j in current))
            if turns >= p.lo:
                found |= current
            key = frozenset(current), turns >= p.lo
            if key in seen:
                break
            seen.add(key)
        return found

    def body(self, p: Particle, word: str, start: int) -> set[int]:
        """Returns where one occurrence can end."""
        if p.kind == "element":
            return {start + 1} if word[start : start + 1] == p.body.name else set()
        if p.kind == "choice":
            return set().union(*(self.ends(k, word, start) for k in p.body))
        current = {start}
        for k in p.body:
            current = set().union(*(self.ends(k, word, j) for j in current))
        return current


class Particles(unittest.TestCase):
    """Laws of particles."""

    def test_random_particles(self) -> None:
        """Tries random particles."""
        rng = random.Random(int(os.environ.get("SEED", "1")))
        for _ in range(int(os.environ.get("MANY", "400"))):
            p = random_particle(3, rng)
            if sum(1 for _ in leaves(p)) <= 9:
                self.try_particle(p)

    def try_particle(self, p: Particle) -> None:
        """Tries one particle."""
        language, q = Language(p).words, simplified(p)
        assert q is not None
        self.assertEqual(language, Language(q).words, (p, q))
        self.assertTrue(q in (EMPTY, NEVER) or 1 not in faults(q), (p, q))
        self.assertTrue(clear(q) or not clear(p), (p, q))
        if not clear(q):
            wider, _ = widened(q)
            self.assertTrue(clear(wider) and language <= Language(wider).words, (p, wider))

    def test_growth_is_bounded(self) -> None:
        """Tries groups of optional elements inside each other, which would grow with each level."""
        uses = [Use("e%d" % i, True, SPEC, False) for i in range(30)]
        p = Particle("sequence", tuple(Particle("element", u, 0, 1) for u in uses), 1, 1)
        for _ in range(3):
            p = Particle("choice", (p, Particle("sequence", (p, p), 0, 3)), 0, 1)
        q = simplified(p)
        self.assertTrue(q is None or count(q) <= 2 * count(p))
        self.assertTrue(clear(widened(p)[0]))

    def test_large_groups_are_cut(self) -> None:
        """Tries that no group is too large for the profile."""
        for kind in ("sequence", "choice"):
            p = Particle(kind, tuple(Particle("element", Use("e%d" % i, True, SPEC, False), 1, 1) for i in range(1000)), 1, 1)
            q = chunked(p)
            self.assertLessEqual(max(len(k.body) for k in (q, *q.body)), 400)
            self.assertEqual([u.name for u in leaves(q)], [u.name for u in leaves(p)])
            self.assertTrue(clear(q))


if __name__ == "__main__":
    unittest.main()
