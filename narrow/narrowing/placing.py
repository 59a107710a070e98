"""Names the types that need one, moves declarations to their namespaces, and drops what the roots don't reach."""
from __future__ import annotations

from typing import Any, Iterator

from .names import Complex, Item, Listed, Ref, Restriction, Spec, Union, Use, split
from .particles import Particle, leaves
from .rewriting import Rewriting

MOST_LEVELS = 24  # An element inside more elements of its schema file than this has a type with a name.
KINDS = {"element": "element", "attribute": "attribute", "simpleType": "type", "complexType": "type"}


def leaves_at(p: Particle, level: int = 0) -> Iterator[tuple[Use, int]]:
    """Yields the elements of a content model with the number of groups around each."""
    if p.kind == "element":
        yield p.body, level
    else:
        for k in p.body:
            yield from leaves_at(k, level + 1)


class Placing:
    """Gives a name to each type in place that several elements have, that is too deep in its file, or whose local
    elements belong to another namespace than the file. Local declarations of other namespaces become global."""

    def __init__(self, rewriting: Rewriting) -> None:
        self.rewriting, self.report, self.written = rewriting, rewriting.report, rewriting.written
        self.met: dict[int, Spec] = {}

    def run(self) -> None:
        """Places all types."""
        for namespace, items in list(self.written.items()):
            for item in list(items):
                if item.kind == "element":
                    self.visit(item.body, namespace, 2)
                elif item.kind == "complexType":
                    self.place_parts(item.body, namespace, 2)
        for namespace, name, node in self.rewriting.added:
            kind = "complexType" if isinstance(node, Complex) else "simpleType"
            self.written.setdefault(namespace, []).append(Item(kind, name, node))

    def place_parts(self, c: Any, namespace: str, level: int) -> None:
        """Places what is in a type that is written at a level of the file of a namespace."""
        if not isinstance(c, Complex):
            return
        for use, groups in leaves_at(c.content) if isinstance(c.content, Particle) else ():
            if not use.ref:
                self.visit(use.spec, namespace, level + groups + 1)
                if split(use.name)[0] not in ("", namespace):
                    use.ref = True
                    self.move(Item("element", use.name, use.spec, use.nillable))
        for i, a in enumerate(c.attributes):
            if not a.ref and split(a.name)[0] not in ("", namespace):
                c.attributes[i] = a._replace(ref=True)
                self.move(Item("attribute", a.name, a.type))

    def visit(self, spec: Spec, home: str, level: int) -> None:
        """Places the type of an element that is at a level of the file of a namespace."""
        if spec.name or isinstance(spec.definition, Ref):
            return
        if id(spec) in self.met or level > MOST_LEVELS or self.belongs_elsewhere(spec, home):
            spec.name = self.rewriting.named(spec.namespace, spec.hint + "-type", spec.definition).name
        if spec.name or id(spec) not in self.met:
            self.met[id(spec)] = spec
            self.place_parts(spec.definition, spec.namespace if spec.name else home, 2 if spec.name else level + 1)

    @staticmethod
    def belongs_elsewhere(spec: Spec, home: str) -> bool:
        """Says whether a type has local elements of its own namespace, which isn't that of the file."""
        content = spec.definition.content if isinstance(spec.definition, Complex) else None
        if spec.namespace == home or not isinstance(content, Particle):
            return False
        return any(not u.ref and split(u.name)[0] == spec.namespace for u in leaves(content))

    def move(self, item: Item) -> None:
        """Makes a local declaration of another namespace a global one there."""
        out = self.written.setdefault(split(item.name)[0], [])
        same = [other for other in out if other[:2] == item[:2]]
        if not same:
            out.append(item)
        elif same[0].body is not item.body and same[0].body != item.body:
            self.report.note("two-declarations", "%s %s" % (item.kind, item.name))


class Pruning:
    """Keeps the components that the roots reach."""

    def __init__(self, rewriting: Rewriting, roots: list[str]) -> None:
        self.written = rewriting.written
        self.todo = [("element", name) for name in roots]

    def run(self) -> None:
        """Drops all other components."""
        reached = self.reached()
        for namespace, items in self.written.items():
            self.written[namespace] = [i for i in items if (KINDS[i.kind], i.name) in reached]

    def reached(self) -> set[tuple[str, str]]:
        """Returns the components to keep: element, attribute or type, and the name."""
        index = {(KINDS[item.kind], item.name): item for items in self.written.values() for item in items}
        reached: set[tuple[str, str]] = set()
        while self.todo:
            key = self.todo.pop()
            if key in index and key not in reached:
                reached.add(key)
                item = index[key]
                self.follow(item.body.written() if item.kind == "element" else item.body)
        return reached

    def follow(self, d: Any) -> None:
        """Adds what a definition refers to."""
        if isinstance(d, Ref):
            self.todo.append(("type", d.name))
        elif isinstance(d, Complex):
            self.follow_complex(d)
        elif isinstance(d, Restriction):
            self.follow(d.base)
        elif isinstance(d, Listed):
            self.follow(d.item)
        elif isinstance(d, Union):
            for m in d.members:
                self.follow(m)

    def follow_complex(self, d: Complex) -> None:
        """Adds what a complex type refers to."""
        for use in leaves(d.content) if isinstance(d.content, Particle) else ():
            if use.ref:
                self.todo.append(("element", use.name))
            else:
                self.follow(use.spec.written())
        if isinstance(d.content, Ref):
            self.follow(d.content)
        for a in d.attributes:
            if a.ref:
                self.todo.append(("attribute", a.name))
            else:
                self.follow(a.type)
