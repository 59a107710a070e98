"""Writes the components of a namespace as a schema document."""
from __future__ import annotations

import re
from typing import Any, Callable, Optional
from urllib.parse import quote
from xml.sax.saxutils import escape, quoteattr

from .index import Index
from .names import XML, XS, Attribute, Complex, Item, Listed, Ref, Restriction, Union, split
from .particles import Particle, chunked
from .report import Note

Pairs = list[tuple[str, str]]
HEAD = '<?xml version="1.0" encoding="UTF-8"?>\n'
MARK = "<!-- Written by ruvkhiska-narrow: change the schema that it was made from instead. -->\n"
COMPONENTS = {"element", "attribute", "simpleType", "complexType", "sequence", "choice", "all"}


def attribute_value(value: str) -> str:
    """Returns a value with quotation marks."""
    return quoteattr(value).replace("\n", "&#10;").replace("\t", "&#9;").replace("\r", "&#13;")


class Writer:
    """One schema file: the components of a namespace.

    `components` and `levels` are what the file has of each, and `names` those that it declares."""

    def __init__(self, index: Index, namespace: str, notes: dict[str, list[Note]]) -> None:
        self.index, self.namespace, self.notes = index, namespace, notes
        self.lines: list[str] = []
        self.used: set[str] = set()
        self.components, self.levels = 0, 1
        self.names: set[str] = set()
        # The form of most local elements.
        self.form = "qualified" if namespace and index.is_qualified(namespace) else "unqualified"

    def text(self, items: list[Item], files: dict[str, str]) -> str:
        """Returns the document. `files` has the name of the file of each namespace."""
        for item in items:
            self.comments(item)
            self.item(item)
        used = sorted(self.used | {self.namespace} - {""})
        prefixes = "".join(" xmlns:%s=%s" % (self.index.prefix(u), quoteattr(u)) for u in used if u not in (XS, XML, ""))
        target = " targetNamespace=%s" % quoteattr(self.namespace) if self.namespace else ""
        form = ' elementFormDefault="qualified"' if self.form == "qualified" else ""
        head = ['<xs:schema xmlns:xs="%s"%s%s%s>' % (XS, prefixes, target, form), self.annotation()]
        for u in sorted(self.used - {self.namespace, XS}):
            namespace = " namespace=%s" % quoteattr(u) if u else ""
            head.append("  <xs:import%s schemaLocation=%s/>" % (namespace, quoteattr(quote(files.get(u, "")))))
        return HEAD + MARK + "\n".join(head + self.lines + ["</xs:schema>", ""])

    def annotation(self) -> str:
        """Returns the annotation that says which files this one was made from."""
        made_from = ", ".join(self.index.made_from(self.namespace)) or "the files of the set"
        words = "Made from %s by ruvkhiska-narrow." % escape(made_from)
        return "  <xs:annotation><xs:documentation>%s</xs:documentation></xs:annotation>" % words

    def comments(self, item: Item) -> None:
        """Writes the notes on a component above it."""
        kind = "type" if item.kind.endswith("Type") else item.kind
        for note in self.notes.get(self.index.said(kind, item.name), ()):
            text = re.sub("-(?=-)|-$", "- ", "%s: %s" % (note.kind, note.words))
            self.lines.append("  <!-- %s -->" % text)

    def item(self, item: Item) -> None:
        """Writes a global component."""
        local = split(item.name)[1]
        if item.kind == "element":
            self.typed("element", local, [("nillable", "true")] * bool(item.nillable), item.body.written(), 1)
        elif item.kind == "attribute":
            self.typed("attribute", local, present([("default", item.default), ("fixed", item.fixed)]), item.body, 1)
        elif item.kind == "complexType":
            self.complex(item.body, [("name", local)], 1)
        else:
            self.simple(item.body, [("name", local)], 1)

    def q(self, name: str) -> str:
        """Returns a name with its prefix."""
        namespace = split(name)[0]
        self.used.add(namespace)
        return self.index.shown(name)

    def tag(self, level: int, name: str, attributes: Pairs, inner: Optional[Callable[[], Any]] = None) -> None:
        """Writes an element of the schema namespace."""
        self.components += name in COMPONENTS
        self.levels = max(self.levels, level + 1)
        self.names.update(v for k, v in attributes if k == "name")
        said = "".join(" %s=%s" % (k, attribute_value(v)) for k, v in attributes)
        self.lines.append("%s<xs:%s%s%s>" % ("  " * level, name, said, "" if inner else "/"))
        if inner:
            inner()
            self.lines.append("%s</xs:%s>" % ("  " * level, name))

    def typed(self, name: str, local: str, more: Pairs, definition: Any, level: int) -> None:
        """Writes an element or an attribute, whose type has a name or is in place."""
        if isinstance(definition, Ref):
            self.tag(level, name, [("name", local), ("type", self.q(definition.name))] + more)
        else:
            write = self.complex if isinstance(definition, Complex) else self.simple
            self.tag(level, name, [("name", local)] + more, lambda: write(definition, [], level + 1))

    def simple(self, node: Any, attributes: Pairs, level: int) -> None:
        """Writes a simple type."""

        def inner() -> None:
            if isinstance(node, Listed):
                self.made_of("list", "itemType", [node.item], [], level + 1)
            elif isinstance(node, Union):
                self.made_of("union", "memberTypes", node.members, [], level + 1)
            elif isinstance(node, Restriction):
                self.made_of("restriction", "base", [node.base], node.facets, level + 1)
            else:
                self.made_of("restriction", "base", [node], [], level + 1)

        self.tag(level, "simpleType", attributes, inner)

    def made_of(self, name: str, word: str, nodes: list[Any], facets: Pairs, level: int) -> None:
        """Writes parts as names in the attribute `word` where all have one, and else in place, in their order."""
        attributes: Pairs = []
        if all(isinstance(n, Ref) for n in nodes):
            attributes, nodes = [(word, " ".join(self.q(n.name) for n in nodes))], []

        def inner() -> None:
            for n in nodes:
                self.simple(n, [], level + 1)
            for facet, value in facets:
                self.tag(level + 1, facet, [("value", value)])

        self.tag(level, name, attributes, inner if nodes or facets else None)

    def complex(self, c: Complex, attributes: Pairs, level: int) -> None:
        """Writes a complex type."""

        def uses(level: int) -> None:
            for a in c.attributes:
                self.attribute(a, level)

        def extension() -> None:
            base = [("base", self.q(c.content.name))]
            self.tag(level + 2, "extension", base, (lambda: uses(level + 3)) if c.attributes else None)

        def inner() -> None:
            if isinstance(c.content, Ref):
                self.tag(level + 1, "simpleContent", [], extension)
                return
            if c.content is not None:
                p = chunked(c.content)
                self.particle(Particle("sequence", (p,), 1, 1) if p.kind == "element" else p, level + 1)
            uses(level + 1)

        mixed = [("mixed", "true")] * c.mixed
        self.tag(level, "complexType", attributes + mixed, inner if c.content is not None or c.attributes else None)

    def particle(self, p: Particle, level: int) -> None:
        """Writes a particle."""
        occurs = [("minOccurs", str(p.lo))] * (p.lo != 1)
        occurs += [("maxOccurs", "unbounded" if p.hi is None else str(p.hi))] * (p.hi != 1)

        def inner() -> None:
            for k in p.body:
                self.particle(k, level + 1)

        if p.kind != "element":
            self.tag(level, p.kind, occurs, inner)
        elif p.body.ref:
            self.tag(level, "element", [("ref", self.q(p.body.name))] + occurs)
        else:
            namespace, local = split(p.body.name)
            form = "qualified" if namespace else "unqualified"
            more = [("form", form)] * (form != self.form) + [("nillable", "true")] * bool(p.body.nillable)
            self.typed("element", local, more + occurs, p.body.spec.written(), level)

    def attribute(self, a: Attribute, level: int) -> None:
        """Writes an attribute of a complex type."""
        use = a.use if a.use != "optional" else None
        more = present([("use", use), ("default", a.default), ("fixed", a.fixed)])
        namespace, local = split(a.name)
        if a.ref or namespace and namespace != self.namespace:
            self.tag(level, "attribute", [("ref", self.q(a.name))] + more)
        else:
            self.typed("attribute", local, [("form", "qualified")] * bool(namespace) + more, a.type, level)


def present(pairs: list[tuple[str, Optional[str]]]) -> Pairs:
    """Returns the pairs that have a value."""
    return [(k, v) for k, v in pairs if v is not None]
