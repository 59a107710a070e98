"""Random documents of a schema set, valid or nearly so."""
from __future__ import annotations

import random
import re
import xml.etree.ElementTree as ET
from typing import Any, Optional

from random_schemas import TEXTS
from support import NAMESPACE
from narrowing.facts import accepts
from xmlschema import XMLSchema10
from xmlschema.validators import XsdAnyElement, XsdElement


class Documents:
    """Makes random documents of a schema, of one root or of any. `features` has the rules that may speak of the last one."""

    def __init__(self, rng: random.Random, original: XMLSchema10, root: str = "") -> None:
        self.rng, self.original = rng, original
        self.features: set[str] = set()
        self.values: dict[int, list[str]] = {}
        self.globals = [e for e in original.maps.elements.values() if not isinstance(e, tuple) and e.target_namespace in ("", "urn:a", "urn:b")]
        self.roots = [e for e in self.globals if e.name == root if root] or [e for e in self.globals if not e.abstract] or self.globals

    def document(self) -> Optional[bytes]:
        """Returns a document, or None where it would be too deep."""
        self.features, self.size = set(), 0
        root = self.rng.choice(self.roots)
        try:
            node = self.element(root, 0)
        except RecursionError:
            return None
        if self.rng.random() < 0.4:
            self.change(node)
        ET.register_namespace("a", "urn:a")  # python3-xmlschema may have made it the default one, which loses that of attributes.
        return ET.tostring(node, encoding="utf-8")

    def value(self, t: Any) -> str:
        """Returns a text that a simple type accepts, where one of ours is."""
        if id(t) not in self.values:
            words = [str(w) for w in (getattr(t, "enumeration", None) or [])]
            self.values[id(t)] = [w for w in TEXTS + words if accepts(t, w)] or ["5"]
        text = self.rng.choice(self.values[id(t)])
        self.features |= {"point"} if re.search(r"\d\.|\.\d", text) else set()
        self.features |= {"qname-prefix"} if ":" in text else set()
        return text

    def element(self, e: XsdElement, depth: int) -> ET.Element:
        """Returns an element of a declaration, or of one that may be substituted for it."""
        self.size += 1
        if depth > 8 or self.size > 200:
            raise RecursionError
        head = e.ref if e.ref is not None else e
        members = [head] + [m for m in head.iter_substitutes()] if head.parent is None and depth else [e]
        members = [m for m in members if not m.abstract] or [head]
        e = self.rng.choice(members)
        node = ET.Element(e.name)
        t = e._head_type or e.type
        if e.nillable and self.rng.random() < 0.3:
            node.set("{%s}nil" % NAMESPACE, "true")
            self.attributes(node, t)
            return node
        if t.is_complex() and t.abstract or t.is_complex() and self.rng.random() < 0.05:
            t = self.derived(node, t)
        if (e.default or e.fixed) and self.rng.random() < 0.6:
            node.text = e.fixed if e.fixed and self.rng.random() < 0.5 else ""
            if not t.is_complex():
                return node
        self.attributes(node, t)
        if t.has_simple_content():
            node.text = self.value(t if t.is_simple() else t.content) if node.text is None else node.text
        elif t.is_complex():
            for child in self.content(t.content, depth + 1):
                node.append(child)
            if t.mixed and self.rng.random() < 0.5:
                node.text = " some text "
        return node

    def derived(self, node: ET.Element, t: Any) -> Any:
        """Chooses a derived type by xsi:type, where there is one."""
        types = [c for c in self.original.maps.types.values() if not isinstance(c, tuple) and c.name and c is not t and c.is_complex() and not c.abstract]
        types = [c for c in types if c.base_type is t]
        if types:
            t = self.rng.choice(types)
            node.set("xmlns:ty" if t.target_namespace else "xmlns:no", t.target_namespace or "urn:no")
            node.set("{%s}type" % NAMESPACE, ("ty:" if t.target_namespace else "") + t.local_name)
            self.features.add("xsi-type")
            self.features.add("abstract-type")
        return t

    def attributes(self, node: ET.Element, t: Any) -> None:
        """Sets attributes."""
        for name, a in (t.attributes if t.is_complex() else {}).items():
            if name is None:
                if self.rng.random() < 0.3:
                    node.set(self.rng.choice(["{urn:q}z", "z", "{http://www.w3.org/XML/1998/namespace}lang"]), "en")
                    self.features.add("any-attribute")
            elif a.use == "required" or a.use != "prohibited" and self.rng.random() < 0.5:
                node.set(name, a.fixed if a.fixed is not None and self.rng.random() < 0.8 else self.value(a.type))

    def content(self, p: Any, depth: int) -> list[ET.Element]:
        """Returns elements of a particle."""
        lo, hi = p.min_occurs, p.max_occurs
        most = lo + 2 if hi is None else min(hi, lo + 2)
        times = self.rng.randint(lo, most) if depth < 5 else lo
        children: list[ET.Element] = []
        for _ in range(times):
            children += self.once(p, depth)
        return children

    def once(self, p: Any, depth: int) -> list[ET.Element]:
        """Returns elements of one occurrence of a particle."""
        if isinstance(p, XsdElement):
            return [self.element(p, depth)]
        if isinstance(p, XsdAnyElement):
            self.features.add("any")
            allowed = [e for e in self.globals if p.is_namespace_allowed(e.target_namespace) and not e.abstract]
            if allowed and self.rng.random() < 0.6:
                return [self.element(self.rng.choice(allowed), depth)]
            return [ET.Element("{urn:q}z")]
        inner = p.ref if getattr(p, "ref", None) is not None else p
        parts = list(inner)
        if inner.model == "choice":
            return self.content(self.rng.choice(parts), depth) if parts else []
        if inner.model == "all":
            self.rng.shuffle(parts)
        return [child for part in parts for child in self.content(part, depth)]

    def change(self, root: ET.Element) -> None:
        """Changes one thing of a document."""
        node = self.rng.choice(list(root.iter()))
        what = self.rng.choice(["text", "drop", "double", "attribute", "swap"])
        if what == "text" and not len(node):
            node.text = self.rng.choice(TEXTS)
            self.features |= {"point"} if "." in node.text else set()
            self.features |= {"qname-prefix"} if ":" in node.text else set()
        elif what == "drop" and len(node):
            node.remove(self.rng.choice(list(node)))
        elif what == "double" and len(node):
            node.append(self.rng.choice(list(node)))
        elif what == "attribute" and node.attrib:
            del node.attrib[self.rng.choice(list(node.attrib))]
        elif what == "swap" and len(node) > 1:
            children = list(node)
            self.rng.shuffle(children)
            node[:] = children
