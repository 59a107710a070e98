"""The global components of a set in the order written, and where each node of its files is."""
from __future__ import annotations

import os
import posixpath
from typing import Any, Optional

from xmlschema.validators import XsdAttribute, XsdComplexType, XsdElement

from .names import XML, XS, XSI, clark, split
from .sources import Sources, local_path

MOST_PREFIX = 255  # bytes, by the profile
RESERVED = ("xs", "xml", "xmlns")  # Prefixes that the files written have for other namespaces.


class Index:
    """What the rewriting looks up: components in order, prefixes, and places."""

    def __init__(self, sources: Sources, schema: Any) -> None:
        self.sources, self.schema, self.maps = sources, schema, schema.maps
        self.target: str = self.main().target_namespace
        self.prefixes: dict[str, str] = {}
        self.order: list[tuple[str, Any]] = []
        self.globals: dict[tuple[str, str], Any] = {}
        self.places: dict[int, tuple[str, int]] = {}
        self.formers: list[Any] = []
        for namespace, documents in self.maps.namespaces.items():
            if namespace not in (XS, XSI):
                for document in documents:
                    self.add_document(namespace, document)
        self.declared = set(self.prefixes)
        self.prefixes.update({XS: "xs", XML: "xml"})
        self.prefixes.pop("", None)
        self.rank = {id(c): i for i, (_, c) in enumerate(self.order)}
        self.derived = self.find_derived()

    def main(self) -> Any:
        """Returns the document of the first FILE."""
        path = self.sources.start[len(self.sources.locations)]
        for document in self.maps.iter_schemas():
            if self.sources.source_of(document.url) is self.sources.files[path]:
                return document
        return self.schema

    def add_document(self, namespace: str, document: Any) -> None:
        """Lists the components, prefixes and places of a document."""
        for prefix, uri in document.namespaces.items():
            usable = prefix and prefix not in RESERVED and len(prefix.encode()) <= MOST_PREFIX
            if usable and uri not in self.prefixes and prefix not in self.prefixes.values():
                self.prefixes[uri] = prefix
        source = self.sources.source_of(document.url)
        if source is not None:
            for node, line in zip(document.root.iter(), source.lines):
                self.places[id(node)] = source.shown, line
        self.list_globals(namespace, document.root)

    def list_globals(self, namespace: str, root: Any) -> None:
        """Lists global components in the order written."""
        maps = self.maps
        kinds = {"element": maps.elements, "attribute": maps.attributes, "simpleType": maps.types, "complexType": maps.types}
        for node in root:
            kind = node.tag.rsplit("}", 1)[-1] if isinstance(node.tag, str) else ""
            if kind == "redefine":
                self.list_globals(namespace, node)
            elif kind in kinds and node.get("name"):
                name = clark(namespace, node.get("name"))
                component = kinds[kind].get(name)
                if component is None or isinstance(component, (tuple, list)) or (kind, name) in self.globals:
                    continue
                self.globals[kind, name] = component
                self.order.append((namespace, component))

    def find_derived(self) -> dict[str, list[str]]:
        """Returns the complex types that are derived from each complex type of the set by one step."""
        derived: dict[str, list[str]] = {}
        for _, c in self.order:
            base = c.base_type if isinstance(c, XsdComplexType) else None
            if base is not None and base.name and split(base.name)[0] != XS and base.is_complex() and base is not c:
                derived.setdefault(base.name, []).append(split(c.name)[1])
        return derived

    def place(self, node: Any) -> Optional[tuple[str, int]]:
        """Returns the file and the line of a node, None where it isn't in the set, and of None the first FILE."""
        if node is None:
            return self.sources.files[self.sources.start[len(self.sources.locations)]].shown, 0
        return self.places.get(id(node))

    def component(self, c: Any) -> str:
        """Returns how the report names a global component, or '' for a local one."""
        if c.parent is not None or not c.name:
            return ""
        kind = "element" if isinstance(c, XsdElement) else "attribute" if isinstance(c, XsdAttribute) else "type"
        return self.said(kind, c.name)

    def said(self, kind: str, name: str) -> str:
        """Returns how the report names a component: without a prefix that no file has, for the target namespace."""
        namespace, local = split(name)
        bare = namespace == self.target and namespace not in self.declared
        return "%s %s" % (kind, local if bare else self.shown(name))

    def shown(self, name: str) -> str:
        """Returns a name with its prefix."""
        namespace, local = split(name)
        return "%s:%s" % (self.prefix(namespace), local) if namespace else local

    def prefix(self, namespace: str) -> str:
        """Returns the prefix of a namespace, which is made where the files have none."""
        if namespace not in self.prefixes:
            n = 1
            while "n%d" % n in self.prefixes.values():
                n += 1
            self.prefixes[namespace] = "n%d" % n
        return self.prefixes[namespace]

    def type_of(self, x: Any) -> Any:
        """Returns the type of an element: without one of its own, that of the head of its substitution group."""
        met: list[Any] = []
        while x is not None and not any(x is other for other in met):
            met.append(x)
            own = x.elem.get("type") or any(isinstance(k.tag, str) and k.tag.endswith("Type") for k in x.elem)
            head = x.elem.get("substitutionGroup")
            if own or x.ref is not None or not head:
                return x.type
            try:
                x = self.maps.elements.get(x.schema.resolve_qname(head.strip()))
            except (KeyError, ValueError):
                break
        return met[0].type

    def members(self, head: Any) -> list[Any]:
        """Returns the element, if it isn't abstract, and all that may be substituted for it."""
        found: list[Any] = []
        todo = [head]
        while todo:
            g = todo.pop(0)
            if not any(g is other for other in found):
                found.append(g)
                groups = self.maps.substitution_groups.get(g.name, ())
                todo += sorted(groups, key=lambda m: self.rank.get(id(m), 0))
        return [g for g in found if not g.abstract and (g is head or not self.is_blocked(head, g))]

    def is_blocked(self, head: Any, member: Any) -> bool:
        """Says whether `block` of an element forbids that another is substituted for it."""
        end, t, steps = self.type_of(head), self.type_of(member), set()
        block = set((head.block or "").split()) | set((getattr(end, "block", "") or "").split())
        if "#all" in block or "substitution" in block:
            return True
        for _ in range(1000):
            if t is None or t is end:
                break
            steps.add(t.derivation)
            t = t.base_type
        return bool(block & steps)

    def file_name(self, namespace: str) -> str:
        """Returns the name of the file in which the components of a namespace are written."""
        if namespace == XML:
            return "xml.xsd"
        documents = self.maps.namespaces.get(namespace) or [self.schema]
        return os.path.basename(local_path(documents[0].url or "schema.xsd"))

    def made_from(self, namespace: str) -> list[str]:
        """Returns the files that declare a namespace, relative to the folder of the first FILE."""
        folder = os.path.dirname(self.sources.start[len(self.sources.locations)])
        found = []
        for document in self.maps.namespaces.get(namespace, ()):
            source = self.sources.source_of(document.url)
            if source is not None:
                found.append(posixpath.join(*os.path.relpath(source.path, folder).split(os.sep)))
        return list(dict.fromkeys(found))

    def is_qualified(self, namespace: str) -> bool:
        """Says whether local elements have the namespace by the default of its first document."""
        documents = self.maps.namespaces.get(namespace) or [self.schema]
        return bool(documents[0].element_form_default == "qualified")
