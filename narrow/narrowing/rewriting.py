"""What elements, complex types and attributes become, and the plan of all that is to be written."""
from __future__ import annotations

import re
from typing import Any, Optional

from xmlschema.validators import XsdAttribute, XsdElement, XsdSimpleType

from .contents import Contents
from .index import Index
from .names import XML, XS, XSI, Attribute, Complex, Item, Ref, Spec, clark, split
from .facts import accepts, is_builtin
from .particles import EMPTY, NEVER
from .report import Report
from .simple_types import SimpleTypes

MOST_ATTRIBUTES = 400
MOST_KNOWN = 100  # A wildcard of attributes that allows more of the set than this is dropped.
Dead = set[tuple[str, Any]]
Only = Optional[set[tuple[str, str]]]  # element, attribute or type, and the name


class Rewriting:
    """One pass over the set, or over those of its global components that are in `only`.

    `dead` has the elements and types by which nothing is valid, as far as they are known."""

    def __init__(self, index: Index, wildcards: str, dead: Dead, only: Only = None) -> None:
        self.index, self.maps, self.wildcards, self.dead, self.only = index, index.maps, wildcards, dead, only
        self.report = Report(index.place)
        self.simple = SimpleTypes(index.maps, self.report)
        self.contents = Contents(index, self.report, self, wildcards)
        self.kept: list[Any] = []  # Keeps types alive whose id is a key.
        self.specs: dict[Any, Spec] = {}
        self.complexes: dict[Any, Any] = {}
        self.added: list[tuple[str, str, Any]] = []
        self.taken = {name for kind, name in index.globals if kind.endswith("Type")}
        self.xml_attributes: list[Any] = []
        self.written: dict[str, list[Item]] = {}
        self.plan()

    def within(self, c: Any) -> Any:
        """Attributes notes to a component and its node."""
        return self.report.within(self.index.component(c), c.elem)

    # Elements and their types.

    def spec(self, x: Any, hint: str) -> Spec:
        """Returns the type of an element declaration."""
        t = self.index.type_of(x)
        constraint: tuple[str, ...] = ()
        if x.fixed is not None or x.default is not None:
            constraint = ("fixed", x.fixed) if x.fixed is not None else ("default",)
        with self.within(x):
            if x.nillable and x.fixed is not None:
                self.report.note("nil-fixed")
            if is_builtin(t) and t.is_simple():
                self.simple.note_builtin(t, x.elem, subject_of("element", x))
            if t.is_complex() and t.abstract:
                self.report.note("abstract-type", x.local_name)
            key = (id(t),) + constraint
            if key not in self.specs:
                self.kept.append(t)
                self.specs[key] = Spec(x.target_namespace if is_builtin(t) else t.target_namespace, hint)
                self.define(self.specs[key], t, constraint, subject_of("element", x))
        return self.specs[key]

    def define(self, spec: Spec, t: Any, constraint: tuple[str, ...], subject: str) -> None:
        """Fills in the type of elements."""
        if t.name and self.maps.types.get(t.name) is t and not constraint and not is_builtin(t):
            spec.name = t.name
        if t.is_simple():
            node = self.simple.type_ref(t, self.report.node, subject)
            spec.definition = self.simple.with_constraint(t, node, constraint, subject) if constraint else node
        elif not t.abstract and ("type", type_key(t)) not in self.dead:
            if t.name in self.index.derived:
                with self.within(t):
                    self.report.note("xsi-type", ", ".join(self.descendants(t.name)))
            spec.definition = "possible"  # Until it is known, in a circle.
            spec.definition = self.complex_type(t, spec.hint, constraint)

    def descendants(self, name: str) -> list[str]:
        """Returns the names of the types that are derived from a type."""
        found: list[str] = []
        todo = [name]
        while todo:
            namespace = split(todo[0])[0]
            for local in self.index.derived.get(todo.pop(0), ()):
                if local not in found:
                    found.append(local)
                    todo.append(clark(namespace, local))
        return found

    def complex_type(self, t: Any, hint: str, constraint: tuple[str, ...] = ()) -> Any:
        """Returns a Complex, or None where no content is valid."""
        key = (id(t),) + constraint
        if key not in self.complexes:
            self.complexes[key] = "possible"
            self.kept.append(t)
            with self.within(t):
                self.complexes[key] = self.new_complex(t, hint, constraint)
            if self.complexes[key] is None:
                self.dead.add(("type", type_key(t)))
        return self.complexes[key]

    def new_complex(self, t: Any, hint: str, constraint: tuple[str, ...]) -> Optional[Complex]:
        """Returns what a complex type becomes."""
        content = t.content
        result: Any
        if isinstance(content, XsdSimpleType):
            node = self.simple.type_ref(content, t.elem)
            if constraint:
                node = self.simple.with_constraint(content, node, constraint)
            result = node if isinstance(node, Ref) else self.named(t.target_namespace, hint + "-text", node)
        else:
            if constraint[:1] == ("fixed",):
                self.report.note("element-fixed", constraint[1])
            result = self.contents.content(content)
        mixed = not isinstance(result, Ref) and is_mixed(t)
        if result == NEVER:
            return None
        return Complex(mixed, None if result == EMPTY else result, self.attributes(t))

    def named(self, namespace: str, name: str, node: Any) -> Ref:
        """Returns a new name for a type without one."""
        name, n = re.sub(r"[^\w.-]", "", name)[:60], 1
        while clark(namespace, name if n == 1 else "%s%d" % (name, n)) in self.taken:
            n += 1
        name = clark(namespace, name if n == 1 else "%s%d" % (name, n))
        self.taken.add(name)
        self.added.append((namespace, name, node))
        return Ref(name)

    def is_alive(self, g: Any) -> bool:
        """Says whether a global element can be valid at all."""
        if self.spec(g, g.local_name).definition is None:
            self.dead.add(("element", g.name))
        return ("element", g.name) not in self.dead

    def constraints(self, x: Any) -> None:
        """Notes the identity constraints of an element."""
        for name, constraint in (getattr(x, "identities", None) or {}).items():
            kind = constraint.elem.tag.rsplit("}", 1)[-1]
            self.report.note("key", "xs:%s %s" % (kind, split(name)[1]), node=constraint.elem)

    # Attributes.

    def attributes(self, t: Any) -> list[Attribute]:
        """Returns the attributes of a complex type."""
        uses: list[Attribute] = []
        for name, a in t.attributes.items():
            if name is None:
                uses += self.any_attribute(a, t)
            elif a.use != "prohibited" and split(name)[0] != XSI:
                uses.append(self.attribute(a, a.ref is not None))
        if len(uses) > MOST_ATTRIBUTES:
            self.report.note("many-attributes")
            uses = sorted(uses, key=lambda a: a.use != "required")[:MOST_ATTRIBUTES]
        return uses

    def any_attribute(self, a: Any, t: Any) -> list[Attribute]:
        """Returns the attributes of the set that a wildcard allows."""
        known = []
        if self.wildcards == "known":
            known = [
                c
                for namespace, c in self.index.order
                if isinstance(c, XsdAttribute) and a.is_namespace_allowed(namespace) and c.name not in t.attributes
            ]
        if len(known) > MOST_KNOWN:
            known = []
        if not a.namespace:
            return []  # This wildcard allows nothing, as that of a restriction which has none.
        if not known:
            self.report.note("any-attribute", "each attribute that the wildcard allows here is refused", node=a.elem)
        elif a.process_contents != "strict":
            words = "of the attributes that the wildcard allows here, those that the set doesn't declare are refused"
            words += ", and the others are checked as declared" if a.process_contents == "skip" else ""
            self.report.note("any-attribute", words, node=a.elem)
        return [self.attribute(c, True) for c in known]

    def attribute(self, a: Any, ref: bool) -> Attribute:
        """Returns what an attribute becomes. One without a value that the profile can keep has no default or fixed value."""
        if split(a.name)[0] == XML and (a.ref or a) not in self.xml_attributes:
            self.xml_attributes.append(a.ref or a)
        node = None if ref else self.simple.type_ref(a.type, a.elem, subject_of("attribute", a))
        default, fixed = a.default, a.fixed
        f = self.simple.facts(a.type)
        is_alien = f.alien and f.kind == "text"
        hides_alien = any(atom.alien and atom.kind == "text" for atom in self.simple.atoms(a.type))
        if fixed is not None and (is_alien or hides_alien or not accepts(a.type, fixed)):
            self.report.note("attribute-fixed", '%s="%s"' % (a.local_name, fixed), node=a.elem)
            fixed = None
        if default is not None and (is_alien or a.use == "required" or not accepts(a.type, default)):
            default = None  # An absent attribute stays absent: nothing is lost.
        if ref and a.elem.get("fixed") is None:
            fixed = None  # It is that of the global attribute.
        if ref and a.elem.get("default") is None or fixed is not None:
            default = None
        return Attribute(a.name, ref, node, a.use, default, fixed)

    # The plan: all that is to be written.

    def plan(self) -> None:
        """Rewrites all global components."""
        target = self.index.target
        for namespace, c in self.index.order:
            if self.is_planned(c) and (namespace != XML or target == XML):
                with self.within(c):
                    self.component(c, self.written.setdefault(namespace, []))
        for c in self.xml_attributes if target != XML else ():
            with self.within(c):
                self.component(c, self.written.setdefault(XML, []))

    def is_planned(self, c: Any) -> bool:
        """Says whether a global component is one of those to be written."""
        kind = "element" if isinstance(c, XsdElement) else "attribute" if isinstance(c, XsdAttribute) else "type"
        return self.only is None or (kind, c.name) in self.only

    def component(self, c: Any, out: list[Item]) -> None:
        """Adds what a global component becomes."""
        if isinstance(c, XsdElement):
            self.constraints(c)
            if not c.abstract and self.is_alive(c):
                out.append(Item("element", c.name, self.spec(c, c.local_name), c.nillable))
            elif not c.abstract and not self.report.has_refusal(self.report.component):
                self.report.note("no-content")
        elif isinstance(c, XsdAttribute):
            a = self.attribute(c, False)
            out.append(Item("attribute", c.name, a.type, default=a.default, fixed=a.fixed))
        elif isinstance(c, XsdSimpleType):
            out.append(Item("simpleType", str(c.name), self.simple.definition(c)))
        elif not c.abstract and self.complex_type(c, c.local_name) is not None:
            out.append(Item("complexType", c.name, self.complex_type(c, c.local_name)))


def is_mixed(t: Any) -> bool:
    """Says whether a complex type allows text between its elements.

    An extension that adds no elements has the content of its base (XML Schema Part 1, section 3.4.2), mixed or not.
    xmlschema 1.10 calls it not mixed."""
    met: list[Any] = []
    while not (t.mixed or t.content.mixed) and t.derivation == "extension" and not adds_elements(t.elem):
        met.append(t)
        if t.base_type is None or t.base_type.has_simple_content() or any(t.base_type is other for other in met):
            return False
        t = t.base_type
    return bool(t.mixed or t.content.mixed)


def adds_elements(node: Any) -> bool:
    """Says whether the definition of a complex type has particles in it."""
    groups = [it for it in node.iter() if it.tag in ("{%s}%s" % (XS, kind) for kind in ("group", "all", "choice", "sequence"))]
    return any(it.get("ref") or any(part.tag != "{%s}annotation" % XS for part in it) for it in groups)


def subject_of(kind: str, x: Any) -> str:
    """Returns how a line of the report begins that is of a local element or attribute."""
    return "" if x.parent is None else "%s %s: " % (kind, x.local_name)


def type_key(t: Any) -> Any:
    """Returns what identifies a complex type: its name, or else the object, which stays as long as the set."""
    return t.name or id(t)


def rewritten(index: Index, wildcards: str, only: Only = None) -> Rewriting:
    """Returns the rewriting of the set, or of some components. It begins again where a circle turned out to have no valid content."""
    dead: Dead = set()
    while True:
        before = set(dead)
        rewriting = Rewriting(index, wildcards, dead, only)
        if before == dead:
            return rewriting
