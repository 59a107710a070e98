"""Names of namespaces and components, and the parts of which rewritten components are made."""
from __future__ import annotations

from dataclasses import dataclass
from typing import Any, NamedTuple, Optional

XS = "http://www.w3.org/2001/XMLSchema"
XSI = "http://www.w3.org/2001/XMLSchema-instance"
XML = "http://www.w3.org/XML/1998/namespace"


def split(name: str) -> tuple[str, str]:
    """Returns the namespace and the local part of '{namespace}local'."""
    if name[:1] == "{":
        namespace, local = name[1:].rsplit("}", 1)
        return namespace, local
    return "", name


def clark(namespace: str, local: str) -> str:
    """Returns '{namespace}local', or the local name where there is no namespace."""
    return "{%s}%s" % (namespace, local) if namespace else local


class Ref(NamedTuple):
    """A type with a name: '{namespace}local'."""

    name: str


class Restriction(NamedTuple):
    """A simple type that restricts another by facets, each a name and a value."""

    base: Any
    facets: list[tuple[str, str]]


class Listed(NamedTuple):
    """A list of items of a simple type."""

    item: Any


class Union(NamedTuple):
    """A union of simple types."""

    members: list[Any]


class Complex(NamedTuple):
    """A complex type. Its content is None, a Ref to a simple type, or a particle."""

    mixed: bool
    content: Any
    attributes: list["Attribute"]


class Attribute(NamedTuple):
    """An attribute of a complex type. Its type is None where it is a reference."""

    name: str
    ref: bool
    type: Any
    use: str
    default: Optional[str]
    fixed: Optional[str]


@dataclass(eq=False)
class Spec:
    """The type of one or more elements: a name, or else a definition in place.

    The definition is a simple type, a Complex, or None where no content is valid."""

    namespace: str
    hint: str
    name: Optional[str] = None
    definition: Any = None

    def written(self) -> Any:
        """Returns what an element declaration says of its type."""
        return Ref(self.name) if self.name else self.definition


@dataclass(eq=False)
class Use:
    """An element in a content model: a reference to a global one, or a local declaration."""

    name: str
    ref: bool
    spec: Spec
    nillable: bool


class Item(NamedTuple):
    """A global component as it is written: kind is element, attribute, simpleType or complexType.

    An element's body is a Spec; an attribute's is its type."""

    kind: str
    name: str
    body: Any
    nillable: bool = False
    default: Optional[str] = None
    fixed: Optional[str] = None


def xs(name: str) -> Ref:
    """Returns a built-in type."""
    return Ref(clark(XS, name))


EMPTY_TEXT = Restriction(xs("string"), [("enumeration", "")])
