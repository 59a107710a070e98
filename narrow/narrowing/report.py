"""The report: a line for each thing that the rewritten schemas don't say as the original does."""
from __future__ import annotations

import contextlib
from typing import Any, Iterator, NamedTuple

# The exit status that a line of each kind asks for; the greatest one counts.
STATUS = {"wider": 1, "unsafe": 1, "refuses": 2, "failed": 3}

# Each rule: the kind of its lines, and what it means for documents. {} is filled in for each line.
RULES = {
    "text": ("wider", "{} becomes xs:token: any text is accepted"),
    "text-facet": ("wider", "{} is not checked: the values are texts now"),
    "text-enumeration": ("wider", "the enumeration is not checked: a value has several spellings"),
    "pattern": ("wider", "the pattern {} is not checked"),
    "number-pattern": ("wider", "the pattern {} is not checked: other spellings of the numbers are accepted"),
    "number-spelling": ("wider", "the numbers become xs:token, since the pattern {} asks for a spelling: any text is accepted"),
    "boolean-pattern": ("wider", "the pattern {} is not checked: true, false, 1 and 0 are accepted"),
    "list-enumeration": ("wider", "the enumeration of lists is not checked"),
    "union-enumeration": ("wider", "the enumeration over a union is not checked"),
    "union-text": ("wider", "the union becomes a text from member {} on: any text is accepted"),
    "no-value": ("wider", "the type has no valid value: its facets are not checked"),
    "id": ("wider", "{} becomes xs:NCName: it is not checked that {}"),
    "key": ("wider", "{} is not checked"),
    "nil-fixed": ("wider", "xsi:nil is accepted although the value is fixed"),
    "element-fixed": ("wider", "the fixed value {} is not checked"),
    "attribute-fixed": ("wider", "the fixed value {} is not checked"),
    "occurrences": ("wider", "at most {} occurrences becomes any number"),
    "not-clear": ("wider", "order and number are not checked of the child elements {}"),
    "optional-all": ("wider", "each element of the optional all may be absent by itself"),
    "substituted-all": ("wider", "in the all, several elements of the substitution group {} may occur"),
    "not-valid": ("unsafe", "the schema breaks a rule of XML Schema: {}"),
    "qname": ("unsafe", "a name without a prefix loses the default namespace as its meaning"),
    "qname-prefix": ("refuses", "a name with a prefix is refused as a value"),
    "xsi-type": ("refuses", "xsi:type is refused: elements can't have the derived types {}"),
    "abstract-type": ("refuses", "element {} is refused: its type is abstract, so it needs xsi:type"),
    "point": ("refuses", "a whole number that is written with a point, as 5.0, is refused"),
    "any": ("refuses", "{}"),
    "any-attribute": ("refuses", "{}"),
    "big-number": ("refuses", "whole numbers of more than 128 bits are refused"),
    "many-words": ("refuses", "words after the 10,000th of the enumeration are refused"),
    "no-content": ("refuses", "the element is refused: its type has no valid content here"),
    "two-types": ("failed", "the elements {} have two types in one content model: the first is used"),
    "two-declarations": ("failed", "{} has two declarations of another namespace: the first is used"),
    "many-attributes": ("failed", "attributes after the 400th are refused"),
}


class Note(NamedTuple):
    """One line: where it is, which component it is of, and what it says."""

    file: str
    line: int
    component: str
    rule: str
    words: str

    @property
    def kind(self) -> str:
        """Returns wider, unsafe, refuses or failed."""
        return RULES[self.rule][0]

    def __str__(self) -> str:
        place = "%s:%d" % (self.file, self.line) if self.line else self.file
        component = self.component + ": " if self.component else ""
        return "%s: %s: %s%s [%s]" % (place, self.kind, component, self.words, self.rule)


class Report:
    """Collects notes, each once. `place_of` returns the file and the line of a node of a schema file."""

    def __init__(self, place_of: Any) -> None:
        self.place_of = place_of
        self.component, self.node = "", None
        self.notes: dict[Note, None] = {}

    @contextlib.contextmanager
    def within(self, component: str, node: Any) -> Iterator[None]:
        """Attributes the notes of the block to a node, and to a component unless that is ''."""
        before = self.component, self.node
        self.component, self.node = component or self.component, node
        yield
        self.component, self.node = before

    def note(self, rule: str, *details: str, node: Any = None, subject: str = "") -> None:
        """Adds a line of a rule. Its place is that of `node`, or else of the block's node."""
        known = (self.place_of(n) for n in (node, self.node) if n is not None)
        file, line = next((place for place in known if place), None) or self.place_of(None)
        words = RULES[rule][1].format(*(shortened(d) for d in details))
        self.notes[Note(file, line, self.component, rule, subject + words)] = None

    def has_refusal(self, component: str) -> bool:
        """Says whether a line `refuses` is of the component."""
        return any(n.component == component and n.kind == "refuses" for n in self.notes)

    def sorted(self) -> list[Note]:
        """Returns the notes by file and line, and as they came where these are the same."""
        return sorted(self.notes, key=lambda n: (n.file, n.line))


def shortened(text: str, most: int = 160) -> str:
    """Returns the text in one line of at most `most` characters."""
    text = " ".join("".join(c if c.isprintable() else " " for c in text).split())
    return text if len(text) <= most else text[: most - 3] + "..."
