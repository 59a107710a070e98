"""Random schema sets with all that ruvkhiska-narrow rewrites.

A set need not be valid: facets may not fit and particles may be ambiguous. The judges of narrow/tests/random_sets.py say which are.
"""
from __future__ import annotations

import random
import re

from support import schema
from xmlschema import XMLSchema10, XMLSchemaException

# Texts to choose values from: those that a type accepts are found by trying.
TEXTS = """0|1|5|-3|007|+7|12|42|99|100|255|-128|1.50|5.0|0.1|-2.5|1E3|INF|abc|A-1|B-2|AB|x|y|none|auto|a b|a  b| x |q1 q2 q3|true|false
2024-02-29|2024-01-01T00:00:00Z|12:30:00|P1DT2H|2024|--02-29|0aFF|AA==|urn:x:y|en|p:q|1 2 3|3 4||z9|id1|id2|AAA11|ab12""".replace("\n", "|").split("|")
BUILTINS = (
    "string normalizedString token NMTOKEN Name NCName language anyURI boolean integer int byte unsignedShort positiveInteger long "
    "decimal decimal decimal float double date dateTime time duration gYear gMonthDay hexBinary base64Binary QName ID IDREF IDREFS "
    "NMTOKENS anySimpleType"
).split()
PATTERNS = (r"[A-Z]{2,3}\d*", "[AB]-?[1-3]", r"\d+", r"\d{3}", r"\d{2}", "[a-z0-9 ]*", "x|y|none", ".*", "true|false|[01]")
OCCURRENCES = ((1, 1), (1, 1), (0, 1), (0, 1), (0, "unbounded"), (1, "unbounded"), (0, 3), (2, 4))
# What a restriction makes of numbers of occurrences.
FEWER = {
    ' minOccurs="0" maxOccurs="1"/>': ' minOccurs="1" maxOccurs="1"/>',
    'maxOccurs="unbounded"': 'maxOccurs="4"',
    'maxOccurs="3"': 'maxOccurs="2"',
}
XML_SCHEMA = schema(
    '<xs:attribute name="lang" type="xs:language"/><xs:attribute name="space"><xs:simpleType><xs:restriction base="xs:NCName">'
    '<xs:enumeration value="default"/><xs:enumeration value="preserve"/></xs:restriction></xs:simpleType></xs:attribute>',
    "http://www.w3.org/XML/1998/namespace",
).replace(' xmlns="http://www.w3.org/XML/1998/namespace"', "")
INCLUDED = (
    '<xs:simpleType name="R"><xs:restriction base="xs:int"><xs:minInclusive value="1"/></xs:restriction></xs:simpleType>'
    '<xs:complexType name="RC"><xs:sequence><xs:element name="rc" type="R"/></xs:sequence><xs:attribute name="ra" type="xs:int"/></xs:complexType>'
    '<xs:group name="RG"><xs:sequence><xs:element name="rg" type="xs:date" minOccurs="0"/></xs:sequence></xs:group>'
    '<xs:attributeGroup name="RH"><xs:attribute name="rh" type="xs:int"/></xs:attributeGroup>'
)
REDEFINED = {
    "simple type": '<xs:simpleType name="R"><xs:restriction base="R"><xs:maxInclusive value="50"/></xs:restriction></xs:simpleType>',
    "complex type": '<xs:complexType name="RC"><xs:complexContent><xs:extension base="RC"><xs:sequence><xs:element name="rd" type="xs:decimal"/>'
    "</xs:sequence></xs:extension></xs:complexContent></xs:complexType>",
    "group": '<xs:group name="RG"><xs:sequence><xs:group ref="RG"/><xs:element name="re" type="xs:int" minOccurs="0"/></xs:sequence></xs:group>',
    "attribute group": '<xs:attributeGroup name="RH"><xs:attributeGroup ref="RH"/><xs:attribute name="ri" type="xs:date"/></xs:attributeGroup>',
}


class Maker:
    """Makes the text of a random set. `features` names what is in it."""

    def __init__(self, rng: random.Random) -> None:
        self.rng = rng
        self.target = rng.choice(["", "urn:a", "urn:a"])
        self.simple = ["S%d" % i for i in range(rng.randint(2, 6))]
        self.complex = ["C%d" % i for i in range(rng.randint(2, 6))]
        self.elements = ["e%d" % i for i in range(rng.randint(2, 5))]
        self.groups = ["G%d" % i for i in range(rng.randint(0, 2))]
        self.imports, self.includes = self.often(0.4), self.often(0.4)
        self.bases: list[str] = []  # Complex types that others extend.
        self.bodies: dict[str, tuple[str, str]] = {}  # Of those that others restrict, the content and the attributes.
        self.simple_contents: dict[str, str] = {}  # Of complex types with simple content, its type.
        self.texts: dict[str, str] = {}  # The simple types so far.
        self.features: set[str] = set()

    def often(self, chance: float) -> bool:
        """Says yes with a chance."""
        return self.rng.random() < chance

    def with_feature(self, chance: float, feature: str) -> bool:
        """Says yes with a chance, and notes the feature then."""
        chosen = self.often(chance)
        self.features |= {feature} if chosen else set()
        return chosen

    def files(self) -> dict[str, str]:
        """Returns the files of the set, the first one first."""
        parts = [self.simple_type(i) for i in range(len(self.simple))]
        parts += [self.complex_type(i) for i in range(len(self.complex))]
        parts += ['<xs:group name="%s">%s</xs:group>' % (g, self.group_body(2, g)) for g in self.groups]
        parts += ['<xs:attributeGroup name="H">%s</xs:attributeGroup>' % self.attributes("h")]
        parts += ['<xs:attribute name="ga" type="xs:%s"/>' % self.rng.choice(["int", "decimal", "NMTOKENS"])]
        parts += [self.global_element(i) for i in range(len(self.elements))]
        head, files = '<xs:import namespace="http://www.w3.org/XML/1998/namespace" schemaLocation="xml.xsd"/>', {"xml.xsd": XML_SCHEMA}
        more = ' xmlns:a="%s"' % self.target if self.target else ""
        if self.imports:
            more += ' xmlns:b="urn:b"'
            head += '<xs:import namespace="urn:b" schemaLocation="b.xsd"/>'
            files["b.xsd"] = self.imported()
        if self.includes:
            files["c.xsd"] = schema(INCLUDED)
            head += self.including()
            parts.append(
                '<xs:element name="r"><xs:complexType><xs:sequence><xs:element name="s" type="R"/><xs:element name="t" type="RC"/>'
                '<xs:group ref="RG"/></xs:sequence><xs:attributeGroup ref="RH"/></xs:complexType></xs:element>'
            )
        text = schema(head + "".join(parts), self.target, more)
        return {"s.xsd": self.with_entities(text) if self.with_feature(0.15, "entities") else text, **files}

    def imported(self) -> str:
        """Returns the schema of another namespace."""
        kind = self.rng.choice(BUILTINS[:12])
        text = '<xs:element name="b0" type="xs:int"/><xs:element name="b1" type="T"/><xs:complexType name="T"><xs:sequence>'
        return schema(text + '<xs:element name="c" type="xs:%s" minOccurs="0"/></xs:sequence></xs:complexType>' % kind, "urn:b")

    def including(self) -> str:
        """Returns an include or a redefine."""
        chosen = [name for name in REDEFINED if self.with_feature(0.3, "redefine of a " + name)]
        if not chosen:
            return '<xs:include schemaLocation="c.xsd"/>'
        return '<xs:redefine schemaLocation="c.xsd">%s</xs:redefine>' % "".join(REDEFINED[name] for name in chosen)

    @staticmethod
    def with_entities(text: str) -> str:
        """Returns a schema with a document type, whose entities have parts of the text."""
        return '<!DOCTYPE xs:schema [<!ENTITY x "xs:"><!ENTITY int "&x;int">]>' + text.replace('"xs:int"', '"&int;"')

    # Simple types.

    def type_name(self, below: int) -> str:
        """Returns a built-in type, or a named simple type with a lower number."""
        if below and self.often(0.5):
            return self.simple[self.rng.randrange(below)]
        return "xs:" + self.rng.choice(BUILTINS)

    def facets(self) -> str:
        """Returns random facets, which may not fit."""
        rng = self.rng
        kind = rng.choice(["bounds", "bounds", "digits", "length", "words", "pattern", "none"])
        said = []
        if kind == "bounds":
            said = [(rng.choice(["minInclusive", "minExclusive"]), rng.choice(["-5", "0", "1", "1.5"]))]
            said += [(rng.choice(["maxInclusive", "maxExclusive"]), rng.choice(["50", "99.5", "100", "300"]))]
        elif kind == "digits":
            said = [("totalDigits", str(rng.randint(2, 6))), ("fractionDigits", rng.choice(["0", "0", "2"]))]
        elif kind == "length":
            said = [("minLength", str(rng.randint(0, 2))), ("maxLength", str(rng.randint(3, 9)))]
        elif kind == "pattern":
            said = [("pattern", rng.choice(PATTERNS))]
        elif kind == "words":
            said = [("enumeration", text) for text in rng.sample([t for t in TEXTS if t.strip()], 4)]
        return "".join('<xs:%s value="%s"/>' % it for it in said)

    def simple_body(self, below: int) -> str:
        """Returns a restriction, a list or a union."""
        kind = self.rng.choice(["restriction"] * 5 + ["list", "union"])
        if kind == "list":
            return '<xs:list itemType="%s"/>' % self.type_name(below if self.often(0.3) else 0)
        if kind == "union":
            return '<xs:union memberTypes="%s"/>' % " ".join(self.type_name(below) for _ in range(self.rng.randint(1, 3)))
        return '<xs:restriction base="%s">%s</xs:restriction>' % (self.type_name(below), self.facets())

    def simple_type(self, i: int) -> str:
        """Returns a named simple type whose facets fit: others are tried in turn."""
        for _ in range(30):
            text = '<xs:simpleType name="%s">%s</xs:simpleType>' % (self.simple[i], self.simple_body(i))
            if self.fits(text):
                break
        else:
            text = '<xs:simpleType name="%s"><xs:restriction base="xs:int"/></xs:simpleType>' % self.simple[i]
        self.texts[self.simple[i]] = text
        return text

    def fits(self, text: str) -> bool:
        """Says whether python3-xmlschema builds a simple type over those so far."""
        try:
            XMLSchema10(schema("".join(self.texts.values()) + text, self.target))
            return True
        except (XMLSchemaException, LookupError):
            return False

    def any_simple(self) -> str:
        """Returns the name of a simple type."""
        return self.type_name(len(self.simple))

    # Attributes.

    def attributes(self, prefix: str) -> str:
        """Returns attributes of a type."""
        rng, said = self.rng, []
        for i in range(rng.randint(0, 3)):
            more = rng.choice(["", "", ' use="required"', ' default="5"', ' fixed="1"', ' use="prohibited"'])
            kind = self.any_simple()
            if "=\"5" in more or "=\"1" in more:
                kind = rng.choice(["xs:int", "xs:int", "xs:decimal", "xs:string"])
            said.append('<xs:attribute name="%s%d" type="%s"%s/>' % (prefix, i, kind, more))
        if prefix[0] == "a" and self.with_feature(0.15, "references to attributes"):
            said.append('<xs:attribute ref="%s"%s/>' % (rng.choice(["ga", "xml:lang"]), rng.choice(["", ' use="required"'])))
        return "".join(said)

    # Content models.

    def occurs(self) -> str:
        """Returns numbers of occurrences."""
        return ' minOccurs="%s" maxOccurs="%s"' % self.rng.choice(OCCURRENCES)

    def local(self, name: str) -> str:
        """Returns a local element or a reference."""
        rng = self.rng
        if self.often(0.25):
            return '<xs:element ref="%s"%s/>' % (rng.choice(self.elements), self.occurs())
        if self.often(0.35):
            return '<xs:element name="%s" type="%s"%s/>' % (name, rng.choice(self.complex), self.occurs())
        if self.with_feature(0.05, "anyType"):
            return '<xs:element name="%s"%s%s/>' % (name, rng.choice(["", ' type="xs:anyType"']), self.occurs())
        if self.with_feature(0.1, "types in place"):
            return '<xs:element name="%s"%s>%s</xs:element>' % (name, self.occurs(), self.type_in_place(name))
        more = rng.choice(["", "", "", ' nillable="true"', ' default="5"', ' fixed="1"', ' form="unqualified"'])
        kind = rng.choice(["xs:int", "xs:decimal", "xs:string"]) if "5" in more or "1" in more else self.any_simple()
        return '<xs:element name="%s" type="%s"%s%s/>' % (name, kind, more, self.occurs())

    def type_in_place(self, name: str) -> str:
        """Returns a type without a name."""
        if self.often(0.5):
            inner = '<xs:simpleType><xs:restriction base="xs:decimal"><xs:fractionDigits value="%d"/></xs:restriction></xs:simpleType>'
            return inner % self.rng.randint(0, 2)
        inner = '<xs:element name="%sx" type="%s" minOccurs="0"/>' % (name, self.any_simple())
        return "<xs:complexType><xs:sequence>%s</xs:sequence></xs:complexType>" % inner

    def wildcard(self) -> str:
        """Returns a wildcard of elements."""
        space = self.rng.choice(["##other", "##any", "##targetNamespace", "##local", "urn:b"])
        how = self.rng.choice(["lax", "skip", "strict"])
        occurs = self.rng.choice([' minOccurs="0"', ' minOccurs="0" maxOccurs="2"'])
        return '<xs:any namespace="%s" processContents="%s"%s/>' % (space, how, occurs)

    def group_body(self, depth: int, prefix: str) -> str:
        """Returns a sequence or a choice."""
        parts = []
        for i in range(self.rng.randint(1, 4)):
            name = "%s%d" % (prefix.lower(), i)
            if depth and self.often(0.3):
                parts.append(self.group_body(depth - 1, name).replace(">", self.occurs() + ">", 1))
            elif depth == 2 and prefix[0] == "C" and self.with_feature(0.12, "wildcards"):
                parts.append(self.wildcard())
            elif self.groups and prefix[0] == "C" and self.with_feature(0.15, "groups"):
                parts.append('<xs:group ref="%s" minOccurs="%d"/>' % (self.rng.choice(self.groups), self.rng.randint(0, 1)))
            else:
                parts.append(self.local(name))
        kind = self.rng.choice(["sequence", "sequence", "choice"])
        return "<xs:%s>%s</xs:%s>" % (kind, "".join(parts), kind)

    # Complex types.

    def complex_type(self, i: int) -> str:
        """Returns a named complex type."""
        name, attributes = self.complex[i], self.attributes("a%d" % i)
        kinds = ["plain"] * 4 + ["simple", "all"] + ["extension"] * 2 * bool(self.bases) + ["restriction"] * 2 * bool(self.bodies)
        kind = self.rng.choice(kinds + ["simple restriction"] * bool(self.simple_contents) + ["imported base"] * self.imports)
        if kind in ("extension", "restriction", "simple restriction", "imported base"):
            self.features.add(kind)
            if kind == "restriction":
                text = self.restriction()
            elif kind == "simple restriction":
                text = self.simple_restriction()
            else:
                text = self.extension(name, attributes) if kind == "extension" else self.imported_base(name, attributes)
            return '<xs:complexType name="%s">%s</xs:complexType>' % (name, text)
        own = attributes
        if self.with_feature(0.3, "attribute groups"):
            attributes += '<xs:attributeGroup ref="H"/>'
        if self.with_feature(0.15, "wildcards of attributes"):
            how = self.rng.choice(["lax", "skip", "strict"])
            attributes += '<xs:anyAttribute namespace="%s" processContents="%s"/>' % (self.rng.choice(["##other", "##any", "##local"]), how)
        if kind == "simple":
            self.simple_contents[name] = self.any_simple()
            content = '<xs:simpleContent><xs:extension base="%s">%s</xs:extension></xs:simpleContent>'
            return '<xs:complexType name="%s">%s</xs:complexType>' % (name, content % (self.simple_contents[name], attributes))
        is_mixed, is_abstract = self.with_feature(0.15, "mixed"), self.with_feature(0.1, "abstract types")
        flags = ' mixed="true"' * is_mixed + ' abstract="true"' * is_abstract
        body = self.all_body(name) if kind == "all" else self.group_body(2, name)
        if kind == "plain" and not is_mixed:
            self.bases.append(name)
            self.bodies[name] = body, own
        return '<xs:complexType name="%s"%s>%s%s</xs:complexType>' % (name, flags, body, attributes)

    def all_body(self, name: str) -> str:
        """Returns an `all`."""
        rng = self.rng
        parts = ['<xs:element name="%s%d" type="%s" minOccurs="%d"/>' % (name.lower(), k, self.any_simple(), rng.randint(0, 1)) for k in range(3)]
        if self.with_feature(0.3, "references in an all"):
            parts.append('<xs:element ref="%s" minOccurs="0"/>' % rng.choice(self.elements))
        return '<xs:all minOccurs="%d">%s</xs:all>' % (rng.randint(0, 1), "".join(parts))

    def extension(self, name: str, attributes: str) -> str:
        """Returns an extension of another type."""
        base, more = self.rng.choice(self.bases), self.group_body(1, name)
        self.bases.append(name)
        return '<xs:complexContent><xs:extension base="%s">%s%s</xs:extension></xs:complexContent>' % (base, more, attributes)

    def imported_base(self, name: str, attributes: str) -> str:
        """Returns an extension of a type of another namespace."""
        more = '<xs:sequence><xs:element name="%sx" type="%s" minOccurs="0"/></xs:sequence>' % (name.lower(), self.any_simple())
        return '<xs:complexContent><xs:extension base="b:T">%s%s</xs:extension></xs:complexContent>' % (more, attributes)

    def restriction(self) -> str:
        """Returns a restriction of another type: parts that it requires, or that occur less often."""
        base = self.rng.choice(list(self.bodies))
        body, attributes = self.bodies[base]
        for old in FEWER:
            body = re.sub(re.escape(old), lambda m: FEWER[m[0]] if self.often(0.5) else m[0], body)
        attributes = re.sub(r'(type="[^"]*")/>', lambda m: m[1] + ' use="required"/>' if self.often(0.3) else m[0], attributes)
        return '<xs:complexContent><xs:restriction base="%s">%s%s</xs:restriction></xs:complexContent>' % (base, body, attributes)

    def simple_restriction(self) -> str:
        """Returns a restriction of a type with simple content."""
        base = self.rng.choice(list(self.simple_contents))
        said = ""
        for _ in range(10):
            facets = self.facets()
            if self.fits('<xs:simpleType name="Q"><xs:restriction base="%s">%s</xs:restriction></xs:simpleType>' % (self.simple_contents[base], facets)):
                said = facets
                break
        return '<xs:simpleContent><xs:restriction base="%s">%s</xs:restriction></xs:simpleContent>' % (base, said)

    # Elements.

    def global_element(self, i: int) -> str:
        """Returns a global element."""
        name, rng = self.elements[i], self.rng
        if i and self.with_feature(0.25, "substitution groups"):
            return '<xs:element name="%s" substitutionGroup="%s"/>' % (name, self.elements[i - 1])
        flags = ' abstract="true"' * (i > 0 and self.with_feature(0.15, "abstract elements")) + ' nillable="true"' * self.often(0.1)
        flags += ' block="substitution"' * self.often(0.05)
        if self.with_feature(0.1, "default and fixed values of elements"):
            kind, value = rng.choice(["xs:int", "xs:decimal", "xs:string", "xs:boolean"]), rng.choice(["default", "fixed"])
            return '<xs:element name="%s" type="%s" %s="1"%s/>' % (name, kind, value, flags)
        if self.often(0.3):
            return '<xs:element name="%s" type="%s"%s/>' % (name, self.any_simple(), flags)
        kind = rng.randrange(len(self.complex))
        inner = self.identity(i, kind) if self.with_feature(0.15, "identity constraints") else ""
        return '<xs:element name="%s" type="%s"%s>%s</xs:element>' % (name, self.complex[kind], flags, inner)

    def identity(self, i: int, kind: int) -> str:
        """Returns identity constraints of an element with a complex type."""
        child = self.rng.choice(["*", ".//*", ".//%sc%d0" % ("a:" * bool(self.target), kind)])
        field = "@a%d0" % kind if child != ".//*" else "@a%d1" % kind
        kind_of, parts = self.rng.choice(["unique", "key"]), '<xs:selector xpath="%s"/><xs:field xpath="%s"/>' % (child, field)
        text = '<xs:%s name="k%d">%s</xs:%s>' % (kind_of, i, parts, kind_of)
        if self.often(0.3):
            text += '<xs:keyref name="f%d" refer="k%d"><xs:selector xpath="."/><xs:field xpath="%s"/></xs:keyref>' % (i, i, field)
        return text
