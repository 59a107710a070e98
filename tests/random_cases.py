#!/usr/bin/env python3
"""Random schemas and documents, with expectations from outside the program.

For each number from FIRST on this makes a schema of the profile and six documents that are valid by their making, each with
the octets that X.691 gives its value, aligned and unaligned, and X.690 by DER: they are worked out here, from the schema as it
was made, by the clauses that are named below. A case is wrong where

- `to-per` doesn't write just the aligned octets, `to-per-u` the unaligned ones and `to-der` those of DER;
- `to-xml`, `to-xml-u` or `from-der` doesn't take them, or what it writes isn't encoded to them again, or isn't valid by xmllint;
- one of these takes a front of them, or takes them with a bit turned and what it writes isn't encoded to just those again;
- of the document with something changed, four times, `check` doesn't say what `xmllint --schema` says;
- the schema with something changed, ten times, is taken by `show` and not by xmllint. The other way round is no fault: the
  profile leaves things out, and xmllint takes more than XML Schema does (attributes that are unknown, a facet twice).

Models that aren't clear by the rules of docs/reference/CONTENT-MODELS.md must be refused (NotClear), and no others; they are counted
and passed over. It prints a line for each case that is wrong, keeps its schema and its document in the folder KEEP, and the counts
at the end. Its status is 1 where any is wrong.

    tests/random_cases.py [FIRST [COUNT]]      needs the program (`make run`) and xmllint; 1 and 300, some three minutes

PROGRAM names another program. What xmllint takes otherwise is left out: a sign before unsigned numbers, white space around
numbers, characters that may begin a name since the fifth edition of XML, a type in an attribute that is prohibited,
NMTOKENS without a token, names that lead nowhere in what may not occur; the fixed value of a reference to an attribute, at which
it doesn't look (XML Schema Part 1, section 3.5.4, asks for it). A schema has up to three files, with a namespace each
or none; only where it has one something in it is changed, since xmllint wants imports and the program doesn't look at them.
"""
import copy
import os
import random
import re
import shutil
import subprocess
import sys
import tempfile
import xml.etree.ElementTree as tree

# The greatest document, in bytes (docs/reference/LIMITS.md).
MOST = 16_777_216

XSD = "http://www.w3.org/2001/XMLSchema"
INSTANCE = "http://www.w3.org/2001/XMLSchema-instance"
# The words that encode and decode, in the order of what is due.
SYNTAXES = [("to-per", "to-xml"), ("to-per-u", "to-xml-u"), ("to-der", "from-der")]
rng = random.Random()


# The fields of PER, in both variants. An encoding is a function that is given what takes it: bits, or a node of DER.


class Bits:
    def __init__(self, aligned=True):
        self.aligned = aligned
        self.bits = []

    def truth(self, truth):
        self.put(truth, 1)

    def number(self, n, least, greatest):
        put_number(self, n, least, greatest)

    def item(self, index, count, _):
        """One of an ENUMERATED, by its place in the order of these (14)."""
        put_between(self, index, 0, count - 1)

    def text(self, text):
        """A UTF8String (30)."""
        put_counted(self, text.encode(), lambda octet: self.put(octet, 8))

    def items(self, encodes, least, most):
        put_items(self, encodes, least, most)

    def sequence(self, components):
        put_sequence(self, components)

    def choice(self, index, count, encode):
        """An alternative of a CHOICE (23)."""
        put_between(self, index, 0, count - 1)
        encode(self)

    def put(self, n, width):
        self.bits += [n >> i & 1 for i in reversed(range(width))]

    def pad(self):
        self.bits += [0] * (-len(self.bits) % 8)

    def align(self):
        """Up to the next octet, in the aligned variant alone (11.5.7, 11.9.3.3)."""
        if self.aligned:
            self.pad()

    def octets(self, octets):
        for octet in octets:
            self.put(octet, 8)

    def complete(self):
        """Whole octets, and one where there is no bit (11.1)."""
        self.pad()
        eights = [self.bits[i : i + 8] for i in range(0, len(self.bits), 8)]
        return bytes(int("".join(map(str, eight)), 2) for eight in eights) or b"\0"


def octets_of(n):
    """How many octets a number needs that is not negative."""
    return max(1, (n.bit_length() + 7) // 8)


def put_between(bits, n, least, greatest):
    """A number from the least to the greatest (11.5)."""
    size = greatest - least + 1
    if size == 1:
        return
    if size <= 255 or not bits.aligned:
        bits.put(n - least, (size - 1).bit_length())
    elif size <= 65536:
        bits.align()
        bits.put(n - least, 8 if size == 256 else 16)
    else:
        octets = octets_of(n - least)
        put_between(bits, octets, 1, octets_of(size - 1))
        bits.align()
        bits.octets((n - least).to_bytes(octets, "big"))


def put_length(bits, n):
    """A general length below 16,384 (11.9)."""
    assert n < 16384
    bits.align()
    if n < 128:
        bits.put(n, 8)
    else:
        bits.put(0x8000 | n, 16)


def put_counted(bits, units, put_unit):
    """A general length and so many units, from 16,384 on in fragments (11.9.3.8)."""
    while len(units) >= 16384:
        many = min(len(units) // 16384, 4)
        bits.align()
        bits.put(0xC0 | many, 8)
        for unit in units[: many * 16384]:
            put_unit(unit)
        units = units[many * 16384 :]
    put_length(bits, len(units))
    for unit in units:
        put_unit(unit)


def put_number(bits, n, least, greatest):
    """An INTEGER (13, 11.7, 11.8)."""
    if least is None:
        octets = 1
        while not -(1 << 8 * octets - 1) <= n < 1 << 8 * octets - 1:
            octets += 1
        put_length(bits, octets)
        bits.octets(n.to_bytes(octets, "big", signed=True))
    elif greatest is None:
        octets = octets_of(n - least)
        put_length(bits, octets)
        bits.octets((n - least).to_bytes(octets, "big"))
    else:
        put_between(bits, n, least, greatest)


def put_items(bits, encodes, least, most):
    """The items of a SEQUENCE OF and how many there are (20)."""
    if most is not None and most < 65536:
        put_between(bits, len(encodes), least, most)
        for encode in encodes:
            encode(bits)
    else:
        put_counted(bits, encodes, lambda encode: encode(bits))


def put_sequence(bits, components):
    """A SEQUENCE of components, each of which is OPTIONAL or not, and has an encoding or is absent (19)."""
    for is_optional, encode in components:
        if is_optional:
            bits.put(encode is not None, 1)
    for _, encode in components:
        if encode is not None:
            encode(bits)


# The nodes of DER.


def identifier_of(number, is_constructed):
    """A context-specific tag (8.1.2)."""
    lead = 0xA0 if is_constructed else 0x80
    if number < 31:
        return bytes([lead | number])
    sevens = [number & 127]
    while number > 127:
        number >>= 7
        sevens.insert(0, 128 | number & 127)
    return bytes([lead | 31, *sevens])


class Node:
    """A value in DER: the identifier of its type, none where this is a CHOICE, and its contents, octets or nodes."""

    def __init__(self, encode):
        self.identifier, self.contents = None, []
        encode(self)

    def truth(self, truth):
        self.identifier, self.contents = 0x01, b"\xff" if truth else b"\0"

    def number(self, n, *_):
        octets = 1
        while not -(1 << 8 * octets - 1) <= n < 1 << 8 * octets - 1:
            octets += 1
        self.identifier, self.contents = 0x02, n.to_bytes(octets, "big", signed=True)

    def item(self, _, __, number):
        self.number(number)
        self.identifier = 0x0A

    def text(self, text):
        self.identifier, self.contents = 0x0C, text.encode()

    def items(self, encodes, *_):
        self.identifier, self.contents = 0x30, [Node(encode).tree() for encode in encodes]

    def sequence(self, components):
        parts = [Node(encode).tree(number) for number, (_, encode) in enumerate(components) if encode is not None]
        self.identifier, self.contents = 0x30, parts

    def choice(self, index, _, encode):
        self.contents = [Node(encode).tree(index)]

    def tree(self, number=None):
        """An identifier, and octets or trees. Tags are automatic and implicit, but before a CHOICE explicit (X.680, 31.2.7)."""
        if number is not None:
            return identifier_of(number, isinstance(self.contents, list)), self.contents
        return self.contents[0] if self.identifier is None else (bytes([self.identifier]), self.contents)


def octets_in(tree):
    """Identifier, length and contents (8.1.1), the length in the least octets (8.1.3, 10.1)."""
    identifier, contents = tree
    if isinstance(contents, list):
        contents = b"".join(map(octets_in, contents))
    size = len(contents)
    octets = bytes([size]) if size < 128 else bytes([0x80 | octets_of(size)]) + size.to_bytes(octets_of(size), "big")
    return identifier + octets + contents


# Simple types. Each can be written as a simpleType of a schema, and makes values: the text in the document, and the
# encoding, a function that is given what takes it.


def written(facets):
    return "".join(f'<xs:{name} value="{value}"/>' for name, value in facets)


def facets_in(schema, base, facets, at=None):
    """A restriction of a built-in type, in one step or in two; the first may be a type with a name."""
    if at is None:
        at = rng.randint(0, len(facets)) if facets[:1] != [] and facets[0][0] != "enumeration" else 0
    first = f'<xs:restriction base="xs:{base}">{written(facets[:at])}</xs:restriction>'
    if at == 0:
        return f'<xs:restriction base="xs:{base}">{written(facets)}</xs:restriction>'
    if rng.random() < 0.5:
        return f'<xs:restriction base="{schema.named(first)}">{written(facets[at:])}</xs:restriction>'
    return f"<xs:restriction><xs:simpleType>{first}</xs:simpleType>{written(facets[at:])}</xs:restriction>"


def sized(least):
    """Facets of length, with the bounds that they set."""
    form = rng.randrange(3)
    if form == 0:
        return [("length", least)], least, least
    if form == 1:
        return [("minLength", least)], least, None
    most = least + rng.choice([0, 1, 3, 254, 255, 300, 65534, 65535, 70000])
    return [("minLength", least), ("maxLength", most)], least, most


class Boolean:
    builtin = "boolean"
    collapses = True

    def value(self):
        truth = rng.random() < 0.5
        spelled = rng.choice(["true", "1"] if truth else ["false", "0"])
        return spelled, lambda bits: bits.truth(truth)

    def encoding(self, text):
        return lambda bits: bits.truth(text in ("true", "1"))

    def canonical(self, text):
        return "true" if text in ("true", "1") else "false"

    def takes(self, text):
        return text in ("true", "false", "1", "0")


def number_in(text):
    digits = text[1:] if text[:1] in ("+", "-") else text
    return int(text) if digits.isascii() and digits.isdigit() else None


def spelled(n, is_signed):
    zeros = "0" * rng.choice([0, 0, 0, 0, 1, 3])
    if n < 0:
        return f"-{zeros}{-n}"
    sign = rng.choice(["", "", "", "", "+"]) if is_signed else ""
    return f"{sign}{zeros}{n}"


class Integer:
    collapses = True
    RANGES = {
        "integer": (None, None),
        "nonNegativeInteger": (0, None),
        "positiveInteger": (1, None),
        "nonPositiveInteger": (None, 0),
        "negativeInteger": (None, -1),
        "long": (-(2**63), 2**63 - 1),
        "int": (-(2**31), 2**31 - 1),
        "short": (-32768, 32767),
        "byte": (-128, 127),
        "unsignedLong": (0, 2**64 - 1),
        "unsignedInt": (0, 2**32 - 1),
        "unsignedShort": (0, 65535),
        "unsignedByte": (0, 255),
    }
    LEASTS = [0, 1, -1, 5, -100, 100, 250, 65000, 10**6, -(10**9), 2**40, 2**62, -(2**70)]
    SIZES = [0, 1, 2, 6, 99, 126, 253, 254, 255, 256, 65534, 65535, 65536, 2**24, 2**31, 2**40, 2**63]
    SIZES += [2**64 - 1, 2**64, 2**72 - 1, 2**72, 2**79 - 1]
    STEPS = [0, 1, -1, 2, 7, 2**23, 2**31, -(2**31), 2**62, 10**20, -(10**20), 2**78, -(2**78)]
    STEPS += [sign * (2**width + step) for width in (7, 8, 15, 16) for sign in (1, -1) for step in (-1, 0, 1)]

    def __init__(self):
        self.base = rng.choice(list(self.RANGES))
        self.least, self.greatest = self.RANGES[self.base]
        self.facets = []
        least = rng.choice(self.LEASTS)
        greatest = least + rng.choice(self.SIZES)
        if rng.random() < 0.6 and self.contains(least) and self.contains(greatest):
            if rng.random() < 0.8:
                is_open = rng.random() < 0.3 and self.contains(least - 1)
                self.facets.append(("minExclusive", least - 1) if is_open else ("minInclusive", least))
            if rng.random() < 0.8:
                is_open = rng.random() < 0.3 and self.contains(greatest + 1)
                self.facets.append(("maxExclusive", greatest + 1) if is_open else ("maxInclusive", greatest))
            for name, _ in self.facets:
                if name.startswith("min"):
                    self.least = least
                else:
                    self.greatest = greatest
        self.builtin = None if self.facets else self.base

    def contains(self, n):
        return (self.least is None or self.least <= n) and (self.greatest is None or n <= self.greatest)

    def body(self, schema):
        return facets_in(schema, self.base, self.facets)

    def value(self):
        ends = [end for end in (self.least, self.greatest) if end is not None]
        n = rng.choice(ends or [0]) + rng.choice(self.STEPS)
        if len(ends) == 2 and rng.random() < 0.5:
            n = rng.randint(*ends)
        if self.least is not None:
            n = max(n, self.least)
        if self.greatest is not None:
            n = min(n, self.greatest)
        text = spelled(n, not self.base.startswith("unsigned"))
        return text, self.encoding(text)

    def encoding(self, text):
        return lambda bits: bits.number(int(text), self.least, self.greatest)

    def canonical(self, text):
        return str(int(text))

    def takes(self, text):
        n = number_in(text)
        return n is not None and self.contains(n)


class Numbers:
    """Some whole numbers: an ENUMERATED in the order of the numbers (14). A bound in a second step lets some drop out."""

    builtin = None
    collapses = True

    def __init__(self):
        self.listed = self.numbers = rng.sample([-300, -5, -1, 0, 1, 2, 3, 7, 12, 100, 1000], rng.randint(1, 6))
        self.bound = rng.choice(self.listed) if rng.random() < 0.3 else None
        if self.bound is not None:
            self.numbers = [n for n in self.listed if n <= self.bound]

    def body(self, schema):
        facets = [("enumeration", n) for n in self.listed]
        if self.bound is None:
            return facets_in(schema, "int", facets)
        return facets_in(schema, "int", facets + [("maxInclusive", self.bound)], at=len(facets))

    def value(self):
        n = rng.choice(self.numbers)
        return spelled(n, True), self.encoding(str(n))

    def encoding(self, text):
        numbers = sorted(set(self.numbers))
        return lambda bits: bits.item(numbers.index(int(text)), len(numbers), int(text))

    def canonical(self, text):
        return str(int(text))

    def takes(self, text):
        return number_in(text) in self.numbers


class Words:
    """Some texts: an ENUMERATED in the order of the texts (14)."""

    builtin = None
    ALL = ["red", "Green", "blue", "a-b", "a.b", "a_b", "x", "X", "née", "日本", "7", "-3", "BOOLEAN", "true", "q9"]

    MANY = [254, 255, 256, 257, 300]

    def __init__(self):
        self.base = rng.choice(["token", "string", "NMTOKEN", "normalizedString"])
        self.listed = self.words = rng.sample(self.ALL, rng.randint(1, 8))
        form = rng.random()
        if form < 0.05:
            self.listed = self.words = [f"w{i}" for i in rng.sample(range(1000), rng.choice(self.MANY))]
        elif form < 0.3:
            self.words = rng.sample(self.listed, rng.randint(1, len(self.listed)))

    def body(self, schema):
        facets = [("enumeration", word) for word in self.listed]
        if self.words is self.listed:
            return facets_in(schema, self.base, facets)
        kept = [("enumeration", word) for word in self.words]
        return facets_in(schema, self.base, facets + kept, at=len(facets))

    def value(self):
        word = rng.choice(self.words)
        return word, self.encoding(word)

    def encoding(self, text):
        index = sorted(self.words, key=str.encode).index(text)
        return lambda bits: bits.item(index, len(self.words), index)

    def canonical(self, text):
        return text

    def takes(self, text):
        return text in self.words


class Word:
    collapses = True
    SOME = {
        "anyURI": ["urn:t", "http://a.b/c?d=%20e#f", "../g"],
        "NMTOKEN": ["a", "-1", "9:8", "é.x"],
        "NCName": ["a", "_b-1.c", "é"],
        "Name": ["a", ":b", "c:d"],
        "language": ["en", "de-DE", "x-a1-b2c3"],
    }

    def __init__(self):
        self.builtin = rng.choice(list(self.SOME))

    def value(self):
        word = rng.choice(self.SOME[self.builtin])
        return word, self.encoding(word)

    def encoding(self, text):
        return lambda bits: bits.text(text)

    def canonical(self, text):
        return text

    def takes(self, _):
        return True


class SizedWord:
    """Names and tokens with facets of length, in characters."""

    builtin = None
    collapses = True

    def __init__(self):
        self.base = rng.choice(["NMTOKEN", "NCName", "Name"])
        self.facets, self.least, most = sized(rng.randint(1, 6))
        self.most = min(self.least + 5, self.least + 5 if most is None else most)

    def body(self, schema):
        return facets_in(schema, self.base, self.facets)

    def value(self):
        word = rng.choice("a_é") + "".join(rng.choices("b-1.é日", k=rng.randint(self.least, self.most) - 1))
        return word, lambda bits: bits.text(word)


class Text:
    LONG = [127, 128, 129, 300, 16383, 16384, 16385, 2 * 16384, 65535, 65536, 5 * 16384 + 7]
    CHARACTERS = "abcXYZ019 .,;-_&<>\"'é日😀\u00a0"

    def __init__(self):
        self.base = rng.choice(["string", "normalizedString", "token"])
        self.facets, self.least, most = sized(rng.randint(0, 6)) if rng.random() < 0.4 else ([], 0, None)
        self.most = min(self.least + rng.choice([5, 5, 300]), 1000 if most is None else most)
        self.room = 100000 if most is None else most
        self.space = {"string": "preserve", "normalizedString": "replace", "token": "collapse"}[self.base]
        if rng.random() < 0.2:
            treatments = ["preserve", "replace", "collapse"]
            self.space = rng.choice(treatments[treatments.index(self.space) :])
            self.facets.insert(rng.randint(0, len(self.facets)), ("whiteSpace", self.space))
        self.builtin = None if self.facets else self.base

    def body(self, schema):
        return facets_in(schema, self.base, self.facets)

    def value(self):
        """The text as it is treated, and how it stands in the document."""
        size, characters = rng.randint(self.least, self.most), self.CHARACTERS
        if rng.random() < 0.03:
            longer = [n for n in self.LONG if self.least <= n <= self.room]
            size, characters = rng.choice(longer or [size]), rng.choice(["x", characters])
        text = "".join(rng.choices(characters, k=size))
        shown = text
        if self.space == "preserve":
            shown = text = "".join(rng.choice("\t\n\r ") if rng.random() < 0.05 else char for char in text)
        elif self.space == "replace":
            shown = text.replace(" ", rng.choice([" ", "\t", "\n"]))
        else:
            words = [word or "q" for word in text.split(" ")]
            text = " ".join(words)[: max(len(text), self.least)].strip(" ")
            text += "z" * (self.least - len(text))
            ends = ["", "", " ", "\n", "\t "]
            shown = rng.choice(ends) + text.replace(" ", rng.choice([" ", "  ", "\n\t"])) + rng.choice(ends)
        return shown, lambda bits: bits.text(text)


class ListOf:
    builtin = None
    collapses = True
    MANY = [127, 128, 129, 300]
    MOST = [16383, 16384, 16385, 65536 + 2]

    def __init__(self, items=None):
        self.item = rng.choice(items or [Boolean, Integer, Numbers, Words, Word, SizedWord, Union])()
        self.facets, self.least, self.most = sized(rng.randint(0, 3)) if rng.random() < 0.5 else ([], 0, None)

    def body(self, schema):
        name, item = schema.simple(self.item, attribute="itemType")
        inner = f"<xs:list{name}>{item}</xs:list>"
        if not self.facets:
            return inner
        return f"<xs:restriction><xs:simpleType>{inner}</xs:simpleType>{written(self.facets)}</xs:restriction>"

    def value(self):
        count = self.least + rng.randint(0, 4)
        if rng.random() < 0.02:
            count = rng.choice(self.MANY * 4 + self.MOST)
        if self.most is not None:
            count = min(count, self.most)
        count = max(count, self.least)
        items = [self.item.value() for _ in range(count)]

        def encode(bits):
            bits.items([encode_item for _, encode_item in items], self.least, self.most)

        return rng.choice([" ", "  ", "\n"]).join(text for text, _ in items), encode

    def encoding(self, text):
        items = [self.item.encoding(item) for item in text.split()]
        return lambda bits: bits.items(items, self.least, self.most)

    def canonical(self, text):
        return " ".join(map(self.item.canonical, text.split()))

    def takes(self, text):
        items = text.split()
        most = len(items) if self.most is None else self.most
        return self.least <= len(items) <= most and all(map(self.item.takes, items))


class Tokens(ListOf):
    """NMTOKENS: a list of one NMTOKEN at least."""

    def __init__(self):
        self.item = Word()
        self.item.builtin = "NMTOKEN"
        self.facets, self.least, self.most = sized(rng.randint(1, 3)) if rng.random() < 0.5 else ([], 1, None)
        self.builtin = None if self.facets else "NMTOKENS"

    def body(self, schema):
        return facets_in(schema, "NMTOKENS", self.facets)


class Union:
    """The first member that takes the text (a CHOICE, 23). Its spelling is read again, until the member stays the same."""

    builtin = None

    def __init__(self):
        self.members = [kind() for kind in rng.choices([Integer, Numbers, Boolean, Words], k=rng.randint(1, 4))]
        if rng.random() < 0.4:
            self.members.append(Word())

    def body(self, schema):
        """Members with names come first. The last two may be those of a union in the union."""
        named = rng.randint(0, len(self.members)) if rng.random() < 0.4 else 0
        names = " ".join(schema.simple(member, is_named=True).strip('"') for member in self.members[:named])
        members = []
        for member in self.members[named:]:
            body = f'<xs:restriction base="xs:{member.builtin}"/>' if member.builtin else member.body(schema)
            members.append(f"<xs:simpleType>{body}</xs:simpleType>")
        if len(members) > 1 and rng.random() < 0.3:
            members[-2:] = [f"<xs:simpleType><xs:union>{members[-2]}{members[-1]}</xs:union></xs:simpleType>"]
        member_types = f' memberTypes="{names}"' if names else ""
        return f"<xs:union{member_types}>{''.join(members)}</xs:union>"

    def value(self):
        text, _ = rng.choice(self.members).value()
        return text, self.encoding(text)

    def first(self, text):
        return next(i for i, member in enumerate(self.members) if member.takes(text))

    def encoding(self, text):
        index = self.first(text)
        while True:
            text = self.members[index].canonical(text)
            again = self.first(text)
            if again == index:
                break
            index = again

        return lambda bits: bits.choice(index, len(self.members), self.members[index].encoding(text))


class UnionWithList(Union):
    def __init__(self):
        self.members = [rng.choice([Integer, Numbers])(), ListOf([Boolean, Integer, Numbers]), Words()]
        rng.shuffle(self.members)


def simple_type():
    kinds = [Boolean, Integer, Integer, Integer, Numbers, Words, Text, Text, Word, SizedWord]
    kinds += [ListOf, Tokens, Union, UnionWithList]
    return rng.choice(kinds)()


# Text of XML: characters or what stands for them.


def escaped(text, is_attribute=False):
    shown = ""
    for char in text:
        if char in "&<>\"\r" or (is_attribute and char in "\t\n") or rng.random() < 0.03:
            shown += f"&#{ord(char)};"
        else:
            shown += char
    return shown


def text_shown(text):
    form = rng.random()
    if text and form < 0.1 and "]]>" not in text and "\r" not in text:
        return f"<![CDATA[{text}]]>"
    if form < 0.2:
        at = rng.randint(0, len(text))
        return escaped(text[:at]) + "<!-- - -->" + escaped(text[at:])
    return escaped(text)


def between_elements():
    return rng.choice(["", "", "", " ", "\n  ", "<!-- c -->", "\t<?p i?>"])


# Particles, complex types and elements. A value of a particle is a list of elements, as texts, and its encoding.


class Particle:
    BOUNDS = [(1, 1)] * 3 + [(0, 1)] * 2 + [(0, None), (1, None), (2, 2), (0, 3), (2, 5), (1, 300)]
    BOUNDS += [(0, 254), (0, 255), (1, 65536), (0, 65535), (0, 65536)]
    BACK = [(0, 1), (0, 1), (0, None), (0, 3)]

    # In an `all`, and that itself.
    SINGLE = [(1, 1), (1, 1), (0, 1)]
    ONCE = [(1, 1)]

    def __init__(self, schema, depth, term=None, bounds=BOUNDS):
        self.least, self.most = rng.choice(bounds)
        if term is None:
            form = rng.random()
            if depth <= 0 or form < 0.7:
                term = schema.element_again(depth) or Element(schema, depth)
            else:
                term = Group(schema, depth, form < 0.85)
        self.term = term
        self.schema = schema
        self.file = schema.here
        if term in schema.open or isinstance(term, Element) and term.type in schema.open:
            self.least, self.most = (0, 1) if bounds is self.SINGLE else rng.choice(self.BACK)
        if term.may_be_empty():
            self.least = self.most = 1

    def written(self):
        bounds = "" if self.least == 1 else f' minOccurs="{self.least}"'
        if self.most != 1:
            bounds += f' maxOccurs="{"unbounded" if self.most is None else self.most}"'
        return self.term.written(bounds)

    def count(self):
        """How many occurrences a value has: no more than must be where it has many elements already, and sometimes many."""
        if self.schema.is_full():
            return self.least
        count = self.least + rng.randint(0, 3)
        if rng.random() < 0.02 and isinstance(self.term, Element) and not isinstance(self.term.type, Complex):
            count = self.least + rng.choice([124, 127, 128, 129, 256])
            if rng.random() < 0.05:
                count = self.least + 16384
        return count if self.most is None else min(count, self.most)

    def may_be_empty(self):
        return self.least == 0 or self.term.may_be_empty()

    def is_clear(self, follow):
        """The rules of docs/reference/CONTENT-MODELS.md, before these names."""
        names = self.term.first_names()
        if not self.is_once() and self.term.may_be_empty():
            return False
        if self.least != self.most and names & follow:
            return False
        return self.term.is_clear(follow if self.most in (0, 1) else follow | names)

    def is_once(self):
        return (self.least, self.most) == (1, 1)

    def component(self, is_alternative=False):
        """What stands for the particle in a SEQUENCE, or as an alternative, where it is not OPTIONAL."""
        if self.is_once():
            elements, encode = self.term.value()
            return elements, (False, encode)
        if (self.least, self.most) == (0, 1) and not is_alternative:
            stands = rng.random() < 0.5 and not self.schema.is_full()
            elements, encode = self.term.value() if stands else ([], None)
            return elements, (True, encode)
        values = [self.term.value() for _ in range(self.count())]

        def encode(bits):
            bits.items([encode_item for _, encode_item in values], self.least, self.most)

        return [element for elements, _ in values for element in elements], (False, encode)


def components_of(particles):
    elements, components = [], []
    for particle in particles:
        inner, component = particle.component()
        elements += inner
        components.append(component)
    return elements, components


class Group:
    def __init__(self, schema, depth, is_sequence):
        self.is_sequence = is_sequence
        many = not is_sequence and rng.random() < 0.02
        count = rng.choice([255, 256, 257]) if many else rng.randint(1, 4)
        self.particles = [Particle(schema, 0 if many else depth - 1) for _ in range(count)]
        self.never = ""
        if is_sequence and rng.random() < 0.15:
            self.never = f'<xs:element name="{schema.fresh_name()}" type="xs:int" minOccurs="0" maxOccurs="0"/>'

    def written(self, bounds):
        kind = "sequence" if self.is_sequence else "choice"
        inner = self.never + "".join(particle.written() for particle in self.particles)
        return f"<xs:{kind}{bounds}>{inner}</xs:{kind}>"

    def may_be_empty(self):
        return (all if self.is_sequence else any)(particle.may_be_empty() for particle in self.particles)

    def first_names(self):
        names = set()
        for particle in self.particles:
            names |= particle.term.first_names()
            if self.is_sequence and not particle.may_be_empty():
                break
        return names

    def is_clear(self, follow):
        if not self.is_sequence:
            names = [name for particle in self.particles for name in particle.term.first_names()]
            empty = sum(particle.may_be_empty() for particle in self.particles)
            if len(set(names)) < len(names) or empty > 1 or (empty and follow & set(names)):
                return False
            return all(particle.is_clear(follow) for particle in self.particles)
        for particle in reversed(self.particles):
            if not particle.is_clear(follow):
                return False
            follow = particle.term.first_names() | (follow if particle.may_be_empty() else set())
        return True

    def value(self):
        if self.is_sequence:
            elements, components = components_of(self.particles)
            return elements, lambda bits: bits.sequence(components)
        index = rng.randrange(len(self.particles))
        elements, (_, encode) = self.particles[index].component(is_alternative=True)
        return elements, lambda bits: bits.choice(index, len(self.particles), encode)


class All:
    """Elements of different names, each at most once, in any order. The SEQUENCE has them in the order of the schema, and before
    its attributes the order that the document has: the places of those that stand, counted from 0 (X.693, USE-ORDER)."""

    is_sequence = False

    def __init__(self, schema, depth):
        self.particles = []
        many = rng.random() < 0.1
        for _ in range(rng.choice([20, 200, 255, 256, 257]) if many else rng.randint(1, 6)):
            term = schema.element_again(depth) or Element(schema, 0 if many else depth - 1)
            self.particles.append(Particle(schema, depth, term, Particle.SINGLE))
        self.never = ""
        if rng.random() < 0.15:
            self.never = f'<xs:element name="{schema.fresh_name()}" type="xs:int" minOccurs="0" maxOccurs="0"/>'

    def written(self, _):
        inner = [particle.written() for particle in self.particles]
        inner.insert(rng.randint(0, len(inner)), self.never)
        return f"<xs:all>{''.join(inner)}</xs:all>"

    def may_be_empty(self):
        return all(particle.may_be_empty() for particle in self.particles)

    def first_names(self):
        return {name for particle in self.particles for name in particle.term.first_names()}

    def is_clear(self, follow):
        return not follow and len(self.first_names()) == len(self.particles)

    def value(self):
        """The elements in the order of the document, the components, and the order."""
        stand, components = [], []
        for number, particle in enumerate(self.particles):
            elements, component = particle.component()
            stand += [(number, element) for element in elements]
            components.append(component)
        rng.shuffle(stand)
        return [element for _, element in stand], components, [number for number, _ in stand]


class Standard:
    """A default or fixed value: as an attribute of the schema, and the bits of its value, which tell values apart."""

    def __init__(self, kind, type_, text, encode):
        self.is_fixed = kind == "fixed"
        self.text, self.encode, self.bits = text, encode, bits_of(encode)
        self.written = f' {kind}="{escaped(text, is_attribute=True)}"'

    @staticmethod
    def some(kinds, type_):
        """One of these kinds; none where the text would be long."""
        text, encode = type_.value()
        return Standard(rng.choice(kinds), type_, text, encode) if kinds and len(text) < 100 else None


def bits_of(encode):
    bits = Bits(False)
    encode(bits)
    return bits.bits


class Attribute:
    """A local attribute, or a reference to a global one. A reference has the default or fixed value of the global one where it has
    none of its own; a fixed one may only be said again; what is required has no default value."""

    def __init__(self, schema):
        self.name = schema.fresh_name()
        self.type = simple_type()
        self.is_required = rng.random() < 0.5
        self.file = schema.here
        how = ' use="required"' * self.is_required
        kinds = ["fixed"] if self.is_required else ["default", "default", "fixed"]
        self.standard = Standard.some(kinds, self.type) if rng.random() < 0.3 else None
        own = self.standard.written if self.standard else ""
        if rng.random() < 0.2:
            self.file = rng.choice(schema.files)
            type_name, inner = schema.simple(self.type)
            named = Standard.some(["default", "fixed"], self.type) if rng.random() < 0.4 else None
            if named and named.is_fixed and self.standard:
                self.standard, own = named, named.written
            elif named and not self.standard and (named.is_fixed or not self.is_required):
                self.standard = named
            theirs = named.written if named else ""
            self.file.components.append(f'<xs:attribute name="{self.name}"{type_name}{theirs}>{inner}</xs:attribute>')
            self.written = f'<xs:attribute ref="{self.file.prefix}{self.name}"{how}{own}/>'
        else:
            form, is_qualified = self.file.form_of("attribute")
            self.file = self.file if is_qualified else NONE
            type_name, inner = schema.simple(self.type)
            self.written = f'<xs:attribute name="{self.name}"{type_name}{how}{form}{own}>{inner}</xs:attribute>'

    def order(self):
        return (self.file.namespace.encode(), self.name.encode())

    def value(self):
        """The default or fixed value of what may be absent has no encoding of its own."""
        if not self.is_required and rng.random() < 0.5:
            return "", (True, None)
        if self.standard and (self.standard.is_fixed or rng.random() < 0.5):
            text, encode = self.standard.text, self.standard.encode
        else:
            text, encode = self.type.value()
        name = self.file.prefix + self.name
        if self.standard and not self.is_required and bits_of(encode) == self.standard.bits:
            encode = None
        return f' {name}="{escaped(text, is_attribute=True)}"', (not self.is_required, encode)


class Complex:
    def __init__(self, schema, depth):
        self.depth = depth
        self.schema = schema
        is_named = rng.random() < 0.4
        here = schema.here
        if is_named:
            schema.here = rng.choice(schema.files)
            name = schema.fresh_name()
            self.name = schema.here.prefix + name
            schema.open.append(self)
        self.attributes = [Attribute(schema) for _ in range(rng.choice([0, 0, 1, 2, 3]))]
        self.simple = self.top = None
        self.is_mixed = self.is_all = False
        attributes = "".join(attribute.written for attribute in self.attributes)
        form = rng.random()
        if rng.random() < 0.1 and form >= 0.15:
            attributes += f'<xs:attribute name="{schema.fresh_name()}" type="xs:int" use="prohibited"/>'
        if form < 0.15:
            self.simple = simple_type()
            base = schema.simple(self.simple, is_named=True)
            body = f"<xs:simpleContent><xs:extension base={base}>{attributes}</xs:extension></xs:simpleContent>"
        elif form < 0.9:
            self.is_mixed = rng.random() < 0.25
            self.is_all = rng.random() < 0.2
            if self.is_all:
                self.top = Particle(schema, depth, All(schema, depth), Particle.ONCE)
            else:
                self.top = Particle(schema, depth, Group(schema, depth, rng.random() < 0.65))
            schema.models.append(self.top)
            body = self.top.written() + attributes
        else:
            self.is_mixed = rng.random() < 0.4
            body = rng.choice(["", "<xs:sequence/>", "<xs:all/>"]) + attributes
        mixed = ' mixed="true"' * self.is_mixed
        self.type_name, self.written = "", f"<xs:complexType{mixed}>{body}</xs:complexType>"
        if is_named:
            schema.here.components.append(f'<xs:complexType name="{name}"{mixed}>{body}</xs:complexType>')
            self.type_name, self.written = f' type="{self.name}"', ""
            schema.open.remove(self)
            schema.types.append(self)
        schema.here = here

    def content(self):
        """The text of the content, its components, the texts between elements where it is mixed, and the order of an `all`."""
        if self.simple:
            text, encode = self.simple.value()
            return text_shown(self.schema.spaced(self.simple, text)), [(False, encode)], None, None
        if self.top is None and self.is_mixed:
            text = rng.choice(["", "x", "a b"])
            return text_shown(text), [], [text], None
        if self.top is None:
            return rng.choice(["", "<!-- c -->"]), [], None, None
        order = None
        if self.is_all:
            elements, components, order = self.top.term.value()
        elif self.top.is_once() and self.top.term.is_sequence:
            elements, components = components_of(self.top.term.particles)
        else:
            elements, component = self.top.component()
            components = [component]
        if not self.is_mixed:
            inner = between_elements() + "".join(element + between_elements() for element in elements)
            return inner, components, None, order
        texts = rng.choices(["", "", "x", " ", "a b", "\n", "é<&"], k=len(elements) + 1)
        inner = text_shown(texts[0])
        for element, text in zip(elements, texts[1:]):
            inner += element + text_shown(text)
        return inner, components, texts, order


class Element:
    def __init__(self, schema, depth, simple=0.6):
        self.name = schema.fresh_name()
        self.schema = schema
        self.depth = depth
        self.is_nillable = rng.random() < 0.15
        self.is_global = rng.random() < 0.2
        here = schema.here
        if self.is_global:
            schema.here = rng.choice(schema.files)
            schema.open.append(self)
        self.file = schema.here
        self.form = ""
        if not self.is_global:
            self.form, is_qualified = self.file.form_of("element")
            self.file = self.file if is_qualified else NONE
        if depth <= 0 or rng.random() < simple:
            self.type = simple_type()
            type_name, inner = schema.simple(self.type)
        else:
            self.type = schema.type_again(depth - 1) or Complex(schema, depth - 1)
            if self.type in schema.open:
                type_name, inner = f' type="{self.type.name}"', ""
            else:
                type_name, inner = self.type.type_name, self.type.written
        self.head = f'name="{self.name}"{type_name}' + ' nillable="true"' * self.is_nillable
        self.inner = inner
        if self.is_global:
            self.file.components.append(self.declared())
            schema.open.remove(self)
            schema.globals.append(self)
        schema.here = here

    def declared(self, bounds=""):
        return f"<xs:element {self.head}{self.form}{bounds}>{self.inner}</xs:element>"

    def written(self, bounds):
        return f'<xs:element ref="{self.file.prefix}{self.name}"{bounds}/>' if self.is_global else self.declared(bounds)

    def may_be_empty(self):
        return False

    def first_names(self):
        return {(self.file.namespace, self.name)}

    def is_clear(self, _):
        return True

    def element(self, attributes, inner):
        if not inner and rng.random() < 0.7:
            return [f"<{self.file.prefix}{self.name}{attributes}/>"]
        space = rng.choice(["", "", " ", "\n"])
        return [f"<{self.file.prefix}{self.name}{attributes}{space}>{inner}</{self.file.prefix}{self.name}{space}>"]

    def value(self):
        self.schema.elements += 1
        self.schema.level += 1
        result = self.value_here()
        self.schema.level -= 1
        return result

    def value_here(self):
        is_nil = self.is_nillable and rng.random() < 0.4
        nil = ' xsi:nil="false"' * (self.is_nillable and rng.random() < 0.5)
        if is_nil:
            nil = f' xsi:nil="{rng.choice(["true", "1", " true "])}"'
        if not isinstance(self.type, Complex):
            if is_nil:
                return self.element(nil, ""), lambda bits: bits.sequence([(True, None)])
            text, encode = self.type.value()
            text = self.schema.spaced(self.type, text)
            if not self.is_nillable:
                return self.element("", text_shown(text)), encode
            return self.element(nil, text_shown(text)), lambda bits: bits.sequence([(True, encode)])
        written, components = [nil], []
        for attribute in sorted(self.type.attributes, key=Attribute.order):
            text, component = attribute.value()
            written.append(text)
            components.append(component)
        rng.shuffle(written)
        inner, content, texts, order = self.type.content()
        if is_nil:
            inner, texts, order = "", [], []

        def encode_texts(bits):
            bits.items([lambda bits, text=text: bits.text(text) for text in texts], 0, None)

        def encode_order(bits):
            count = len(self.type.top.term.particles)
            bits.items([lambda bits, number=number: bits.item(number, count, number) for number in order], 0, None)

        def encode_content(bits):
            if self.type.simple:
                content[0][1](bits)
            else:
                bits.sequence(content)

        if self.type.is_all:
            components.insert(0, (False, encode_order))
        if self.type.is_mixed:
            components.insert(0, (False, encode_texts))
        if self.is_nillable:
            components.append((True, None if is_nil else encode_content))
        else:
            components += content
        return self.element("".join(written), inner), lambda bits: bits.sequence(components)


class File:
    """A schema file of a target namespace, or of none."""

    def __init__(self, prefix, namespace):
        self.prefix, self.namespace = prefix, namespace
        self.components = []
        self.forms = {kind: rng.random() < likely for kind, likely in (("element", 0.7), ("attribute", 0.2))}

    def form_of(self, kind):
        """The attribute `form` of a local declaration, and whether its name is qualified."""
        if rng.random() < 0.8:
            return "", self.forms[kind]
        is_qualified = rng.random() < 0.5
        return f' form="{"qualified" if is_qualified else "unqualified"}"', is_qualified

    def text(self, others):
        target = f' targetNamespace="{self.namespace}"' if self.namespace else ""
        forms = "".join(f' {kind}FormDefault="qualified"' for kind, is_qualified in self.forms.items() if is_qualified)
        imports = ""
        for file, path in others:
            namespace = f' namespace="{file.namespace}"' if file.namespace else ""
            imports += f'<xs:import{namespace} schemaLocation="{path}"/>'
        head = f'<xs:schema xmlns:xs="{XSD}" xmlns:t="urn:t" xmlns:u="urn:a"{target}{forms}>'
        rng.shuffle(self.components)
        return head + imports + "\n".join(self.components) + "</xs:schema>"


# What is in no namespace.
NONE = File("", "")


class Schema:
    """One file or several. What is open is being made: who refers to it makes a cycle, and need not stand."""

    def __init__(self):
        self.files = [File("t:", "urn:t"), File("u:", "urn:a"), File("", "")]
        self.files = rng.sample(self.files, rng.choice([1, 1, 1, 2, 3]))
        self.here = self.files[0]
        self.open, self.types, self.globals, self.simples, self.models = [], [], [], [], []
        self.names = self.elements = self.level = 0
        self.is_spaced = False
        root = Element(self, rng.randint(1, 3), simple=0.15)
        if not root.is_global:
            root.is_global, root.form, root.file = True, "", self.files[0]
            self.here.components.append(root.declared())
            self.globals.append(root)
        self.root = root

    def texts(self):
        paths = ["schema.xsd", "schema-2.xsd", "schema-3.xsd"]
        files = list(zip(self.files, paths))
        return [file.text([other for other in files if other[0] is not file]) for file in self.files]

    def fresh_name(self):
        self.names += 1
        return rng.choice(["a", "el", "x.y", "b_", "Ü", "item-"]) + str(self.names)

    def element_again(self, depth):
        """A global element that is there already, or is being made."""
        if rng.random() > 0.12:
            return None
        elements = [element for element in self.globals if element.depth <= depth]
        elements += [term for term in self.open if isinstance(term, Element)]
        return rng.choice(elements) if elements else None

    def type_again(self, depth):
        if rng.random() > 0.25:
            return None
        types = [type_ for type_ in self.types if type_.depth <= depth]
        types += [term for term in self.open if isinstance(term, Complex)]
        return rng.choice(types) if types else None

    def is_full(self):
        """Nothing need stand that hasn't to: a document has at most 64 levels, and not too many elements."""
        return self.elements > 150 or self.level > 12

    def spaced(self, simple, text):
        """White space around a text that is collapsed."""
        if not self.is_spaced or not getattr(simple, "collapses", False):
            return text
        return rng.choice(["", " ", "\n\t"]) + text + rng.choice(["", " ", "\n"])

    def named(self, body):
        file, name = rng.choice(self.files), self.fresh_name()
        file.components.append(f'<xs:simpleType name="{name}">{body}</xs:simpleType>')
        return file.prefix + name

    def simple(self, simple, is_named=False, attribute="type"):
        """The attribute that names the simple type, and what stands in the element that has it; or its name in quotes."""
        known = [name for known, name in self.simples if known is simple]
        if simple.builtin:
            name = f'"xs:{simple.builtin}"'
        elif known:
            name = known[0]
        elif is_named or rng.random() < 0.4:
            name = f'"{self.named(simple.body(self))}"'
            self.simples.append((simple, name))
        else:
            return "", f"<xs:simpleType>{simple.body(self)}</xs:simpleType>"
        return name if is_named else (f" {attribute}={name}", "")

    def document(self, root):
        self.elements = 0
        (text,), encode = root.value()
        at = len(f"<{root.file.prefix}{root.name}")
        due = []
        for aligned in (True, False):
            bits = Bits(aligned)
            encode(bits)
            due.append(bits.complete())
        due.append(octets_in(Node(encode).tree()))
        self.encode = encode
        head = '<?xml version="1.0" encoding="UTF-8"?>\n' * (rng.random() < 0.3)
        spaces = f' xmlns:t="urn:t" xmlns:u="urn:a" xmlns:xsi="{INSTANCE}"'
        return f"{head}{text[:at]}{spaces}{text[at:]}", due


def changed(document):
    """The document with something changed, which may leave it valid."""
    texts = ["", "x", " ", "7", "300", "-1", "red", "1 2 3", "true", "a  b", "9" * 23, "1.0", "é", "x" * 7]
    values = ["", "x", "7", "-1", "true", "red", "1 2", "65536", "256", "a\tb"]
    root = tree.fromstring(document)
    for _ in range(rng.choice([1, 1, 1, 2])):
        elements = list(root.iter())
        element = rng.choice(elements)
        children = list(element)
        form = rng.randrange(11)
        if form == 0 and children:
            element.remove(rng.choice(children))
        elif form == 1 and children:
            element.insert(rng.randint(0, len(children)), copy.deepcopy(rng.choice(children)))
        elif form == 2 and len(children) > 1:
            i, j = rng.sample(range(len(children)), 2)
            element[i], element[j] = children[j], children[i]
        elif form == 3 and element is not root:
            element.tag = rng.choice(elements).tag
        elif form == 4:
            element.text = rng.choice(texts)
        elif form == 5 and element.attrib:
            del element.attrib[rng.choice(list(element.attrib))]
        elif form == 6:
            element.set(rng.choice(["zz", "a1", "{urn:t}a1", "el2"]), rng.choice(values))
        elif form == 7 and element.attrib:
            element.set(rng.choice(list(element.attrib)), rng.choice(values))
        elif form == 8:
            element.set(f"{{{INSTANCE}}}nil", rng.choice(["true", "false", "1", "0", "x", ""]))
        elif form == 9 and element is not root:
            element.tail = rng.choice(["", " ", "x", "\n"])
        elif form == 10:
            element.text = ""
            for child in children:
                element.remove(child)
    return tree.tostring(root, encoding="unicode").encode()


def has_empty(document):
    """Whether a text or attribute of the document is nothing but white space: xmllint takes NMTOKENS of no token."""
    texts = []
    for element in tree.fromstring(document).iter():
        texts += ([] if len(element) else [element.text or ""]) + list(element.attrib.values())
    return any(not text.split() for text in texts)


ATTRIBUTES = {
    "minOccurs": ["0", "1", "2", "5", "x", "-1", ""],
    "maxOccurs": ["0", "1", "2", "300", "unbounded", "x"],
    "use": ["required", "optional", "x"],
    "form": ["qualified", "unqualified", "x"],
    "nillable": ["true", "false", "1", "x"],
    "mixed": ["true", "false", "x"],
    "type": ["xs:int", "xs:string", "xs:boolean", "xs:none", "t:none", "none:x"],
    "base": ["xs:int", "xs:string", "xs:token", "xs:byte", "t:none"],
    "itemType": ["xs:int", "xs:string", "t:none"],
    "ref": ["t:a1", "t:none", "el2"],
    "name": ["a1", "el2", "x y", "1a", "", "a:b"],
    "value": ["0", "1", "-1", "5", "1000", "x", "", "9" * 44, "red", " 7 ", "1.5"],
}


def changed_schema(schema):
    """The schema with something changed, which may leave it one of the profile."""
    tree.register_namespace("xs", XSD)
    root = tree.fromstring(schema)
    for _ in range(rng.choice([1, 1, 2])):
        element = rng.choice(list(root.iter()))
        children = list(element)
        form = rng.randrange(8)
        if form == 0 and element.attrib:
            del element.attrib[rng.choice(list(element.attrib))]
        elif form <= 3 and element.attrib:
            name = rng.choice(list(element.attrib))
            element.set(name, rng.choice(ATTRIBUTES.get(name, ["x", "", "true"])))
        elif form == 4 and children:
            element.insert(rng.randint(0, len(children)), copy.deepcopy(rng.choice(children)))
        elif form == 5 and children:
            element.remove(rng.choice(children))
        elif form == 6 and len(children) > 1:
            i, j = rng.sample(range(len(children)), 2)
            element[i], element[j] = children[j], children[i]
        elif form == 7:
            name = rng.choice(list(ATTRIBUTES))
            element.set(name, rng.choice(ATTRIBUTES[name]))
    # The prefix of names in values, of which the tree knows nothing.
    return tree.tostring(root, encoding="unicode").replace("<xs:schema ", '<xs:schema xmlns:t="urn:t" xmlns:u="urn:a" ', 1)


class Cases:
    def __init__(self, program, folder):
        self.program = program
        self.schemas = [os.path.join(folder, name) for name in ("schema.xsd", "schema-2.xsd", "schema-3.xsd")]
        self.files = self.schemas[:1]
        self.has_tokens = False
        self.has_fixed_reference = False
        self.document = os.path.join(folder, "document.xml")
        names = ["schemas", "refused", "documents", "changed", "invalid", "changed schemas", "taken", "wrong"]
        self.counts = dict.fromkeys(names, 0)

    def run(self, command, *root, octets=b""):
        return subprocess.run([self.program, command, *root, *self.files], input=octets, capture_output=True, timeout=60)

    def peer(self, document):
        with open(self.document, "wb") as file:
            file.write(document)
        return subprocess.run(["xmllint", "--noout", "--schema", self.files[0], self.document], capture_output=True)

    def put_schema(self, texts):
        self.files = self.schemas[: len(texts)]
        self.has_tokens = any("NMTOKENS" in text for text in texts)
        self.has_fixed_reference = any(re.search("<xs:attribute ref=[^>]*fixed=", text) for text in texts)
        for path, text in zip(self.files, texts):
            with open(path, "w", encoding="utf-8") as file:
                file.write(text)

    def is_wrong(self, number, document, told):
        self.counts["wrong"] += 1
        print(number, told)
        folder = os.environ.get("KEEP")
        if folder:
            os.makedirs(folder, exist_ok=True)
            wrong = self.counts["wrong"]
            for i, path in enumerate(self.files):
                shutil.copy(path, f"{folder}/{number}-{wrong}{f'-{i + 1}' * (i > 0)}.xsd")
            with open(f"{folder}/{number}-{wrong}.xml", "wb") as kept:
                kept.write(document)

    def there_and_back(self, number, root, document, due, is_clear):
        """Whether the schema is taken."""
        there = self.run("to-per", root, octets=document)
        if there.returncode in (3, 4, 5):
            self.counts["refused"] += 1
            if is_clear or b"NotClear" not in there.stderr:
                self.is_wrong(number, document, f"the schema is refused: {there.stderr.decode()}")
            return False
        if not is_clear:
            self.is_wrong(number, document, "the schema is taken, and isn't clear")
            return False
        self.counts["documents"] += 1
        for (encoding, decoding), octets in zip(SYNTAXES, due):
            self.back(number, root, document, octets, encoding, decoding)
            self.damaged(number, root, document, octets, encoding, decoding)
        return True

    def back(self, number, root, document, due, encoding, decoding):
        """What was encoded is due, and what it is decoded to is encoded so again."""
        there = self.run(encoding, root, octets=document)
        if there.stdout != due:
            told = there.stderr.decode() or there.stdout.hex()
            self.is_wrong(number, document, f"{encoding}: {told[:1000]}, due {due.hex()[:1000]}")
            return
        back = self.run(decoding, root, octets=due)
        again = self.run(encoding, root, octets=back.stdout)
        peer = self.peer(back.stdout)
        if peer.returncode != 0:
            self.is_wrong(number, back.stdout, f"{decoding}: {back.stderr.decode()}{peer.stderr.decode()}")
        if again.stdout != due:
            self.is_wrong(number, document, f"{decoding}: {back.stderr.decode()}{again.stderr.decode()}")

    def damaged(self, number, root, document, due, encoding, decoding):
        """No front of an encoding is one, and what is read of octets with a bit turned is encoded to just these."""
        # Numbers of its own, so that the cases that follow are what they were.
        chance = random.Random(f"{number} {decoding} {due.hex()}")
        front = due[: chance.randrange(len(due))]
        short = self.run(decoding, root, octets=front)
        if short.stdout or b"Short" not in short.stderr:
            self.is_wrong(number, document, f"{decoding} of the front {front.hex()[:1000]}: {short.stderr.decode()}")
        bit = chance.randrange(8 * len(due))
        turned = bytearray(due)
        turned[bit // 8] ^= 128 >> bit % 8
        back = self.run(decoding, root, octets=turned)
        if back.returncode != 0:
            if back.stdout or not re.match(rb"input, (bit|byte) \d+: (per|der|trailing)", back.stderr):
                self.is_wrong(number, document, f"{decoding} with bit {bit} turned: {back.stderr.decode()}")
        elif len(back.stdout) <= MOST and self.run(encoding, root, octets=back.stdout).stdout != turned:
            self.is_wrong(number, document, f"{decoding} with bit {bit} turned: not encoded to the same again")

    def is_valid(self, number, root, document):
        if self.has_tokens and has_empty(document):
            return
        peer = self.peer(document)
        due = {0: 0, 3: 8}.get(peer.returncode)
        ours = self.run("check", root, octets=document)
        self.counts["changed"] += 1
        self.counts["invalid"] += due == 8
        if due == 0 and self.has_fixed_reference and b"BadAttribute" in ours.stderr:
            return
        if ours.returncode != due:
            told = f"check: {ours.returncode} {ours.stderr.decode()}, xmllint: {peer.returncode} {peer.stderr.decode()}"
            self.is_wrong(number, document, told)

    # What xmllint says of schemas that the program takes beyond XML Schema Part 2 (docs/internals/DECISIONS.md): a bound that is
    # no value of the base, and a length beside the other lengths.
    BEYOND = (b"of the facet does not validate against the base type", b"'length'")

    def is_taken(self, number, schema):
        if 'maxOccurs="0"' in schema and "none" in schema:
            return
        self.put_schema([schema])
        self.counts["changed schemas"] += 1
        ours = self.run("show")
        if ours.returncode not in (0, 3, 4, 5):
            self.is_wrong(number, b"", f"show: {ours.returncode} {ours.stderr.decode()}")
        if ours.returncode == 0:
            self.counts["taken"] += 1
            peer = self.peer(b"<none/>")
            if peer.returncode == 5 and not any(words in peer.stderr for words in self.BEYOND):
                self.is_wrong(number, b"", f"show: taken, xmllint: {peer.stderr.decode()}")

    def try_all(self, number):
        rng.seed(number)
        schema = Schema()
        self.counts["schemas"] += 1
        texts = schema.texts()
        self.put_schema(texts)
        is_clear = all(top.is_clear(set()) for top in schema.models)
        for i in range(6):
            element = schema.root if i == 0 else rng.choice(schema.globals)
            root = f"{{{element.file.namespace}}}{element.name}" if element.file.namespace else element.name
            schema.is_spaced = i % 3 == 2
            text, due = schema.document(element)
            document = text.encode()
            # Lists of lists of long texts.
            if len(document) > MOST:
                continue
            if not self.there_and_back(number, root, document, due, is_clear):
                return
            # White space around numbers is what xmllint takes otherwise.
            for _ in range(0 if schema.is_spaced else 4):
                self.is_valid(number, root, changed(document))
        for _ in range(10 if len(texts) == 1 else 0):
            self.is_taken(number, changed_schema(texts[0]))


def main():
    here = os.path.dirname(os.path.dirname(os.path.abspath(__file__)))
    program = os.path.abspath(os.environ.get("PROGRAM", os.path.join(here, "bin/transcode")))
    first = int(sys.argv[1]) if len(sys.argv) > 1 else 1
    count = int(sys.argv[2]) if len(sys.argv) > 2 else 300
    with tempfile.TemporaryDirectory() as folder:
        cases = Cases(program, folder)
        for number in range(first, first + count):
            cases.try_all(number)
    print(", ".join(f"{count} {name}" for name, count in cases.counts.items()))
    return 1 if cases.counts["wrong"] else 0


if __name__ == "__main__":
    sys.exit(main())
