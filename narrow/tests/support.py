"""What the tests share: the program, the judges that aren't ours, and short ways to write schemas."""
from __future__ import annotations

import json
import os
import re
import subprocess
import sys
import tempfile
import xml.etree.ElementTree as ET
from typing import Any, Optional, Union

HERE = os.path.dirname(os.path.dirname(os.path.abspath(__file__)))
TOP = os.path.dirname(HERE)
sys.path[:0] = [HERE, os.path.join(TOP, "python")]

from xmlschema import XMLSchema10  # noqa: E402
from xmlschema.helpers import get_qname  # noqa: E402
from xmlschema.validators import XsdElement  # noqa: E402

from narrowing.supervising import bounded  # noqa: E402
from narrowing.work import Job, Outcome, rewrite  # noqa: E402

NARROW = os.path.join(HERE, "ruvkhiska-narrow")
NAMESPACE = "http://www.w3.org/2001/XMLSchema-instance"
XSI = 'xmlns:xsi="%s"' % NAMESPACE


def program() -> str:
    """Returns the path of ruvkhiska: PROGRAM of the environment, or bin/ruvkhiska."""
    return os.path.abspath(os.environ.get("PROGRAM", os.path.join(TOP, "bin", "ruvkhiska")))


def streams() -> str:
    """Returns the path of transcode, which reads streams: TRANSCODE of the environment, or the one next to ruvkhiska."""
    folder, name = os.path.split(program())
    return os.path.abspath(os.environ.get("TRANSCODE", os.path.join(folder, name.replace("ruvkhiska", "transcode"))))


def run(words: list[str], data: Optional[bytes] = None, **more: Any) -> "subprocess.CompletedProcess[bytes]":
    """Runs a command to its end."""
    return subprocess.run(words, input=data, capture_output=True, timeout=300, **more)


def xmllint_each(schema: str, documents: list[bytes]) -> list[Optional[bool]]:
    """Says of each document whether xmllint calls it valid by a schema file, or None where that is an internal error."""
    if not documents:
        return []
    with tempfile.TemporaryDirectory() as folder:
        names = [os.path.join(folder, "%d.xml" % i) for i in range(len(documents))]
        for name, document in zip(names, documents):
            with open(name, "wb") as file:
                file.write(document)
        said = run(["xmllint", "--noout", "--nonet", "--schema", schema, *names]).stderr.decode().split("\n")
    verdicts = {" validates": True, " fails to validate": False, " validation generated an internal error": None}
    found = [[verdict for words, verdict in verdicts.items() if name + words in said] for name in names]
    if any(len(it) != 1 for it in found):
        raise AssertionError("xmllint: %s" % said)
    return [it[0] for it in found]


class Set:
    """A schema set in a folder, rewritten into the folder `out` in it."""

    def __init__(self, folder: str, files: dict[str, str], **options: Any) -> None:
        self.folder = folder
        for name, text in files.items():
            with open(os.path.join(folder, name), "w", encoding="utf-8") as file:
                file.write(text)
        self.original = os.path.join(folder, next(iter(files)))
        self.outcome: Outcome = bounded(lambda: rewrite(Job([self.original], **options)))
        out = os.path.join(folder, "out")
        os.makedirs(out, exist_ok=True)
        self.files = []
        for name, text in self.outcome.texts.items():
            self.files.append(os.path.join(out, name))
            with open(self.files[-1], "w", encoding="utf-8") as file:
                file.write(text)

    def rules(self) -> list[str]:
        """Returns the rules of the report's lines, each once."""
        return sorted({line.rsplit("[", 1)[1][:-1] for line in self.outcome.lines if line.endswith("]")})

    def ours(self, command: str, root: str, data: bytes) -> "subprocess.CompletedProcess[bytes]":
        """Runs our program with the rewritten files."""
        return run([program(), command, root] + self.files, data)

    def round_trips(self, root: str, documents: list[bytes]) -> list[Union[bytes, str]]:
        """Returns of each document the one that comes back from its octets, or what ruvkhiska says where it refuses it.

        The programs are run, or RUVKHISKA_LIBRARY names the C library as a shared object, which is quicker."""
        return self.by_library(root, documents) if os.environ.get("RUVKHISKA_LIBRARY") else self.by_programs(root, documents)

    def by_programs(self, root: str, documents: list[bytes]) -> list[Union[bytes, str]]:
        """Does what `round_trips` says by ruvkhiska, and transcode, which reads all octets in one run."""
        encoded = [self.ours("to-per", root, it) for it in documents]
        octets = [it.stdout for it in encoded if not it.returncode]
        backs = self.read_back(root, octets) if octets else []
        return [it.stderr.decode() if it.returncode else backs.pop(0) for it in encoded]

    def read_back(self, root: str, octets: list[bytes]) -> list[bytes]:
        """Returns the documents of encodings by transcode."""
        done = run([streams(), "each-to-xml", root] + self.files, b"".join(octets))
        backs = [it for it in re.split(rb"(?=<\?xml version)", done.stdout) if it]
        if done.returncode or len(backs) != len(octets):
            raise AssertionError("each-to-xml: %s" % done.stderr.decode())
        return backs

    def by_library(self, root: str, documents: list[bytes]) -> list[Union[bytes, str]]:
        """Does what `round_trips` says by the C library."""
        import ruvkhiska  # This loads the library.

        try:
            prepared = ruvkhiska.Schemas.from_files(*self.files).prepare(root)
        except ruvkhiska.SchemaError as fault:
            return [str(fault)] * len(documents)
        found: list[Union[bytes, str]] = []
        for document in documents:
            try:
                octets = prepared.encode(document)
            except ruvkhiska.DocumentError as fault:
                found.append(str(fault))
            else:
                found.append(prepared.decode(octets))
        return found

    def accepted(self) -> str:
        """Returns '' where our program accepts the rewritten schemas, and else what it says."""
        shown = run([program(), "show"] + self.files)
        return shown.stderr.decode() if shown.returncode else ""


class Judge(XMLSchema10):
    """A schema as python3-xmlschema has it. Version 1.10 takes a root for the head of its substitution group."""

    def get_element(self, tag: str, path: Optional[str] = None, namespaces: Any = None) -> Any:
        """Returns the declaration of an element."""
        return super().get_element(tag, path, namespaces) if path else self.maps.elements.get(tag)


def judge(path: str) -> XMLSchema10:
    """Returns a schema as python3-xmlschema has it.

    An element without a type has that of the head of its substitution group. Version 1.10 forgets that at references, of a head
    that has one, and of a head that blocks substitution."""
    schema = Judge(path)
    elements: list[Any] = list(schema.iter_components(XsdElement))
    for element in elements:
        head = element if element.ref is None else element.ref
        while head.elem.get("substitutionGroup") and not (head.elem.get("type") or any(it.tag.endswith("Type") for it in head.elem)):
            name = head.schema.resolve_qname(head.elem.get("substitutionGroup"))
            head = schema.maps.elements[name if name[0] == "{" else get_qname(head.target_namespace, name)]
        if head is not element and head is not element.ref:
            element._head_type = head.type
    return schema


def root_of(document: bytes) -> str:
    """Returns the name of a document's root, as our program has it."""
    return str(ET.fromstring(document).tag)


def same(schema: Any, one: bytes, other: bytes) -> bool:
    """Says whether two documents have the same elements and values by a schema of python3-xmlschema."""
    a, b = without_xsi(one), without_xsi(other)
    if [e.tag for e in a.iter()] != [e.tag for e in b.iter()]:
        return False
    options = {"process_namespaces": False, "use_defaults": True}
    values = [json.dumps(list(schema.iter_decode(root, **options)), sort_keys=True, default=str) for root in (a, b)]
    return values[0] == values[1] or spelled(a) == spelled(b)


def without_xsi(document: bytes) -> Any:
    """Returns the root of a document without attributes that say nothing of its values, except a true xsi:nil."""
    root = ET.fromstring(document)
    for e in root.iter():
        for key in [k for k, v in e.attrib.items() if k.startswith("{%s}" % NAMESPACE) and not (k.endswith("}nil") and v in ("true", "1"))]:
            del e.attrib[key]
    return root


def spelled(root: Any) -> list[Any]:
    """Returns names, attributes and texts with white space collapsed."""
    return [(e.tag, {k: " ".join(v.split()) for k, v in sorted(e.attrib.items())}, " ".join((e.text or "").split())) for e in root.iter()]


def schema(body: str, target: str = "", more: str = "") -> str:
    """Returns a schema document; with a target namespace local elements are qualified."""
    form = 'targetNamespace="%s" xmlns="%s" elementFormDefault="qualified"' % (target, target) if target else ""
    return '<xs:schema xmlns:xs="http://www.w3.org/2001/XMLSchema" %s %s>%s</xs:schema>' % (form, more, body)


def element(inner: str, name: str = "e", attributes: str = "") -> str:
    """Returns an element declaration."""
    return '<xs:element name="%s"%s>%s</xs:element>' % (name, attributes, inner)


def complex_(inner: str) -> str:
    """Returns the declaration of an element `e` with a complex type."""
    return element("<xs:complexType>%s</xs:complexType>" % inner)


def simple(inner: str, attributes: str = "") -> str:
    """Returns the declaration of an element `e` with a simple type."""
    return element("<xs:simpleType>%s</xs:simpleType>" % inner, attributes=attributes)


def restricted(base: str, **facets: Any) -> str:
    """Returns a restriction of a built-in type."""
    said = [(k, v) for k, vs in facets.items() for v in (vs if isinstance(vs, list) else [vs])]
    return '<xs:restriction base="xs:%s">%s</xs:restriction>' % (base, "".join('<xs:%s value="%s"/>' % it for it in said))
