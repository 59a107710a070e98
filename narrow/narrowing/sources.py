"""Reads the schema files of a set, and hands them to python3-xmlschema.

Each file is first read by expat alone, with bounds, so that a hostile one is refused before a tree is made of
it. Nothing is ever fetched from a network, and no external entity is read.
"""
from __future__ import annotations

import os
import re
import stat
import urllib.parse
import warnings
from dataclasses import dataclass, field
from typing import Any, Iterator, Optional
from xml.parsers import expat

from xmlschema import XMLSchema10

from .names import XML, XS
from .report import shortened

MOST_BYTES = 16_777_216  # of one file, and of its characters after entities were expanded
MOST_ELEMENTS = 400_000  # of the set
MOST_LEVELS = 200  # of elements inside each other
MOST_FILES = 2_000
LINKS = ("include", "import", "redefine")
# What only XML Schema 1.1 has.
NEWER_ELEMENTS = ("assert", "assertion", "alternative", "openContent", "defaultOpenContent", "override", "explicitTimezone")
NEWER_ATTRIBUTES = ("notNamespace", "notQName", "defaultAttributes", "defaultAttributesApply", "xpathDefaultNamespace", "inheritable")
UNRESOLVED = re.compile("unknown|missing (base|group|location|attribute group|type)|not found")


class NoSchema(Exception):
    """The set can't be read. `str` of it is a line of the report."""

    def __init__(self, shown: str, line: int, words: str) -> None:
        place = "%s:%d" % (shown, line) if line else shown
        super().__init__("%s: failed: %s" % (place, shortened(words, 400)))


@dataclass
class Link:
    """An include, import or redefine: its line, its namespace (of an import), and the file that it names."""

    kind: str
    line: int
    namespace: str
    location: str
    file: Optional[str]


@dataclass
class Source:
    """A schema file: its path, how the report shows it, the line of each element in document order, and its links."""

    path: str
    shown: str
    lines: list[int] = field(default_factory=list)
    links: list[Link] = field(default_factory=list)
    namespace: str = ""


class Scan:
    """Reads one file by expat."""

    def __init__(self, source: Source, most_elements: int) -> None:
        self.source, self.most_elements = source, most_elements
        self.levels = self.size = 0
        self.parser = expat.ParserCreate(namespace_separator=" ")
        self.parser.StartElementHandler = self.start
        self.parser.EndElementHandler = self.end
        self.parser.CharacterDataHandler = self.grow

    def fail(self, words: str) -> None:
        """Refuses the file at the current line."""
        raise NoSchema(self.source.shown, self.parser.CurrentLineNumber, words)

    def grow(self, text: str) -> None:
        """Counts the characters that the file has after entities were expanded."""
        self.size += len(text)
        if self.size > MOST_BYTES:
            self.fail("has over 16,777,216 characters after its entities are expanded")

    def start(self, name: str, attributes: dict[str, str]) -> None:
        """Reads a start tag."""
        source = self.source
        self.levels += 1
        source.lines.append(self.parser.CurrentLineNumber)
        namespace, _, local = name.rpartition(" ")
        self.grow(local)
        for key, value in attributes.items():
            self.grow(key)
            self.grow(value)
        if self.levels > MOST_LEVELS:
            self.fail("has over %d elements inside each other" % MOST_LEVELS)
        if len(source.lines) > self.most_elements:
            self.fail("the set has over %d elements" % MOST_ELEMENTS)
        if self.levels == 1:
            if (namespace, local) != (XS, "schema"):
                self.fail("is no schema: its root is %s" % (local if not namespace else "{%s}%s" % (namespace, local)))
            source.namespace = attributes.get("targetNamespace", "").strip()
        if namespace == XS:
            self.look(local, attributes)

    def look(self, local: str, attributes: dict[str, str]) -> None:
        """Keeps a link to another file, and refuses what is of XML Schema 1.1."""
        newer = [k for k in NEWER_ATTRIBUTES if k in attributes]
        if local in NEWER_ELEMENTS or newer:
            self.fail("is XML Schema 1.1: xs:%s" % local + (" with %s" % newer[0] if newer else ""))
        if local in LINKS and self.levels == 2:
            location = attributes.get("schemaLocation", "").strip()
            file = path_of(location, os.path.dirname(self.source.path)) if location else None
            line = self.parser.CurrentLineNumber
            self.source.links.append(Link(local, line, attributes.get("namespace", "").strip(), location, file))

    def end(self, name: str) -> None:
        """Reads an end tag."""
        self.levels -= 1

    def run(self) -> None:
        """Reads the file to its end."""
        try:
            self.parser.Parse(read_file(self.source), True)
        except expat.ExpatError as fault:
            raise NoSchema(self.source.shown, fault.lineno, "is not well-formed: %s" % expat.ErrorString(fault.code)) from None
        except (ValueError, LookupError) as fault:
            raise NoSchema(self.source.shown, 0, "can't be read: %s" % fault) from None


def read_file(source: Source) -> bytes:
    """Returns the bytes of a regular file within the bound."""
    try:
        mode = os.stat(source.path)
        if not stat.S_ISREG(mode.st_mode):
            raise NoSchema(source.shown, 0, "is no regular file")
        with open(source.path, "rb") as file:
            data = file.read(MOST_BYTES + 1)
    except (OSError, ValueError) as fault:
        raise NoSchema(source.shown, 0, "can't be read: %s" % (getattr(fault, "strerror", None) or fault)) from None
    if len(data) > MOST_BYTES:
        raise NoSchema(source.shown, 0, "has over 16,777,216 bytes")
    return data


def path_of(location: str, folder: str) -> Optional[str]:
    """Returns the path that a schemaLocation names, or None where it names no local file."""
    parts = urllib.parse.urlsplit(location) if re.match(r"[A-Za-z][A-Za-z0-9+.-]+:", location) else None
    if parts is not None:
        if parts.scheme != "file" or parts.netloc not in ("", "localhost"):
            return None
        location = urllib.parse.unquote(parts.path)
    for name in (location, urllib.parse.unquote(location.split("#")[0])):
        path = os.path.normpath(os.path.join(folder, name))
        if "\0" not in path and os.path.isfile(path):
            return path
    return None


class Sources:
    """The files of a set, each read by expat, with those that they include, import or redefine."""

    def __init__(self, files: list[str], locations: list[tuple[str, str]]) -> None:
        self.locations = [(namespace, os.path.abspath(file)) for namespace, file in locations]
        self.files: dict[str, Source] = {}
        self.missing: list[tuple[Source, Link]] = []
        self.start = [file for _, file in self.locations] + [os.path.abspath(f) for f in files]
        self.imported: list[str] = []
        given = [f for _, f in locations] + files
        for path, shown in zip(self.start, given):
            self.add(path, shown)
        self.missing += self.without_location()

    def add(self, path: str, shown: str) -> None:
        """Reads a file and what it links to."""
        todo = [(path, shown)]
        while todo:
            path, shown = todo.pop(0)
            if path in self.files:
                continue
            if len(self.files) >= MOST_FILES:
                raise NoSchema(shown, 0, "the set has over %d files" % MOST_FILES)
            source = self.files[path] = Source(path, shown)
            Scan(source, MOST_ELEMENTS - sum(len(s.lines) for s in self.files.values())).run()
            todo += self.linked(source)

    def linked(self, source: Source) -> Iterator[tuple[str, str]]:
        """Yields the files that a file links to, and notes those that aren't there."""
        known = {namespace for namespace, _ in self.locations}
        for link in source.links:
            if link.file is not None:
                if link.kind == "import":
                    self.imported.append(link.file)
                yield link.file, shown_path(link.file)
            elif link.location and link.namespace not in known:
                self.missing.append((source, link))

    def without_location(self) -> list[tuple[Source, Link]]:
        """Returns the imports that name no file, of namespaces that no file of the set has."""
        known = {s.namespace for s in self.files.values()} | {XML}
        links = [(s, link) for s in self.files.values() for link in s.links]
        return [(s, it) for s, it in links if it.kind == "import" and not it.location and it.namespace not in known]

    def load(self) -> Any:
        """Returns the set as python3-xmlschema has it."""
        with warnings.catch_warnings():
            warnings.simplefilter("ignore")
            try:
                return self.built()
            except NoSchema:
                raise
            except (MemoryError, RecursionError):
                raise
            except Exception as fault:  # Of a library, over files from strangers: no list of its faults is complete.
                first = self.files[self.start[len(self.locations)]]
                words = str(fault).strip().split("\n")[0] or type(fault).__name__
                raise NoSchema(first.shown, 0, "is no schema: %s" % words) from None

    def built(self) -> Any:
        """Loads the files in order: those of --location, those given, and those imported that aren't loaded yet."""
        options: dict[str, Any] = {"validation": "lax", "locations": self.locations, "allow": "local", "build": False}
        schema = XMLSchema10(self.start[0], **options)
        for path in self.start[1:] + self.imported:
            if not any(same_file(s.url, path) for s in schema.maps.iter_schemas()):
                schema.add_schema(path)
        schema.maps.build()
        return schema

    def source_of(self, url: Optional[str]) -> Optional[Source]:
        """Returns the source of a document that the library loaded."""
        return self.files.get(local_path(url)) if url else None

    def missing_lines(self) -> list[str]:
        """Returns a line for each link that leads to no file, with the remedy."""
        lines = []
        for source, link in self.missing:
            remedy = "--location '%s=FILE'" % (link.namespace or (source.namespace if link.kind != "import" else ""))
            words = "%s:%d: missing: %s of %s: no local file; name it with %s"
            lines.append(words % (source.shown, link.line, link.kind, shortened(link.location or link.namespace), remedy))
        return lines


def local_path(url: str) -> str:
    """Returns the path of a file URL."""
    return os.path.normpath(urllib.parse.unquote(urllib.parse.urlsplit(url).path)) if url.startswith("file:") else url


def same_file(url: Optional[str], path: str) -> bool:
    """Says whether a URL of the library is that of a file."""
    return url is not None and local_path(url) == path


def shown_path(path: str) -> str:
    """Returns the path from the working directory where that is shorter."""
    relative = os.path.relpath(path)
    return relative if len(relative) < len(path) else path


def errors_of(schema: Any) -> tuple[list[Any], list[Any]]:
    """Returns what is unresolved in the set, and what else breaks a rule of XML Schema."""
    errors = [e for s in schema.maps.iter_schemas() for e in s.all_errors]
    unresolved = [e for e in errors if UNRESOLVED.search(str(e.message).split("\n")[0])]
    return unresolved, [e for e in errors if e not in unresolved]
