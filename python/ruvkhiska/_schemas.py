"""Schemas, and what is prepared of them for documents."""

from __future__ import annotations

import os
import threading
from collections.abc import Callable, Iterable, Iterator, Sequence
from ctypes import byref, c_size_t, create_string_buffer, string_at
from typing import BinaryIO, Literal, Optional, Union
from xml.parsers import expat

from ._errors import MORE, OUT_OF_MEMORY, PER_FAULT, DocumentError, EncodingError, Error, OutOfMemory, SchemaError, error_of
from ._library import Answer, Complaint, Readable, Slot, lent, library

# Canonical PER, aligned or unaligned, or DER.
Syntax = Literal["per", "uper", "der"]

_SYNTAXES = {"per": 0, "uper": 1, "der": 2}
_SCHEMA = "http://www.w3.org/2001/XMLSchema schema"
_ELEMENT = "http://www.w3.org/2001/XMLSchema element"
_UNKNOWN_ROOT = 6
# How many octets of a file of records are read at once at least.
_PIECE = 65_536


class Schemas:
    """The files of a set of schemas: at most 64, which are numbered from 1."""

    def __init__(self, files: Iterable[tuple[str, Readable]]) -> None:
        """Makes a set of the name and the contents of each file. The names appear in messages. No file is opened."""
        self._files = [(name, bytes(contents)) for name, contents in files]

    @classmethod
    def from_files(cls, *paths: Union[str, os.PathLike[str]]) -> Schemas:
        """Reads the files. Name each file of the set: `include` and `import` aren't followed.

        Raises OSError if a file can't be read.
        """
        files = []
        for path in paths:
            with open(path, "rb") as file:
                files.append((os.fsdecode(path), file.read()))
        return cls(files)

    def prepare(self, root: Optional[str] = None) -> Prepared:
        """Links the files to one set with a root element, from which any number of documents is converted.

        The root is `name` or `{namespace}name`. You can omit it if the schemas declare one global element.

        Raises SchemaError with the first fault of the files, or if no global element has the name of the root.
        """
        # Without names the library finds the only global element.
        space, local = ("", "") if root is None else _root_of(root)
        try:
            return Prepared(self._files, space, local)
        except SchemaError as error:
            if error.status == _UNKNOWN_ROOT:
                roots = [it for _, contents in self._files for it in _roots_in(contents)]
                error.note = f"the global elements are: {', '.join(roots) or 'none'}"
            raise


class _Converter:
    """A slot of a converter, which is closed when nothing refers to it any more. Any thread may close it."""

    def __init__(self) -> None:
        self.slot = Slot()

    # As the interpreter ends, the module may have lost its names.
    def __del__(self, close: Callable[..., None] = library.ruvkhiska_close, byref: Callable[..., object] = byref) -> None:
        close(byref(self.slot))


class Prepared:
    """A set of schemas with a root element. `Schemas.prepare` makes it.

    Any number of threads may use it at the same time. Each has a converter of its own, which shares the set that was prepared, and
    which is made at its first call. No call waits for another thread's.

    A document or an encoding is `bytes` or another object with a buffer. It is read in place, but copied if it is writable, since
    other threads run during a call. Nothing may write to the memory of a read-only view during a call.
    """

    def __init__(self, files: Sequence[tuple[str, bytes]], space: str, local: str) -> None:
        self._files = files
        # The first converter is shared, one thread at a time, and used for nothing else.
        self._first = _Converter()
        self._lock = threading.Lock()
        self._mine = threading.local()
        self._stamp: Optional[bytes] = None
        _open(self._first.slot, files, space, local)

    def check(self, document: Union[str, Readable]) -> None:
        """Validates a document. A `str` is read as its UTF-8.

        Raises DocumentError with its first fault.
        """
        document, why, mine = _utf8_of(document), Complaint(), self._converter()
        with lent(document) as (at, count):
            status = library.ruvkhiska_check(byref(mine.slot), at, count, byref(why))
        if status:
            raise error_of(DocumentError, status, why, self._files, document)

    def encode(self, document: Union[str, Readable], syntax: Syntax = "per") -> bytes:
        """Returns the encoding of a document. A `str` is read as its UTF-8.

        The syntax is "per" (canonical PER, aligned), "uper" (canonical PER, unaligned) or "der" (DER).

        Raises DocumentError with its first fault.
        """
        document = _utf8_of(document)
        return self._convert(library.ruvkhiska_encode, document, syntax, DocumentError, document)

    def decode(self, octets: Readable, syntax: Syntax = "per") -> bytes:
        """Returns the document of a complete encoding, in UTF-8.

        Raises EncodingError with its first fault.
        """
        return self._convert(library.ruvkhiska_decode, octets, syntax, EncodingError, None)

    def records(self, file: BinaryIO) -> Iterator[bytes]:
        """Yields the document of each record of a binary file: encodings in "per" that follow one another without anything between.

        Each document comes as soon as its record was read, and before more is read: the file may be a pipe or `socket.makefile("rb")`.
        What was read after the last record that was asked for is lost.

        Raises EncodingError for the first record that isn't an encoding. Its place counts from the start of that record.
        """
        read = getattr(file, "read1", file.read)
        octets, number = memoryview(b""), 1
        while True:
            document, used = self._next(octets, number)
            if document is None:
                # A long record is read in pieces that double, since each piece has it decoded again from its start.
                more = read(max(_PIECE, len(octets)))
                if more is None:
                    raise BlockingIOError("the file has no data yet, and doesn't wait for it")
                if not more:
                    if octets:
                        self._next(octets, number, is_end=True)
                    return
                octets = memoryview(bytes(octets) + more)
                continue
            octets, number = octets[used:], number + 1
            yield document

    @property
    def stamp(self) -> bytes:
        """The stamp of the schemas: the first 8 octets of the SHA-256 of the ASN.1 module that `ruvkhiska show` prints.

        Sets with the same stamp encode their documents alike, so both ends can compare it. `ruvkhiska to-per --stamp` writes it before
        the encoding.
        """
        if self._stamp is None:
            octets, mine = create_string_buffer(8), self._converter()
            status = library.ruvkhiska_stamp(byref(mine.slot), octets, 8)
            if status:
                raise OutOfMemory(status, "out of memory")
            self._stamp = octets.raw
        return self._stamp

    def _convert(
        self, call: Callable[..., int], data: Readable, syntax: Syntax, kind: type[Error], document: Optional[Readable]
    ) -> bytes:
        if syntax not in _SYNTAXES:
            raise ValueError(f"the syntaxes are {', '.join(_SYNTAXES)}, and not {syntax!r}")
        answer, why, mine = Answer(), Complaint(), self._converter()
        try:
            with lent(data) as (at, count):
                status = call(byref(mine.slot), _SYNTAXES[syntax], at, count, byref(answer), byref(why))
            if status:
                raise error_of(kind, status, why, self._files, document)
            return string_at(answer.data, answer.count)
        finally:
            library.ruvkhiska_free(byref(answer))

    def _next(self, octets: memoryview, number: int, is_end: bool = False) -> tuple[Optional[bytes], int]:
        """Returns the document of the first record, and the number of its octets. The document is None if more octets are needed."""
        answer, used, why, mine = Answer(), c_size_t(), Complaint(), self._converter()
        try:
            with lent(octets) as (at, count):
                status = library.ruvkhiska_next(byref(mine.slot), at, count, byref(answer), byref(used), byref(why))
            if status == 0:
                return string_at(answer.data, answer.count), used.value
        finally:
            library.ruvkhiska_free(byref(answer))
        if status == MORE and not is_end:
            return None, 0
        error = error_of(EncodingError, PER_FAULT if status == MORE else status, why, self._files)
        error.note = f"record {number}"
        raise error

    def _converter(self) -> _Converter:
        """Returns this thread's converter. It is closed when the thread or the set has gone, and no call uses it."""
        mine: Optional[_Converter] = getattr(self._mine, "converter", None)
        if mine is None:
            mine = _Converter()
            with self._lock:
                status = library.ruvkhiska_share(byref(self._first.slot), byref(mine.slot))
            if status:
                raise OutOfMemory(status, "out of memory")
            self._mine.converter = mine
        return mine


def _open(converter: Slot, files: Sequence[tuple[str, bytes]], space: str, local: str) -> None:
    """Opens a converter on the set of these files and the root."""
    added, why = Slot(), Complaint()
    try:
        for name, contents in files:
            # Names appear in no complaint, so any that differ will do.
            known = name.encode(errors="backslashreplace")
            status = library.ruvkhiska_add(byref(added), known, len(known), contents, len(contents))
            if status == OUT_OF_MEMORY:
                raise OutOfMemory(status, "out of memory")
            if status:
                raise SchemaError(status, "over 64 files")
        names = space.encode(), local.encode()
        status = library.ruvkhiska_open(byref(added), names[0], len(names[0]), names[1], len(names[1]), byref(converter), byref(why))
        if status:
            raise error_of(SchemaError, status, why, files)
    finally:
        library.ruvkhiska_drop_files(byref(added))


def _root_of(name: str) -> tuple[str, str]:
    """Returns the namespace and the local name of `name` or `{namespace}name`."""
    space, brace, local = name[1:].partition("}") if name.startswith("{") else ("", "}", name)
    if not (brace and local):
        raise ValueError(f"a root is `name` or `{{namespace}}name`, and not {name!r}")
    return space, local


def _utf8_of(document: Union[str, Readable]) -> Readable:
    return document.encode() if isinstance(document, str) else document


def _roots_in(contents: bytes) -> list[str]:
    """Returns the names of the global elements of a schema file. If it isn't one, the library says so."""
    roots: list[str] = []
    above: list[str] = []
    space = ""

    def start(name: str, attributes: dict[str, str]) -> None:
        nonlocal space
        if not above:
            space = attributes.get("targetNamespace", "").strip()
        elif above == [_SCHEMA] and name == _ELEMENT:
            local = attributes.get("name", "").strip()
            roots.append(f"{{{space}}}{local}" if space else local)
        above.append(name)

    def end(_: str) -> None:
        above.pop()

    def refuse(*_: object) -> None:
        raise ValueError

    parser = expat.ParserCreate(namespace_separator=" ")
    parser.StartElementHandler, parser.EndElementHandler, parser.StartDoctypeDeclHandler = start, end, refuse
    try:
        parser.Parse(contents, True)
    except (expat.ExpatError, ValueError):
        return []
    return roots
