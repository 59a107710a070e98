"""The exceptions of the package, and how they are made from the line of a rejection."""

from __future__ import annotations

import re
from collections.abc import Sequence
from ctypes import byref, c_uint64, string_at
from typing import NamedTuple, Optional

from ._library import Answer, Complaint, Readable, lent, library

_LINE = re.compile(r"(?:input|file (?P<file>\d+))(?:, (?:byte|bit) \d+)?: (?P<fault>.*)")
# Statuses: the octets are no encoding in PER; an allocation failed; the octets end before the record does.
PER_FAULT, OUT_OF_MEMORY, MORE = 9, 30, 41


class Place(NamedTuple):
    """A place in a schema file, a document or an encoding.

    - file: the name of the schema file; None in a document or an encoding
    - unit: what `offset` counts: "byte", or "bit" in PER
    - offset: counted from 0; None if the fault is of the entire file
    - line, column: counted from 1, columns in code points, or in bytes if the text isn't UTF-8; None in an encoding
    """

    file: Optional[str]
    unit: str = "byte"
    offset: Optional[int] = None
    line: Optional[int] = None
    column: Optional[int] = None

    def __str__(self) -> str:
        name = "input" if self.file is None else self.file
        if self.line is not None:
            return f"{name}:{self.line}:{self.column}"
        return name if self.offset is None else f"{name}, {self.unit} {self.offset}"


class Error(Exception):
    """An input was rejected, for its first fault.

    - status: the number of the outcome, the same as the exit status of the programs
    - line: the line that `transcode` writes, without its end, as "input, byte 7: syntax: WrongEnd"
    - reason: the name of the fault, as "WrongEnd"; None if the status says all
    - place: where the fault is; None if it has no place
    - path: the element of the document in which the fault is, as "/order/line[2]/qty"; None otherwise
    - note: what the message adds, or ""
    """

    note = ""

    def __init__(
        self, status: int, line: str, reason: Optional[str] = None, place: Optional[Place] = None, path: Optional[str] = None
    ) -> None:
        super().__init__(status, line, reason, place, path)
        self.status = status
        self.line = line
        self.reason = reason
        self.place = place
        self.path = path

    def __str__(self) -> str:
        found = _LINE.fullmatch(self.line)
        told = f"{self.place}: {found['fault']}" if found and self.place else self.line
        return f"{told}; {self.note}" if self.note else told


class SchemaError(Error):
    """A schema file, the files as one set, or the root was rejected."""


class DocumentError(Error):
    """A document isn't well-formed or valid, or it is too large."""


class EncodingError(Error):
    """The octets aren't the encoding of a value, or something follows it."""


class OutOfMemory(Error, MemoryError):
    """An allocation of the library failed. The call may be repeated."""


def _spot(file: Optional[str], text: Readable, offset: int) -> Place:
    """Returns a place in a text with its line and column."""
    line, column = c_uint64(), c_uint64()
    with lent(text) as (at, count):
        library.ruvkhiska_spot(at, count, offset, byref(line), byref(column))
    return Place(file, "byte", offset, line.value or None, column.value or None)


def _path(document: Readable, offset: int) -> Optional[str]:
    """Returns the path to the element at an offset. It is None if the text isn't well-formed up to there, or if memory is missing."""
    path = Answer()
    try:
        with lent(document) as (at, count):
            library.ruvkhiska_path(at, count, offset, byref(path))
        return string_at(path.data, path.count).decode() if path.is_given and path.count else None
    finally:
        library.ruvkhiska_free(byref(path))


def error_of(
    kind: type[Error], status: int, why: Complaint, files: Sequence[tuple[str, bytes]], document: Optional[Readable] = None
) -> Error:
    """Returns the exception for a rejection: `kind`, unless memory is missing.

    The files are those that the complaint counts from 1. The document is what it calls the input, or None for an encoding.
    """
    if status == OUT_OF_MEMORY:
        return OutOfMemory(status, "out of memory")
    line = why.line()
    found = _LINE.fullmatch(line)
    if not found:
        return kind(status, line)
    name, text = files[int(found["file"]) - 1] if found["file"] else (None, document)
    place: Optional[Place] = None
    path: Optional[str] = None
    if why.has_place and text is not None:
        place = _spot(name, text, why.at)
        path = None if found["file"] else _path(text, why.at)
    elif why.has_place:
        place = Place(None, "bit" if status == PER_FAULT else "byte", why.at)
    elif name is not None:
        place = Place(name)
    _, colon, reason = found["fault"].rpartition(": ")
    return kind(status, line, reason.split()[-1] if colon else None, place, path)
