"""The calls of the shared C library, as include/ruvkhiska.h declares them."""

from __future__ import annotations

import ctypes
import os
from collections.abc import Iterator
from contextlib import contextmanager
from ctypes import POINTER, Structure, byref, c_bool, c_int, c_int32, c_size_t, c_ssize_t, c_uint8, c_uint32, c_uint64, c_void_p
from mmap import mmap
from pathlib import Path
from typing import Union

NAME = "libruvkhiska.so.1"
# The first version of the library that has all of the calls, as `RUVKHISKA_VERSION_NUMBER` of the header.
_LEAST = 10_000
# Bytes that a call reads: any object with a buffer.
Readable = Union[bytes, bytearray, memoryview, mmap]


class Complaint(Structure):
    """The line of a rejection, and the place of the fault: a file from 1, or 0 for the input, and an offset in it."""

    _fields_ = [("count", c_size_t), ("at", c_uint64), ("file", c_uint32), ("has_place", c_bool), ("text", c_uint8 * 128)]

    def line(self) -> str:
        return bytes(self.text[: self.count]).decode().rstrip("\n")


class Slot(Structure):
    """Files or a converter."""

    _fields_ = [("is_open", c_bool), ("at", c_void_p)]


class Answer(Structure):
    _fields_ = [("is_given", c_bool), ("data", c_void_p), ("count", c_size_t), ("at", c_void_p)]


class Buffer(Structure):
    """`Py_buffer` of the interpreter."""

    _fields_ = [
        ("buf", c_void_p),
        ("obj", c_void_p),
        ("len", c_ssize_t),
        ("itemsize", c_ssize_t),
        ("readonly", c_int),
        ("ndim", c_int),
        ("format", c_void_p),
        ("shape", c_void_p),
        ("strides", c_void_p),
        ("suboffsets", c_void_p),
        ("internal", c_void_p),
    ]


def _paths() -> Iterator[str]:
    """Yields where the library may be, in the order in which it is looked for."""
    named = os.environ.get("RUVKHISKA_LIBRARY")
    if named:
        yield os.path.abspath(named)
        return
    # PREFIX/lib/python3.11/site-packages/ruvkhiska/_library.py has the library of its installation in PREFIX/lib.
    for folder in Path(__file__).resolve().parents:
        if folder.name == "lib":
            yield str(folder / NAME)
    yield NAME


def _declare(library: ctypes.CDLL) -> None:
    """Gives the calls of the library their types. Raises AttributeError if it lacks one."""
    lent = [c_void_p, c_size_t]
    slot, answer, complaint, number = POINTER(Slot), POINTER(Answer), POINTER(Complaint), POINTER(c_uint64)
    for name, result, parameters in [
        ("version", c_uint32, []),
        ("add", c_int32, [slot, *lent, *lent]),
        ("drop_files", None, [slot]),
        ("open", c_int32, [slot, *lent, *lent, slot, complaint]),
        ("share", c_int32, [slot, slot]),
        ("close", None, [slot]),
        ("check", c_int32, [slot, *lent, complaint]),
        ("encode", c_int32, [slot, c_uint32, *lent, answer, complaint]),
        ("decode", c_int32, [slot, c_uint32, *lent, answer, complaint]),
        ("next", c_int32, [slot, *lent, answer, POINTER(c_size_t), complaint]),
        ("stamp", c_int32, [slot, *lent]),
        ("spot", c_int32, [*lent, c_uint64, number, number]),
        ("path", c_int32, [*lent, c_uint64, answer]),
        ("free", None, [answer]),
    ]:
        call = getattr(library, "ruvkhiska_" + name)
        call.restype, call.argtypes = result, parameters


def _load() -> ctypes.CDLL:
    """Returns the library with the types of its calls. CDLL releases the interpreter's lock during each call."""
    for path in _paths():
        try:
            library = ctypes.CDLL(path)
        except OSError as error:
            why = error
        else:
            break
    else:
        raise ImportError(f"{why}: set RUVKHISKA_LIBRARY to the path of {NAME}", path=path)
    try:
        _declare(library)
    except AttributeError as error:
        raise ImportError(f"{error}: this package needs a later version of the library", path=path) from error
    if library.ruvkhiska_version() < _LEAST:
        raise ImportError(f"version {library.ruvkhiska_version()} of {path} is too old for this package", path=path)
    return library


library = _load()


@contextmanager
def lent(data: Readable) -> Iterator[tuple[Union[bytes, int], int]]:
    """Yields the place and the number of the bytes of an object with a buffer.

    They stay where they are, but a call reads without the interpreter's lock: so what is writable is copied.
    """
    if isinstance(data, bytes):
        yield data, len(data)
        return
    view = memoryview(data)
    if not (view.readonly and view.c_contiguous and view.nbytes):
        copy = view.tobytes()
        yield copy, len(copy)
        return
    buffer = Buffer()
    ctypes.pythonapi.PyObject_GetBuffer(ctypes.py_object(view), byref(buffer), 0)
    try:
        yield buffer.buf, buffer.len
    finally:
        ctypes.pythonapi.PyBuffer_Release(byref(buffer))
