"""Runs work over files from strangers in a process of its own, which has bounds of time and memory."""
from __future__ import annotations

import os
import pickle
import resource
import select
import signal
import sys
import threading
import time
import traceback
from typing import Any, Callable, Optional, TypeVar, cast

MOST_SECONDS = 120
MOST_MEMORY = 2_000_000_000
STACK = 256 * 1024 * 1024
DEBUG = "RUVKHISKA_NARROW_DEBUG"  # In the environment: internal errors show where they came from.

T = TypeVar("T")


class Failed(Exception):
    """The work didn't end well; `str` of it says why."""


def bounded(work: Callable[[], T]) -> T:
    """Returns what the work returns, or raises Failed. The work runs in a process of its own."""
    if sys.stdout is not None:
        sys.stdout.flush()
    reader, writer = os.pipe()
    pid = os.fork()
    if pid == 0:
        os.close(reader)
        status = 1
        try:
            send(writer, run(work))
            status = 0
        finally:
            os._exit(status)
    os.close(writer)
    try:
        data = receive(reader, time.monotonic() + MOST_SECONDS)
    finally:
        os.close(reader)
        ended = kill(pid)
    # Processor time may end before the deadline. It is one limit, so both have one message.
    if data is None or ended == signal.SIGXCPU:
        raise Failed("takes over %d seconds" % MOST_SECONDS)
    if not data:
        raise Failed("can't be rewritten within %d seconds and 2 GB of memory" % MOST_SECONDS)
    good, result = pickle.loads(data)
    if not good:
        raise Failed(result)
    return cast(T, result)


def kill(pid: int) -> int:
    """Ends a process of ours, waits for it, and returns the signal that ended it, or 0."""
    try:
        os.kill(pid, signal.SIGKILL)
    except ProcessLookupError:
        pass
    return os.WTERMSIG(os.waitpid(pid, 0)[1])


def receive(reader: int, deadline: float) -> Optional[bytes]:
    """Returns all that is written to a pipe until it is closed, or None where that takes too long."""
    parts: list[bytes] = []
    while True:
        left = deadline - time.monotonic()
        if left <= 0 or not select.select([reader], [], [], left)[0]:
            return None
        part = os.read(reader, 1 << 16)
        if not part:
            return b"".join(parts)
        parts.append(part)


def send(writer: int, data: bytes) -> None:
    """Writes all of the data to a pipe."""
    view = memoryview(data)
    while view:
        view = view[os.write(writer, view) :]


def run(work: Callable[[], Any]) -> bytes:
    """Does the work within the bounds, with a large stack, and returns its result for the other process."""
    resource.setrlimit(resource.RLIMIT_CPU, (MOST_SECONDS, MOST_SECONDS + 5))
    resource.setrlimit(resource.RLIMIT_AS, (MOST_MEMORY, MOST_MEMORY))
    resource.setrlimit(resource.RLIMIT_CORE, (0, 0))
    sys.setrecursionlimit(20_000)
    threading.stack_size(STACK)
    threading.excepthook = lambda _: None  # Without memory not even that can be said: then nothing is sent.
    found: list[bytes] = []
    thread = threading.Thread(target=lambda: found.append(attempt(work)))
    thread.start()
    thread.join()
    return found[0] if found else b""


def attempt(work: Callable[[], Any]) -> bytes:
    """Returns the result of the work, or why there is none."""
    try:
        return pickle.dumps((True, work()))
    except MemoryError:
        return pickle.dumps((False, "needs over 2 GB of memory"))
    except RecursionError:
        return pickle.dumps((False, "has parts inside each other too deeply"))
    except Exception as fault:  # No input may end in a traceback.
        if os.environ.get(DEBUG):
            traceback.print_exc()
        return pickle.dumps((False, "internal error, please report it: %s: %s" % (type(fault).__name__, fault)))
