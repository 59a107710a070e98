#!/usr/bin/env python3
"""Gives the program for scripts the rows of crates/transcode_rows and tests/deep_rows whose title has the words, or all of them. Compares its status,
its complaint and its output with those of the row. So a row is tried in a moment; the gate runs the table over objects in memory.

A row's faults are made of what the system has. A file whose load fails is missing. An input that fails is a socket that the other
end resets after the bytes that the row's calls read before. An output that fails is a file of limited size, and a complaint goes to
a full device. Sizes of pieces matter only for the place of a fault.

It prints each row that differs, and the counts at the end. Its status is 1 where any differs, or no row has the words, or all were
asked for and the counts aren't those of crates/transcode_rows/stdout.

    tests/rows.py [WORDS]          needs the program (`make run`, or `make quick` and PROGRAM=bin/transcode-unproved)

PROGRAM names another program.
"""
import os
import resource
import socket
import subprocess
import sys
import tempfile

from people_rows import HERE, rows_of

PROGRAM = os.path.abspath(os.environ.get("PROGRAM", os.path.join(HERE, "bin/transcode")))
SECONDS, STACK = 120, 1 << 30


def words_of(row):
    """Returns the words of the command line, with a missing file for each load that fails."""
    words = list(row.words)
    first = 1 if words[:1] in (["show"], ["show-back"]) else 2
    for number in row.fails.get("load", []):
        if first + number - 1 < len(words):
            words[first + number - 1] = f"missing-{number}"
    return words


def read_before(row):
    """Returns how many bytes the calls of the input move before the one that fails, or None where the input ends before it."""
    done, pieces = 0, row.pieces.get("read", [])
    for call in range(1, min(row.fails["read"])):
        if done == len(row.input):
            return None
        done = min(len(row.input), done + (pieces[call - 1] if call <= len(pieces) else len(row.input)))
    return done


def input_of(row):
    """Returns an open file with the row's input."""
    before = read_before(row) if row.fails.get("read") else None
    if before is None:
        file = tempfile.TemporaryFile()
        file.write(row.input)
        file.seek(0)
        return file
    ours, theirs = socket.socketpair()
    ours.sendall(row.input[:before])
    # A socket that is closed before it has read all resets the other end.
    theirs.send(b"x")
    ours.close()
    return theirs


def room_of(row):
    """Returns how many bytes the output takes, or None where it takes all. One that fails has taken what the row has."""
    if row.fails.get("write") and row.due[0] == 22:
        return len(row.written)
    return row.room if row.room < 100_000 else None


def limits_of(row):
    """Returns the call that limits a child as the row says."""
    room = room_of(row)

    def limit():
        if room is not None:
            resource.setrlimit(resource.RLIMIT_FSIZE, (room, room))
        if PROGRAM.endswith("-unproved"):
            # Its checks of memory take many times the stack.
            most = resource.getrlimit(resource.RLIMIT_STACK)[1]
            resource.setrlimit(resource.RLIMIT_STACK, (STACK if most == resource.RLIM_INFINITY else min(STACK, most), most))

    return limit


def run(row, work):
    """Returns the status of the program, its complaint and its output."""
    with input_of(row) as given, tempfile.TemporaryFile() as output, open("/dev/full", "wb") as full:
        ran = subprocess.run(
            [PROGRAM, *words_of(row)],
            stdin=given,
            stdout=output,
            stderr=full if row.fails.get("complain") else subprocess.PIPE,
            cwd=work,
            timeout=SECONDS,
            # Python ignores the signal at the limit of a file's size, and so does the program then.
            restore_signals=False,
            preexec_fn=limits_of(row),
        )
        output.seek(0)
        return ran.returncode, ran.stderr or b"", output.read()


def difference(row, work):
    """Returns what differs between the program and the row, or None."""
    for name, contents in row.files.items():
        with open(os.path.join(work, name), "wb") as file:
            file.write(contents)
    try:
        came, said, output = run(row, work)
    except subprocess.TimeoutExpired:
        return f"not ended after {SECONDS} s"
    finally:
        for name in row.files:
            os.remove(os.path.join(work, name))
    status, line = row.due
    if (came, said) != (status, f"{line}\n".encode() if line else b""):
        return f"{came} {said[:200].decode(errors='replace').strip()}, due {status} {line}"
    if output != row.written:
        return f"writes {output[:200]!r}, due {bytes(row.written[:200])!r}"
    return None


def main():
    if not os.access(PROGRAM, os.X_OK):
        print(f"no program at {PROGRAM}: make run", file=sys.stderr)
        return 2
    words, passed, failed = " ".join(sys.argv[1:]), 0, 0
    with tempfile.TemporaryDirectory() as work:
        deep = rows_of(f"{HERE}/tests/deep_rows")
        for row in rows_of(f"{HERE}/crates/transcode_rows/stdin") + deep:
            if words in row.title:
                found = difference(row, work)
                failed, passed = failed + bool(found), passed + (not found)
                if found:
                    print(f"{row.title}: {found}", flush=True)
    print(f"{passed} rows passed, {failed} failed")
    counts = f"{passed - len(deep)} rows passed, {failed} failed"
    with open(f"{HERE}/crates/transcode_rows/stdout") as file:
        due = file.read().strip()
    if not words and counts != due:
        print(f"the gate's table has: {due}")
        return 1
    return 1 if failed or not passed else 0


if __name__ == "__main__":
    sys.exit(main())
