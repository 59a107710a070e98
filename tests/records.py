#!/usr/bin/env python3
"""Sends records through a pipe to a program built of examples/records.c, and reads each document before it sends the next octet.

    tests/records.py PROGRAM          prints what is wrong; the status is 1 if anything is
"""
import os
import select
import subprocess
import sys
import tempfile

HERE = os.path.dirname(os.path.dirname(os.path.abspath(__file__)))
WORDS = ["urn:po", "order", f"{HERE}/examples/order.xsd"]
HEAD = b'<?xml version="1.0" encoding="UTF-8"?>\n'
ORDER = b'<n1:order xmlns:n1="urn:po" id="%d">%s</n1:order>\n'
LINE = b"<n1:line><n1:sku>A1</n1:sku><n1:qty>3</n1:qty></n1:line>"
# Orders with 1 and 3 lines, as docs/reference/PER.md explains them.
RECORDS = [(bytes.fromhex("0000070102413104"), 7, 1), (bytes.fromhex("000008030241310402413104" + "02413104"), 8, 3)]


def document_of(number, lines):
    return HEAD + ORDER % (number, LINE * lines)


def read_now(stream, count):
    """Returns the octets that are written within ten seconds, at most this number."""
    got = b""
    while len(got) < count and select.select([stream], [], [], 10)[0]:
        piece = os.read(stream.fileno(), count - len(got))
        if not piece:
            break
        got += piece
    return got


def start(program):
    return subprocess.Popen([program, *WORDS], stdin=subprocess.PIPE, stdout=subprocess.PIPE, stderr=subprocess.PIPE)


def try_pieces(program, size):
    """Sends each record in pieces. Nothing may come before its last octet, and its document then."""
    running = start(program)
    for octets, number, lines in RECORDS * 3:
        for at in range(0, len(octets), size):
            if select.select([running.stdout], [], [], 0)[0]:
                return "something is written before the record is complete"
            running.stdin.write(octets[at : at + size])
            running.stdin.flush()
        required = document_of(number, lines)
        if (got := read_now(running.stdout, len(required))) != required:
            return f"pieces of {size}: {got!r}, not {required!r}"
    rest, complaint = running.communicate(timeout=60)
    return f"at the end: {rest!r}, {complaint!r}" if (running.returncode, rest, complaint) != (0, b"", b"") else ""


def try_end(program, status, documents, complaint, octets=b"", **streams):
    """Sends octets at once, and compares how the program ends: its status, its documents and how its complaint begins."""
    ran = subprocess.run([program, *WORDS], **({"input": octets, "stdout": subprocess.PIPE} | streams), stderr=subprocess.PIPE, timeout=60)
    is_same = (ran.returncode, ran.stdout or b"") == (status, documents) and ran.stderr.startswith(complaint) and (complaint or not ran.stderr)
    return "" if is_same else f"{octets[:20].hex()}, {streams}: {str(ran)[:300]}, not {status}, {documents[:200]}, {complaint}"


def main(program):
    first, second = (octets for octets, _, _ in RECORDS)
    one, two = (document_of(number, lines) for _, number, lines in RECORDS)
    # A record that is longer than the buffer is at first, between two that are short.
    lines = 5000
    long = bytes.fromhex("000009") + bytes([0x80 | lines >> 8, lines & 255]) + bytes.fromhex("02413104") * lines
    wrong = [try_pieces(program, size) for size in (1, 3, 100)]
    wrong += [
        try_end(program, 0, b"", b""),
        try_end(program, 0, one + two, b"", first + second),
        try_end(program, 0, one * 2000, b"", first * 2000),
        try_end(program, 0, one + document_of(9, lines) + two, b"", first + long + second),
        try_end(program, 9, one, b"status 9: input, bit ", first + second[:-1]),
        try_end(program, 9, one, b"status 9: input, bit 1: per: ", first + b"\xff" + second),
    ]
    # A folder can't be read, and a full device can't be written.
    with open("/dev/full", "wb") as full, tempfile.TemporaryFile() as record:
        record.write(first)
        record.seek(0)
        wrong.append(try_end(program, 22, b"", b"status 22: output: write failed\n", input=None, stdin=record, stdout=full))
    folder = os.open("/", os.O_RDONLY)
    wrong.append(try_end(program, 21, b"", b"status 21: input: read failed\n", input=None, stdin=folder))
    os.close(folder)
    for it in filter(None, wrong):
        print(it)
    return 1 if any(wrong) else 0


if __name__ == "__main__":
    sys.exit(main(sys.argv[1]))
