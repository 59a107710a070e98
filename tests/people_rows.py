#!/usr/bin/env python3
"""Gives bin/ruvkhiska what each row of crates/transcode_rows that is refused at a place gives the fixed program, and compares the
place that it tells: the line and the column are counted here, from the byte that the row has. Each reason of the tables is among
the rows, so each complaint is shown with its line and column. Then each text at fault is given
once more, with CR LF for each line feed, and once with a comment of characters of several bytes and a tab before the place, on its
line.

It prints each complaint that is wrong, and the counts at the end; its status is 1 where any is. `tests/people.sh` calls it.

    tests/people_rows.py          needs the program (`make run`); a minute

PEOPLE names another program in place of bin/ruvkhiska.
"""
import os
import re
import subprocess
import sys
import tempfile

HERE = os.path.dirname(os.path.dirname(os.path.abspath(__file__)))
PEOPLE = os.path.abspath(os.environ.get("PEOPLE", os.path.join(HERE, "bin/ruvkhiska")))
HEAD, END = b'<xs:schema xmlns:xs="http://www.w3.org/2001/XMLSchema">', b"</xs:schema>"
# A comment with characters of two, three and four bytes and a tab: 11 characters in 17 bytes.
BEFORE = "<!--é€😀\t-->".encode()
# The transfer syntaxes that the fixed program has in its words, and this one by an option.
SYNTAXES = {
    "to-per-u": ["to-per", "-t", "uper"],
    "to-xml-u": ["to-xml", "-t", "uper"],
    "to-der": ["to-per", "-t", "der"],
    "from-der": ["to-xml", "-t", "der"],
}


def as_people_say(words):
    return SYNTAXES.get(words[0], words[:1]) + words[1:]


class Row:
    def __init__(self, title):
        self.title, self.words, self.files, self.input, self.due, self.written = title, [], {}, bytearray(), (0, ""), bytearray()
        # The calls of each object that fail, from 1, the most bytes that the calls move, and the room of the output.
        self.fails, self.pieces, self.room = {}, {}, 100_000

    @property
    def is_plain(self):
        """Whether no call fails and the output has room for all."""
        return not self.fails and self.room >= 100_000


def rows_of(path):
    """Returns the rows of the table. Raises ValueError at a line that is no line of a table."""
    texts, rows, row, into, mark = {}, [], None, None, 0

    def put(more):
        if into[0] == "file":
            texts[into[1]].extend(more)
        elif into[0] == "schema":
            row.files[into[1]].extend(more)
        elif into[0] == "input":
            row.input.extend(more)
        elif into[0] == "due":
            row.written.extend(more)

    def marked(text):
        nonlocal mark
        before = text.encode()
        at = before.find(b"^")
        if at < 0:
            return before
        have = {"file": lambda: texts[into[1]], "schema": lambda: row.files[into[1]], "input": lambda: row.input}.get(into[0], lambda: b"")()
        mark = len(have) + at
        return before.replace(b"^", b"", 1)

    with open(path, encoding="utf-8", newline="\n") as file:
        lines = file.read().split("\n")
    for line in lines:
        if not line or line.startswith("#"):
            continue
        first, _, rest = line.partition(" ")
        if first == "file":
            texts[rest], into = bytearray(), ("file", rest)
        elif first == "row":
            row, into = Row(rest), None
            rows.append(row)
        elif first in ("words", "word"):
            for word in rest.split() if first == "words" else [rest]:
                row.words.append(word)
                if word in texts:
                    row.files[word] = texts[word]
        elif first == "schema":
            if not row.words:
                row.words.append("show")
            name = f"schema-{len(row.files)}.xsd"
            row.words.append(name)
            row.files[name], into = bytearray(HEAD), ("schema", name)
            put(marked(rest) + END)
        elif first == "input":
            row.input, into = bytearray(), ("input",)
            if rest:
                put(marked(rest))
        elif first in ("pieces", "fails"):
            name, *numbers = rest.split()
            getattr(row, first)[name] = [int(it) for it in numbers]
        elif first == "room":
            row.room = int(rest)
        elif first == "due":
            status, _, told = rest.partition(" ")
            row.due, into = (int(status), told.replace("^", str(mark))), ("due",)
        elif first == ">":
            put(marked(rest))
        elif first == "|":
            put(marked(rest) + b"\n")
        elif first == "=":
            put(bytes.fromhex(rest))
        elif first == "copy":
            put(texts[rest])
        elif first == "copies":
            times, name = rest.split(" ", 1)
            put(texts[name] * int(times))
        elif first in ("repeat", "nest"):
            start, end, line = rest.split(" ", 2)
            start, end = int(start), int(end)
            text = line[1:].removeprefix(" ") + ("\n" if line[0] == "|" else "")
            numbers = range(start, end + 1)
            if first == "nest" and end < start:
                numbers = range(start, end - 1, -1)
            for number in numbers:
                put((text.replace("@", str(number)) if first == "repeat" else "    " * number + text).encode())
        else:
            raise ValueError(f"{path}: no line of a table: {line[:80]}")
    return rows


def place_of(text, at):
    """The line and the column of a byte, both from 1, the column in characters, or in bytes where these aren't UTF-8."""
    before = text[:at].split(b"\n")
    try:
        return len(before), len(before[-1].decode()) + 1
    except UnicodeDecodeError:
        return len(before), len(before[-1]) + 1


class Complaints:
    def __init__(self, work):
        self.work, self.tried, self.wrong, self.reasons = work, 0, 0, set()

    def run(self, row, files, octets):
        for name, contents in files.items():
            with open(os.path.join(self.work, name), "wb") as file:
                file.write(contents)
        ran = subprocess.run([PEOPLE, *as_people_say(row.words)], input=octets, cwd=self.work, capture_output=True, timeout=120)
        return ran.returncode, ran.stderr

    def holds(self, row, status, front, ran):
        self.tried += 1
        if ran[0] != status or not ran[1].decode(errors="replace").startswith(front):
            self.wrong += 1
            print(f"wrong: {row.title}: {ran[0]} {ran[1][:200]!r} for {status} {front!r}", flush=True)

    def row(self, row):
        status, told = row.due
        placed = re.fullmatch(r"(?:file (\d+)|input), byte (\d+): (syntax|schema|link|invalid): (?:Facet )?(\w+)", told)
        bits = re.fullmatch(r"input, bit (\d+): per: (\w+)", told)
        octets = re.fullmatch(r"input, byte (\d+): der: (\w+)", told)
        trailing = re.fullmatch(r"input, byte (\d+): trailing", told)
        record = re.fullmatch(r"record (\d+), bit (\d+): per: (\w+)", told)
        module = re.fullmatch(r"file 1, byte (\d+): module: (\w+)", told)
        if bits:
            self.reasons.add(("per", bits[2]))
            self.holds(row, status, f"input: bit {bits[1]}: {bits[2]}: ", self.run(row, row.files, row.input))
        elif octets:
            self.reasons.add(("der", octets[2]))
            self.holds(row, status, f"input: octet {octets[1]}: {octets[2]}: ", self.run(row, row.files, row.input))
        elif trailing:
            self.holds(row, status, f"input: octet {trailing[1]}: Trailing: ", self.run(row, row.files, row.input))
        elif record:
            front = f"input: record {record[1]}, bit {record[2]}: {record[3]}: "
            self.holds(row, status, front, self.run(row, row.files, row.input))
        elif module:
            self.reasons.add(("module", module[2]))
            line, column = place_of(row.files[row.words[1]], int(module[1]))
            front = f"{row.words[1]}:{line}:{column}: {module[2]}: "
            self.holds(row, status, front, self.run(row, row.files, row.input))
        elif placed:
            self.placed(row, status, placed)

    def placed(self, row, status, placed):
        at, reason = int(placed[2]), placed[4]
        self.reasons.add((placed[3] + (": Facet" if "Facet" in placed[0] else ""), reason))
        words = row.words[1:] if row.words[0] == "show" else row.words[2:]
        name = words[int(placed[1]) - 1] if placed[1] else "input"
        text = row.files[name] if placed[1] else row.input
        files, given = dict(row.files), row.input

        def told(other, place):
            nonlocal given
            if placed[1]:
                files[name] = other
            else:
                given = other
            line, column = place_of(other, place)
            self.holds(row, status, f"{name}:{line}:{column}: {reason}: ", self.run(row, files, given))

        told(text, at)
        # With other ends of lines the place moves by a byte for each before it, and the column stays.
        told(text.replace(b"\n", b"\r\n"), at + text[:at].count(b"\n"))
        # A comment before the element or text at fault moves it by its bytes, and the column by its characters.
        if placed[3] != "syntax" and text[at : at + 1] == b"<":
            told(text[:at] + BEFORE + text[at:], at + len(BEFORE))


def main():
    if not os.access(PEOPLE, os.X_OK):
        print(f"no program at {PEOPLE}: make run", file=sys.stderr)
        return 2
    with tempfile.TemporaryDirectory() as work:
        complaints = Complaints(work)
        for row in rows_of(f"{HERE}/crates/transcode_rows/stdin"):
            if row.is_plain and row.words and all("/" not in it for it in row.files):
                complaints.row(row)
    print(f"{complaints.tried} complaints tried, {len(complaints.reasons)} reasons, {complaints.wrong} wrong")
    return 1 if complaints.wrong else 0


if __name__ == "__main__":
    sys.exit(main())
