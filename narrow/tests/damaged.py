#!/usr/bin/env python3
"""Schema files with random damage: each ends with a status and lines of the report, never in a traceback.

    narrow/tests/damaged.py [COUNT [FIRST]]

COUNT (1,000) files with the random numbers from FIRST (1) on: a set of narrow/tests/test_mappings.py or an example, of which one
file has bytes changed, cut out, doubled or exchanged, or attributes and elements moved. The status is 1 where one ends otherwise.
"""
from __future__ import annotations

import contextlib
import io
import os
import random
import re
import sys
import tempfile
import time

import test_mappings
from support import TOP
from narrowing import cli

WORDS = ["", "0", "-1", "99999999999999999999", "xs:int", "e", "a:b", "&amp;", "##any", "unbounded", "true", "qualified", "\u00e9", "[", "(a", "s.xsd"]


def sets() -> list[dict[str, str]]:
    """Returns the sets that are damaged."""
    found = [case.files for case in test_mappings.CASES if sum(map(len, case.files.values())) < 20_000]
    for names in (["purchase-order.xsd"], ["track.xsd"], ["ubl-invoice.xsd", "ubl-basic.xsd", "ubl-types.xsd"]):
        files = {}
        for name in names:
            with open(os.path.join(TOP, "examples", name), encoding="utf-8") as file:
                files[name] = file.read()
        found += [files] * 3
    return found


def change_value(text: str, rng: random.Random) -> str:
    """Returns the text with another value of an attribute."""
    values = list(re.finditer(r'="([^"]*)"', text))
    if not values:
        return text
    one = rng.choice(values)
    other = rng.choice([rng.choice(values).group(1), rng.choice(WORDS)])
    return text[: one.start(1)] + other + text[one.end(1) :]


def change_tag(text: str, rng: random.Random) -> str:
    """Returns the text with an element dropped, doubled, renamed, or in another place."""
    tags = list(re.finditer(r"<xs:\w+[^<>]*/>|<xs:(\w+)[^<>]*>(?:(?!<xs:\1\b).)*?</xs:\1>", text, re.S))
    if not tags:
        return text
    one, other = rng.choice(tags), rng.choice(tags)
    what = rng.randrange(4)
    if what == 0:
        return text[: one.start()] + text[one.end() :]
    if what == 1:
        return text[: other.start()] + one.group() + text[other.start() :]
    if what == 2:
        return text[: one.start()] + other.group() + text[one.end() :]
    names = re.findall(r"<xs:(\w+)", text)
    return text[: one.start()] + one.group().replace(re.findall(r"xs:\w+", one.group())[0], "xs:" + rng.choice(names)) + text[one.end() :]


def change_bytes(text: str, rng: random.Random) -> bytes:
    """Returns the bytes of the text with some changed, cut out or doubled."""
    data = bytearray(text.encode() or b"x")
    at, length = rng.randrange(len(data)), rng.choice([1, 1, 2, 10, 100])
    what = rng.randrange(4)
    if what == 0:
        data[at] = rng.randrange(256)
    elif what == 1:
        del data[at : at + length]
    elif what == 2:
        data[at:at] = data[at : at + length]
    else:
        del data[at:]
    return bytes(data)


def damaged(text: str, rng: random.Random) -> bytes:
    """Returns a damaged file."""
    for _ in range(rng.choice([1, 1, 2, 4])):
        text = rng.choice([change_value, change_tag])(text, rng)
    return change_bytes(text, rng) if rng.random() < 0.3 else text.encode()


def main() -> int:
    """Tries damaged files."""
    count, first = (int(w) for w in (sys.argv[1:] + ["1000", "1"][len(sys.argv) - 1 :])[:2])
    all_sets, statuses, wrong = sets(), {n: 0 for n in range(5)}, 0
    for number in range(first, first + count):
        rng = random.Random(number)
        files = rng.choice(all_sets)
        victim = rng.choice(list(files))
        with tempfile.TemporaryDirectory() as work:
            for name, text in files.items():
                with open(os.path.join(work, name), "wb") as file:
                    file.write(damaged(text, rng) if name == victim else text.encode())
            out, start = io.StringIO(), time.monotonic()
            with contextlib.redirect_stdout(out):
                status = cli.main(["-o", os.path.join(work, "out"), os.path.join(work, next(iter(files)))])
            written = os.path.exists(os.path.join(work, "out"))
        statuses[status] = statuses.get(status, 0) + 1
        said = out.getvalue()
        good = status in range(5) and said and "Traceback" not in said and "internal error" not in said
        over_limit = any(": failed: " in line and not line.endswith("]") for line in said.split("\n"))
        if not good or written != (status < 4 and not over_limit) or time.monotonic() - start > 120:
            wrong += 1
            print("wrong: %d: status %d after %.0f s: %s" % (number, status, time.monotonic() - start, said), flush=True)
    print("%d files, statuses %s; %d wrong" % (count, statuses, wrong))
    return 1 if wrong else 0


if __name__ == "__main__":
    sys.exit(main())
