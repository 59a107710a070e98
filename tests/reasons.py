#!/usr/bin/env python3
"""Compares docs/reference/REASONS.md with the reasons of the source, both ways.

Each variant of an enum of reasons has a row in the function `reason` next to it: its name, what it means and its remedy. This checks:

- Each variant has one row, whose name is that of the variant.
- The names of the rows and of the definitions (`specs/Reasons` of each crate) are the same, in the same order.
- docs/reference/REASONS.md has a line for each row, with the same meaning and the same remedy, and each of its lines is that of a
  row. Marks of code, which a terminal doesn't show, don't count.
- The lines of each table are in the order of the alphabet.
- Each reason is the answer to a row of crates/transcode_rows.
- The page has the word of each outcome without a reason.

It prints a line for each statement that is wrong, and the counts at the end; its status is 1 where any is. `tests/docs.py` calls it.

    tests/reasons.py              a second; needs no program
"""
import os
import re
import sys

HERE = os.path.dirname(os.path.dirname(os.path.abspath(__file__)))
# The reasons: the table as `bin/transcode` names it, the file and the enum.
TABLES = {
    "syntax": ("crates/xml_read/src/error.rt", "DocWhy"),
    "schema": ("crates/schema_syntax/src/why.rt", "SchemaWhy"),
    "link": ("crates/link_names/src/faults.rt", "LinkWhy"),
    "link: Facet": ("crates/simple_facets/src/refusals.rt", "FacetWhy"),
    "invalid": ("crates/validity_rules/src/why.rt", "InvalidWhy"),
    "per": ("crates/per_fields/src/stops.rt", "Why"),
    "der": ("crates/der_fields/src/stops.rt", "Why"),
    "module": ("crates/module_text/src/reasons.rt", "ModuleWhy"),
}
# Where the words of the outcomes without a reason are.
WORDS = ("crates/transcode_words/src/outcome.rt", "crates/people_complaints/src/composing.rt")
# Enums of reasons that are passed on under the names of the others.
PASSED_ON = {"NoneWhy"}
# The row of a variant, or of an outcome without a reason.
TEXT = r'"((?:[^"\\]|\\.)*)"'
ROW = re.compile(rf"(\w+)::(\w+)(?: \{{ \.\. \}})? => Reason \{{\s+name: {TEXT},\s+means: {TEXT},\s+remedy: {TEXT},")


def text_of(path):
    with open(os.path.join(HERE, path), encoding="utf-8") as file:
        return file.read()


def unescaped(text):
    return text.replace('\\"', '"')


def variants_of(source, enum):
    body = re.search(rf"pub enum {enum} {{\n(.*?)\n}}", source, re.S)[1]
    return [it for it in re.findall(r"(?m)^    (\w+)(?=[,({ ])", body) if it != "Facet"]


def rows_of(source, enum):
    """The rows of the enum: the variant, the name, the meaning and the remedy of each."""
    body = source[source.index(f"impl {enum} {{") :]
    body = body[: body.index("\n}\n")]
    return [(row[1], *map(unescaped, row[2:])) for row in ROW.findall(body) if row[0] == enum]


def defined_names(path):
    """The names of specs/Reasons next to a source file."""
    spec = text_of(os.path.join(os.path.dirname(os.path.dirname(path)), "specs/Reasons.antt"))
    return re.findall(r'(?m)^\w*reason\w* [\w.]+ = codes "(\w+)"$', spec)


def lines_of(page):
    """The lines of the page's tables of reasons: the name, the tables, the meaning and the remedy of each, and if the line is in
    the table of what isn't supported, which omits the words that all its meanings have, and the reasons' table.

    A dagger after a remedy says that ruvkhiska-narrow can do it."""
    for line in page.split("\n"):
        cells = [it.strip().replace("†", "; ruvkhiska-narrow can do it") for it in line.replace("`", "").split("|")]
        if len(cells) in (5, 7) and cells[1] not in ("Reason", "---"):
            is_unsupported = len(cells) == 5
            tables, means = (["schema"], cells[2]) if is_unsupported else (cells[2].split(", "), cells[3])
            yield cells[1], tables, means, cells[-2], is_unsupported


def try_source(holds):
    """Each variant has its row, under its own name. Returns the rows by table and name."""
    rows = {}
    for table, (path, enum) in TABLES.items():
        source = text_of(path)
        found = rows_of(source, enum)
        holds([it[0] for it in found] == variants_of(source, enum), path, "has not one row for each variant in their order")
        holds([it[0] for it in found] == [it[1] for it in found], path, "has a row under another name than its variant's")
        holds([it[1] for it in found] == defined_names(path), path, "has other names than specs/Reasons, or in another order")
        rows |= {(table, name): (means, remedy) for _, name, means, remedy in found}
    known = PASSED_ON | {enum for _, enum in TABLES.values()}
    for folder, below, names in os.walk(f"{HERE}/crates"):
        below[:] = [it for it in below if it != "out"]
        for name in names if folder.endswith("/src") else []:
            for enum in re.findall(r"pub enum (\w*Why)\b", text_of(f"{folder}/{name}")):
                holds(enum in known, "tests/reasons.py doesn't know the enum", enum)
    return rows


def try_page(holds, rows):
    """The page has a line for each row, in each table in the order of the alphabet, and no other line."""
    page = text_of("docs/reference/REASONS.md")
    said, unsupported = {}, set()
    for part in page.split("\n## "):
        names = []
        for name, tables, means, remedy, is_unsupported in lines_of(part):
            names.append((name.lower(), name))
            for table in tables:
                holds((table, name) not in said, "docs/reference/REASONS.md has twice", table, name)
                said[table, name] = means, remedy
                if is_unsupported:
                    unsupported.add((table, name))
        holds(names == sorted(names), "docs/reference/REASONS.md isn't in the order of the alphabet")
    for at in sorted(rows.keys() - said.keys()):
        holds(False, "docs/reference/REASONS.md lacks", *at)
    for at in sorted(said.keys() - rows.keys()):
        holds(False, "docs/reference/REASONS.md has a line that is no reason of the source:", *at)
    for at in sorted(rows.keys() & said.keys()):
        means, remedy = rows[at]
        if at in unsupported:
            means = re.sub(r"^the (?:datatype|facet) | (?:is|are) not supported", "", means)
        holds((means, remedy) == said[at], *at, "is", rows[at], "and in docs/reference/REASONS.md", said[at])
    words = [it for path in WORDS for it in re.findall(r'name: "(\w+)"', text_of(path))]
    holds(len(words) > 10, len(words), "words of outcomes")
    for name in words:
        holds(name == "Done" or f"`{name}`" in page, "docs/reference/REASONS.md lacks the word", name)


def try_answers(holds, rows):
    """Each reason is the answer to a row of crates/transcode_rows."""
    answers = text_of("crates/transcode_rows/stdin")
    for table, name in sorted(rows):
        holds(f": {table}{': ' if ':' not in table else ' '}{name}\n" in answers, "no row of crates/transcode_rows answers", table, name)


def try_reasons(holds):
    rows = try_source(holds)
    try_page(holds, rows)
    try_answers(holds, rows)


def main():
    tried = wrong = 0

    def holds(is_so, *said):
        nonlocal tried, wrong
        tried += 1
        if not is_so:
            wrong += 1
            print("wrong:", *said)

    try_reasons(holds)
    print(f"{tried} tried, {wrong} wrong")
    return 1 if wrong else 0


if __name__ == "__main__":
    sys.exit(main())
