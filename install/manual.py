#!/usr/bin/env python3
"""Writes the manual page ruvkhiska(3) of the C library, from the comments and declarations of include/ruvkhiska.h.

    install/manual.py > ruvkhiska.3

In a comment of the header, a line of capitals is a heading, lines that are indented are an example, and an empty line ends a
paragraph.
"""
import os
import re

HERE = os.path.dirname(os.path.dirname(os.path.abspath(__file__)))
COMMENT = r"/\*(.*?)\*/"


def text_of(path):
    with open(os.path.join(HERE, path), encoding="utf-8") as file:
        return file.read()


def plain(text):
    """Returns a line of roff that prints as this text."""
    text = text.replace("\\", "\\e").replace("-", "\\-")
    return "\\&" + text if text[:1] in (".", "'") else text


def lines_of(comment):
    """Returns the lines of a comment without its stars."""
    return [re.sub(r"^ ?\* ?", "", it).rstrip() for it in comment.strip().split("\n")]


def roff_of(lines):
    """Yields the lines of a comment in roff."""
    paragraph, is_code = [], False
    for line in [*lines, ""]:
        if line.startswith("    ") != is_code and (line or not is_code):
            yield ".EE\n.RE" if is_code else ".RS 4\n.EX"
            is_code = not is_code
        if is_code:
            yield plain(line[4:])
            continue
        if line and not re.fullmatch("[A-Z][A-Z ]+", line):
            paragraph.append(line)
            continue
        if paragraph:
            # A paragraph that begins with one word, as "Slots.", has it in bold.
            begin = re.fullmatch(r"(\w+\.) (.*)", paragraph[0])
            yield ".PP"
            yield from ([f".B {begin[1]}", plain(begin[2])] if begin else [plain(paragraph[0])])
            yield from map(plain, paragraph[1:])
            paragraph = []
        if line:
            yield f".SH {plain(line)}"
    if is_code:
        yield ".EE\n.RE"


def calls_of(header):
    """Yields the comment and the declaration of each call. Of one that is inline, its body isn't part of that."""
    declared = r"(?:static inline (?=int32_t))?((?:int32_t|uint32_t|void) ruvkhiska_[a-z_]+\([^;{]*\))(?:;| \{)"
    for comment, declaration in re.findall(rf"{COMMENT}\n{declared}", header, re.S):
        yield comment.rpartition("/*")[2], " ".join(declaration.split()) + ";"


def values_of(header):
    """Yields each value of an enumeration, with the comments that precede it."""
    for comment, values in re.findall(rf"{COMMENT}\nenum \{{(.*?)\}};", header, re.S):
        yield ".PP"
        yield from map(plain, lines_of(comment.rpartition("/*")[2]))
        for inner, name, number in re.findall(rf"{COMMENT}|(RUVKHISKA_\w+) = (\d+)", values, re.S):
            if inner:
                yield ".PP"
                yield from map(plain, lines_of(inner))
            else:
                yield f".br\n.B {name}\n({number})"


def types_of(header):
    """Yields each struct, with the comment that precedes it."""
    for comment, struct in re.findall(rf"{COMMENT}\n(typedef struct \{{.*?\}} \w+;)", header, re.S):
        yield ".PP"
        yield from map(plain, lines_of(comment.rpartition("/*")[2]))
        yield ".RS 4\n.EX"
        yield from map(plain, struct.split("\n"))
        yield ".EE\n.RE"


def page():
    header = text_of("include/ruvkhiska.h")
    calls = list(calls_of(header))
    names = [re.search(r"ruvkhiska_\w+(?=\()", it)[0] for _, it in calls]
    yield f'.TH RUVKHISKA 3 "" "ruvkhiska {text_of("install/version").strip()}"'
    yield ".SH NAME\nruvkhiska \\- XML documents of a schema as canonical PER or DER, and back, for C"
    yield ".SH SYNOPSIS\n.nh\n.ad l\n.B #include <ruvkhiska.h>"
    for _, declaration in calls:
        begin, bracket, end = declaration.partition("(")
        # A line breaks only between parameters.
        parameters = end.replace(" ", "\\ ").replace(",\\ ", ", ")
        yield f".TP 4\n.B {begin}{bracket}\n.B {parameters}"
    yield ".PP\ncc program.c $(pkg\\-config \\-\\-cflags \\-\\-libs ruvkhiska)"
    yield ".SH DESCRIPTION"
    yield from roff_of(lines_of(re.search(COMMENT, header, re.S)[1]))
    yield ".SH CALLS"
    for name, (comment, _) in zip(names, calls):
        yield f".SS {plain(name)}"
        yield from roff_of(lines_of(comment))
    yield ".SH STATUS AND SYNTAX"
    yield from values_of(header)
    yield ".SH TYPES"
    yield from types_of(header)
    yield ".SH SEE ALSO\n.BR ruvkhiska (1)"


if __name__ == "__main__":
    print("\n".join(page()))
