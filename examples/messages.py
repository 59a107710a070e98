"""Encodes and decodes a file of messages, each a document on a line of its own, over schemas that are read once.

    messages.py SPACE LOCAL SYNTAX MESSAGES SCHEMA...      SYNTAX is 0 (aligned PER), 1 (unaligned) or 2 (DER)

It writes what examples/messages.c does. It needs the package `ruvkhiska`, which `make install` installs.
"""
import sys

import ruvkhiska


def main():
    space, local, syntax, messages, *schemas = sys.argv[1:]
    syntax = ("per", "uper", "der")[int(syntax)]
    try:
        prepared = ruvkhiska.Schemas.from_files(*schemas).prepare(f"{{{space}}}{local}")
    except ruvkhiska.Error as error:
        print(f"schemas: status {error.status}: {error.line}")
        return error.status
    with open(messages, "rb") as file:
        for line in file:
            try:
                octets = prepared.encode(line.rstrip(b"\n"), syntax)
            except ruvkhiska.Error as error:
                print(f"message: status {error.status}: {error.line}")
                continue
            print(octets.hex())
            print(prepared.decode(octets, syntax).decode())
    return 0


if __name__ == "__main__":
    sys.exit(main())
