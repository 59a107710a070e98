#!/usr/bin/env python3
"""Takes from a module that `show` printed what compilers without XER can't read: the encoding instructions in brackets and the
part of encoding control. The types, and so their packed encodings, stay as they are.

    bin/ruvkhiska show examples/order.xsd | tests/strip_xer.py > Schema-Set.asn1
"""
import re
import sys

# A text in quotation marks, or an instruction: brackets, in which such texts stand too. A text may have any characters.
TEXT = '"(?:[^"]|"")*"'
TEXT_OR_INSTRUCTION = re.compile(rf'({TEXT})|\[[A-Z](?:{TEXT}|[^"\]])*\] ')


def strip(module):
    front, _, _ = module.rpartition("ENCODING-CONTROL XER\n")
    kept = TEXT_OR_INSTRUCTION.sub(lambda piece: piece[1] or "", front)
    return kept.replace(" XER INSTRUCTIONS ", " ", 1) + "END\n"


if __name__ == "__main__":
    sys.stdin.reconfigure(encoding="utf-8", newline="\n")
    sys.stdout.reconfigure(encoding="utf-8", newline="\n")
    sys.stdout.write(strip(sys.stdin.read()))
