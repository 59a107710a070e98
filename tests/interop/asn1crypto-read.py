#!/usr/bin/python3
"""Prints the value of DER as JSON, with the classes that asn1crypto_tool.py makes of a module for Debian's python3-asn1crypto.

    tests/interop/asn1crypto-read.py MODULE ROOT < OCTETS      MODULE: of `show --plain`; ROOT: the name of an assignment
"""
import json
import sys

from asn1crypto_tool import Classes, value_of
from modules import Module

with open(sys.argv[1], encoding="utf-8", newline="\n") as file:
    module = Module(file.read())
root = module.root(sys.argv[2])
read = Classes(module).of(root).load(sys.stdin.buffer.read(), strict=True)
print(json.dumps(value_of(module, root, read), ensure_ascii=False))
