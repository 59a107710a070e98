"""asn1c 0.9.28."""
import os
import re
import subprocess
import xml.etree.ElementTree as tree

from adapt import adapted
from modules import difference, part_of
from tool import NotCompiled

SYNTAXES = ("uper", "der")
HERE = os.path.dirname(os.path.abspath(__file__))
READS = {"uper": "-iper", "der": "-iber"}
WRITES = {"uper": "-oper", "der": "-oder"}


def open_set(made, syntax, folder):
    with open(f"{folder}/m.asn1", "w", encoding="utf-8", newline="\n") as file:
        file.write(adapted(made.module, f"asn1c-{syntax}", made.without))
    environment = {**os.environ, "SKELETON": f"{os.path.dirname(folder)}/skeleton"}
    words = [f"{HERE}/asn1c-codec.sh", f"{folder}/m.asn1", f"{folder}/codec"]
    compiled = subprocess.run(words, env=environment, capture_output=True, timeout=600)
    if compiled.returncode:
        raise NotCompiled(compiled.stderr.decode(errors="replace"))

    def run(cases):
        for case in cases:
            yield found_of(made.module, case, syntax, folder)

    return run


def convert(folder, root, octets, reads, writes):
    """Returns what the program writes of octets, and what it says."""
    with open(f"{folder}/input", "wb") as file:
        file.write(octets)
    ran = subprocess.run([f"{folder}/codec", "-1", "-p", root, reads, writes, f"{folder}/input"], capture_output=True, timeout=300)
    return ran.stdout, "" if ran.returncode == 0 else f"status {ran.returncode}: {ran.stderr.decode(errors='replace').replace(folder, '')}"


def found_of(module, case, syntax, folder):
    octets = case.given or case.octets[syntax]
    shown, wrong = convert(folder, case.root, octets, READS[syntax], "-oxer")
    if wrong:
        return [("reads", wrong)]
    written, failed = convert(folder, case.root, octets, READS[syntax], WRITES[syntax])
    again = failed or ("" if written == case.octets[syntax] else f"wrote {written.hex()[:200]}")
    text = shown.decode(errors="replace")
    try:
        # A carriage return isn't escaped, and a reader of XML would change it.
        value = value_of(module, module.root(case.root), tree.fromstring(text.replace("\r", "&#13;")))
    except (tree.ParseError, ValueError, LookupError, TypeError) as why:
        return [("reads", f"{type(why).__name__}: {why}: {text[:200]}"), ("writes", again)]
    return [("reads", difference(value, case.value)), ("writes", again)]


def value_of(module, type_, element):
    """Returns the value that the element of XER has, of this type."""
    type_ = module.real(type_)
    if type_.kind == "BOOLEAN":
        return element[0].tag == "true"
    if type_.kind == "INTEGER":
        return number_of(element.text)
    if type_.kind == "UTF8String":
        return element.text or ""
    if type_.kind == "ENUMERATED":
        return element[0].tag
    if type_.kind == "SEQUENCE":
        return module.filled(type_, {it.tag: value_of(module, part_of(type_, it.tag).type, it) for it in element})
    if type_.kind == "CHOICE":
        return element[0].tag, value_of(module, part_of(type_, element[0].tag).type, element[0])
    return [item_of(module, type_.of, it) for it in element]


def item_of(module, type_, element):
    """In a SEQUENCE OF a BOOLEAN or ENUMERATED is an empty element, and a CHOICE the element of its alternative."""
    real = module.real(type_)
    if real.kind in ("BOOLEAN", "ENUMERATED") and not len(element):
        return element.tag == "true" if real.kind == "BOOLEAN" else element.tag
    if real.kind == "CHOICE":
        return element.tag, value_of(module, part_of(real, element.tag).type, element)
    return value_of(module, type_, element)


def number_of(text):
    """A number of more than 64 bits is written as its octets."""
    if re.fullmatch(r"[0-9A-F]{2}(:[0-9A-F]{2})+", text):
        return int.from_bytes(bytes.fromhex(text.replace(":", "")), signed=True)
    return int(text)
