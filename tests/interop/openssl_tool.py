"""openssl asn1parse, which knows no modules: it lists the nodes of DER, and encodes what `-genconf` says."""
import re
import subprocess

from modules import difference
from tool import Unfit

SYNTAXES = ("der",)
LINE = re.compile(r"\s*(\d+):d=\s*(\d+)\s+hl=\s*(\d+)\s+l=\s*(\d+) (cons|prim): (?:cont \[ (\d+) \]|(\w[\w ]*?))\s*(?::.*)?")
UNIVERSAL = {"BOOLEAN": "BOOLEAN", "INTEGER": "INTEGER", "ENUMERATED": "ENUMERATED", "UTF8String": "UTF8STRING", "SEQUENCE": "SEQUENCE", "SEQUENCE OF": "SEQUENCE"}
# openssl takes long for more.
MOST = 100_000


def open_set(made, syntax, folder):
    def run(cases):
        for case in cases:
            yield found_of(made.module, case, folder) if len(case.octets["der"]) <= MOST else Unfit(f"over {MOST} octets")

    return run


def found_of(module, case, folder):
    octets = case.octets["der"]
    ran = subprocess.run(["openssl", "asn1parse", "-inform", "DER"], input=octets, capture_output=True, timeout=300)
    if ran.returncode:
        return [("reads", ran.stderr.decode(errors="replace"))]
    nodes = nodes_of(ran.stdout.decode(errors="replace"))
    try:
        value = value_of(module, module.root(case.root), nodes, octets)
    except (ValueError, LookupError) as why:
        return [("reads", f"{type(why).__name__}: {why}")]
    left = "" if not nodes else f"more nodes, from {nodes[0]}"
    return [("reads", difference(value, case.value) or left), ("writes", written(module, case, folder))]


def nodes_of(text):
    """Returns the nodes of the lines: depth, place and length of the contents, and the tag, a number or a name."""
    found = [it for it in map(LINE.fullmatch, text.split("\n")) if it]
    return [(int(it[2]), int(it[1]) + int(it[3]), int(it[4]), it[5], int(it[6]) if it[6] else it[7]) for it in found]


def value_of(module, type_, nodes, octets, tag=None):
    """Takes the nodes of a value of this type, which has this tag, or that of its type."""
    type_ = module.real(type_)
    if type_.kind == "CHOICE" and tag is not None:
        expect(nodes.pop(0), tag, "cons")
        tag = None
    if type_.kind == "CHOICE":
        part = type_.parts[nodes[0][4]]
        return part.name, value_of(module, part.type, nodes, octets, nodes[0][4])
    node = nodes.pop(0)
    expect(node, UNIVERSAL[type_.kind] if tag is None else tag, "cons" if type_.kind.startswith("SEQUENCE") else "prim")
    depth, start, length, _, _ = node
    contents = octets[start : start + length]
    if type_.kind == "SEQUENCE":
        components = {}
        while nodes and nodes[0][0] > depth:
            part = type_.parts[nodes[0][4]]
            components[part.name] = value_of(module, part.type, nodes, octets, nodes[0][4])
        return module.filled(type_, components)
    if type_.kind == "SEQUENCE OF":
        items = []
        while nodes and nodes[0][0] > depth:
            items.append(value_of(module, type_.of, nodes, octets))
        return items
    return simple_of(type_, contents)


def expect(node, tag, form):
    if node[3:] != (form, tag):
        raise ValueError(f"{form} {tag} expected, not {node}")


def simple_of(type_, contents):
    if type_.kind == "BOOLEAN":
        return contents != b"\0"
    if type_.kind == "UTF8String":
        return contents.decode()
    number = int.from_bytes(contents, signed=True)
    return number if type_.kind == "INTEGER" else dict((b, a) for a, b in type_.items)[number]


class Sections:
    """The sections of a configuration, one for each constructed node."""

    def __init__(self, module):
        self.module, self.sections = module, []

    def words(self, type_, value, tag=None):
        """Returns how openssl's notation writes a value."""
        type_ = self.module.real(type_)
        if type_.kind == "CHOICE":
            number = next(n for n, it in enumerate(type_.parts) if it.name == value[0])
            explicit = "" if tag is None else f"EXPLICIT:{tag},"
            return explicit + self.words(type_.parts[number].type, value[1], number)
        return ("" if tag is None else f"IMPLICIT:{tag},") + self.untagged(type_, value, tag)

    def untagged(self, type_, value, tag):
        if type_.kind == "BOOLEAN":
            return f"BOOLEAN:{'TRUE' if value else 'FALSE'}"
        if type_.kind == "INTEGER":
            return f"INTEGER:{value}"
        if type_.kind == "ENUMERATED":
            return f"ENUMERATED:{dict(type_.items)[value]}"
        if type_.kind == "UTF8String":
            # In hexadecimal, since a configuration has signs of its own.
            own = "IMPLICIT:12U," if tag is None else ""
            return f"{own}FORMAT:HEX,OCTETSTRING:{value.encode().hex()}" if value else "UTF8:"
        lines = []
        if type_.kind == "SEQUENCE OF":
            lines = [self.words(type_.of, it) for it in value]
        else:
            for number, part in enumerate(type_.parts):
                if part.name in value and not (part.default and self.module.default(part) == value[part.name]):
                    lines.append(self.words(part.type, value[part.name], number))
        self.sections.append(lines)
        return f"SEQUENCE:s{len(self.sections)}"

    def text(self, root, value):
        head = f"asn1 = {self.words(root, value)}\n"
        bodies = [f"[s{n}]\n" + "".join(f"n{m} = {it}\n" for m, it in enumerate(lines)) for n, lines in enumerate(self.sections, 1)]
        return head + "".join(bodies)


def written(module, case, folder):
    with open(f"{folder}/value.cnf", "w", encoding="utf-8") as file:
        file.write(Sections(module).text(module.root(case.root), case.value))
    words = ["openssl", "asn1parse", "-genconf", f"{folder}/value.cnf", "-noout", "-out", f"{folder}/octets"]
    ran = subprocess.run(words, capture_output=True, timeout=300)
    if ran.returncode:
        return ran.stderr.decode(errors="replace")
    with open(f"{folder}/octets", "rb") as file:
        octets = file.read()
    return "" if octets == case.octets["der"] else f"wrote {octets.hex()[:200]}"
