"""tshark 4.0, with a plugin that asn2wrs made."""
import os
import re
import subprocess
import xml.etree.ElementTree as tree

from adapt import adapted
from modules import difference, part_of
from tool import NotCompiled, Unfit

SYNTAXES = ("per", "uper", "der", "stamped")
HERE = os.path.dirname(os.path.abspath(__file__))
# The name of the protocol.
NAME = "message"
# The most octets of a datagram.
MOST = 65_000


def open_set(made, syntax, folder):
    with open(f"{folder}/m.asn1", "w", encoding="utf-8", newline="\n") as file:
        file.write(adapted(made.module, "wireshark", made.without))
    roots = sorted({it.root for it in made.cases})
    ports = {root: 20000 + number for number, root in enumerate(roots)}
    environment = {**os.environ, "STAMP": "8" if syntax == "stamped" else "0", "BARE": str(int(made.without == "code"))}
    rules = "per" if syntax == "stamped" else syntax
    words = [f"{HERE}/wireshark-plugin.sh", f"{folder}/m.asn1", rules, NAME, f"{folder}/home", *(f"{root}={port}" for root, port in ports.items())]
    compiled = subprocess.run(words, env=environment, capture_output=True, timeout=600)
    if compiled.returncode:
        raise NotCompiled(compiled.stderr.decode(errors="replace"))

    def run(cases):
        packets = packets_of(folder, [(ports[it.root], it.octets[syntax]) for it in cases if len(it.octets[syntax]) <= MOST])
        for case in cases:
            is_given = len(case.octets[syntax]) <= MOST
            yield found_of(made.module, case, next(packets, None)) if is_given else Unfit(f"over {MOST} octets")

    return run


def packets_of(folder, datagrams):
    """Yields what tshark shows of each datagram: a tree, or None."""
    names = []
    for number, (port, octets) in enumerate(datagrams):
        names.append(f"{folder}/{number}.pcap")
        with open(f"{folder}/octets", "wb") as file:
            file.write(octets)
        subprocess.run([f"{HERE}/pcap.sh", names[-1], str(port), f"{folder}/octets"], check=True, capture_output=True)
    if not names:
        return
    subprocess.run(["mergecap", "-a", "-F", "pcap", "-w", f"{folder}/all.pcap", *names], check=True, capture_output=True)
    subprocess.run(["chmod", "-R", "a+rX", folder], check=True)
    ran = subprocess.run([f"{HERE}/tshark.sh", f"{folder}/home", "-r", f"{folder}/all.pcap", "-T", "pdml"], capture_output=True, timeout=600)
    # A reader of XML would change white space in attributes.
    text = re.sub(r'"[^"]*"', lambda it: it[0].translate({9: "&#9;", 10: "&#10;", 13: "&#13;"}), ran.stdout.decode(errors="replace"))
    for packet in re.findall(r"(?s)<packet>.*?</packet>", text):
        yield tree.fromstring(packet)


def found_of(module, case, packet):
    if packet is None:
        return [("reads", "no packet is shown")]
    protocols = [it.get("name") for it in packet]
    shown = [it for it in packet if it.get("name") == NAME]
    if not shown or any(it.startswith("_ws.") for it in protocols):
        return [("reads", f"protocols {' '.join(protocols[4:])}")]
    nodes = [it for it in nodes_in(shown[0]) if it.get("name") != f"{NAME}.stamp"]
    try:
        value = value_of(module, module.root(case.root), nodes[0] if nodes else None)
    except (ValueError, LookupError, TypeError) as why:
        return [("reads", f"{type(why).__name__}: {why}: {tree.tostring(shown[0], encoding='unicode')}")]
    return [("reads", difference(value, case.value))]


def nodes_in(element):
    return [it for it in element if it.get("hide") != "yes"]


def label_of(node):
    """Returns the identifier that a field is shown with, which follows the bits of a BOOLEAN."""
    return re.match(r"(?:[.01]{4}\s+)*([\w-]+)", node.get("showname"))[1]


def value_of(module, type_, node):
    """Returns the value that a field has, of this type."""
    type_ = module.real(type_)
    text = (node.get("showname") or "").partition(": ")[2]
    if type_.kind == "BOOLEAN":
        return {"True": True, "False": False}[text]
    if type_.kind == "INTEGER":
        return int(text)
    if type_.kind == "UTF8String":
        return node.get("show")
    if type_.kind == "ENUMERATED":
        return re.match(r"(\S+) \(-?\d+\)$", text)[1]
    if type_.kind == "SEQUENCE":
        return module.filled(type_, {label_of(it): value_of(module, part_of(type_, label_of(it)).type, it) for it in nodes_in(node)})
    if type_.kind == "CHOICE":
        part = part_of(type_, re.match(r"(\S+) \(\d+\)$", text)[1])
        return part.name, value_of(module, part.type, nodes_in(node)[0])
    items = [nodes_in(it)[0] if not it.get("name") else it for it in nodes_in(node)]
    return [value_of(module, type_.of, it) for it in items]
