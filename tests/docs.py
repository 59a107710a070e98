#!/usr/bin/env python3
"""Tries what README.md and docs/ say.

- README.md has less than 12 KB, each file that a page names is there, and so is each name of the code.
- docs/README.md has a line for each page, and no two pages have the same name.
- docs/reference/REASONS.md has each reason of the source with its meaning and its remedy, and no other: tests/reasons.py.
- Each command of a page, a line `$ ...` with `bin/ruvkhiska` or `bin/transcode` in it, answers what the page says.
- The recipes of docs/reference/CONTENT-MODELS.md: the first model is refused as NotClear, the second is taken, and takes the same
  documents, tried with all of up to four (with the option --long six) child elements.
- The remedies of docs/reference/REASONS.md for schemas: what is refused, and what is taken in its place.
- What both ends must agree on, and what a round trip keeps.
- The language of the pages and of ruvkhiska-narrow's help: tests/english.py.
- The rules of docs/guide/NARROW.md are those of ruvkhiska-narrow. The commands of a page that runs it need python3-xmlschema and
  xmllint, and aren't tried without them.

It prints a line for each statement that is wrong, and the counts at the end; its status is 1 where any is.

    tests/docs.py [--long]        needs the programs (`make run`); a minute

PROGRAM names another program in place of bin/transcode, PEOPLE one in place of bin/ruvkhiska.
"""
import glob
import itertools
import os
import re
import shutil
import subprocess
import sys
import tempfile

import english
from reasons import try_reasons

HERE = os.path.dirname(os.path.dirname(os.path.abspath(__file__)))
PROGRAM = os.path.abspath(os.environ.get("PROGRAM", os.path.join(HERE, "bin/transcode")))
PEOPLE = os.path.abspath(os.environ.get("PEOPLE", os.path.join(HERE, "bin/ruvkhiska")))
XSD = '<xs:schema xmlns:xs="http://www.w3.org/2001/XMLSchema">%s</xs:schema>'


def text_of(path):
    with open(os.path.join(HERE, path), encoding="utf-8") as file:
        return file.read()


def run(*words, octets=b""):
    return subprocess.run([PROGRAM, *words], input=octets, capture_output=True, timeout=120)


class Docs:
    def __init__(self, work):
        self.work, self.tried, self.wrong = work, 0, 0

    def holds(self, is_so, *told):
        self.tried += 1
        if not is_so:
            self.wrong += 1
            print("wrong:", *told, flush=True)

    def schema(self, body, name="schema.xsd"):
        path = os.path.join(self.work, name)
        with open(path, "w", encoding="utf-8") as file:
            file.write(XSD % body)
        return path

    def is_refused(self, body, table, reason):
        told = run("show", self.schema(body)).stderr.decode().strip()
        self.holds(told.endswith(f": {table}{': ' if ':' not in table else ' '}{reason}"), body, "is told as", told, "and not as", table, reason)

    def is_taken(self, body):
        told = run("show", self.schema(body))
        self.holds(told.returncode == 0, body, "is refused:", told.stderr.decode().strip())


def pages():
    """Returns the paths of README.md, bench/README.md, the index docs/README.md, and the pages in the folders of docs."""
    return ["README.md", "docs/README.md", "bench/README.md", *sorted(glob.glob("docs/*/*.md", root_dir=HERE))]


def try_index(docs):
    """Tries that docs/README.md has one line for each page, and that no two pages have the same name."""
    indexed = re.findall(r"(?m)^- \[[^]]+\]\(([\w/.-]+)\): ", text_of("docs/README.md"))
    found = sorted(glob.glob("*/*.md", root_dir=f"{HERE}/docs"))
    docs.holds(sorted(indexed) == found, "docs/README.md and the pages differ:", set(indexed) ^ set(found), len(indexed))
    docs.holds(len({os.path.basename(it) for it in found}) == len(found), "two pages have the same name")
    docs.holds(glob.glob("*.md", root_dir=f"{HERE}/docs") == ["README.md"], "docs/ has a page outside its folders")


def try_names(docs):
    size = len(text_of("README.md").encode())
    docs.holds(size < 12 * 1024, "README.md has", size, "bytes")
    for page in pages():
        for path in re.findall(r"(?<![\w/.-])((?:docs|tests|bench|examples|crates|narrow)/[\w./*-]*[\w*])", text_of(page)):
            pattern = re.sub(r"\bNAME\b|\*", "*", path)
            found = subprocess.run(["bash", "-c", f"compgen -G {pattern}"], cwd=HERE, capture_output=True)
            # rt makes the folders out.
            docs.holds(found.returncode == 0 or "/out" in path or "must-fail" in path, page, "names", path)
        # The kit's pages are in tables of their own.
        if page != "docs/internals/CONTRIBUTING.md":
            for name in re.findall(r"(?<![\w/-])([A-Z][A-Z-]+)\.md", text_of(page)):
                docs.holds(glob.glob(f"{HERE}/docs/*/{name}.md") or name == "README", page, "names", f"{name}.md")


def try_code(docs):
    """Tries that a word in backquotes that has the form of a name of the code, as `IsMapOf` or `read_value`, is in the code or in an
    example."""
    names = set(TOOLS)
    for top in ("crates", "examples", "include", "python"):
        for folder, below, files in os.walk(f"{HERE}/{top}"):
            below[:] = [it for it in below if it != "out"]
            for name in files:
                names.add(name.split(".")[0])
                if name.endswith((".rt", ".antt", ".asn1", ".h", ".py")):
                    names |= set(re.findall(r"[A-Za-z]\w*", text_of(f"{folder}/{name}")))
            names |= set(below)
    for page in pages():
        for name in re.findall(r"`([A-Za-z]\w*)`", re.sub(r"(?ms)^```.*?^```|^    .*?$", "", text_of(page))):
            if "_" in name or re.search("[A-Z].*[a-z]", name):
                docs.holds(name in names, page, "names", name, "which isn't in the code")


def narrow_python():
    """Returns a Python that has the module xmlschema, or None."""
    for python in (sys.executable, "/usr/bin/python3"):
        if os.path.exists(python) and subprocess.run([python, "-c", "import xmlschema"], capture_output=True).returncode == 0:
            return python
    return None


def try_narrow(docs):
    """Compares the rules of docs/guide/NARROW.md, from A to Z, with those of ruvkhiska-narrow."""
    rules = dict(re.findall(r'(?m)^    "([a-z-]+)": \("(\w+)", "', text_of("narrow/narrowing/report.py")))
    section = text_of("docs/guide/NARROW.md").split("\n## Rules\n")[1].split("\n## ")[0]
    said = re.findall(r"(?m)^- ([a-z-]+) \((\w+)\):", section)
    docs.holds(dict(said) == rules, "docs/guide/NARROW.md has other rules than ruvkhiska-narrow:", set(said) ^ set(rules.items()))
    docs.holds(said == sorted(said), "the rules of docs/guide/NARROW.md aren't in the order of names")


# The word that shows that a block of docs/guide/INTEROP.md needs a tool, and the script of tests/interop that knows whether it is installed.
TOOLS = {"erlc": "erlang", "tshark": "wireshark", "asn1c-codec": "asn1c", "asn1crypto": "asn1crypto", "asn1Decoding": "libtasn1", "openssl": "openssl"}


def missing_tool(block):
    """Returns the tool that a block of commands needs and that isn't installed, or None."""
    needed = [name for word, name in TOOLS.items() if word in block]
    return next((it for it in needed if subprocess.run([f"{HERE}/tests/interop/{it}.sh", "--check"]).returncode), None)


def try_commands(docs):
    python = narrow_python()
    for page in pages():
        if "    $ narrow/" in text_of(page) and not (python and shutil.which("xmllint")):
            print(f"not tried: the commands of {page}, which need python3-xmlschema and xmllint")
            continue
        for block in re.findall(r"(?m)(?:^    .*\n?)+", text_of(page)):
            lines = [it[4:] for it in block.rstrip("\n").split("\n")]
            if not any(it.startswith("$ ") and re.search("bin/(ruvkhiska|transcode)|narrow/ruvkhiska-narrow", it) for it in lines):
                continue
            if missing := missing_tool(block):
                print(f"not tried: commands of {page}, which need {missing}")
                continue
            said = []
            for line in [*lines, "$ "]:
                if line.startswith("$ "):
                    if said:
                        command = said[0].replace("bin/ruvkhiska", PEOPLE).replace("bin/transcode", PROGRAM)
                        command = command.replace("narrow/ruvkhiska-narrow", f"{python} narrow/ruvkhiska-narrow")
                        ran = subprocess.run(["bash", "-c", command], cwd=HERE, stdout=subprocess.PIPE, stderr=subprocess.STDOUT)
                        told = ran.stdout.decode().rstrip("\n").split("\n")
                        docs.holds(told == (said[1:] or [""]), page, said[0], "answers", told)
                    said = [line[2:]]
                else:
                    said.append(line)


# Content models in the notation of document types: names, `,`, `|`, `?`, `*`, `+`, `{least,most}` and parentheses.


def particle(tokens, bounds=""):
    """A group up to its closing parenthesis, as XML Schema has it."""
    parts, kind = [], "sequence"
    while tokens and tokens[0] != ")":
        token = tokens.pop(0)
        if token in ",|":
            kind = "choice" if token == "|" else "sequence"
            continue
        inner = None
        if token == "(":
            inner = particle(tokens)
            tokens.pop(0)
        least, most = 1, 1
        if tokens and tokens[0][0] in "?*+{":
            mark = tokens.pop(0)
            least, most = {"?": (0, 1), "*": (0, "unbounded"), "+": (1, "unbounded")}.get(mark) or mark[1:-1].split(",")
        occurs = f' minOccurs="{least}" maxOccurs="{most}"'
        if inner is None:
            parts.append(f'<xs:element name="{token}" type="xs:boolean"{occurs}/>')
        else:
            parts.append(inner.replace(">", f"{occurs}>", 1))
    return f"<xs:{kind}>{''.join(parts)}</xs:{kind}>"


def element_of(model):
    tokens = re.findall(r"[a-z]|\{\d+,\d+\}|[(),|?*+]", model)
    return f'<xs:element name="d"><xs:complexType>{particle(tokens)}</xs:complexType></xs:element>'


def try_recipes(docs, most):
    page = text_of("docs/reference/CONTENT-MODELS.md").replace("\\|", "|")
    recipes = re.findall(r"(?m)^\| `([^`]+)` \| `([^`]+)` \|", page)
    docs.holds(len(recipes) > 5, "docs/reference/CONTENT-MODELS.md has", len(recipes), "recipes")
    for refused, taken in recipes:
        docs.is_refused(element_of(refused), "link", "NotClear")
        schema = docs.schema(element_of(taken), "taken.xsd")
        takes = re.compile(re.sub("[, ]", "", re.sub(r"\{(\d+),(\d+)\}", r"{\1;\2}", refused)).replace(";", ","))
        letters = sorted({*re.findall("[a-z]", refused)})
        for count in range(most + 1):
            for names in itertools.product(letters, repeat=count):
                document = f"<d>{''.join(f'<{it}>1</{it}>' for it in names)}</d>"
                ours = run("check", "d", schema, octets=document.encode()).returncode
                due = 0 if takes.fullmatch("".join(names)) else 8
                docs.holds(ours == due, taken, "in place of", refused, "answers", ours, "to", document)
    for refused in re.findall(r"No model takes the place of `([^`]+)`", page):
        docs.is_refused(element_of(refused), "link", "NotClear")


def typed(name):
    return f'<xs:element name="d" type="xs:{name}"/>'


def restricted(base, facets):
    return f'<xs:element name="d"><xs:simpleType><xs:restriction base="xs:{base}">{facets}</xs:restriction></xs:simpleType></xs:element>'


def content(inner, more=""):
    return f'<xs:element name="d"><xs:complexType{more}>{inner}</xs:complexType></xs:element>'


def a(name, kind="boolean"):
    return f'<xs:element name="{name}" type="xs:{kind}"/>'


# What is refused, by which table and reason, and what docs/reference/REASONS.md says in its place.
REMEDIES = [
    (typed(refused), "schema", refused[0].upper() + refused[1:], [typed(it) for it in taken.split()])
    for refused, taken in {
        "decimal": "integer token",
        "float": "integer token",
        "double": "integer token",
        "duration": "unsignedInt token",
        "dateTime": "unsignedInt token",
        "time": "unsignedInt token",
        "date": "token",
        "gYearMonth": "token",
        "gYear": "integer token",
        "gMonthDay": "token",
        "gDay": "token",
        "gMonth": "token",
        "hexBinary": "string",
        "base64Binary": "string",
        "QName": "token",
        "ID": "NCName",
        "IDREF": "NCName",
        "IDREFS": "NMTOKENS",
        "ENTITY": "NCName",
        "ENTITIES": "NMTOKENS",
    }.items()
] + [
    (f"<xs:element name='d' type='b' abstract='true'/><xs:simpleType name='b'><xs:restriction base='xs:int'/></xs:simpleType>", "schema", "Abstract", []),
    (content(f"<xs:all minOccurs='0'>{a('a')}{a('b')}</xs:all>"), "schema", "OptionalAll", [content("<xs:all>" + "".join(f'<xs:element name="{it}" type="xs:int" minOccurs="0"/>' for it in "ab") + "</xs:all>")]),
    (content('<xs:attribute name="a"/>'), "schema", "AnySimpleType", [content('<xs:attribute name="a" type="xs:string"/>')]),
    ('<xs:element name="d"/>', "schema", "AnyType", ['<xs:element name="d"><xs:complexType/></xs:element>']),
    (content('<xs:attribute name="a" type="xs:int" default=""/>'), "link", "BadDefault", [content('<xs:attribute name="a" type="xs:int" default="1"/>')]),
    (content('<xs:attribute ref="a" fixed="2"/>') + '<xs:attribute name="a" type="xs:int" fixed="1"/>', "link", "FixedDiffers", [content('<xs:attribute ref="a"/>') + '<xs:attribute name="a" type="xs:int" fixed="1"/>']),
    ('<xs:element name="d" type="xs:int" fixed="1"/>', "schema", "ElementDefault", [typed("int")]),
    ('<xs:simpleType name="l"><xs:list itemType="xs:NMTOKENS"/></xs:simpleType>', "link", "BadItem", ['<xs:simpleType name="l"><xs:list itemType="xs:NMTOKEN"/></xs:simpleType>']),
    ('<xs:element name="d" type="xs:int"><xs:simpleType><xs:restriction base="xs:int"/></xs:simpleType></xs:element>', "schema", "BothForms", [typed("int")]),
    (content('<xs:attribute name="a" type="xs:int" use="required" default="1"/>'), "schema", "BothForms", [content(f'<xs:attribute name="a" type="xs:int" {it}/>') for it in ('use="required"', 'default="1"')]),
    (restricted("int", '<xs:maxInclusive value="1.5"/>'), "link: Facet", "BadNumber", [restricted("int", '<xs:maxInclusive value="1"/>')]),
    (restricted("int", '<xs:minInclusive value="9"/><xs:maxInclusive value="1"/>'), "link: Facet", "EmptySpace", []),
    (restricted("int", '<xs:maxLength value="9"/>'), "link: Facet", "Misplaced", []),
    (restricted("token", '<xs:maxLength value="1"/><xs:enumeration value="ab"/>'), "link: Facet", "NotInBase", []),
    (restricted("byte", '<xs:maxInclusive value="200"/>'), "link: Facet", "Widens", [restricted("byte", '<xs:maxInclusive value="100"/>'), restricted("short", '<xs:maxInclusive value="200"/>')]),
    (restricted("string", '<xs:pattern value="A."/>'), "schema", "Pattern", [restricted("string", '<xs:enumeration value="AB"/>')]),
    (restricted("int", '<xs:totalDigits value="3"/>'), "schema", "TotalDigits", [restricted("int", '<xs:maxInclusive value="999"/>')]),
    (restricted("int", '<xs:fractionDigits value="0"/>'), "schema", "FractionDigits", [restricted("int", "")]),
    (content("<xs:sequence><xs:any/></xs:sequence>"), "schema", "Wildcard", [element_of("a")]),
    ('<xs:group name="g"><xs:sequence/></xs:group>', "schema", "Group", []),
    ('<xs:element name="d" type="xs:int" minOccurs="0"/>', "schema", "UnknownAttribute", [typed("int")]),
    ('<xs:element type="xs:int"/>', "schema", "MissingAttribute", [typed("int")]),
    (typed("int") * 2, "link", "Duplicate", [typed("int")]),
    ('<xs:element name="d" type="none"/>', "link", "Unresolved", []),
    (content(f"<xs:sequence>{a('a')}<xs:element name='a' type='xs:int'/></xs:sequence>"), "link", "TypesDiffer", []),
    (content("<xs:simpleContent><xs:restriction base='xs:int'/></xs:simpleContent>"), "schema", "SimpleContentRestriction", [content("<xs:simpleContent><xs:extension base='xs:int'/></xs:simpleContent>")]),
]


def try_remedies(docs):
    for refused, table, reason, taken in REMEDIES:
        docs.is_refused(refused, table, reason)
        for body in taken:
            docs.is_taken(body)


def try_agreement(docs):
    order, root = f"{HERE}/examples/order.xsd", "{urn:po}order"
    with open(f"{HERE}/examples/order.xml", "rb") as file:
        document = file.read()
    octets = run("to-per", root, order, octets=document).stdout
    other = os.path.join(docs.work, "other.xsd")
    with open(other, "w", encoding="utf-8") as file:
        file.write(text_of("examples/order.xsd").replace('value="1"', 'value="0"').replace('"100"', '"99"'))
    back = run("to-xml", root, other, octets=octets)
    docs.holds(back.returncode == 0 and b"qty>2<" in back.stdout, "bounds from 0 to 99:", back)
    docs.holds(run("to-xml", root, order, octets=octets * 2).returncode == 10, "two messages in one input")
    loose = os.path.join(docs.work, "loose.xsd")
    with open(loose, "w", encoding="utf-8") as file:
        file.write(text_of("examples/order.xsd").replace("<xs:", "\n  <!-- laid out otherwise -->\n  <xs:").lstrip().replace("<!-- laid out otherwise -->\n  ", "", 1))
    docs.holds(run("show", loose).stdout == run("show", order).stdout, "another layout gives another module")
    files = [f"{HERE}/examples/collisions-{it}.xsd" for it in "123"]
    docs.holds(run("show", *files).stdout == run("show", *reversed(files)).stdout, "the order of files shows in the module")
    for name in ("order", "features", "names", "boolean", "defaults", "any-order", "river"):
        docs.holds(run("show", f"{HERE}/examples/{name}.xsd").stdout.decode() == text_of(f"examples/{name}.asn1"), name)
    docs.holds(run("show", *files).stdout.decode() == text_of("examples/collisions.asn1"), "collisions")
    files = [f"{HERE}/examples/{it}.xsd" for it in ("parcel", "address")]
    docs.holds(run("show", *files).stdout.decode() == text_of("examples/parcel.asn1"), "parcel")
    for name in sorted(os.listdir(f"{HERE}/examples")):
        if name.startswith("refused-"):
            docs.holds(run("show", f"{HERE}/examples/{name}").returncode in (4, 5), name, "is taken")
    # A round trip.
    for root, there, due in [
        ("f", '<f><!-- c -->1<?p i?></f>', "<f>true</f>"),
        ("i", '<i xmlns:p="urn:p"> 007 </i>', "<i>7</i>"),
        ("q", "<q  t = 'a'></q>", '<q t="a"/>'),
        ("z", "<z>\n  <z/>\n</z>", "<z><z/></z>"),
        ("k", '<k xmlns:xsi="http://www.w3.org/2001/XMLSchema-instance" xsi:nil="false">5</k>', "<k>5</k>"),
        ("reading", '<reading version="02" unit="celsius" sensor="a"> +21 </reading>', '<reading sensor="a">21</reading>'),
        ("reading", '<reading sensor="a" unit="kelvin">294</reading>', '<reading sensor="a" unit="kelvin">294</reading>'),
    ]:
        name = {"f": "boolean", "reading": "defaults"}.get(root, "features")
        schema = f"{HERE}/examples/{name}.xsd"
        back = run("to-xml", root, schema, octets=run("to-per", root, schema, octets=there.encode()).stdout).stdout.decode()
        docs.holds(back == f'<?xml version="1.0" encoding="UTF-8"?>\n{due}\n', there, "comes back as", back)


def main():
    for program in (PROGRAM, PEOPLE):
        if not os.access(program, os.X_OK):
            print(f"no program at {program}: make run", file=sys.stderr)
            return 2
    with tempfile.TemporaryDirectory() as work:
        docs = Docs(work)
        try_index(docs)
        try_names(docs)
        try_code(docs)
        try_reasons(docs.holds)
        docs.holds(english.main([]) == 0, "tests/english.py has findings")
        try_remedies(docs)
        try_agreement(docs)
        try_narrow(docs)
        try_commands(docs)
        try_recipes(docs, 6 if "--long" in sys.argv else 4)
    print(f"{docs.tried} tried, {docs.wrong} wrong")
    return 1 if docs.wrong else 0


if __name__ == "__main__":
    sys.exit(main())
