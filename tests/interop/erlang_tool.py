"""Erlang's asn1ct."""
import json
import os
import subprocess

from faults import is_recursive
from modules import difference, part_of
from tool import NotCompiled, bounded

SYNTAXES = ("per", "uper", "der")
FLAGS = {"per": ["-bper"], "uper": ["-buper"], "der": ["-bber", "+der"]}
# How many random values of each root of the examples are made.
VALUES = 20
HERE = os.path.dirname(os.path.abspath(__file__))


def open_set(made, syntax, folder):
    with open(f"{folder}/Schema-Set.asn1", "w", encoding="utf-8", newline="\n") as file:
        file.write(made.module.text)
    how = {"cwd": folder, "stdin": subprocess.DEVNULL, "stdout": subprocess.PIPE, "stderr": subprocess.STDOUT}
    try:
        compiled = subprocess.run([*bounded(6_000_000), "erlc", *FLAGS[syntax], "+maps", "Schema-Set.asn1"], timeout=600, **how)
    except subprocess.TimeoutExpired:
        raise NotCompiled("no end in 10 minutes") from None
    if compiled.returncode:
        raise NotCompiled(compiled.stdout.decode(errors="replace"))
    subprocess.run(["erlc", f"{HERE}/interop.erl"], check=True, **how)

    def run(cases):
        answers = asked(folder, [f"decode {it.root} {it.octets[syntax].hex()}" for it in cases])
        for case, answer in zip(cases, answers, strict=True):
            yield found_of(made.module, case, syntax, answer)

    return run


def more(made, syntax, folder):
    """Yields what the program says of random values that asn1ct makes and encodes: it reads them and writes the same octets again, or
    rejects them for the rules that the types don't express. Of a recursive type asn1ct's values have no end."""
    roots = {it.root: it for it in made.cases if made.is_example and not is_recursive(made.module, it)}
    for case, answer in zip(roots.values(), asked(folder, [f"values {it} {VALUES}" for it in roots]), strict=True):
        for line in answer:
            yield case, "makes", said_of(made, case.element, syntax, line)


def said_of(made, element, syntax, line):
    try:
        octets = bytes.fromhex(line)
    except ValueError:
        return line
    document = made.run("to-xml", "--root", element, "-t", syntax, octets=octets)
    if document.returncode:
        return "" if b"NotAValue" in document.stderr else f"{line}: {document.stderr.decode()}"
    again = made.run("to-per", "--root", element, "-t", syntax, octets=document.stdout)
    return "" if again.stdout == octets else f"{line} is read and written as {again.stdout.hex()}"


def asked(folder, lines):
    """Returns the lines that are written for each line."""
    words = [*bounded(6_000_000), "erl", "-noshell", "-s", "interop", "main"]
    ran = subprocess.run(words, cwd=folder, input="".join(f"{it}\n" for it in lines).encode(), capture_output=True, timeout=600)
    answers = [it.split("\n") for it in ran.stdout.decode("latin1").split("\n\n")[:-1]]
    return answers + [[f"erl ended with {ran.returncode}: {ran.stderr.decode()[:200]}"]] * (len(lines) - len(answers))


def found_of(module, case, syntax, answer):
    if len(answer) < 2:
        return [("reads", answer[0])]
    texts = []
    try:
        value = value_of(module, module.root(case.root), json.loads(answer[0]), texts)
    except (ValueError, LookupError, TypeError) as why:
        return [("reads", f"{type(why).__name__}: {why}: {answer[0][:200]}")]
    again = "" if answer[1].lower() == case.octets[syntax].hex() else f"wrote {answer[1][:200]}"
    listed = f"a text is a list of octets: {texts[0][:40]}" if texts else ""
    return [("reads", difference(value, case.value) or listed), ("writes", again)]


def value_of(module, type_, given, listed):
    """Returns the value that the other side's JSON is, of this type. Texts that aren't binaries are added to `listed`."""
    type_ = module.real(type_)
    if type_.kind == "BOOLEAN":
        return given == "true"
    if type_.kind == "UTF8String" and isinstance(given, list):
        listed.append(given)
        return bytes(given).decode(errors="replace")
    if type_.kind == "UTF8String":
        return bytes.fromhex(given).decode(errors="replace")
    if type_.kind == "SEQUENCE":
        return module.filled(type_, {name: value_of(module, part_of(type_, name).type, it, listed) for name, it in given.items()})
    if type_.kind == "SEQUENCE OF":
        return [value_of(module, type_.of, it, listed) for it in given]
    if type_.kind == "CHOICE":
        return given[0], value_of(module, part_of(type_, given[0]).type, given[1], listed)
    return given
