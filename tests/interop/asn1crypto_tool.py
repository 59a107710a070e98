"""Classes of asn1crypto 1.5.1, made of a module."""
from asn1crypto import core

from modules import difference

SYNTAXES = ("der",)
BASES = {"SEQUENCE": core.Sequence, "CHOICE": core.Choice, "SEQUENCE OF": core.SequenceOf}
SIMPLE = {"BOOLEAN": core.Boolean, "INTEGER": core.Integer, "UTF8String": core.UTF8String}


class Classes:
    """The classes of a module's types."""

    def __init__(self, module):
        self.module, self.made = module, {}

    def of(self, type_):
        """Returns the class of a type. That of an assignment is made once, so that types may be recursive."""
        if type_.kind == "REF":
            if type_.name not in self.made:
                assigned = self.module.types[type_.name]
                if assigned.kind in BASES:
                    self.made[type_.name] = type(type_.name, (BASES[assigned.kind],), {})
                    self.fill(self.made[type_.name], assigned)
                else:
                    self.made[type_.name] = self.of(assigned)
            return self.made[type_.name]
        if type_.kind == "ENUMERATED":
            return type("Enumerated", (core.Enumerated,), {"_map": {number: name for name, number in type_.items}})
        return SIMPLE.get(type_.kind) or self.fill(type(type_.kind, (BASES[type_.kind],), {}), type_)

    def fill(self, made, type_):
        """Gives a class its parts, with automatic tags (X.680, clause 25.7)."""
        if type_.kind == "SEQUENCE OF":
            made._child_spec = self.of(type_.of)
            return made
        parts = []
        for number, part in enumerate(type_.parts):
            tag = "explicit" if self.module.real(part.type).kind == "CHOICE" else "implicit"
            parts.append((part.name, self.of(part.type), {tag: number} | ({"optional": True} if part.may_be_absent else {})))
        setattr(made, "_fields" if type_.kind == "SEQUENCE" else "_alternatives", parts)
        return made


def open_set(made, syntax, folder):
    classes = Classes(made.module)

    def run(cases):
        for case in cases:
            yield found_of(made.module, classes, case)

    return run


def found_of(module, classes, case):
    try:
        read = classes.of(module.root(case.root)).load(case.octets["der"], strict=True)
        value = value_of(module, module.root(case.root), read)
    except (ValueError, TypeError, RecursionError) as why:
        return [("reads", f"{type(why).__name__}: {why}")]
    try:
        octets = again(read).dump(force=True)
    except (ValueError, TypeError, RecursionError) as why:
        return [("reads", difference(value, case.value)), ("writes", f"{type(why).__name__}: {why}")]
    return [("reads", difference(value, case.value)), ("writes", "" if octets == case.octets["der"] else f"wrote {octets.hex()[:200]}")]


def value_of(module, type_, read):
    type_ = module.real(type_)
    if type_.kind == "SEQUENCE":
        there = [it for it in type_.parts if not isinstance(read[it.name], core.Void)]
        return module.filled(type_, {it.name: value_of(module, it.type, read[it.name]) for it in there})
    if type_.kind == "CHOICE":
        part = next(it for it in type_.parts if it.name == read.name)
        return part.name, value_of(module, part.type, read.chosen)
    if type_.kind == "SEQUENCE OF":
        return [value_of(module, type_.of, it) for it in read]
    return read.native


def again(read):
    """Returns the same value made from nothing, so that all of it is encoded."""
    made = type(read)
    if isinstance(read, core.Sequence):
        return made({name: again(read[name]) for name in read if not isinstance(read[name], core.Void)})
    if isinstance(read, core.Choice):
        return made(name=read.name, value=again(read.chosen))
    if isinstance(read, core.SequenceOf):
        return made([again(it) for it in read])
    return made(read.native)
