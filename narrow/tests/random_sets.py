#!/usr/bin/env python3
"""Random schemas with all that ruvkhiska-narrow rewrites, and random documents: the promise of docs/guide/NARROW.md.

    narrow/tests/random_sets.py [COUNT [FIRST]] [--documents N] [--sample N]

Tries COUNT (2,000) sets that both judges accept, of the random numbers from FIRST (1) on. Some are rewritten with --root or
--wildcards drop. Each set has N documents (20), equal ones tried once, of which a sample (all) goes through ruvkhiska to octets, and
back by transcode. python3-xmlschema and xmllint judge each document by the original; where they differ, it is skipped. For each set:

- `ruvkhiska show` accepts the rewritten schemas, and python3-xmlschema does too;
- a document that is valid by the original is valid by the rewritten schemas, unless a line `refuses` or `failed` speaks of it;
- a document that is valid by these alone is explained by a line `wider`;
- what comes back from octets is valid by the original, by both judges, with the same values.

After each 100 sets a line says how many there were and which number is next: a run that was stopped continues with this as FIRST.
PROGRAM names another program than bin/ruvkhiska, and TRANSCODE one than transcode next to it. RUVKHISKA_LIBRARY may name the C library
as a shared object (docs/guide/LIBRARY.md): it converts the documents then, which is quicker. The status is 1 where anything is wrong.
"""
from __future__ import annotations

import argparse
import random
import re
import sys
import tempfile
import warnings
from collections import Counter
from dataclasses import dataclass
from typing import Any, Optional

from random_documents import Documents
from random_schemas import Maker
from support import Set, judge, root_of, run, same, xmllint_each
from xmlschema import XMLSchema10, XMLSchemaException

JUDGE_FAULTS = (XMLSchemaException, ArithmeticError, LookupError, TypeError, ValueError)


@dataclass
class Document:
    """A random document: its text, the rules that may speak of it, and whether it is valid by the original, where the judges agree."""

    text: bytes
    features: set[str]
    is_valid: Optional[bool] = None


class Case:
    """One random set, and its original as python3-xmlschema has it, where it is valid by both judges."""

    def __init__(self, number: int, folder: str) -> None:
        self.number, self.rng = number, random.Random(number)
        maker = Maker(self.rng)
        files = maker.files()
        self.features = maker.features
        self.options: dict[str, Any] = {}
        if self.rng.random() < 0.2:
            self.options["wildcards"] = "drop"
            self.features.add("option wildcards")
        self.root = ""
        name = self.rng.choice(maker.elements)
        if self.rng.random() < 0.2 and not re.search('name="%s"[^>]*abstract="true"' % name, files["s.xsd"]):
            self.root = "{%s}%s" % (maker.target, name) if maker.target else name
            self.options["roots"] = [self.root]
            self.features.add("option root")
        self.rewritten = Set(folder, files, **self.options)
        self.original = self.judged()

    def judged(self) -> Optional[XMLSchema10]:
        """Returns the original as python3-xmlschema has it, or None where a judge refuses it."""
        schema = self.rewritten.original
        if run(["xmllint", "--noout", "--nonet", "--schema", schema, "-"], b"<none/>").returncode not in (3, 4):
            return None
        try:
            return judge(schema)
        except JUDGE_FAULTS:
            return None

    def narrowed(self) -> XMLSchema10:
        """Returns the rewritten schemas as python3-xmlschema has them."""
        files = self.rewritten.files
        first = next((f for f in files if f.endswith("/s.xsd")), files[0])
        schema = XMLSchema10(first)
        for f in files:
            if not any(s.url and s.url.endswith(f) for s in schema.maps.iter_schemas()):
                schema.add_schema(f, build=True)
        return schema


class Trial:
    """Tries sets, and counts."""

    def __init__(self, documents: int, sample: int) -> None:
        self.documents, self.sample = documents, sample
        self.counts: Counter[str] = Counter()
        self.features: Counter[str] = Counter()
        self.wrong = 0

    def fail(self, number: int, *words: Any) -> None:
        """Reports what is wrong."""
        self.wrong += 1
        print("wrong: set %d:" % number, *words, flush=True)

    def try_set(self, number: int) -> bool:
        """Tries one set. Says whether both judges accept its schema."""
        with tempfile.TemporaryDirectory() as folder, warnings.catch_warnings():
            warnings.simplefilter("ignore")
            case = Case(number, folder)
            if case.original is None:
                self.counts["sets that a judge refuses"] += 1
                return False
            self.counts["sets"] += 1
            self.features.update(case.features)
            self.try_valid(case)
            return True

    def try_valid(self, case: Case) -> None:
        """Tries a set that is valid."""
        outcome = case.rewritten.outcome
        self.counts["sets with status %d" % outcome.status] += 1
        if not case.rewritten.files:
            if not case.root or outcome.status != 3:  # By a root alone nothing may be valid.
                self.fail(case.number, "isn't written:", outcome.lines)
            return
        complaint = case.rewritten.accepted()
        if complaint:
            return self.fail(case.number, "isn't accepted:", complaint)
        documents = self.made(case)
        narrowed = case.narrowed()
        excused = [self.compare(case, narrowed, it) for it in documents]
        through = [(it, e) for it, e in zip(documents[: self.sample], excused) if it.is_valid and is_valid(narrowed, it.text)]
        self.round_trips(case, through)

    def made(self, case: Case) -> list[Document]:
        """Returns random documents of a set on which the judges agree."""
        maker = Documents(case.rng, case.original, case.root)
        texts = {maker.document(): set(maker.features) for _ in range(self.documents)}
        documents = [Document(text, features) for text, features in texts.items() if text is not None]
        by_xmllint = xmllint_each(case.rewritten.original, [it.text for it in documents])
        for it, other in zip(documents, by_xmllint):
            valid = is_valid(case.original, it.text)
            it.is_valid = valid if valid == other else None
        self.counts["documents"] += len(documents)
        self.counts["documents on which the judges differ"] += sum(it.is_valid is None for it in documents)
        self.counts["valid documents"] += sum(it.is_valid is True for it in documents)
        return [it for it in documents if it.is_valid is not None]

    def compare(self, case: Case, narrowed: XMLSchema10, document: Document) -> bool:
        """Compares whether a document is valid before and afterwards. Says whether a line excuses that it is refused."""
        outcome = case.rewritten.outcome
        ours = is_valid(narrowed, document.text)
        speaking = set(case.rewritten.rules()) & (document.features | {"no-content", "abstract-type"})
        excused = "failed" in outcome.kinds or bool(speaking)
        if document.is_valid and not ours and not excused:
            self.fail(case.number, "refused without a line:", document.text, outcome.lines, error_of(narrowed, document.text))
        if ours and not document.is_valid and not {"wider", "unsafe"} & set(outcome.kinds):
            self.fail(case.number, "accepted without a line:", document.text, outcome.lines, error_of(case.original, document.text))
        return excused

    def round_trips(self, case: Case, documents: list[tuple[Document, bool]]) -> None:
        """Tries documents that are valid before and afterwards by way of octets."""
        by_root: dict[str, dict[bytes, bool]] = {}
        for document, excused in documents:
            by_root.setdefault(root_of(document.text), {})[document.text] = excused
        pairs = []
        for root, texts in by_root.items():
            for text, back in zip(texts, case.rewritten.round_trips(root, list(texts))):
                if isinstance(back, bytes):
                    pairs.append((text, back))
                elif not texts[text] and b"xsi:type" not in text:
                    self.fail(case.number, "ruvkhiska refuses", text, back)
        self.counts["round trips"] += len(pairs)
        for (text, back), good in zip(pairs, xmllint_each(case.rewritten.original, [back for _, back in pairs])):
            if good is False or not is_valid(case.original, back):
                self.fail(case.number, text, "comes back as", back, case.rewritten.outcome.lines)
            elif not same(case.original, text, back):
                self.fail(case.number, text, "comes back with other values:", back)

    def summary(self) -> str:
        """Returns the counts."""
        return ", ".join("%d %s" % (n, what) for what, n in sorted(self.counts.items())) + "; %d wrong" % self.wrong


def is_valid(judge: Optional[XMLSchema10], document: bytes) -> Optional[bool]:
    """Says whether a document is valid by a judge, or None where it fails.

    The judge calls a root that isn't declared valid where it has xsi:type."""
    try:
        return judge is not None and root_of(document) in judge.maps.elements and bool(judge.is_valid(document.decode()))
    except JUDGE_FAULTS:
        return None


def error_of(judge: Any, document: bytes) -> str:
    """Returns why a document isn't valid."""
    error = next(judge.iter_errors(document.decode()), None)
    return "" if error is None else "%s at %s" % (error.reason, error.path)


def main() -> int:
    """Tries the sets."""
    parser = argparse.ArgumentParser(description=__doc__, formatter_class=argparse.RawDescriptionHelpFormatter)
    parser.add_argument("count", nargs="?", type=int, default=2000)
    parser.add_argument("first", nargs="?", type=int, default=1)
    parser.add_argument("--documents", type=int, default=20)
    parser.add_argument("--sample", type=int, default=1_000)
    args = parser.parse_args()
    trial, number = Trial(args.documents, args.sample), args.first
    while trial.counts["sets"] < args.count:
        before = trial.counts["sets"]
        try:
            trial.try_set(number)
        except Exception as fault:  # One set that breaks the test mustn't hide the others.
            trial.fail(number, "%s: %s" % (type(fault).__name__, fault))
            trial.counts["sets"] += trial.counts["sets"] == before
        number += 1
        if trial.counts["sets"] % 100 == 0 and trial.counts["sets"] != before:
            print("next %d: %s" % (number, trial.summary()), flush=True)
    print("sets with: " + ", ".join("%s %d" % it for it in sorted(trial.features.items())))
    print(trial.summary())
    return 1 if trial.wrong else 0


if __name__ == "__main__":
    sys.exit(main())
