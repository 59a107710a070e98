"""Rewrites the schemas of some files: from their names to the texts of new files and the lines of the report."""
from __future__ import annotations

from dataclasses import dataclass, field

from .index import Index
from .placing import Placing, Pruning
from .report import STATUS, Note, shortened
from .rewriting import Rewriting, rewritten
from .sources import NoSchema, Sources, errors_of
from .writing import Writer

INCOMPLETE = 4
MOST_COMPONENTS, MOST_FILES, MOST_LEVELS = 10_000, 64, 64
MOST_NAME, MOST_NAMESPACE, MOST_BYTES = 255, 1_023, 16_777_216


@dataclass
class Job:
    """What is to be rewritten."""

    files: list[str]
    locations: list[tuple[str, str]] = field(default_factory=list)
    roots: list[str] = field(default_factory=list)
    wildcards: str = "known"


@dataclass
class Outcome:
    """What came of it: the texts of the new files by their names, the lines of the report, and the exit status.

    There are no texts where the set can't be written. `kinds` has the kind of each line that is a note."""

    texts: dict[str, str] = field(default_factory=dict)
    lines: list[str] = field(default_factory=list)
    kinds: list[str] = field(default_factory=list)
    status: int = 0


class Limit(Exception):
    """The rewritten set is over a limit of the profile."""


def rewrite(job: Job) -> Outcome:
    """Returns the rewritten set with its report."""
    outcome = Outcome()
    first = job.files[0]
    try:
        sources = Sources(job.files, job.locations)
        schema = sources.load()
        outcome.lines += sources.missing_lines()
        index = Index(sources, schema)
        unresolved, broken = errors_of(schema)
        if unresolved:
            outcome.lines += [unresolved_line(index, e) for e in unresolved]
            outcome.status = INCOMPLETE
            return outcome
        rewriting = checked_rewriting(job, index, broken)
        outcome.texts = written(rewriting)
        notes = rewriting.report.sorted()
        outcome.lines += map(str, notes)
        outcome.kinds = [n.kind for n in notes]
        outcome.status = max((STATUS[n.kind] for n in notes), default=0)
    except NoSchema as fault:
        outcome.lines.append(str(fault))
        outcome.status = INCOMPLETE
    except Limit as fault:
        outcome.lines.append("%s: failed: %s" % (first, fault))
        outcome.status = STATUS["failed"]
    return outcome


def place_and_words(index: Index, error: Exception) -> tuple[str, int, str]:
    """Returns the file and the line of an error of the library, and what it says in its first line."""
    file, line = index.place(getattr(error, "elem", None)) or index.place(None) or ("", 0)
    return file, line, shortened(str(getattr(error, "message", error)).split("\n")[0])


def unresolved_line(index: Index, error: Exception) -> str:
    """Returns the line of a reference that names nothing in the set."""
    return "%s:%d: failed: the set is incomplete: %s" % place_and_words(index, error)


def checked_rewriting(job: Job, index: Index, broken: list[Exception]) -> Rewriting:
    """Returns the rewriting of the job. Of a set that breaks rules of XML Schema, each is noted, and none may be fatal."""
    try:
        rewriting = placed(job, index, job.wildcards)
        if job.wildcards == "known" and components(rewriting) > MOST_COMPONENTS:
            rewriting = placed(job, index, "drop")
    except (AttributeError, KeyError, TypeError, ValueError) as fault:
        if not broken:
            raise
        file, line, words = place_and_words(index, broken[0])
        raise NoSchema(file, line, "is no valid schema: %s" % words) from fault
    for error in broken:
        file, line, words = place_and_words(index, error)
        note = Note(file, line, "", "not-valid", "the schema breaks a rule of XML Schema: %s" % words)
        rewriting.report.notes[note] = None
    return rewriting


def placed(job: Job, index: Index, wildcards: str) -> Rewriting:
    """Returns the rewriting with all types placed, and only what the roots reach."""
    for root in job.roots:
        if ("element", root) not in index.globals:
            raise NoSchema(job.files[0], 0, "the set has no global element %s" % root)
    rewriting = rewritten(index, wildcards)
    Placing(rewriting).run()
    if job.roots:  # Once more, so that all lines of the report are of what is left.
        rewriting = rewritten(index, wildcards, Pruning(rewriting, job.roots).reached())
        Placing(rewriting).run()
        Pruning(rewriting, job.roots).run()
    return rewriting


def writers(rewriting: Rewriting) -> dict[str, Writer]:
    """Returns a writer for each namespace with components."""
    notes: dict[str, list[Note]] = {}
    for note in rewriting.report.notes:
        notes.setdefault(note.component, []).append(note)
    return {u: Writer(rewriting.index, u, notes) for u, items in rewriting.written.items() if items}


def file_names(index: Index, namespaces: list[str]) -> dict[str, str]:
    """Returns a file name of its own for each namespace."""
    names: dict[str, str] = {}
    for namespace in namespaces:
        name = index.file_name(namespace)
        while name.lower() in (other.lower() for other in names.values()):
            name = "_" + name
        names[namespace] = name
    return names


def components(rewriting: Rewriting) -> int:
    """Returns the number of components that count for the limit of a set."""
    all_writers = writers(rewriting)
    for namespace, writer in all_writers.items():
        writer.text(rewriting.written[namespace], {})
    return sum(w.components for w in all_writers.values())


def written(rewriting: Rewriting) -> dict[str, str]:
    """Returns the text of each file by its name, or raises Limit where the profile accepts no such set."""
    all_writers = writers(rewriting)
    names = file_names(rewriting.index, list(all_writers))
    texts = {names[u]: w.text(rewriting.written[u], names) for u, w in all_writers.items()}
    check_names(all_writers)
    remedy = ": name the elements that are sent with --root"
    if not texts:
        raise Limit("nothing is left to be written: no component of the set can be said in the profile")
    number = sum(w.components for w in all_writers.values())
    if number > MOST_COMPONENTS:
        raise Limit("the set has %d components, and at most 10,000 are accepted%s" % (number, remedy))
    if len(texts) > MOST_FILES:
        raise Limit("the set has %d namespaces, and at most 64 files are accepted%s" % (len(texts), remedy))
    if any(w.levels > MOST_LEVELS for w in all_writers.values()):
        raise Limit("a schema file has over 64 elements inside each other")
    if any(len(t.encode()) > MOST_BYTES for t in texts.values()):
        raise Limit("a schema file has over 16,777,216 bytes")
    return texts


def check_names(all_writers: dict[str, Writer]) -> None:
    """Raises Limit where a name or a namespace is too long for the profile."""
    for namespace, writer in all_writers.items():
        if len(namespace.encode()) > MOST_NAMESPACE:
            raise Limit("a namespace has over 1,023 bytes: %s" % shortened(namespace, 60))
        for name in sorted(writer.names):
            if len(name.encode()) > MOST_NAME:
                raise Limit("a name has over 255 bytes: %s" % shortened(name, 60))
