"""The command `ruvkhiska-narrow`."""
from __future__ import annotations

import argparse
import io
import os
import re
import shutil
import sys
import tempfile
from typing import NoReturn, Optional

from .report import STATUS
from .supervising import Failed, bounded
from .work import INCOMPLETE, Job, Outcome, rewrite
from .writing import HEAD, MARK

WRONG = 5

DESCRIPTION = """\
Rewrites a set of XML Schema 1.0 documents into the profile that ruvkhiska
accepts, and reports what that changes.

FILE and what it includes, imports and redefines is one set. Nothing is
fetched from a network. DIR gets one schema file for each target namespace.
Without -o nothing is written: only the report is."""

EPILOG = """\
The report has one line for each thing that DIR doesn't say as FILE does:

  FILE:LINE: KIND: COMPONENT: what it means for documents [RULE]

  wider     documents are valid by DIR that aren't valid by FILE
  unsafe    a round trip may change what a value means
  refuses   documents that are valid by FILE are refused, as the line says
  failed    this part can't be said in the profile
  missing   an include or import that leads to no local file

A document that is valid by FILE, and that no line `refuses` or `failed`
speaks of, is valid by DIR, and what comes back from its octets is valid by
FILE. docs/guide/NARROW.md has each RULE.

exit status:
  0  DIR says the same as FILE      3  some line says failed
  1  some line is wider or unsafe   4  the set is incomplete or no schema
  2  some line says refuses         5  wrong words, or DIR can't be written

DIR is written completely or not at all, and not with status 4 or 5. It must
not exist, or be empty, or hold only files that ruvkhiska-narrow wrote. The
work ends within 120 seconds and 2 GB of memory.

example:
  ruvkhiska-narrow -o po examples/purchase-order.xsd
  ruvkhiska to-per po/purchase-order.xsd -i examples/purchase-order.xml"""


class Unwritable(Exception):
    """DIR can't be written; `str` of it says why."""


class Parser(argparse.ArgumentParser):
    """A parser whose mistakes have a status that no outcome has."""

    def error(self, message: str) -> NoReturn:
        """Reports wrong words."""
        self.exit(WRONG, "ruvkhiska-narrow: %s\nTry ruvkhiska-narrow --help.\n" % message)


def location(word: str) -> tuple[str, str]:
    """Returns the namespace and the file of a --location."""
    namespace, sign, file = word.rpartition("=")
    if not sign or not file:
        raise argparse.ArgumentTypeError("%r isn't NS=FILE" % word)
    return namespace, file


def root(word: str) -> str:
    """Returns the name of a --root."""
    if not re.fullmatch(r"(\{[^{}]*\})?[^{}\s]+", word):
        raise argparse.ArgumentTypeError("%r isn't NAME or {NS}NAME" % word)
    return word[2:] if word.startswith("{}") else word


def parser() -> Parser:
    """Returns the parser of the command's words."""
    p = Parser(prog="ruvkhiska-narrow", description=DESCRIPTION, epilog=EPILOG, formatter_class=argparse.RawDescriptionHelpFormatter)
    p.add_argument("-o", dest="folder", metavar="DIR", help="write the rewritten schemas into DIR")
    p.add_argument("--root", dest="roots", type=root, action="append", default=[], metavar="{NS}NAME",
                   help="keep only what this element needs; may be repeated")  # fmt: skip
    p.add_argument("--wildcards", choices=("known", "drop"), default="known",
                   help="what a wildcard becomes: a choice of the elements of the set that it allows (known, the default), or nothing (drop)")  # fmt: skip
    p.add_argument("--location", dest="locations", type=location, action="append", default=[], metavar="NS=FILE",
                   help="read the namespace NS from FILE; may be repeated")  # fmt: skip
    p.add_argument("files", nargs="+", metavar="FILE", help="a schema file")
    return p


def write_folder(folder: str, texts: dict[str, str]) -> None:
    """Writes a folder with these files, all of them or none."""
    folder = os.path.realpath(folder)
    check_folder(folder)
    made = ""
    try:
        os.makedirs(os.path.dirname(folder), exist_ok=True)
        made = tempfile.mkdtemp(prefix=".%s." % os.path.basename(folder), dir=os.path.dirname(folder))
        os.chmod(made, 0o777 & ~umask())
        new = os.path.join(made, "new")
        os.mkdir(new)
        for name, text in texts.items():
            with open(os.path.join(new, name), "w", encoding="utf-8", newline="\n") as file:
                file.write(text)
        if os.path.isdir(folder):
            os.rename(folder, os.path.join(made, "old"))
        try:
            os.rename(new, folder)
        except OSError:
            if os.path.isdir(os.path.join(made, "old")):
                os.rename(os.path.join(made, "old"), folder)
            raise
    except OSError as fault:
        raise Unwritable("%s can't be written: %s" % (folder, fault.strerror or fault)) from None
    finally:
        if made:
            shutil.rmtree(made, ignore_errors=True)


def umask() -> int:
    """Returns the mask of permissions of new files."""
    mask = os.umask(0)
    os.umask(mask)
    return mask


def check_folder(folder: str) -> None:
    """Raises Unwritable where a folder holds what this program did not write."""
    if not os.path.lexists(folder):
        return
    if not os.path.isdir(folder):
        raise Unwritable("%s is no folder" % folder)
    for name in sorted(os.listdir(folder)):
        if not is_ours(os.path.join(folder, name)):
            raise Unwritable("%s holds %s, which ruvkhiska-narrow did not write: name a new folder" % (folder, name))


def is_ours(path: str) -> bool:
    """Says whether this program wrote a file."""
    mark = (HEAD + MARK).encode()
    try:
        with open(path, "rb") as file:
            return os.path.isfile(path) and file.read(len(mark)) == mark
    except OSError:
        return False


def summary(outcome: Outcome, folder: Optional[str]) -> str:
    """Returns the last line of the report."""
    counts = ["%d %s" % (outcome.kinds.count(k), k) for k in STATUS if k in outcome.kinds]
    files = "%d file%s" % (len(outcome.texts), "" if len(outcome.texts) == 1 else "s")
    said = ", ".join(counts) or "the same as the original"
    return "%s %s: %s" % (files, "in " + folder if folder else "not written without -o DIR", said)


def main(words: list[str]) -> int:
    """Runs the command and returns its exit status."""
    args = parser().parse_args(words)
    job = Job(args.files, args.locations, args.roots, args.wildcards)
    try:
        if args.folder is not None:
            check_folder(os.path.realpath(args.folder))
        outcome = bounded(lambda: rewrite(job))
        if args.folder is not None and outcome.texts:
            write_folder(args.folder, outcome.texts)
    except Failed as fault:
        print("%s: failed: %s" % (args.files[0], fault))
        return INCOMPLETE
    except Unwritable as fault:
        print("ruvkhiska-narrow: %s" % fault, file=sys.stderr)
        return WRONG
    for line in outcome.lines:
        print(line)
    if outcome.texts:
        print(summary(outcome, args.folder))
    return outcome.status


def command() -> int:
    """Runs the command with the words of the process; a reader that leaves is no error."""
    for stream in (sys.stdout, sys.stderr):
        if isinstance(stream, io.TextIOWrapper):
            stream.reconfigure(errors="backslashreplace")  # A file's name may be no text.
    try:
        status = main(sys.argv[1:])
        if sys.stdout is not None:
            sys.stdout.flush()
        return status
    except BrokenPipeError:
        os.dup2(os.open(os.devnull, os.O_WRONLY), sys.stdout.fileno())
        return WRONG
    except KeyboardInterrupt:
        return 130
