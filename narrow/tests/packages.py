#!/usr/bin/env python3
"""The schemas of Debian packages: how many ruvkhiska accepts as they are, and after ruvkhiska-narrow.

    narrow/tests/packages.py [--download] [--only WORD]... FOLDER

FOLDER has a folder for each package, with what `dpkg-deb -x` unpacks of it. A namespace that a schema imports from a place which
isn't there is read from a file of the package, or else of another one, by --location. --download fetches the packages below into it by
`apt-get download`, which needs their lists (`apt-get update`) and no rights. Each schema file is tried by itself, with what it
includes and imports. The table of docs/guide/NARROW.md is written to standard output, and a line for each schema that isn't
accepted afterwards to standard error. The status is 1 where under 90 % of the schemas are accepted afterwards.

PROGRAM names another program than bin/ruvkhiska; --only PACKAGE tries this package alone.
"""
from __future__ import annotations

import argparse
import glob
import os
import re
import subprocess
import sys
import tempfile
import time
from typing import Any

from support import Job, program, rewrite, run
from narrowing.sources import NoSchema, Sources
from narrowing.supervising import Failed, bounded

PACKAGES = """docbook5-xml gdal-data libxml-compile-perl opensaml-schemas openscap-common php-codesniffer php-symfony-dependency-injection
php-symfony-framework-bundle php-symfony-routing php-symfony-security-bundle php-symfony-serializer php-symfony-translation
php-symfony-twig-bundle php-symfony-validator phpunit python3-xmlschema xcb-proto xmlstarlet xmltooling-schemas xsdcxx""".split()
# Of openscap-common, which has 544 schemas in many versions, the newest of each, without those of OVAL.
NEWEST = {"openscap-common": ("/arf/1.1/", "/common/", "/cpe/2.3/", "/cve/", "/ocil/2.0/", "/sce/1.0/", "/sds/1.3/", "/xccdf/1.2/")}

# Schemas of other languages, and of XML Schema itself.
OTHERS = {"-", "http://www.w3.org/2001/XMLSchema", "http://www.w3.org/2001/XMLSchema-instance"}


def download(folder: str) -> None:
    """Fetches and unpacks the packages."""
    for name in PACKAGES:
        with tempfile.TemporaryDirectory() as work:
            subprocess.run(["apt-get", "download", "-qq", name], cwd=work, check=True)
            subprocess.run(["dpkg-deb", "-x", glob.glob(work + "/*.deb")[0], os.path.join(folder, name)], check=True)


def schemas_of(folder: str) -> list[str]:
    """Returns the schema files of a package."""
    found = sorted(os.path.join(top, f) for top, _, files in os.walk(folder) for f in files if f.endswith(".xsd"))
    parts = NEWEST.get(os.path.basename(folder))
    return [f for f in found if (parts is None or any(p in f for p in parts)) and namespace_of(f) not in OTHERS]


def accepted(files: list[str]) -> bool:
    """Says whether ruvkhiska accepts a set of schema files."""
    return len(files) <= 64 and run([program(), "show"] + files).returncode == 0


def namespace_of(path: str) -> str:
    """Returns the target namespace of a schema file of XML Schema 1.0, or '-' of another file."""
    with open(path, "rb") as file:
        head = file.read(100_000).decode("utf-8", "replace")
    if "http://www.w3.org/2001/XMLSchema" not in head:
        return "-"
    found = re.search(r"targetNamespace\s*=\s*[\"']([^\"']*)", head)
    return found.group(1) if found else ""


class Catalog:
    """Finds the files of namespaces in the packages."""

    def __init__(self, folder: str) -> None:
        self.files: dict[str, list[str]] = {}
        for path in sorted(glob.glob(folder + "/**/*.xsd", recursive=True)):
            self.files.setdefault(namespace_of(path), []).append(path)

    def locations(self, path: str) -> list[tuple[str, str]]:
        """Returns the locations that a schema file needs."""
        found: dict[str, str] = {}
        while True:
            try:
                missing = [link.namespace for _, link in Sources([path], list(found.items())).missing]
            except NoSchema:
                return list(found.items())
            new = {n: self.nearest(n, path) for n in missing if n in self.files and n not in found}
            if not new:
                return list(found.items())
            found.update(new)

    def nearest(self, namespace: str, path: str) -> str:
        """Returns the file of a namespace that has the longest way in common with a path."""
        return max(self.files[namespace], key=lambda f: len(os.path.commonprefix([f, path])))


def before(path: str, locations: list[tuple[str, str]]) -> bool:
    """Says whether ruvkhiska accepts a schema file with what it includes and imports."""
    try:
        return accepted(list(Sources([path], locations).files))
    except NoSchema:
        return False


def after(path: str, locations: list[tuple[str, str]]) -> tuple[int, bool, str]:
    """Returns the status of the rewriting, whether ruvkhiska accepts what it writes, and else why not."""
    try:
        outcome = bounded(lambda: rewrite(Job([path], locations)))
    except Failed as fault:
        return 4, False, str(fault)
    with tempfile.TemporaryDirectory() as work:
        files = [os.path.join(work, name) for name in outcome.texts]
        for file, text in zip(files, outcome.texts.values()):
            with open(file, "w", encoding="utf-8") as out:
                out.write(text)
        if not files:
            return outcome.status, False, next((it for it in outcome.lines if ": failed: " in it), "")
        shown = run([program(), "show"] + files)
        return outcome.status, shown.returncode == 0, shown.stderr.decode().split("\n")[0]


def row(cells: list[Any]) -> str:
    """Returns a row of a table."""
    return "| %s |" % " | ".join(map(str, cells))


def main() -> int:
    """Tries the packages."""
    parser = argparse.ArgumentParser(description=__doc__, formatter_class=argparse.RawDescriptionHelpFormatter)
    parser.add_argument("--download", action="store_true")
    parser.add_argument("--only", action="append", default=[])
    parser.add_argument("folder")
    args = parser.parse_args()
    if args.download:
        os.makedirs(args.folder, exist_ok=True)
        download(args.folder)
    total, catalog = [0] * 5, Catalog(args.folder)
    print(row(["Package", "Schemas", "Accepted before", "Afterwards", "Exact", "Nothing valid refused"]))
    print("|---" * 6 + "|")
    for package in sorted(os.listdir(args.folder)):
        files = schemas_of(os.path.join(args.folder, package))
        if not files or args.only and package not in args.only:
            continue
        counts = [len(files), 0, 0, 0, 0]
        for path in files:
            start = time.monotonic()
            locations = catalog.locations(path)
            counts[1] += before(path, locations)
            status, good, why = after(path, locations)
            counts[2] += good
            counts[3] += good and status == 0
            counts[4] += good and status <= 1
            if not good:
                print("%s: status %d, %.1f s: %s" % (path, status, time.monotonic() - start, why), file=sys.stderr, flush=True)
        print(row([package] + counts), flush=True)
        total = [a + b for a, b in zip(total, counts)]
    print(row(["all"] + total))
    return 0 if total[2] >= 0.9 * total[0] else 1


if __name__ == "__main__":
    sys.exit(main())
