"""The command: its words, its statuses, what it writes, and input that is wrong or hostile."""
from __future__ import annotations

import contextlib
import io
import os
import shutil
import stat
import subprocess
import sys
import tempfile
import unittest
from unittest import mock

from support import NARROW, Set, element, complex_, program, restricted, run, schema, simple
from narrowing import cli, supervising

INT = element("", attributes=' type="xs:int"')
DECIMAL = element("", attributes=' type="xs:decimal"')


class Command(unittest.TestCase):
    """Each test has a folder of its own as the working directory."""

    def setUp(self) -> None:
        """Makes the folder."""
        made = tempfile.TemporaryDirectory()
        self.addCleanup(made.cleanup)
        self.addCleanup(os.chdir, os.getcwd())
        os.chdir(made.name)

    def write(self, name: str, text: str) -> str:
        """Writes a file and returns its name."""
        with open(name, "w", encoding="utf-8") as file:
            file.write(text)
        return name

    def narrow(self, *words: str) -> tuple[int, str, str]:
        """Returns the status, the standard output and the standard error of the command."""
        out, err = io.StringIO(), io.StringIO()
        with contextlib.redirect_stdout(out), contextlib.redirect_stderr(err):
            try:
                status = cli.main(list(words))
            except SystemExit as end:
                status = int(end.code or 0)
        self.assertNotIn("Traceback", out.getvalue() + err.getvalue())
        self.assertNotIn("internal error", out.getvalue())
        return status, out.getvalue(), err.getvalue()

    def refused(self, words: str, *command: str, status: int = 4) -> str:
        """Tries that a command has a line with these words, a status, and writes nothing."""
        ended, out, _ = self.narrow("-o", "out", *command)
        self.assertEqual(ended, status, out)
        self.assertIn(words, out)
        self.assertFalse(os.path.exists("out"))
        return out

    # What is written.

    def test_exact(self) -> None:
        """Tries a set that is in the profile."""
        self.write("s.xsd", schema(INT))
        self.assertEqual(self.narrow("-o", "out", "s.xsd"), (0, "1 file in out: the same as the original\n", ""))
        with open("out/s.xsd", encoding="utf-8") as file:
            text = file.read()
        self.assertIn("<xs:documentation>Made from s.xsd by ruvkhiska-narrow.</xs:documentation>", text)
        self.assertEqual(run([program(), "show", "out/s.xsd"]).returncode, 0)

    def test_lines(self) -> None:
        """Tries the lines of the report and the statuses."""
        self.write("s.xsd", schema("\n" + DECIMAL))
        line = "s.xsd:2: wider: element e: xs:decimal becomes xs:token: any text is accepted [text]"
        self.assertEqual(self.narrow("s.xsd"), (1, line + "\n1 file not written without -o DIR: 1 wider\n", ""))
        self.assertEqual(os.listdir("."), ["s.xsd"])
        self.write("q.xsd", schema("\n\n" + element("", attributes=' type="xs:QName"')))
        status, out, _ = self.narrow("q.xsd")
        self.assertEqual(status, 2)
        self.assertIn("q.xsd:3: unsafe: element e: ", out)
        self.assertIn("q.xsd:3: refuses: element e: ", out)

    def test_folder(self) -> None:
        """Tries that a folder of ours is replaced, and another one isn't."""
        self.write("s.xsd", schema(INT))
        self.assertEqual(self.narrow("-o", "a/b/out", "s.xsd")[0], 0)
        self.write("t.xsd", schema(element("", "f", ' type="xs:int"')))
        self.assertEqual(self.narrow("-o", "a/b/out", "t.xsd")[0], 0)
        self.assertEqual(os.listdir("a/b"), ["out"])
        self.assertEqual(os.listdir("a/b/out"), ["t.xsd"])
        self.assertEqual(stat.S_IMODE(os.stat("a/b/out").st_mode), 0o777 & ~cli.umask())
        self.write("a/b/out/notes.txt", "mine")
        status, out, err = self.narrow("-o", "a/b/out", "s.xsd")
        self.assertEqual((status, out), (5, ""))
        self.assertIn("holds notes.txt", err)
        self.assertEqual(sorted(os.listdir("a/b/out")), ["notes.txt", "t.xsd"])
        self.assertEqual(self.narrow("-o", "s.xsd", "s.xsd")[0], 5)
        self.assertEqual(self.narrow("-o", ".", "s.xsd")[0], 5)

    def test_fault_while_writing(self) -> None:
        """Tries that a folder stays as it was where a file can't be written."""
        self.write("s.xsd", schema(INT))
        self.assertEqual(self.narrow("-o", "out", "s.xsd")[0], 0)
        before = os.listdir("out")
        with mock.patch.object(cli, "open", side_effect=OSError(28, "No space left on device"), create=True):
            with self.assertRaises(cli.Unwritable):
                with mock.patch.object(cli, "check_folder"):
                    cli.write_folder("out", {"t.xsd": "text"})
        self.assertEqual((os.listdir("out"), sorted(os.listdir("."))), (before, ["out", "s.xsd"]))

    def test_same_bytes(self) -> None:
        """Tries that hashes of strings have no influence."""
        head = "".join('<xs:element name="m%d" substitutionGroup="h" type="xs:NMTOKEN"/>' % i for i in range(9))
        body = '<xs:element name="h" type="xs:token"/>' + head + complex_('<xs:sequence><xs:element ref="h"/></xs:sequence><xs:anyAttribute/>')
        self.write("s.xsd", schema(body, "urn:a"))
        found = set()
        for seed in "12":
            done = run([sys.executable, NARROW, "-o", "out" + seed, "s.xsd"], env={**os.environ, "PYTHONHASHSEED": seed})
            with open("out%s/s.xsd" % seed, "rb") as file:
                found.add((done.stdout.replace(b"out" + seed.encode(), b""), file.read()))
        self.assertEqual(len(found), 1)

    # Files of a set.

    def test_missing_import(self) -> None:
        """Tries an import whose file isn't there: with a reference that needs it, without, and with the remedy."""
        imported = '<xs:import namespace="urn:b" schemaLocation="%s"/>'
        for place in ("gone.xsd", "http://127.0.0.1:9/b.xsd"):
            self.write("s.xsd", schema(imported % place + element("", attributes=' type="b:B"'), "urn:a", 'xmlns:b="urn:b"'))
            out = self.refused("the set is incomplete", "s.xsd")
            self.assertIn("s.xsd:1: missing: import of %s: no local file; name it with --location 'urn:b=FILE'" % place, out)
            self.write("other.xsd", schema("<xs:simpleType name='B'>%s</xs:simpleType>" % restricted("int"), "urn:b"))
            self.assertEqual(self.narrow("--location", "urn:b=other.xsd", "s.xsd")[0], 0)
        self.write("s.xsd", schema('<xs:import namespace="urn:b"/>' + element("", attributes=' type="b:B"'), "urn:a", 'xmlns:b="urn:b"'))
        self.refused("s.xsd:1: missing: import of urn:b: no local file; name it with --location 'urn:b=FILE'", "s.xsd")
        self.assertEqual(self.narrow("--location", "urn:b=other.xsd", "s.xsd")[0], 0)
        self.write("s.xsd", schema(imported % "gone.xsd" + INT, "urn:a"))
        self.assertEqual(self.narrow("s.xsd")[0], 0)

    def test_missing_include(self) -> None:
        """Tries an include whose file isn't there."""
        self.write("s.xsd", schema('<xs:include schemaLocation="gone.xsd"/>' + element("", attributes=' type="B"'), "urn:a"))
        self.refused("missing: include of gone.xsd", "s.xsd")
        self.write("t.xsd", schema("<xs:simpleType name='B'>%s</xs:simpleType>" % restricted("int"), "urn:a"))
        self.assertEqual(self.narrow("--location", "urn:a=t.xsd", "s.xsd")[0], 0)
        self.assertEqual(self.narrow("s.xsd", "t.xsd")[0], 0)

    def test_two_files_of_a_namespace(self) -> None:
        """Tries a namespace that is imported from two files."""
        self.write("b.xsd", schema("<xs:simpleType name='B'>%s</xs:simpleType>" % restricted("int"), "urn:b"))
        self.write("c.xsd", schema("<xs:simpleType name='C'>%s</xs:simpleType>" % restricted("int"), "urn:b"))
        first = '<xs:import namespace="urn:b" schemaLocation="b.xsd"/><xs:include schemaLocation="t.xsd"/>'
        self.write("s.xsd", schema(first + element("", attributes=' type="b:B"'), "urn:a", 'xmlns:b="urn:b"'))
        second = '<xs:import namespace="urn:b" schemaLocation="c.xsd"/>'
        self.write("t.xsd", schema(second + element("", "f", ' type="b:C"'), "urn:a", 'xmlns:b="urn:b"'))
        self.assertEqual(self.narrow("-o", "out", "s.xsd")[0], 0)
        self.assertEqual(run([program(), "show"] + ["out/" + n for n in os.listdir("out")]).returncode, 0)

    def test_prefixes_and_names(self) -> None:
        """Tries a prefix `xs` for another namespace, and file names that a location has to escape."""
        self.write("b c.xsd", schema("<xs:simpleType name='B'>%s</xs:simpleType>" % restricted("int"), "urn:b"))
        text = '<xsd:schema xmlns:xsd="http://www.w3.org/2001/XMLSchema" xmlns:xs="urn:b" xmlns:xml2="urn:a" targetNamespace="urn:a">'
        text += '<xsd:import namespace="urn:b" schemaLocation="b%20c.xsd"/><xsd:element name="e" type="xs:B"/></xsd:schema>'
        self.assertEqual(self.narrow("-o", "out", self.write("s.xsd", text))[0], 0)
        self.assertEqual(sorted(os.listdir("out")), ["b c.xsd", "s.xsd"])
        self.assertEqual(run([program(), "show", "out/s.xsd", "out/b c.xsd"]).returncode, 0)
        self.assertEqual(run(["xmllint", "--noout", "--nonet", "--schema", "out/s.xsd", "-"], b'<e xmlns="urn:a">7</e>').returncode, 0)

    def test_roots(self) -> None:
        """Tries that roots keep what they need, and the lines about that."""
        body = element("", attributes=' type="T"') + element("", "f", ' type="xs:decimal"')
        self.write("s.xsd", schema("<xs:simpleType name='T'>%s</xs:simpleType>" % restricted("int") + body, "urn:a"))
        self.assertEqual(self.narrow("s.xsd")[0], 1)
        self.assertEqual(self.narrow("--root", "{urn:a}e", "-o", "out", "s.xsd")[0], 0)
        with open("out/s.xsd", encoding="utf-8") as file:
            self.assertNotIn('"f"', file.read())
        self.assertIn("no global element {urn:a}g", self.narrow("--root", "{urn:a}g", "s.xsd")[1])

    def test_too_many_components(self) -> None:
        """Tries a set of over 10,000 components, as a whole and what a root needs."""
        types = "".join("<xs:element name='f%d' type='xs:int'/>" % i for i in range(10_001))
        self.write("s.xsd", schema(types))
        self.refused("name the elements that are sent with --root", "s.xsd", status=3)
        self.assertEqual(self.narrow("--root", "f7", "s.xsd")[0], 0)

    def test_too_many_namespaces(self) -> None:
        """Tries a set of over 64 namespaces, entire and what a root needs."""
        body = '<xs:complexType><xs:sequence><xs:element ref="n1:e"/></xs:sequence></xs:complexType>'
        imports = "".join('<xs:import namespace="urn:n%d" schemaLocation="n%d.xsd"/>' % (i, i) for i in range(65))
        self.write("s.xsd", schema(imports + element(body), "urn:a", 'xmlns:n1="urn:n1"'))
        for i in range(65):
            self.write("n%d.xsd" % i, schema(INT, "urn:n%d" % i))
        self.refused("the set has 66 namespaces, and at most 64 files are accepted", "s.xsd", status=3)
        self.assertEqual(self.narrow("--root", "{urn:a}e", "-o", "out", "s.xsd")[0], 0)
        self.assertEqual(sorted(os.listdir("out")), ["n1.xsd", "s.xsd"])

    def test_long_names(self) -> None:
        """Tries a local name, a namespace and a prefix of the greatest length, and longer ones."""
        body = complex_('<xs:sequence><xs:element name="%s" type="xs:int"/></xs:sequence>')
        self.write("s.xsd", schema(body % ("n" * 255), "u" * 1023, 'xmlns:%s="%s"' % ("p" * 256, "u" * 1023)))
        self.assertEqual(self.narrow("-o", "out", "s.xsd")[0], 0)
        self.assertEqual(run([program(), "show", "out/s.xsd"]).returncode, 0)
        shutil.rmtree("out")
        self.refused("a name has over 255 bytes: nnn", self.write("s.xsd", schema(body % ("n" * 256))), status=3)
        self.refused("a namespace has over 1,023 bytes: uuu", self.write("s.xsd", schema(INT, "u" * 1024)), status=3)

    # Schemas that are wrong.

    def test_no_schema(self) -> None:
        """Tries files that are no schema, each with its line."""
        self.refused("gone.xsd: failed: can't be read: No such file or directory", "gone.xsd")
        self.refused("..: failed: is no regular file", "..")
        os.mkfifo("pipe")
        self.refused("pipe: failed: is no regular file", "pipe")
        self.refused("s.xsd:1: failed: is not well-formed", self.write("s.xsd", ""))
        self.refused("s.xsd:2: failed: is not well-formed: mismatched tag", self.write("s.xsd", schema("\n<a>")))
        self.refused("s.xsd:1: failed: is no schema: its root is {urn:x}a", self.write("s.xsd", '<a xmlns="urn:x"/>'))
        self.refused("http://127.0.0.1:9/s.xsd: failed: can't be read", "http://127.0.0.1:9/s.xsd")

    def test_newer_schema(self) -> None:
        """Tries XML Schema 1.1."""
        for body in ('<xs:complexType name="T"><xs:assert test="1"/></xs:complexType>', '<xs:override schemaLocation="t.xsd"/>'):
            self.refused("s.xsd:1: failed: is XML Schema 1.1: xs:", self.write("s.xsd", schema(body)))

    def test_hostile(self) -> None:
        """Tries entities that grow, deep nesting, and size."""
        entities = "".join('<!ENTITY e%d "%s">' % (i, "&e%d;" % (i - 1) * 10) for i in range(1, 12))
        text = '<!DOCTYPE s [<!ENTITY e0 "0123456789">%s]>' % entities + schema("<xs:annotation>&e11;</xs:annotation>")
        self.refused("s.xsd:", self.write("s.xsd", text))
        text = '<!DOCTYPE s [<!ENTITY e SYSTEM "/etc/passwd">]>' + schema("<xs:annotation>&e;</xs:annotation>" + INT)
        self.assertNotIn("root:", "".join(map(str, self.narrow(self.write("s.xsd", text)))))
        deep = "<xs:sequence>" * 100_000
        self.refused("s.xsd:1: failed: has over 200 elements inside each other", self.write("s.xsd", schema(deep)))
        many = schema("<xs:annotation/>" * 400_001)
        self.refused("s.xsd:1: failed: the set has over 400000 elements", self.write("s.xsd", many))
        large = schema(INT + "<!--" + "x" * 16_777_216 + "-->")
        self.refused("s.xsd: failed: has over 16,777,216 bytes", self.write("s.xsd", large))

    def test_circles(self) -> None:
        """Tries types that are made of themselves, and files that include themselves."""
        body = '<xs:include schemaLocation="s.xsd"/><xs:simpleType name="T"><xs:restriction base="T"/></xs:simpleType>'
        self.assertIn(self.narrow(self.write("s.xsd", schema(body + INT)))[0], (1, 2, 3, 4))
        body = "<xs:group name='g'><xs:sequence><xs:group ref='g'/></xs:sequence></xs:group>" + INT
        self.assertIn(self.narrow(self.write("s.xsd", schema(body)))[0], (1, 2, 3, 4))

    def test_bounds(self) -> None:
        """Tries that time and memory are bounded."""
        with mock.patch.object(supervising, "MOST_SECONDS", 1):
            with self.assertRaisesRegex(supervising.Failed, "takes over 1 seconds"):
                supervising.bounded(lambda: __import__("time").sleep(60))
            with mock.patch.object(supervising.time, "monotonic", lambda: 0.0):
                with self.assertRaisesRegex(supervising.Failed, "takes over 1 seconds"):
                    supervising.bounded(lambda: sum(iter(int, 1)))
        with self.assertRaisesRegex(supervising.Failed, "needs over 2 GB of memory"):
            supervising.bounded(lambda: len(bytearray(3_000_000_000)))
        with self.assertRaisesRegex(supervising.Failed, "can't be rewritten"):
            supervising.bounded(lambda: os._exit(7))

    def test_groups_that_double(self) -> None:
        """Tries groups of which each has the next one twice."""
        body = "".join('<xs:group name="g%d"><xs:sequence>%s</xs:sequence></xs:group>' % (i, '<xs:group ref="g%d"/>' % (i + 1) * 2) for i in range(60))
        body += '<xs:group name="g60"><xs:sequence>%s</xs:sequence></xs:group>' % INT + complex_('<xs:group ref="g0"/>')
        with mock.patch.object(supervising, "MOST_SECONDS", 3):
            self.refused("s.xsd: failed: takes over 3 seconds", self.write("s.xsd", schema(body)))

    def test_fault_without_memory(self) -> None:
        """Tries that work which ends without a result is a line too, without a traceback."""
        with mock.patch.object(supervising, "attempt", side_effect=MemoryError), contextlib.redirect_stderr(io.StringIO()):
            with self.assertRaisesRegex(supervising.Failed, "can't be rewritten"):
                supervising.bounded(lambda: 1)

    def test_broken_rules(self) -> None:
        """Tries schemas that break rules of XML Schema, and that what is written is accepted all the same."""
        body = complex_('<xs:sequence><xs:element name="a" type="xs:int"/><xs:element name="a" type="xs:string"/></xs:sequence>')
        with tempfile.TemporaryDirectory() as folder:
            rewritten = Set(folder, {"s.xsd": schema(body)})
            self.assertIn("two-types", rewritten.rules())
            self.assertEqual((rewritten.outcome.status, rewritten.accepted()), (3, ""))
        body = simple(restricted("int", minInclusive=9, maxInclusive=1))
        with tempfile.TemporaryDirectory() as folder:
            rewritten = Set(folder, {"s.xsd": schema(body)})
            self.assertIn("not-valid", rewritten.rules())
            self.assertEqual(rewritten.accepted(), "")

        body = '<xs:simpleType name="U"><xs:union memberTypes="xs:int xs:NMTOKENS"/></xs:simpleType>' + simple('<xs:list itemType="U"/>')
        with tempfile.TemporaryDirectory() as folder:
            rewritten = Set(folder, {"s.xsd": schema(body)})
            self.assertEqual((rewritten.rules(), rewritten.accepted()), (["not-valid"], ""))

    def test_nothing_left(self) -> None:
        """Tries a set without components."""
        self.refused("nothing is left to be written", self.write("s.xsd", schema("")), status=3)

    # Words.

    def test_words(self) -> None:
        """Tries wrong words, and the help."""
        for words in ([], ["--root", "a b", "s.xsd"], ["--location", "urn:a", "s.xsd"], ["--wildcards", "all", "s.xsd"]):
            self.assertEqual(self.narrow(*words)[0], 5)
        status, out, _ = self.narrow("--help")
        self.assertEqual(status, 0)
        self.assertLessEqual(max(map(len, out.split("\n"))), 80)

    def test_without_the_module(self) -> None:
        """Tries a Python without python3-xmlschema."""
        self.write("xmlschema.py", "raise ImportError\n")
        done = run([sys.executable, NARROW, "s.xsd"], env={**os.environ, "PYTHONPATH": os.getcwd()})
        self.assertEqual(done.returncode, 5)
        self.assertIn(b"python3-xmlschema", done.stderr)
        self.assertNotIn(b"Traceback", done.stderr)

    def test_closed_output(self) -> None:
        """Tries a reader that leaves."""
        self.write("s.xsd", schema(DECIMAL))
        command = "%s %s s.xsd | true" % (sys.executable, NARROW)
        done = subprocess.run(["bash", "-c", command], capture_output=True, timeout=120)
        self.assertNotIn(b"Traceback", done.stderr)


if __name__ == "__main__":
    unittest.main()
