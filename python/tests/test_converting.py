"""Converts, and rejects, by the package and the shared library.

    RUVKHISKA_LIBRARY=bin/libruvkhiska.so.1.0.0 PYTHONPATH=python python3 -m unittest discover python/tests
"""

import array
import ctypes
import doctest
import gc
import io
import mmap
import os
import pickle
import subprocess
import sys
import tempfile
import threading
import time
import unittest
import weakref
from unittest import mock

import ruvkhiska
from ruvkhiska import DocumentError, EncodingError, Place, SchemaError, Schemas, _schemas

HERE = os.path.dirname(os.path.dirname(os.path.dirname(os.path.abspath(__file__))))
EXAMPLES = os.environ.get("EXAMPLES", f"{HERE}/examples")
ORDER = b'<order xmlns="urn:po" id="7"><line><sku>A1</sku><qty>3</qty></line></order>'
# The encodings of ORDER, as docs/reference/PER.md and docs/guide/PROGRAM.md have them.
ENCODINGS = {"per": "0000070102413104", "uper": "00038081209882", "der": "300e800107a1093007800241318101" "03"}
SCHEMA = '<xs:schema xmlns:xs="http://www.w3.org/2001/XMLSchema"{}>{}</xs:schema>'


def schemas(*names):
    return Schemas.from_files(*(f"{EXAMPLES}/{name}.xsd" for name in names))


def schema(body, more="", name="schema.xsd"):
    return Schemas([(name, SCHEMA.format(more, body).encode())])


def contents(name):
    with open(f"{EXAMPLES}/{name}", "rb") as file:
        return file.read()


class Converting(unittest.TestCase):
    @classmethod
    def setUpClass(cls):
        cls.orders = schemas("order").prepare()

    def test_syntaxes(self):
        for syntax, octets in ENCODINGS.items():
            self.assertEqual(self.orders.encode(ORDER, syntax), bytes.fromhex(octets), syntax)
            document = self.orders.decode(bytes.fromhex(octets), syntax)
            self.assertEqual(self.orders.encode(document, syntax), bytes.fromhex(octets), syntax)
        self.assertEqual(self.orders.encode(ORDER), bytes.fromhex(ENCODINGS["per"]))
        self.assertIsNone(self.orders.check(ORDER))
        self.assertRaises(ValueError, self.orders.encode, ORDER, "PER")
        self.assertRaises(ValueError, self.orders.decode, ORDER, "")

    def test_decoded(self):
        document = self.orders.decode(bytes.fromhex(ENCODINGS["per"]))
        self.assertEqual(document.splitlines()[0], b'<?xml version="1.0" encoding="UTF-8"?>')
        self.assertIn(b"<n1:sku>A1</n1:sku>", document)

    def test_buffers(self):
        octets = bytes.fromhex(ENCODINGS["per"])
        with tempfile.TemporaryFile() as file:
            file.write(ORDER)
            file.flush()
            mapped = mmap.mmap(file.fileno(), 0, access=mmap.ACCESS_READ)
            for it in (ORDER.decode(), bytearray(ORDER), memoryview(ORDER), memoryview(bytearray(ORDER)), array.array("B", ORDER), mapped):
                self.assertEqual(self.orders.encode(it), octets, type(it))
            mapped.close()
        self.assertEqual(self.orders.encode(memoryview(b"<<" + ORDER + b">>")[2:-2]), octets)
        twice = bytes(it for byte in ORDER for it in (byte, 0))
        self.assertEqual(self.orders.encode(memoryview(twice)[::2]), octets)
        self.assertEqual(self.orders.decode(memoryview(octets)), self.orders.decode(octets))
        self.assertRaises(TypeError, self.orders.encode, 7)
        self.assertRaises(TypeError, self.orders.decode, "7")

    def test_lent(self):
        """Only what nothing can write is read where it lies."""
        for data, is_lent in ((ORDER, True), (memoryview(ORDER), True), (bytearray(ORDER), False), (memoryview(b"<>")[::-1], False)):
            given = memoryview(data)
            with _schemas.lent(data) as (at, count):
                self.assertEqual(count, given.nbytes)
                self.assertEqual(not isinstance(at, bytes) or at is data, is_lent, data)
        data = bytearray(ORDER)
        with _schemas.lent(memoryview(data).toreadonly()):
            self.assertRaises(BufferError, data.append, 0)
        data.append(0)

    def test_empty(self):
        for empty in (b"", "", bytearray(), memoryview(b"")):
            self.assertRaises(DocumentError, self.orders.encode, empty)
        for empty in (b"", bytearray(), memoryview(b"")):
            self.assertRaises(EncodingError, self.orders.decode, empty)
        z = schema('<xs:element name="z"><xs:complexType/></xs:element>').prepare()
        self.assertEqual(z.encode("<z/>"), b"\0")
        self.assertEqual(z.decode(z.encode("<z/>")).splitlines()[-1], b"<z/>")

    def test_roots(self):
        parcels = schemas("parcel", "address")
        octets = parcels.prepare("{urn:parcel}parcel").encode(contents("parcel.xml"))
        self.assertEqual(octets.hex(), "8003416e6e03f200fa")
        self.assertEqual(schema('<xs:element name="a" type="xs:boolean"/>').prepare("a").encode("<a>1</a>"), b"\x80")
        two = schema('<xs:element name="a" type="xs:int"/><xs:element name="b" type="xs:int"/>', ' targetNamespace="urn:t"')
        for root in (None, "a", "{urn:other}a", "{urn:t}c"):
            with self.assertRaises(SchemaError) as caught:
                two.prepare(root)
            self.assertEqual((caught.exception.status, caught.exception.line, caught.exception.place), (6, "unknown root", None))
            self.assertEqual(str(caught.exception), "unknown root; the global elements are: {urn:t}a, {urn:t}b")
        b = two.prepare("{urn:t}b")
        self.assertIn(b">5<", b.decode(b.encode('<b xmlns="urn:t"> 05 </b>')))
        for root in ("{urn:t", "", "{}", "{urn:t}", "\ud800"):
            self.assertRaises(ValueError, two.prepare, root)
        self.assertRaises(SchemaError, schema("").prepare)
        self.assertRaises(SchemaError, Schemas([]).prepare)

    def test_examples(self):
        """What a document's encoding is decoded to has the same encoding."""
        for name in ("any-order", "boolean", "defaults", "order", "river"):
            prepared = schemas(name).prepare()
            for syntax in ENCODINGS:
                octets = prepared.encode(contents(f"{name}.xml"), syntax)
                self.assertEqual(prepared.encode(prepared.decode(octets, syntax), syntax), octets, name)

    def test_stamp(self):
        # As docs/guide/PROGRAM.md has it.
        self.assertEqual(self.orders.stamp.hex(), "650e89cab5f26de2")
        self.assertEqual(self.orders.stamp, schemas("order").prepare().stamp)
        self.assertNotEqual(self.orders.stamp, schemas("river").prepare().stamp)

    def test_docstring(self):
        at = os.getcwd()
        os.chdir(os.path.dirname(EXAMPLES))
        try:
            self.assertEqual(doctest.testmod(ruvkhiska, verbose=False), (0, 9))
        finally:
            os.chdir(at)

    def test_version(self):
        path = f"{HERE}/install/version"
        if not os.path.exists(path):
            self.skipTest("no checkout")
        with open(path) as file:
            self.assertEqual(ruvkhiska.__version__, file.read().strip())


class Rejecting(unittest.TestCase):
    @classmethod
    def setUpClass(cls):
        cls.orders = schemas("order").prepare()

    def rejects(self, kind, call, *given):
        with self.assertRaises(ruvkhiska.Error) as caught:
            call(*given)
        self.assertIs(type(caught.exception), kind)
        return caught.exception

    def test_schemas(self):
        error = self.rejects(SchemaError, Schemas([("a.xsd", b"<a>"), ("b.xsd", b"")]).prepare)
        self.assertEqual((error.status, error.reason, error.place.file), (3, "Unfinished", "a.xsd"))
        error = self.rejects(SchemaError, schemas("refused-decimal").prepare)
        self.assertEqual((error.status, error.reason), (4, "Decimal"))
        error = self.rejects(SchemaError, schemas("refused-wider-facet").prepare, "x")
        # As in docs/guide/PROGRAM.md.
        self.assertEqual((error.status, error.reason, error.place.line, error.place.column), (5, "Widens", 1, 80))
        self.assertEqual((error.line, error.path), ("file 1, byte 79: link: Facet Widens", None))
        self.assertEqual(str(error), f"{EXAMPLES}/refused-wider-facet.xsd:1:80: link: Facet Widens")
        error = self.rejects(SchemaError, schemas("parcel").prepare)
        self.assertEqual((error.reason, error.place.line, error.place.column), ("Unresolved", 3, 56))
        self.assertRaises(FileNotFoundError, Schemas.from_files, f"{EXAMPLES}/none.xsd")

    def test_files(self):
        files = [(f"{it}.xsd", SCHEMA.format("", "").encode()) for it in range(63)]
        element = ("\udcff.xsd", SCHEMA.format("", '<xs:element name="a" type="xs:int"/>').encode())
        Schemas([*files, element]).prepare("a")
        error = self.rejects(SchemaError, Schemas([*files, element, ("more.xsd", b"")]).prepare, "a")
        self.assertEqual((error.status, str(error)), (2, "over 64 files"))
        error = self.rejects(SchemaError, Schemas([("a.xsd", b"<!---->"), ("large.xsd", bytes(16_777_217))]).prepare, "a")
        self.assertEqual(error.status, 3)
        error = self.rejects(SchemaError, Schemas([files[0], ("large.xsd", bytes(16_777_217))]).prepare, "a")
        self.assertEqual((error.status, error.line, error.place), (11, "file 2: too long", Place("large.xsd")))
        self.assertEqual(str(error), "large.xsd: too long")

    def test_documents(self):
        for call in (self.orders.check, self.orders.encode):
            error = self.rejects(DocumentError, call, b"<order></orde>")
            self.assertEqual((error.status, error.line), (7, "input, byte 7: syntax: WrongEnd"))
            self.assertEqual((error.reason, error.place), ("WrongEnd", Place(None, "byte", 7, 1, 8)))
            self.assertEqual(str(error), "input:1:8: syntax: WrongEnd")
            error = self.rejects(DocumentError, call, ORDER.replace(b"<line>", "<!-- \u00e9\n\u00e9\u00e9 --><line>".encode()).replace(b">3", b">300"))
            self.assertEqual((error.status, error.reason, error.place.line, error.place.column), (8, "BadText", 2, 26))
            error = self.rejects(DocumentError, call, b"<order>\n\xff\xff")
            self.assertEqual((error.status, error.place.line, error.place.column), (7, 2, 1))
            error = self.rejects(DocumentError, call, bytes(16_777_217))
            self.assertEqual((error.status, error.line, error.reason, error.place), (11, "input: too long", None, None))
        # The message of docs/guide/PROGRAM.md.
        error = self.rejects(DocumentError, self.orders.check, contents("order.xml").replace(b"<qty>3", b"<qty>300"))
        self.assertEqual((str(error), error.path), ("input:6:5: invalid: BadText", "/order/line/qty"))
        twice = ORDER.replace(b"</line>", b"</line><line><sku/><qty>0</qty></line>")
        self.assertEqual(self.rejects(DocumentError, self.orders.check, twice).path, "/order/line[2]/qty")
        self.assertIsNone(self.rejects(DocumentError, self.orders.check, bytes(16_777_217)).path)

    def test_encodings(self):
        octets = bytes.fromhex(ENCODINGS["per"])
        error = self.rejects(EncodingError, self.orders.decode, octets[:3])
        self.assertEqual((error.status, error.reason, error.place.unit, error.place.line, error.path), (9, "Short", "bit", None, None))
        self.assertEqual(str(error), error.line)
        error = self.rejects(EncodingError, self.orders.decode, octets + b"\0")
        self.assertEqual((error.status, error.line, error.reason, error.place), (10, "input, byte 8: trailing", None, Place(None, "byte", 8)))
        error = self.rejects(EncodingError, self.orders.decode, b"\x31\x00", "der")
        self.assertEqual((error.status, error.line, error.reason, error.place), (13, "input, byte 0: der: Tag", "Tag", Place(None, "byte", 0)))
        self.assertEqual(self.orders.encode(ORDER), octets)

    def test_memory(self):
        """A call without memory raises a MemoryError, and can be repeated."""
        program = f"""if True:
            import resource, ruvkhiska
            orders = ruvkhiska.Schemas.from_files({EXAMPLES + "/order.xsd"!r}).prepare()
            order = b'<order xmlns="urn:po" id="7">' + b"<line><sku>A1</sku><qty>3</qty></line>" * 100_000 + b"</order>"
            with open("/proc/self/statm") as file:
                size = int(file.read().split()[0]) * resource.getpagesize()
            resource.setrlimit(resource.RLIMIT_AS, (size + 4_000_000, -1))
            try:
                orders.encode(order)
            except MemoryError as error:
                assert isinstance(error, ruvkhiska.OutOfMemory) and error.status == 30 and str(error) == "out of memory", error
            else:
                raise AssertionError("there was memory")
            resource.setrlimit(resource.RLIMIT_AS, (-1, -1))
            orders.check(order)
        """
        subprocess.run([sys.executable, "-c", program], check=True, env={**os.environ, "PYTHONPATH": os.pathsep.join(sys.path)})

    def test_pickled(self):
        """A process pool hands exceptions on as they are."""
        error = self.rejects(DocumentError, self.orders.check, b"<order></orde>")
        error.note = "a note"
        again = pickle.loads(pickle.dumps(error))
        self.assertEqual((type(again), again.args, str(again)), (DocumentError, error.args, str(error)))


class Pieces(io.RawIOBase):
    """A file that gives its octets in pieces, and counts those that were read."""

    def __init__(self, octets, size):
        self.octets, self.size, self.at = octets, size, 0

    def readable(self):
        return True

    def readinto(self, room):
        piece = self.octets[self.at : self.at + min(self.size, len(room))]
        room[: len(piece)] = piece
        self.at += len(piece)
        return len(piece)


class Records(unittest.TestCase):
    @classmethod
    def setUpClass(cls):
        cls.orders = schemas("order").prepare()
        cls.documents = [ORDER.replace(b"7", b"%d" % it).replace(b"A1", b"A" * it) for it in range(1, 40)]
        cls.octets = [cls.orders.encode(it) for it in cls.documents]
        cls.decoded = [cls.orders.decode(it) for it in cls.octets]

    def test_all(self):
        joined = b"".join(self.octets)
        self.assertEqual(list(self.orders.records(io.BytesIO(joined))), self.decoded)
        self.assertEqual(list(self.orders.records(io.BytesIO(b""))), [])
        self.assertEqual(len(list(self.orders.records(io.BytesIO(joined * 1000)))), 39_000)
        with tempfile.TemporaryFile() as file:
            file.write(joined)
            file.seek(0)
            self.assertEqual(list(self.orders.records(file)), self.decoded)

    def test_pieces(self):
        """A document comes before more is read than its record's octets, in pieces of any size."""
        for size in (1, 3, 1000):
            file = Pieces(b"".join(self.octets), size)
            end = 0
            for octets, due, got in zip(self.octets, self.decoded, self.orders.records(file)):
                end += len(octets)
                self.assertEqual(got, due)
                self.assertLess(file.at, end + size)

    def test_pipe(self):
        """The next document comes from a pipe whose other end stays open."""
        read, write = os.pipe()
        with open(read, "rb") as file, open(write, "wb", 0) as link:
            records = self.orders.records(file)
            for octets, due in zip(self.octets, self.decoded):
                link.write(octets)
                self.assertEqual(next(records), due)
            link.close()
            self.assertEqual(list(records), [])

    def test_long(self):
        """A record of a megabyte is read in pieces that double."""
        document = b'<order xmlns="urn:po" id="7">' + b"<line><sku>A1</sku><qty>3</qty></line>" * 250_000 + b"</order>"
        octets = self.orders.encode(document)
        file = Pieces(octets + self.octets[0], 10_000_000)
        began = time.monotonic()
        self.assertEqual([len(it) for it in self.orders.records(file)], [len(self.orders.decode(octets)), len(self.decoded[0])])
        self.assertLess(time.monotonic() - began, 60)

    def test_faults(self):
        whole = b"".join(self.octets)
        for octets, reason, number in ((whole[:-1], "Short", 39), (whole + b"\xff\xff", None, 40)):
            records = self.orders.records(io.BytesIO(octets))
            got = []
            with self.assertRaises(EncodingError) as caught:
                for it in records:
                    got.append(it)
            error = caught.exception
            self.assertEqual(got, self.decoded[: number - 1])
            self.assertEqual((error.status, error.note, error.place.unit), (9, f"record {number}", "bit"))
            self.assertTrue(reason is None or error.reason == reason, error)
            self.assertRaises(StopIteration, next, records)
        with mock.patch.object(Pieces, "readinto", lambda *_: None):
            self.assertRaises(BlockingIOError, next, self.orders.records(Pieces(b"", 1)))

    def test_threads(self):
        """A record iterator may be continued in another thread."""
        records = self.orders.records(io.BytesIO(b"".join(self.octets)))
        got = [next(records)]
        thread = threading.Thread(target=lambda: got.append(next(records)))
        thread.start()
        thread.join()
        self.assertEqual(got + list(records), self.decoded)


class Recording:
    """The library, and which thread made which call with which slot."""

    def __init__(self):
        self.calls = []

    def __getattr__(self, name):
        call = getattr(ruvkhiska._library.library, name)

        def recorded(slot, *given):
            self.calls.append((name, ctypes.addressof(slot._obj), threading.get_ident()))
            return call(slot, *given)

        return recorded

    def count(self, name):
        return sum(it[0] == name for it in self.calls)


class Threads(unittest.TestCase):
    def in_threads(self, count, work):
        """Runs the work in threads side by side, and raises what one of them raised."""
        errors = []

        def run(number):
            try:
                work(number)
            except BaseException as error:  # noqa: B036
                errors.append(error)

        threads = [threading.Thread(target=run, args=(it,)) for it in range(count)]
        for it in threads:
            it.start()
        for it in threads:
            it.join()
        if errors:
            raise errors[0]

    def test_same(self):
        """Eight threads that use one set get what one thread gets."""
        names = [f"a-name-that-is-longer-than-22-bytes-{it}" for it in range(8)]
        words = "".join(f'<xs:enumeration value="{it}"/>' for it in names)
        elements = "".join(f'<xs:element name="{it}" type="word" minOccurs="0"/>' for it in names)
        prepared = schema(
            f'<xs:simpleType name="word"><xs:restriction base="xs:token">{words}</xs:restriction></xs:simpleType>'
            f'<xs:element name="z"><xs:complexType><xs:sequence>{elements}</xs:sequence></xs:complexType></xs:element>'
        ).prepare("z")
        documents = [f"<z><{it}>{it}</{it}></z>" for it in names]
        due = {(it, syntax): prepared.encode(it, syntax) for it in documents for syntax in ENCODINGS}

        def work(_):
            for (document, syntax), octets in due.items():
                for _ in range(5):
                    prepared.check(document)
                    self.assertEqual(prepared.encode(document, syntax), octets)
                    self.assertIn(document.encode(), prepared.decode(octets, syntax))

        self.in_threads(8, work)

    def recorded(self):
        """Returns the library, whose calls are recorded until the test ends."""
        recording = Recording()
        at_end = (recording.ruvkhiska_close, *_schemas._Converter.__del__.__defaults__[1:])
        for where, name, new in ((_schemas, "library", recording), (_schemas._Converter.__del__, "__defaults__", at_end)):
            patch = mock.patch.object(where, name, new)
            patch.start()
            self.addCleanup(patch.stop)
        return recording

    def test_shared(self):
        """The schemas are read once. No thread uses another's converter, and each converter is closed once."""
        recording = self.recorded()
        held = [schemas("order").prepare()]
        held[0].check(ORDER)
        barrier = threading.Barrier(3)

        def work(_):
            for _ in range(3):
                held[0].encode(ORDER)
                held[0].check(ORDER)
            barrier.wait()

        self.in_threads(3, work)
        gc.collect()
        self.assertEqual(recording.count("ruvkhiska_open"), 1)
        self.assertEqual(recording.count("ruvkhiska_share"), 4)
        users = {}
        for name, slot, thread in recording.calls:
            if name in ("ruvkhiska_encode", "ruvkhiska_check"):
                users.setdefault(slot, set()).add(thread)
        self.assertEqual([len(it) for it in users.values()], [1] * 4)
        # Those of the threads that have ended are closed, and with the set the others.
        self.assertEqual(recording.count("ruvkhiska_close"), 3)
        held.clear()
        self.assertEqual(recording.count("ruvkhiska_close"), 5)

    def test_dropped_by_another(self):
        """A thread that drops a set closes the converters of all threads."""
        recording = self.recorded()
        held = [schemas("order").prepare()]
        held[0].check(ORDER)
        gone = weakref.ref(held[0])
        self.in_threads(1, lambda _: held.clear())
        self.assertIsNone(gone())
        self.assertEqual(recording.count("ruvkhiska_close"), 2)

    def test_dropped_in_call(self):
        """A set that is dropped during a call is closed after it."""
        recording = self.recorded()
        held = [schemas("order").prepare()]
        document = b'<order xmlns="urn:po" id="7">' + b"<line><sku>A1</sku><qty>3</qty></line>" * 20_000 + b"</order>"
        began = threading.Event()
        ended = []

        def work(_):
            check = held[0].check
            began.set()
            check(document)
            ended.append(recording.count("ruvkhiska_close"))

        thread = threading.Thread(target=work, args=(0,))
        thread.start()
        began.wait()
        held.clear()
        thread.join()
        self.assertEqual(ended, [0])
        self.assertEqual(recording.count("ruvkhiska_close"), 2)

    def test_shared_without_memory(self):
        """A thread whose converter can't be made gets a MemoryError, and can repeat the call."""
        prepared = schemas("order").prepare()
        with mock.patch.object(_schemas, "library", mock.Mock(wraps=_schemas.library)) as library:
            library.ruvkhiska_share = lambda *_: 30
            self.assertRaises(ruvkhiska.OutOfMemory, prepared.check, ORDER)
        prepared.check(ORDER)

    def test_lock(self):
        """Other threads run during a call."""
        prepared = schemas("order").prepare()
        document = b'<order xmlns="urn:po" id="7">' + b"<line><sku>A1</sku><qty>3</qty></line>" * 20_000 + b"</order>"
        counted = [0]
        during = []

        def work(_):
            for _ in range(3):
                before = counted[0]
                prepared.check(document)
                during.append(counted[0] - before)

        thread = threading.Thread(target=work, args=(0,))
        thread.start()
        while thread.is_alive():
            counted[0] += 1
        thread.join()
        self.assertGreater(max(during), 100)


if __name__ == "__main__":
    unittest.main()
