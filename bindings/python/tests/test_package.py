# SPDX-License-Identifier: Apache-2.0
"""Tries facts that the table of rows can't say: the bytes that a call takes, the places of errors, and the iterator."""
import array
import ast
import contextlib
import copy
import ctypes
import inspect
import io
import mmap
import pickle
import random
import re
import sys
import typing
import unittest
from pathlib import Path

import ciborium_ll
from ciborium_ll import Error, Header, Kind

MAP = bytes.fromhex("a16161820102")
SOURCE = Path(__file__).resolve().parents[1]


def struct_of(numbers):
    """Returns the bytes of numbers of four bytes each."""
    return b"".join(number.to_bytes(4, "little") for number in numbers)


class Bytes(unittest.TestCase):
    def test_all_that_lends_memory_is_taken(self):
        with mmap.mmap(-1, len(MAP)) as mapped:
            mapped[:] = MAP
            views = memoryview(MAP), memoryview(b"-" + MAP)[1:]
            for data in (MAP, bytearray(MAP), *views, array.array("B", MAP), mapped):
                self.assertEqual(ciborium_ll.skip(data), 6)
                self.assertEqual(ciborium_ll.recode(data, 1).data, b"\xa1")

    def test_memory_of_any_format_is_taken(self):
        # In bytes they are 61 00 00 02 and 19 00 00 05.
        numbers = [0x02000061, 0x05000019]
        plain = struct_of(numbers)
        wide = array.array("I", numbers), (ctypes.c_uint32 * 2)(*numbers), memoryview(plain).cast("I", (2, 1))
        for data in (*wide, (ctypes.c_ubyte * 8)(*plain), pickle.PickleBuffer(plain)):
            titles = list(ciborium_ll.headers(data))
            self.assertEqual([(title.start, title.header.value) for title in titles[:2]], [(0, 1), (2, 0)])
            self.assertEqual((titles[0].body, titles[0].body.format), (b"\0", "B"))
            self.assertEqual(ciborium_ll.pull(data, 4), (Header(Kind.POSITIVE, 0), 4, 7, None))
            self.assertEqual(ciborium_ll.Checker().feed(data, 4), (3, 3, 0))

    def test_what_lends_none_is_refused(self):
        self.assertRaises(TypeError, ciborium_ll.pull, "a1")
        self.assertRaises(BufferError, ciborium_ll.pull, memoryview(MAP)[::2])
        self.assertRaises(BufferError, next, ciborium_ll.headers(memoryview(MAP)[::2]))

    def test_memory_is_given_back(self):
        data = bytearray(b"\x9c")
        for call in (ciborium_ll.pull, ciborium_ll.recode, ciborium_ll.strict, ciborium_ll.skip, ciborium_ll.utf8,
                     ciborium_ll.deterministic, ciborium_ll.canonical):
            self.assertRaises(Error, call, data)
            self.assertRaises(IndexError, call, data, offset=2)
        # A buffer that was not released would refuse this.
        data += MAP

    def test_no_bytes(self):
        for data in (b"", bytearray(), memoryview(b"")):
            self.assertRaises(ciborium_ll.Short, ciborium_ll.pull, data)
            self.assertEqual(ciborium_ll.strict(data, 0), 0)
            self.assertEqual(ciborium_ll.utf8(data), 0)
            self.assertEqual(list(ciborium_ll.headers(data)), [])
            self.assertRaises(ciborium_ll.Short, ciborium_ll.canonical, data)


class Stub(unittest.TestCase):
    def setUp(self):
        stub = ast.parse(Path(ciborium_ll.__file__).with_suffix(".pyi").read_text())
        self.calls = [it for it in stub.body if isinstance(it, ast.FunctionDef)]
        self.classes = [it for it in stub.body if isinstance(it, ast.ClassDef)]
        self.others = [target.id for it in stub.body if isinstance(it, ast.Assign) for target in it.targets]

    def same_types(self, call, there):
        """Returns the types of a call in the stub, and the types that it has at run time."""
        told = typing.get_type_hints(there)
        parameters = [*call.args.args, *call.args.kwonlyargs]
        self.assertEqual([it.arg for it in parameters], list(inspect.signature(there).parameters))
        of_parameters = [(it.arg, it.annotation) for it in parameters if it.arg != "self"]
        for name, type_of in [*of_parameters, ("return", call.returns)]:
            want = eval(compile(ast.Expression(type_of), "", "eval"), dict(vars(ciborium_ll)))
            self.assertEqual(told[name], type(None) if want is None else want, f"{call.name} {name}")

    def test_types_are_given_of_what_is_there(self):
        names = [it.name for it in [*self.calls, *self.classes]] + [it for it in self.others if it[0] != "_"]
        self.assertEqual(sorted(names), sorted(ciborium_ll.__all__))
        for call in self.calls:
            self.same_types(call, getattr(ciborium_ll, call.name))

    def test_types_of_methods(self):
        for it in self.classes:
            there = getattr(ciborium_ll, it.name)
            for call in it.body:
                if isinstance(call, ast.FunctionDef) and not call.args.args[0].annotation:
                    found = getattr(there, call.name)
                    self.same_types(call, found.fget if isinstance(found, property) else found)

    def test_fields_have_their_types(self):
        self.assertEqual(typing.get_type_hints(Header), {"kind": Kind, "value": typing.Optional[int]})
        self.assertEqual(typing.get_type_hints(ciborium_ll.Progress)["length"], typing.Optional[int])

    def test_the_version_is_three_numbers(self):
        self.assertRegex(ciborium_ll.__version__, r"^\d+\.\d+\.\d+$")


class Readme(unittest.TestCase):
    def test_its_programs_run(self):
        said = io.StringIO()
        for block in re.findall(r"```python\n(.*?)```", (SOURCE / "README.md").read_text("utf-8"), re.DOTALL):
            with contextlib.redirect_stdout(said):
                exec(block, {})
        self.assertEqual(said.getvalue().splitlines(), [
            "0 MAP 1", "1 TEXT 1", "3 ARRAY 2", "4 POSITIVE 1", "5 POSITIVE 2", "syntax at 5",
            "me -1 [1, 19] False", "1 TEXT 626d65", "2 NEGATIVE 20", "4 ARRAY 820113", "an item of 5 bytes"])

    @unittest.skipIf(sys.version_info < (3, 11), "Python reads no TOML before 3.11")
    def test_what_the_build_reads_of_the_project(self):
        import tomllib
        sys.path.insert(0, str(SOURCE))
        import build_wheel_here
        sys.path.remove(str(SOURCE))
        with open(SOURCE / "pyproject.toml", "rb") as file:
            project = tomllib.load(file)["project"]
        urls = project.pop("urls")
        self.assertEqual(build_wheel_here.project()["project"], project)
        self.assertEqual(build_wheel_here.project()["project.urls"], urls)


class Numbers(unittest.TestCase):
    def test_numbers_that_c_does_not_hold_are_refused(self):
        for number in (-1, 1 << 64):
            self.assertRaises(OverflowError, ciborium_ll.strict, MAP, number)
            self.assertRaises(OverflowError, ciborium_ll.recode, MAP, number)
            self.assertRaises(OverflowError, ciborium_ll.push, Header(Kind.TAG, number))
        self.assertRaises(OverflowError, ciborium_ll.skip, MAP, 1 << 32)
        self.assertRaises(OverflowError, ciborium_ll.deterministic, MAP, 1 << 32)
        self.assertRaises(OverflowError, ciborium_ll.deterministic, MAP, 64, 1 << 32)
        self.assertRaises(ciborium_ll.Argument, ciborium_ll.deterministic, MAP, 64, 2)
        self.assertRaises(OverflowError, ciborium_ll.canonical, MAP, -1)
        self.assertRaises(OverflowError, ciborium_ll.canonical, MAP, 64, 1 << 32)
        self.assertRaises(ciborium_ll.Argument, ciborium_ll.canonical, MAP, 257)
        self.assertRaises(ciborium_ll.Argument, ciborium_ll.canonical, MAP, 64, 2)
        self.assertRaises(OverflowError, ciborium_ll.push, Header(256, 0))
        self.assertRaises(OverflowError, ciborium_ll.push, Header(Kind.MAP, 0), (1 << 32) + 1)
        self.assertRaises(ciborium_ll.Argument, ciborium_ll.push, Header(12, 0))


class Errors(unittest.TestCase):
    def test_a_place_is_one_of_all_the_bytes(self):
        data = b"\x00\x00\x18\x05"
        with self.assertRaises(ciborium_ll.Syntax) as caught:
            ciborium_ll.strict(data, 1, offset=2)
        self.assertEqual((caught.exception.name, caught.exception.place), ("syntax", 2))
        self.assertEqual(str(caught.exception), "syntax at 2")
        with self.assertRaises(ciborium_ll.Short) as caught:
            ciborium_ll.pull(b"\x00\x19", 1)
        self.assertEqual(caught.exception.place, 2)

    def test_the_deterministic_encoding_is_checked(self):
        self.assertEqual(ciborium_ll.deterministic(b"-" + MAP, offset=1), 6)
        keys = bytes.fromhex("a2186400f400")
        self.assertEqual(ciborium_ll.deterministic(keys, 1), 6)
        with self.assertRaises(ciborium_ll.KeyOrderError) as caught:
            ciborium_ll.deterministic(b"-" + keys, 1, ciborium_ll.Order.LENGTH_FIRST, offset=1)
        self.assertEqual((caught.exception.name, caught.exception.place), ("key_order", 5))
        self.assertRaises(ciborium_ll.NotShortestError, ciborium_ll.deterministic, b"\x18\x05")
        self.assertRaises(ciborium_ll.IndefiniteError, ciborium_ll.deterministic, b"\x9f\xff")
        self.assertRaises(ciborium_ll.DuplicateKeyError, ciborium_ll.deterministic, bytes.fromhex("a201000100"))
        with self.assertRaises(ciborium_ll.ShortError) as caught:
            ciborium_ll.deterministic(bytes.fromhex("008201"), offset=1)
        self.assertEqual((caught.exception.place, caught.exception.due), (3, 0))

    def test_an_error_can_be_sent(self):
        with self.assertRaises(Error) as caught:
            ciborium_ll.skip(MAP, 1)
        sent = pickle.loads(pickle.dumps(caught.exception))
        self.assertEqual((type(sent), sent.place, sent.consumed), (ciborium_ll.TooDeepError, 3, 4))

    def test_each_has_a_second_name(self):
        for name in "Short", "Room", "BreakDue", "TooDeep", "Argument":
            self.assertIs(getattr(ciborium_ll, name), getattr(ciborium_ll, f"{name}Error"))
        self.assertIs(ciborium_ll.Syntax, ciborium_ll.CborSyntaxError)

    def test_its_repr_makes_it_again(self):
        for error in (ciborium_ll.ShortError(3, 1, 0, due=2), ciborium_ll.RoomError(0, 4, 2, 1, 3, b"\x05")):
            again = eval(repr(error), vars(ciborium_ll))
            self.assertEqual((type(again), vars(again)), (type(error), vars(error)))
        short = ciborium_ll.ShortError(3, 1, 0, due=2)
        self.assertEqual(repr(short), "ShortError(place=3, consumed=1, written=0, due=2)")

    def test_what_was_copied_whole(self):
        with self.assertRaises(ciborium_ll.Short) as caught:
            ciborium_ll.recode(b"\x18\x05\x43", 2)
        for error in (caught.exception, pickle.loads(pickle.dumps(caught.exception))):
            self.assertEqual((error.elements, error.whole, error.spelled, error.written), (1, 2, 1, 2))
        with self.assertRaises(ciborium_ll.Short) as caught:
            ciborium_ll.strict(b"\x05\x43", 2)
        error = caught.exception
        self.assertEqual((error.elements, error.whole, error.spelled), (1, 1, 0))


class Texts(unittest.TestCase):
    def test_a_text_in_pieces(self):
        text = "A\u2262\u0391.\U000233b4".encode()
        for size in range(1, len(text) + 1):
            fronts, rest = [], b""
            for start in range(0, len(text), size):
                data = rest + text[start:start + size]
                try:
                    end = ciborium_ll.utf8(data)
                except ciborium_ll.Short as cut:
                    end = cut.place
                fronts.append(data[:end].decode())
                rest = data[end:]
            self.assertEqual(("".join(fronts).encode(), rest), (text, b""))

    def test_what_python_says_of_all_lists_of_two_bytes(self):
        for number in range(1 << 16):
            data = number.to_bytes(2, "big")
            try:
                want = "ok", len(data.decode().encode())
            except UnicodeDecodeError as error:
                want = "short" if error.reason == "unexpected end of data" else "syntax", error.start
            try:
                got = "ok", ciborium_ll.utf8(data)
            except Error as error:
                got = error.name, error.place
            self.assertEqual(got, want, data.hex())

    def test_a_place_is_one_of_all_the_bytes(self):
        with self.assertRaises(ciborium_ll.Syntax) as caught:
            ciborium_ll.utf8(b"\xff\xffa\xff", 2)
        self.assertEqual((caught.exception.place, caught.exception.consumed), (3, 1))


class Checkers(unittest.TestCase):
    def test_each_cut_gives_the_same(self):
        data = bytes.fromhex("bf61618219 03e8 5f420102ff 62c3a9 c1f6 ff 05".replace(" ", ""))
        for cut in range(len(data) - 1):
            checker = ciborium_ll.Checker(2)
            first = checker.feed(data[:cut])
            self.assertEqual((first.consumed, first.length), (cut, None))
            self.assertLessEqual(first.due, len(data) - 1 - cut)
            last = checker.feed(data, cut)
            self.assertEqual(last, (len(data) - 1 - cut, len(data) - 1, 0))
            self.assertEqual(checker.feed(b"\x05"), (0, len(data) - 1, 0))
            self.assertEqual(checker.consumed, len(data) - 1)
            checker.end()

    def test_an_end_within_an_item(self):
        checker = ciborium_ll.Checker()
        checker.end()
        checker.feed(b"\x9f\x19\x03")
        with self.assertRaises(ciborium_ll.Short) as caught:
            checker.end()
        self.assertEqual(caught.exception.place, 3)

    def test_whether_it_has_ended(self):
        checker = ciborium_ll.Checker()
        checker.end()
        self.assertFalse(checker.ended)
        self.assertFalse(checker.feed(b"\x18").ended)
        self.assertFalse(checker.ended)
        self.assertTrue(checker.feed(b"\x05\x05").ended)
        self.assertTrue(checker.ended)
        damaged = ciborium_ll.Checker()
        self.assertRaises(ciborium_ll.Syntax, damaged.feed, b"\x1c")
        self.assertFalse(damaged.ended)

    def test_a_copy_goes_on_by_itself(self):
        for make in copy.copy, copy.deepcopy, lambda it: pickle.loads(pickle.dumps(it)):
            for first in ciborium_ll.Checker(1), ciborium_ll.ItemCopier(1), ciborium_ll.Copier(2):
                first.feed(b"\x81\x19")
                twin = make(first)
                first.feed(b"\x03\xe8")
                self.assertEqual((first.ended, first.consumed, twin.ended, twin.consumed), (True, 4, False, 2))
                self.assertRaises(ciborium_ll.Short, twin.end)
                twin.feed(b"\0\0")
                self.assertEqual((type(twin), twin.ended, twin.consumed), (type(first), True, 4))

    def test_its_repr_tells_how_far_it_is(self):
        checker = ciborium_ll.Checker(1)
        told = [repr(checker)]
        for data in b"\x81", b"\x05":
            checker.feed(data)
            told.append(repr(checker))
        deep = ciborium_ll.ItemCopier(1)
        self.assertRaises(ciborium_ll.TooDeep, deep.feed, b"\x81\x81")
        self.assertEqual([*told, repr(deep), repr(ciborium_ll.Copier(0))], [
            "<Checker: 0 bytes, more due>", "<Checker: 1 bytes, more due>", "<Checker: 2 bytes, ended>",
            "<ItemCopier: 2 bytes, too_deep at 1>", "<Copier: 0 bytes, ended>"])

    def test_a_fault_stays(self):
        checker = ciborium_ll.Checker(1)
        checker.feed(b"\x81")
        for data, consumed in (b"\x81\x01", 1), (b"\x01", 0), (b"", 0):
            with self.assertRaises(ciborium_ll.TooDeep) as caught:
                checker.feed(data)
            self.assertEqual((caught.exception.place, caught.exception.consumed), (1, consumed))
        self.assertRaises(ciborium_ll.TooDeep, checker.end)

    def test_what_is_refused(self):
        self.assertRaises(ciborium_ll.Argument, ciborium_ll.Checker, 257)
        self.assertRaises(OverflowError, ciborium_ll.Checker, 1 << 32)
        self.assertRaises(TypeError, ciborium_ll.Checker().feed, "a1")


class Copiers(unittest.TestCase):
    def test_each_cut_gives_the_same(self):
        data = bytes.fromhex("a1 7802c3a9 5f580101ff 1903e8 1b0000000000000005 07")
        whole, length = ciborium_ll.recode(data, 5)
        for cut in range(length):
            copier = ciborium_ll.Copier(5)
            first = copier.feed(data[:cut])
            self.assertEqual((first.consumed, first.ended), (cut, False))
            self.assertTrue(whole.startswith(first.data))
            with self.assertRaises(ciborium_ll.Short) as caught:
                copier.end()
            self.assertEqual(caught.exception.place, cut)
            last = copier.feed(data, cut)
            self.assertEqual((first.data + last.data, last.consumed, last.ended), (whole, length - cut, True))
            self.assertEqual(copier.feed(b"\x05"), (b"", 0, True))
            self.assertEqual(copier.consumed, length)
            copier.end()

    def test_a_fault_stays(self):
        copier = ciborium_ll.Copier(3)
        copier.feed(b"\x18")
        for data, consumed, made in (b"\x05\x1c", 2, b"\x05"), (b"\x01", 0, b""), (b"", 0, b""):
            with self.assertRaises(ciborium_ll.Syntax) as caught:
                copier.feed(data)
            error = caught.exception
            self.assertEqual((error.place, error.consumed, error.written, error.data), (2, consumed, len(made), made))
        self.assertRaises(ciborium_ll.Syntax, copier.end)

    def test_no_elements(self):
        copier = ciborium_ll.Copier(0)
        copier.end()
        self.assertTrue(copier.ended)
        self.assertEqual(copier.feed(b"\x05"), (b"", 0, True))

    def test_what_is_refused(self):
        self.assertRaises(OverflowError, ciborium_ll.Copier, 1 << 64)
        self.assertRaises(TypeError, ciborium_ll.Copier().feed, "a1")


class ItemCopiers(unittest.TestCase):
    def test_each_cut_gives_the_same(self):
        data = bytes.fromhex("82 a1 7802c3a9 5f580101ff 1b0000000000000005 07")
        length = ciborium_ll.skip(data)
        whole = ciborium_ll.recode(data, 5).data
        for cut in range(1, length):
            copier = ciborium_ll.ItemCopier(2)
            first = copier.feed(data[:cut])
            self.assertEqual((first.consumed, first.ended), (cut, False))
            with self.assertRaises(ciborium_ll.Short) as caught:
                copier.end()
            self.assertEqual(caught.exception.place, cut)
            self.assertTrue(0 < caught.exception.due <= length - cut)
            last = copier.feed(data, cut)
            self.assertEqual((first.data + last.data, last.consumed, last.ended), (whole, length - cut, True))
            self.assertEqual(copier.feed(b"\x05"), (b"", 0, True))
            copier.end()

    def test_a_fault_stays_and_its_byte_is_not_written(self):
        copier = ciborium_ll.ItemCopier(1)
        for data, consumed, made in (b"\x82\x05\x81", 3, b"\x82\x05"), (b"\x01", 0, b""):
            with self.assertRaises(ciborium_ll.TooDeep) as caught:
                copier.feed(data)
            error = caught.exception
            self.assertEqual((error.place, error.consumed, error.data), (2, consumed, made))
        self.assertRaises(ciborium_ll.TooDeep, copier.end)

    def test_the_shortest_spelling_alone(self):
        self.assertTrue(ciborium_ll.ItemCopier(shortest=True).feed(b"\x18\x18").ended)
        self.assertRaises(ciborium_ll.Syntax, ciborium_ll.ItemCopier(shortest=True).feed, b"\x18\x05")

    def test_what_is_refused(self):
        ciborium_ll.ItemCopier().end()
        self.assertFalse(ciborium_ll.ItemCopier().ended)
        self.assertRaises(ciborium_ll.Argument, ciborium_ll.ItemCopier, 257)
        self.assertRaises(OverflowError, ciborium_ll.ItemCopier, 1 << 32)


class Headers(unittest.TestCase):
    def test_titles_and_bodies(self):
        got = [(title.start, title.end, title.header.kind.name, title.header.value, title.body)
               for title in ciborium_ll.headers(b"-" + bytes.fromhex("9f0a63e2818c5f4101ffff"), 1)]
        self.assertEqual(got, [
            (1, 2, "ARRAY", None, None),
            (2, 3, "POSITIVE", 10, None),
            (3, 4, "TEXT", 3, "\u204c".encode()),
            (7, 8, "BYTES", None, None),
            (8, 9, "BYTES", 1, b"\x01"),
            (10, 11, "BREAK", 0, None),
            (11, 12, "BREAK", 0, None),
        ])

    def test_a_body_is_a_view(self):
        data = bytearray(b"\x42ab")
        title = next(ciborium_ll.headers(data))
        data[1] = ord("c")
        self.assertEqual(title.body, b"cb")

    def test_faults_come_where_they_stand(self):
        titles = ciborium_ll.headers(bytes.fromhex("0061ff"))
        self.assertEqual(next(titles).header, (Kind.POSITIVE, 0))
        with self.assertRaises(ciborium_ll.Syntax) as caught:
            next(titles)
        self.assertEqual(caught.exception.place, 1)

    def test_a_string_that_is_cut_has_no_title(self):
        titles = ciborium_ll.headers(b"\x05\x62a")
        self.assertEqual(next(titles).start, 0)
        with self.assertRaises(ciborium_ll.Short) as caught:
            next(titles)
        error = caught.exception
        self.assertEqual((error.place, error.consumed, error.due), (2, 1, 1))
        self.assertEqual(list(titles), [])

    def test_bytes_are_held_up_to_the_end_alone(self):
        data = bytearray(b"\x05" * 2000)
        titles = ciborium_ll.headers(data)
        next(titles)
        self.assertRaises(BufferError, data.append, 5)
        self.assertEqual(len(list(titles)), 1999)
        titles.close()
        data.append(5)

    def test_iterators_go_on_by_themselves(self):
        data = [bytes([number]) * 600 for number in range(4)]
        for got in zip(*(ciborium_ll.headers(it) for it in data)):
            self.assertEqual([title.header.value for title in got], [0, 1, 2, 3])


def one_by_one(data, offset):
    """Gives each title as ``headers`` has to, by the calls that read one title and skip one string."""
    view, start = memoryview(data), offset
    while start < len(data):
        title = ciborium_ll.pull(data, start)
        end = title.end
        if title.header.kind in (Kind.BYTES, Kind.TEXT) and title.header.value is not None:
            end = start + ciborium_ll.skip(data, 0, start)
            title = title._replace(body=view[title.end:end])
        yield title
        start = end


def told_by(titles):
    """Returns all titles with the types of their parts, and the error that ends them."""
    told = []
    try:
        for title in titles:
            told.append((type(title), title, type(title.header), type(title.header.kind), type(title.header.value),
                         type(title.body)))
    except Error as error:
        told.append((type(error), str(error), vars(error)))
    return told


class Differences(unittest.TestCase):
    """Holds ``headers``, which reads many titles by one call, to one call for each title."""

    def setUp(self):
        self.random = random.Random(7)

    def title(self):
        """Returns a title of any kind, with a body if a string has to have one, and sometimes with a damaged one."""
        kind, pick = self.random.choice(list(Kind)), self.random.random()
        if kind in (Kind.BYTES, Kind.TEXT) and pick < 0.9:
            body = self.random.choice(["", "a", "\u204c", "\U000233b4", "z" * 300]).encode()
            if pick < 0.01:
                body = body[:-1]
            width = self.random.choice([None, 4])
            return ciborium_ll.push(Header(kind, len(body)), width) + body
        if kind in (Kind.BYTES, Kind.TEXT, Kind.ARRAY, Kind.MAP) and pick < 0.95:
            return ciborium_ll.push(Header(kind, None))
        most = {Kind.BYTES: 20, Kind.TEXT: 20, Kind.SIMPLE: 255, Kind.HALF: 65535, Kind.SINGLE: (1 << 32) - 1}
        if kind == Kind.BREAK:
            return b"\xff"
        value = self.random.choice([0, 20, 23, 255, 256, 65536, (1 << 64) - 1])
        return ciborium_ll.push(Header(kind, min(value, most.get(kind, value))))

    def same(self, data, offset=0):
        self.assertEqual(told_by(ciborium_ll.headers(data, offset)), told_by(one_by_one(data, offset)), data.hex())

    def test_all_lists_of_two_bytes(self):
        for number in range(1 << 16):
            self.same(number.to_bytes(2, "big"))

    def test_titles_at_random(self):
        for number in range(600):
            titles = [self.title() for _ in range(self.random.choice([1, 7, 8, 9, 30, 41, 170]))]
            data = bytes(self.random.randrange(4)) + b"".join(titles)
            self.same(data, self.random.randrange(min(4, len(data) + 1)))
            self.same(data[:self.random.randrange(len(data) + 1)])

    def test_bytes_at_random(self):
        for number in range(2000):
            self.same(bytes(self.random.choices(range(256), k=self.random.randrange(40))))

    def test_a_fault_after_each_number_of_titles(self):
        for number in (*range(45), 167, 168, 169, 679, 680, 681, 1191, 1192, 1193):
            for end in b"", b"\x1c", b"\x19", b"\x62a", b"\x62\xff\xff", b"\x7a\0\0\0\x02\xc3(", b"\x61a\x5b":
                self.same(b"\x01" * number + end)


class Canonical(unittest.TestCase):
    def test_it_is_the_one_encoding(self):
        keys = bytes.fromhex("bff400186400ff")
        self.assertEqual(ciborium_ll.canonical(keys, 1), bytes.fromhex("a2186400f400"))
        self.assertEqual(ciborium_ll.canonical(keys, 1, ciborium_ll.Order.LENGTH_FIRST), bytes.fromhex("a2f400186400"))
        self.assertEqual(ciborium_ll.canonical(b"-\x18\x05-", offset=1), b"\x05")
        self.assertIs(type(ciborium_ll.canonical(bytearray(MAP))), bytes)
        self.assertEqual(ciborium_ll.canonical(memoryview(MAP)), MAP)

    def test_places_are_those_of_all_the_bytes(self):
        for digits, depth, error_type, place in (
                ("a201000100", 1, ciborium_ll.DuplicateKeyError, 3), ("8201f818", 1, ciborium_ll.CborSyntaxError, 2),
                ("bf01ff", 1, ciborium_ll.BreakDueError, 2), ("8180", 1, ciborium_ll.TooDeepError, 1),
                ("5f4101", 0, ciborium_ll.ShortError, 3)):
            with self.assertRaises(error_type) as caught:
                ciborium_ll.canonical(b"-" + bytes.fromhex(digits), depth, offset=1)
            error = caught.exception
            self.assertEqual((error.place, error.consumed, error.written, error.due), (place + 1, place, 0, 0))

    def test_maps_that_need_many_spans(self):
        for pairs in (3, 40, 300, 3000):
            # The keys are of one byte, of two, or of three. Each value is 0.
            keys = [ciborium_ll.push(Header(Kind.POSITIVE, number)) for number in range(pairs)]
            for given in keys, keys[::-1]:
                data = b"\xbf" + b"".join(key + b"\0" for key in given) + b"\xff"
                want = ciborium_ll.push(Header(Kind.MAP, pairs)) + b"".join(key + b"\0" for key in keys)
                self.assertEqual(ciborium_ll.canonical(data, 1), want)

    def test_encodings_that_are_longer_than_the_item(self):
        # An array of indefinite length with 256 items has a shorter title than one of definite length.
        data = b"\x9f" + b"\0" * 256 + b"\xff"
        item = b"\x9f" + data * 40 + b"\xff"
        want = b"\x98\x28" + (b"\x99\x01\0" + b"\0" * 256) * 40
        self.assertGreater(len(want), len(item))
        self.assertEqual(ciborium_ll.canonical(item), want)

    def test_what_it_writes_is_deterministic_and_stays(self):
        for number in range(1 << 16):
            data = number.to_bytes(2, "big")
            try:
                made = ciborium_ll.canonical(data)
            except Error as error:
                # A simple value from 24 to 31 means nothing. Each other fault is that of a skip.
                if not (data[0] == 0xf8 and 24 <= data[1] < 32 and isinstance(error, ciborium_ll.Syntax)):
                    self.assertRaises(type(error), ciborium_ll.skip, data)
                continue
            self.assertEqual(ciborium_ll.deterministic(made), len(made))
            self.assertEqual(ciborium_ll.canonical(made), made)


if __name__ == "__main__":
    unittest.main()
