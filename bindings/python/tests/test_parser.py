# SPDX-License-Identifier: Apache-2.0
"""Tries what a parser gives of bytes in pieces."""
import copy
import pickle
import unittest

import ciborium_ll
from ciborium_ll import Began, Closed, Header, Kind, Part

# An array of two: the text "aéb", and a byte string of indefinite length.
DATA = b"\x82\x64a\xc3\xa9b\x5f\x41\x01\xff"
WANT = [Began(Header(Kind.ARRAY, 2), 0), Began(Header(Kind.TEXT, 4), 1), "a\u00e9b", Began(Header(Kind.BYTES, None), 6),
        Began(Header(Kind.BYTES, 1), 7), b"\x01", Closed(9)]


def joined(events):
    """Returns the events, with the parts of a body joined."""
    made = []
    for event in events:
        if not isinstance(event, Part):
            made.append(event)
        elif isinstance(made[-1], (str, bytes)):
            made[-1] += event.data
        else:
            made.append(event.data)
    return made


class Parsers(unittest.TestCase):
    def test_each_cut_gives_the_same(self):
        for first in range(len(DATA) + 1):
            for second in range(first, len(DATA) + 1):
                parser = ciborium_ll.Parser()
                pieces = DATA[:first], bytearray(DATA[first:second]), memoryview(DATA[second:])
                self.assertEqual(joined(parser.events(pieces)), WANT)
                self.assertEqual((parser.consumed, parser.between), (len(DATA), True))

    def test_what_is_left_of_a_body(self):
        parser = ciborium_ll.Parser()
        self.assertEqual(list(parser.push(b"\x43\x01"))[1], Part(b"\x01", 2))
        self.assertEqual(list(parser.push(b"..\x02\x03", 2)), [Part(b"\x02\x03", 0)])

    def test_a_loop_that_ends_early_leaves_the_rest(self):
        parser = ciborium_ll.Parser()
        self.assertEqual(next(parser.push(DATA)), WANT[0])
        self.assertEqual(parser.consumed, 1)
        self.assertEqual(joined(parser.push(DATA, parser.consumed)), WANT[1:])

    def test_an_end(self):
        parser = ciborium_ll.Parser()
        parser.end()
        self.assertEqual(list(parser.push(b"\x19\x01")), [])
        self.assertFalse(parser.between)
        with self.assertRaises(ciborium_ll.Short) as caught:
            parser.end()
        self.assertEqual((caught.exception.place, caught.exception.due), (2, 1))
        self.assertEqual(repr(parser), "<Parser: 2 bytes, more due>")

    def test_a_fault_stays(self):
        for shortest, data, place in (False, b"\x01\x62\xc3\x28", 1), (True, b"\x01\x18\x05", 1):
            parser = ciborium_ll.Parser(shortest=shortest)
            for ask in lambda: list(parser.push(data)), lambda: list(parser.push(b"\0")), parser.end:
                with self.assertRaises(ciborium_ll.Syntax) as caught:
                    ask()
                self.assertEqual(caught.exception.place, place)
            self.assertEqual(repr(parser), f"<Parser: {len(data)} bytes, syntax at {place}>")

    def test_a_copy_goes_on_by_itself(self):
        for make in copy.copy, copy.deepcopy, lambda it: pickle.loads(pickle.dumps(it)):
            first = ciborium_ll.Parser()
            self.assertEqual(list(first.push(b"\x19\x01")), [])
            twin = make(first)
            self.assertEqual(list(first.push(b"\x02")), [Began(Header(Kind.POSITIVE, 0x102), 0)])
            self.assertEqual((first.consumed, twin.consumed, twin.between), (3, 2, False))
            self.assertEqual(list(twin.push(b"\x03")), [Began(Header(Kind.POSITIVE, 0x103), 0)])


if __name__ == "__main__":
    unittest.main()
