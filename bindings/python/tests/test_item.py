# SPDX-License-Identifier: Apache-2.0
"""Tries the facts of views of items that the table of rows can't say."""
import math
import unittest

import ciborium_ll
from ciborium_ll import Header, Item, Kind

# {1: "me", -1: [2, 3], "k": h'0102', "k": 0}
MAP = bytes.fromhex("bf01626d6520820203616b420102616b00ff")


def item_of(digits, depth=16):
    return Item(bytes.fromhex(digits), depth)


class Items(unittest.TestCase):
    def test_a_map_is_a_dictionary(self):
        item = Item(b"-" + MAP + b"-", offset=1)
        self.assertEqual((bytes(item), item.depth, item.header), (MAP, 256, Header(Kind.MAP, None)))
        self.assertEqual((len(item), bool(item), bool(item_of("a0"))), (4, True, True))
        self.assertEqual([key.value for key in item], [1, -1, "k", "k"])
        self.assertEqual([value.header.kind for _, value in item.items()],
                         [Kind.TEXT, Kind.ARRAY, Kind.BYTES, Kind.POSITIVE])
        self.assertEqual((item[1].value, item["k"].value, item.get(2), item.get(2, 7)), ("me", b"\1\2", None, 7))
        self.assertEqual((1 in item, "me" in item, -2 in item, "\ud800" in item), (True, False, False, False))
        self.assertEqual(item.get_encoded(b"\x20"), item[-1])
        self.assertRaises(KeyError, lambda: item["me"])
        self.assertRaises(TypeError, lambda: item[1.5])
        self.assertRaises(TypeError, lambda: item[True])

    def test_keys_of_any_size(self):
        for key, digits in ((1 << 63, "1b8000000000000000"), ((1 << 64) - 1, "1bffffffffffffffff"),
                            (-1 - (1 << 63), "3b8000000000000000"), (-(1 << 64), "3bffffffffffffffff")):
            item = item_of(f"a1{digits}05")
            self.assertEqual((item[key].value, next(iter(item)).value), (5, key))
        self.assertNotIn(1 << 64, item)
        self.assertNotIn(-1 - (1 << 64), item)

    def test_an_array_is_a_list(self):
        for digits in "83010203", "9f010203ff":
            item = item_of(digits)
            self.assertEqual([part.value for part in item], [1, 2, 3])
            self.assertEqual((len(item), item[0].value, item[-1].value, item[1].depth), (3, 1, 3, 15))
            self.assertRaises(IndexError, lambda: item[3])
            self.assertRaises(IndexError, lambda: item[-4])
            self.assertRaises(TypeError, lambda: item["a"])
            self.assertRaises(TypeError, lambda: item.get(0))
            self.assertRaises(TypeError, item.items)

    def test_values(self):
        for digits, value in (("1903e8", 1000), ("3903e7", -1000), ("3bffffffffffffffff", -(1 << 64)), ("4101", b"\1"),
                              ("5f41015f4102ff4103ff", b"\1\2\3"), ("62c3bc", "\xfc"), ("7f61616162ff", "ab"),
                              ("f4", False), ("f5", True), ("f6", None), ("f93e00", 1.5), ("fa47c35000", 100000.0),
                              ("fb3ff199999999999a", 1.1), ("fbfff0000000000000", -math.inf)):
            self.assertEqual((item_of(digits).value, type(item_of(digits).value)), (value, type(value)))
        self.assertTrue(math.isnan(item_of("f97e00").value))
        for digits in "80", "a0", "c001", "f7", "f8ff":
            self.assertRaises(TypeError, lambda: item_of(digits).value)

    def test_other_items_are_no_containers(self):
        tag = item_of("c11a514b67b0")
        self.assertEqual((tag.header.value, tag.tagged.value, item_of("80").tagged), (1, 1363896240, None))
        self.assertEqual([bytes(part) for part in item_of("5f41014102ff").within()], [b"\x41\1", b"\x41\2"])
        for digits in "c100", "6161", "01":
            item = item_of(digits)
            self.assertRaises(TypeError, len, item)
            self.assertRaises(TypeError, iter, item)
            self.assertRaises(TypeError, lambda: item[0])

    def test_parts_are_views(self):
        data = bytearray(MAP)
        item = Item(data)
        self.assertIs(item.data.obj, data)
        self.assertIs(item["k"].data.obj, data)
        self.assertEqual((item["k"].body, item[1].body), (b"\1\2", b"me"))
        data[2:5] = b"\x62\xc3\xbc"
        self.assertEqual(item[1].value, "\xfc")

    def test_bytes_that_change_are_no_item(self):
        data = bytearray(MAP)
        item = Item(data)
        data[1] = 0x1c
        self.assertRaises(ciborium_ll.ArgumentError, lambda: item[1])
        self.assertRaises(ciborium_ll.ArgumentError, lambda: list(item.within()))
        data[0] = 0x1c
        self.assertRaises(ciborium_ll.ArgumentError, lambda: item.header)

    def test_faults(self):
        for digits, depth, error_type, place in (
                ("8201", 1, ciborium_ll.ShortError, 2), ("811c", 1, ciborium_ll.CborSyntaxError, 1),
                ("81ff", 1, ciborium_ll.BreakDueError, 1), ("8180", 1, ciborium_ll.TooDeepError, 1)):
            with self.assertRaises(error_type) as caught:
                Item(b"-" + bytes.fromhex(digits), depth, 1)
            self.assertEqual(caught.exception.place, place + 1)
        self.assertRaises(ciborium_ll.ArgumentError, Item, b"\0", 257)
        self.assertRaises(OverflowError, Item, b"\0", 1 << 32)

    def test_equality_and_repr(self):
        self.assertEqual((item_of("01") == item_of("01"), item_of("01") == item_of("1801")), (True, False))
        self.assertEqual(len({item_of("01"), item_of("01"), item_of("02")}), 2)
        self.assertNotEqual(item_of("01"), b"\1")
        self.assertEqual((repr(item_of("9fff")), repr(item_of("01"))), ("<Item: ARRAY *, 2 bytes>",
                                                                        "<Item: POSITIVE 1, 1 bytes>"))


if __name__ == "__main__":
    unittest.main()
