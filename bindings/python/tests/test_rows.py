# SPDX-License-Identifier: Apache-2.0
"""Holds the package to the table of rows that every binding is held to."""
import unittest
from pathlib import Path

import ciborium_ll
from ciborium_ll import Header, Kind, Order

# The table is in the parent folder of the package in the repository, and in this folder in a source archive.
HERE = Path(__file__).resolve()
TABLE = next(at for at in (HERE.with_name("rows"), HERE.parents[2] / "tests" / "rows") if at.exists())


def told(header):
    """Returns a header as the table shows it."""
    return f"{header.kind.name.lower()}/{'*' if header.value is None else header.value}"


def header_of(text):
    kind, value = text.split("/")
    return Header(Kind[kind.upper()], None if value == "*" else int(value))


def made(call, number, given):
    """Returns how many bytes a call consumes, and what it makes."""
    data = b"" if given == "-" or call in ("push", "wide") else bytes.fromhex(given)
    if call == "pull":
        title = ciborium_ll.pull(data)
        return title.end, f"{told(title.header)}/{ciborium_ll.push(title.header).hex()}"
    if call == "push":
        return 0, ciborium_ll.push(header_of(given)).hex()
    if call == "wide":
        return 0, ciborium_ll.push(header_of(given), number).hex()
    if call == "recode":
        out, consumed = ciborium_ll.recode(data, number)
        return consumed, out.hex() or "-"
    if call == "utf8":
        return ciborium_ll.utf8(data), "-"
    if call == "item":
        item = ciborium_ll.Item(data, number)
        assert item.data == data[:len(item.data)]
        return len(item.data), viewed(item)
    if call in ("canonical", "canonical_length_first"):
        order = Order.BYTEWISE if call == "canonical" else Order.LENGTH_FIRST
        out = ciborium_ll.canonical(data, number, order)
        return ciborium_ll.skip(data, number), out.hex()
    if call in ("deterministic", "length_first"):
        order = Order.BYTEWISE if call == "deterministic" else Order.LENGTH_FIRST
        return ciborium_ll.deterministic(data, number, order), "-"
    return {"strict": ciborium_ll.strict, "skip": ciborium_ll.skip}[call](data, number), "-"


def viewed(item):
    """Returns an item with all that it contains as the table shows it, by views of its parts."""
    header, body, parts = told(item.header), item.body, [viewed(part) for part in item.within()]
    if body is not None:
        assert not parts
        return f"{header}={body.hex()}"
    if Kind.BYTES <= item.header.kind <= Kind.TAG:
        return f"{header}[{','.join(parts)}]"
    assert not parts
    return header


def found(call, key, data):
    """Looks a key up in an item, and returns its value as the table shows it."""
    item = ciborium_ll.Item(data, 16)
    if item.header.kind != Kind.MAP:
        with unittest.TestCase().assertRaises(TypeError):
            item.get(1)
        return "absent", 0, 0, "-"
    if call == "get":
        value = item.get_encoded(b"" if key == "-" else bytes.fromhex(key))
    else:
        name = int(key) if call == "get_int" else key.strip("-")
        value = item.get(name)
        assert (name in item) == (value is not None)
    return ("absent", 0, 0, "-") if value is None else ("ok", 0, 0, viewed(value))


def listed(data):
    """Goes over the titles, and returns them and the answer as the table shows them."""
    told_titles, taken, name, place = [], 0, "ok", 0
    try:
        for title in ciborium_ll.headers(data):
            told_titles.append(f"{told(title.header)}/{title.start}/{title.end}")
            taken = title.end + (0 if title.body is None else len(title.body))
    except ciborium_ll.Error as error:
        name, place = error.name, taken if error.name == "short" else error.place
    return name, taken, place, ",".join(told_titles) or "-"


def fed(depth, data, shortest):
    """Gives a checker the bytes one by one, and returns its answer as the table shows it."""
    taken = 0
    try:
        checker = ciborium_ll.Checker(depth, shortest=shortest)
        progress = checker.feed(b"")
        for at in range(len(data)):
            progress = checker.feed(data[:at + 1], at)
            taken = checker.consumed
            assert progress.ended == checker.ended == (progress.length is not None)
    except ciborium_ll.Error as error:
        return error.name, taken + error.consumed, error.place, "-"
    if progress.length is None:
        return "short", taken, taken, f"due/{progress.due}"
    return "ok", taken, 0, f"length/{progress.length}"


def copied(count, data, shortest):
    """Gives a copier the bytes one by one, and returns its copy as the table shows it."""
    copier, out = ciborium_ll.Copier(count, shortest=shortest), b""
    try:
        got = copier.feed(b"")
        for at in range(len(data)):
            got = copier.feed(data[:at + 1], at)
            out += got.data
    except ciborium_ll.Error as error:
        return error.name, copier.consumed, error.place, (out + error.data).hex() or "-"
    taken = copier.consumed
    assert got.ended == copier.ended
    return ("ok", taken, 0, out.hex() or "-") if got.ended else ("short", taken, taken, out.hex() or "-")


def parsed(size, data, shortest):
    """Pushes the bytes to a parser in pieces of some size, and returns its answer as the table shows it."""
    parser, made = ciborium_ll.Parser(shortest=shortest), []
    try:
        for event in parser.events(data[at:at + size] for at in range(0, len(data), size)):
            if isinstance(event, ciborium_ll.Began):
                made.append(f"{told(event.header)}/{event.place}")
            elif isinstance(event, ciborium_ll.Closed):
                made.append(f"close/{event.place}")
            else:
                part = event.data.encode() if isinstance(event.data, str) else event.data
                made[-1] += ("" if "=" in made[-1] else "=") + part.hex()
    except ciborium_ll.Error as error:
        assert not parser.between
        if error.name == "short":
            made.append(f"due/{error.due}")
        return error.name, parser.consumed, error.place, ",".join(made) or "-"
    assert parser.between
    return "ok", parser.consumed, 0, ",".join(made) or "-"


class Rows(unittest.TestCase):
    def test_rows(self):
        rows = [line.split() for line in TABLE.read_text().splitlines() if line and not line.startswith("#")]
        self.assertGreater(len(rows), 50)
        for call, number, given, answer, consumed, place, want in rows:
            with self.subTest(call=call, number=number, given=given):
                if answer == "room":
                    # `push` of the package always has room.
                    continue
                if call in ("feed", "feed_strict"):
                    data = b"" if given == "-" else bytes.fromhex(given)
                    got = fed(int(number), data, call == "feed_strict")
                    self.assertEqual(got, (answer, int(consumed), int(place), want))
                    continue
                if call in ("get", "get_text", "get_int"):
                    got = found(call, number, bytes.fromhex(given))
                    self.assertEqual(got, (answer, int(consumed), int(place), want))
                    continue
                if call == "headers":
                    got = listed(b"" if given == "-" else bytes.fromhex(given))
                    self.assertEqual(got, (answer, int(consumed), int(place), want))
                    continue
                if call in ("events", "events_strict"):
                    data = b"" if given == "-" else bytes.fromhex(given)
                    got = parsed(int(number), data, call == "events_strict")
                    self.assertEqual(got, (answer, int(consumed), int(place), want))
                    continue
                if call in ("copy", "copy_strict"):
                    data = b"" if given == "-" else bytes.fromhex(given)
                    got = copied(int(number), data, call == "copy_strict")
                    self.assertEqual(got, (answer, int(consumed), int(place), want))
                    continue
                try:
                    got = ("ok", *made(call, number == "-" or int(number), given))
                except ciborium_ll.Error as error:
                    got = (error.name, error.consumed, error.place)
                    # After the bytes written stands how many more bytes are due. If nothing was written, that number
                    # stands alone.
                    out, cut, due = want.rpartition("due/")
                    out = (out if cut else want).strip("-/")
                    self.assertEqual((error.written, error.due), (len(out) // 2, int(due) if cut else 0))
                self.assertEqual(got, (answer, int(consumed), want if answer == "ok" else int(place)))


if __name__ == "__main__":
    unittest.main()
