# SPDX-License-Identifier: Apache-2.0
"""Reads and writes CBOR (RFC 7049, 2.1 to 2.4) in memory, one header at a time. Every answer of the library is proved.

A call reads the bytes of any object with the buffer protocol in place: ``bytes``, ``bytearray``, ``memoryview``,
``mmap``, ``array`` and others. No other thread may change the bytes while a call reads them. A call that fails raises
an ``Error`` with a name and a place.

A sequence of items may be empty, so ``end()`` of a ``Checker`` to which no byte came raises nothing. ``ended`` tells
whether the item has ended.
"""
import array
import collections.abc
import ctypes
import enum
import itertools
import mmap
import os
from typing import Any, ClassVar, Dict, Iterable, Iterator, NamedTuple, Optional, Tuple, Type, Union

__all__ = ["Kind", "Header", "Title", "Recoded", "Error", "ShortError", "CborSyntaxError", "RoomError", "BreakDueError",
           "TooDeepError", "ArgumentError", "NotShortestError", "IndefiniteError", "KeyOrderError", "DuplicateKeyError",
           "Short", "Syntax", "Room", "BreakDue", "TooDeep", "Argument", "Order", "Progress", "Checker", "Copied",
           "Copier", "ItemCopier", "Item", "Parser", "Began", "Closed", "Part", "pull", "push", "recode", "strict",
           "skip", "deterministic", "canonical", "utf8", "headers"]

# An object with the buffer protocol. Python has a name for it from 3.12 on.
_Bytes = getattr(collections.abc, "Buffer", Union[bytes, bytearray, memoryview, mmap.mmap, array.array])
_Pieces = Iterable[_Bytes]

# The versions of the library that have the calls of this package begin with this.
_INTERFACE = "0.1"


class Kind(enum.IntEnum):
    """The kind of a title, by what the title begins or is."""

    POSITIVE = 0
    NEGATIVE = 1
    BYTES = 2
    TEXT = 3
    ARRAY = 4
    MAP = 5
    TAG = 6
    SIMPLE = 7
    HALF = 8
    SINGLE = 9
    DOUBLE = 10
    BREAK = 11


class Order(enum.IntEnum):
    """The order of the keys of a map, by their encodings.

    ``BYTEWISE`` is by their bytes (RFC 8949, 4.2.1). With ``LENGTH_FIRST`` the shorter one comes first, and keys of the
    same length go by their bytes (4.2.3).
    """

    BYTEWISE = 0
    LENGTH_FIRST = 1


class Header(NamedTuple):
    """What a title means.

    ``value`` is the number, the length in bytes, the count of items or of pairs, or a float's raw bits. NEGATIVE means
    the number -1 - value. ``value`` is ``None`` for an indefinite form, and 0 for a break.
    """

    kind: Kind
    value: Optional[int]


class Title(NamedTuple):
    """A header, the offsets at which its title starts and ends, and the body of a string of a definite length."""

    header: Header
    start: int
    end: int
    body: Optional[memoryview]


class Recoded(NamedTuple):
    """Elements in their shortest spelling, and how many bytes the call read for them."""

    data: bytes
    consumed: int


class Progress(NamedTuple):
    """How far an item has come.

    ``consumed`` is how many bytes of a piece were taken. ``length`` is the length of the item, or ``None`` if it has
    not ended. ``due`` is how many more bytes are due at least, and 0 if the item has ended.
    """

    consumed: int
    length: Optional[int]
    due: int

    @property
    def ended(self) -> bool:
        """Tells whether the item has ended."""
        return self.length is not None


class Copied(NamedTuple):
    """The answer of a copier to a piece of elements.

    ``data`` is all that can be written of the elements so far, and that no answer had before. ``consumed`` is how many
    bytes of the piece were taken. ``ended`` tells whether all elements have come.
    """

    data: bytes
    consumed: int
    ended: bool


class Error(ValueError):
    """Why a call failed.

    ``name`` names the answer. ``place`` is the offset that the answer names, in all of the bytes. With ``short`` it is
    the offset at which the read stopped.

    ``consumed`` and ``written`` say how far the call came. ``elements`` is how many elements ``recode`` and ``strict``
    did whole. ``whole`` is how many bytes these elements have. ``spelled`` is how many of the bytes that ``recode``
    wrote are their spelling. ``data`` is the bytes that a ``Copier`` wrote.

    ``due`` is how many more bytes ``recode``, ``strict``, ``skip``, a ``Checker`` and an ``ItemCopier`` need at least
    with ``short``. It is 0 if no bytes that may follow complete the input, and with any other answer.
    """

    name: str = "error"

    def __init__(self, place: int, consumed: int, written: int, elements: int = 0, whole: int = 0, data: bytes = b"",
                 due: int = 0, spelled: int = 0) -> None:
        super().__init__(f"{self.name} at {place}")
        self.place, self.consumed, self.written = place, consumed, written
        self.elements, self.whole, self.data, self.due, self.spelled = elements, whole, data, due, spelled

    def __reduce__(self) -> Tuple[Any, ...]:
        return type(self), (self.place, self.consumed, self.written, self.elements, self.whole, self.data, self.due,
                            self.spelled)

    def __repr__(self) -> str:
        more = ((name, getattr(self, name)) for name in ("elements", "whole", "data", "due", "spelled"))
        told = "".join(f", {name}={value!r}" for name, value in more if value)
        return f"{type(self).__name__}(place={self.place}, consumed={self.consumed}, written={self.written}{told})"


class ShortError(Error):
    """The bytes end too early."""

    name = "short"


class CborSyntaxError(Error):
    """At the place stands no CBOR, or for ``utf8`` no UTF-8, that may stand there."""

    name = "syntax"


class RoomError(Error):
    """The next thing to write has no room."""

    name = "room"


class BreakDueError(Error):
    """At the place a break stands in place of an item."""

    name = "break_due"


class TooDeepError(Error):
    """At the place a tag, an array or a map stands deeper than the caller allows."""

    name = "too_deep"


class ArgumentError(Error):
    """An argument is out of its range, and the call did nothing."""

    name = "argument"


class NotShortestError(Error):
    """At the place stands a title that is longer than need be, or a float that fits a smaller width."""

    name = "not_shortest"


class IndefiniteError(Error):
    """At the place stands the title of an indefinite form, or a break."""

    name = "indefinite"


class KeyOrderError(Error):
    """At the place stands a key that comes before the key of the pair before it."""

    name = "key_order"


class DuplicateKeyError(Error):
    """At the place stands a key that its map has before it."""

    name = "duplicate_key"


# Shorter names for the same errors.
Short, Syntax, Room, BreakDue, TooDeep, Argument = (
    ShortError, CborSyntaxError, RoomError, BreakDueError, TooDeepError, ArgumentError)

_KINDS = tuple(Kind)
_STRINGS = (Kind.BYTES, Kind.TEXT)

# Headers are made once if their value is below this, by kind and value, and those of an indefinite form by kind.
_SMALL = 256
_HEADERS = tuple(tuple(Header(kind, value) for value in range(_SMALL)) for kind in _KINDS)
_OPENS = tuple(Header(kind, None) for kind in _KINDS)

# How many titles `headers` reads by its first call of the library, how many times more by the next, and the most.
_FIRST, _TIMES, _MOST = 8, 4, 512

# Makes a tuple of a class that NamedTuple made, in less time than the class does.
_NEW = tuple.__new__

# The errors by the numbers of the answers. The library never answers 4 for bytes in memory.
_ERRORS: Dict[int, Type[Error]] = {1: ShortError, 2: CborSyntaxError, 3: RoomError, 5: BreakDueError, 6: TooDeepError,
                                   7: ArgumentError, 8: NotShortestError, 9: IndefiniteError, 10: KeyOrderError,
                                   11: DuplicateKeyError}


class _Header(ctypes.Structure):
    _fields_ = [("value", ctypes.c_uint64), ("kind", ctypes.c_uint8), ("indefinite", ctypes.c_uint8)]


class _Title(ctypes.Structure):
    _fields_ = [*((name, ctypes.c_uint64) for name in ("value", "start", "end")), ("kind", ctypes.c_uint8),
                ("indefinite", ctypes.c_uint8)]


class _Span(ctypes.Structure):
    _fields_ = [(name, ctypes.c_uint64) for name in ("start", "key_end", "end")]


class _Report(ctypes.Structure):
    _fields_ = [(name, ctypes.c_uint64) for name in ("consumed", "written", "place", "elements", "whole", "spelled")]


class _Checker(ctypes.Structure):
    _fields_ = [("words", ctypes.c_uint64 * 296)]


class _Parser(ctypes.Structure):
    _fields_ = [("words", ctypes.c_uint64 * 7)]


class _Copier(ctypes.Structure):
    _fields_ = [("words", ctypes.c_uint64 * 9)]


class _ItemCopier(ctypes.Structure):
    _fields_ = [("words", ctypes.c_uint64 * 304)]


class _Buffer(ctypes.Structure):
    """The Py_buffer of Python's own interface for C."""

    _fields_ = [("buf", ctypes.c_void_p), ("obj", ctypes.c_void_p), ("len", ctypes.c_ssize_t),
                ("itemsize", ctypes.c_ssize_t), ("readonly", ctypes.c_int), ("ndim", ctypes.c_int),
                ("format", ctypes.c_void_p), ("shape", ctypes.c_void_p), ("strides", ctypes.c_void_p),
                ("suboffsets", ctypes.c_void_p), ("internal", ctypes.c_void_p)]


def _named() -> str:
    """Returns the library's file, or the name by which the system finds it.

    The file is the one that CIBORIUM_LL_LIBRARY names, that of the wheel, that of an editable install, or the one near
    the source. Otherwise it is the name.
    """
    here = os.path.dirname(os.path.abspath(__file__))
    inside = os.path.join(here, "libciborium_ll.so")
    if os.environ.get("CIBORIUM_LL_LIBRARY"):
        return os.environ["CIBORIUM_LL_LIBRARY"]
    if os.path.exists(inside):
        return inside
    try:
        from _ciborium_ll_library import LIBRARY
        return LIBRARY
    except ImportError:
        pass
    source = os.path.dirname(here)
    if os.path.exists(os.path.join(source, "build_wheel_here.py")):
        for folder in "out", "lib":
            near = os.path.join(os.path.dirname(source), folder, "libciborium_ll.so")
            if os.path.exists(near):
                return near
    return f"libciborium_ll.so.{_INTERFACE}"


def _version_of(calls: ctypes.CDLL) -> str:
    number = calls.cll_version()
    return f"{number >> 16}.{number >> 8 & 255}.{number & 255}"


def _library() -> ctypes.CDLL:
    """Returns the library's calls. An ImportError says what is missing."""
    name = _named()
    try:
        calls = ctypes.CDLL(name)
        version = _version_of(calls)
    except (OSError, AttributeError) as error:
        raise ImportError(f"ciborium_ll lacks its shared library: {error}. The variable CIBORIUM_LL_LIBRARY names its "
                          "file, which `make -C bindings` of the repository leaves in bindings/out") from None
    if not f"{version}.".startswith(f"{_INTERFACE}."):
        raise ImportError(f"{name} has the version {version}, and this package takes {_INTERFACE} alone. The variable "
                          "CIBORIUM_LL_LIBRARY names another one")
    data, size, number = ctypes.c_void_p, ctypes.c_size_t, ctypes.c_uint64
    header, report = ctypes.POINTER(_Header), ctypes.POINTER(_Report)
    checker, copier, item = map(ctypes.POINTER, (_Checker, _Copier, _ItemCopier))
    calls.cll_pull.argtypes = [data, size, header, ctypes.POINTER(size)]
    calls.cll_headers.argtypes = [data, size, data, size, report]
    calls.cll_push.argtypes = [header, data, size, report]
    calls.cll_push_wide.argtypes = [header, ctypes.c_uint32, data, size, report]
    calls.cll_recode.argtypes = [data, size, number, data, size, report]
    calls.cll_strict.argtypes = [data, size, number, report]
    calls.cll_skip.argtypes = [data, size, ctypes.c_uint32, report]
    calls.cll_deterministic.argtypes = [data, size, ctypes.c_uint32, ctypes.c_uint32, report]
    calls.cll_canonical.argtypes = [data, size, ctypes.c_uint32, ctypes.c_uint32, data, size, data, size, report]
    calls.cll_utf8.argtypes = [data, size, report]
    calls.cll_checker_init.argtypes = [checker, ctypes.c_uint32]
    calls.cll_checker_init_strict.argtypes = [checker, ctypes.c_uint32]
    calls.cll_checker_feed.argtypes = [checker, data, size, report]
    calls.cll_checker_end.argtypes = [checker, report]
    calls.cll_copier_init.argtypes = [copier, number]
    calls.cll_copier_init_strict.argtypes = [copier, number]
    calls.cll_copier_feed.argtypes = [copier, data, size, data, size, report]
    calls.cll_copier_end.argtypes = [copier, report]
    calls.cll_item_copier_init.argtypes = [item, ctypes.c_uint32]
    calls.cll_item_copier_init_strict.argtypes = [item, ctypes.c_uint32]
    calls.cll_item_copier_feed.argtypes = [item, data, size, data, size, report]
    calls.cll_item_copier_end.argtypes = [item, report]
    calls.cll_version.argtypes = []
    for call in ("version pull headers push push_wide recode strict skip deterministic canonical utf8 checker_init "
                 "checker_init_strict checker_feed checker_end copier_init copier_init_strict copier_feed copier_end "
                 "item_copier_init item_copier_init_strict item_copier_feed item_copier_end").split():
        getattr(calls, f"cll_{call}").restype = ctypes.c_uint32
    return calls


_CALLS = _library()
__version__: str = _version_of(_CALLS)
_GET = ctypes.pythonapi.PyObject_GetBuffer
_GET.argtypes = [ctypes.py_object, ctypes.POINTER(_Buffer), ctypes.c_int]
_RELEASE = ctypes.pythonapi.PyBuffer_Release
_RELEASE.argtypes = [ctypes.POINTER(_Buffer)]
_RELEASE.restype = None


class _Memory:
    """The address and the length of an object's bytes from an offset on. They stay there within a ``with`` block."""

    __slots__ = ("buffer", "at", "length")

    def __init__(self, data, offset):
        self.buffer = _Buffer()
        # Raises a TypeError of its own if there is no such memory.
        _GET(data, self.buffer, 0)
        if not 0 <= offset <= self.buffer.len:
            _RELEASE(self.buffer)
            raise IndexError(f"the offset {offset} is not within {self.buffer.len} bytes")
        # The address may be null if there are no bytes. The calls take that.
        self.at = (self.buffer.buf or 0) + offset
        self.length = self.buffer.len - offset

    def __enter__(self):
        return self.at, self.length

    def __exit__(self, *_):
        _RELEASE(self.buffer)


def _held(number: int, bits: int, what: str) -> int:
    """Returns the number if it has that many bits. Otherwise ctypes would drop some of them."""
    if not 0 <= number < 1 << bits:
        raise OverflowError(f"{what} has to be from 0 to 2**{bits} - 1")
    return number


def _check(answer, report, offset=0):
    """Raises the error of an answer."""
    if answer != 0:
        place, due = (report.consumed, report.place) if answer == 1 else (report.place, 0)
        raise _ERRORS[answer](place if answer in (3, 7) else place + offset, report.consumed, report.written,
                              report.elements, report.whole, due=due, spelled=report.spelled)


def _pulled(at, length, offset):
    """Returns the header of the title there, and the title's length."""
    header, consumed = _Header(), ctypes.c_size_t()
    _check(_CALLS.cll_pull(at, length, header, consumed), _Report(consumed=consumed.value), offset)
    return Header(Kind(header.kind), None if header.indefinite else header.value), consumed.value


def _skipped(at, length, depth, offset):
    """Returns the length of the item there."""
    report = _Report()
    _check(_CALLS.cll_skip(at, length, depth, report), report, offset)
    return report.consumed


def pull(data: _Bytes, offset: int = 0) -> Title:
    """Returns the title at the offset. It reads no body."""
    with _Memory(data, offset) as (at, length):
        header, consumed = _pulled(at, length, offset)
    return Title(header, offset, offset + consumed, None)


def push(header: Header, width: Optional[int] = None) -> bytes:
    """Returns the shortest title of a header, or the one with ``width`` bytes after its first one: 0, 1, 2, 4 or 8."""
    value = 0 if header.value is None else _held(header.value, 64, "the value")
    parts, report = _Header(value, _held(header.kind, 8, "the kind"), header.value is None), _Report()
    out = ctypes.create_string_buffer(9)
    there = ctypes.addressof(out)
    if width is None:
        answer = _CALLS.cll_push(parts, there, len(out), report)
    else:
        answer = _CALLS.cll_push_wide(parts, _held(width, 32, "the width"), there, len(out), report)
    _check(answer, report)
    return out.raw[:report.written]


def recode(data: _Bytes, count: int = 1, offset: int = 0) -> Recoded:
    """Copies ``count`` elements to their shortest spelling.

    An element is a title that begins no string, or a whole string.
    """
    report = _Report()
    with _Memory(data, offset) as (at, length):
        # No spelling is longer than its elements are in the input.
        out = bytearray(length + 1)
        there = ctypes.addressof(ctypes.c_char.from_buffer(out))
        _check(_CALLS.cll_recode(at, length, _held(count, 64, "the count"), there, length, report), report, offset)
    return Recoded(bytes(memoryview(out)[:report.written]), report.consumed)


def strict(data: _Bytes, count: int = 1, offset: int = 0) -> int:
    """Returns the length of ``count`` elements in their one shortest spelling."""
    report = _Report()
    with _Memory(data, offset) as (at, length):
        _check(_CALLS.cll_strict(at, length, _held(count, 64, "the count"), report), report, offset)
    return report.consumed


def skip(data: _Bytes, depth: int = 256, offset: int = 0) -> int:
    """Returns the length of the item at the offset. It contains at most ``depth`` levels, and no more than 256."""
    with _Memory(data, offset) as (at, length):
        return _skipped(at, length, _held(depth, 32, "the depth"), offset)


def deterministic(data: _Bytes, depth: int = 64, order: Order = Order.BYTEWISE, offset: int = 0) -> int:
    """Returns the length of the item at the offset, which is in the deterministic encoding (RFC 8949, 4.2).

    The keys of its maps ascend in this order. The item contains at most ``depth`` levels, and no more than 256.
    """
    report = _Report()
    with _Memory(data, offset) as (at, length):
        _check(_CALLS.cll_deterministic(at, length, _held(depth, 32, "the depth"), _held(order, 32, "the order"),
                                        report), report, offset)
    return report.consumed


def _memory_of(kind: Any, count: int) -> Tuple[bytearray, int]:
    """Returns memory for that many of a type, and its address."""
    space = bytearray(max(count, 1) * ctypes.sizeof(kind))
    return space, ctypes.addressof(ctypes.c_char.from_buffer(space))


def canonical(data: _Bytes, depth: int = 64, order: Order = Order.BYTEWISE, offset: int = 0) -> bytes:
    """Returns the deterministic encoding of the item at the offset (RFC 8949, 4.2), whatever its spelling is.

    The keys of its maps ascend in this order. The item contains at most ``depth`` levels, and no more than 256. The
    call reads nothing of the bytes that follow the item: ``skip`` returns its length.

    Raises:
        DuplicateKeyError: a key of a map has the same value as one before it.
        CborSyntaxError: as of ``skip``, or a simple value from 24 to 31, which means nothing.
        Error: as of ``skip``.
    """
    depth, order, report = _held(depth, 32, "the depth"), _held(order, 32, "the order"), _Report()
    with _Memory(data, offset) as (at, length):
        # No encoding is longer than that.
        room = length + length // 256
        out, there = _memory_of(ctypes.c_uint8, room)
        # Half as many spans are enough, and most items need few.
        count, most, answer = 0, room // 2 + 1, 3
        while answer == 3 and count < most:
            count = min(4 * count or length // 16 + 16, most)
            spans, places = _memory_of(_Span, count)
            answer = _CALLS.cll_canonical(at, length, depth, order, there, room, places, count, report)
        _check(answer, report, offset)
    return bytes(memoryview(out)[:report.written])


def utf8(data: _Bytes, offset: int = 0) -> int:
    """Returns the length of the bytes from the offset on, if all of them are UTF-8.

    Otherwise the place of the error is the end of the longest front of the bytes that is UTF-8.

    Raises:
        ShortError: a character is cut off after the front, and more bytes may complete it.
        CborSyntaxError: no UTF-8 goes on after the front.
    """
    report = _Report()
    with _Memory(data, offset) as (at, length):
        _check(_CALLS.cll_utf8(at, length, report), report, offset)
    return report.consumed


def _view(data: _Bytes) -> memoryview:
    """Returns the bytes of an object as a view. It copies them if no view can be cast from the format of its items."""
    view = memoryview(data)
    try:
        return view.cast("B")
    except (TypeError, ValueError):
        return memoryview(view.tobytes()) if view.c_contiguous else view


class _Titles:
    """Memory for the titles that one call reads. It is seen by columns."""

    __slots__ = ("report", "_there", "_values", "_ends", "_kinds", "_opens")

    def __init__(self):
        space, self._there = _memory_of(_Title, _MOST)
        self.report, plain, words = _Report(), memoryview(space), memoryview(space).cast("Q")
        self._values, self._ends, self._kinds, self._opens = words[::4], words[2::4], plain[24::32], plain[25::32]

    def read(self, at, length, count):
        """Reads up to ``count`` titles, and returns the answer of the library."""
        return _CALLS.cll_headers(at, length, self._there, count, self.report)

    def made(self, view, start):
        """Returns an iterator over the titles that were read. They stand in the view, from ``start`` on."""
        number = self.report.written
        kinds, opens = self._kinds[:number].tobytes(), self._opens[:number].tobytes()
        values = self._values[:number].tolist()
        ends = [start + end for end in self._ends[:number].tolist()]
        made = [_HEADERS[kind][value] if value < _SMALL else _NEW(Header, (_KINDS[kind], value))
                for kind, value in zip(kinds, values)]
        # A title starts at the end of the one before it, or of that one's body.
        starts, bodies = [start, *ends], itertools.repeat(None)
        if 1 in opens:
            made = [_OPENS[kind] if is_open else header for kind, is_open, header in zip(kinds, opens, made)]
        if 2 in kinds or 3 in kinds:
            bodies = [None] * number
            for at, kind in enumerate(kinds):
                if 2 <= kind <= 3 and not opens[at]:
                    end = starts[at + 1] = ends[at] + values[at]
                    bodies[at] = view[ends[at]:end]
        return itertools.starmap(_NEW, zip(itertools.repeat(Title), zip(made, starts, ends, bodies)))


# Memory that no call uses. It makes a call over few bytes faster.
_SPARE = [_Titles()]


def _read(at, length, count, view, start):
    """Reads up to ``count`` titles. Returns the answer, an iterator over the titles, and how many bytes they have."""
    try:
        titles = _SPARE.pop()
    except IndexError:
        titles = _Titles()
    answer = titles.read(at, length, count)
    made, consumed = titles.made(view, start), titles.report.consumed
    if not _SPARE:
        _SPARE.append(titles)
    return answer, made, consumed


def _one(at, length, view, start):
    """Returns the title there, and how many bytes it has with its body. It starts at that offset of the view."""
    header, consumed = _pulled(at, length, start)
    if header.kind not in _STRINGS or header.value is None:
        return Title(header, start, start + consumed, None), consumed
    whole = _skipped(at, length, 0, start)
    return Title(header, start, start + consumed, view[start + consumed:start + whole]), whole


def headers(data: _Bytes, offset: int = 0) -> Iterator[Title]:
    """Gives each title from the offset on, up to the end of the bytes.

    The iterator reads a string of a definite length whole, and its body is a view of the bytes. The body of a text is
    UTF-8. The iterator says nothing about how the titles nest. It holds the bytes in place up to its end. It reads up
    to 512 titles ahead, so bytes that change meanwhile may give titles as they were.
    """
    view = _view(data)
    with _Memory(view, offset) as (at, length):
        done, count = 0, _FIRST
        while done < length:
            answer, titles, consumed = _read(at + done, length - done, count, view, offset + done)
            yield from titles
            done, count = done + consumed, min(_TIMES * count, _MOST)
            if answer != 0:
                # The calls for a title alone tell what its fault is.
                title, whole = _one(at + done, length - done, view, offset + done)
                yield title
                done += whole


class _Fed:
    """Takes bytes in pieces. It has how many bytes it took, and a state. A copy of it has a state for itself."""

    __slots__ = ("consumed", "_kept")
    _END: ClassVar[Any]
    # Tells whether it may have ended before a byte came.
    _MAY_BE_EMPTY: ClassVar[bool] = False
    consumed: int

    @property
    def ended(self) -> bool:
        """Tells whether all that the caller asked for has come.

        An item has not ended before its first byte, nor after an error.
        """
        return (self.consumed > 0 or self._MAY_BE_EMPTY) and self._answer()[0] == 0

    def end(self) -> None:
        """Says that no more bytes come.

        If no byte came or the item has ended, it raises nothing, and ``ended`` tells which.

        Raises:
            ShortError: the item is cut off. The place is how many bytes came.
            Error: the error that ``feed`` raised, if it raised one.
        """
        answer, report = self._answer()
        if answer == 1:
            raise ShortError(self.consumed, 0, 0, due=report.place)
        _check(answer, report)

    def _answer(self) -> Tuple[int, _Report]:
        report = _Report()
        return self._END(self._kept, report), report

    def __copy__(self) -> Any:
        twin = object.__new__(type(self))
        twin.consumed, twin._kept = self.consumed, type(self._kept).from_buffer_copy(self._kept)
        return twin

    def __deepcopy__(self, memo: Dict[int, Any]) -> Any:
        return self.__copy__()

    def __repr__(self) -> str:
        answer, report = self._answer()
        state = f"{_ERRORS[answer].name} at {report.place}" if answer > 3 or answer == 2 else "more due"
        return f"<{type(self).__name__}: {self.consumed} bytes, {'ended' if self.ended else state}>"


class Checker(_Fed):
    """Checks one item whose bytes come in pieces, as from a socket.

    It does not matter how the bytes are cut. The item contains at most ``depth`` levels, and no more than 256. If
    ``shortest`` is true, the checker takes the shortest spelling alone. ``consumed`` is how many bytes of all pieces
    the checker took. ``ended`` tells whether the item has ended. A copy of a checker goes on by itself.
    """

    __slots__ = ()
    _END = _CALLS.cll_checker_end

    def __init__(self, depth: int = 256, *, shortest: bool = False) -> None:
        self.consumed, self._kept = 0, _Checker()
        init = _CALLS.cll_checker_init_strict if shortest else _CALLS.cll_checker_init
        _check(init(self._kept, _held(depth, 32, "the depth")), _Report())

    def feed(self, data: _Bytes, offset: int = 0) -> Progress:
        """Takes the bytes from the offset on: all of them, or those up to the end of the item.

        After the end and after an error a further call takes nothing, and the answer stays.

        Raises:
            Error: it comes with the first byte after which no item goes on. It names an offset in the item.
        """
        report = _Report()
        with _Memory(data, offset) as (at, length):
            answer = _CALLS.cll_checker_feed(self._kept, at, length, report)
        self.consumed += report.consumed
        if answer == 1:
            return Progress(report.consumed, None, report.place)
        _check(answer, report)
        return Progress(report.consumed, report.place, 0)


class Copier(_Fed):
    """Copies ``count`` elements whose bytes come in pieces to their shortest spelling.

    It does not matter how the bytes are cut. If ``shortest`` is true, the copier takes the shortest spelling alone.
    ``consumed`` is how many bytes of all pieces the copier took. ``ended`` tells whether all elements have come. A
    copier of no elements has ended at once. A copy of a copier goes on by itself.
    """

    __slots__ = ()
    _FEED: ClassVar[Any] = _CALLS.cll_copier_feed
    _END = _CALLS.cll_copier_end
    _MAY_BE_EMPTY = True

    def __init__(self, count: int = 1, *, shortest: bool = False) -> None:
        self.consumed, self._kept = 0, _Copier()
        init = _CALLS.cll_copier_init_strict if shortest else _CALLS.cll_copier_init
        _check(init(self._kept, _held(count, 64, "the count")), _Report())

    def feed(self, data: _Bytes, offset: int = 0) -> Copied:
        """Takes the bytes from the offset on: all of them, or those up to the end of the elements.

        It returns all that can be written of the bytes so far, and that no call returned before. After the end and
        after an error a further call takes nothing, and the answer stays.

        Raises:
            Error: it comes with the first byte after which no such elements go on. It names an offset in all of them.
                Its ``data`` is the copy of these bytes before that byte.
        """
        report, out, answer, taken = _Report(), bytearray(), 3, 0
        with _Memory(data, offset) as (at, length):
            space = bytearray(length + 16)
            there = ctypes.addressof(ctypes.c_char.from_buffer(space))
            while answer == 3:
                answer = self._FEED(self._kept, at + taken, length - taken, there, len(space), report)
                taken += report.consumed
                out += memoryview(space)[:report.written]
        self.consumed += taken
        if answer > 1:
            raise _ERRORS[answer](report.place, taken, len(out), data=bytes(out))
        return Copied(bytes(out), taken, answer == 0)


class ItemCopier(Copier):
    """Copies one item whose bytes come in pieces to its shortest spelling, and ends with the item.

    The item contains at most ``depth`` levels, and no more than 256. If ``shortest`` is true, the copier takes the
    shortest spelling alone. In all other ways it is as a ``Copier`` of the item's elements. An error comes with the
    first byte after which no item goes on. If no byte came the item has not ended, but ``end`` raises nothing.
    """

    __slots__ = ()
    _FEED, _END = _CALLS.cll_item_copier_feed, _CALLS.cll_item_copier_end
    _MAY_BE_EMPTY = False

    def __init__(self, depth: int = 256, *, shortest: bool = False) -> None:
        self.consumed, self._kept = 0, _ItemCopier()
        init = _CALLS.cll_item_copier_init_strict if shortest else _CALLS.cll_item_copier_init
        _check(init(self._kept, _held(depth, 32, "the depth")), _Report())


# The modules take what stands above.
from ._item import Item  # noqa: E402
from ._parser import Began, Closed, Parser, Part  # noqa: E402
