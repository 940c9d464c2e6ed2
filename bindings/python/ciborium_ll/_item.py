# SPDX-License-Identifier: Apache-2.0
"""Views of items in memory. The package has the class ``Item`` of this module."""
import ctypes
import operator
import struct
from typing import Any, Iterator, Optional, Tuple, Union

from . import _CALLS, _Bytes, _check, _held, _Header, _Memory, _Report, _view, Header, Kind, push


class _View(ctypes.Structure):
    """The cll_item and the cll_items of the library, which have the same fields."""

    _fields_ = [("data", ctypes.c_void_p), ("len", ctypes.c_size_t), ("depth", ctypes.c_uint32)]


class _Body(ctypes.Structure):
    _fields_ = [("data", ctypes.c_void_p), ("len", ctypes.c_size_t)]


def _declare() -> None:
    data, size = ctypes.c_void_p, ctypes.c_size_t
    view, header, report = map(ctypes.POINTER, (_View, _Header, _Report))
    _CALLS.cll_item_parse.argtypes = [data, size, ctypes.c_uint32, view, report]
    _CALLS.cll_item_header.argtypes = [view, header]
    _CALLS.cll_item_bytes.argtypes = _CALLS.cll_item_text.argtypes = [view, ctypes.POINTER(_Body)]
    _CALLS.cll_item_items.argtypes = _CALLS.cll_item_next.argtypes = [view, view]
    _CALLS.cll_item_get.argtypes = _CALLS.cll_item_get_text.argtypes = [view, data, size, view]
    _CALLS.cll_item_get_int.argtypes = [view, ctypes.c_int64, view]
    for call in "parse header bytes text items next get get_text get_int".split():
        getattr(_CALLS, f"cll_item_{call}").restype = ctypes.c_uint32


_declare()

# The answer that says that there is no such item.
_ABSENT = 12

_FLOATS = {Kind.HALF: (">H", ">e"), Kind.SINGLE: (">I", ">f"), Kind.DOUBLE: (">Q", ">d")}
_SIMPLE = {20: False, 21: True, 22: None}


class Item:
    """A view of one item in memory, with all that it contains.

    The item is the one at the offset. It contains at most ``depth`` levels, and no more than 256. The view reads the
    bytes in place, so they have to stay as they are. ``data`` is the bytes of the item. The parts of an item are items
    too, and a view of them copies nothing.

    An array has a length, an index and an iterator, as a list has. A map has a length, ``in``, ``[]`` and ``get`` by a
    text or an integer, ``items()``, and an iterator over its keys. A key may have any spelling. If a map has a key
    twice, the first one counts. Each look-up reads the whole map, and an index in an array the items before it.

    Raises:
        Error: as of ``skip``.
    """

    __slots__ = ("data", "depth")
    data: memoryview
    depth: int

    def __init__(self, data: _Bytes, depth: int = 256, offset: int = 0) -> None:
        view, made, report = _view(data), _View(), _Report()
        with _Memory(view, offset) as (at, length):
            _check(_CALLS.cll_item_parse(at, length, _held(depth, 32, "the depth"), made, report), report, offset)
        self.data, self.depth = view[offset:offset + report.consumed], depth

    @property
    def header(self) -> Header:
        """The header of the item. It is never that of a break."""
        parts = _Header()
        with _Memory(self.data, 0) as (at, length):
            _check(_CALLS.cll_item_header(_View(at, length, self.depth), parts), _Report())
        return Header(Kind(parts.kind), None if parts.indefinite else parts.value)

    @property
    def body(self) -> Optional[memoryview]:
        """The body of a string of a definite length, or ``None``. That of a text is UTF-8."""
        body = _Body()
        with _Memory(self.data, 0) as (at, length):
            view = _View(at, length, self.depth)
            if _CALLS.cll_item_bytes(view, body) != 0 and _CALLS.cll_item_text(view, body) != 0:
                return None
            start = (body.data or at) - at
        return self.data[start:start + body.len]

    @property
    def value(self) -> Union[int, bytes, str, bool, float, None]:
        """The value of a number, a string, false, true or null. The strings in one of indefinite length are joined.

        Raises:
            TypeError: the item is a tag, an array, a map or another simple value.
        """
        kind, value = self.header
        if kind == Kind.BYTES or kind == Kind.TEXT:
            joined = b"".join(self._bodies())
            return joined if kind == Kind.BYTES else joined.decode()
        if value is not None:
            if kind == Kind.POSITIVE or kind == Kind.NEGATIVE:
                return value if kind == Kind.POSITIVE else -1 - value
            if kind in _FLOATS:
                bits, number = _FLOATS[kind]
                made: float = struct.unpack(number, struct.pack(bits, value))[0]
                return made
            if kind == Kind.SIMPLE and value in _SIMPLE:
                return _SIMPLE[value]
        raise TypeError(f"an item of the kind {kind.name} has no value")

    def _bodies(self) -> Iterator[memoryview]:
        """Gives the bodies of a string, one after the other."""
        body = self.body
        if body is not None:
            yield body
        for part in self.within():
            yield from part._bodies()

    def within(self) -> Iterator["Item"]:
        """Gives each item in the item.

        These are the items of an array, each key of a map and then its value, the item under a tag, or the strings in a
        string of indefinite length. Any other item has none.
        """
        left, part = _View(), _View()
        with _Memory(self.data, 0) as (at, length):
            if _CALLS.cll_item_items(_View(at, length, self.depth), left) != 0:
                return
            done, length, depth = (left.data or at) - at, left.len, left.depth
        while length > 0:
            with _Memory(self.data, done) as (at, _):
                _check(_CALLS.cll_item_next(_View(at, length, depth), part), _Report())
            yield _part(self.data[done:done + part.len], depth)
            done, length = done + part.len, length - part.len

    @property
    def tagged(self) -> Optional["Item"]:
        """The item under a tag, or ``None``."""
        return next(self.within()) if self.header.kind == Kind.TAG else None

    def items(self) -> Iterator[Tuple["Item", "Item"]]:
        """Gives each key of a map with its value."""
        self._have(Kind.MAP)
        parts = self.within()
        return zip(parts, parts)

    def __iter__(self) -> Iterator["Item"]:
        if self._have(Kind.ARRAY, Kind.MAP) == Kind.ARRAY:
            return self.within()
        return (key for key, _ in self.items())

    def __len__(self) -> int:
        self._have(Kind.ARRAY, Kind.MAP)
        count = self.header.value
        return sum(1 for _ in self) if count is None else count

    def __bool__(self) -> bool:
        return True

    def __contains__(self, key: Union[str, int]) -> bool:
        return self.get(key) is not None

    def __getitem__(self, key: Union[str, int]) -> "Item":
        if self._have(Kind.ARRAY, Kind.MAP) == Kind.MAP:
            found = self.get(key)
            if found is None:
                raise KeyError(key)
            return found
        place = operator.index(key)  # type: ignore[arg-type]
        if place < 0:
            place += len(self)
        for at, part in enumerate(self):
            if at == place:
                return part
        raise IndexError(f"the array has no item {key}")

    def get(self, key: Union[str, int], default: Any = None) -> Any:
        """Returns the value of a text or an integer as a key, or the default."""
        self._have(Kind.MAP)
        if isinstance(key, str):
            try:
                text = key.encode()
            except UnicodeEncodeError:
                # No CBOR has such a text.
                return default
            return self._found(_CALLS.cll_item_get_text, text, default)
        if isinstance(key, bool) or not isinstance(key, int):
            raise TypeError("a key has to be a str or an int")
        if -1 << 63 <= key < 1 << 63:
            return self._value(lambda view, value: _CALLS.cll_item_get_int(view, key, value), default)
        kind, number = (Kind.POSITIVE, key) if key > 0 else (Kind.NEGATIVE, -1 - key)
        # A number of that size has one title, and a greater one has none.
        return default if number >> 64 else self.get_encoded(push(Header(kind, number)), default)

    def get_encoded(self, key: _Bytes, default: Any = None) -> Any:
        """Returns the value of the key that has exactly these bytes of CBOR, or the default."""
        self._have(Kind.MAP)
        return self._found(_CALLS.cll_item_get, key, default)

    def _found(self, call: Any, key: _Bytes, default: Any) -> Any:
        """Returns the value of a key in memory by this call."""
        with _Memory(key, 0) as (there, key_length):
            return self._value(lambda view, value: call(view, there, key_length, value), default)

    def _value(self, call: Any, default: Any) -> Any:
        """Returns the value that this call finds."""
        value = _View()
        with _Memory(self.data, 0) as (at, length):
            answer = call(_View(at, length, self.depth), value)
            if answer == _ABSENT:
                return default
            _check(answer, _Report())
            start = (value.data or at) - at
        return _part(self.data[start:start + value.len], value.depth)

    def _have(self, *kinds: Kind) -> Kind:
        """Returns the kind of the item, which has to be one of these."""
        kind = self.header.kind
        if kind not in kinds:
            raise TypeError(f"an item of the kind {kind.name} is no {' or '.join(one.name for one in kinds)}")
        return kind

    def __bytes__(self) -> bytes:
        return bytes(self.data)

    def __eq__(self, other: object) -> bool:
        return self.data == other.data if isinstance(other, Item) else NotImplemented

    def __hash__(self) -> int:
        return hash(bytes(self.data))

    def __repr__(self) -> str:
        kind, value = self.header
        return f"<Item: {kind.name} {'*' if value is None else value}, {len(self.data)} bytes>"


def _part(data: memoryview, depth: int) -> Item:
    """Returns the view of a part that a call gave."""
    part = object.__new__(Item)
    part.data, part.depth = data, depth
    return part
