# SPDX-License-Identifier: Apache-2.0
"""A parser of bytes that come in pieces. The package has the class ``Parser`` of this module, and its events."""
import ctypes
from typing import Any, Dict, Iterator, NamedTuple, Tuple, Union

from . import (_CALLS, _ERRORS, _KINDS, _Bytes, _check, _Header, _Memory, _Parser, _Pieces, _Report, _view, Header,
               ShortError)


class _Event(ctypes.Structure):
    _fields_ = [*((name, ctypes.c_uint64) for name in ("consumed", "place", "left")), ("header", _Header),
                ("kind", ctypes.c_uint8), ("carried_len", ctypes.c_uint8), ("carried", ctypes.c_uint8 * 3)]


def _declare() -> None:
    parser, event, report = map(ctypes.POINTER, (_Parser, _Event, _Report))
    _CALLS.cll_parser_init.argtypes = _CALLS.cll_parser_init_strict.argtypes = [parser]
    _CALLS.cll_parser_push.argtypes = [parser, ctypes.c_void_p, ctypes.c_size_t, event]
    _CALLS.cll_parser_end.argtypes = [parser, report]
    for call in "init init_strict push end".split():
        getattr(_CALLS, f"cll_parser_{call}").restype = ctypes.c_uint32


_declare()


class Began(NamedTuple):
    """A title ended. ``place`` is the offset of the title in the bytes of all pieces."""

    header: Header
    place: int


class Closed(NamedTuple):
    """A break ended the innermost string of indefinite length. ``place`` is the offset of the break in all bytes."""

    place: int


class Part(NamedTuple):
    """The next part of the body of a string, which lacks ``left`` more bytes.

    The part of a text is a ``str``, and that of a byte string is ``bytes``. A body without bytes has no part.
    """

    data: Union[bytes, str]
    left: int


class Parser:
    """Finds headers, and the bodies of strings, in bytes that come in pieces, as from a socket.

    It does not matter how the bytes are cut. A parser does not count the items in arrays and maps. If ``shortest`` is
    true, it takes the shortest spelling alone. ``consumed`` is how many bytes of all pieces the parser took. A copy of
    a parser goes on by itself.
    """

    __slots__ = ("consumed", "_kept")
    consumed: int

    def __init__(self, *, shortest: bool = False) -> None:
        self.consumed, self._kept = 0, _Parser()
        init = _CALLS.cll_parser_init_strict if shortest else _CALLS.cll_parser_init
        _check(init(self._kept), _Report())

    def push(self, data: _Bytes, offset: int = 0) -> Iterator[Union[Began, Closed, Part]]:
        """Gives the events of the next piece: the bytes from the offset on.

        Each step of the iterator takes the bytes of its event. So a loop that ends early leaves the rest of the piece
        to a further call. After an error a further call takes nothing, and raises the same error.

        Raises:
            Error: it comes with the first byte after which no titles and bodies go on. It names an offset in the bytes
                of all pieces.
        """
        view, event = _view(data), _Event()
        with _Memory(view, offset) as (at, length):
            done = 0
            while done < length:
                answer = _CALLS.cll_parser_push(self._kept, at + done, length - done, event)
                start, done = done, done + event.consumed
                self.consumed += event.consumed
                if answer == 1:
                    return
                if answer != 0:
                    raise _ERRORS[answer](event.place, event.consumed, 0)
                yield self._made(event, view[offset + start:offset + done])

    def events(self, pieces: _Pieces) -> Iterator[Union[Began, Closed, Part]]:
        """Gives the events of all pieces, one after the other, and then says that no more bytes come.

        Raises:
            Error: as of ``push`` and ``end``.
        """
        for piece in pieces:
            yield from self.push(piece)
        self.end()

    @staticmethod
    def _made(event: _Event, taken: memoryview) -> Union[Began, Closed, Part]:
        if event.kind == 1:
            parts = event.header
            return Began(Header(_KINDS[parts.kind], None if parts.indefinite else parts.value), event.place)
        if event.kind == 2:
            return Closed(event.place)
        data = bytes(event.carried[:event.carried_len]) + taken
        return Part(data.decode() if event.kind == 4 else data, event.left)

    @property
    def between(self) -> bool:
        """Tells whether the bytes may end here: no title, no body and no string of indefinite length is under way.

        An array or a map may go on.
        """
        return self._answer()[0] == 0

    def end(self) -> None:
        """Says that no more bytes come. If ``between`` is true, it raises nothing.

        Raises:
            ShortError: a title, a body or a string of indefinite length is cut off. The place is how many bytes came,
                and ``due`` is how many more bytes of a title or of a body were due.
            Error: the error that ``push`` raised, if it raised one.
        """
        answer, report = self._answer()
        if answer == 1:
            raise ShortError(self.consumed, 0, 0, due=report.place)
        _check(answer, report)

    def _answer(self) -> Tuple[int, _Report]:
        report = _Report()
        return _CALLS.cll_parser_end(self._kept, report), report

    def __copy__(self) -> Any:
        twin = object.__new__(type(self))
        twin.consumed, twin._kept = self.consumed, _Parser.from_buffer_copy(self._kept)
        return twin

    def __deepcopy__(self, memo: Dict[int, Any]) -> Any:
        return self.__copy__()

    def __repr__(self) -> str:
        answer, report = self._answer()
        state = {0: "between", 1: "more due"}.get(answer) or f"{_ERRORS[answer].name} at {report.place}"
        return f"<Parser: {self.consumed} bytes, {state}>"
