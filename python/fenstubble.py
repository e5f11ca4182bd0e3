# SPDX-License-Identifier: Apache-2.0
"""Fenstubble's calls for Python: a book in memory, and the requests on it.

    >>> from fenstubble import Book, Mode
    >>> book = Book(Mode.DELTA)
    >>> mother, child = book.join().number, book.join().number
    >>> notes, orders = book.insert({mother, child})  # orders: what the host has to do now, one after the other
    >>> book.open(child, notes)  # the token rows by which the child opens the notes
    Chains(inner=[1], outer=[])

A request that is refused raises Refused and leaves the book as it was. Bytes that are no sound book are refused with the place where they are broken:

    >>> data = bytearray(book.to_bytes())
    >>> data[-1] = data[-2] = 0
    >>> Book.from_bytes(data)
    Traceback (most recent call last):
    fenstubble.Refused: 38 (byte 75, folder row 0): S8 is broken: the folder's outer lock is not what its mode and its list ask for

Who leaves is taken off every list in one request, for good:

    >>> book.leave(child).orders
    [Order(kind=<Kind.LOCK: 3>, a=0, b=0)]
    >>> book.leavers
    frozenset({1})

The module lends what the calls need, so 10 and 13 never come. The library is the file that FENSTUBBLE_LIBRARY names, or lib/libfenstubble.so.4 of the prefix that
this file is installed in, or what the system's loader finds. One thread at a time on one book.
"""
from __future__ import annotations

import ctypes
import operator
import os
import struct
from enum import IntEnum
from itertools import count, islice
from pathlib import Path
from typing import Callable, Iterable, Iterator, NamedTuple, Optional, Sequence, Union

VERSION = 40000  # that this module is written for: major * 10000 + minor * 100 + patch
USERS, RESOURCES, INNER_TOKENS, OUTER_TOKENS, OUTER_GROUPS = 64, 256, 4096, 4096, 448  # the limits; a resource is a folder
SET_BYTES = 8  # a set of users: bit i % 8 of byte i // 8 is user i
WIDTHS = (SET_BYTES, 5, SET_BYTES, 4, SET_BYTES + 4)  # bytes of a row: inner vertices, inner tokens, outer vertices, outer tokens, folders
ROWS = (USERS + RESOURCES, INNER_TOKENS, USERS + OUTER_GROUPS, OUTER_TOKENS, RESOURCES)  # rows of the lent tables
HEAD_LEN = 11  # mode, users, folders, inner vertices, inner tokens, outer vertices, outer tokens; the set of leavers, four numbers
HEAD_LEAVERS = 7  # where the set of leavers begins in the head: user i is bit i % 16 of number 7 + i // 16
ORDER_WIDTH, ORDER_ROWS = 3, 4608  # numbers of an order row; rows that no request exceeds
GRANT_ROWS = 385  # rows that no request but a leave exceeds
CHAIN_ROWS = 63  # tokens that no chain exceeds, in either layer
OPEN_ROWS = 2 * CHAIN_ROWS  # rows that no open exceeds, both chains together
BOOK_HEADER, BOOK_BYTES = 17, 46617  # bytes of the header, and of the largest book
BOOK_LEAVERS = BOOK_HEADER  # where a book's bytes have the set of leavers, in version 2
BOOK_ROWS = BOOK_LEAVERS + SET_BYTES  # where the rows start; in version 1 right behind the header
COUNTS = (9, 11, 13, 15, 7)  # where the header counts the rows: of inner vertices and so on, as in WIDTHS
NO_OUTER = 65535  # in the place of an outer vertex: none
NO_ROW = 65535  # a place along with 32: a vertex is missing, so that no row is there to be told
NOBODY = 65535  # as a user, folder or section: one that never exists


class Mode(IntEnum):
    FULL = 0  # an outer lock on every folder
    DELTA = 1  # an outer lock only where the inner one lets too many in


class View(IntEnum):
    OPEN = 0
    OUTER_LOCKED = 1  # the outer lock is shut
    INNER_LOCKED = 2  # the inner lock is shut
    LOCKED = 3  # both are


class Kind(IntEnum):
    """What an order asks of the host."""

    OUTER_KEY = 1  # make the key of outer vertex a; in a join, hand it to the new user
    OUTER_TOKEN = 2  # publish the outer token from vertex a to vertex b
    LOCK = 3  # take the outer lock of folder a off, and put on that of outer vertex b, or none for NO_OUTER; in an insert the folder comes with this lock
    INNER_KEY = 4  # make the derivation key of inner vertex a; in a join, hand it to the new user
    INNER_TOKEN = 5  # publish the inner token from vertex a to the derivation key of vertex b
    ACCESS_TOKEN = 6  # publish the inner token from vertex a to the access key of vertex b
    ENCRYPT = 7  # encrypt the new folder a with the access key of inner vertex b, and store it with the lock that was asked for it


class Ask(IntEnum):
    """What a request of `serve` asks, and its a and b."""

    JOIN = 0  # neither
    INSERT = 1  # neither, but the users
    GRANT = 2  # folder, user
    REVOKE = 3  # folder, user
    OPEN = 4  # user, folder
    LEAVE = 5  # user, and no b


class Section(IntEnum):
    """A section of a book's bytes."""

    INNER_VERTICES = 0
    INNER_TOKENS = 1
    OUTER_VERTICES = 2
    OUTER_TOKENS = 3
    RESOURCES = 4  # folders


class Request(NamedTuple):
    ask: Ask
    a: int = 0
    b: int = 0
    users: Iterable[int] = ()


class Order(NamedTuple):
    kind: Kind
    a: int
    b: int


class Answer(NamedTuple):
    """An accepted request: the new user or folder (of a grant or revoke: its folder; of a leave: its user), and the orders, to be obeyed one after the other. Wherever the host stops in them,
    nobody is let in: a grant's token and an insert's folder come last, behind the locks. An insert may ask for the lock of its folder before the folder is there."""

    number: int
    orders: list[Order]


class Chains(NamedTuple):
    """Token rows by which a user opens a folder, first token first."""

    inner: list[int]
    outer: list[int]


class Token(NamedTuple):
    source: int
    target: int
    access: bool = False  # it leads to the target's access key, not to its derivation key; inner ones only


class Folder(NamedTuple):
    users: frozenset[int]
    inner: int
    outer: Optional[int]


class Row(NamedTuple):
    """A row of a book's bytes."""

    section: Section
    number: int

    def __str__(self) -> str:
        return f"{('inner vertex', 'inner token', 'outer vertex', 'outer token', 'folder')[self.section]} row {self.number}"


REASONS = {  # word for word those of fenstubble_reason in fenstubble.h
    0: "done",
    1: "there is no such user, folder or section, or the list names a user who has not joined",
    2: "64 users have joined, and a book has no room for more",
    3: "256 folders are there, and a book has no room for more",
    4: "the list is empty: a folder is inserted for at least one user",
    5: "the user may read the folder already",
    6: "the user may not read the folder anyway",
    7: "it takes more than 448 outer groups: use lists that are there already, or begin another book",
    8: "it takes more than 4096 inner tokens: use lists that are there already, or begin another book",
    9: "it takes more than 4096 outer tokens: use lists that are there already, or begin another book",
    10: "the list or buffer lent for the answer is too short: lend a longer one",
    11: "the folder is closed to this user",
    12: "the tables hold no sound book: go back to the last one that was kept",
    13: "a head, table or set that was lent is too short",
    14: "the line is not a request: see fenstubble --help",
    15: "the user has left, or the list names a user who has: whoever comes back joins anew",
    20: "the bytes do not begin with the mark of a book, TKB",
    21: "the book's version is neither 1 nor 2",
    22: "the book's mode is neither 0 nor 1",
    23: "a count in the book's header is over its limit",
    24: "the length is not what the book's version and counts ask for",
    31: "S1 is broken: a kind above 1, a vertex that is not there, a set with a user who has not joined, or a list with one who has left",
    32: "S2 is broken: a user has no own vertex, a token that is not of kind 1 leads to one, or an inner vertex has the empty set",
    33: "S3 is broken: an earlier vertex of the layer has the same set",
    34: "S4 is broken: the set where the token starts is empty, or no proper part of the set that it leads to",
    35: "S5 is broken: the group's set is not made of the sets from which tokens lead to it, those of kind 1 apart",
    36: "S6 is broken: the access token starts at no user's own vertex, or leads to a set with that user, or the token is there twice",
    37: "S7 is broken: the folder's list names a user who does not derive its inner key",
    38: "S8 is broken: the folder's outer lock is not what its mode and its list ask for",
}


def reason(result: int) -> str:
    """A call's result in words; 11 may come with its view, as 11 + 256 * view."""
    return REASONS.get(result % 256, "no such refusal")


class Refused(Exception):
    """A call said no: its number; with 11 the view; with 20 to 24 and 31 to 38, of a book's bytes, the place, and with 31 to 38 the row that starts there. The place
    is a byte, with 24 the length, with 32 and NO_ROW a vertex that is missing. At the set of leavers there is no row."""

    def __init__(self, number: int, view: Optional[View] = None, place: Optional[int] = None, row: Optional[Row] = None) -> None:
        super().__init__(number, view, place, row)
        self.number, self.view, self.place, self.row, self.reason = number, view, place, row, reason(number)

    @staticmethod
    def of(result: int) -> Refused:
        number, view = result % 256, result // 256
        return Refused(number, View(view) if number == 11 else None)

    @staticmethod
    def of_bytes(number: int, place: int, data: bytes) -> Refused:
        """Of a call on a book's bytes."""
        broken = number in range(31, 39)
        placed = broken or number in range(20, 25)
        return Refused(number, None, place if placed else None, row_at(data, place) if broken else None)

    def __str__(self) -> str:
        where = self._where()
        return f"{self.number} ({where}): {self.reason}" if where else f"{self.number}: {self.reason}"

    def _where(self) -> str:
        if self.view is not None:
            return f"view {self.view.value}"
        if self.place is None:
            return ""
        if self.number == 24:
            return f"{self.place} bytes"
        if self.number == 32 and self.place == NO_ROW:
            return f"{NO_ROW}, a missing vertex"
        if self.number == 31 and self.row is None:
            return f"byte {self.place}, the set of leavers"
        return f"byte {self.place}" + (f", {self.row}" if self.row is not None else "")


Reply = Union[Answer, Chains, Refused]


def _load() -> ctypes.CDLL:
    named = os.environ.get("FENSTUBBLE_LIBRARY")
    installed = Path(__file__).resolve().parent.parent.parent / "lib" / "libfenstubble.so.4"
    path = named or (str(installed) if installed.exists() else "libfenstubble.so.4")
    try:
        library = ctypes.CDLL(path)
    except OSError as error:
        raise ImportError(f"fenstubble: the library can't be loaded ({error}); FENSTUBBLE_LIBRARY may name its file") from error
    library.fenstubble_version.argtypes, library.fenstubble_version.restype = (), ctypes.c_uint32
    found = library.fenstubble_version()
    if found // 10000 != VERSION // 10000 or found < VERSION:
        raise ImportError(f"fenstubble: {path} is version {found}, and this module is for {VERSION}")
    return library


_library = _load()
_BYTES, _NUMBERS, _SIZE = ctypes.POINTER(ctypes.c_uint8), ctypes.POINTER(ctypes.c_uint16), ctypes.POINTER(ctypes.c_size_t)
_LENGTH, _NUMBER = ctypes.c_size_t, ctypes.c_uint16
_BOOK = (_NUMBERS, _LENGTH) + (_BYTES, _LENGTH) * 5
_ORDERS = (_NUMBERS, _LENGTH, _NUMBERS)


def _declare(name: str, *types: type) -> Callable[..., int]:
    call = getattr(_library, "fenstubble_" + name)
    call.argtypes, call.restype = types, ctypes.c_uint16
    return call


_check = _declare("check", *_BOOK)
_section = _declare("section", _BYTES, _LENGTH, _LENGTH, _SIZE, _SIZE, _SIZE)
_read = _declare("read", _BYTES, _LENGTH, *_BOOK, _SIZE)
_write = _declare("write", *_BOOK, _BYTES, _LENGTH, _SIZE)
_join = _declare("join", *_BOOK, *_ORDERS)
_insert = _declare("insert", *_BOOK, *_ORDERS, _BYTES, _LENGTH)
_grant = _declare("grant", *_BOOK, *_ORDERS, _NUMBER, _NUMBER)
_revoke = _declare("revoke", *_BOOK, *_ORDERS, _NUMBER, _NUMBER)
_leave = _declare("leave", *_BOOK, *_ORDERS, _NUMBER)
_view = _declare("view", *_BOOK, _NUMBER, _NUMBER, _NUMBERS)
_open = _declare("open", *_BOOK, _NUMBER, _NUMBER, _NUMBERS, _LENGTH, _NUMBERS, _NUMBERS)
_serve = _declare("serve", *_BOOK, ctypes.POINTER(ctypes.c_uint64), _LENGTH, _NUMBERS, _LENGTH, _NUMBERS, _LENGTH, _SIZE)


def _take(result: int) -> None:
    if result != 0:
        raise Refused.of(result)


def _take_bytes(result: int, place: ctypes.c_size_t, data: bytes) -> None:
    if result != 0:
        raise Refused.of_bytes(result, place.value, data)


def _bytes(data: bytes) -> ctypes.Array:
    return (ctypes.c_uint8 * len(data)).from_buffer_copy(data)


def _number(number: int) -> int:
    """The number as the calls take it. One that does not fit is never wrapped: it becomes one that never exists."""
    number = operator.index(number)
    return number if 0 <= number < NOBODY else NOBODY


def _set(users: Iterable[int]) -> tuple[int, bool]:
    """The users as the bits of one number, and whether somebody is named who has no bit."""
    numbers = {_number(user) for user in users}
    return sum(1 << user for user in numbers if user < USERS), any(user >= USERS for user in numbers)


def _users(row: bytes) -> frozenset[int]:
    bits = int.from_bytes(row, "little")
    return frozenset(user for user in range(USERS) if bits >> user & 1)


def _orders(rows: Sequence[int]) -> list[Order]:
    return [Order(Kind(rows[at]), rows[at + 1], rows[at + 2]) for at in range(0, len(rows), ORDER_WIDTH)]


def _row(request: Request) -> tuple[int, int, int]:
    """The request as the three numbers of `serve`."""
    if request.ask == Ask.INSERT:
        return (Ask.INSERT, *_set(request.users))
    return Ask(request.ask), _number(request.a), _number(request.b)


def version() -> int:
    """The library's version: major * 10000 + minor * 100 + patch."""
    return _library.fenstubble_version()


def section(data: bytes, k: int) -> memoryview:
    """Section k (0 to 4) of a book's bytes: the stretch of `data` itself."""
    start, length, place = ctypes.c_size_t(), ctypes.c_size_t(), ctypes.c_size_t()
    _take_bytes(_section(_bytes(data), len(data), _number(k), start, length, place), place, data)
    return memoryview(data)[start.value : start.value + length.value]


def row_at(data: bytes, place: int) -> Optional[Row]:
    """The row of a book's bytes that is at this place, by the version and the counts in their header; None where there is none."""
    start = BOOK_HEADER if data[3:5] == b"\1\0" else BOOK_ROWS
    for k in Section:
        end = start + WIDTHS[k] * int.from_bytes(data[COUNTS[k] : COUNTS[k] + 2], "little")
        if start <= place < end:
            return Row(k, (place - start) // WIDTHS[k])
        start = end
    return None


class Book:
    """A book in memory. Only its requests change it."""

    def __init__(self, mode: Mode) -> None:
        self._head = (ctypes.c_uint16 * HEAD_LEN)(Mode(mode))
        self._tables = [(ctypes.c_uint8 * (rows * width))() for rows, width in zip(ROWS, WIDTHS)]

    @classmethod
    def from_bytes(cls, data: bytes) -> Book:
        book, place = cls(Mode.FULL), ctypes.c_size_t()
        _take_bytes(_read(_bytes(data), len(data), *book._lent(), place), place, data)
        return book

    def to_bytes(self) -> bytes:
        """The book as bytes of version 2, also where it was read from version 1."""
        buffer, length = (ctypes.c_uint8 * BOOK_BYTES)(), ctypes.c_size_t()
        _take(_write(*self._lent(), buffer, BOOK_BYTES, length))
        return bytes(buffer[: length.value])

    def copy(self) -> Book:
        """Another book with the same content: a request can be tried on it first."""
        other = Book(self.mode)
        ctypes.pointer(other._head)[0] = self._head
        for to, table in zip(other._tables, self._tables):
            ctypes.memmove(to, table, len(table))
        return other

    def check(self) -> None:
        """Raises Refused unless this is a sound book."""
        _take(_check(*self._lent()))

    def join(self) -> Answer:
        return Answer(self.users, self._request(_join))

    def insert(self, users: Iterable[int]) -> Answer:
        bits, others = _set(users)
        if others:  # the lent bytes can't name them; what is judged before comes first
            self.check()
            raise Refused(1)
        return Answer(self.folders, self._request(_insert, _bytes(bits.to_bytes(SET_BYTES, "little")), SET_BYTES))

    def grant(self, folder: int, user: int) -> Answer:
        return Answer(folder, self._request(_grant, _number(folder), _number(user)))

    def revoke(self, folder: int, user: int) -> Answer:
        return Answer(folder, self._request(_revoke, _number(folder), _number(user)))

    def leave(self, user: int) -> Answer:
        """The user is taken off every list, for good, in one request; the number is not used again."""
        return Answer(user, self._request(_leave, _number(user)))

    def view(self, user: int, folder: int) -> View:
        view = ctypes.c_uint16()
        _take(_view(*self._lent(), _number(user), _number(folder), view))
        return View(view.value)

    def open(self, user: int, folder: int) -> Chains:
        rows, inner, outer = (ctypes.c_uint16 * OPEN_ROWS)(), ctypes.c_uint16(), ctypes.c_uint16()
        _take(_open(*self._lent(), _number(user), _number(folder), rows, len(rows), inner, outer))
        return Chains(rows[: inner.value], rows[inner.value : inner.value + outer.value])

    def serve(self, requests: Iterable[Request]) -> list[Reply]:
        """Each request on the book that those before it left, all in one call. A refusal is among the replies, and the next request is tried. A host obeys the orders of one
        reply after the other and notes when each is done: after a stop it begins with the first that is not."""
        asked = list(requests)
        numbers = [number for request in asked for number in _row(request)]
        room = sum({Ask.OPEN: OPEN_ROWS, Ask.LEAVE: ORDER_ROWS}.get(request.ask, GRANT_ROWS) for request in asked)
        lent, used = (ctypes.c_uint64 * len(numbers))(*numbers), ctypes.c_size_t()
        answers, orders = (ctypes.c_uint16 * (len(asked) * 3))(), (ctypes.c_uint16 * (room * ORDER_WIDTH))()
        new = {Ask.JOIN: count(self.users), Ask.INSERT: count(self.folders)}
        _take(_serve(*self._lent(), lent, len(lent), answers, len(answers), orders, len(orders), used))
        replies: list[Reply] = []
        rest = iter(orders)
        for request, result, view, rows in zip(asked, answers[0::3], answers[1::3], answers[2::3]):
            given = list(islice(rest, rows * ORDER_WIDTH))
            if result != 0:
                replies.append(Refused.of(result + 256 * view))
            elif request.ask == Ask.OPEN:
                replies.append(_chains(given))
            else:
                replies.append(Answer(next(new[request.ask]) if request.ask in new else request.a, _orders(given)))
        return replies

    @property
    def mode(self) -> Mode:
        return Mode(self._head[0])

    @property
    def users(self) -> int:
        """How many have joined, those who have left among them."""
        return self._head[1]

    @property
    def leavers(self) -> frozenset[int]:
        """Who has left."""
        return _users(struct.pack("<4H", *self._head[HEAD_LEAVERS:]))

    @property
    def folders(self) -> int:
        """How many there are."""
        return self._head[2]

    @property
    def inner_vertices(self) -> list[frozenset[int]]:
        """The starting set of each inner vertex."""
        return [_users(row) for row in self._rows(0)]

    @property
    def inner_tokens(self) -> list[Token]:
        return [Token(source, target, kind == 1) for source, target, kind in self._numbers(1, "<HHB")]

    @property
    def outer_vertices(self) -> list[frozenset[int]]:
        return [_users(row) for row in self._rows(2)]

    @property
    def outer_tokens(self) -> list[Token]:
        return [Token(*row) for row in self._numbers(3, "<HH")]

    @property
    def folder_rows(self) -> list[Folder]:
        rows = self._numbers(4, f"<{SET_BYTES}sHH")
        return [Folder(_users(users), inner, None if outer == NO_OUTER else outer) for users, inner, outer in rows]

    @property
    def lists(self) -> list[frozenset[int]]:
        """Who may read each folder."""
        return [row.users for row in self.folder_rows]

    def _lent(self) -> list[object]:
        return [self._head, HEAD_LEN] + [part for table in self._tables for part in (table, len(table))]

    def _request(self, call: Callable[..., int], *arguments: object) -> list[Order]:
        orders, given = (ctypes.c_uint16 * (ORDER_ROWS * ORDER_WIDTH))(), ctypes.c_uint16()
        _take(call(*self._lent(), orders, len(orders), given, *arguments))
        return _orders(orders[: given.value * ORDER_WIDTH])

    def _rows(self, k: int) -> Iterator[bytes]:
        rows, width = self._head[(3, 4, 5, 6, 2)[k]], WIDTHS[k]
        data = bytes(self._tables[k][: rows * width])
        return (data[at : at + width] for at in range(0, len(data), width))

    def _numbers(self, k: int, layout: str) -> Iterator[tuple]:
        return (struct.unpack(layout, row) for row in self._rows(k))


def _chains(rows: Sequence[int]) -> Chains:
    """An open's rows as `serve` gives them: (105, row, 0) inner, (111, row, 0) outer."""
    shown = list(zip(rows[0::ORDER_WIDTH], rows[1::ORDER_WIDTH]))
    return Chains([row for mark, row in shown if mark == ord("i")], [row for mark, row in shown if mark == ord("o")])
