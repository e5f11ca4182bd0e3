"""Tests of fenstubble.py, against the library and against include/fenstubble.h:  FENSTUBBLE_LIBRARY=.../libfenstubble.so.4 python3 python/test_fenstubble.py"""
from __future__ import annotations

import doctest
import pickle
import random
import re
import sys
import unittest
from itertools import combinations
from pathlib import Path
from typing import Callable, Optional

import fenstubble
from fenstubble import NO_ROW, Answer, Ask, Book, Chains, Folder, Kind, Mode, Order, Refused, Request, Row, Section, Token, View, row_at, section

ROOT = Path(__file__).resolve().parent.parent
sys.path.append(str(ROOT / "examples"))
import books  # noqa: E402

HEADER = (ROOT / "include" / "fenstubble.h").read_text()
OUT_OF_RANGE = (-1, 64, 255, 256, 65535, 65536, 65536 + 1, 2**32, 2**64, 2**64 + 1, -(2**64))


def family() -> Book:
    """Three users, two folders for users 0 and 1, and the first granted to user 2."""
    book = Book(Mode.DELTA)
    for _ in range(3):
        book.join()
    book.insert({0, 1})
    book.insert({0, 1})
    book.grant(0, 2)
    return book


GROUPS = [set(group) for size in (2, 3, 4, 5) for group in combinations(range(10), size)]


def go_through(book: Book, folder: int, groups: list[set[int]]) -> None:
    """Takes the folder's list through the groups, adding before taking away."""
    for group in groups:
        for user in group - book.lists[folder]:
            book.grant(folder, user)
        for user in book.lists[folder] - group:
            book.revoke(folder, user)


def crowd(mode: Mode) -> Book:
    """All the users that there can be."""
    book = Book(mode)
    for _ in range(64):
        book.join()
    return book


def pair() -> bytes:
    """The book of RULES 9.9: two users, and a folder for both."""
    book = Book(Mode.DELTA)
    book.join(), book.join()
    book.insert({0, 1})
    return book.to_bytes()


def first_version(data: bytes) -> bytes:
    """The same book as bytes of version 1, which has no set of leavers."""
    assert data[3:5] == b"\2\0" and data[17:25] == bytes(8)
    return data[:3] + b"\1\0" + data[5:17] + data[25:]


def rows_start(data: bytes) -> int:
    return {1: 17, 2: 25}[data[3]]


def place_of(data: bytes, row: Row) -> int:
    """Where the row starts in the bytes of a sound book."""
    return rows_start(data) + sum(len(section(data, k)) for k in range(row.section)) + row.number * fenstubble.WIDTHS[row.section]


def changed(data: bytes, bytes_at: dict[int, int]) -> bytes:
    """The data with other bytes at these places."""
    other = bytearray(data)
    for at, byte in bytes_at.items():
        assert other[at] != byte
        other[at] = byte
    return bytes(other)


class Case(unittest.TestCase):
    def refused(self, number: int, call: Callable[[], object], place: Optional[int] = None, row: Optional[Row] = None) -> Refused:
        with self.assertRaises(Refused) as caught:
            call()
        self.assertEqual((caught.exception.number, caught.exception.place, caught.exception.row), (number, place, row))
        self.assertEqual(caught.exception.reason, fenstubble.REASONS[number])
        return caught.exception

    def broken(self, number: int, data: bytes, place: int, row: Optional[Row] = None) -> Refused:
        """Read and every section say so, also a section that there is not."""
        for k in (0, 1, 2, 3, 4, 5, 65536):
            self.refused(number, lambda: section(data, k), place, row)
        return self.refused(number, lambda: Book.from_bytes(data), place, row)

    def broken_row(self, number: int, data: bytes, at: int, byte: int, row: Row) -> None:
        """The byte that is the `at`-th of this row is another one: the place is where the row starts."""
        start = place_of(data, row)
        self.broken(number, changed(data, {start + at: byte}), start, row)


class Requests(Case):
    def test_paper(self) -> None:
        """P1 to P8 of RULES 11, in one run."""
        book = Book(Mode.DELTA)
        self.assertEqual(book.to_bytes(), b"TKB\x02\x00\x01" + bytes(19))
        self.assertEqual([book.join() for _ in range(3)], [Answer(user, [Order(Kind.INNER_KEY, user, 0), Order(Kind.OUTER_KEY, user, 0)]) for user in range(3)])
        self.assertEqual(book.insert({0, 1}), (0, [(4, 3, 0), (5, 0, 3), (5, 1, 3), (7, 0, 3)]))
        self.assertEqual(book.insert([1, 0]), (1, [(7, 1, 3)]))
        self.assertEqual(book.grant(0, 2), (0, [(1, 3, 0), (2, 0, 3), (2, 1, 3), (3, 1, 3), (6, 2, 3)]))
        self.assertEqual(book.view(2, 1), View.OUTER_LOCKED)
        self.assertEqual(book.revoke(0, 1), (0, [(1, 4, 0), (2, 0, 4), (2, 2, 4), (3, 0, 4)]))
        self.assertEqual(book.grant(0, 1), (0, [(3, 0, 65535)]))
        self.assertEqual(book.revoke(1, 0).orders, [(3, 1, 1)])
        self.assertEqual(book.revoke(1, 1).orders, [(1, 5, 0), (3, 1, 5)])
        self.assertEqual(len(book.to_bytes()), 160)

    def test_full(self) -> None:
        """P9 and P10, and a folder whose lock is new."""
        book = Book(Mode.FULL)
        book.join(), book.join()
        self.assertEqual(book.insert({0}).orders, [(3, 0, 0), (7, 0, 0)])
        self.assertEqual(book.grant(0, 1).orders, [(1, 2, 0), (2, 0, 2), (2, 1, 2), (3, 0, 2), (6, 1, 0)])
        book.join()
        self.assertEqual(book.insert({1, 2}).orders, [(4, 3, 0), (5, 1, 3), (5, 2, 3), (1, 4, 0), (2, 1, 4), (2, 3, 4), (3, 1, 4), (7, 1, 3)])
        self.assertEqual(book.mode, Mode.FULL)

    def test_neighbours_first(self) -> None:
        """The second example of RULES 5.8: a neighbour's lock, the folder's own, the token."""
        book = Book(Mode.DELTA)
        for _ in range(3):
            book.join()
        book.insert({0, 1}), book.insert({0, 1})
        self.assertEqual(book.revoke(0, 1).orders, [(3, 0, 0)])
        neighbour, own, token = [(1, 3, 0), (2, 0, 3), (2, 1, 3), (3, 1, 3)], [(1, 4, 0), (2, 0, 4), (2, 2, 4), (3, 0, 4)], [(6, 2, 3)]
        self.assertEqual(book.grant(0, 2).orders, neighbour + own + token)

    def test_order_of_orders(self) -> None:
        """RULES 6.2, of random requests: the kinds of each row, one behind the other."""
        shapes = {Ask.JOIN: "41", Ask.INSERT: "(45+)?((12+)?3)?7", Ask.GRANT: "((12+)?3+)?((12+)?3)?6?", Ask.REVOKE: "(12*)?3", Ask.LEAVE: "((12*)?3)*"}
        met, left = set(), set()
        for seed in range(150):
            draw, book = random.Random(seed), Book(Mode(seed % 2))
            requests = [Serve.drawn(draw) for _ in range(80)]
            for request, reply in zip(requests, book.serve(requests)):
                if isinstance(reply, Answer):
                    kinds = "".join(str(order.kind.value) for order in reply.orders)
                    self.assertRegex(kinds, f"^({shapes[request.ask]})$")
                    (left if request.ask == Ask.LEAVE else met).add(kinds)
        self.assertTrue({"37", "7", "36", "6"} <= met and any(re.fullmatch("45+12+37", kinds) for kinds in met))
        self.assertTrue(any(re.fullmatch("12+3+12+36", kinds) for kinds in met), sorted(met))
        self.assertTrue({"", "3"} <= left and any(re.fullmatch("(12*)?3(12+3)+", kinds) for kinds in left), sorted(left))

    def test_what_is_in_it(self) -> None:
        book = family()
        self.assertEqual((book.mode, book.users, book.folders), (Mode.DELTA, 3, 2))
        self.assertEqual(book.inner_vertices, [{0}, {1}, {2}, {0, 1}])
        self.assertEqual(book.outer_vertices, [{0}, {1}, {2}, {0, 1}])
        self.assertEqual(book.inner_tokens, [Token(0, 3), Token(1, 3), Token(2, 3, True)])
        self.assertEqual(book.outer_tokens, [Token(0, 3), Token(1, 3)])
        self.assertEqual(book.folder_rows, [Folder(frozenset({0, 1, 2}), 3, None), Folder(frozenset({0, 1}), 3, 3)])
        self.assertEqual(book.lists, [{0, 1, 2}, {0, 1}])
        self.assertEqual(book.leavers, frozenset())

    def test_view_and_open(self) -> None:
        book = family()
        self.assertEqual(book.open(2, 0), Chains([2], []))
        self.assertEqual(book.open(1, 1), Chains([1], [1]))
        book.insert({2})
        self.assertEqual(book.open(2, 2), Chains([], []))
        self.assertEqual(self.refused(11, lambda: book.open(2, 1)).view, View.OUTER_LOCKED)
        self.assertEqual(self.refused(11, lambda: book.open(0, 2)).view, View.INNER_LOCKED)
        book.join()
        self.assertEqual(self.refused(11, lambda: book.open(3, 1)).view, View.LOCKED)
        self.assertEqual([book.view(user, 1) for user in range(4)], [View.OPEN, View.OPEN, View.OUTER_LOCKED, View.LOCKED])
        self.assertEqual(book.view(0, 2), View.INNER_LOCKED)

    def test_longest_chain(self) -> None:
        """A list that grows by one user at a time: 63 tokens in each layer, as many as OPEN_ROWS has room for."""
        book = crowd(Mode.FULL)
        for size in range(1, 65):
            book.insert(range(size))
        chains = book.open(0, 63)
        self.assertEqual((len(chains.inner), len(chains.outer)), (63, 63))

    def test_every_bit(self) -> None:
        """Each user alone, and the user's number is what the list says."""
        book = crowd(Mode.DELTA)
        for user in range(64):
            book.insert({user})
        self.assertEqual(book.lists, [{user} for user in range(64)])


class Leaves(Case):
    def team(self, mode: Mode) -> Book:
        """The book of RULES 5.12."""
        book = Book(mode)
        for _ in range(4):
            book.join()
        for users in ({0, 1, 3}, {0, 1, 2, 3}, {2}, {3}, {0, 1, 3}):
            book.insert(users)
        return book

    def test_example(self) -> None:
        book = self.team(Mode.DELTA)
        first, second, nobody, last = [(1, 4, 0), (2, 0, 4), (2, 1, 4), (3, 0, 4)], [(1, 5, 0), (2, 4, 5), (2, 2, 5), (3, 1, 5)], [(1, 6, 0), (3, 3, 6)], [(3, 4, 4)]
        self.assertEqual(book.leave(3), (3, first + second + nobody + last))
        self.assertEqual(book.lists, [{0, 1}, {0, 1, 2}, {2}, set(), {0, 1}])
        self.assertEqual([book.view(3, folder) for folder in range(5)], [1, 1, 2, 1, 1])
        self.assertEqual((book.users, book.leavers), (4, {3}))

    def test_is_revokes(self) -> None:
        """One list of orders, and the book that the revokes leave but for the set of leavers."""
        for mode in Mode:
            for user in range(4):
                book, other = self.team(mode), self.team(mode)
                orders = [order for folder in range(5) if user in other.lists[folder] for order in other.revoke(folder, user).orders]
                self.assertEqual(book.leave(user), (user, orders))
                self.assertEqual(book.to_bytes(), changed(other.to_bytes(), {17: 1 << user}))

    def test_on_no_list(self) -> None:
        book = family()
        user = book.join().number
        before = book.to_bytes()
        self.assertEqual(book.leave(user), (user, []))
        self.assertEqual(book.to_bytes(), changed(before, {17: 8}))

    def test_for_good(self) -> None:
        """The leaver is on no list again, and whoever joins gets another number."""
        for mode in Mode:
            book = self.team(mode)
            book.leave(3)
            before = book.to_bytes()
            for call in (lambda: book.leave(3), lambda: book.grant(2, 3), lambda: book.insert({3}), lambda: book.insert({0, 3})):
                self.refused(15, call)
            for folder in range(5):
                self.refused(6, lambda: book.revoke(folder, 3))
                self.assertIsNotNone(self.refused(11, lambda: book.open(3, folder)).view)
            self.assertEqual(book.to_bytes(), before)
            self.assertEqual(book.join().number, 4)
            book.insert({0, 4})
            book.grant(2, 4)
            self.assertEqual((book.leavers, book.users), ({3}, 5))

    def test_order(self) -> None:
        """15 stands right behind 1, and before what else is wrong."""
        book = self.team(Mode.DELTA)
        book.leave(3)
        self.refused(1, lambda: book.insert({3, 4}))
        self.refused(1, lambda: book.insert({3, 64}))
        self.refused(1, lambda: book.grant(5, 3))
        while book.folders < 256:
            book.insert({2})
        self.refused(15, lambda: book.insert({2, 3}))
        self.refused(3, lambda: book.insert({2}))

    def test_everybody(self) -> None:
        """Each number of the set; they count among the 64."""
        book = crowd(Mode.DELTA)
        book.insert(range(64))
        for user in range(64):
            self.assertEqual(book.leavers, set(range(user)))
            book.leave(user)
        self.assertEqual((book.users, book.lists), (64, [set()]))
        self.refused(2, book.join)
        self.assertEqual(Book.from_bytes(book.to_bytes()).leavers, set(range(64)))

    def test_many_orders(self) -> None:
        """More rows than any other request can give, alone and served."""
        book, draw = crowd(Mode.FULL), random.Random(4)
        for _ in range(100):
            book.insert({63, *draw.sample(range(63), 15)})
        other = book.copy()
        orders = book.leave(63).orders
        self.assertGreater(len(orders), fenstubble.GRANT_ROWS)
        self.assertEqual(other.serve([Request(Ask.LEAVE, 63), Request(Ask.LEAVE, 63)])[0], (63, orders))
        self.assertEqual(other.to_bytes(), book.to_bytes())

    def test_as_a_whole(self) -> None:
        """7: folders that could be locked stand before the one that takes a group too many, and stay as they are."""
        book = Book(Mode.FULL)
        for _ in range(10):
            book.join()
        for user in range(10):
            book.insert({user, (user + 1) % 10})
        folder = book.insert({0}).number
        self.refused(7, lambda: go_through(book, folder, GROUPS[::-1]))
        users, before = book.lists[folder], book.to_bytes()
        needing = [user for user in users if users - {user} not in book.outer_vertices]
        self.assertTrue(needing)
        for user in needing:
            self.refused(7, lambda: book.leave(user))
            self.assertEqual(book.to_bytes(), before)


class Refusals(Case):
    def test_no_such(self) -> None:
        book, before = family(), family().to_bytes()
        for bad in OUT_OF_RANGE + (3,):
            for call in (
                lambda: book.insert({0, bad}),
                lambda: book.grant(0, bad),
                lambda: book.revoke(0, bad),
                lambda: book.leave(bad),
                lambda: book.view(bad, 0),
                lambda: book.open(bad, 0),
            ):
                self.refused(1, call)
        for bad in OUT_OF_RANGE + (2,):
            for call in (lambda: book.grant(bad, 0), lambda: book.revoke(bad, 0), lambda: book.view(0, bad), lambda: book.open(0, bad)):
                self.refused(1, call)
        for bad in OUT_OF_RANGE + (5,):
            self.refused(1, lambda: section(before, bad))
        self.assertEqual(book.to_bytes(), before)

    def test_no_number(self) -> None:
        book = family()
        for bad in ("0", 0.0, None):
            with self.assertRaises(TypeError):
                book.grant(0, bad)
            with self.assertRaises(TypeError):
                book.insert([bad])
            with self.assertRaises(TypeError):
                book.leave(bad)
        with self.assertRaises(ValueError):
            Book(2)

    def test_full_tables(self) -> None:
        book = crowd(Mode.DELTA)
        self.refused(2, book.join)
        for _ in range(256):
            book.insert({63})
        self.refused(3, lambda: book.insert({63}))
        self.refused(4, lambda: book.insert(set()))
        self.refused(1, lambda: book.insert({64}))
        self.assertEqual(book.folders, 256)

    def test_lists(self) -> None:
        book, before = family(), family().to_bytes()
        self.refused(4, lambda: book.insert([]))
        self.refused(5, lambda: book.grant(0, 2))
        self.refused(6, lambda: book.revoke(1, 2))
        self.assertEqual(book.to_bytes(), before)

    def test_outer_groups(self) -> None:
        """7: one folder whose list takes 448 values that are no user's own, and one more."""
        book = Book(Mode.FULL)
        for _ in range(10):
            book.join()
        book.insert({0})
        self.refused(7, lambda: go_through(book, 0, GROUPS))
        self.assertEqual(len(book.outer_vertices) - book.users, 448)

    def test_inner_tokens(self) -> None:
        self.refused(8, self.insert_for_ever)

    def test_outer_tokens(self) -> None:
        self.refused(9, self.change_for_ever)

    def insert_for_ever(self) -> None:
        """Folders for many, each an inner vertex with many tokens."""
        book, draw = crowd(Mode.DELTA), random.Random(8)
        while True:
            book.insert(draw.sample(range(64), 40))

    def change_for_ever(self) -> None:
        """One folder in mode full: each change of its list is an outer vertex with many tokens."""
        book, draw = crowd(Mode.FULL), random.Random(9)
        book.insert({0})
        while True:
            user = draw.randrange(64)
            (book.revoke if user in book.lists[0] else book.grant)(0, user)

    def test_unsound(self) -> None:
        """12 comes before 1, whatever the number is; no place is told of tables."""
        book = family()
        book._tables[0][0] ^= 1
        for call in (
            book.check,
            book.join,
            book.to_bytes,
            lambda: book.insert({99}),
            lambda: book.insert({0}),
            lambda: book.grant(65536, 0),
            lambda: book.revoke(0, -1),
            lambda: book.leave(65536),
            lambda: book.view(65536, 0),
            lambda: book.open(65536, 0),
            lambda: book.serve([]),
        ):
            self.refused(12, call)

    def test_unsound_leavers(self) -> None:
        """Of those who have not joined, and of one whom a list names."""
        for at, bits in ((7, 1 << 3), (8, 1), (10, 1 << 15), (7, 1)):
            book = family()
            book._head[at] = bits
            self.refused(12, book.check)
        book = family()
        book.leave(2)
        book._head[7] = 0
        book.check()

    def test_as_an_exception(self) -> None:
        refused = self.refused(11, lambda: family().open(2, 1))
        self.assertEqual(str(refused), "11 (view 1): the folder is closed to this user")
        again = pickle.loads(pickle.dumps(refused))
        self.assertEqual((again.number, again.view, again.place, again.row, again.reason), (11, View.OUTER_LOCKED, None, None, refused.reason))


class Broken(Case):
    """Bytes that are no sound book: number and place, RULES 9.10 to 9.12."""

    def test_lengths(self) -> None:
        for good in (family().to_bytes(), first_version(family().to_bytes())):
            for length in range(len(good)):
                self.broken(24, good[:length], length)
            for more in (1, 8, 1000, 46617, 65535 - len(good), 65536 - len(good), 70000 - len(good)):
                self.broken(24, good + bytes(more), len(good) + more)
        self.broken(24, b"\xff" * 16, 16)

    def test_long_input(self) -> None:
        """A length is told as it is: 65535 with 24 is one. What the header says comes first."""
        for length in (65535, 65536, 70000):
            self.broken(20, bytes(length), 0)
            for header in (b"TKB\1\0\1", b"TKB\2\0\1"):
                self.broken(24, header + bytes(length - 6), length)
                self.broken(23, header + b"\xff" * (length - 6), 6)

    def test_header(self) -> None:
        good = pair()
        for at in range(3):
            self.broken(20, changed(good, {at: 0}), 0)
        for at, byte in ((3, 0), (3, 3), (4, 1)):
            self.broken(21, changed(good, {at: byte}), 3)
        self.broken(22, changed(good, {5: 2}), 5)
        self.broken(22, changed(good, {5: 255}), 5)
        for over, place in (({6: 65}, 6), ({8: 1}, 7), ({9: 4}, 9), ({10: 1}, 9), ({12: 16}, 11), ({13: 195, 14: 1}, 13), ({15: 1, 16: 16}, 15)):
            self.broken(23, changed(good, over), place)
        self.broken(32, changed(good, {6: 64}), NO_ROW)
        for most in ({7: 0, 8: 1}, {7: 2, 9: 4}, {11: 0, 12: 16}, {13: 194, 14: 1}, {16: 16}):
            self.broken(24, changed(good, most), 87)
        self.broken(24, changed(good, {3: 1}), 87)
        self.broken(24, changed(first_version(good), {3: 2}), 79)

    def test_order(self) -> None:
        """What is judged first is told, whatever else is wrong."""
        wrong = {0: 0, 3: 3, 5: 2, 6: 65, 16: 1, 17: 4, 58: 2}
        for number, place, right in ((20, 0, 0), (21, 3, 3), (22, 5, 5), (23, 6, 6), (24, 87, 16), (31, 17, 17), (31, 54, 58)):
            self.broken(number, changed(pair(), wrong), place, Row(Section.INNER_TOKENS, 1) if place == 54 else None)
            del wrong[right]

    def test_examples(self) -> None:
        """Those of RULES 9.12."""
        good = pair()
        self.assertEqual(len(good), 87)
        self.broken(22, changed(good, {5: 2}), 5)
        self.broken(23, changed(good, {7: 0}), 9)
        self.broken(24, changed(good, {16: 1}), 87)
        self.broken(24, changed(good, {3: 1}), 87)
        self.broken(31, changed(good, {17: 4}), 17)
        self.broken(31, changed(good, {17: 2}), 75, Row(Section.RESOURCES, 0))
        self.broken(31, changed(good, {58: 2}), 54, Row(Section.INNER_TOKENS, 1))
        self.broken(35, changed(good, {58: 1}), 41, Row(Section.INNER_VERTICES, 2))
        self.broken(31, changed(good, {60: 1}), 59, Row(Section.OUTER_VERTICES, 0))
        self.broken(32, changed(good, {59: 2}), NO_ROW)
        self.broken(31, changed(good, {85: 0}), 75, Row(Section.RESOURCES, 0))
        self.broken(38, changed(good, {85: 0, 86: 0}), 75, Row(Section.RESOURCES, 0))
        old = first_version(good)
        self.assertEqual(len(old), 79)
        self.broken(31, changed(old, {50: 2}), 46, Row(Section.INNER_TOKENS, 1))

    def test_leavers(self) -> None:
        """A leaver who has not joined comes before all rows; one whom a list names is told by that folder's row, in its turn among what breaks S1."""
        good = family().to_bytes()
        for at in range(8):
            self.broken(31, changed(good, {17 + at: 0x80}), 17)
        token, first, second = (place_of(good, row) for row in (Row(Section.OUTER_TOKENS, 1), Row(Section.RESOURCES, 0), Row(Section.RESOURCES, 1)))
        self.broken(31, changed(good, {17: 4}), first, Row(Section.RESOURCES, 0))
        self.broken(31, changed(good, {17: 4 + 8}), 17)
        self.broken(31, changed(good, {17: 2, first: 5}), second, Row(Section.RESOURCES, 1))
        self.broken(31, changed(good, {17: 4, token: 9}), token, Row(Section.OUTER_TOKENS, 1))
        self.broken(31, changed(good, {17: 4, 25: 0}), first, Row(Section.RESOURCES, 0))

    def test_each_rule(self) -> None:
        """Users 0 to 2; inner and outer vertex 3 is {0, 1}, inner vertex 4 {0, 2}; folder 0 also granted to user 2."""
        book = family()
        book.insert({0, 2})
        for data in (book.to_bytes(), first_version(book.to_bytes())):
            self.check_each_rule(data)

    def check_each_rule(self, good: bytes) -> None:
        for row, at, byte in (
            (Row(Section.INNER_VERTICES, 4), 0, 13),  # user 3
            (Row(Section.INNER_TOKENS, 0), 0, 5),
            (Row(Section.INNER_TOKENS, 4), 2, 5),
            (Row(Section.INNER_TOKENS, 2), 4, 2),
            (Row(Section.OUTER_VERTICES, 1), 7, 1),
            (Row(Section.OUTER_TOKENS, 1), 0, 4),
            (Row(Section.OUTER_TOKENS, 0), 3, 255),
            (Row(Section.RESOURCES, 2), 0, 15),
            (Row(Section.RESOURCES, 1), 9, 1),
            (Row(Section.RESOURCES, 1), 10, 4),
        ):
            self.broken_row(31, good, at, byte, row)
        for row, at, byte in (
            (Row(Section.INNER_VERTICES, 3), 0, 0),  # the empty set
            (Row(Section.INNER_TOKENS, 1), 2, 0),  # into an own vertex
            (Row(Section.OUTER_TOKENS, 1), 2, 2),
        ):
            self.broken_row(32, good, at, byte, row)
        for vertex in (Row(Section.INNER_VERTICES, 0), Row(Section.OUTER_VERTICES, 2)):
            self.broken(32, changed(good, {place_of(good, vertex): 3}), NO_ROW)
        self.broken_row(33, good, 0, 3, Row(Section.INNER_VERTICES, 4))
        self.broken_row(34, good, 0, 1, Row(Section.INNER_TOKENS, 4))
        self.broken_row(34, good, 0, 2, Row(Section.OUTER_TOKENS, 1))
        self.broken_row(35, good, 0, 7, Row(Section.OUTER_VERTICES, 3))
        self.broken_row(36, good, 0, 0, Row(Section.INNER_TOKENS, 2))  # user 0 is in {0, 1}
        self.broken_row(36, good, 0, 4, Row(Section.INNER_TOKENS, 2))  # from a group
        self.broken_row(37, good, 0, 7, Row(Section.RESOURCES, 2))  # user 1 does not hold vertex 4
        self.broken_row(38, good, 10, 0, Row(Section.RESOURCES, 1))  # locked with {0}

    def test_twice(self) -> None:
        """Of two equal token rows the later one is told."""
        good = family().to_bytes()
        token = place_of(good, Row(Section.OUTER_TOKENS, 1))
        twice = changed(good[: token + 4] + good[token - 4 :], {15: 4})
        self.broken(36, twice, token + 4, Row(Section.OUTER_TOKENS, 2))

    def test_missing_first(self) -> None:
        """A missing vertex comes before what else breaks S2, also where that stands in an earlier byte."""
        good = pair()
        self.broken(32, changed(good, {41: 0, 59: 2}), NO_ROW)

    def test_every_bit(self) -> None:
        """No bit changed here leaves a sound book: each has its place, in the bytes or NO_ROW, and its row where a rule is broken."""
        good = family().to_bytes()
        for at in range(len(good)):
            data = changed(good, {at: good[at] ^ 0x80})
            with self.assertRaises(Refused) as caught:
                Book.from_bytes(data)
            refused = caught.exception
            self.assertIn(refused.number, {*range(20, 25), *range(31, 39)})
            if refused.number < 31 or refused.place in (NO_ROW, fenstubble.BOOK_LEAVERS):
                self.assertIsNone(refused.row)
            else:
                self.assertEqual(refused.place, place_of(good, refused.row))
            self.broken(refused.number, data, refused.place, refused.row)

    def test_rows(self) -> None:
        """Each byte of a book belongs to its row; the header, the set of leavers and what is behind the rows to none."""
        for data in (family().to_bytes(), first_version(family().to_bytes())):
            start, rows = rows_start(data), [Row(k, n) for k in Section for n in range(len(section(data, k)) // fenstubble.WIDTHS[k])]
            self.assertEqual([row_at(data, at) for at in range(start)], [None] * start)
            self.assertEqual([row_at(data, at) for at in range(start, len(data))], [row for row in rows for _ in range(fenstubble.WIDTHS[row.section])])
            self.assertEqual([row_at(data, at) for at in (len(data), NO_ROW, 2**64)], [None] * 3)

    def test_story(self) -> None:
        """examples/books.py makes story.tkb and damaged.tkb as they are there; in the second a byte of an outer token is changed."""
        good, bad = ((ROOT / "examples" / name).read_bytes() for name in ("story.tkb", "damaged.tkb"))
        self.assertEqual((good, bad), books.made())
        self.assertEqual(Book.from_bytes(good).leavers, {2})
        self.assertEqual([at for at in range(len(good)) if good[at : at + 1] != bad[at : at + 1]], [181])
        self.broken(34, bad, 181, Row(Section.OUTER_TOKENS, 3))

    def test_other_refusals(self) -> None:
        self.refused(1, lambda: section(pair(), 5))

    def test_in_words(self) -> None:
        good = pair()
        told = {
            "20 (byte 0): the bytes do not begin with the mark of a book, TKB": changed(good, {0: 0}),
            "23 (byte 9): a count in the book's header is over its limit": changed(good, {7: 0}),
            "24 (86 bytes): the length is not what the book's version and counts ask for": good[:86],
            "32 (65535, a missing vertex): " + fenstubble.REASONS[32]: changed(good, {59: 2}),
            "32 (byte 41, inner vertex row 2): " + fenstubble.REASONS[32]: changed(good, {41: 0}),
            "31 (byte 17, the set of leavers): " + fenstubble.REASONS[31]: changed(good, {17: 4}),
            "31 (byte 17, inner vertex row 0): " + fenstubble.REASONS[31]: changed(first_version(good), {17: 5}),
            "31 (byte 54, inner token row 1): " + fenstubble.REASONS[31]: changed(good, {58: 2}),
            "31 (byte 59, outer vertex row 0): " + fenstubble.REASONS[31]: changed(good, {60: 1}),
            "38 (byte 75, folder row 0): " + fenstubble.REASONS[38]: changed(good, {85: 0, 86: 0}),
        }
        for words, data in told.items():
            with self.assertRaises(Refused) as caught:
                Book.from_bytes(data)
            self.assertEqual(str(caught.exception), words)
            again = pickle.loads(pickle.dumps(caught.exception))
            self.assertEqual((str(again), again.args), (words, caught.exception.args))
        self.assertEqual(str(Row(Section.OUTER_TOKENS, 5)), "outer token row 5")


class Bytes(Case):
    def test_round_trip(self) -> None:
        left = family()
        left.leave(1)
        for book in (Book(Mode.FULL), Book(Mode.DELTA), family(), left):
            data = book.to_bytes()
            again = Book.from_bytes(data)
            again.check()
            self.assertEqual(again.to_bytes(), data)
            self.assertEqual((again.mode, again.lists, again.leavers), (book.mode, book.lists, book.leavers))
        self.assertEqual(Book.from_bytes(bytearray(data)).to_bytes(), data)

    def test_first_version(self) -> None:
        """It is read, nobody has left, and it is written as version 2: examples/version-1.tkb too, the story book of earlier releases."""
        for book in (Book(Mode.FULL), Book(Mode.DELTA), family()):
            again = Book.from_bytes(first_version(book.to_bytes()))
            self.assertEqual((again.to_bytes(), again.leavers), (book.to_bytes(), set()))
        kept = (ROOT / "examples" / "version-1.tkb").read_bytes()
        book = Book.from_bytes(kept)
        self.assertEqual((kept[3], first_version(book.to_bytes())), (1, kept))
        self.assertEqual((book.users, book.lists, book.leavers), (4, [{0, 1, 3}, {0, 1}, {2, 3}], set()))

    def test_copy(self) -> None:
        book, before = family(), family().to_bytes()
        other = book.copy()
        self.assertEqual(other.to_bytes(), before)
        other.grant(1, 2)
        self.assertEqual(book.to_bytes(), before)
        book.grant(1, 2)
        self.assertEqual(book.to_bytes(), other.to_bytes())

    def test_sections(self) -> None:
        for data in (family().to_bytes(), first_version(family().to_bytes())):
            start = rows_start(data)
            self.assertEqual(data[start:], b"".join(section(data, k) for k in range(5)))
            self.assertEqual([len(section(data, k)) for k in range(5)], [4 * 8, 3 * 5, 4 * 8, 2 * 4, 2 * 12])
            lent = bytearray(data)
            section(lent, 0)[0] = 99
            self.assertEqual(lent[start], 99, "the stretch of the lent book itself")


class Serve(Case):
    def test_empty(self) -> None:
        self.assertEqual(family().serve([]), [])

    def test_each_kind(self) -> None:
        book = family()
        replies = book.serve(
            [
                Request(Ask.JOIN),
                Request(Ask.INSERT, users={0, 3}),
                Request(Ask.INSERT, users={0, 64}),
                Request(Ask.GRANT, 2, 1),
                Request(Ask.OPEN, 2, 1),
                Request(Ask.OPEN, 0, 1),
                Request(Ask.REVOKE, 65536, 0),
                Request(Ask.REVOKE, 1, 1),
                Request(Ask.JOIN),
                Request(Ask.INSERT, users={4}),
                Request(Ask.LEAVE, 1, 99),
                Request(Ask.LEAVE, 1),
                Request(Ask.INSERT, users={1, 4}),
                Request(Ask.LEAVE, 65536 + 2),
                Request(Ask.GRANT, 1, 1),
            ]
        )
        self.assertEqual(replies[0], (3, [(4, 4, 0), (1, 4, 0)]))
        self.assertEqual(replies[1], (2, [(4, 5, 0), (5, 0, 5), (5, 4, 5), (7, 2, 5)]))
        self.assertEqual(replies[3], (2, [(6, 1, 5)]))
        self.assertEqual(replies[5], Chains([0], [0]))
        self.assertEqual(replies[7], (1, [(3, 1, 0)]))
        self.assertEqual(replies[10], (1, [(1, 6, 0), (2, 0, 6), (2, 2, 6), (3, 0, 6), (1, 7, 0), (2, 0, 7), (2, 4, 7), (3, 2, 7)]))
        self.assertEqual([replies[i].number for i in (2, 4, 6, 8, 9)], [1, 11, 1, 4, 3])
        self.assertEqual([replies[i].number for i in range(11, 15)], [15, 15, 1, 15])
        self.assertEqual(replies[4].view, View.OUTER_LOCKED)

    def test_as_the_calls(self) -> None:
        """Random requests served in one call are the calls one after the other."""
        for seed in range(20):
            draw = random.Random(seed)
            book = Book(Mode(seed % 2))
            requests = [self.drawn(draw) for _ in range(60)]
            one_by_one = book.copy()
            expected = [self.called(one_by_one, request) for request in requests]
            self.assertEqual([self.plain(reply) for reply in book.serve(requests)], [self.plain(reply) for reply in expected])
            self.assertEqual(book.to_bytes(), one_by_one.to_bytes())

    @staticmethod
    def drawn(draw: random.Random) -> Request:
        """Few leaves: whoever is left can ask for the more."""
        ask = draw.choice([ask for ask in Ask for _ in range(1 if ask == Ask.LEAVE else 4)])
        return Request(ask, draw.randrange(8), draw.randrange(8), draw.sample(range(9), draw.randrange(4)))

    @staticmethod
    def called(book: Book, request: Request) -> object:
        try:
            if request.ask == Ask.JOIN:
                return book.join()
            if request.ask == Ask.INSERT:
                return book.insert(request.users)
            if request.ask == Ask.LEAVE:
                return book.leave(request.a)
            return {Ask.GRANT: book.grant, Ask.REVOKE: book.revoke, Ask.OPEN: book.open}[request.ask](request.a, request.b)
        except Refused as refused:
            return refused

    @staticmethod
    def plain(reply: object) -> object:
        return reply.args if isinstance(reply, Refused) else reply


class Header(Case):
    """The module says what include/fenstubble.h says."""

    def test_reasons(self) -> None:
        names = re.search(r"enum fenstubble_refusal \{(.*?)\n\};", HEADER, re.S).group(1)
        numbers = {name: int(text) for name, text in re.findall(r"(FENSTUBBLE_\w+) = (\d+)", names)}
        body = re.search(r"fenstubble_reason\(uint16_t result\) \{(.*?)\n\}", HEADER, re.S).group(1)
        texts = re.findall(r'case (\w+): return "([^"]*)";', body)
        self.assertEqual([name for name, _ in texts], list(numbers))
        self.assertEqual({numbers[name]: text for name, text in texts}, fenstubble.REASONS)
        self.assertEqual(re.findall(r'default: return "([^"]*)";', body), ["no such refusal"])
        self.assertEqual(fenstubble.reason(11 + 256 * 3), fenstubble.REASONS[11])
        for number in (16, 19, 25, 30, 39, 255):
            self.assertEqual(fenstubble.reason(number), "no such refusal")

    def test_constants(self) -> None:
        numbers = {name: int(text) for name, text in re.findall(r"#define FENSTUBBLE_(\w+) (\d+)", HEADER)}
        for name in ("VERSION", "USERS", "RESOURCES", "INNER_TOKENS", "OUTER_TOKENS", "OUTER_GROUPS", "SET_BYTES", "HEAD_LEN", "ORDER_WIDTH", "ORDER_ROWS", "GRANT_ROWS", "CHAIN_ROWS"):
            self.assertEqual(getattr(fenstubble, name), numbers[name], name)
        self.assertEqual((fenstubble.BOOK_HEADER, fenstubble.BOOK_BYTES), (numbers["BOOK_HEADER"], numbers["BOOK_BYTES"]))
        self.assertEqual((fenstubble.NO_OUTER, fenstubble.NO_ROW, len(Section)), (numbers["NO_OUTER"], numbers["NO_ROW"], numbers["SECTIONS"]))
        self.assertEqual(fenstubble.version(), fenstubble.VERSION)
        self.assertEqual((fenstubble.BOOK_LEAVERS, fenstubble.BOOK_ROWS), (17, 25))
        self.assertEqual(fenstubble.BOOK_BYTES, fenstubble.BOOK_ROWS + sum(rows * width for rows, width in zip(fenstubble.ROWS, fenstubble.WIDTHS)))

    def test_enums(self) -> None:
        pairs = dict(re.findall(r"FENSTUBBLE_(\w+) = (\d+)", HEADER))
        self.assertEqual(fenstubble.HEAD_LEAVERS, int(pairs["HEAD_LEAVERS"]))
        for prefix, numbers in (("MODE_", Mode), ("VIEW_", View), ("ORDER_", Kind), ("REQUEST_", Ask), ("SECTION_", Section)):
            self.assertEqual({prefix + one.name: one.value for one in numbers}, {name: int(text) for name, text in pairs.items() if name.startswith(prefix)})


def load_tests(loader: unittest.TestLoader, tests: unittest.TestSuite, pattern: object) -> unittest.TestSuite:
    tests.addTests(doctest.DocTestSuite(fenstubble))
    return tests


if __name__ == "__main__":
    unittest.main()
