"""Tests of the host in one process: files that were changed by others, hosts that fail. Stops are the drill's."""
from __future__ import annotations

import json
import resource
import tempfile
import unittest
from contextlib import contextmanager
from pathlib import Path
from typing import Callable, Iterator

import brute
import host as hosting
from host import Busy, Chain, Damaged, Disk, Host, Locked, Pending, Person
from fenstubble import Kind, Mode, Order, Refused

TEXTS = (b"case notes", b"reading pack")


def no_sync(file: int) -> None:
    """No power is lost in these tests, and syncing takes most of a host's time."""


@contextmanager
def largest_file(size: int) -> Iterator[None]:
    """No file can be written past that size, as if the disk were full there."""
    before = resource.getrlimit(resource.RLIMIT_FSIZE)
    resource.setrlimit(resource.RLIMIT_FSIZE, (size, before[1]))
    try:
        yield
    finally:
        resource.setrlimit(resource.RLIMIT_FSIZE, before)


class FailingDisk(Disk):
    """A disk on which the write of that number fails, at that place."""

    def __init__(self, number: int, place: str) -> None:
        super().__init__(self.reached)
        self.left, self.place = number, place

    def reached(self, place: str, path: Path) -> None:
        if place == self.place:
            self.left -= 1
            if self.left < 0:
                raise OSError("no space left")


class Dropped(Exception):
    """The line dropped."""


class DroppingHost(Host):
    """A host whose line drops when it has obeyed an order of that kind."""

    after = Kind.LOCK

    def obey(self, order: Order, pending: Pending) -> None:
        super().obey(order, pending)
        if order.kind == self.after:
            raise Dropped


class Case(unittest.TestCase):
    mode = Mode.DELTA

    def setUp(self) -> None:
        folder = tempfile.TemporaryDirectory()
        self.addCleanup(folder.cleanup)
        self.root = Path(folder.name) / "world"
        Host.create(self.root, self.mode)
        with Host(self.root) as host:
            for _ in range(3):
                host.join()
            for text in TEXTS:
                host.insert({0, 1}, text)
            host.grant(1, 2)

    def file(self, folder: int) -> Path:
        return self.root / "storage" / "public" / "folders" / str(folder)

    def token(self, name: str) -> Path:
        return self.root / "storage" / "public" / "tokens" / name

    def chain(self, user: int, folder: int) -> Chain:
        with Host(self.root) as host:
            return host.chain(user, folder)

    def opens(self, user: int, folder: int) -> bytes:
        return Person(self.root, user).open(folder, self.chain(user, folder))

    def everybody(self) -> list[set[int]]:
        """The folders that each person opens by any means."""
        return [set(brute.open_all(self.root, person)) for person in range(3)]

    def content(self) -> dict[str, bytes]:
        return {str(path): path.read_bytes() for path in self.root.rglob("*") if path.is_file()}


class Files(Case):
    def test_opens(self) -> None:
        self.assertEqual([self.opens(0, folder) for folder in range(2)], list(TEXTS))
        self.assertEqual(self.opens(2, 1), TEXTS[1])
        self.assertEqual([brute.open_all(self.root, user) for user in range(3)], [dict(enumerate(TEXTS))] * 2 + [{1: TEXTS[1]}])

    def test_any_text(self) -> None:
        with Host(self.root) as host:
            for text in (b"", b"\n", b"folder 2 inner 3 outer none\n", bytes(100000)):
                folder = host.insert({2}, text)
                self.assertEqual(host.read(2, folder), text)

    def test_lines_exchanged(self) -> None:
        """The public line of a file is another one than that in its box: noticed by everybody who opens it."""
        for folder in range(2):
            good = self.file(folder).read_bytes()
            true = Locked.from_bytes(good)
            for false in (true._replace(folder=9), true._replace(inner=0), true._replace(outer=0), true._replace(outer=None if true.outer is not None else 3)):
                self.file(folder).write_bytes(false.to_bytes())
                for user in range(2):
                    self.assertRaises(Damaged, self.opens, user, folder)
            self.file(folder).write_bytes(good)
            self.opens(0, folder)

    def test_line_inside(self) -> None:
        """Also where the key is the right one: the box's own line decides."""
        key = bytes(32)
        locked = Locked(4, 5, None).filled(key, b"text")
        self.assertEqual(locked.content(key), b"text")
        for false in (locked._replace(folder=3), locked._replace(inner=4), locked._replace(outer=5)):
            self.assertRaises(Damaged, false.content, key)

    def test_folders_exchanged(self) -> None:
        notes, pack = self.file(0).read_bytes(), self.file(1).read_bytes()
        self.file(0).write_bytes(pack)
        self.file(1).write_bytes(notes)
        for folder in range(2):
            self.assertRaises(Damaged, self.opens, 0, folder)

    def test_boxes_damaged(self) -> None:
        good = self.file(1).read_bytes()
        for at in range(good.index(b"\n") + 1, len(good)):
            self.file(1).write_bytes(good[:at] + bytes([good[at] ^ 1]) + good[at + 1 :])
            self.assertRaises(Damaged, self.opens, 2, 1)
        for data in (b"", b"folder 1", good[:-1], good.partition(b"\n")[0] + b"\n"):
            self.file(1).write_bytes(data)
            self.assertRaises(Damaged, self.opens, 2, 1)

    def test_storage_notices(self) -> None:
        """A line that says the lock which is asked for, on a box that has another one, is not believed."""
        self.file(0).write_bytes(Locked.from_bytes(self.file(0).read_bytes())._replace(outer=0).to_bytes())
        with Host(self.root) as host:
            self.assertRaises(Damaged, host.revoke, 0, 1)

    def test_tokens_damaged(self) -> None:
        path = self.token("inner-2-3-access")
        good = path.read_bytes()
        for at in range(len(good)):
            path.write_bytes(good[:at] + bytes([good[at] ^ 1]) + good[at + 1 :])
            self.assertRaises(Damaged, self.opens, 2, 1)
        path.write_bytes(good)
        self.opens(2, 1)

    def test_tokens_exchanged(self) -> None:
        one, other = self.token("inner-0-3-derivation"), self.token("inner-1-3-derivation")
        data = one.read_bytes()
        one.write_bytes(other.read_bytes())
        other.write_bytes(data)
        for user in range(2):
            self.assertRaises(Damaged, self.opens, user, 1)


class Ciphers(unittest.TestCase):
    def test_tokens(self) -> None:
        source, target = bytes(32), bytes(range(32))
        token = hosting.make_token(source, "inner 3 derivation", target)
        self.assertEqual(hosting.follow(source, token), target)
        self.assertEqual(hosting.make_token(source, "inner 3 derivation", target), token, "a function of keys and name")
        self.assertIsNone(hosting.follow(target, token))
        self.assertNotIn(target.hex().encode(), token)

    def test_labels(self) -> None:
        """Another name or another key, another label; so the same number can be used again."""
        labels = {hosting.label(name, key) for name in ("inner 3 derivation", "inner 3 access", "outer 3") for key in (bytes(32), bytes(31) + b"\1")}
        self.assertEqual(len(labels), 6)

    def test_access_key(self) -> None:
        self.assertNotEqual(hosting.access_key(bytes(32)), bytes(32))
        self.assertEqual(len(hosting.access_key(bytes(32))), hosting.KEY_BYTES)


class Hosts(Case):
    def test_alone(self) -> None:
        with Host(self.root):
            self.assertRaises(Busy, Host, self.root)
        with Host(self.root) as host:
            pass
        self.assertRaises(Busy, host.join)

    def test_created_once(self) -> None:
        before = self.content()
        self.assertRaises(FileExistsError, Host.create, self.root, Mode.FULL)
        self.assertEqual(self.content(), before)

    def test_private(self) -> None:
        """Only what is public can be read by others."""
        for name in ("owner", "owner/keys", "storage/keys", "storage/waiting", "people", "people/0"):
            self.assertEqual((self.root / name).stat().st_mode & 0o077, 0, name)

    def test_refused(self) -> None:
        with Host(self.root) as host:
            before = self.content()
            requests: tuple[Callable[[], object], ...] = (
                lambda: host.insert([], b"x"),
                lambda: host.insert({3}, b"x"),
                lambda: host.grant(1, 2),
                lambda: host.revoke(0, 2),
                lambda: host.grant(65536, 0),
                lambda: host.read(2, 0),
            )
            for request in requests:
                self.assertRaises(Refused, request)
            self.assertEqual(self.content(), before)
            host.grant(0, 2)

    def test_keys_damaged(self) -> None:
        """A key that is too short or too long is never used; once it is mended, the host goes on."""
        for name, request in (("owner/keys/1", lambda host: host.insert({1, 2}, b"more")), ("storage/keys/0", lambda host: host.revoke(0, 1))):
            file = self.root / name
            key = file.read_bytes()
            with Host(self.root) as host:
                file.write_bytes(b"")
                before = self.content()
                self.assertRaises(Damaged, request, host)
            public = str(self.root / "storage" / "public")
            self.assertEqual({path: data for path, data in self.content().items() if path.startswith(public)}, {path: data for path, data in before.items() if path.startswith(public)})
            for wrong in (b"", key[:-1], key + b"x"):
                file.write_bytes(wrong)
                self.assertRaises(Damaged, Host, self.root)
            file.write_bytes(key)
            with Host(self.root) as host:
                self.assertEqual(host.read(1, 2), b"more")
        self.assertEqual(self.everybody(), [{0, 1}, {1, 2}, {1, 2}])

    def test_folder_lost(self) -> None:
        """A lock for a folder that is lost is not forgotten: once the folder is brought back, as it was, it gets the lock."""
        there = self.file(0).read_bytes()
        self.file(0).unlink()
        with Host(self.root) as host:
            self.assertRaises(Damaged, host.revoke, 0, 1)
        self.assertRaises(Damaged, Host, self.root)
        self.file(0).write_bytes(there)
        with Host(self.root) as host:
            self.assertEqual(host.read(0, 0), TEXTS[0])
        self.assertEqual(self.everybody(), [{0, 1}, {1}, {1}])
        self.assertEqual(list((self.root / "storage" / "waiting").iterdir()), [])

    def test_handed_key_damaged(self) -> None:
        for layer in ("inner", "outer"):
            file = self.root / "people" / "0" / layer
            key = file.read_bytes()
            for wrong in (b"", key[:-1], key + b"x"):
                file.write_bytes(wrong)
                with Host(self.root) as host:
                    self.assertRaises(Damaged, host.read, 0, 0)
            file.write_bytes(key)

    def test_book_damaged(self) -> None:
        file = self.root / "owner" / "book"
        data = file.read_bytes()
        for wrong in (b"", data[:-5], b"[]", b'{"book": "544B42", "pending": null}', data.replace(b"null", b'["join", 3, [[9, 0, 0]]]')):
            file.write_bytes(wrong)
            self.assertRaises(Damaged, Host, self.root)
        file.write_bytes(data)
        with Host(self.root) as host:
            self.assertEqual(host.read(0, 0), TEXTS[0])

    def test_book_broken(self) -> None:
        """A book that was changed on disk is told with number and place, whichever byte it is; no file is touched."""
        file = self.root / "owner" / "book"
        data = file.read_bytes()
        said = json.loads(data)
        good = bytes.fromhex(said["book"])
        for at in range(len(good)):
            bad = good[:at] + bytes([good[at] ^ 0x80]) + good[at + 1 :]
            file.write_bytes(json.dumps({**said, "book": bad.hex()}).encode())
            before = self.content()
            self.assertIsNotNone(self.told().place)
            self.assertEqual(self.content(), before)
        file.write_bytes(json.dumps({**said, "book": good[:-1].hex()}).encode())
        self.assertEqual((self.told().number, self.told().place), (24, len(good) - 1))
        file.write_bytes(data)
        with Host(self.root) as host:
            self.assertEqual(host.read(0, 0), TEXTS[0])

    def told(self) -> Refused:
        """What was said of the book that the host read; the host says it too."""
        with self.assertRaises(Damaged) as caught:
            Host(self.root)
        broken = caught.exception.__cause__
        self.assertIsInstance(broken, Refused)
        self.assertEqual(str(caught.exception), f"the book in owner/book is broken, {broken}")
        return broken

    def test_failing_disk(self) -> None:
        """A write that fails closes the host; the next one has the request whole, or not at all."""
        for place in ("before", "half", "written", "synced", "renamed", "kept"):
            for number in range(8):
                self.fail_at(number, place)

    def test_full_disk(self) -> None:
        """A file that can't be written to its end never takes the place of another."""
        before = self.content()
        with Host(self.root) as host, largest_file(2000):
            self.assertRaises(OSError, host.insert, {0, 2}, bytes(3000))
        with Host(self.root) as host:
            self.assertEqual(host.book.folders, 2)
        self.assertEqual(self.content(), before)

    def fail_at(self, number: int, place: str) -> None:
        with Host(self.root) as before:
            folders = before.book.folders
        with Host(self.root, FailingDisk(number, place)) as host:
            try:
                host.insert({0, 2}, b"more")
            except OSError:
                self.assertRaises(Busy, host.join)
        with Host(self.root) as after:
            self.assertIn(after.book.folders, (folders, folders + 1))
            self.assertEqual(list(self.root.rglob("*.new")) + list((self.root / "owner" / "stage").iterdir()), [])
            for folder in range(2, after.book.folders):
                self.assertEqual([after.read(0, folder), after.read(2, folder)], [b"more"] * 2)
        self.assertEqual(set(brute.open_all(self.root, 1)), {0, 1})


class Neighbours(Case):
    """A grant that has a neighbour to lock, in mode delta."""

    def test_neighbour_lost(self) -> None:
        """A grant that can't lock its neighbour stops there: its token, which would open the neighbour when it comes back, is not published."""
        with Host(self.root) as host:
            lost, granted = host.insert({0, 2}, b"lost"), host.insert({0, 2}, b"granted")
            there = self.file(lost).read_bytes()
            self.file(lost).unlink()
            tokens = {file.name for file in self.token("").iterdir() if file.name.endswith("-access")}
            self.assertRaises(Damaged, host.grant, granted, 1)
        self.assertRaises(Damaged, Host, self.root)
        self.assertEqual({file.name for file in self.token("").iterdir() if file.name.endswith("-access")}, tokens)
        self.file(lost).write_bytes(there)
        self.assertEqual(self.everybody(), [{0, 1, 2, 3}, {0, 1}, {1, 2, 3}])
        with Host(self.root):
            self.assertEqual(self.everybody(), [{0, 1, 2, 3}, {0, 1, 3}, {1, 2, 3}])


class Leavers(Case):
    """Person 1, who reads both folders, leaves. Person 2 has the inner key of both, and may read the second."""

    def test_leaves(self) -> None:
        handed = {path: data for path, data in self.content().items() if "people" in path}
        with Host(self.root) as host:
            host.leave(1)
            self.assertEqual((host.book.lists, host.book.leavers, host.pending), ([{0}, {0, 2}], {1}, None))
            self.assertEqual([self.refusal(host.read, 1, folder) for folder in range(2)], [11, 11])
        self.assertEqual(self.everybody(), [{0, 1}, set(), {1}])
        self.assertEqual({path: data for path, data in self.content().items() if "people" in path}, handed, "the keys stay with the leaver")

    def test_for_good(self) -> None:
        """Nothing brings the leaver back: all is refused without a file touched, and who joins is somebody else."""
        with Host(self.root) as host:
            host.leave(1)
            before = self.content()
            self.assertEqual([self.refusal(*asked) for asked in ((host.leave, 1), (host.grant, 0, 1), (host.insert, {0, 1}, b"x"), (host.revoke, 0, 1))], [15, 15, 15, 6])
            self.assertEqual(self.content(), before)
            new = host.join()
            host.grant(0, new)
            host.insert({0, new}, b"more")
            self.assertEqual((new, host.read(new, 0)), (3, TEXTS[0]))
        self.assertEqual(set(brute.open_all(self.root, 1)), set())

    def test_on_no_list(self) -> None:
        with Host(self.root) as host:
            new = host.join()
            public = self.public()
            host.leave(new)
        self.assertEqual(self.public(), public)
        with Host(self.root) as host:
            self.assertEqual(host.book.leavers, {new})

    def test_folder_lost(self) -> None:
        """A leave that can't lock one of its folders is not forgotten: it goes on when the folder is brought back, as it was, and then locks it."""
        there = self.file(1).read_bytes()
        self.file(1).unlink()
        with Host(self.root) as host:
            self.assertRaises(Damaged, host.leave, 1)
        self.assertRaises(Damaged, Host, self.root)
        self.file(1).write_bytes(there)
        self.assertEqual(self.everybody(), [{0, 1}, {1}, {1}])
        with Host(self.root):
            self.assertEqual(self.everybody(), [{0, 1}, set(), {1}])

    def test_dropped(self) -> None:
        """The line drops behind the first lock: one folder is closed to the leaver already, and the next host closes the other."""
        DroppingHost.after = Kind.LOCK
        with DroppingHost(self.root) as host:
            self.assertRaises(Dropped, host.leave, 1)
        self.assertEqual(self.everybody(), [{0, 1}, {1}, {1}])
        with Host(self.root) as host:
            self.assertEqual((host.pending, host.book.leavers), (None, {1}))
        self.assertEqual(self.everybody(), [{0, 1}, set(), {1}])

    def test_first_version(self) -> None:
        """A world whose book an earlier release wrote: nobody has left there, and from the next request on its bytes are of version 2."""
        file = self.root / "owner" / "book"
        said = json.loads(file.read_bytes())
        now = bytes.fromhex(said["book"])
        old = now[:3] + b"\1" + now[4:17] + now[25:]
        file.write_bytes(json.dumps({**said, "book": old.hex()}).encode())
        with Host(self.root) as host:
            self.assertEqual((host.book.to_bytes(), host.book.leavers), (now, set()))
            self.assertEqual(host.read(1, 0), TEXTS[0])
            host.leave(1)
        self.assertEqual(bytes.fromhex(json.loads(file.read_bytes())["book"])[3], 2)
        self.assertEqual(self.everybody(), [{0, 1}, set(), {1}])

    def public(self) -> dict[str, bytes]:
        return {path: data for path, data in self.content().items() if "public" in path}

    def refusal(self, ask: Callable[..., object], *arguments: object) -> int:
        with self.assertRaises(Refused) as caught:
            ask(*arguments)
        return caught.exception.number


class FullLeavers(Leavers):
    mode = Mode.FULL


class Arrivals(Case):
    """A lock that is asked for before its folder is there. Folder 2 is to have the inner key of the first two, which person 2 has by a token."""

    INNER = 3

    def setUp(self) -> None:
        super().setUp()
        with Host(self.root) as host:
            self.outer = host.book.folder_rows[0].outer

    def waiting(self) -> dict[str, bytes]:
        return {file.name: file.read_bytes() for file in (self.root / "storage" / "waiting").iterdir()}

    def arrive(self, host: Host) -> None:
        host.owner.stage(2, b"more")
        host.owner.encrypt(2, self.INNER)

    def test_waits(self) -> None:
        with Host(self.root) as host:
            host.storage.lock(2, self.outer)
            self.assertFalse(host.storage.has(2))
            self.assertEqual(self.waiting(), {"2": f"outer {self.outer}".encode()})
            self.arrive(host)
            self.assertEqual(host.storage.locked(2)[:3], (2, self.INNER, self.outer))
        self.assertEqual(self.everybody(), [{0, 1, 2}, {0, 1, 2}, {1}])

    def test_obeyed_again(self) -> None:
        """Each order twice, and both again."""
        with Host(self.root) as host:
            for _ in range(2):
                host.storage.lock(2, self.outer)
            for _ in range(2):
                self.arrive(host)
            once = self.content()
            host.storage.lock(2, self.outer)
            host.owner.encrypt(2, self.INNER)
            self.assertEqual(self.content(), once)

    def test_other_lock(self) -> None:
        """The last lock that was asked for counts; none may be asked for too."""
        with Host(self.root) as host:
            for outer in (0, None, 1):
                host.storage.lock(2, outer)
                self.assertEqual(host.storage.waits(2), outer)
            self.arrive(host)
            self.assertEqual(host.storage.locked(2).outer, 1)
            host.storage.lock(2, None)
            self.assertIsNone(host.storage.locked(2).outer)

    def test_dropped_between(self) -> None:
        """After the 3 and before the 7: the folder is not there, and the next host brings it, locked. Nothing is left over."""
        self.drop_after(Kind.LOCK, set())
        self.recovered()

    def test_dropped_behind(self) -> None:
        """After the 7: the folder is there and locked, and the next host leaves it as it is."""
        self.drop_after(Kind.ENCRYPT, {2})
        there = self.file(2).read_bytes()
        self.recovered()
        self.assertEqual(self.file(2).read_bytes(), there)

    def test_dropped_again(self) -> None:
        """In the recovery too, behind each of the two."""
        self.drop_after(Kind.LOCK, set())
        for kind, new in ((Kind.LOCK, set()), (Kind.ENCRYPT, {2}), (Kind.LOCK, {2}), (Kind.ENCRYPT, {2})):
            DroppingHost.after = kind
            self.assertRaises(Dropped, DroppingHost, self.root)
            self.assertEqual(self.everybody(), [{0, 1} | new, {0, 1} | new, {1}])
        self.recovered()

    def test_damaged(self) -> None:
        """Where it can't be read which lock waits, the folder is not stored."""
        with Host(self.root) as host:
            for wrong in (b"", b"outer", b"outer ", b"outer x", b"outer -1", b"3", b"outer 3\n", b"none"):
                (self.root / "storage" / "waiting" / "2").write_bytes(wrong)
                self.assertRaises(Damaged, self.arrive, host)
                self.assertFalse(host.storage.has(2))

    def drop_after(self, kind: Kind, new: set[int]) -> None:
        DroppingHost.after = kind
        with DroppingHost(self.root) as host:
            self.assertRaises(Dropped, host.insert, {0, 1}, b"more")
        self.assertEqual([order.kind for order in host.pending.orders][-2:], [Kind.LOCK, Kind.ENCRYPT])
        self.assertEqual(list(self.waiting()), ["2"])
        self.assertEqual(self.everybody(), [{0, 1} | new, {0, 1} | new, {1}])

    def recovered(self) -> None:
        with Host(self.root) as host:
            self.assertEqual((host.pending, host.storage.locked(2).outer), (None, self.outer))
            self.assertEqual(host.read(0, 2), b"more")
        self.assertEqual((self.waiting(), list((self.root / "owner" / "stage").iterdir())), ({}, []))
        self.assertEqual(self.everybody(), [{0, 1, 2}, {0, 1, 2}, {1}])


class FullArrivals(Arrivals):
    mode = Mode.FULL


class FullHosts(Hosts):
    mode = Mode.FULL


if __name__ == "__main__":
    hosting.os.fsync = no_sync
    unittest.main()
