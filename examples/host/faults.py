"""Hosts and disks with a planted fault each, which `drill` must find."""
from __future__ import annotations

import os
from pathlib import Path
from typing import Callable, NamedTuple, Optional

import host as hosting
from host import NEW, Host, Keys, Owner, Pending, Storage
from machine import Machine
from fenstubble import Answer, Book, Kind


class EarlyHost(Host):
    def request(self, word: str, ask: Callable[[Book], Answer], text: Optional[bytes] = None) -> int:
        book = self.book.copy()
        number, orders = ask(book)
        if text is not None:
            self.owner.stage(number, text)
        for order in orders:
            self.obey(order, Pending(word, number, orders))
            self.disk.stop("obeyed", self.root)
        self.keep(book, None)
        self.clear()
        return number


class AnewKeys(Keys):
    def make(self, vertex: int) -> None:
        self.disk.replace(self.path(vertex), os.urandom(hosting.KEY_BYTES))


class AnewKeysHost(Host):
    keys_class = AnewKeys


class ReorderingHost(Host):
    first: tuple[Kind, ...]

    def request(self, word: str, ask: Callable[[Book], Answer], text: Optional[bytes] = None) -> int:
        def reordered(book: Book) -> Answer:
            number, orders = ask(book)
            return Answer(number, sorted(orders, key=lambda order: order.kind not in self.first))

        return super().request(word, reordered, text)


class TokenFirstHost(ReorderingHost):
    first = (Kind.ACCESS_TOKEN,)


class FolderFirstHost(ReorderingHost):
    first = (Kind.INNER_KEY, Kind.INNER_TOKEN, Kind.ENCRYPT)


class LockFirstHost(ReorderingHost):
    first = (Kind.OUTER_KEY, Kind.LOCK)


class NakedStorage(Storage):
    def take(self, bare: hosting.Locked) -> None:
        self.put(bare)
        self.lock(bare.folder, self.waits(bare.folder))


class NakedHost(Host):
    storage_class = NakedStorage


class AbsentStorage(Storage):
    def lock(self, folder: int, outer: Optional[int]) -> None:
        if self.has(folder):
            super().lock(folder, outer)


class AbsentHost(Host):
    storage_class = AbsentStorage


class BareOwner(Owner):
    def encrypt(self, folder: int, inner: int) -> None:
        if self.storage.has(folder):
            self.storage.put(self.encrypted(folder, inner))
        super().encrypt(folder, inner)


class BareHost(Host):
    owner_class = BareOwner


class GapStorage(Storage):
    def lock(self, folder: int, outer: Optional[int]) -> None:
        if self.has(folder) and self.locked(folder).outer != outer:
            super().lock(folder, None)
        super().lock(folder, outer)


class GapHost(Host):
    storage_class = GapStorage


class ForgetfulHost(Host):
    def recover(self) -> None:
        self.pending = None
        super().recover()


class TrustingHost(Host):
    def recover(self) -> None:
        for file in sorted(self.root.rglob("*" + NEW)):
            self.disk.remove(file)
        self.finish()


class PartialHost(Host):
    def request(self, word: str, ask: Callable[[Book], Answer], text: Optional[bytes] = None) -> int:
        def cut(book: Book) -> Answer:
            number, orders = ask(book)
            locks = [n for n, order in enumerate(orders) if order.kind == Kind.LOCK]
            return Answer(number, orders[: locks[0] + 1] if word == "leave" and locks else orders)

        return super().request(word, cut, text)


class PiecemealHost(Host):
    def leave(self, user: int) -> None:
        for folder, users in enumerate(self.book.lists):
            if user in users:
                self.revoke(folder, user)
        super().leave(user)


class UntidyHost(Host):
    def recover(self) -> None:
        if self.pending is not None:
            self.finish()


class InPlaceMachine(Machine):
    def replace(self, path: Path, data: bytes) -> None:
        self.stop("before", path)
        path.write_bytes(data[: len(data) // 2])
        self.stop("half", path)
        path.write_bytes(data)
        self.stop("renamed", path)
        self.stop("kept", path)


class UnsyncedMachine(Machine):
    def sync(self, file: int) -> None:
        pass


class UnkeptMachine(Machine):
    def sync_folder(self, folder: Path) -> None:
        pass


class Fault(NamedTuple):
    says: str
    host: type[Host] = Host
    machine: type[Machine] = Machine


FAULTS = {
    "early": Fault("orders are obeyed before the book is replaced", host=EarlyHost),
    "hasty": Fault("a grant's token is published before the neighbours are locked", host=TokenFirstHost),
    "lockless": Fault("a new folder is encrypted before it is locked", host=FolderFirstHost),
    "shut": Fault("a folder is locked before the tokens to its lock are published", host=LockFirstHost),
    "naked": Fault("a new folder is stored before the lock that waits for it is put on", host=NakedHost),
    "absent": Fault("a lock for a folder that is not there yet is forgotten", host=AbsentHost),
    "anew": Fault("a key is made anew when its order is obeyed again", host=AnewKeysHost),
    "bare": Fault("encrypting obeyed again takes the outer lock off", host=BareHost),
    "gap": Fault("a folder's old outer lock comes off before its new one goes on", host=GapHost),
    "partial": Fault("a leaver's first folder is locked, and no other", host=PartialHost),
    "piecemeal": Fault("a leave is made as one revoke after another, each kept by itself", host=PiecemealHost),
    "forgetful": Fault("a host that starts does not obey what is pending", host=ForgetfulHost),
    "trusting": Fault("a host that starts does not sync what it finds", host=TrustingHost),
    "untidy": Fault("a host that starts leaves files that are half written, and staged texts", host=UntidyHost),
    "in-place": Fault("files are written in place", machine=InPlaceMachine),
    "unsynced": Fault("files are not synced before they are renamed", machine=UnsyncedMachine),
    "unkept": Fault("folders are not synced after a rename", machine=UnkeptMachine),
}
