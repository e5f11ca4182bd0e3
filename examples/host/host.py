"""A host that keeps a book, its keys and its folders on disk, and survives a stop at any moment. README.md says how; `autumn` and `drill` use it.

    Host.create(root, Mode.DELTA)
    with Host(root) as host:
        mother, child = host.join(), host.join()
        notes = host.insert({mother, child}, b"case notes")
        host.read(child, notes)

The engine decides which keys, tokens and locks there are; everything that is a key, a cipher or a file is decided here.
"""
from __future__ import annotations

import fcntl
import hashlib
import json
import os
import re
import sys
from contextlib import contextmanager
from pathlib import Path
from typing import Callable, Iterable, Iterator, NamedTuple, Optional

try:
    from nacl.exceptions import CryptoError
    from nacl.secret import SecretBox
except ModuleNotFoundError as error:
    raise ImportError("there is no module nacl: Debian has it in the package python3-nacl") from error

if "FENSTUBBLE_PREFIX" in os.environ:  # where ./install put the module
    sys.path.insert(0, os.path.join(os.environ["FENSTUBBLE_PREFIX"], "share", "fenstubble"))
try:
    from fenstubble import NO_OUTER, Answer, Book, Kind, Mode, Order, Refused, Token
except ModuleNotFoundError as error:
    raise ImportError("there is no module fenstubble: FENSTUBBLE_PREFIX names the folder that ./install put it under") from error

NEW = ".new"  # ends the name of a file that is being written
KEY_BYTES = 32


class Damaged(Exception):
    """A file is not what it says it is."""


class Busy(Exception):
    """Another host keeps this book, or this one was closed."""


# ---- ciphers


def key_in(path: Path) -> bytes:
    key = path.read_bytes()
    if len(key) != KEY_BYTES:
        raise Damaged(f"{path} is not a key")
    return key


def keyed_hash(use: bytes, key: bytes, data: bytes = b"", size: int = KEY_BYTES) -> bytes:
    return hashlib.blake2b(data, key=key, person=use, digest_size=size).digest()


def box_of(key: bytes) -> SecretBox:
    """The box that a key locks. Its own key is a hash of that one, so that no key is used by two ciphers."""
    return SecretBox(keyed_hash(b"box", key))


def access_key(derivation_key: bytes) -> bytes:
    return keyed_hash(b"access key", derivation_key)


def label(name: str, key: bytes) -> str:
    """The public label of a key: its name and a hash of it. So a new key under an old name has a new label, and who derives a key sees that it is the right one."""
    return f"{name} {keyed_hash(b'label', key, size=16).hex()}"


def xor(one: bytes, other: bytes) -> bytes:
    return bytes(a ^ b for a, b in zip(one, other))


def make_token(source: bytes, name: str, target: bytes) -> bytes:
    """A token's file, from the source key to the target key of that name: the target's label, and target XOR hash(source, label)."""
    mark = label(name, target)
    return f"{mark}\n{xor(target, keyed_hash(b'token', source, mark.encode())).hex()}\n".encode()


def follow(source: bytes, token: bytes) -> Optional[bytes]:
    """The key that the token leads to; None where it does not start at this key, or is damaged."""
    said = re.fullmatch(r"((.+) \w+)\n([0-9a-f]{64})\n", token.decode("ascii", "replace"))
    if said is None:
        return None
    mark, name, value = said.groups()
    target = xor(bytes.fromhex(value), keyed_hash(b"token", source, mark.encode()))
    return target if label(name, target) == mark else None


def unlock(key: bytes, box: bytes) -> Optional[bytes]:
    """What is in the box; None where this key does not open it."""
    try:
        return box_of(key).decrypt(box)
    except CryptoError:
        return None


def outer_text(outer: Optional[int]) -> str:
    """An outer lock as files name it: its vertex, or none."""
    return "outer none" if outer is None else f"outer {outer}"


def outer_from(text: bytes) -> Optional[int]:
    said = re.fullmatch(rb"outer (\d+|none)", text)
    if said is None:
        raise Damaged("a file that does not say which outer lock")
    return None if said.group(1) == b"none" else int(said.group(1))


class Locked(NamedTuple):
    """A folder's file: a public line that says how it is locked, and a box. The box has the same line inside, so that a line exchanged outside is noticed."""

    folder: int
    inner: int
    outer: Optional[int]
    box: bytes = b""

    def line(self) -> bytes:
        return f"folder {self.folder} inner {self.inner} {outer_text(self.outer)}\n".encode()

    def to_bytes(self) -> bytes:
        return self.line() + self.box

    @staticmethod
    def from_bytes(data: bytes) -> Locked:
        said = re.match(rb"folder (\d+) inner (\d+) (outer [^\n]+)\n", data)
        if said is None:
            raise Damaged("a locked file without its first line")
        folder, inner, outer = said.groups()
        return Locked(int(folder), int(inner), outer_from(outer), data[said.end() :])

    @staticmethod
    def from_file(public: Path, folder: int) -> Locked:
        locked = Locked.from_bytes(folder_path(public, folder).read_bytes())
        if locked.folder != folder:
            raise Damaged(f"folder {folder} is not in its place")
        return locked

    def filled(self, key: bytes, content: bytes) -> Locked:
        return self._replace(box=bytes(box_of(key).encrypt(self.line() + content)))

    def content(self, key: bytes) -> bytes:
        found = unlock(key, self.box)
        if found is None or not found.startswith(self.line()):
            raise Damaged(f"the box is not that of {self.line().decode().strip()}")
        return found[len(self.line()) :]

    def with_outer(self, outer: int, key: bytes) -> Locked:
        return Locked(self.folder, self.inner, outer).filled(key, self.box)

    def without_outer(self, key: bytes) -> Locked:
        return Locked(self.folder, self.inner, None, self.content(key))


def folder_path(public: Path, folder: int) -> Path:
    return public / "folders" / str(folder)


# ---- files


class Disk:
    """Changes one file at a time, each as a whole or not at all, and for good before the next. `stop` is told each place where the machine may stop."""

    def __init__(self, stop: Callable[[str, Path], None] = lambda place, path: None) -> None:
        self.stop = stop

    def replace(self, path: Path, data: bytes) -> None:
        new, half = path.with_name(path.name + NEW), len(data) // 2
        self.stop("before", path)
        with open(new, "wb") as file:
            file.write(data[:half])
            file.flush()
            self.stop("half", path)
            file.write(data[half:])
            file.flush()
            self.stop("written", path)
            self.sync(file.fileno())
        self.stop("synced", path)
        self.rename(new, path)
        self.stop("renamed", path)
        self.sync_folder(path.parent)
        self.stop("kept", path)

    def remove(self, path: Path) -> None:
        self.stop("before removal", path)
        self.unlink(path)
        self.stop("removed", path)
        self.sync_folder(path.parent)

    def folder(self, path: Path, mode: int = 0o700) -> None:
        path.mkdir(mode=mode, exist_ok=True)
        self.stop("folder", path)
        self.sync_folder(path.parent)

    def sync(self, file: int) -> None:
        os.fsync(file)

    def rename(self, new: Path, path: Path) -> None:
        os.rename(new, path)

    def unlink(self, path: Path) -> None:
        os.unlink(path)

    def sync_folder(self, folder: Path) -> None:
        opened = os.open(folder, os.O_RDONLY)
        try:
            os.fsync(opened)
        finally:
            os.close(opened)


class Keys:
    """Secret keys of one layer, a file of 32 bytes for each vertex."""

    def __init__(self, disk: Disk, folder: Path) -> None:
        self.disk, self.folder = disk, folder

    def make(self, vertex: int) -> None:
        """Obeyed again: a key that is there is kept, since tokens, people and folders may have it already."""
        if not self.path(vertex).exists():
            self.disk.replace(self.path(vertex), os.urandom(KEY_BYTES))

    def key(self, vertex: int) -> bytes:
        return key_in(self.path(vertex))

    def path(self, vertex: int) -> Path:
        return self.folder / str(vertex)


def token_name(layer: str, token: Token) -> str:
    end = {"outer": "", "inner": "-access" if token.access else "-derivation"}[layer]
    return f"{layer}-{token.source}-{token.target}{end}"


# ---- who does what


class Storage:
    """The rented storage: public tokens and locked folders, and the keys of the outer locks, its own. It sees no inner key and no text. A lock may be asked for before
    its folder is there: it waits, and the folder has it from the moment when it is there."""

    def __init__(self, disk: Disk, folder: Path, keys: type[Keys]) -> None:
        self.disk, self.keys, self.waiting, self.public = disk, keys(disk, folder / "keys"), folder / "waiting", folder / "public"

    def publish(self, name: str, token: bytes) -> None:
        """Obeyed again: a token is a function of its two keys and a label, which is one of its target: the same bytes are written again."""
        self.disk.replace(self.public / "tokens" / name, token)

    def outer_token(self, source: int, target: int) -> None:
        token = make_token(self.keys.key(source), f"outer {target}", self.keys.key(target))
        self.publish(token_name("outer", Token(source, target)), token)

    def lock(self, folder: int, outer: Optional[int]) -> None:
        """Obeyed again: a folder that has this lock already, or none where none is asked for, stays. The old lock comes off and the new one on in one replace. A lock that
        waits for its folder waits again, the same one."""
        if not self.has(folder):
            self.disk.replace(self.waiting / str(folder), outer_text(outer).encode())
            return
        locked = self.locked(folder)
        bare = locked if locked.outer is None else locked.without_outer(self.keys.key(locked.outer))
        if locked.outer != outer:
            self.put(self.around(bare, outer))

    def take(self, bare: Locked) -> None:
        """A new folder, as the owner has encrypted it. The lock that waits for it is put on before it is stored: it is never there without."""
        self.put(self.around(bare, self.waits(bare.folder)))

    def waits(self, folder: int) -> Optional[int]:
        file = self.waiting / str(folder)
        return outer_from(file.read_bytes()) if file.exists() else None

    def around(self, bare: Locked, outer: Optional[int]) -> Locked:
        return bare if outer is None else bare.with_outer(outer, self.keys.key(outer))

    def has(self, folder: int) -> bool:
        return self.path(folder).exists()

    def locked(self, folder: int) -> Locked:
        return Locked.from_file(self.public, folder)

    def put(self, locked: Locked) -> None:
        self.disk.replace(self.path(locked.folder), locked.to_bytes())

    def path(self, folder: int) -> Path:
        return folder_path(self.public, folder)


class Owner:
    """The owner's desk: the inner keys, and the texts that wait to be encrypted."""

    def __init__(self, disk: Disk, folder: Path, storage: Storage, keys: type[Keys]) -> None:
        self.disk, self.keys, self.stages, self.storage = disk, keys(disk, folder / "keys"), folder / "stage", storage

    def inner_token(self, source: int, target: int) -> None:
        token = make_token(self.keys.key(source), f"inner {target} derivation", self.keys.key(target))
        self.storage.publish(token_name("inner", Token(source, target)), token)

    def access_token(self, source: int, target: int) -> None:
        token = make_token(self.keys.key(source), f"inner {target} access", access_key(self.keys.key(target)))
        self.storage.publish(token_name("inner", Token(source, target, True)), token)

    def stage(self, folder: int, text: bytes) -> None:
        self.disk.replace(self.stages / str(folder), text)

    def encrypt(self, folder: int, inner: int) -> None:
        """Obeyed again: a folder that is in the storage stays as it is there, with its outer lock."""
        if not self.storage.has(folder):
            self.storage.take(self.encrypted(folder, inner))

    def encrypted(self, folder: int, inner: int) -> Locked:
        text = (self.stages / str(folder)).read_bytes()
        return Locked(folder, inner, None).filled(access_key(self.keys.key(inner)), text)


class Chain(NamedTuple):
    """The names of the tokens that lead to a folder's keys."""

    inner: list[str]
    outer: list[str]


class Person:
    """Somebody with the two keys that were handed to them, and all that is public."""

    def __init__(self, root: Path, number: int) -> None:
        self.folder, self.public = root / "people" / str(number), root / "storage" / "public"

    def hand(self, disk: Disk, layer: str, key: bytes) -> None:
        """Obeyed again: the same key is handed again."""
        disk.folder(self.folder)
        disk.replace(self.folder / layer, key)

    def open(self, folder: int, chain: Chain) -> bytes:
        """The folder's text, by the engine's chain."""
        locked = Locked.from_file(self.public, folder)
        if locked.outer is not None:
            locked = locked.without_outer(self.along("outer", chain.outer))
        key = self.along("inner", chain.inner)
        led_to_access = chain.inner and chain.inner[-1].endswith("-access")
        return locked.content(key if led_to_access else access_key(key))

    def along(self, layer: str, names: list[str]) -> bytes:
        key = key_in(self.folder / layer)
        for name in names:
            target = follow(key, (self.public / "tokens" / name).read_bytes())
            if target is None:
                raise Damaged(f"token {name} does not lead on")
            key = target
        return key


# ---- the host


class Pending(NamedTuple):
    """A request whose orders are not all known to be obeyed: its word, the new user or folder (or the folder it is about, or who leaves), the orders."""

    word: str
    number: int
    orders: list[Order]


class Host:
    """The book, and what becomes of its orders. A new book and its orders are kept in one file, replaced in one step, before the first order is obeyed; after
    the last one, the same book without orders. A host that starts and finds orders obeys them all, from the first."""

    keys_class, owner_class, storage_class = Keys, Owner, Storage
    FOLDERS = ("owner", "owner/keys", "owner/stage", "people", "storage", "storage/keys", "storage/waiting")
    FOLDERS += ("storage/public", "storage/public/tokens", "storage/public/folders")

    @classmethod
    def create(cls, root: Path, mode: Mode) -> None:
        disk = Disk()
        for name in ("",) + cls.FOLDERS:
            disk.folder(root / name, 0o755 if name in ("", "storage") or "public" in name else 0o700)
        if (root / "owner" / "book").exists():
            raise FileExistsError(f"there is a book in {root} already")
        disk.replace(root / "owner" / "book", state_bytes(Book(mode), None))

    def __init__(self, root: Path, disk: Optional[Disk] = None) -> None:
        self.root, self.disk = root, disk or Disk()
        self.storage = self.storage_class(self.disk, root / "storage", self.keys_class)
        self.owner = self.owner_class(self.disk, root / "owner", self.storage, self.keys_class)
        self.guard = open(root / "owner" / "lock", "ab")
        with self.closed_on_failure():
            self.be_alone()
            self.book, self.pending = state_from((root / "owner" / "book").read_bytes())
            self.recover()

    def __enter__(self) -> Host:
        return self

    def __exit__(self, *_: object) -> None:
        self.guard.close()

    @contextmanager
    def closed_on_failure(self) -> Iterator[None]:
        """Where a file can't be written, what is on disk and what is here may differ: this host is closed, and the next one starts from what is on disk."""
        try:
            yield
        except BaseException:
            self.guard.close()
            raise

    def be_alone(self) -> None:
        try:
            fcntl.flock(self.guard, fcntl.LOCK_EX | fcntl.LOCK_NB)
        except BlockingIOError:
            raise Busy(f"another host keeps the book in {self.root}") from None

    def join(self) -> int:
        return self.request("join", lambda book: book.join())

    def insert(self, users: Iterable[int], text: bytes) -> int:
        named = frozenset(users)
        return self.request("insert", lambda book: book.insert(named), text)

    def grant(self, folder: int, user: int) -> None:
        self.request("grant", lambda book: book.grant(folder, user))

    def revoke(self, folder: int, user: int) -> None:
        self.request("revoke", lambda book: book.revoke(folder, user))

    def leave(self, user: int) -> None:
        """One request, however many folders it locks: it is kept, obeyed and gone on with like any other. The leaver's two keys are not taken back; they open nothing."""
        self.request("leave", lambda book: book.leave(user))

    def chain(self, user: int, folder: int) -> Chain:
        """What the engine's `open` says, by the names of the tokens."""
        rows = self.book.open(user, folder)
        inner, outer = self.book.inner_tokens, self.book.outer_tokens
        return Chain([token_name("inner", inner[row]) for row in rows.inner], [token_name("outer", outer[row]) for row in rows.outer])

    def read(self, user: int, folder: int) -> bytes:
        return Person(self.root, user).open(folder, self.chain(user, folder))

    def request(self, word: str, ask: Callable[[Book], Answer], text: Optional[bytes] = None) -> int:
        """Tries the request on a copy of the book: a refusal ends it here, with nothing touched. From `keep` on it counts as made."""
        if self.guard.closed:
            raise Busy("this host is closed")
        book = self.book.copy()
        number, orders = ask(book)
        with self.closed_on_failure():
            if text is not None:
                self.owner.stage(number, text)
            self.keep(book, Pending(word, number, orders))
            self.finish()
        return number

    def keep(self, book: Book, pending: Optional[Pending]) -> None:
        self.disk.replace(self.root / "owner" / "book", state_bytes(book, pending))
        self.book, self.pending = book, pending

    def finish(self) -> None:
        if self.pending is not None:
            for order in self.pending.orders:
                self.obey(order, self.pending)
                self.disk.stop("obeyed", self.root)
            self.keep(self.book, None)
        self.clear()

    def clear(self) -> None:
        """What waited for a new folder is not needed once its orders are obeyed: its text and its lock."""
        for folder in (self.owner.stages, self.storage.waiting):
            for file in folder.iterdir():
                self.disk.remove(file)

    def recover(self) -> None:
        """The host before may have stopped between a rename and its folder's sync: what is there has to stay there before anything is built on it."""
        walked = list(os.walk(self.root))
        for folder, _, _ in walked:
            self.disk.sync_folder(Path(folder))
        for file in (Path(folder, name) for folder, _, names in walked for name in sorted(names) if name.endswith(NEW)):
            self.disk.remove(file)
        self.finish()

    def obey(self, order: Order, pending: Pending) -> None:
        """Each order can be obeyed twice; the functions that do the work say why."""
        kind, a, b = order
        if kind == Kind.OUTER_KEY:
            self.storage.keys.make(a)
            self.hand(pending, "outer", self.storage.keys.key(a))
        elif kind == Kind.OUTER_TOKEN:
            self.storage.outer_token(a, b)
        elif kind == Kind.LOCK:
            self.check_there(a, pending)
            self.storage.lock(a, None if b == NO_OUTER else b)
        elif kind == Kind.INNER_KEY:
            self.owner.keys.make(a)
            self.hand(pending, "inner", self.owner.keys.key(a))
        elif kind == Kind.INNER_TOKEN:
            self.owner.inner_token(a, b)
        elif kind == Kind.ACCESS_TOKEN:
            self.owner.access_token(a, b)
        else:
            self.owner.encrypt(a, b)

    def check_there(self, folder: int, pending: Pending) -> None:
        """Only the folder that an insert brings is locked before it is there. Any other was lost, and no order behind is obeyed: a token would open it when it comes back."""
        if not self.storage.has(folder) and (pending.word, pending.number) != ("insert", folder):
            raise Damaged(f"folder {folder} is not in the storage")

    def hand(self, pending: Pending, layer: str, key: bytes) -> None:
        """The keys that a join makes are the new user's own; all others stay here."""
        if pending.word == "join":
            Person(self.root, pending.number).hand(self.disk, layer, key)


def state_bytes(book: Book, pending: Optional[Pending]) -> bytes:
    return json.dumps({"book": book.to_bytes().hex(), "pending": pending}, indent=1).encode()


def state_from(data: bytes) -> tuple[Book, Optional[Pending]]:
    try:
        said = json.loads(data)
        book = Book.from_bytes(bytes.fromhex(said["book"]))
        if said["pending"] is None:
            return book, None
        word, number, orders = said["pending"]
        return book, Pending(word, number, [Order(Kind(kind), a, b) for kind, a, b in orders])
    except Refused as broken:
        raise Damaged(f"the book in owner/book is broken, {broken}") from broken
    except (ValueError, KeyError, TypeError) as error:
        raise Damaged(f"owner/book is not a book with its orders: {error}") from error
