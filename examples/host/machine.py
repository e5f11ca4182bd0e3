"""A disk that stops: it kills its process at a place that was told to it, and can lose first what a power cut would lose. For `drill`."""
from __future__ import annotations

import os
import pickle
import signal
from pathlib import Path
from typing import NamedTuple, Optional, Tuple

from host import NEW, Disk


class Stop(NamedTuple):
    """A place where the machine may stop."""

    place: str
    path: str


class Ending(NamedTuple):
    """Which place to stop at, whether by a power cut, and the file that takes what is unsynced then."""

    at: int
    power: bool
    unsynced: Path


Name = Tuple[Path, Optional[bytes]]  # a rename or removal that is not synced, with what was there before


class Machine(Disk):
    """A disk that kills its process where it should end. `names` are those that an earlier process left unsynced."""

    def __init__(self, root: Path, ending: Optional[Ending] = None, names: Optional[list[Name]] = None) -> None:
        super().__init__(self.reached)
        self.root, self.ending, self.names = root, ending, names or []
        self.contents: list[Path] = []
        self.log: list[Stop] = []

    def reached(self, place: str, path: Path) -> None:
        if self.ending is not None and len(self.log) == self.ending.at:
            self.end(self.ending)
        self.log.append(Stop(place, str(path.relative_to(self.root))))

    def end(self, ending: Ending) -> None:
        if ending.power:
            self.lose()
        ending.unsynced.write_bytes(pickle.dumps(self.names))
        os.kill(os.getpid(), signal.SIGKILL)

    def lose(self) -> None:
        for path in self.contents:
            new = path.with_name(path.name + NEW)
            os.truncate(new if new.exists() else path, 0)
        for path, before in self.names[:1]:
            path.unlink(missing_ok=True)
            if before is not None:
                path.write_bytes(before)
        self.names = []

    def replace(self, path: Path, data: bytes) -> None:
        self.contents.append(path)
        super().replace(path, data)

    def sync(self, file: int) -> None:
        self.contents.pop()

    def rename(self, new: Path, path: Path) -> None:
        self.names.append((path, path.read_bytes() if path.exists() else None))
        super().rename(new, path)

    def unlink(self, path: Path) -> None:
        self.names.append((path, path.read_bytes()))
        super().unlink(path)

    def sync_folder(self, folder: Path) -> None:
        self.names = [(path, before) for path, before in self.names if path.parent != folder]
