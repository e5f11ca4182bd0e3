"""What somebody can open by any means, from the two keys handed to them and all that is public. No book is looked at, and no name or public line is believed: every
token is tried with every key, and every key on every box. The ciphers are host.py's."""
from __future__ import annotations

from pathlib import Path
from typing import Optional

import host


def open_all(root: Path, person: int) -> dict[int, bytes]:
    """The texts of all folders that the person can open. A file half written at a stop is tried too."""
    keys = derive_all(root, person)
    texts: dict[int, bytes] = {}
    for file in sorted((root / "storage" / "public" / "folders").iterdir()):
        text = peel(file.read_bytes().partition(b"\n")[2], keys)
        if text is not None:
            texts[int(file.name.partition(".")[0])] = text
    return texts


def derive_all(root: Path, person: int) -> set[bytes]:
    """Every key that can be had: all tokens tried with all keys, and all keys hashed, until nothing new comes."""
    tokens = [file.read_bytes() for file in (root / "storage" / "public" / "tokens").iterdir()]
    known: set[bytes] = set()
    handed = (file.read_bytes() for file in (root / "people" / str(person)).iterdir())
    found = {key for key in handed if len(key) == host.KEY_BYTES}
    while found:
        tried = found | {host.access_key(key) for key in found}
        known |= tried
        led_to = {host.follow(key, token) for key in tried for token in tokens}
        found = {key for key in led_to if key is not None} - known
    return known


def peel(box: bytes, keys: set[bytes]) -> Optional[bytes]:
    """What is in the box, and in the box in the box, if any of the keys opens it."""
    for key in keys:
        content = host.unlock(key, box)
        if content is not None:
            line, _, rest = content.partition(b"\n")
            return rest if line.endswith(b"outer none") else peel(rest, keys)
    return None
