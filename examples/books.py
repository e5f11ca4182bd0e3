"""Makes two of the example books anew: story.tkb, which requests.txt leaves, and damaged.tkb, in which a byte of an outer token is another. (The third, version-1.tkb,
is the story book of releases 2.0.0 and 3.0.0, and stays as it is.)

    PYTHONPATH=PREFIX/share/fenstubble python3 examples/books.py
"""
from __future__ import annotations

from pathlib import Path

from fenstubble import Ask, Book, Mode, Request, Section, section

HERE = Path(__file__).resolve().parent


def story() -> Book:
    """The book that requests.txt leaves."""
    mode, *lines = (HERE / "requests.txt").read_text().splitlines()
    book = Book(Mode[mode.upper()])
    for word, *numbers in (line.split() for line in lines):
        given = [int(number) for number in numbers]
        book.serve([Request(Ask[word.upper()], *given) if word != "insert" else Request(Ask.INSERT, users=given)])
    return book


def made() -> tuple[bytes, bytes]:
    """The last outer token leads from the volunteer to mother, child and volunteer; damaged, it starts at the tutor."""
    good = story().to_bytes()
    bad = bytearray(good)
    tokens = section(bad, Section.OUTER_TOKENS)
    tokens[-4] = 2
    return good, bytes(bad)


if __name__ == "__main__":
    for name, data in zip(("story.tkb", "damaged.tkb"), made()):
        (HERE / name).write_bytes(data)
