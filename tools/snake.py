#!/usr/bin/env python3
"""Brings the repository's own definitions and lemmas to today's spelling: words in snake case, types and modules in camel case.

usage: python3 tools/snake.py [FOLDER]      in the repository, once, right after the kit's port.py

`bookIn` becomes `book_in`, and `letIn-told` becomes `let_in-told`: the words of a lemma's name are turned one by one. A lemma whose name would then be a
definition's gets its dash back first (`head_in` becomes `head-in`). Functions of src/, exported names, strings, inputs and outputs keep their names.
"""
import glob
import os
import re
import sys

# lemmas and names inside proofs that would fall together with a definition
LEMMAS = ["head_in", "left_by", "plain_row", "no_text", "no_key", "too_long", "counts_of", "row_told", "other_row", "open_by", "by_token"]
# words that are not the repository's, or that stand for a word of the library
KEEP = {"nFull", "tFULL", "deltA"}
OTHER = {"getD": "get_or"}

CAMEL = re.compile(r"(?<![A-Za-z0-9_'])[a-z][a-z0-9]*(?:[A-Z][A-Za-z0-9]*)+(?![A-Za-z0-9_'])")


def snake(word):
    if word in OTHER:
        return OTHER[word]
    return re.sub(r"(?<=[a-z0-9])([A-Z])", r"_\1", word).lower()


def turned(text, words):
    return CAMEL.sub(lambda m: snake(m.group()) if m.group() in words and m.group() not in KEEP else m.group(), text)


def main():
    top = sys.argv[1] if len(sys.argv) > 1 else "."
    os.chdir(top)
    proofs = sorted(glob.glob("crates/*/specs/*.antt") + glob.glob("crates/*/proofs/**/*.antt", recursive=True))
    code = sorted(glob.glob("crates/*/src/**/*.rt", recursive=True) + glob.glob("crates/*/must-fail/*.edit"))
    words = set()
    for p in proofs:
        with open(p, encoding="utf-8") as f:
            words.update(CAMEL.findall(f.read()))
    for p in proofs + code:
        with open(p, encoding="utf-8") as f:
            text = f.read()
        new = text
        if p.endswith(".antt"):
            for lemma in LEMMAS:
                new = re.sub(r"(?<![A-Za-z0-9_'.:/-])" + lemma + r"(?![A-Za-z0-9_'/-])", lemma.replace("_", "-"), new)
        new = turned(new, words)
        if new != text:
            with open(p, "w", encoding="utf-8") as f:
                f.write(new)


main()
