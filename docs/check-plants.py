#!/usr/bin/env python3
"""Finds wrong bodies that no longer fit the code that they change:

    docs/check-plants.py

Each edit of plants/NAME/ and of crates/NAME/must-fail/ names a file of the crate by `file: PATH`, and then pairs of lines,
`old: TEXT` and `new: TEXT`. An old text stands in its file exactly once, after the pairs before it were applied. The script
prints each edit for which that is not so, and then the numbers of those that fit and of all others. It tries none of them."""
import pathlib
import sys

TOP = pathlib.Path(__file__).resolve().parent.parent


def fault(edit, crate):
    """What is wrong with an edit, or None."""
    texts, at, old, pairs = {}, None, None, 0
    for line in edit.read_text(encoding="utf-8").split("\n"):
        word, _, text = line.partition(": ")
        if word == "file":
            path = TOP / "crates" / crate / text
            if not path.is_file():
                return f"there is no {text}"
            at = text
            texts.setdefault(at, path.read_text(encoding="utf-8"))
        elif word == "old":
            count = texts[at].count(text) if at else 0
            if count != 1:
                return f"{at} has {count} times: {text.strip()}"
            old = text
        elif word == "new" and old is not None:
            texts[at], old, pairs = texts[at].replace(old, text), None, pairs + 1
    return None if pairs and old is None else "it has no pairs of old and new"


def main():
    edits = [(it, it.parent.name) for it in TOP.glob("plants/*/*.edit")]
    edits += [(it, it.parent.parent.name) for it in TOP.glob("crates/*/must-fail/*.edit")]
    wrong = 0
    for edit, crate in sorted(edits):
        said = fault(edit, crate)
        if said is not None:
            print(f"{edit.relative_to(TOP)}: {said}")
            wrong += 1
    print(f"{len(edits) - wrong} fit, {wrong} do not")
    return int(wrong > 0)


sys.exit(main())
