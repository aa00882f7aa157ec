#!/usr/bin/env python3
"""Looks whether each planted mistake still applies: whether each text that it takes away stands once in its file.

    scripts/mistakes_apply.py

The mistakes are the edits in crates/*/must-fail and crates/*/mistakes. Nothing is proved, so this takes a second. The last line is
'N passed, M failed'.
"""

import sys

sys.dont_write_bytecode = True
from worked import TOP, count


def steps(edit):
    """The steps of an edit: a file, the text that is taken away there, and the text that comes in its place."""
    file = old = ""
    for line in edit.read_text().split("\n"):
        word, _, rest = line.partition(":")
        rest = rest.removeprefix(" ")
        if word == "file":
            file = rest.strip()
        elif word == "old":
            old = rest
        elif word == "new":
            yield file, old, rest
            old = ""


def applies(edit):
    """Whether an edit has a step, and each finds its text once in what the steps before it leave of its file."""
    texts = {}
    for file, old, new in steps(edit):
        path = edit.parents[1] / file
        if file not in texts:
            texts[file] = path.read_text() if path.is_file() else ""
        times = texts[file].count(old) if old else 0
        if times != 1:
            print(f"{edit.relative_to(TOP)}: {times} times in {file}: {old}")
            return False
        texts[file] = texts[file].replace(old, new)
    return bool(texts)


if __name__ == "__main__":
    edits = sorted(edit for folder in ["must-fail", "mistakes"] for edit in TOP.glob(f"crates/*/{folder}/*.edit"))
    sys.exit(count((edit.relative_to(TOP), [applies(edit)]) for edit in edits))
