#!/usr/bin/env python3
"""Tries wrong bodies that always answer want of memory, or tell of a failed write: what the program
then does with the first worked example has to be something else.

    crates/ssr/wrong_bodies.py

A contract can't refuse the first three, since any call may find no memory. So each edit of wrong-bodies/ is made in a copy, and the program is
run there without its proof (`rt try`), which takes minutes. The last line is 'N passed, M failed'.
"""

import shutil
import subprocess
import sys
import tempfile
from pathlib import Path

HERE = Path(__file__).resolve().parent
TOP = HERE.parents[1]


def read_edit(path):
    """The file that an edit is made in, its old text, and its new one."""
    lines = dict(line.split(": ", 1) for line in path.read_text().splitlines() if line.startswith(("file: ", "old: ", "new: ")))
    return lines["file"], lines["old"], lines["new"]


def written(top):
    """What the program in a copy of the repository writes for the worked example, and its status, without a proof."""
    with open(HERE / "stdin", "rb") as source:
        words = ["rt", "try", "--", (HERE / "args").read_text()]
        done = subprocess.run(words, cwd=top / "crates/ssr", stdin=source, capture_output=True, check=False)
    return (done.stdout, done.returncode) if b"run=ended" in done.stderr else None


def copy_of_crates(room):
    top = Path(room) / "repository"
    shutil.copytree(TOP / "crates", top / "crates", ignore=shutil.ignore_patterns("out"))
    shutil.copy(TOP / "crates.txt", top)
    return top


def is_refused(edit):
    """Whether the program still runs with the edit made, and writes something else."""
    name, old, new = read_edit(edit)
    with tempfile.TemporaryDirectory() as room:
        top = copy_of_crates(room)
        place = top / "crates" / name
        text = place.read_text()
        if text.count(old) != 1:
            print(f"{edit.name}: BAD EDIT")
            return False
        place.write_text(text.replace(old, new))
        told = written(top)
        is_other = told is not None and told != ((HERE / "stdout").read_bytes(), 0)
        print(f"{edit.name}: {'refused' if is_other else 'NOT REFUSED'}, it writes and ends with {told}", flush=True)
        return is_other


def main():
    with tempfile.TemporaryDirectory() as room:
        if written(copy_of_crates(room)) != ((HERE / "stdout").read_bytes(), 0):
            print("the program without an edit writes something else\n0 passed, 1 failed")
            return 1
    found = [is_refused(edit) for edit in sorted(HERE.glob("wrong-bodies/*.edit"))]
    print(f"{sum(found)} passed, {len(found) - sum(found)} failed")
    return 1 if not all(found) or not found else 0


if __name__ == "__main__":
    sys.exit(main())
