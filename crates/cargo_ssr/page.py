#!/usr/bin/env python3
"""Runs the commands of `cargo ssr` that docs/cargo-ssr.md and the README show and the page's migrations, and compares what is
written. The README's list of migrations has to be the rules of that table.

    crates/cargo_ssr/page.py [PROGRAM..]

The programs are those that `rt ci` leaves in crates/cargo_ssr/out, unless others are named. The commands are run in a copy of
docs/queue, each after the ones before it on its page. The last line is 'N passed, M failed'.
"""

import os
import shutil
import subprocess
import sys
import tempfile
from pathlib import Path

sys.dont_write_bytecode = True
sys.path.append(str(Path(__file__).resolve().parents[2] / "scripts"))
from worked import TOP, blocks, built_programs, commands, table, try_all

PAGE = "docs/cargo-ssr.md"


def with_cargo(program, room):
    """An environment in which `cargo ssr` runs the program, as cargo does."""
    links = Path(room) / "bin"
    links.mkdir()
    stand_in = links / "cargo"
    stand_in.write_text(f'#!/bin/sh\nexec "{program}" "$@"\n')
    stand_in.chmod(0o755)
    return {**os.environ, "PATH": f"{links}:{os.environ['PATH']}"}


def written(command, folder, environment):
    """What a command writes, on standard output and then on standard error."""
    done = subprocess.run(["bash", "-c", command], cwd=folder, env=environment, capture_output=True, text=True, timeout=120)
    return done.stdout + done.stderr


def commands_write_what_is_shown(program):
    for page in [PAGE, "README.md"]:
        with tempfile.TemporaryDirectory() as room:
            environment = with_cargo(program, room)
            folder = Path(room) / "queue"
            shutil.copytree(TOP / "docs/queue", folder)
            for command, shown in commands(page):
                if page != PAGE and not command.startswith("cargo ssr "):
                    continue
                told = written(command, folder, environment)
                if told != shown:
                    print(f"{page}: another text is written by {command}{told}", end="")
                yield told == shown


def file_of(code):
    """A file with this code: an item as it is, an expression in a function."""
    return f"{code}\n" if code.startswith("const ") else f"fn f() {{ {code} }}\n"


def migrations_are_as_the_table_says(program):
    rows = list(table(PAGE, "Ten migrations"))
    for rule, before, after in rows:
        with tempfile.TemporaryDirectory() as room:
            file = Path(room) / "a.rs"
            file.write_text(file_of(before))
            words = [program, "ssr", "--write", "--quiet", rule, "--", "a.rs"]
            done = subprocess.run(words, cwd=room, capture_output=True, text=True, timeout=120)
            is_so = done.returncode == 0 and file.read_text() == file_of(after)
            if not is_so:
                print(f"{PAGE}: the row of {rule} gives {file.read_text()}{done.stderr}", end="")
            yield is_so
    yield len(rows) == 10 and blocks("README.md", "text")[0].splitlines() == [rule for rule, _, _ in rows]


if __name__ == "__main__":
    words = sys.argv[1:]
    sys.exit(try_all(words or built_programs("cargo_ssr"), [commands_write_what_is_shown, migrations_are_as_the_table_says]))
