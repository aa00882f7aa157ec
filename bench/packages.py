#!/usr/bin/env python3
"""Runs `cargo ssr` over packages: how much of them is searched, and what becomes of ten migrations.

    bench/packages.py [--no-cargo] PROGRAM PACKAGE ..

    bench/packages.py crates/cargo_ssr/out/cargo_ssr packages/semver-1.0.14 packages/memchr-2.5.0

Each PACKAGE is a folder with a manifest. It is copied before each migration, and stays as it is. The migrations are the
rows of the table in `docs/cargo-ssr.md`. For each, two copies are made: in one the diff is taken by `git apply`, in the other
the rules write. Both have to come out with the same bytes. Where a row keeps types, `cargo check --offline` has to accept the
copy, if it accepts the package as it stands.

Printed is a row for each package: its `.rs` files below `src`, how many of them are searched, the share of the
bytes that is searched, and seconds of one search. Then comes a word for each migration:

    12       12 edits; git takes the diff, the bytes are the same, and cargo accepts the result
    12 g     git does not take the diff
    12 w     what is written has other bytes than what git makes
    12 c     cargo does not accept the result
    12 -     cargo was not asked: the row keeps no types, or cargo does not accept the package
    refused  the program ends with a failure

Ends with status 1 if git does not take a diff, or bytes differ, or the program fails.

Needs python 3, the commands git and cargo, and what the packages depend on, where cargo finds it without a network.
"""
import argparse
import os
import re
import shutil
import subprocess
import sys
import tempfile
import time

ROOT = os.path.dirname(os.path.dirname(os.path.abspath(__file__)))
PATTERN = "$a.unwrap()"
ROW = re.compile(r"\| `([^`]* ==>> [^`]*)` \| `[^`]*` \| `[^`]*` \|")
EDITS = re.compile(r"(\d+) edits?\b")
KEEP_TYPES = 7


def migrations():
    """The rules of the table."""
    with open(os.path.join(ROOT, "docs", "cargo-ssr.md"), encoding="utf-8") as page:
        return [match.group(1).replace("\\|", "|") for match in map(ROW.match, page) if match]


def run(words, folder, given=None):
    return subprocess.run(words, cwd=folder, input=given, stdout=subprocess.PIPE, stderr=subprocess.PIPE)


def sources(folder, below="src"):
    """The texts of the `.rs` files below a folder, by their names."""
    texts = {}
    for place, _, names in os.walk(os.path.join(folder, below)):
        for name in names:
            path = os.path.join(place, name)
            if name.endswith(".rs") and os.path.isfile(path):
                with open(path, "rb") as file:
                    texts[os.path.relpath(path, folder)] = file.read()
    return texts


def searched(program, package):
    """Files, how many of them are searched, the share of their bytes, and seconds."""
    sizes = {name: len(text) for name, text in sources(package).items()}
    start = time.monotonic()
    told = run([program, "ssr", "--search", PATTERN, "--", "src"], package).stderr.decode()
    spent = time.monotonic() - start
    left_out = {name for name in (line.split(": ")[0] for line in told.splitlines()) if name in sizes}
    size = sum(sizes.values())
    share = 100 * (size - sum(sizes[name] for name in left_out)) / max(size, 1)
    return len(sizes), len(sizes) - len(left_out), share, spent


def copied(package, folder, name):
    """A copy of the package, a repository of its own."""
    copy = os.path.join(folder, name)
    shutil.rmtree(copy, ignore_errors=True)
    shutil.copytree(package, copy, symlinks=True, ignore=shutil.ignore_patterns(".git", "target"))
    run(["git", "init", "-q"], copy)
    return copy


def is_accepted(package, folder):
    """Whether cargo accepts a package; warnings count for nothing."""
    words = ["cargo", "check", "--offline", "--quiet", "--target-dir", os.path.join(folder, "target")]
    return run(words, package).returncode == 0


def migrated(program, rule, package, folder, asks_cargo):
    """The word for a migration, and whether all went well but for cargo."""
    taken = copied(package, folder, "taken")
    shown = run([program, "ssr", rule, "--", "src"], taken)
    edits = EDITS.search(shown.stderr.decode())
    if shown.returncode != 0:
        print(shown.stderr.decode().rstrip(), file=sys.stderr)
        return "refused", False
    if edits is None or not shown.stdout:
        return "0", True
    if run(["git", "apply", "-"], taken, shown.stdout).returncode != 0:
        return edits.group(1) + " g", False
    written = copied(package, folder, "written")
    done = run([program, "ssr", "--write", rule, "--", "src"], written)
    if done.returncode != 0 or sources(taken, "") != sources(written, ""):
        return edits.group(1) + " w", False
    if not asks_cargo:
        return edits.group(1) + " -", True
    return edits.group(1) + ("" if is_accepted(written, folder) else " c"), True


def main():
    options = argparse.ArgumentParser()
    options.add_argument("--no-cargo", action="store_true")
    options.add_argument("program")
    options.add_argument("packages", nargs="+")
    options = options.parse_args()
    program = os.path.abspath(options.program)
    rules = migrations()
    for number, rule in enumerate(rules, 1):
        print("%3d  %s" % (number, rule))
    heads = "".join("%8d" % number for number in range(1, len(rules) + 1))
    print("%-28s %6s %8s %7s %7s%s" % ("package", "files", "searched", "bytes %", "s", heads))
    fine = True
    with tempfile.TemporaryDirectory(dir=os.path.dirname(os.path.abspath(options.packages[0]))) as folder:
        for package in options.packages:
            files, read, share, spent = searched(program, package)
            print("%-28s %6d %8d %7.2f %7.2f" % (os.path.basename(os.path.abspath(package)), files, read, share, spent), end="")
            accepts = not options.no_cargo and is_accepted(copied(package, folder, "whole"), folder)
            for number, rule in enumerate(rules):
                word, is_fine = migrated(program, rule, package, folder, accepts and number < KEEP_TYPES)
                fine = fine and is_fine
                print("%8s" % word, end="", flush=True)
            print(flush=True)
    return 0 if fine else 1


if __name__ == "__main__":
    sys.exit(main())
