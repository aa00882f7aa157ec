#!/usr/bin/env python3
"""Times a workspace of many files of real Rust beside one file of the same bytes.

    bench/workspace.py [--files N] [--megabytes N] [--repeat N] [--program FILE] [--beside FILE] [--keep FOLDER] [PACKAGE ..]

Fetches and unpacks packages as `lex_debian.py` does, builds the programs of `crates/ssr_scenarios` and `crates/ssr` by
`rt run` (unless they are given: the first by `--program`, the second by `--beside`), and takes those files that lie inside of the
language where they stand in a module. Of these, by their size, it takes N that follow each other, 1,000 if not said: the
smallest ones that have so many megabytes together, 10 if not said. It writes each of them as a module in a file of its own,
and all of them behind one another in one file: the same bytes, cut or whole.

Both are built and searched in turn, with a rule that matches nothing and with one that matches, each without expansions and
restrictions. Printed are the processor time (user and system) of building and of searching alone, as the program itself
tells it, the least of some runs, MB/s, and the peak of memory for each byte of the text; then how many times as long the
many files take as the one, for a byte. Last comes what the program `ssr` takes for the one file as a whole process: to read
and parse it, and to search it as well.

Needs python 3, the commands rt, apt-get and dpkg, and a list of packages (`apt-get update`). It is no test: nothing here
fails on a slow machine.
"""
import argparse
import os
import re
import subprocess
import sys
import tempfile

from lex_debian import PACKAGES, ROOT, fetch, unpack
from run import NOTHING, NO_RULE, SWAP, peak, run_seconds

TIMES = re.compile(r"(\d+) files, (\d+) bytes, (\d+) matches\nbuilt in (\d+) ns, searched in (\d+) ns\n")


def build(name, *words):
    """The program of a crate, built where it stands, where it runs once with these words."""
    folder = os.path.join(ROOT, "crates", name)
    subprocess.run(["rt", "run", "--", *words], cwd=folder, input=b"", check=True, stdout=sys.stderr)
    return os.path.join(folder, "out", name)


def module(number, text):
    return b"mod m%d {\n%s\n}\n" % (number, text)


def is_read(program, path):
    """Whether the program builds a workspace of the file alone."""
    given = (path + "\n").encode()
    run = subprocess.run([program, "--times"], input=given, stdout=subprocess.DEVNULL, stderr=subprocess.DEVNULL)
    return run.returncode == 0


def modules(program, files, folder):
    """The paths of modules with the text of one of the files each: of those files that are read so."""
    paths = []
    for path in files:
        with open(path, "rb") as file:
            text = module(len(paths), file.read())
        cut = os.path.join(folder, "m%d.rs" % len(paths))
        with open(cut, "wb") as file:
            file.write(text)
        if is_read(program, cut):
            paths.append(cut)
    return paths


def following(paths, count, size):
    """So many of the files that follow each other by their size: the smallest ones that have `size` bytes together."""
    paths = sorted(paths, key=os.path.getsize)
    sizes = [os.path.getsize(path) for path in paths]
    for first in range(len(paths) - count + 1):
        if sum(sizes[first:first + count]) >= size:
            return paths[first:first + count]
    sys.exit("no %d files have %d bytes together" % (count, size))


def joined(paths, folder):
    """The path of one file with the texts of all of these."""
    whole = os.path.join(folder, "joined.rs")
    with open(whole, "wb") as all_texts:
        for path in paths:
            with open(path, "rb") as file:
                all_texts.write(file.read())
    return whole


def timed(program, rule, names):
    """Files, bytes and matches, and the nanoseconds of building and of searching."""
    run = subprocess.run([program, "--times", rule], input=names, stdout=subprocess.PIPE, check=True)
    return [int(number) for number in TIMES.fullmatch(run.stdout.decode()).groups()]


def compare(program, many, one, rule, repeat):
    """The lines of many files and of one, with a rule."""
    runs = [[timed(program, rule, names) for names in (many, one)] for _ in range(repeat)]
    costs = []
    for names, column in zip((many, one), zip(*runs)):
        files, size, matches = column[0][:3]
        built = min(row[3] for row in column)
        searched = min(row[4] for row in column)
        costs.append((built / size, searched / size))
        memory = peak([program, "--times", rule], names) / size
        print("%-24s %6d %10d %8d %9.1f %7.1f %9.1f %7.1f %8.1f" % (
            rule, files, size, matches, built / 1e6, 1000 * size / built, searched / 1e6, 1000 * size / searched, memory),
            flush=True)
    print("%-24s %6s %10s %8s %9s %7.2f %9s %7.2f" % (
        "", "", "", "", "times", costs[0][0] / costs[1][0], "", costs[0][1] / costs[1][1]), flush=True)


def main():
    options = argparse.ArgumentParser()
    options.add_argument("--files", type=int, default=1000)
    options.add_argument("--megabytes", type=float, default=10)
    options.add_argument("--repeat", type=int, default=10)
    options.add_argument("--program")
    options.add_argument("--beside")
    options.add_argument("--keep")
    options.add_argument("packages", nargs="*", default=PACKAGES)
    options = options.parse_args()
    with tempfile.TemporaryDirectory() as folder:
        program = options.program or build("ssr_scenarios")
        beside = options.beside or build("ssr", NOTHING)
        packages = options.keep or os.path.join(folder, "packages")
        fetch(packages, options.packages)
        files = unpack(packages, options.packages, os.path.join(folder, "source"))
        paths = following(modules(program, files, folder), options.files, int(1e6 * options.megabytes))
        whole = joined(paths, folder)
        many = "".join(path + "\n" for path in paths).encode()
        one = (whole + "\n").encode()
        print("%-24s %6s %10s %8s %9s %7s %9s %7s %8s" % (
            "", "files", "bytes", "matches", "build ms", "MB/s", "search ms", "MB/s", "mem/byte"))
        for rule in (NOTHING, SWAP):
            compare(program, many, one, rule, options.repeat)
        with open(whole, "rb") as file:
            text = file.read()
        for name, rule, status in (("parse", NO_RULE, 1), ("search", NOTHING, 0)):
            spent = min(run_seconds(beside, rule, text, status) for _ in range(options.repeat))
            print("ssr, %-6s %9.1f ms %7.1f MB/s" % (name, 1000 * spent, len(text) / 1e6 / spent), flush=True)


if __name__ == "__main__":
    main()
