#!/usr/bin/env python3
"""Times the reading of a facts file.

    bench/facts.py [--megabytes N ..] [--program FILE]

Builds the program of `crates/ssr_scenarios` by `rt run` (unless it is given), and makes facts files of these sizes, of 1, 10
and 50 megabytes if not said: files of functions, each of which calls a function and a method, with rows for the scope of
each function, for what each of its names, paths and methods stands for, for the types of its expressions, and for how the
called function is printed. Printed are how many rows a file has, the processor time of reading alone, as the program
itself tells it, the least of three runs, MB/s, and the peak of memory for each byte of the file.

Needs python 3 and the command rt. It is no test: nothing here fails on a slow machine.
"""
import argparse
import json
import os
import re
import subprocess
import tempfile

from run import peak_of
from workspace import build

FUNCTIONS_OF_A_FILE = 1000
TIMES = re.compile(r"(\d+) files, (\d+) bytes of facts\nread in (\d+) ns\n")


class Facts:
    """The rows of a facts file, as they come."""

    def __init__(self):
        self.rows = {key: [] for key in ("files", "defs", "scopes", "names", "paths", "methods", "types", "printed")}
        self.size = 0

    def add(self, key, row):
        text = json.dumps(row, separators=(",", ":"))
        self.rows[key].append(text)
        self.size += len(text) + 1

    def write(self, file):
        file.write("{" + ",".join('"%s":[%s]' % (key, ",".join(rows)) for key, rows in self.rows.items()) + "}")

    def count(self):
        return sum(len(rows) for rows in self.rows.values())


def add_function(facts, tree, start, number):
    """A function that stands at this byte of a tree, with its rows; answers its text."""
    text = "fn f%d(x: u8) { g%d(x.m%d(%d)); }\n" % (number, number, number, number)
    at = lambda piece: start + text.index(piece)
    called, method = "g%d" % number, "x.m%d(%d)" % (number, number)
    facts.add("defs", {"kind": "function"})
    facts.add("defs", {"kind": "function", "assoc": True, "self": True})
    facts.add("scopes", [tree, start, start + len(text) - 1])
    facts.add("names", [number, [called], ["def", 2 * number]])
    facts.add("paths", [tree, at(called), at(called) + len(called), ["def", 2 * number]])
    facts.add("methods", [tree, at(method), at(method) + len(method), 2 * number + 1, "ref"])
    facts.add("types", [tree, at(method), at(method) + 1, [1, 2]])
    facts.add("types", [tree, at(method), at(method) + len(method), [3]])
    facts.add("printed", [number, 2 * number, "crate::" + called])
    return text


def made(size):
    """Facts of about so many bytes."""
    facts = Facts()
    number = tree = 0
    while facts.size < size:
        text = ""
        for _ in range(FUNCTIONS_OF_A_FILE):
            text += add_function(facts, tree, len(text), number)
            number += 1
        facts.add("files", {"name": "m%d.rs" % tree, "text": text})
        tree += 1
    return facts


def reading_time(program, path):
    """The nanoseconds of reading."""
    run = subprocess.run([program, "--facts", path], stdout=subprocess.PIPE, check=True)
    return int(TIMES.fullmatch(run.stdout.decode())[3])


def main():
    options = argparse.ArgumentParser()
    options.add_argument("--megabytes", type=float, nargs="*", default=[1, 10, 50])
    options.add_argument("--program")
    options = options.parse_args()
    program = options.program or build("ssr_scenarios")
    print("%12s %10s %10s %8s %12s" % ("bytes", "rows", "ms", "MB/s", "memory/byte"))
    for megabytes in options.megabytes:
        facts = made(megabytes * 1e6)
        with tempfile.NamedTemporaryFile("w", suffix=".json") as file:
            facts.write(file)
            file.flush()
            size = os.path.getsize(file.name)
            spent = min(reading_time(program, file.name) for _ in range(3))
            memory = peak_of(subprocess.Popen([program, "--facts", file.name], stdout=subprocess.DEVNULL)) / size
            print("%12d %10d %10.1f %8.1f %12.1f" % (
                size, facts.count(), spent / 1e6, 1000 * size / spent, memory), flush=True)


if __name__ == "__main__":
    main()
