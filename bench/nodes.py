#!/usr/bin/env python3
"""Looks whether what `cargo ssr` replaces in packages are nodes of their files, as a reader of the whole of Rust sees them.

    bench/nodes.py [--keep FOLDER] PROGRAM PACKAGE ..

    bench/nodes.py crates/cargo_ssr/out/cargo_ssr packages/semver-1.0.14 packages/memchr-2.5.0

The rules are the ten migrations of `docs/cargo-ssr.md` and nine broad ones. Each match that is replaced has to have the bytes of a
node that `syn` sees in the file, unless it lies in the arguments of a macro, or `syn` refuses the file. Printed is a row for each rule:
matches that are replaced, of these in macros' arguments, in files that `syn` refuses, and those that are no nodes; matches that are
told and not replaced. Each match that is no node is listed. Ends with status 1 if there is one.

Fetches `syn` and what it stands on as `lex_debian.py` does. Needs python 3 and the commands cargo, apt-get and dpkg.
"""
import argparse
import json
import os
import subprocess
import sys
import tempfile

from beside_syn import PEER, SOURCES, write
from lex_debian import ROOT, fetch, unpack
from packages import migrations

BROAD = [
    "let $a = $b; ==>> let $a = ($b);",
    "$a + $b ==>> $b + $a",
    "$a == $b ==>> $b == $a",
    "*const $t ==>> *mut $t",
    "&$a ==>> &mut $a",
    "|$x| $b ==>> move |$x| $b",
    "fn $f() { $b } ==>> pub fn $f() { $b }",
    "if $c { $b } ==>> if ($c) { $b }",
    "return $a; ==>> return ($a);",
]
CARGO = """\
[package]
name = "syn_nodes"
version = "0.0.0"
edition = "2021"

[[bin]]
name = "syn_nodes"
path = "%s"

[dependencies]
syn = { version = "1", features = ["full", "visit"] }
quote = "1"
proc-macro2 = { version = "1", features = ["span-locations"] }
"""


def reader(folder, source):
    """The reader over `syn`, built of Debian's sources."""
    write(os.path.join(folder, "Cargo.toml"), CARGO % os.path.join(ROOT, "bench", "syn_nodes.rs"))
    write(os.path.join(folder, ".cargo", "config.toml"), SOURCES % os.path.join(source, "usr/share/cargo/registry"))
    subprocess.run(["cargo", "build", "--release", "--offline"], cwd=folder, check=True, stdout=sys.stderr)
    return os.path.join(folder, "target", "release", "syn_nodes")


class Files:
    """The nodes of files, and the tokens of their macro calls; None where a file is refused."""

    def __init__(self, program):
        self.program = program
        self.known = {}

    def nodes(self, path):
        if path not in self.known:
            with open(path, "rb") as file:
                run = subprocess.run([self.program], stdin=file, stdout=subprocess.PIPE, stderr=subprocess.DEVNULL)
            rows = [line.split() for line in run.stdout.decode().splitlines()]
            named = lambda what: {(int(start), int(end)) for kind, start, end in rows if kind == what}
            self.known[path] = (named("n"), named("m")) if run.returncode == 0 else None
        return self.known[path]


def matches(program, rule, package):
    """The matches of a rule in a package's sources."""
    words = [program, "ssr", "--json", rule, "--", "src"]
    run = subprocess.run(words, cwd=package, stdout=subprocess.PIPE, stderr=subprocess.PIPE)
    lines = [json.loads(line) for line in run.stdout.decode().splitlines()]
    if run.returncode != 0:
        print("%s: %s: %s" % (package, rule, run.stderr.decode().strip()), file=sys.stderr)
    return [line for line in lines if "rule" in line]


def main():
    options = argparse.ArgumentParser()
    options.add_argument("--keep")
    options.add_argument("program")
    options.add_argument("packages", nargs="+")
    options = options.parse_args()
    program = os.path.abspath(options.program)
    with tempfile.TemporaryDirectory() as folder:
        kept = options.keep or folder
        source = os.path.join(folder, "source")
        fetch(kept, PEER)
        unpack(kept, PEER, source)
        files = Files(reader(os.path.join(folder, "peer"), source))
        print("%9s %9s %9s %9s %9s  rule" % ("replaced", "in macros", "refused", "no node", "told"))
        wrong = 0
        for rule in migrations() + BROAD:
            counts = [0, 0, 0, 0, 0]
            for package in options.packages:
                for match in matches(program, rule, package):
                    if match["new"] is None:
                        counts[4] += 1
                        continue
                    counts[0] += 1
                    seen = files.nodes(os.path.join(package, match["file"]))
                    place = (match["start"], match["end"])
                    if seen is None:
                        counts[2] += 1
                    elif any(start <= place[0] and place[1] <= end for start, end in seen[1]):
                        counts[1] += 1
                    elif place not in seen[0]:
                        counts[3] += 1
                        print("no node: %s/%s:%d:%d: %s" % (package, match["file"], match["line"], match["column"], match["old"][:80].replace("\n", " ")))
            wrong += counts[3]
            print("%9d %9d %9d %9d %9d  %s" % (*counts, rule), flush=True)
    return 1 if wrong else 0


if __name__ == "__main__":
    sys.exit(main())
