#!/usr/bin/env python3
"""Rewrites packages by rules that name things of the standard library, and asks cargo whether they are still accepted.

    bench/migrated.py [--keep FOLDER] [--tests] PROGRAM [NAME ..]

    bench/migrated.py --tests crates/cargo_ssr/out/cargo_ssr url petgraph

Fetches packages of Rust source and what they stand on, as `answers.py` does: those below, or those that are named. The rules
are constants of modules that are named as builtin types, functions like `max_value`, and three calls. Each package is copied,
without what its tests stand on. `cargo check --offline` has to accept the copy as it is, and after the program has written.
With `--tests` its tests have to end as before, where they can be built.

Printed is a row for each package: edits, undecided places, files that are not searched whole, what cargo says before and
after, and with `--tests` how many tests pass before and after. A cargo that refuses what it accepted, or fewer tests that
pass, is told with its words. Ends with status 1 then.

Needs python 3, the commands cargo, apt-get and dpkg, and a list of packages (`apt-get update`).
"""
import argparse
import os
import re
import subprocess
import sys
import tempfile

from answers import closure, copied, folder_of
from beside_syn import SOURCES, write
from lex_debian import fetch, unpack

NAMES = ["url", "walkdir", "smallvec", "slab", "hashbrown", "num-traits", "aho-corasick", "bytes", "petgraph", "rand", "memchr",
         "miniz-oxide", "regex-syntax", "idna", "indexmap", "rayon", "crossbeam-utils", "libm", "gimli"]
INTEGERS = ["u8", "u16", "u32", "u64", "usize", "i8", "i16", "i32", "i64", "isize"]
FLOATS = ["INFINITY", "NEG_INFINITY", "NAN", "EPSILON", "MIN_POSITIVE", "MIN", "MAX"]
CALLS = [
    "std::mem::replace($a, None) ==>> $a.take()",
    "std::mem::replace($a, Default::default()) ==>> std::mem::take($a)",
    "std::io::Error::new(std::io::ErrorKind::Other, $e) ==>> std::io::Error::other($e)",
]


def rules():
    """The rules, as a file has them."""
    constants = [(of, name) for of in INTEGERS for name in ("MIN", "MAX")] + [(of, name) for of in ("f32", "f64") for name in FLOATS]
    lines = ["std::%s::%s ==>> %s::%s" % (of, name, of, name) for of, name in constants]
    lines += ["%s::%s_value() ==>> %s::%s" % (of, name.lower(), of, name) for of in INTEGERS for name in ("MIN", "MAX")]
    return "\n\n".join(lines + CALLS) + "\n"


def cargo(words, folder, target):
    """What cargo says of a package."""
    words = ["cargo", *words, "--offline", "--target-dir", target]
    environment = dict(os.environ, RUSTFLAGS="--cap-lints=allow")
    return subprocess.run(words, cwd=folder, env=environment, stdout=subprocess.PIPE, stderr=subprocess.STDOUT, text=True)


def seen(folder, target, tests):
    """Whether cargo accepts a package, how many of its tests pass (None, where they can't be built), and what it says."""
    check = cargo(["check", "--quiet", "--lib"], folder, target)
    if not tests:
        return check.returncode == 0, None, check.stdout
    run = cargo(["test", "--quiet", "--no-fail-fast", "--lib", "--tests"], folder, target)
    passed = re.findall(r"^test result: .*? (\d+) passed", run.stdout, re.M)
    return check.returncode == 0, sum(map(int, passed)) if passed else None, check.stdout + run.stdout


def words_of(seen_of):
    accepts, passed, _ = seen_of
    return ("accepted" if accepts else "refused") + ("" if passed is None else ", %d" % passed)


def changed(program, file, folder):
    """The summary of a run that writes."""
    words = [program, "ssr", "--write", "--rules", file]
    told = subprocess.run(words, cwd=folder, stdout=subprocess.PIPE, stderr=subprocess.PIPE, text=True)
    if told.returncode != 0:
        sys.exit("%s: %s" % (folder, told.stderr))
    last = told.stderr.splitlines()[-1]
    found = [re.search(r"(\d+) " + word, last) for word in ("edit", "undecided", "files? not")]
    return [int(number.group(1)) if number else 0 for number in found]


def main():
    options = argparse.ArgumentParser()
    options.add_argument("--keep")
    options.add_argument("--tests", action="store_true")
    options.add_argument("program")
    options.add_argument("names", nargs="*", default=NAMES)
    options = options.parse_args()
    program = os.path.abspath(options.program)
    with tempfile.TemporaryDirectory() as folder:
        kept = options.keep or folder
        packages = closure(["librust-%s-dev" % name for name in options.names])
        fetch(kept, packages)
        source = os.path.join(folder, "source")
        unpack(kept, packages, source)
        registry = os.path.join(source, "usr/share/cargo/registry")
        write(os.path.join(folder, ".cargo", "config.toml"), SOURCES % registry)
        file = os.path.join(folder, "rules")
        write(file, rules())
        print("%-18s %6s %9s %9s  %s" % ("package", "edits", "undecided", "not whole", "cargo, and tests that pass"))
        fine = True
        for name in options.names:
            _, built = copied(folder_of(registry, name), folder)
            target = os.path.join(folder, "target")
            before = seen(built, target, options.tests)
            counts = changed(program, file, built)
            after = seen(built, target, options.tests)
            print("%-18s %6d %9d %9d  %s > %s" % (name, *counts, words_of(before), words_of(after)), flush=True)
            if before[:2] != after[:2]:
                fine = False
                print(after[2])
    return 0 if fine else 1


if __name__ == "__main__":
    sys.exit(main())
