#!/usr/bin/env python3
"""Compares which Rust files of Debian's packages the whole reach of the language reads with what rustc's parser reads.

    bench/read_as_rustc.py [--program FILE] [--keep FOLDER] [--every N] [--most N] [--list] [PACKAGE ..]

Without names it takes every Nth of Debian's packages of Rust source (9), at most so many (130). Fetches and unpacks them as
`lex_debian.py` does, builds the program `ssr_scenarios` by `rt run` (unless it is given), and has it tell of each `.rs` file in
which reach it is read. Each file is then read by `rustc -Zparse-crate-root-only`, in the editions 2024, 2021, 2018 and 2015 in
turn. `--list` names the files that rustc reads in edition 2024 and the whole reach doesn't.

Ends with status 1 if a file is read that rustc reads in no edition, or if the two reaches make different trees of one.

Needs python 3, the commands rt, rustc, apt-get and dpkg, and a list of packages (`apt-get update`). rustc is asked with
RUSTC_BOOTSTRAP=1, since the flag is none of a stable compiler.
"""
import argparse
import collections
import concurrent.futures
import os
import subprocess
import sys
import tempfile

from lex_debian import ROOT, fetch, unpack

EDITIONS = ["2024", "2021", "2018", "2015"]


def build():
    """The program, built where it stands."""
    folder = os.path.join(ROOT, "crates", "ssr_scenarios")
    subprocess.run(["rt", "run", "--", "--reads"], cwd=folder, stdin=subprocess.DEVNULL, check=True, stdout=sys.stderr)
    return os.path.join(folder, "out", "ssr_scenarios")


def some_packages(every, most):
    """The names of some of Debian's packages of Rust source."""
    told = subprocess.run(["apt-cache", "pkgnames", "librust-"], capture_output=True, text=True, check=True).stdout.split()
    names = sorted(name for name in told if name.endswith("-dev") and "+" not in name)
    return names[every - 1::every][:most]


def is_text(path):
    with open(path, "rb") as file:
        try:
            file.read().decode()
            return True
        except UnicodeDecodeError:
            return False


def edition(path):
    """The newest edition in which rustc reads a file; None where it reads it in none."""
    for year in EDITIONS:
        words = ["rustc", "--edition", year, "-Zparse-crate-root-only", "--cap-lints", "allow", path]
        run = subprocess.run(words, env={**os.environ, "RUSTC_BOOTSTRAP": "1"}, capture_output=True)
        if run.returncode == 0:
            return year
    return None


def main():
    options = argparse.ArgumentParser()
    options.add_argument("--program")
    options.add_argument("--keep")
    options.add_argument("--every", type=int, default=9)
    options.add_argument("--most", type=int, default=130)
    options.add_argument("--list", action="store_true")
    options.add_argument("packages", nargs="*")
    options = options.parse_args()
    with tempfile.TemporaryDirectory() as folder:
        program = options.program or build()
        names = options.packages or some_packages(options.every, options.most)
        packages = options.keep or os.path.join(folder, "packages")
        fetch(packages, names)
        source = os.path.join(folder, "source")
        paths = [path for path in sorted(unpack(packages, names, source)) if is_text(path)]
        told = subprocess.run([program, "--reads"], input="\n".join(paths) + "\n", capture_output=True, text=True, check=True)
        with concurrent.futures.ThreadPoolExecutor(os.cpu_count()) as pool:
            editions = list(pool.map(edition, paths))
        rows = list(zip(paths, told.stdout.split(), editions, strict=True))
        for (reach, year), count in collections.Counter((reach, year) for _, reach, year in rows).most_common():
            print("%7d  read: %-8s rustc: %s" % (count, reach, year or "in no edition"))
        wrong = [path for path, reach, year in rows if reach == "another" or reach != "none" and year is None]
        for path in wrong:
            print("wrong: " + os.path.relpath(path, source))
        if options.list:
            for path in (path for path, reach, year in rows if reach == "none" and year == "2024"):
                print("not read: " + os.path.relpath(path, source))
    return 1 if wrong else 0


if __name__ == "__main__":
    sys.exit(main())
