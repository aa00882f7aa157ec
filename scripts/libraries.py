#!/usr/bin/env python3
"""Proves and builds the library of each crate, lowest first, several side by side: what a check on a new machine begins with.

    scripts/libraries.py [--lanes N] FOLDER [CRATE ..]

    scripts/libraries.py --lanes 3 ../lanes ssr_changes

Each lane works in a clone of its own below FOLDER, since `rt` locks the folders of all crates below the one that it builds. A library
that is built is handed on to the other lanes and to this repository, by hard links: `rt` takes it in each clone in which the texts are
the same. With names, those crates and the ones below them are built. A crate is begun once all below it are built, and of these the one
with the longest chain above it. A line is printed for each crate.

`rt check` of a crate high up does the same in the end. But it first reads all the sources below, which takes minutes and
gigabytes where no library is built, and it builds one library after the other. Ends with status 1 if a library is not built.

Needs python 3, git and `rt`, and FOLDER on the repository's file system. The clones keep what was proved, some 200 MB a 1,000 lines;
remove FOLDER when it is done with.
"""
import argparse
import fcntl
import os
import shutil
import subprocess
import sys
import threading
import time

ROOT = os.path.dirname(os.path.dirname(os.path.abspath(__file__)))


def crates():
    """The crates of the repository, each with those of the repository that it stands on."""
    lists = {}
    with open(os.path.join(ROOT, "crates.txt")) as file:
        for line in file:
            name, colon, below = line.split("#")[0].partition(":")
            if colon:
                lists[name.split()[0]] = below.split()
    return {name: [one for one in below if one in lists] for name, below in lists.items()}


def wanted(below, names):
    """The named crates and all below them; without names all crates."""
    found, left = set(), list(names or below)
    while left:
        name = left.pop()
        if name not in found:
            found.add(name)
            left += below[name]
    return {name: below[name] for name in found}


def lines(name):
    """How many lines of code, definitions and proofs a crate has."""
    count = 0
    for place, folders, files in os.walk(os.path.join(ROOT, "crates", name)):
        folders[:] = [folder for folder in folders if folder != "out"]
        for file in files:
            if file.endswith((".rt", ".antt")):
                with open(os.path.join(place, file), encoding="utf-8") as text:
                    count += sum(1 for _ in text)
    return count


def chains(below):
    """Of each crate the lines of the longest chain from it upwards."""
    above = {name: [other for other in below if name in below[other]] for name in below}
    known = {}

    def chain(name):
        if name not in known:
            known[name] = lines(name) + max([chain(other) for other in above[name]], default=0)
        return known[name]

    return {name: chain(name) for name in below}


class Work:
    """Which crates are built, being built, or not to be built."""

    def __init__(self, below):
        self.below = below
        self.chains = chains(below)
        self.built, self.begun, self.failed = set(), set(), set()
        self.changed = threading.Condition()

    def next(self):
        """The crate to be built next, once there is one; None where there is none any more."""
        with self.changed:
            while True:
                left = [name for name in self.below if name not in self.begun]
                ready = [name for name in left if self.built.issuperset(self.below[name])]
                if ready:
                    name = max(ready, key=self.chains.get)
                    self.begun.add(name)
                    return name
                if len(self.begun) == len(self.built) + len(self.failed):
                    return None
                self.changed.wait()

    def end(self, name, is_built):
        with self.changed:
            (self.built if is_built else self.failed).add(name)
            self.changed.notify_all()


def build(name, clone):
    """Builds a library, or checks a program; whether that went well."""
    folder = os.path.join(clone, "crates", name)
    verb = "check" if os.path.exists(os.path.join(folder, "src", "main.rt")) else "lib"
    with open(os.path.join(os.path.dirname(clone), name + ".log"), "w") as log:
        run = subprocess.run(["rt", verb, "--jobs", "1"], cwd=folder, stdin=subprocess.DEVNULL, stdout=log, stderr=log)
    return run.returncode == 0


def stamp(clone, name):
    """What the texts are that a crate's library was built of, if there is one."""
    try:
        with open(os.path.join(clone, "crates", name, "out", "rlib", "stamp")) as file:
            return file.read()
    except OSError:
        return None


def hand_on(name, source, target):
    """Puts a library that is built in one clone into another one, unless it is there or a run of `rt` works with it."""
    folder = os.path.join(target, "crates", name)
    if stamp(target, name) == stamp(source, name):
        return
    held = os.open(folder, os.O_RDONLY)
    try:
        fcntl.flock(held, fcntl.LOCK_EX | fcntl.LOCK_NB)
        library = os.path.join(folder, "out", "rlib")
        beside = library + ".new"
        shutil.rmtree(beside, ignore_errors=True)
        shutil.copytree(os.path.join(source, "crates", name, "out", "rlib"), beside, copy_function=os.link)
        shutil.rmtree(library, ignore_errors=True)
        os.rename(beside, library)
    except OSError:
        # a run of `rt` works there, or it is another file system: `rt` builds the library once more
        pass
    finally:
        os.close(held)


def lane(work, clone, others):
    while (name := work.next()) is not None:
        start = time.monotonic()
        is_built = build(name, clone)
        for other in others if is_built else []:
            hand_on(name, clone, other)
        work.end(name, is_built)
        print("%-24s %s %4d s" % (name, "built" if is_built else "NOT BUILT", time.monotonic() - start), flush=True)


def main():
    options = argparse.ArgumentParser()
    options.add_argument("--lanes", type=int, default=os.cpu_count())
    options.add_argument("folder")
    options.add_argument("crates", nargs="*")
    options = options.parse_args()
    folder = os.path.abspath(options.folder)
    work = Work(wanted(crates(), options.crates))
    clones = [os.path.join(folder, "lane%d" % number) for number in range(options.lanes)]
    for clone in clones:
        subprocess.run(["git", "clone", "-q", ROOT, clone], check=True)
    all_clones = {ROOT, *clones}
    lanes = [threading.Thread(target=lane, args=(work, clone, all_clones - {clone})) for clone in clones]
    for one in lanes:
        one.start()
    for one in lanes:
        one.join()
    return 0 if len(work.built) == len(work.below) else 1


if __name__ == "__main__":
    sys.exit(main())
