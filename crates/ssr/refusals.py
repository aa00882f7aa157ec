#!/usr/bin/env python3
"""Runs the built program with each of its requests for memory refused in turn, and each of its reads and writes failing, and
compares what it tells with a table.

    crates/ssr/refusals.py [PROGRAM]

The program is the one that `rt ci` leaves in crates/ssr/out, unless another is named. The last line is 'N passed, M failed'.
"""

import itertools
import json
import os
import subprocess
import sys
import tempfile
from pathlib import Path

sys.dont_write_bytecode = True
sys.path.append(str(Path(__file__).resolve().parents[2] / "scripts"))
from cases import FOO_AND_BAR, NO_FILE, NO_READ, SWAP, USAGE, files
from worked import built_programs, count

HERE = Path(__file__).resolve().parent

FACTS = "facts.json"

# Two rules at one sum, and the functions that their templates call.
SUMS = files(
    "fn f() {3 + 2 + 1}",
    defs=[{"kind": "function"}, {"kind": "function"}],
    names=[[0, ["add_one"], ["def", 0]], [0, ["add"], ["def", 1]]],
    printed=[[0, 0, "add_one"], [0, 1, "add"]],
)
ADD = ["$a + 1 ==>> add_one($a)", "$a + $b ==>> add($a, $b)"]

# The macro call stands for two calls of `foo`, both of which come from the one that is written.
USE = [["foo", True, 12, 15], ["(", False, 15, 16], ["1", True, 16, 17], [")", False, 17, 18]]
TWO_USES = files(
    "fn f() { m!(foo(1)) }",
    expansions=[{"call": [0, 9, 19], "kind": "expr", "tokens": [["(", False], *USE, [",", False], *USE, [")", False]]}],
    defs=[{"kind": "function"}, {"kind": "function"}],
    names=[[0, ["foo"], ["def", 0]], [0, ["bar"], ["def", 1]]],
    paths=[[1, 1, 4, ["def", 0]], [1, 8, 11, ["def", 0]]],
    printed=[[0, 1, "bar"], [1, 1, "bar"]],
)
TWO_USES["scopes"].append([1, 0, 15])
RENAME = ["foo($x) ==>> bar($x)"]

# Runs: the rules, the facts, where there are some, what is on standard input, and what is written with which status.
CHAIN = ("fn f() {1 + 2 + 3 + 4}", "fn f() {4 + (3 + (2 + 1))}")
RUNS = {
    "one file": ([SWAP], None, CHAIN[0], CHAIN[1], 0),
    "two rules": (ADD, SUMS, "", "== a.rs\nfn f() {add_one(add(3, 2))}\n", 0),
    "a macro call": (RENAME, TWO_USES, "", "== a.rs\nfn f() { m!(bar(1)) }\n", 0),
    "facts": (RENAME, FOO_AND_BAR, "", "== a.rs\nfn foo() {} fn bar() {} fn main() { bar(1+2); }\n", 0),
    "no file": ([SWAP], None, "fn f() {1 + ", NO_FILE, 1),
}

WORDS_LOST = (USAGE, 2)
MEMORY = ("error: out of memory\n", 1)
FILE_MEMORY = ("error: standard input: out of memory\n", 1)
FACTS_MEMORY = ("error: facts: out of memory\n", 1)
NO_FACTS = ("error: facts: cannot be read\n", 1)

# What is told in the place of the answer where a request is refused, in the order of the requests: words that can't be read are
# none, then comes what is read, then all else. (The program does without some of what it asks for.)
TABLE = {
    "one file": [WORDS_LOST, FILE_MEMORY, MEMORY],
    "two rules": [WORDS_LOST, FACTS_MEMORY, MEMORY],
    "a macro call": [WORDS_LOST, FACTS_MEMORY, MEMORY],
    "facts": [WORDS_LOST, FACTS_MEMORY, MEMORY],
    "no file": [WORDS_LOST, FILE_MEMORY],
}


def library(place):
    """The library that has calls fail, built with the compiler of Rattle's kit."""
    kit = Path(subprocess.run(["rt", "doc"], capture_output=True, text=True, check=True).stdout.strip()).parent
    clang = [kit / "toolchain/bin/clang", "--target=x86_64-unknown-linux-gnu", "-fuse-ld=lld"]
    subprocess.run([*clang, "-O1", "-shared", "-fPIC", "-nostdlib", HERE / "failing.c", "-o", place], check=True)
    return place


class Trial:
    """Runs of a program, in a folder with the library and the facts."""

    def __init__(self, program, room):
        self.program = os.path.abspath(program)
        self.room = Path(room)
        self.library = library(self.room / "failing.so")

    def outcome(self, run, **calls):
        """What is written and the status, and whether one of the calls failed."""
        rules, facts, given, _, _ = run
        if facts is not None:
            (self.room / FACTS).write_text(json.dumps(facts))
            rules = ["--facts", FACTS, *rules]
        told, telling = os.pipe()
        environment = {"LD_PRELOAD": str(self.library), "REFUSED": str(telling), **{sort: str(n) for sort, n in calls.items()}}
        streams = {"input": given.encode(), "capture_output": True, "pass_fds": [telling]}
        done = subprocess.run([self.program, *rules], cwd=self.room, env=environment, timeout=120, **streams)
        os.close(telling)
        with os.fdopen(told, "rb") as stream:
            has_failed = stream.read() != b""
        return (done.stdout.decode(), None if done.stderr else done.returncode), has_failed

    def outcomes(self, run, sort, **calls):
        """The outcomes where the first, the second, .. of the calls of a sort fails, until there are no more of them."""
        for number in itertools.count(1):
            outcome, has_failed = self.outcome(run, **{sort: number}, **calls)
            if not has_failed:
                return
            yield outcome


def answer_of(run):
    return run[3:]


def refused_requests(trial, name, run):
    yield trial.outcome(run)[0] == answer_of(run)
    others = [outcome for outcome in trial.outcomes(run, "REQUEST") if outcome != answer_of(run)]
    yield [outcome for outcome, _ in itertools.groupby(others)] == TABLE[name]


def failed_reads(trial, name, run):
    told = (NO_READ, 1) if run[1] is None else NO_FACTS
    for calls in [{}, {"ONE_BYTE": 1}]:
        outcomes = list(trial.outcomes(run, "READ", **calls))
        yield outcomes != [] and set(outcomes) == {told}


def failed_writes(trial, name, run):
    """Of each sort, with all bytes at once and one by one: what is written is a beginning of the answer, and the status is 1."""
    answer, status = answer_of(run)
    for sort in ["WRITE", "EMPTY_WRITE"]:
        outcomes = list(trial.outcomes(run, sort))
        yield outcomes != [] and all(ended == 1 and answer.startswith(written) for written, ended in outcomes)
        outcomes = list(trial.outcomes(run, sort, ONE_BYTE=1))
        yield outcomes == [(answer[:count], 1) for count in range(len(answer))]
    yield trial.outcome(run, ONE_BYTE=1)[0] == (answer, status)


def main(words):
    with tempfile.TemporaryDirectory() as room:
        trial = Trial(words[0] if words else built_programs("ssr")[0], room)
        tries = [refused_requests, failed_reads, failed_writes]
        return count((f"{name}: {fails.__name__}", fails(trial, name, run)) for name, run in RUNS.items() for fails in tries)


if __name__ == "__main__":
    sys.exit(main(sys.argv[1:]))
