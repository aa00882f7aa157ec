#!/usr/bin/env python3
"""Measures what inputs cost that ask the program `ssr` for more than their length.

    bench/hostile.py [--program FILE] [--part NAME]

Builds the program by `rt run` (unless it is given), and prints for each input its bytes (the rules' and the file's), the
bytes that are written, the processor time of one run, and the peak of its memory. Each kind of input comes in growing sizes,
with the exponents of time and memory between a size and the one before, where 1.0 is linear in what grows.

    copies      copies of one rule, over functions that all match
    rules       rules that differ by the name of a method, none of which matches, over 100 KB of method calls
    alike       rules that differ by the last argument alone, none of which matches, over 120 KB of calls of that method
    chains      one chain of nested matches, each of which is written anew
    deep        a pattern as deep as the code, whose last part does not match
    templates   a long template, for each of many matches
    records     one record expression with many fields, in the pattern in another order
    elements    a macro call of many tokens, and a pattern of as many placeholders
    facts       facts files without names, of 0 to 1,000 functions

Needs python 3 and the command rt. It is no test: nothing here fails on a slow machine.
"""
import argparse
import json
import math
import os
import subprocess
import tempfile
import time

from run import SWAP, build


def functions(count, body="1 + 2"):
    return "".join("fn f%d() {%s}\n" % (number, body) for number in range(count))


def copies(count):
    return [SWAP] * 200, functions(count), None


def rules(count):
    calls = "".join("fn f%d() {x.a%d(1)}\n" % (number, number % 100) for number in range(4_600))
    return ["$a.m%d($b) ==>> $a.n%d($b)" % (number, number) for number in range(count)], calls, None


def alike(count):
    calls = "".join("fn f%d() {x.m(1, %d)}\n" % (number, 10_000 + number) for number in range(4_600))
    return ["$a.m($b, %d) ==>> $a" % number for number in range(count)], calls, None


def chains(count):
    return [SWAP], functions(1, " + ".join("t%d" % number for number in range(count))), None


def deep(count):
    pattern = " + ".join(["$a"] + ["1"] * count)
    return [pattern.replace("$a", "2") + " ==>> 3"], functions(200_000 // (4 * count), " + ".join(["1"] * count)), None


def templates(count):
    return ["$a + $b ==>> [%s]" % ", ".join(["1"] * 3_000)], functions(count), None


def records(count):
    fields = ["f%d: %d" % (number, number) for number in range(count)]
    return ["$t {%s} ==>> 1" % ", ".join(reversed(fields))], functions(1, "S {%s}" % ", ".join(fields)), None


def elements(count):
    pattern = ", ".join("$a%d" % number for number in range(count))
    return ["$m!(%s) ==>> 1" % pattern], functions(1, "m!(%s);" % ", ".join(["1"] * count)), None


def facts(count):
    text = functions(count)
    return [SWAP], "", {"files": [{"name": "a.rs", "text": text}], "scopes": [[0, 0, len(text)]]}


PARTS = {
    "copies": (copies, [500, 5_000, 50_000]),
    "rules": (rules, [100, 1_000, 10_000]),
    "alike": (alike, [10, 100, 1_000]),
    "chains": (chains, [125, 250, 500, 1_000]),
    "deep": (deep, [100, 300, 1_000]),
    "templates": (templates, [100, 1_000, 10_000]),
    "records": (records, [100, 1_000, 10_000]),
    "elements": (elements, [100, 1_000, 10_000]),
    "facts": (facts, [0, 10, 100, 1_000]),
}


def most_memory(process):
    """The most memory that a running program had so far, in bytes; 0 where it has ended."""
    try:
        with open("/proc/%d/status" % process.pid) as status:
            return max((int(line.split()[1]) * 1024 for line in status if line.startswith("VmHWM:")), default=0)
    except OSError:
        return 0


def run(program, words, given, room):
    """The processor time, the peak of memory as far as a look at each millisecond saw it, how much is written, and the status."""
    inputs, outputs = os.path.join(room, "in"), os.path.join(room, "out")
    with open(inputs, "w") as file:
        file.write(given)
    with open(inputs) as source, open(outputs, "w") as sink:
        process = subprocess.Popen([program, *words], stdin=source, stdout=sink)
    memory, ended = 0, 0
    while not ended:
        memory = max(memory, most_memory(process))
        time.sleep(0.001)
        ended, status, usage = os.wait4(process.pid, os.WNOHANG)
    process.returncode = os.waitstatus_to_exitcode(status)
    return usage.ru_utime + usage.ru_stime, memory, os.path.getsize(outputs), process.returncode


def exponent(now, before, grown):
    return "%.2f" % (math.log(now / before) / math.log(grown)) if before else ""


def measure(program, name, room):
    make, counts = PARTS[name]
    last = None
    for count in counts:
        words, text, facts = make(count)
        if facts is not None:
            path = os.path.join(room, "facts.json")
            with open(path, "w") as file:
                json.dump(facts, file)
            words = ["--facts", path, *words]
        size = sum(len(word) for word in words) + (os.path.getsize(path) if facts is not None else len(text))
        spent, memory, written, status = run(program, words, text, room)
        grown = count / last[0] if last and last[0] else 0
        print("%-10s %7d %10d %10d %9.1f %6s %8.1f %6s %3d" % (
            name, count, size, written, 1000 * spent, exponent(spent, last[1], grown) if grown else "", memory / 1e6,
            exponent(memory, last[2], grown) if grown else "", status), flush=True)
        last = count, spent, memory


def main():
    options = argparse.ArgumentParser()
    options.add_argument("--program")
    options.add_argument("--part", choices=PARTS)
    chosen = options.parse_args()
    program = chosen.program or build()
    print("%-10s %7s %10s %10s %9s %6s %8s %6s %3s" % ("", "", "bytes", "written", "ms", "", "MB", "", ""))
    with tempfile.TemporaryDirectory() as room:
        for name in [chosen.part] if chosen.part else PARTS:
            measure(program, name, room)


if __name__ == "__main__":
    main()
