#!/usr/bin/env python3
"""Times the reading of rules by the program `ssr`.

    bench/rules.py [--program FILE]

Builds the program by `rt run` (unless it is given), and runs it on an empty text with one long rule: a pattern of many
calls, about as dense as code is, one of many numbers, where two bytes of three are tokens, and one of many placeholders,
each of which its template names again. Printed are the rule's length, the least processor time of five runs less that of a
run with a short rule, and the growth: the exponent of the time between this length and the one before, 1.0 being linear. A
word of a command has at most 128 KB, and so has the longest rule. Then come many short rules in one run.

Needs python 3 and the command rt. It is no test: nothing here fails on a slow machine.
"""
import argparse
import math
import resource
import subprocess

from run import build

SIZES = [1_000, 10_000, 100_000]
COUNTS = [10, 100, 1000]


def calls(size):
    lines = ['    $a%04d.record("entry %04d", %d);\n' % (number, number, number) for number in range(size // 36)]
    return "{\n%s} ==>> $a0000" % "".join(lines)


def numbers(size):
    return "[" + ", ".join(["1"] * (size // 3)) + "] ==>> 2"


def placeholders(size):
    names = ", ".join("$a%04d" % number for number in range(size // 16))
    return "[%s] ==>> [%s]" % (names, names)


def spent(program, rules):
    """The least processor time of five runs, in seconds."""
    times = []
    for _ in range(5):
        before = resource.getrusage(resource.RUSAGE_CHILDREN)
        subprocess.run([program, *rules], stdin=subprocess.DEVNULL, stdout=subprocess.DEVNULL, check=True)
        after = resource.getrusage(resource.RUSAGE_CHILDREN)
        times.append(after.ru_utime + after.ru_stime - before.ru_utime - before.ru_stime)
    return min(times)


def main():
    options = argparse.ArgumentParser()
    options.add_argument("--program")
    program = options.parse_args().program or build()
    nothing = spent(program, ["1 ==>> 2"])
    print("%-14s %8s %8s %7s" % ("", "bytes", "ms", "growth"))
    for name, rule in (("calls", calls), ("numbers", numbers), ("placeholders", placeholders)):
        last = None
        for size in SIZES:
            text = rule(size)
            time = max(spent(program, [text]) - nothing, 1e-5)
            growth = math.log(time / last[1]) / math.log(len(text) / last[0]) if last else 0
            print("%-14s %8d %8.2f %7s" % (name, len(text), 1000 * time, "%.2f" % growth if last else ""), flush=True)
            last = len(text), time
    for count in COUNTS:
        rules = ["[%d, $a] ==>> [$a]" % number for number in range(count)]
        print("%-14s %8d %8.2f" % ("rules", count, 1000 * (spent(program, rules) - nothing)), flush=True)


if __name__ == "__main__":
    main()
