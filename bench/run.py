#!/usr/bin/env python3
"""Times the program `ssr` on texts of its grammar.

    bench/run.py [--max BYTES] [--program FILE] [--beside FILE]

Builds the program by `rt run` (unless it is given), makes texts of 10 KB up to 10 MB, and prints for each the processor
time (user and system, of the whole process), MB/s, the peak of memory for each byte of the text, and the growth: the
exponent of the time between this size and the one before, 1.0 being linear.

With `--beside` another program, as one built of an earlier state, runs in turn with it on the largest text of each kind,
and the lines show what each of both does: the other one's MB/s and memory first, and how many times as fast this one is.

How far the program goes is chosen by the text and the rule:

    lex      a text whose last byte begins no token: refused when all tokens before it are read
    parse    a rule text without a delimiter, refused once the file was parsed
    search   a rule that matches nothing: everything but rendering
    rewrite  a rule that matches

An empty text and one function with a chain of 400 terms are timed alone, before the others.

Needs python 3 and the command rt, nothing else. It is no test: nothing here fails on a slow machine.
"""
import argparse
import math
import os
import subprocess
import sys
import tempfile
import time

ROOT = os.path.dirname(os.path.dirname(os.path.abspath(__file__)))
SWAP = "$a + $b ==>> $b + $a"
NOTHING = "$a % 123456789 ==>> $a"
NO_RULE = "no rule"


def function(body, number):
    return "fn f%d() {%s}\n" % (number, body(number))


def functions(body, size):
    """Functions with this body, up to about `size` bytes."""
    parts = []
    total = 0
    while total < size:
        part = function(body, len(parts))
        parts.append(part)
        total += len(part)
    return "".join(parts)


def small(number):
    return "\n    a%d * (b + %d) - c / 0x%x\n" % (number, number, number)


def dense(number):
    return "a + %d" % number


def nested(number):
    return "(" * 500 + "x + %d" % number + ")" * 500


def chain(length):
    return lambda number: " + ".join("t%d" % n for n in range(length))


def product(number):
    return " * ".join("t%d" % n for n in range(1000))


CASES = [
    # name, body of the functions, what to put at the end, rule, the status that is wanted
    ("lex      small functions", small, "'", SWAP, 1),
    ("parse    small functions", small, "", NO_RULE, 1),
    ("search   small functions", small, "", NOTHING, 0),
    ("rewrite  small functions", small, "", SWAP, 0),
    ("rewrite  a match in each", dense, "", SWAP, 0),
    ("parse    500 parentheses", nested, "", NO_RULE, 1),
    ("search   500 parentheses", nested, "", NOTHING, 0),
    ("rewrite  500 parentheses", nested, "", SWAP, 0),
    ("search   chains of 1,000", product, "", NOTHING, 0),
    ("rewrite  chains of 10", chain(10), "", SWAP, 0),
    ("rewrite  chains of 100", chain(100), "", SWAP, 0),
]

ALONE = [
    # name, text, rule
    ("an empty text", "", NOTHING),
    ("one chain of 400 terms, rewritten", function(chain(400), 0), SWAP),
]


def build():
    folder = os.path.join(ROOT, "crates", "ssr")
    subprocess.run(["rt", "run", "--", NOTHING], cwd=folder, stdin=subprocess.DEVNULL, check=True, stdout=sys.stderr)
    return os.path.join(folder, "out", "ssr")


def start(words, text):
    """The running command, reading the text and writing to a file that is thrown away."""
    given = tempfile.TemporaryFile()
    given.write(text)
    given.seek(0)
    with given, tempfile.TemporaryFile() as taken:
        return subprocess.Popen(words, stdin=given, stdout=taken)


def run_seconds(program, rule, text, wanted):
    """The processor time of one run."""
    process = start([program, rule], text)
    _, status, usage = os.wait4(process.pid, 0)
    process.returncode = os.waitstatus_to_exitcode(status)
    if process.returncode != wanted:
        sys.exit("status %d in place of %d" % (process.returncode, wanted))
    return max(usage.ru_utime + usage.ru_stime, 1e-6)


def runs(text):
    """How many runs are timed: more where they are short."""
    return 20 if len(text) < 200_000 else 5 if len(text) < 2_000_000 else 3


def seconds(program, rule, text, wanted):
    """The least processor time of some runs."""
    return min(run_seconds(program, rule, text, wanted) for _ in range(runs(text)))


def seconds_of_both(programs, rule, text, wanted):
    """The least processor time of some runs of each, one after the other."""
    times = [[run_seconds(program, rule, text, wanted) for program in programs] for _ in range(2 * runs(text))]
    return [min(column) for column in zip(*times)]


def peak(words, text):
    return peak_of(start(words, text))


def peak_of(process):
    """The most memory that was in use, in bytes, as far as a look at each millisecond saw it."""
    most = 0
    while process.poll() is None:
        try:
            with open("/proc/%d/status" % process.pid) as status:
                for line in status:
                    if line.startswith("VmHWM:"):
                        most = max(most, int(line.split()[1]) * 1024)
        except OSError:
            pass
        time.sleep(0.001)
    return most


def memory_for_a_byte(program, rule, text):
    return peak([program, rule], text) / len(text)


def compare(programs, most):
    """Both programs on the largest text of each kind."""
    print("%-26s %10s %17s %7s %25s" % ("", "bytes", "MB/s", "times", "memory/byte"))
    for name, body, end, rule, wanted in CASES:
        text = (functions(body, most) + end).encode()
        other, this = seconds_of_both(programs, rule, text, wanted)
        size = len(text) / 1e6
        memory = tuple(memory_for_a_byte(program, rule, text) for program in programs)
        print("%-26s %10d %8.1f %8.1f %7.2f %12.1f %12.1f" % (
            name, len(text), size / other, size / this, other / this, *memory), flush=True)


def table(program, most):
    """The program on texts of each kind and size."""
    for name, text, rule in ALONE:
        print("%s: %.1f ms" % (name, 1000 * seconds(program, rule, text.encode(), 0)))
    print("%-26s %10s %10s %8s %12s %7s" % ("", "bytes", "ms", "MB/s", "memory/byte", "growth"))
    for name, body, end, rule, wanted in CASES:
        before = None
        for size in (10_000, 100_000, 1_000_000, 10_000_000):
            if size > most:
                break
            text = (functions(body, size) + end).encode()
            spent = seconds(program, rule, text, wanted)
            memory = "%.1f" % memory_for_a_byte(program, rule, text) if size >= 1_000_000 else ""
            growth = ""
            if before and spent > 0.005:
                growth = "%.2f" % (math.log(spent / before[1]) / math.log(len(text) / before[0]))
            print("%-26s %10d %10.1f %8.1f %12s %7s" % (
                name, len(text), 1000 * spent, len(text) / 1e6 / spent, memory, growth), flush=True)
            before = (len(text), spent)


def main():
    options = argparse.ArgumentParser()
    options.add_argument("--max", type=int, default=10_000_000)
    options.add_argument("--program")
    options.add_argument("--beside")
    options = options.parse_args()
    program = options.program or build()
    if options.beside:
        compare((options.beside, program), options.max)
    else:
        table(program, options.max)


if __name__ == "__main__":
    main()
