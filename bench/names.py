#!/usr/bin/env python3
"""Times rules that ask what names mean, on real code of some sizes and on macro calls that are expanded.

    bench/names.py [--megabytes N ..] [--expansions N] [--repeat N] [--program FILE] [--keep FOLDER] [PACKAGE ..]

Fetches and unpacks packages as `lex_debian.py` does, builds the program of `crates/ssr_scenarios` by `rt run` (unless it is
given), and takes the first files that lie inside of the language until they have so many megabytes, 1 and 10 if not said.
Of these a facts file is made that tells for each path and method call of theirs a definition by its text, and it is searched:
with a rule that names no path and matches nothing; with a record, a qualified call and a macro call, each alone, and with all
three; and with the same rules where placeholders stand in the place of their paths, so that they match whatever is spelled
there. Each rule with paths is searched where usages lead and by a scan of all nodes, and rewritten. Then comes a facts file of one text with many macro calls, 1,000 if not said, each with its expansion, that is searched
with a rule that matches in each of them.

Printed are the processor time of searching alone, as the program tells it, the least of some runs, MB/s, how many matches
there are, and how many times as long it takes as the rule that matches nothing, and as the same rule without paths; for a
scan how many times as long as where usages lead; for rewriting, as rewriting by a rule that is led to nothing, and below
that how many times as long rewriting takes with paths as without.

Needs python 3, the commands rt, apt-get and dpkg, and a list of packages (`apt-get update`). It is no test: nothing here
fails on a slow machine.
"""
import argparse
import json
import os
import re
import subprocess
import tempfile

from lex_debian import PACKAGES, fetch, lines_of, unpack
from run import NOTHING
from workspace import build, modules

FACTS = re.compile(r"\d+ files, \d+ bytes of facts\nread in \d+ ns\n(\d+) matches, searched in (\d+) ns\n")

# what rules can name: two types, a method of the second one, and a macro
NAMED = ["Range", "Vec", "Vec::push", "assert_eq"]

RECORD = "Range {start: $a, end: $b} ==>> Range {start: $b, end: $a}"
CALL = "Vec::push($v, $x) ==>> Vec::push($v, ($x))"
MACRO = "assert_eq!($a, $b) ==>> assert_eq!($b, $a)"
OPEN_RECORD = "$r {start: $a, end: $b} ==>> $r {start: $b, end: $a}"
OPEN_CALL = "$f($v, $x) ==>> $f($v, ($x))"
OPEN_MACRO = "$m!($a, $b) ==>> $m!($b, $a)"
# rules with paths, and the same with placeholders in their place
LED = [
    ("record", [RECORD], [OPEN_RECORD]),
    ("qualified call", [CALL], [OPEN_CALL]),
    ("macro call", [MACRO], [OPEN_MACRO]),
    ("a path alone", ["Vec ==>> Range"], []),
]
# what has the usages of a method, none of which leads to a match
LED_TO_NOTHING = ["Vec::push($v, 123456789) ==>> $v"]
RULES = [
    ("record", [RECORD], [OPEN_RECORD]),
    ("qualified call", [CALL], [OPEN_CALL]),
    ("macro call", [MACRO], [OPEN_MACRO]),
    ("all three", [RECORD, CALL, MACRO], [OPEN_RECORD, OPEN_CALL, OPEN_MACRO]),
]


def searched(program, facts, rules):
    """How many matches there are in a facts file, and what processor time searching took, in nanoseconds."""
    run = subprocess.run([program, "--facts", facts, *rules], stdout=subprocess.PIPE, check=True)
    return [int(number) for number in FACTS.fullmatch(run.stdout.decode()).groups()]


def some_files(paths, size):
    """The first of the files, until they have so many bytes."""
    taken = []
    for path in paths:
        if size <= 0:
            break
        taken.append(path)
        size -= os.path.getsize(path)
    return taken


def rows(program, paths, texts):
    """The rows of facts that files ask for, by the kinds of nodes."""
    told = {"paths": [], "types": [], "methods": []}
    for line in lines_of([program, "--asked"], paths):
        kind, file, start, end, *method = line.split(" ")
        place = [int(file), int(start), int(end)]
        if kind == "PATH":
            told["paths"].append([*place, ["def", number_of(texts[place[0]][place[1] : place[2]].decode())]])
        elif kind == "PATH_EXPR":
            told["types"].append([*place, [NAMED.index("Vec")]])
        else:
            told["methods"].append([*place, number_of("Vec::" + method[0]), "mut"])
    return told


def number_of(name):
    """The definition of that name, or the one that all other paths and methods stand for."""
    return NAMED.index(name) if name in NAMED else len(NAMED)


def facts(program, paths, texts):
    """Facts of the files, which have these texts."""
    method = {"kind": "function", "assoc": True, "self": True}
    return {
        "files": [{"name": path, "text": text.decode()} for path, text in zip(paths, texts)],
        "defs": [{"kind": "adt", "type": 0}, {"kind": "adt", "type": 1}, method, {"kind": "macro"}, {"kind": "function"}],
        "scopes": [[number, 0, len(text)] for number, text in enumerate(texts)],
        "names": [[0, name.split("::"), ["def", number]] for number, name in enumerate(NAMED)],
        "printed": [[scope, number, name] for scope in range(len(texts)) for number, name in enumerate(NAMED)],
        **rows(program, paths, texts),
    }


def text_of(path):
    """The bytes of a file."""
    with open(path, "rb") as file:
        return file.read()


def written(facts, folder):
    """The path of a file with these facts."""
    path = os.path.join(folder, "facts.json")
    with open(path, "w") as file:
        json.dump(facts, file)
    return path


def time_one(program, path, repeat, rules):
    """The matches and the least time of some searches."""
    runs = [searched(program, path, rules) for _ in range(repeat)]
    return runs[0][0], min(time for _, time in runs)


def told(name, size, matches, time, *times):
    """A line of the table."""
    print("%-31s %10d %8d %10.2f %8.1f" % (name, size, matches, time / 1e6, 1000 * size / time), *["%9.2f" % it for it in times], flush=True)


def time_rules(program, path, size, repeat):
    """Lines for each of the rules on these facts."""
    matches, nothing = time_one(program, path, repeat, [NOTHING])
    told("nothing matches", size, matches, nothing)
    for name, rules, others in RULES:
        matches, alone = time_one(program, path, repeat, others)
        told(name + ", no path", size, matches, alone, alone / nothing)
        matches, time = time_one(program, path, repeat, rules)
        told(name, size, matches, time, time / nothing, time / alone)


def time_led(program, path, size, repeat):
    """Lines for rules that are searched where usages lead, by a scan, and rewritten."""
    matches, nothing = time_one(program, path, repeat, ["--edits", *LED_TO_NOTHING])
    told("edits, led to nothing", size, matches, nothing)
    for name, rules, others in LED:
        matches, led = time_one(program, path, repeat, rules)
        told(name + ", led", size, matches, led)
        matches, scanned = time_one(program, path, repeat, ["--scan", *rules])
        told(name + ", scanned", size, matches, scanned, scanned / led)
        files, edited = time_one(program, path, repeat, ["--edits", *rules])
        told(name + ", edits", size, files, edited, edited / nothing)
        if others:
            files, open_edited = time_one(program, path, repeat, ["--edits", *others])
            told(name + ", edits, no path", size, files, open_edited, edited / open_edited)


def expanded(count):
    """Facts of a text with so many macro calls, each of which stands for its arguments."""
    call, last = "m!(1 + x * y);", " }"
    text = "fn f() { "
    expansions = []
    for _ in range(count):
        start = len(text)
        text += call
        tokens = [(piece, start + call.index(piece)) for piece in ("1", "+", "x", "*", "y")]
        expansions.append({
            "call": [0, start, start + len(call) - 1],
            "kind": "expr",
            "tokens": [[piece, False, at, at + 1] for piece, at in tokens],
        })
    text += last
    return {"files": [{"name": "a.rs", "text": text}], "expansions": expansions, "scopes": [[0, 0, len(text)]]
            + [[1 + number, 0, 5] for number in range(count)]}


def time_expansions(program, count, folder, repeat):
    """Lines for a rule that matches nothing and for one that matches in each expansion."""
    path = written(expanded(count), folder)
    alone = None
    for name, rule in (("no match", NOTHING), ("a sum in each", "$a + $b ==>> $b + $a")):
        matches, time = time_one(program, path, repeat, [rule])
        alone = alone or time
        print("%-16s %10d %8d %10.2f %8s %7.2f" % (name, count, matches, time / 1e6, "", time / alone), flush=True)


def main():
    options = argparse.ArgumentParser()
    options.add_argument("--megabytes", type=float, nargs="+", default=[1, 10])
    options.add_argument("--expansions", type=int, default=1000)
    options.add_argument("--repeat", type=int, default=5)
    options.add_argument("--program")
    options.add_argument("--keep")
    options.add_argument("packages", nargs="*", default=PACKAGES)
    options = options.parse_args()
    with tempfile.TemporaryDirectory() as folder:
        program = options.program or build("ssr_scenarios")
        packages = options.keep or os.path.join(folder, "packages")
        fetch(packages, options.packages)
        files = unpack(packages, options.packages, os.path.join(folder, "source"))
        paths = modules(program, files, folder)
        print("%-31s %10s %8s %10s %8s %9s %9s" % ("rules", "bytes", "matches", "search ms", "MB/s", "nothing", "no path"))
        for megabytes in options.megabytes:
            taken = some_files(paths, 1e6 * megabytes)
            texts = [text_of(path) for path in taken]
            path = written(facts(program, taken, texts), folder)
            time_rules(program, path, sum(len(text) for text in texts), options.repeat)
            time_led(program, path, sum(len(text) for text in texts), options.repeat)
        print("%-16s %10s %8s %10s %8s %7s" % ("rule", "expansions", "matches", "search ms", "", "times"))
        time_expansions(program, options.expansions, folder, options.repeat)


if __name__ == "__main__":
    main()
