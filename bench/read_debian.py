#!/usr/bin/env python3
"""Reads the Rust of Debian's packages: how many files lie inside of the language, and what the others have that it lacks.

    bench/read_debian.py [--program FILE] [--keep FOLDER] [--list] [PACKAGE ..]

Fetches and unpacks packages as `lex_debian.py` does, builds the program `ssr` by `rt run` (unless it is given), and runs
it on each `.rs` file with a rule that matches nothing. A file that is read comes out as it went in, byte for byte. Of a
file that is refused, the first thing is told that the language leaves out, which is looked for by patterns in the text
without its comments and strings: a hint, no proof. `--list` names the files for which none is found.

Ends with status 1 if a file comes out changed.

Needs python 3, the commands rt, apt-get and dpkg, and a list of packages (`apt-get update`).
"""
import argparse
import collections
import os
import re
import subprocess
import sys
import tempfile

from lex_debian import PACKAGES, ROOT, fetch, unpack

NOTHING = "$a % 123456789 ==>> $a"
SOLID = re.compile(
    r"//[^\n]*|/\*.*?\*/|b?r(#*)\".*?\"\1|b?\"(?:\\.|[^\"\\])*\"|b?'(?:\\.[^']*|[^\\'\n])'", re.S)
ATTRIBUTE = r"#\[(?:[^\[\]]|\[[^\[\]]*\])*\]\s*"
LEFT_OUT = [(name, re.compile(pattern)) for name, pattern in [
    ("async, await", r"\basync\b|\bawait\b"),
    ("extern", r"\bextern\b"),
    ("union", r"\bunion\s+\w+\s*[<{]"),
    ("for<..>", r"\bfor\s*<"),
    ("type of functions", r"[^\w]fn\s*\("),
    ("attribute of a block or a module", r"[{}]\s*#!\["),
    ("attribute of a statement or an expression",
     ATTRIBUTE + r"(?:let|if|match|for|while|loop|return|unsafe\s*\{|\{|\(|\w+\s*=[^>]|\w+\s*\.|\w+[\w:]*\(|\w+\s*\+=|\w+!|\*|\.\.)"),
    ("attribute of a parameter or a field of a record", r"[(,<|]\s*" + ATTRIBUTE + r"(?:&|mut\b|self\b|'|const\b|\w+\s*[,>:}])"),
    ("default, auto", r"\b(?:default|auto)\s+(?:fn|impl|unsafe|trait|const|type|async)\b"),
    ("const block", r"\bconst\s*\{"),
    ("bound in parentheses", r"\b(?:dyn|impl)\s*\(|\+\s*\(|\?\s*\("),
    ("macro call as a type or a pattern", r"(?:->|<)\s*[\w:]+!\s*[\[({]|\btype\s[^;]*=\s*[\w:]+!|\w!\s*\[[^\]]*\]\s*>"),
    ("a lone semicolon", r";\s*;|\}\s*;\s*fn\b"),
    ("...", r"\.\.\."),
    ("macro", r"\bmacro\s+\w"),
    ("yield, box, try", r"\b(?:yield|box|try)\b"),
    ("trait alias", r"\btrait\s+\w+\s*="),
    ("_ as an expression", r"[;{]\s*_\s*="),
    ("closure, return or break behind an operator", r"[(=,]\s*&\s*(?:mut\s+)?(?:move\s*)?\||(?:&&|\|\|)\s*(?:return|break)\b"),
]]


def build():
    """The program, built where it stands."""
    folder = os.path.join(ROOT, "crates", "ssr")
    subprocess.run(["rt", "run", "--", NOTHING], cwd=folder, stdin=subprocess.DEVNULL, check=True, stdout=sys.stderr)
    return os.path.join(folder, "out", "ssr")


def reason(text):
    """The first thing in the text that the language leaves out."""
    code = SOLID.sub(lambda match: " " * (match.end() - match.start()), text)
    found = [(match.start(), name) for name, pattern in LEFT_OUT for match in [pattern.search(code)] if match]
    return min(found)[1] if found else None


def main():
    options = argparse.ArgumentParser()
    options.add_argument("--program")
    options.add_argument("--keep")
    options.add_argument("--list", action="store_true")
    options.add_argument("packages", nargs="*", default=PACKAGES)
    options = options.parse_args()
    counts = collections.Counter()
    unknown = []
    with tempfile.TemporaryDirectory() as folder:
        program = options.program or build()
        packages = options.keep or os.path.join(folder, "packages")
        fetch(packages, options.packages)
        source = os.path.join(folder, "source")
        for path in unpack(packages, options.packages, source):
            with open(path, "rb") as file:
                given = file.read()
            run = subprocess.run([program, NOTHING], input=given, stdout=subprocess.PIPE)
            if run.returncode == 0:
                counts["read" if run.stdout == given else "changed"] += 1
                continue
            words = run.stdout.decode().strip().removeprefix("error: standard input: ")
            name = reason(given.decode(errors="replace")) if words == "not a file of this grammar" else words
            counts[name or "no reason found"] += 1
            if name is None:
                unknown.append(os.path.relpath(path, source))
    total = sum(counts.values())
    for name, count in counts.most_common():
        print("%7d  %5.1f %%  %s" % (count, 100 * count / max(total, 1), name))
    if options.list:
        for path in unknown:
            print(path)
    return 1 if counts["changed"] else 0


if __name__ == "__main__":
    sys.exit(main())
