#!/usr/bin/env python3
"""Times `ssr` beside a rewriter over the crate `syn`, on the same real code, and draws what comes out.

    bench/beside_syn.py [--program FILE] [--keep FOLDER] [--svg FILE] [--quick]

Fetches and unpacks Debian's packages as `lex_debian.py` does, `syn` and what it stands on among them. Builds the program
`ssr` by `rt run` (unless it is given), and by cargo, without the network, the rewriter `syn_peer.rs`, which does by hand
what two rules say. Of the packages' files those are taken that both programs read.

Each text is given to both in turn, on standard input, and the least processor time of some runs of the whole process
counts, with the peak of memory. Texts of real code are modules of one file; besides, each file is given by itself, and
the times are added. It is told of how many files both write the same.

With `--svg` the table is drawn into a file as well (`docs/speed.svg`). `--quick` takes a few files, to try the script.

Needs python 3, the commands rt, apt-get, dpkg and cargo, and a list of packages (`apt-get update`). It is no test:
nothing here fails on a slow machine.
"""
import argparse
import datetime
import html
import os
import subprocess
import sys
import tempfile

from lex_debian import PACKAGES, ROOT, fetch, unpack
from run import NO_RULE, SWAP, build, chain, functions, memory_for_a_byte, run_seconds, small

PEER = ["librust-%s-dev" % name for name in ("syn", "quote", "proc-macro2", "unicode-ident")]
UNWRAP = '$a.unwrap() ==>> $a.expect("here")'
# what is done: its name, the rule, the status of `ssr`, and the word of the rewriter
PARSE = ("read", NO_RULE, 1, "parse")
UNWRAPS = ("$a.unwrap()", UNWRAP, 0, "unwrap")
SWAPS = ("$a + $b", SWAP, 0, "swap")
CARGO = """\
[package]
name = "syn_peer"
version = "0.0.0"
edition = "2021"

[[bin]]
name = "syn_peer"
path = "%s"

[dependencies]
syn = { version = "1", features = ["full", "visit"] }
proc-macro2 = { version = "1", features = ["span-locations"] }
"""
SOURCES = """\
[source.crates-io]
replace-with = "debian"
[source.debian]
directory = "%s"
"""


def write(path, text):
    os.makedirs(os.path.dirname(path), exist_ok=True)
    with open(path, "w") as file:
        file.write(text)


def build_peer(folder, source):
    """The rewriter over `syn`, built of Debian's sources."""
    write(os.path.join(folder, "Cargo.toml"), CARGO % os.path.join(ROOT, "bench", "syn_peer.rs"))
    write(os.path.join(folder, ".cargo", "config.toml"), SOURCES % os.path.join(source, "usr/share/cargo/registry"))
    subprocess.run(["cargo", "build", "--release", "--offline"], cwd=folder, check=True, stdout=sys.stderr)
    return os.path.join(folder, "target", "release", "syn_peer")


def output(program, word, text):
    run = subprocess.run([program, word], input=text, stdout=subprocess.PIPE, stderr=subprocess.DEVNULL)
    return run.returncode, run.stdout


def read_by_both(programs, paths):
    """The texts of the files that both programs read."""
    texts = []
    for path in paths:
        with open(path, "rb") as file:
            text = file.read()
        if output(programs[0], UNWRAP, text)[0] == 0 and output(programs[1], "parse", text)[0] == 0:
            texts.append(text)
    return texts


def modules(texts, most):
    """Files as modules of one file, up to about as many bytes. What has attributes of a whole file can't be a module."""
    parts = []
    total = 0
    for number, text in enumerate(texts):
        if total < most and b"#![" not in text:
            parts.append(b"mod m%d {\n%s\n}\n" % (number, text))
            total += len(parts[-1])
    return b"".join(parts)


def times_of(programs, work, text, runs):
    """The least seconds of each program on a text, of so many runs in turn."""
    _, rule, status, word = work
    ours, peer = programs
    times = [(run_seconds(ours, rule, text, status), run_seconds(peer, word, text, 0)) for _ in range(runs)]
    return [min(column) for column in zip(*times)]


class Row:
    """What both programs take for a text, or for many."""

    def __init__(self, name, size, times, memory):
        self.name = name
        self.size = size
        self.times = times
        self.memory = memory

    def speeds(self):
        return [self.size / 1e6 / seconds for seconds in self.times]

    def __str__(self):
        ours, peer = self.speeds()
        memory = "%12.1f %12.1f" % tuple(self.memory) if self.memory else ""
        return "%-44s %9d %8.2f %8.2f %7.2f %s" % (self.name, self.size, ours, peer, self.times[1] / self.times[0], memory)


def one_text(programs, name, work, text):
    runs = 20 if len(text) < 200_000 else 10 if len(text) < 2_000_000 else 6
    times = times_of(programs, work, text, runs)
    memory = [memory_for_a_byte(programs[0], work[1], text), memory_for_a_byte(programs[1], work[3], text)]
    return Row(name, len(text), times, memory)


def file_by_file(programs, name, work, texts):
    """The times of all files, each of them the least of three."""
    times = [times_of(programs, work, text, 3) for text in texts]
    return Row(name, sum(map(len, texts)), [sum(column) for column in zip(*times)], None)


def rows_of(programs, texts):
    """The rows of the table, one by one."""
    real = modules(texts, 1_000_000)
    large = modules(texts, 1 << 32)
    yield one_text(programs, "real code, read", PARSE, real)
    yield one_text(programs, "real code, $a.unwrap()", UNWRAPS, real)
    yield one_text(programs, "real code, $a + $b turned around", SWAPS, real)
    yield one_text(programs, "all of it as one file, read", PARSE, large)
    yield one_text(programs, "all of it as one file, $a.unwrap()", UNWRAPS, large)
    yield file_by_file(programs, "file by file, $a.unwrap()", UNWRAPS, texts)
    yield one_text(programs, "small functions, a sum in each turned around", SWAPS, functions(small, 1_000_000).encode())
    for length in (10, 100, 400):
        text = functions(chain(length), 300_000).encode()
        yield one_text(programs, "sums of %d terms turned around" % length, SWAPS, text)


def alike(programs, work, texts):
    """How many texts both write the same for, and how many they change."""
    _, rule, _, word = work
    pairs = [(text, output(programs[0], rule, text)[1], output(programs[1], word, text)[1]) for text in texts]
    return sum(a == b for _, a, b in pairs), sum(a != text for text, a, _ in pairs)


STYLE = """\
text { font: 13px system-ui, sans-serif; fill: #24292f } .small { font-size: 11px; fill: #57606a }
.ours { fill: #1f6feb } .peer { fill: #b0b7c0 }
@media (prefers-color-scheme: dark) { text { fill: #e6edf3 } .small { fill: #9198a1 } .ours { fill: #4493f8 } .peer { fill: #6e7681 } }
"""
LEFT = 310
WIDE = 300
STEP = 42
RIGHT = LEFT + WIDE + 100


def bar(kind, y, speed, most):
    """A bar with its speed, as long as its part of the faster one of both."""
    width = max(1, round(WIDE * speed / most))
    return '<rect class="%s" x="%d" y="%d" width="%d" height="14"/><text class="small" x="%d" y="%d">%.3g MB/s</text>\n' % (
        kind, LEFT, y, width, LEFT + width + 6, y + 11, speed)


def pair(number, row):
    """The two bars of a row, to a scale of their own, and how many times as fast `ssr` is."""
    y = 46 + STEP * number
    ours, peer = row.speeds()
    return (
        '<text x="%d" y="%d" text-anchor="end">%s</text>\n' % (LEFT - 10, y + 20, html.escape(row.name))
        + bar("ours", y, ours, max(ours, peer)) + bar("peer", y + 16, peer, max(ours, peer))
        + '<text x="%d" y="%d">%.2g</text>\n' % (RIGHT, y + 20, ours / peer))


def drawing(rows, day):
    """The speeds of both programs, a pair of bars for each row."""
    high = 46 + STEP * len(rows)
    wide = RIGHT + 110
    return (
        '<svg xmlns="http://www.w3.org/2000/svg" viewBox="0 0 %d %d" width="%d" height="%d" role="img">\n' % (wide, high, wide, high)
        + "<title>ssr beside a rewriter over syn: MB/s of processor time</title>\n<style>%s</style>\n" % STYLE
        + '<text class="small" x="%d" y="24" text-anchor="end">%s, each pair to its own scale</text>\n' % (LEFT - 10, day)
        + '<rect class="ours" x="%d" y="12" width="14" height="14"/><text x="%d" y="24">ssr</text>\n' % (LEFT, LEFT + 20)
        + '<rect class="peer" x="%d" y="12" width="14" height="14"/><text x="%d" y="24">a rewriter over syn</text>\n' % (LEFT + 60, LEFT + 80)
        + '<text class="small" x="%d" y="24">times as fast</text>\n' % RIGHT
        + "".join(pair(number, row) for number, row in enumerate(rows)) + "</svg>\n")


def main():
    options = argparse.ArgumentParser()
    options.add_argument("--program")
    options.add_argument("--keep")
    options.add_argument("--svg")
    options.add_argument("--quick", action="store_true")
    options = options.parse_args()
    with tempfile.TemporaryDirectory() as folder:
        packages = options.keep or os.path.join(folder, "packages")
        fetch(packages, PACKAGES + PEER)
        source = os.path.join(folder, "source")
        paths = unpack(packages, PACKAGES, source)
        unpack(packages, PEER, os.path.join(folder, "peer_source"))
        peer = build_peer(os.path.join(folder, "peer"), os.path.join(folder, "peer_source"))
        programs = (options.program or build(), peer)
        texts = read_by_both(programs, paths[::50] if options.quick else paths)
        print("%d of %d files are read by both" % (len(texts), len(paths)))
        for work in (UNWRAPS, SWAPS):
            print("%s: both write the same for %d files, and %d are changed" % (work[0], *alike(programs, work, texts)))
        for name, program, word in (("ssr", programs[0], UNWRAP), ("syn_peer", programs[1], "unwrap")):
            print("%s, an empty text: %.1f ms" % (name, 1000 * min(run_seconds(program, word, b"", 0) for _ in range(20))))
        print("%-44s %9s %17s %7s %25s" % ("", "bytes", "MB/s, ssr and syn", "times", "memory/byte, ssr and syn"))
        rows = []
        for row in rows_of(programs, texts):
            print(row, flush=True)
            rows.append(row)
    if options.svg:
        write(os.path.abspath(options.svg), drawing(rows, datetime.date.today().isoformat()))


if __name__ == "__main__":
    main()
