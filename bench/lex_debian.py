#!/usr/bin/env python3
"""Lexes the Rust of Debian's packages: is every file read, how fast, and which are the slowest.

    bench/lex_debian.py [--repeat N] [--program FILE] [--keep FOLDER] [PACKAGE ..]

Fetches packages of Rust source by name (`apt-get download`, into a temporary folder, or into FOLDER, where they stay for
the next run), unpacks them (`dpkg -x`), builds a small program over the crate `ssr_syntax_lex` (by `rt run`, on a copy,
unless one is given) and has it lex each `.rs` file. For each file the program tells bytes, tokens and time, after a look
at whether the tokens lie side by side and cover the file; the time is that of `lex` alone, the least of N runs.

A file with a lexer fault is counted and listed: right is that only where it is no Rust of the language that is read.
Ends with status 1 if tokens do not cover a file.

Needs python 3, the commands rt, apt-get and dpkg, and a list of packages (`apt-get update`). It is no test of speed:
nothing here fails on a slow machine.
"""
import argparse
import os
import shutil
import subprocess
import sys
import tempfile

ROOT = os.path.dirname(os.path.dirname(os.path.abspath(__file__)))
PACKAGES = [
    "librust-%s-dev" % name
    for name in ("syn", "libc", "rustix", "tokio", "bindgen", "clap", "nix", "chrono", "winapi", "gtk", "image",
                 "futures-util", "regex-syntax")
]
CRATES = "ssr_syntax_kinds:\nssr_syntax_lex: ssr_syntax_kinds unicode_ident\nlex_files: ssr_syntax_kinds ssr_syntax_lex\n"
PROGRAM = """\
//! Lexes files that standard input names, one a line, and writes a line for each: how many bytes, tokens and nanoseconds,
//! or what is wrong with it.
#![tactic(auto)]

use ssr_syntax_lex::{RawToken, lex};
use std::time::Instant;
use std::{fs, io};

fn main(rt: HostRuntime) -> io::Result<()> {
    for path in rt.lines(rt.alloc()) {
        report(&rt, path?.as_str())?;
    }
    Ok(())
}

fn report(rt: &HostRuntime, path: &str) -> io::Result<()> {
    let Ok(text) = fs::read_to_string(rt, path) else {
        return println!(rt; "unreadable");
    };
    let start = Instant::now(rt)?;
    let tokens = lex(rt.alloc(), text.as_str());
    let spent = start.elapsed(rt)?.as_nanos();
    match tokens {
        Err(error) => println!(rt; "{error}"),
        Ok(tokens) if !cover(tokens.as_slice(), text.len()) => println!(rt; "gap"),
        Ok(tokens) => println!(rt; "{} {} {spent}", text.len(), tokens.len()),
    }
}

/// Whether the tokens lie side by side from 0 to `end`, each with a byte of its own.
fn cover(tokens: &[RawToken], end: usize) -> bool {
    let mut place = 0u32;
    for token in tokens {
        if token.range.start != place || token.range.end <= place {
            return false;
        }
        place = token.range.end;
    }
    place as usize == end
}
"""


def build(folder):
    """The program, built beside copies of the crates."""
    crates = os.path.join(folder, "crates")
    source = os.path.join(crates, "lex_files", "src")
    os.makedirs(source)
    for crate in ("ssr_syntax_kinds", "ssr_syntax_lex"):
        shutil.copytree(os.path.join(ROOT, "crates", crate), os.path.join(crates, crate), symlinks=True)
    with open(os.path.join(folder, "crates.txt"), "w") as file:
        file.write(CRATES)
    with open(os.path.join(source, "main.rt"), "w") as file:
        file.write(PROGRAM)
    subprocess.run(["rt", "run"], cwd=os.path.dirname(source), stdin=subprocess.DEVNULL, check=True, stdout=sys.stderr)
    return os.path.join(crates, "lex_files", "out", "lex_files")


def fetch(folder, packages):
    """Puts the packages into the folder, those that are not there yet."""
    os.makedirs(folder, exist_ok=True)
    missing = [name for name in packages if not package_files(folder, name)]
    if missing:
        subprocess.run(["apt-get", "download", "-q", *missing], cwd=folder, check=True, stdout=sys.stderr)


def package_files(folder, name):
    return [os.path.join(folder, file) for file in os.listdir(folder) if file.startswith(name + "_")]


def unpack(folder, packages, source):
    """The `.rs` files of the packages, unpacked below `source`."""
    os.makedirs(source)
    for name in packages:
        for file in package_files(folder, name):
            subprocess.run(["dpkg", "-x", file, source], check=True)
    files = [os.path.join(place, file) for place, _, names in os.walk(source) for file in names if file.endswith(".rs")]
    return sorted(path for path in files if os.path.isfile(path) and not os.path.islink(path))


def lines_of(words, files):
    """The lines that a command writes, which is given the files, a line each."""
    given = "".join(path + "\n" for path in files)
    return subprocess.run(words, input=given, stdout=subprocess.PIPE, text=True, check=True).stdout.splitlines()


def lexed(program, files):
    """What the program says of each file."""
    lines = lines_of([program], files)
    if len(lines) != len(files):
        sys.exit("%d lines for %d files" % (len(lines), len(files)))
    return lines


def main():
    options = argparse.ArgumentParser()
    options.add_argument("--repeat", type=int, default=5)
    options.add_argument("--program")
    options.add_argument("--keep")
    options.add_argument("packages", nargs="*", default=PACKAGES)
    options = options.parse_args()
    with tempfile.TemporaryDirectory() as folder:
        program = options.program or build(os.path.join(folder, "house"))
        packages = options.keep or os.path.join(folder, "packages")
        fetch(packages, options.packages)
        source = os.path.join(folder, "source")
        files = unpack(packages, options.packages, source)
        runs = [lexed(program, files) for _ in range(options.repeat)]
    sizes = {}
    refused = {}
    for path, *lines in zip((os.path.relpath(path, source) for path in files), *runs):
        words = [line.split() for line in lines]
        if all(len(line) == 3 and line[0].isdigit() for line in words):
            sizes[path] = (int(words[0][0]), int(words[0][1]), min(int(line[2]) for line in words))
        else:
            refused[path] = lines[0]
    size = sum(row[0] for row in sizes.values())
    tokens = sum(row[1] for row in sizes.values())
    spent = sum(row[2] for row in sizes.values())
    print("%d files, %d bytes, %d tokens: %.1f MB/s, %.1f ns for a token" % (
        len(sizes), size, tokens, 1000 * size / max(spent, 1), spent / max(tokens, 1)))
    large = sorted((1000 * row[0] / max(row[2], 1), path) for path, row in sizes.items() if row[0] >= 10_000)
    print("the slowest of %d files of 10 KB and more:" % len(large))
    for speed, path in large[:5]:
        print("  %7.1f MB/s  %s" % (speed, path))
    print("%d files with a fault:" % len(refused))
    for path, line in refused.items():
        print("  %s: %s" % (path, line))
    return 1 if "gap" in refused.values() else 0


if __name__ == "__main__":
    sys.exit(main())
