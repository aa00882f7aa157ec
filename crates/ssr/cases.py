#!/usr/bin/env python3
"""Runs built programs on worked examples of whole runs, and compares what they write and their status.

    crates/ssr/cases.py [PROGRAM..]

The programs are those that `rt ci` leaves in crates/ssr/out, unless others are named. Nothing may come on standard error.
The commands that the pages show are run as well, and what pages say of files is looked up there.
The last line is 'N passed, M failed'.
"""

import contextlib
import json
import os
import re
import resource
import shutil
import signal
import socket
import subprocess
import sys
import tempfile
import time
from pathlib import Path

sys.dont_write_bytecode = True
sys.path.append(str(Path(__file__).resolve().parents[2] / "scripts"))
from worked import TOP, blocks, built_programs, commands, table, try_all

SWAP = "$a + $b ==>> $b + $a"
SUM = "fn f() {1 + 2}"
SWAPPED = "fn f() {2 + 1}"
USAGE = "usage: ssr [--facts FILE] RULE..\n"
NO_FILE = "error: standard input: not a file of this grammar\n"
NO_TOKENS = "error: standard input: not tokens of this grammar\n"
NO_UTF8 = "error: standard input: not UTF-8\n"
NO_READ = "error: standard input: cannot be read\n"
TOO_DEEP = "error: standard input: nested too deeply\n"
NO_KIND = "error: Parse error: Not a valid Rust expression, type, item, path or pattern\n"


def as_bytes(text):
    return text if isinstance(text, bytes) else text.encode()


def ran(program, words, **streams):
    """What a run writes, and its status: None where it takes more than two minutes or writes to standard error."""
    try:
        done = subprocess.run([program, *words], stderr=subprocess.PIPE, timeout=120, **streams)
    except subprocess.TimeoutExpired:
        return b"", None
    return done.stdout, None if done.stderr else done.returncode


def answer(program, words, given, **streams):
    """What is written for the words of a command and what is given, and the status."""
    return ran(program, words, **{"input": as_bytes(given), "stdout": subprocess.PIPE, **streams})


def gives(program, words, given, wanted, status=0, **streams):
    """Whether this is written, with this status."""
    return answer(program, words, given, **streams) == (as_bytes(wanted), status)


# ** Worked examples: each function tells of a run after the other whether it was as wanted.

EXAMPLES = []


def example(runs):
    EXAMPLES.append(runs)
    return runs


@example
def rewrites_files(program):
    yield gives(program, [SWAP], "fn f() {1 + 2 + 3 + 4}", "fn f() {4 + (3 + (2 + 1))}")
    yield gives(program, [SWAP], "", "")
    for rule, file, new in [
        (SWAP, "fn f() {\"é\" + x}", "fn f() {x + \"é\"}"),
        ("$a - $b ==>> $b - $a", "fn f() {1 - 2 - 3}", "fn f() {3 - (2 - 1)}"),
        ("$a * $b ==>> $b * $a", "fn f() {(1 + 2) * 3}", "fn f() {3 * (1 + 2)}"),
        ("$a + 1 ==>> $a", "fn f() {2 * (x + 1)}", "fn f() {2 * (x)}"),
        ("$a + 1 ==>> $a", "fn f() {x /* k */ + 1}", "fn f() {x/* k */}"),
        ("$a + $b ==>> $a", "fn f() {1 + 2} fn g() {3}", "fn f() {1} fn g() {3}"),
    ]:
        yield gives(program, [rule], file, new)
    file, new = "fn  f ( )\n{\n  1\t+ 2 }\r\n", "fn  f ( )\n{\n  2-1 }\r\n"
    yield gives(program, ["$a+$b==>>$b-$a"], file, new)


# Rules, an expression, and what becomes of it: what a placeholder holds groups as before, with the matches in it replaced.
SEVEN = ["$a.f() ==>> $a.g()", "7 ==>> 3 + 4"]
TURNED = ["$a * $b ==>> $b * $a", "$a.foo() ==>> $a + 1"]
IN_OTHERS = [
    (SEVEN, "(2 * 7).f()", "(2 * (3 + 4)).g()"),
    (SEVEN, "(2 + 7 * 7).f()", "(2 + (3 + 4) * (3 + 4)).g()"),
    (SEVEN, "(7 + 2 * 7).f()", "(3 + 4 + 2 * (3 + 4)).g()"),
    (SEVEN, "h(7, [7]).f()", "h(3 + 4, [3 + 4]).g()"),
    (SEVEN, "7.f()", "(3 + 4).g()"),
    (SEVEN, "(2 * (7)).f()", "(2 * (3 + 4)).g()"),
    (SEVEN, "(2 * (3 * 7).f()).f()", "(2 * (3 * (3 + 4)).g()).g()"),
    (TURNED, "x * -y.foo()", "-(y + 1) * x"),
    (TURNED, "x * y.foo()", "(y + 1) * x"),
    (TURNED, "x * -y /* k */.foo()", "(-(y + 1)/* k */) * x"),
    (TURNED, "x * g(y.foo())", "g(y + 1) * x"),
    (TURNED, "x * g(y.foo() /* k */)", "g(y + 1 /* k */) * x"),
    (["let $p = $x; ==>> let $p = ($x);", "7 ==>> 3 | 4"], "let &7 = x;", "let &(3 | 4) = (x);"),
]


# A rule, the body of a function, and what becomes of it: the file groups as before around what is replaced.
FOO = "$x.foo($a) ==>> $a + 1"
AROUND = [
    ("7 ==>> 3 + 4", "2 * 7", "2 * (3 + 4)"),
    ("7 ==>> 3 + 4", "7 + 2 * 7", "3 + 4 + 2 * (3 + 4)"),
    ("7 ==>> 3 + 4", "g(7, [7])", "g(3 + 4, [3 + 4])"),
    ("7 ==>> 3 + 4", "m!(2 * 7)", "m!(2 * 7)"),
    ("($a) ==>> $a", "x&(&y)", "x&(&y)"),
    ("($a) ==>> $a", "(a.b)(c)", "(a.b)(c)"),
    ("($a) ==>> $a", "(x) + y", "x + y"),
    (FOO, "2 * x.foo(3)", "2 * (3 + 1)"),
    (FOO, "x.foo(3) - 1", "3 + 1 - 1"),
    (FOO, "2 - x.foo(3)", "2 - (3 + 1)"),
    (FOO, "x.foo(1).m()", "(1 + 1).m()"),
    (FOO, "2 * x.foo(3 /* c */)", "2 * (3 + 1)/* c */"),
    (FOO, "2 * x.foo(3 // c\n)", "2 * (3 + 1)// c\n"),
    (FOO, "2 * x /* c */.foo(3)", "2 * (3 + 1)/* c */"),
    ("$x.foo() ==>> &$x", "a &x.foo()", "a &(&x)"),
    ("$x.foo() ==>> if $x {1} else {2}", "x.foo() + 1;", "(if x {1} else {2}) + 1;"),
    ("$x.foo() ==>> 1..$x", "for i in x.foo() {}", "for i in 1..x {}"),
    ("$x.foo() ==>> |y| $x", "x.foo()(1)", "(|y| x)(1)"),
    ("{ 1 } ==>> 2", "if x { 1 } else { 3 }", "if x 2 else { 3 }"),
    ("7 ==>> 3 | 4", "let &7 = x;", "let &(3 | 4) = x;"),
]


@example
def what_stands_around_a_match_groups_as_before(program):
    for rule, code, new in AROUND:
        yield gives(program, [rule], f"fn f() {{{code}}}", f"fn f() {{{new}}}")
    # what is too deep with parentheses gets none
    file = "fn f() {%s2 * 7%s}"
    for depth, wanted in [(1017, "(3 + 4)"), (1018, "3 + 4")]:
        new = f"2 * {wanted}"
        blocks = "(" * depth, ")" * depth
        yield gives(program, ["7 ==>> 3 + 4"], file % blocks, file.replace("2 * 7", new) % blocks)


@example
def what_placeholders_hold_groups_as_before(program):
    for rules, code, new in IN_OTHERS:
        yield gives(program, rules, f"fn f() {{{code}}}", f"fn f() {{{new}}}")


@example
def earlier_rules_come_first(program):
    rules = ["$a + 1 ==>> $a * 7", "$a + $b ==>> $a - $b", "true ==>> false"]
    yield gives(program, rules, "fn f() {3 + 2 + 1}", "fn f() {(3 - 2) * 7}")
    file = "fn f() { // k\n\t3 + 2 /* two */ + 1\n}\n\nfn g() {true}\n"
    new = "fn f() { // k\n\t(3 - 2) * 7/* two */\n}\n\nfn g() {false}\n"
    yield gives(program, rules, file, new)


@example
def wrong_words_are_refused(program):
    for words in [[], ["--facts"], ["--facts", SWAP], [SWAP, b"\xff"]]:
        yield gives(program, words, SUM, USAGE, 2)
        # nor is anything read
        with folder() as stream:
            yield ran(program, words, stdin=stream, stdout=subprocess.PIPE) == (as_bytes(USAGE), 2)


@example
def files_are_refused(program):
    # a file is told of before a rule
    for rule in [SWAP, "no rule"]:
        for file, told in [("fn f() {1 + ", NO_FILE), ("1", NO_FILE), ("fn f() {'", NO_TOKENS)]:
            yield gives(program, [rule], file, told, 1)
        for file in [b"fn f() {\xff}", b"fn f() {\xc3}"]:
            yield gives(program, [rule], file, NO_UTF8, 1)


@example
def the_stated_language_alone_is_read(program):
    for file in ["async fn f() {}", "fn f() { a.await; }", "extern crate a;", "union U { a: u8 }", "fn f() { &raw const a; }"]:
        yield gives(program, [SWAP], file, NO_FILE, 1)
    for rule in ["$a.await ==>> $a", "extern crate $a; ==>> use $a;", "union $a { $b: $c } ==>> struct $a { $b: $c }"]:
        yield gives(program, [rule], SUM, NO_KIND, 1)


@example
def rules_are_refused(program):
    for rule, message in [
        ("", "Cannot find delimiter `==>>`"),
        ('1 ==>> "a', "Failed to parse pattern: a string that is not closed, at byte 0"),
        ('1 + "a ==>> 2', "Failed to parse pattern: a string that is not closed, at byte 4"),
        ("foo ==>> 1", "Failed to resolve path `foo`"),
        # the template is resolved first
        ("foo ==>> bar", "Failed to resolve path `bar`"),
    ]:
        # alone, or the first refusal of several rules
        for rules, file in [([rule], "fn f() {}"), ([SWAP, rule, SWAP], SUM), ([SWAP, rule, "no rule"], SUM)]:
            yield gives(program, rules, file, f"error: Parse error: {message}\n", 1)


def is_answer(output, status):
    """An answer is a new text of status 0, or one line of status 1."""
    is_line = output.startswith(b"error: ") and output.endswith(b"\n")
    return status == 0 and not is_line or status == 1 and is_line


@example
def every_beginning_is_answered(program):
    for text, output, status in [
        (SWAP, NO_FILE, 1),
        ("fn f() {x // k\n+ 1}", "fn f() {1 + x// k\n}", 0),
        ("__placeholder_a $a ${a} ' // /* \"", NO_TOKENS, 1),
        (
            "fn f() {\"é\" + 1.5e-3 * b'\\n' - r#\"x\"#} // k",
            "fn f() {1.5e-3 * b'\\n' + \"é\" - r#\"x\"#} // k",
            0,
        ),
    ]:
        beginnings = [text[:end] for end in range(len(text) + 1)]
        yield all(is_answer(*answer(program, [SWAP], file)) for file in beginnings)
        yield all(is_answer(*answer(program, [rule], SUM)) for rule in beginnings)
        yield gives(program, [SWAP], text, output, status)


# ** Facts: rules and the facts file that they are run on, and what is written with which status.

FOO_AND_BAR = {
    "files": [{"name": "a.rs", "text": "fn foo() {} fn bar() {} fn main() { foo(1+2); }"}],
    "defs": [{"kind": "function"}, {"kind": "function"}],
    "scopes": [[0, 0, 47]],
    "names": [[0, ["foo"], ["def", 0]], [0, ["bar"], ["def", 1]]],
    "paths": [[0, 36, 39, ["def", 0]]],
    "printed": [[0, 1, "bar"]],
}

# the expansion has the 2 twice
TWICE = {
    "files": [{"name": "a.rs", "text": "fn f() { m!(1 + 2 + 3) }"}],
    "expansions": [
        {
            "call": [0, 9, 22],
            "kind": "expr",
            "tokens": [
                ["(", False],
                ["1", False, 12, 13],
                ["+", False, 14, 15],
                ["2", False, 16, 17],
                [",", False],
                ["2", False, 16, 17],
                ["+", False, 18, 19],
                ["3", False, 20, 21],
                [")", False],
            ],
        }
    ],
    "scopes": [[0, 0, 24], [1, 0, 9]],
}


def files(*texts, **more):
    """The facts of files a.rs, b.rs, .. whose nodes stand in one scope each."""
    rows = [{"name": f"{chr(97 + n)}.rs", "text": text} for n, text in enumerate(texts)]
    return {"files": rows, "scopes": [[n, 0, len(text)] for n, text in enumerate(texts)], **more}


NO_CALL = {"call": [0, 0, 2], "kind": "expr", "tokens": []}

NO_NAME = "error: Parse error: Failed to resolve path `foo`\n"

WITH_FACTS = [
    (["foo($x) ==>> bar($x)"], FOO_AND_BAR, "== a.rs\nfn foo() {} fn bar() {} fn main() { bar(1+2); }\n", 0),
    # no path stands for what `bar` does
    (["bar($x) ==>> bar($x)"], FOO_AND_BAR, "", 0),
    ([SWAP], TWICE, "error: replacements clash in a.rs at 12..17 and 16..21\n", 1),
    # files with an edit alone, in their order, each with a line break behind it
    ([SWAP], files(SUM, "fn g() {}", f"{SUM}\n"), f"== a.rs\n{SWAPPED}\n== c.rs\n{SWAPPED}\n", 0),
    # what is searched, and where the names of rules are looked up
    ([SWAP], files(SUM, SUM, ranges=[[1, 0, 14]]), f"== b.rs\n{SWAPPED}\n", 0),
    ([SWAP], files(SUM, SUM, ranges=[[1, 3, 3]]), f"== a.rs\n{SWAPPED}\n== b.rs\n{SWAPPED}\n", 0),
    (["foo ==>> foo"], files("f!(foo);", "", names=[[1, ["foo"], ["other", 0]]]), NO_NAME, 1),
    (["foo ==>> foo"], files("f!(foo);", "", names=[[1, ["foo"], ["other", 0]]], position=[1, 0]), "", 0),
    # the facts come first, then the finder, then the rules in their order
    (["no rule"], {"file": []}, "error: facts: wrong shape\n", 1),
    (["no rule"], files("fn"), "error: facts: file 0 refused\n", 1),
    (["no rule"], files(SUM, expansions=[NO_CALL]), "error: facts: expansion 0 refused\n", 1),
    (["no rule"], {}, "error: Parse error: No such file\n", 1),
    (["no rule"], files(SUM, position=[0, 15]), "error: Parse error: No such position\n", 1),
    (["no rule"], files(SUM, ranges=[[1, 0, 1]]), "error: Parse error: No such file\n", 1),
    (["no rule"], files(SUM, scopes=[]), "error: Parse error: no resolution scope for file\n", 1),
    ([SWAP, "foo ==>> 1", "no rule"], files(SUM), NO_NAME, 1),
]


@example
def facts_are_read(program):
    with tempfile.TemporaryDirectory() as place:
        path = os.path.join(place, "facts.json")
        for rules, facts, written, status in WITH_FACTS:
            Path(path).write_text(json.dumps(facts))
            yield gives(program, ["--facts", path, *rules], "", written, status)
        for given, told in [("{", "not JSON"), (b'{"files":[],"\xff":[]}', "not JSON")]:
            Path(path).write_bytes(as_bytes(given))
            yield gives(program, ["--facts", path, "no rule"], "", f"error: facts: {told}\n", 1)
        # what is no file can't be read, and what isn't there can't be opened, which is told alike
        for path in [place, os.path.join(place, "none.json")]:
            yield gives(program, ["--facts", path, "no rule"], "", "error: facts: cannot be read\n", 1)


# ** Depth and size.


def nested(pairs, inner):
    return "(" * pairs + inner + ")" * pairs


@example
def files_are_read_to_a_depth_of_1024(program):
    # a block's tail expression has depth 4
    for body, fits in [
        (nested(1020, "1"), True),
        (nested(1021, "1"), False),
        ("1 + " * 1020 + "1", True),
        ("1 + " * 1021 + "1", False),
        ("1 + " * 100_000 + "1", False),
        # each block has a list of statements below it
        ("{" * 510 + "1" + "}" * 510, True),
        ("{" * 510 + "(1)" + "}" * 510, False),
        (f"let _: {nested(1019, '_')};", True),
        (f"let _: {nested(1020, '_')};", False),
        (f"let {nested(1019, '_')};", True),
        (f"let {nested(1020, '_')};", False),
    ]:
        file = f"fn f() {{{body}}}"
        yield gives(program, ["2 ==>> 3"], file, file if fits else TOO_DEEP, 0 if fits else 1)


@example
def rules_are_read_to_a_depth_of_1024(program):
    file = "fn f() {1}"
    yield gives(program, [nested(1024, "1") + " ==>> 3"], file, file)
    yield gives(program, [nested(1025, "1") + " ==>> 3"], file, NO_KIND, 1)


@example
def matches_go_to_a_depth_of_1024(program):
    file = f"fn f() {{{nested(1020, '1')}}}"
    yield gives(program, [nested(1020, "$a") + " ==>> $a"], file, "fn f() {1}")


@example
def made_texts_are_read_to_a_depth_of_1024(program):
    # the sum in brackets loses its place as an operand, which parentheses mend as long as the made text is read
    deep = nested(1000, "1")
    file = f"fn f() {{[{deep} + 1]}}"
    for pairs, made in [(22, f"2 * ({deep} + 1)"), (23, f"2 * {deep} + 1")]:
        rule = f"[$a] ==>> {nested(pairs, '2 * $a')}"
        yield gives(program, [rule], file, f"fn f() {{{nested(pairs, made)}}}")


@example
def a_million_parentheses_are_refused(program):
    output, status = answer(program, [SWAP], "fn f() {" + "(" * 1_000_000)
    yield status == 1 and output.decode() in (NO_FILE, TOO_DEEP)


@example
def many_matches_are_rewritten(program):
    yield gives(program, [SWAP], f"{SUM}\n" * 20_000, f"{SWAPPED}\n" * 20_000)


@example
def a_file_of_17_megabytes_is_rewritten(program):
    lines = "// a line of a comment\n" * 750_000
    yield gives(program, [SWAP], f"{lines}{SUM}\n", f"{lines}{SWAPPED}\n")


def limited(limit, count):
    """Limits what a run gets of the system. A write beyond a limit fails, and does not end the run."""

    def limits():
        signal.signal(signal.SIGXFSZ, signal.SIG_IGN)
        resource.setrlimit(limit, (count, count))

    return limits


@example
def want_of_memory_is_told(program):
    file = f"{SUM}\n" * 200_000
    # the first has no room for the file's tree, the second for its edits
    for megabytes, told in [(16, "error: standard input: out of memory\n"), (100, "error: out of memory\n")]:
        yield gives(program, [SWAP], file, told, 1, preexec_fn=limited(resource.RLIMIT_AS, megabytes << 20))


# ** Streams that fail, or give and take in parts.


@contextlib.contextmanager
def folder():
    """A folder is a standard input that no read can read."""
    stream = os.open("/", os.O_RDONLY)
    yield stream
    os.close(stream)


@contextlib.contextmanager
def connection(text):
    """Gives a text, and fails then."""
    given, giving = socket.socketpair()
    giving.sendall(as_bytes(text))
    # an end that is closed before all is read that came there is told as a failure at the other end
    given.sendall(b"unread")
    giving.close()
    yield given.fileno()
    given.close()


@example
def failed_reads_are_told(program):
    for given in [folder(), connection(""), connection("fn f() "), connection(SUM)]:
        with given as stream:
            told = ran(program, [SWAP], stdin=stream, stdout=subprocess.PIPE)
        yield told == (as_bytes(NO_READ), 1)


@example
def texts_are_read_in_parts(program):
    reading, writing = os.pipe()
    with os.fdopen(reading) as stream:
        run = subprocess.Popen([program, SWAP], stdin=stream, stdout=subprocess.PIPE, stderr=subprocess.PIPE)
    for place in range(0, len(SUM), 3):
        os.write(writing, as_bytes(SUM[place : place + 3]))
        time.sleep(0.01)
    os.close(writing)
    output, _ = run.communicate(timeout=120)
    yield (output, run.returncode) == (as_bytes(SWAPPED), 0)


@example
def failed_writes_leave_a_beginning(program):
    with open("/dev/full", "wb") as full:
        yield answer(program, [SWAP], SUM, stdout=full)[1] == 1
    for count, status in [(0, 1), (1, 1), (10, 1), (13, 1), (14, 0)]:
        with tempfile.TemporaryFile() as file:
            _, ended = answer(program, [SWAP], SUM, stdout=file, preexec_fn=limited(resource.RLIMIT_FSIZE, count))
            file.seek(0)
            yield (file.read(), ended) == (as_bytes(SWAPPED[:count]), status)


# ** The pages: their commands are run, and what they say of the sources is so.

PAGES = ["README.md", *sorted(f"docs/{path.name}" for path in (TOP / "docs").glob("*.md"))]

# The page of the other program, whose commands crates/cargo_ssr/page.py runs, like those of the README for it.
PAGE_OF_CARGO = "docs/cargo-ssr.md"

# Commands of the README that are not run here, each with the reason.
NOT_RUN = {
    "(cd crates/ssr && printf 'fn f() {1 + 2 + 3 + 4}' | rt try -- '$a + $b ==>> $b + $a')\n": "it builds the program anew; "
    "the stored run of crates/ssr has the same words and the same file",
    "./install\n": "it proves the program; it is tried below, with a stand-in for rt",
    "./test\n": "it runs this",
}


def shell(command, program, room):
    """What a command writes where the program is on the path, and its status."""
    links = Path(room) / "bin"
    links.mkdir(exist_ok=True)
    if not (links / "ssr").exists():
        (links / "ssr").symlink_to(program)
    path = {**os.environ, "PATH": f"{links}:{os.environ['PATH']}"}
    done = subprocess.run(["bash", "-c", command], cwd=room, env=path, capture_output=True, text=True, timeout=120)
    written = done.stdout + done.stderr
    return written if not written or written.endswith("\n") else f"{written}\n", done.returncode


@example
def commands_of_pages_write_what_is_shown(program):
    for page in PAGES:
        if page == PAGE_OF_CARGO:
            continue
        with tempfile.TemporaryDirectory() as room:
            # the facts files that the commands name
            (Path(room) / "facts.json").write_text(blocks("docs/facts.md", "")[0])
            shutil.copytree(TOP / "docs/queue", Path(room) / "queue")
            for command, shown in commands(page):
                if command.startswith("cargo ssr "):
                    continue
                is_shown = shell(command, program, room)[0] == shown
                if not is_shown:
                    print(f"{page}: another text is written by {command}", end="")
                yield is_shown


@example
def scripts_of_the_readme_are_known(_):
    for script in blocks("README.md", "sh"):
        yield script in NOT_RUN


@example
def the_first_command_is_the_stored_run(_):
    words, given = ((TOP / "crates/ssr" / name).read_text().rstrip("\n") for name in ("args", "stdin"))
    yield f"printf '{given}' | rt try -- '{words}'" in blocks("README.md", "sh")[0]


@example
def migrations_are_as_the_table_says(program):
    scenarios = (TOP / "crates/ssr_scenarios/data/migrations.txt").read_text()
    rows = list(table("docs/program.md", "Ten rules"))
    yield len(rows) == scenarios.count("\nedits\n") == 10
    for rule, before, after in rows:
        file, new = f"fn f() {{ {before} }}", f"fn f() {{ {after} }}"
        yield gives(program, [rule], file, new)
        yield f"\nfile {file}\nrule {rule}\nedits\n  0 {new}\n" in scenarios


@example
def promises_have_their_clauses(_):
    for _, clauses, link in table("README.md", "What is proved"):
        path = TOP / re.search(r"\((.*)\)", link)[1]
        text = path.read_text() if path.exists() else ""
        for clause in clauses.replace("`", "").split(", "):
            is_there = bool(re.search(rf"ensures .*\b{clause}\b|pub (fn|record|data) {clause}\b", text))
            if not is_there:
                print(f"README.md: {clause} is not in {link}")
            yield is_there


@example
def the_crate_of_the_page_on_facts_is_that_of_its_facts(_):
    crate = TOP / "docs/queue"
    facts = (crate / "facts.json").read_text()
    for file in json.loads(facts)["files"]:
        yield (crate / file["name"]).read_text() == file["text"]
    yield all(block in facts for block in blocks("docs/facts.md", "json"))


@example
def quotes_stand_in_the_sources(_):
    sources = [path.read_text() for path in (TOP / "crates/ssr_uses/src").glob("*.rt")]
    for page in ["README.md", "docs/EMBEDDING.md"]:
        for block in blocks(page, "rust"):
            yield any(block in source for source in sources)


@example
def links_lead_somewhere(_):
    pages = {path: path.read_text() for path in [TOP / "README.md", *(TOP / "docs").glob("*.md")]}
    for page, text in pages.items():
        for file, heading in re.findall(r"\]\(([^):#]*)(?:#([^)]*))?\)", text):
            path = (page.parent / file).resolve() if file else page
            headings = re.findall(r"^#+ (.*)$", pages.get(path, ""), re.M)
            names = [re.sub(r"[^\w -]", "", it.lower()).replace(" ", "-") for it in headings]
            is_there = path.exists() and (not heading or heading in names)
            if not is_there:
                print(f"{page.relative_to(TOP)}: a link leads nowhere: {file}#{heading}")
            yield is_there


@example
def install_puts_the_program_on_the_path(program):
    with tempfile.TemporaryDirectory() as room:
        room = Path(room)
        for crate in ["ssr", "cargo_ssr"]:
            (room / "crates" / crate).mkdir(parents=True)
        (room / "bin").mkdir()
        shutil.copy(TOP / "install", room)
        # in the place of a proof and a build, the built program, under the name of each crate
        stand_in = room / "bin/rt"
        stand_in.write_text(f'#!/bin/sh\n[ "$1" = run ] && mkdir -p out && cp "{program}" "out/$(basename "$PWD")"\n')
        stand_in.chmod(0o755)
        environment = {**os.environ, "HOME": str(room / "home"), "PATH": f"{room / 'bin'}:{os.environ['PATH']}"}
        for words, place in [([], room / "home/.local/bin/ssr"), (["there"], room / "there/ssr")]:
            done = subprocess.run([room / "install", *words], cwd=room, env=environment, capture_output=True, text=True)
            yield done.returncode == 0 and f"installed {place}\n" in done.stdout and (place.parent / "cargo-ssr").is_file()
            yield gives(str(place), [SWAP], SUM, SWAPPED)


if __name__ == "__main__":
    sys.exit(try_all(sys.argv[1:] or built_programs("ssr"), EXAMPLES))
