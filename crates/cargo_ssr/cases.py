#!/usr/bin/env python3
"""Runs built programs on packages of a few files, and compares what they write, tell and leave, and their status.

    crates/cargo_ssr/cases.py [PROGRAM..]

The programs are those that `rt ci` leaves in crates/cargo_ssr/out, unless others are named.
The last line is 'N passed, M failed'.
"""

import json
import os
import pty
import shutil
import subprocess
import sys
import tempfile
from pathlib import Path

sys.dont_write_bytecode = True
sys.path.append(str(Path(__file__).resolve().parents[2] / "scripts"))
from worked import built_programs, try_all

MANIFEST = '[package]\nname = "little"\nversion = "0.1.0"\nedition = "2021"\n'
LIB = "mod inner;\n\npub fn f(a: Option<u8>) -> u8 {\n    a.unwrap()\n}\n"
INNER = "pub fn g(b: Option<u8>) -> u8 {\n    // b is there\n    b.unwrap() + 1\n}\n\npub fn h() {}"
RULE = "$a.unwrap() ==>> $a.expect(\"set\")"
NEW_LIB = LIB.replace("unwrap()", 'expect("set")')
NEW_INNER = INNER.replace("unwrap()", 'expect("set")')


class Package:
    """A folder with files, which is removed again."""

    def __init__(self, files=None):
        self.folder = Path(tempfile.mkdtemp(prefix="cargo-ssr-"))
        for name, text in (files or {"Cargo.toml": MANIFEST, "src/lib.rs": LIB, "src/inner.rs": INNER}).items():
            path = self.folder / name
            path.parent.mkdir(parents=True, exist_ok=True)
            path.write_bytes(text if isinstance(text, bytes) else text.encode())

    def __enter__(self):
        return self

    def __exit__(self, *_):
        shutil.rmtree(self.folder)

    def read(self, name):
        return (self.folder / name).read_bytes().decode()

    def texts(self):
        return {str(path.relative_to(self.folder)): path.read_bytes() for path in sorted(self.folder.rglob("*")) if path.is_file()}

    def run(self, program, *words, within="."):
        """The status, what comes on standard output, and what on standard error."""
        done = subprocess.run([program, "ssr", *words], cwd=self.folder / within, stdin=subprocess.DEVNULL, capture_output=True, timeout=120)
        return done.returncode, done.stdout.decode(), done.stderr.decode()


# ** Each function tells of a run after the other whether it was as wanted.

EXAMPLES = []


def example(runs):
    EXAMPLES.append(runs)
    return runs


@example
def a_diff_is_shown_and_git_takes_it(program):
    with Package() as shown, Package() as written:
        before = shown.texts()
        status, diff, told = shown.run(program, RULE)
        yield status == 0 and shown.texts() == before
        yield "--- a/src/inner.rs\n+++ b/src/inner.rs\n" in diff and "2 matches in 2 files" in told
        applied = subprocess.run(["git", "apply", "-"], input=diff.encode(), cwd=shown.folder)
        yield applied.returncode == 0 and shown.read("src/lib.rs") == NEW_LIB and shown.read("src/inner.rs") == NEW_INNER
        status, out, told = written.run(program, RULE, "--write")
        yield (status, out) == (0, "") and "2 files written" in told
        yield written.texts() == shown.texts()


@example
def nothing_matches(program):
    with Package() as package:
        status, out, told = package.run(program, "$a.ok() ==>> $a.err()")
        yield (status, out) == (0, "") and "0 matches" in told
        yield package.run(program, "-q", "$a.ok() ==>> $a.err()") == (0, "", "")
        yield package.run(program, "--check", "-q", "$a.ok() ==>> $a.err()") == (0, "", "")


@example
def check_tells_by_its_status(program):
    with Package() as package:
        before = package.texts()
        status, out, _ = package.run(program, "--check", RULE)
        yield status == 1 and out == package.run(program, RULE)[1] and package.texts() == before


@example
def matches_are_listed(program):
    with Package() as package:
        status, out, _ = package.run(program, "--search", "$a.unwrap()")
        yield (status, out) == (0, "src/inner.rs:3:5: b.unwrap()\nsrc/lib.rs:4:5: a.unwrap()\n")


@example
def matches_stand_in_matches(program):
    rule = "$a + $b ==>> $b + $a"
    with Package({"one.rs": "fn f() { 4 + (5 + 6) }\n"}) as package:
        status, out, _ = package.run(program, "--search", "$a + $b", "--", "one.rs")
        yield (status, out) == (0, "one.rs:1:10: 4 + (5 + 6)\none.rs:1:15: 5 + 6\n")
        # the outermost one, and the summary
        yield len(package.run(program, "--json", rule, "--", "one.rs")[1].splitlines()) == 2
        yield package.run(program, "-q", "--write", rule, "--", "one.rs") == (0, "", "")
        yield package.read("one.rs") == "fn f() { (6 + 5) + 4 }\n"


@example
def matches_are_told_as_json(program):
    with Package() as package:
        before = package.texts()
        status, out, _ = package.run(program, "--json", RULE)
        lines = [json.loads(line) for line in out.splitlines()]
        yield status == 0 and package.texts() == before and len(lines) == 3
        first = lines[0]
        yield (first["rule"], first["file"], first["line"], first["column"]) == (0, "src/inner.rs", 3, 5)
        yield (first["old"], first["new"], first["set_aside"]) == ("b.unwrap()", 'b.expect("set")', False)
        yield INNER.encode()[first["start"]:first["end"]] == b"b.unwrap()"
        start = INNER.index("b.unwrap")
        yield first["placeholders"] == [{"name": "a", "start": start, "end": start + 1, "text": "b"}]
        yield lines[2]["summary"]["matches"] == 2 and lines[2]["summary"]["edits"] == 2
        status, out, _ = package.run(program, "--json", "--write", RULE)
        yield status == 0 and len(out.splitlines()) == 3 and package.read("src/lib.rs") == NEW_LIB


@example
def rules_come_from_a_file_too(program):
    files = {"Cargo.toml": MANIFEST, "src/lib.rs": "fn f() { x.a(); y.b(); }\n", "rules": "# two\n$x.a() ==>>\n  $x.b()\n\n\t\n$x.b() ==>> $x.c()\n# end\n"}
    with Package(files) as package:
        status, _, _ = package.run(program, "--rules", "rules", "--write")
        yield status == 0 and package.read("src/lib.rs") == "fn f() { x.b(); y.c(); }\n"
        yield package.run(program, "--rules", "none")[0] == 3


@example
def modules_are_followed(program):
    lib = 'mod a;\nmod inner { mod b; }\n#[path = "odd.rs"] mod c;\nmod lost;\nmod linked;\n'
    files = {"src/a.rs": "mod deep;\n", "src/a/deep.rs": "", "src/inner/b.rs": "", "src/lib.rs": lib, "src/odd.rs": "", "src/other.rs": ""}
    with Package({"Cargo.toml": '[package]\nname = "one"\n', **{name: f"fn f() {{ a.unwrap() }}\n{text}" for name, text in files.items()}}) as package:
        (package.folder / "src/linked.rs").symlink_to(package.folder / "src/odd.rs")
        status, out, told = package.run(program, "--search", "$a.unwrap()")
        yield (status, out) == (0, "".join(f"{name}:1:10: a.unwrap()\n" for name in files if name != "src/other.rs"))
        unreached = "1 file below src is reached by no mod item: src/other.rs; name it behind --\n"
        yield told == "src/lib.rs: no file for mod lost\nsrc/linked.rs: reached through a link\n" + unreached + "5 matches in 5 files\n"


@example
def paths_are_searched(program):
    files = {"one.rs": "fn f() { a.unwrap(); }\n", "more/two.rs": "fn f() { a.unwrap(); }\n", "three.rs": "fn f() { a.unwrap(); }\n"}
    with Package(files) as package:
        status, _, _ = package.run(program, RULE, "--write", "--", "one.rs", "more")
        yield status == 0 and "expect" in package.read("one.rs") and "expect" in package.read("more/two.rs")
        yield package.read("three.rs") == files["three.rs"]
        yield package.run(program, RULE, "--", "../one.rs")[:2] == (3, "")
        yield package.run(program, "-q", "--check", RULE, "--in", "three.rs:1:3", "--", "three.rs")[0] == 1


@example
def what_is_left_out_is_set_aside(program):
    text = 'impl const T for U {}\nfn f() { a.unwrap(); b::<impl const T>().unwrap(); println!("{}", a.unwrap()) }\n'
    with Package({"one.rs": text}) as package:
        status, _, told = package.run(program, RULE, "--write", "--", "one.rs")
        yield status == 0 and "one.rs:2:22: left as it is: it holds what is set aside\n" in told
        yield told.endswith("3 matches in 1 file: 2 edits; 1 left as it is\n")
        yield package.read("one.rs") == text.replace("a.unwrap()", 'a.expect("set")')


@example
def what_binds_an_operand_stays_with_it(program):
    text = "async fn f() { let x = 1 + b.await; let y = async { z } - 2; }\n"
    with Package({"one.rs": text, "rules": "-$x ==>> !$x"}) as package:
        for words in [["{ $a } ==>> $a"], ["--rules", "rules"]]:
            yield package.run(program, *words, "--", "one.rs") == (0, "", "0 matches\n")
        yield package.run(program, "-q", "--write", "$a + $b ==>> $b + $a", "--", "one.rs") == (0, "", "")
        yield package.read("one.rs") == text.replace("1 + b.await", "b.await + 1")


# A text of all of Rust, a rule, and the text with its matches replaced.
WHOLE = [
    ("async fn f() { g().await.unwrap(); }\n", "$a.await.unwrap() ==>> $a.await?", "async fn f() { g().await?; }\n"),
    ("async fn f() { 1 }\nfn g() { 1 }\n", "fn $f() { $b } ==>> pub fn $f() { $b }", "async fn f() { 1 }\npub fn g() { 1 }\n"),
    ("async fn f() { 1 }\nfn g() { 1 }\n", "async fn $f() { $b } ==>> pub async fn $f() { $b }", "pub async fn f() { 1 }\nfn g() { 1 }\n"),
    ("async fn f() { g(2 + FOO!(1)).await; }\n", "$a + $b ==>> $b + $a", "async fn f() { g(FOO!(1) + 2).await; }\n"),
    ("fn h() { #[cfg(a)] a.f(1); }\n", "$a.f($b) ==>> $a.g($b)", "fn h() { #[cfg(a)] a.g(1); }\n"),
    ("fn h() { x.map(&|y| y + 1); }\n", "$a.map($f) ==>> $a.for_each($f)", "fn h() { x.for_each(&|y| y + 1); }\n"),
    ("fn h() -> bool { a && return b }\n", "$a && $b ==>> $b && $a", "fn h() -> bool { (return b) && a }\n"),
    ("extern crate log;\n#[macro_use] extern crate libc;\n", "extern crate $c; ==>> use $c;", "use log;\n#[macro_use] extern crate libc;\n"),
    ("extern \"C\" fn h(n: fn(u8) -> *const u8) {}\n", "*const $t ==>> *mut $t", "extern \"C\" fn h(n: fn(u8) -> *mut u8) {}\n"),
    ("fn t() -> T<P: D> { a.unwrap() }\n", "$a.unwrap() ==>> $a?", "fn t() -> T<P: D> { a? }\n"),
    ("fn h() { let raw = &raw const raw; &raw }\n", "&raw const $x ==>> $x.addr()", "fn h() { let raw = raw.addr(); &raw }\n"),
    ("union U { a: u8 }\nfn h(union: u8) { union + raw }\n", "union $n { $f: $t } ==>> struct $n { $f: $t }", "struct U { a: u8 }\nfn h(union: u8) { union + raw }\n"),
    ('unsafe extern "C" { safe fn f(a: *const u8); unsafe fn g(); }\n', "*const $t ==>> *mut $t", 'unsafe extern "C" { safe fn f(a: *mut u8); unsafe fn g(); }\n'),
]


@example
def all_of_rust_is_read(program):
    for text, rule, new in WHOLE:
        with Package({"one.rs": text}) as package:
            yield package.run(program, "-q", "--write", rule, "--", "one.rs") == (0, "", "") and package.read("one.rs") == new


# What `diff -u` writes, but for the heads, and the colour of each line.
DIFF = """--- a/a b.rs\t
+++ b/a b.rs\t
@@ -1,4 +1,3 @@
 fn f() {
-    ("é", [1,
- "2"])
+    ("é", ["2", 1])
 }
\\ No newline at end of file
"""
COLORS = [1, 1, 36, None, 31, 31, 32, None, None]


@example
def texts_are_as_they_should_be_to_the_byte(program):
    painted = [f"\x1b[{color}m{line}\x1b[0m" if color else line for color, line in zip(COLORS, DIFF.splitlines(keepends=True))]
    with Package({"a b.rs": 'fn f() {\n    ("é", [1,\n "2"])\n}'}) as package:
        words = ["-q", "[$a, $b] ==>> [$b, $a]", "--", "a b.rs"]
        yield package.run(program, *words) == (0, DIFF, "")
        yield package.run(program, "--color", "always", *words) == (0, "".join(painted), "")
        words = ["-q", "--search", "[$a, $b]", "--", "a b.rs"]
        yield package.run(program, *words) == (0, "a b.rs:2:11: [1, ..\n", "")
        first = json.loads(package.run(program, "--json", *words)[1].splitlines()[0])
        yield (first["line"], first["column"], first["old"], first["new"]) == (2, 11, '[1,\n "2"]', None)


@example
def a_placeholder_alone_is_replaced_once(program):
    text = "fn f() { match x { _ => b(\"c\") } }\n"
    rule = "${s:kind(literal)} ==>> $s.to_owned()"
    with Package({"one.rs": text}) as package:
        _, out, _ = package.run(program, "--json", rule, "--", "one.rs")
        yield [json.loads(line)["old"] for line in out.splitlines()[:-1]] == ["\"c\""]
        status, _, _ = package.run(program, "--write", rule, "--", "one.rs")
        yield status == 0 and package.read("one.rs") == text.replace("\"c\"", "\"c\".to_owned()")


# A text, the words of a run, where it tells that a match is left as it is and why, and the text then.
HOLDS, AHEAD = "it holds what is set aside", "what stands in front of it belongs to it"
FUNCTIONS = "default fn f() { g() }\nextern \"C\" fn h() { g() }\nfn k() { g() }\n"
BORROWS = "fn f() { x.await; h(&|x| x + 1); k(&raw const a.b) }\n"
MACRO_TYPES = "fn g(x: *const Token![,], y: *const u8, z: &dyn ~const T) {}\n"
LET = "fn f() { #[cfg(unix)] let x = a.unwrap(); }\n"
FIELDS = "async fn r(){ x.await; if let S {a, b} = x { a.unwrap(); } }\n"
BESIDE = [
    (FUNCTIONS, ["fn $f() { $b } ==>> pub fn $f() { $b }"], [("1:9", AHEAD)], FUNCTIONS.replace("\nfn k", "\npub fn k")),
    ("auto trait T {}\n", ["trait $f {} ==>> pub trait $f {}"], [("1:6", AHEAD)], None),
    ("unsafe mod m {}\n", ["mod $f {} ==>> pub mod $f {}"], [("1:8", AHEAD)], None),
    ("fn f() { for<'a> |x| x.len() }\n", ["|$x| $b ==>> move |$x| $b"], [("1:18", AHEAD)], None),
    (BORROWS, ["|$x| $b ==>> move |$x| $b", "$a.b ==>> $a.c"], [], BORROWS.replace("|x|", "move |x|").replace("a.b", "a.c")),
    (LET, ["let $a = $b; ==>> $b;"], [], None),
    (LET, ["$a.unwrap() ==>> $a?"], [], LET.replace(".unwrap()", "?")),
    (MACRO_TYPES, ["*const $t ==>> *mut $t"], [], MACRO_TYPES.replace("*const", "*mut")),
    (FIELDS, ["$a.unwrap() ==>> $a.expect(\"x\")"], [], FIELDS.replace("unwrap()", 'expect("x")')),
    ("fn f() { let x = 1 + b::<impl const T>(); }\n", ["$a + $b ==>> $b + $a"], [("1:18", HOLDS)], None),
]


@example
def what_belongs_to_a_match_is_not_taken_from_it(program):
    for text, rules, told_at, new in BESIDE:
        lines = "".join(f"one.rs:{place}: left as it is: {why}\n" for place, why in told_at)
        with Package({"one.rs": text, "rules": "\n\n".join(rules)}) as package:
            status, _, told = package.run(program, "-q", "--rules", "rules", "--write", "--", "one.rs")
            yield (status, told) == (0, lines) and package.read("one.rs") == (new or text)
        with Package({"one.rs": text, "rules": "\n\n".join(rules)}) as package:
            _, _, told = package.run(program, "--rules", "rules", "--", "one.rs")
            left = {0: "", 1: "; 1 left as it is"}.get(len(told_at), f"; {len(told_at)} left as they are")
            yield told.splitlines()[-1].endswith(left) if told_at else "left" not in told


@example
def the_same_text_is_no_change(program):
    with Package({"one.rs": "fn f() { x + x }\n"}) as package:
        yield package.run(program, "-q", "--check", "$a + $b ==>> $b + $a", "--", "one.rs") == (0, "", "")


@example
def what_lies_below_target_is_passed_over(program):
    with Package({"target/one.rs": "fn f() { a.unwrap(); }\n"}) as package:
        for path in ["target", "target/one.rs"]:
            status, out, told = package.run(program, RULE, "--", path)
            yield (status, out) == (3, "") and path + ": below target" in told and told.endswith("error: no file was searched\n")


@example
def arguments_of_macros_are_searched(program):
    text = "fn f() { println!(\"{}\", a.unwrap()); assert!(vec![b.unwrap()].len() == 1) }\n"
    with Package({"one.rs": text}) as package:
        _, out, _ = package.run(program, RULE, "--no-macros", "--", "one.rs")
        yield out == ""
        _, out, _ = package.run(program, "--search", "$a.unwrap()", "--", "one.rs")
        yield out == "one.rs:1:25: a.unwrap()\none.rs:1:51: b.unwrap()\n"
        _, _, _ = package.run(program, RULE, "--write", "--", "one.rs")
        yield package.read("one.rs") == text.replace("unwrap()", 'expect("set")')


@example
def format_strings_are_no_arguments(program):
    text = 'fn f() { println!("set"); println!("{}", "set"); assert!(a, "set"); vec!["set"] }\n'
    with Package({"one.rs": text}) as package:
        _, _, told = package.run(program, '"set" ==>> ("set")', "--write", "--", "one.rs")
        yield "2 edits" in told
        yield package.read("one.rs") == text.replace('"{}", "set"', '"{}", ("set")').replace('vec!["set"]', 'vec![("set")]')
    text = 'fn f() { write!("set", "set", "set"); assert_eq!("set", b, "set"); panic!("set", a = "set"); dbg!("set") }\n'
    with Package({"one.rs": text}) as package:
        _, _, told = package.run(program, '"set" ==>> 7', "--write", "--", "one.rs")
        yield "5 edits" in told
        yield package.read("one.rs") == 'fn f() { write!(7, "set", 7); assert_eq!(7, b, "set"); panic!("set", a = 7); dbg!(7) }\n'


@example
def files_that_cannot_be_read_are_told(program):
    with Package({"good.rs": "fn f() { a.unwrap(); }\n", "bad.rs": "fn f( {'\n", "bytes.rs": b"fn f() {\xff}"}) as package:
        status, out, told = package.run(program, RULE, "--", "good.rs", "bad.rs", "bytes.rs")
        yield status == 0 and "good.rs" in out and "bad.rs" in told and "bytes.rs" in told
        yield told.endswith("1 match in 1 file: 1 edit; 1 file left out\n")


# A text that isn't read, and what is reported of it behind its name.
LEFT_OUT = [
    ("fn f( {\n", ":1:7: left out: { is not closed"),
    ("fn f() {}\n  }\n", ":2:3: left out: } closes nothing"),
    ("fn f() { g([1) }\n", ":1:12: left out: [ is not closed"),
    ("fn f() { \"a }\n", ": left out: a string that is not closed, at byte 9"),
    ("fn f() {\n<<<<<<< ours\n    g(\n=======\n>>>>>>> theirs\n", ":2:1: left out: a merge conflict"),
]


@example
def a_file_that_is_left_out_is_told_with_the_place(program):
    for text, told in LEFT_OUT:
        with Package({"bad.rs": text, "good.rs": "fn f() {}\n"}) as package:
            yield package.run(program, RULE, "--", "bad.rs", "good.rs") == (0, "", f"bad.rs{told}\n0 matches; 1 file left out\n")


# A text, a rule, and the text with its matches replaced: in parentheses where they would group otherwise.
GROUPED = [
    ("fn f() { 2 * 7; f(7); }\n", "7 ==>> 3 + 4", "fn f() { 2 * (3 + 4); f(3 + 4); }\n"),
    ("fn f() { v.get(i).unwrap(); g(v.get(i)); }\n", "$a.get($i) ==>> *$a.at($i)", "fn f() { (*v.at(i)).unwrap(); g(*v.at(i)); }\n"),
    ("fn f() { x&(&y); (a.b)(c); ((z)) }\n", "($a) ==>> $a", "fn f() { x&(&y); (a.b)(c); z }\n"),
    ("fn f() { match x { &7 => 2 * 7, _ => 0 } }\n", "7 ==>> 3 | 4", "fn f() { match x { &(3 | 4) => 2 * (3 | 4), _ => 0 } }\n"),
    ("fn f() { 2 * 7 + 7 }\n", "7 ==>> 3 * 4", "fn f() { 2 * (3 * 4) + 3 * 4 }\n"),
    ("fn f() { 2 * x /* c */.g(); }\n", "$a.g() ==>> $a + 1", "fn f() { 2 * (x + 1)/* c */; }\n"),
    # what macros take groups as before
    ("fn f() { assert!(2 * 7 == x); }\n", "7 ==>> 3 + 4", "fn f() { assert!(2 * (3 + 4) == x); }\n"),
    ('fn f() { println!("{:?}", a.set(b)); }\n', "$a.set($b) ==>> $a = $b", 'fn f() { println!("{:?}", (a = b)); }\n'),
    ('fn f() { println!("{}", a.set(b) == 1); }\n', "$a.set($b) ==>> $a + $b", 'fn f() { println!("{}", a + b == 1); }\n'),
    ("fn f() { assert!(g(a.set(b))); }\n", "$a.set($b) ==>> $a = $b", "fn f() { assert!(g(a = b)); }\n"),
    ('fn f() { assert_eq!(7, x, "{}", 7); }\n', "7 ==>> 3 + 4", 'fn f() { assert_eq!(3 + 4, x, "{}", 3 + 4); }\n'),
    ('fn f() { println!("{} {a}", 2 * 7, a = 7); }\n', "7 ==>> 3 + 4", 'fn f() { println!("{} {a}", 2 * (3 + 4), a = 3 + 4); }\n'),
    ('fn f() { println!("{}", format!("{}", 2 * 7)); }\n', "7 ==>> 3 + 4", 'fn f() { println!("{}", format!("{}", 2 * (3 + 4))); }\n'),
    ("fn f() { g(vec![2 * 7; 7]); matches!(7, 7); }\n", "7 ==>> 3 | 4", "fn f() { g(vec![2 * (3 | 4); 3 | 4]); matches!(3 | 4, 3 | 4); }\n"),
    ("fn f() { assert!(x&(&y)); dbg!(2 * 7); }\n", "($a) ==>> $a", "fn f() { assert!(x&(&y)); dbg!(2 * 7); }\n"),
    ("fn f() { assert!(a.b(7)); }\n", "$a.b($x) ==>> *$a.d($x)", "fn f() { assert!(*a.d(7)); }\n"),
    # what stands for an expression is one
    ("fn f() { 7 }\n", "7 ==>> { 1 } - 1", "fn f() { ({ 1 } - 1) }\n"),
]


@example
def a_replacement_groups_as_the_match_did(program):
    for text, rule, new in GROUPED:
        with Package({"one.rs": text}) as package:
            yield package.run(program, "-q", "--write", rule, "--", "one.rs") == (0, "", "") and package.read("one.rs") == new


# Rules, a text, and the text with their matches replaced: inside of another match, too, they group as they did.
IN_OTHERS = [
    (["$a.f() ==>> $a.g()", "7 ==>> 3 + 4"], "fn f() { (2 * 7).f(); 2 * h(7).f(); }\n", "fn f() { (2 * (3 + 4)).g(); 2 * h(3 + 4).g(); }\n"),
    (["$a.f() ==>> $a + 1", "7 ==>> 3 + 4"], "fn f() { 2 * (2 * 7).f(); }\n", "fn f() { 2 * ((2 * (3 + 4)) + 1); }\n"),
    (
        ["foo($a) ==>> $a + 1", "bar($x) ==>> baz($x)"],
        "fn foo(n: u8) -> u8 { n }\nfn bar(n: u8) {}\nfn baz(n: u8) {}\nfn f() { bar(2 * foo(3)); }\n",
        "fn foo(n: u8) -> u8 { n }\nfn bar(n: u8) {}\nfn baz(n: u8) {}\nfn f() { baz(2 * (3 + 1)); }\n",
    ),
]


@example
def a_replacement_in_another_one_groups_as_the_match_did(program):
    for rules, text, new in IN_OTHERS:
        with Package({"Cargo.toml": MANIFEST, "src/lib.rs": text}) as package:
            yield package.run(program, "-q", "--write", *rules) == (0, "", "") and package.read("src/lib.rs") == new


# A text, a rule, the place of the match with which the text can't be read, and the text with the others replaced.
ARMS = 'fn f() { match x { "a" => b("c"), _ => d } }\n'
CONDITIONS = "fn f() { if a { b } if let C = d { e } }\n"
DEEP = f"fn f() {{ a.unwrap(); {'(' * 1000}b.unwrap(){')' * 1000} }}\n"
UNREAD = [
    (ARMS, "${s:kind(literal)} ==>> $s.to_owned()", "1:20", ARMS.replace('b("c")', 'b("c".to_owned())')),
    (CONDITIONS, "if $c { $b } ==>> if ($c) { $b }", "1:21", CONDITIONS.replace("if a {", "if (a) {")),
    (DEEP, f"$a.unwrap() ==>> {'!' * 30}$a", "1:1022", DEEP.replace("a.unwrap()", "!" * 30 + "a")),
]


@example
def what_cannot_be_read_again_is_told_alone(program):
    for text, rule, place, new in UNREAD:
        with Package({"one.rs": text}) as package:
            told_alone = f"one.rs:{place}: left as it is: the file can't be read with it\n"
            status, out, _ = package.run(program, "--json", rule, "--", "one.rs")
            shown = [(f"{line['line']}:{line['column']}", line["new"]) for line in map(json.loads, out.splitlines()[:-1])]
            yield status == 0 and [at for at, new_text in shown if new_text is None] == [place]
            yield json.loads(out.splitlines()[-1])["summary"] == {"files": 1, "matches": 2, "edits": 1, "set_aside": 0, "unread": 1, "undecided": 0, "left_out": 0, "not_searched": 0}
            status, _, told = package.run(program, "--check", rule, "--", "one.rs")
            yield status == 1 and told.startswith(told_alone) and told.endswith("2 matches in 1 file: 1 edit; 1 left as it is\n")
            yield package.run(program, "-q", "--write", rule, "--", "one.rs") == (0, "", told_alone) and package.read("one.rs") == new


# A text, the words of a run, what is reported of the text as not searched behind its name, and the text then.
HEAD = "fn t() -> unsafe<'a> T { a.unwrap() }\n"
BOUNDS = "pub fn t<T: [const] I>(t: T) -> u8 where T: [const] I { a.unwrap() }\n"
SIGNATURE = "trait R { fn t() -> unsafe<'a> T; fn u() { a.unwrap() } }\n"
STATEMENT = "fn f() {\n    try {\n        b.unwrap() };\n    a.unwrap()\n}\n"
ITEMS = "macro m() {}\n// of it\nmacro n() {}\nfn f() { a.unwrap() }\nmacro o() {}\nfn g() { yield e; }\n"
IN_BLOCKS = f"fn f() {{ {'{ ' * 60}try {{ b.unwrap() }}; a.unwrap() {'}' * 60} }}\n"
NOT_SEARCHED = [
    (HEAD, [RULE], "1:8: not searched: 1 line that isn't read", HEAD),
    (BOUNDS, [RULE], "1:9: not searched: 1 line that isn't read, and 1 more place", BOUNDS),
    (SIGNATURE, [RULE], "1:18: not searched: 1 line that isn't read", SIGNATURE),
    (STATEMENT, [RULE], "2:5: not searched: 2 lines that aren't read", STATEMENT),
    (ITEMS, [RULE], "1:1: not searched: 3 lines that aren't read, and 2 more places", ITEMS),
    (IN_BLOCKS, [RULE], "1:130: not searched: 1 line that isn't read", IN_BLOCKS),
    ("fn f() { yield p - q; }\n", ["--rules", "rules"], "1:10: not searched: 1 line that isn't read", ""),
]


@example
def what_is_not_searched_is_told(program):
    for text, words, told_at, with_match in NOT_SEARCHED:
        line = f"one.rs:{told_at}\n"
        new = "a.expect(\"set\")".join(text.rsplit("a.unwrap()", 1)) if with_match else text
        counts = ("1 match in 1 file: 1 edit" if with_match else "0 matches") + "; 1 file not searched whole\n"
        with Package({"one.rs": text, "rules": "-$x ==>> !$x"}) as package:
            status, out, told = package.run(program, *words, "--", "one.rs")
            yield (status, bool(out), told) == (0, bool(with_match), line + counts)
            yield package.run(program, "-q", "--check", *words, "--", "one.rs")[::2] == (1 if with_match else 0, line)
            yield package.run(program, "-q", "--write", *words, "--", "one.rs") == (0, "", line) and package.read("one.rs") == new


@example
def what_is_not_searched_is_told_in_each_mode(program):
    text = STATEMENT + "macro m() {}\n"
    line = "two.rs:2:5: not searched: 2 lines that aren't read, and 1 more place\n"
    with Package({"one.rs": "fn f() { b.ok() }\n", "two.rs": text}) as package:
        paths = ["--", "one.rs", "two.rs"]
        found = package.run(program, "--search", "$a.unwrap()", *paths)
        yield found == (0, "two.rs:4:5: a.unwrap()\n", line + "1 match in 1 file; 1 file not searched whole\n")
        status, out, told = package.run(program, "--debug", "a.unwrap()", RULE, *paths)
        yield (status, out, told) == (0, "two.rs:4:5: rule 0: matches\n", line)
        for words in [[RULE], ["--search", "$a.unwrap()"]]:
            status, out, told = package.run(program, "--json", *words, *paths)
            lines = [json.loads(one) for one in out.splitlines()]
            ranges = [one["not_searched"] for one in lines[1:-1]]
            yield (status, told) == (0, line) and lines[0]["old"] == "a.unwrap()" and lines[-1]["summary"]["not_searched"] == 1
            yield [text[one["start"]:one["end"]] for one in ranges] == [text[text.index("try"):text.index(";") + 1], "macro m() {}"]
            yield [(one["file"], one["line"], one["column"]) for one in ranges] == [("two.rs", 2, 5), ("two.rs", 6, 1)]
    with Package({"one.rs": STATEMENT, "two.rs": STATEMENT}) as package:
        told = package.run(program, "$a.ok() ==>> $a.err()", "--", "one.rs", "two.rs")[2]
        yield told.endswith("0 matches; 2 files not searched whole\n") and len(told.splitlines()) == 3


@example
def a_file_of_which_nothing_is_read_is_left_out(program):
    with Package({"bad.rs": "this is no rust at all\n", "good.rs": "fn f() {}\n"}) as package:
        line = "bad.rs:1:1: left out: nothing of it is read\n"
        yield package.run(program, RULE, "--", "bad.rs", "good.rs") == (0, "", line + "0 matches; 1 file left out\n")
        for words in [[RULE], [RULE, "--check"], ["-q", RULE, "--write"], [RULE, "--json"], ["--search", "$a.unwrap()"]]:
            yield package.run(program, *words, "--", "bad.rs") == (3, "", line + "error: no file was searched\n")


@example
def code_that_is_not_read_may_stand_deep(program):
    # each of the blocks that hold it is read again
    text = f"fn f() {{ {'{ ' * 60}try {{ c }}; {'a.unwrap(); ' * 8500}{'}' * 60} }}\n"
    with Package({"one.rs": text}) as package:
        before = os.times().children_user
        status, out, told = package.run(program, "--search", "$a.unwrap()", "--", "one.rs")
        spent = os.times().children_user - before
        yield status == 0 and told.endswith("8500 matches in 1 file; 1 file not searched whole\n") and spent < 10


@example
def a_run_without_a_file_fails(program):
    with Package({"bad.rs": "fn f( {\n"}) as package:
        for words in [[RULE], [RULE, "--check"], [RULE, "--write"], [RULE, "--json"], ["--search", "$a.unwrap()"]]:
            status, out, told = package.run(program, *words, "--", "bad.rs")
            yield (status, out) == (3, "") and told.splitlines()[-1] == "error: no file was searched" and len(told.splitlines()) == 2


@example
def rules_are_refused(program):
    with Package() as package:
        before = package.texts()
        for rule in ["no rule", "$a ==>> $b"]:
            status, out, told = package.run(program, rule, "--write")
            yield (status, out) == (3, "") and len(told.splitlines()) == 1 and package.texts() == before


@example
def refused_rules_are_named_by_where_they_stand(program):
    rules = "$a.len() == 0 ==>> $a.is_empty()\n\n# $a\n\n$b ==> c\n"
    why = "Cannot find delimiter `==>>`\n"
    with Package({"one.rs": "fn f() {}\n", "bad.rules": rules, "good.rules": "\n# one\n\n$a.b()\n# two\n==>> $a\n"}) as package:
        yield package.run(program, RULE, "no rule", "--", "one.rs") == (3, "", f"error: rule 1: {why}")
        yield package.run(program, RULE, "--rules", "bad.rules", "--", "one.rs") == (3, "", f"error: bad.rules:5: {why}")
        yield package.run(program, "$b ==> c", "--rules", "bad.rules", "--", "one.rs") == (3, "", f"error: rule 0: {why}")
        yield package.run(program, "-q", "--rules", "good.rules", "--", "one.rs") == (0, "", "")
        yield package.run(program, "--search", "$a", "--search", "$ a", "--", "one.rs")[2].startswith("error: pattern 1: Placeholders should")
        unknown = "names are looked up in one.rs, or where --in says\n"
        yield package.run(program, "g($a) ==>> $a", "--", "one.rs") == (3, "", f"error: rule 0: Failed to resolve path `g`\n{unknown}")
        yield package.run(program, "F::<$t>::f() ==>> $t", "--", "one.rs") == (3, "", f"error: rule 0: Failed to resolve path `F::<$t>`\n{unknown}")


@example
def names_are_quoted_as_git_quotes_them(program):
    name, quoted = "src/a\t\"b\\\x01 é.rs", r"src/a\t\"b\\\001 é.rs"
    with Package({name: "fn f() { a.unwrap(); }\nfn g() { b::<impl const T>().unwrap(); }\n"}) as package:
        _, diff, told = package.run(program, "-q", RULE, "--", "src")
        yield diff.startswith(f'--- "a/{quoted}"\t\n+++ "b/{quoted}"\t\n')
        yield told == f'"{quoted}":2:10: left as it is: it holds what is set aside\n'
        out = package.run(program, "-q", "--search", "$a.unwrap()", "--", "src")[1]
        yield out.splitlines()[0] == f'"{quoted}":1:10: a.unwrap()'
        applied = subprocess.run(["git", "apply", "-"], input=diff.encode(), cwd=package.folder)
        yield applied.returncode == 0 and 'a.expect("set")' in package.read(name)


@example
def self_needs_a_method(program):
    text = "impl A {\n    fn f(&self) { self.b.unwrap(); }\n    fn g(&self) { self.b.unwrap(); }\n}\n"
    why = "self matches only with --in FILE:LINE, inside of a method\n"
    rule = "self.$b.unwrap() ==>> self.$b?"
    with Package({"one.rs": text, "rules": f"# self\n{rule}\n"}) as package:
        yield package.run(program, "-q", rule, "--", "one.rs") == (0, "", f"rule 0: {why}")
        yield package.run(program, "-q", "--rules", "rules", "--", "one.rs") == (0, "", f"rules:2: {why}")
        yield package.run(program, "-q", "--search", "$a", "--search", "self.$b", "--", "one.rs")[2] == f"pattern 1: {why}"
        yield package.run(program, "-q", rule, "--write", "--in", "one.rs:2:19", "--", "one.rs") == (0, "", "")
        yield package.read("one.rs") == text.replace(".unwrap()", "?", 1)


# What a file is, a rule, and how the summary of its search begins. In each file another thing of the name might be taken.
SOURCES_WITH_TRAPS = [
    # a name under one configuration is imported, under the other one declared
    (
        '#[cfg(feature = "std")]\nuse std::mem::drop as end;\n#[cfg(not(feature = "std"))]\nfn end(_: u32) {}\npub fn f(x: u32) { end(x) }\n',
        "std::mem::drop($a) ==>> $a",
        "0 matches; 1 undecided",
    ),
    # a macro brings in names by `*`
    (
        "macro_rules! all { () => { use crate::own::*; } }\nmod own { pub fn drop(_: u32) {} }\nmod inner { all!(); pub fn g(x: u32) { drop(x) } }\npub fn g(x: u32) { drop(x) }\n",
        "std::mem::drop($a) ==>> $a",
        "1 match in 1 file: 1 edit; 1 undecided",
    ),
    # a macro of another function
    (
        "pub fn a() { macro_rules! assert { ($x:expr) => { if !$x { return; } } } assert!(true); }\npub fn b(x: bool) { assert!(x); }\n",
        "std::assert!($a) ==>> $a",
        "0 matches; 1 undecided",
    ),
    # a file that isn't read
    ('include!("other.rs");\npub fn f(x: u32) { drop(x) }\n', "std::mem::drop($a) ==>> $a", "0 matches; 1 undecided"),
    # a name that a pattern in a macro's arguments binds
    (
        "pub fn f(x: Option<usize>) -> bool { matches!(x, Some(size_of) if size_of > 0) && size_of::<u32>() == 4 }\npub fn g() -> usize { size_of::<u32>() }\n",
        "std::mem::size_of::<$t>() ==>> 0",
        "1 match in 1 file: 1 edit; 1 undecided",
    ),
    # a value and a type of one name
    (
        "pub struct Job(pub u32);\npub mod m { #[allow(non_snake_case)] pub fn Job(_: u32) {} }\npub fn f() { m::Job(1); Job(2); }\n",
        "m::Job($a) ==>> $a",
        "1 match in 1 file: 1 edit",
    ),
    # modules that bring in each other's names
    (
        "pub mod a { pub use crate::b::*; pub fn one(_: u32) {} }\npub mod b { pub use crate::a::*; pub fn two(_: u32) {} }\npub fn f() { a::two(1); b::two(2); b::one(3); }\n",
        "b::two($a) ==>> $a",
        "2 matches in 1 file: 2 edits",
    ),
    # an item hides what comes in by `*`, and a private one isn't seen
    (
        "mod a { fn one(_: u32) {} pub fn two(_: u32) {} }\nuse a::*;\nfn one(_: u32) {}\npub fn f() { one(1); two(2); a::two(3); }\n",
        "a::two($a) ==>> $a",
        "2 matches in 1 file: 2 edits",
    ),
    # variants in the place of those of the prelude
    (
        "use Sort::*;\npub enum Sort { None, Up(u32) }\nuse Sort as S;\npub fn f() -> [Sort; 3] { [None, Up(3), S::Up(4)] }\n",
        "Sort::Up($a) ==>> Sort::None",
        "2 matches in 1 file: 2 edits",
    ),
    # a generic parameter of a type's name
    (
        "pub fn f<Vec: Default>() -> Vec { Vec::default() }\npub fn g() -> Vec<u32> { Vec::default() }\n",
        "Vec::default() ==>> Vec::new()",
        "1 match in 1 file: 1 edit; 1 undecided",
    ),
    # a module named as the standard library
    (
        "mod std { pub mod mem { pub fn drop(_: u32) {} } }\npub fn f(x: u32) { std::mem::drop(x); ::std::mem::drop(x) }\n",
        "::std::mem::drop($a) ==>> $a",
        "1 match in 1 file: 1 edit",
    ),
    # functions in blocks
    (
        "fn drop(_: u32) {}\npub fn f() { { fn drop(_: u8) {} drop(3); } drop(4); }\npub fn g() { use std::mem::drop; drop(3); { fn h() { drop(4) } } }\n",
        "std::mem::drop($a) ==>> $a",
        "2 matches in 1 file: 2 edits",
    ),
    # a module of the standard library that is named as a builtin type
    (
        "use std::u32;\npub fn f() -> u32 { u32::MAX - std::u32::MAX - u32::max_value() }\n",
        "std::u32::MAX ==>> 7",
        "2 matches in 1 file: 2 edits",
    ),
    # `Self`; a path that names an alias of a type is another one
    (
        "pub struct A;\npub struct B;\nimpl A { pub fn new(_: u32) -> Self { A } pub fn two() { Self::new(1); A::new(2); B::new(3); } }\nimpl B { pub fn new(_: u32) {} pub fn two() { Self::new(4); } }\npub type C = A;\npub fn f() { C::new(5); }\n",
        "A::new($a) ==>> $a",
        "2 matches in 1 file: 2 edits",
    ),
    # a type under other names
    (
        "use std::collections::HashMap as Map;\nuse std::collections::hash_map;\nmod m { pub use super::Map as Again; }\npub fn f() { Map::<u32, u32>::new(); hash_map::HashMap::<u32, u32>::new(); m::Again::<u32, u32>::new(); }\n",
        "std::collections::HashMap::<$k, $v>::new() ==>> 0",
        "3 matches in 1 file: 3 edits",
    ),
    # names that functions bind
    (
        "fn put(_: u32) {}\nconst LIMIT: u32 = 3;\npub fn f(put: fn(u32)) { put(3) }\npub fn g(x: u32) { match x { LIMIT => put(1), put => drop(put) } }\npub fn h() { put(2) }\n",
        "put($a) ==>> $a",
        "1 match in 1 file: 1 edit; 2 undecided",
    ),
    # an import of what isn't there
    (
        "use crate::nowhere::thing;\nuse crate::own as made;\nmod own { pub fn thing(_: u32) {} }\npub fn f() { thing(1); made::thing(2); }\n",
        "own::thing($a) ==>> $a",
        "1 match in 1 file: 1 edit; 1 undecided",
    ),
]
OLD = '[package]\nname = "little"\nversion = "0.1.0"\n'
OLD_LIB = "mod m { use mem::take; use std::mem; pub fn f(x: &mut u32) { mem::replace(x, 3); ::std::mem::replace(x, 4); take(5) } }\nmod mem { pub fn take(_: u32) {} }\npub fn g() { ::mem::take(6); mem::take(7) }\n"


@example
def names_mean_what_they_do_in_the_code(program):
    for text, rule, summary in SOURCES_WITH_TRAPS:
        with Package({"Cargo.toml": MANIFEST, "src/lib.rs": text}) as package:
            yield package.run(program, rule)[2].splitlines()[-1].startswith(summary)


@example
def paths_of_imports_begin_in_the_root_in_the_first_edition(program):
    with Package({"Cargo.toml": OLD, "src/lib.rs": OLD_LIB}) as package:
        yield "3 matches in 1 file: 3 edits" in package.run(program, "mem::take($a) ==>> $a")[2]
        yield "2 matches in 1 file: 2 edits" in package.run(program, "std::mem::replace($a, $b) ==>> $b")[2]


@example
def a_reason_is_shown_once(program):
    with Package({"one.rs": "fn f() { match x { _ => a.b() } }\n"}) as package:
        _, out, _ = package.run(program, "--debug", "a.b()", "$a.c() ==>> $a", "--", "one.rs")
        yield len(out.splitlines()) == len(set(out.splitlines())) > 0


@example
def a_name_that_is_not_known_is_told_as_such(program):
    text = "fn foo() {} fn main() { foo(1) }"
    facts = {"files": [{"name": "a.rs", "text": text}], "defs": [{"kind": "function"}], "scopes": [[0, 0, len(text)]], "names": [[0, ["foo"], ["def", 0]]]}
    with Package({"facts.json": json.dumps(facts)}) as package:
        status, out, _ = package.run(program, "--facts", "facts.json", "--debug", "foo(1)", "foo($a) ==>> $a")
        yield (status, out) == (0, "a.rs:1:25: rule 0: no name known for `foo`\n")


@example
def wrong_words_are_refused(program):
    with Package() as package:
        for words in [[], [RULE, "--write", "--check"], ["--search", "$a", RULE], ["--color", "red", RULE], ["--none"], [RULE, "--in", "x"],
                      [RULE, "--facts", "f", "--", "src"], [RULE, "-p", "little", "--", "src"]]:
            status, out, told = package.run(program, *words)
            yield (status, out) == (2, "") and "Usage" in told


@example
def help_and_version_are_shown(program):
    with Package() as package:
        status, out, told = package.run(program, "--help")
        yield (status, told) == (0, "") and "RULE" in out and "--write" in out
        status, out, told = package.run(program, "--version")
        yield (status, told) == (0, "") and out.startswith("cargo ssr ")


@example
def packages_that_cannot_be_read_are_told(program):
    with Package({"src/lib.rs": LIB}) as package:
        status, out, told = package.run(program, RULE)
        yield (status, out) == (3, "") and "Cargo.toml" in told
    with Package({"Cargo.toml": "[package\n", "src/lib.rs": LIB}) as package:
        status, out, told = package.run(program, RULE)
        yield (status, out) == (3, "") and "Cargo.toml" in told


@example
def a_package_is_found_from_below(program):
    with Package() as package:
        status, out, _ = package.run(program, RULE, within="src")
        yield status == 0 and "a/src/lib.rs" in out


@example
def members_are_found_by_patterns(program):
    files = {"Cargo.toml": '[workspace]\nmembers = ["deep/*/x", "all/**", "a[b]", "no/*/y"]\nexclude = ["all/old"]\n'}
    for folder in "all/b/c", "all/old/d", "deep/k/x", "deep/x":
        files |= {f"{folder}/Cargo.toml": MANIFEST, f"{folder}/src/lib.rs": "fn f() { a.unwrap() }\n"}
    with Package(files) as package:
        status, out, told = package.run(program, "--search", "$a.unwrap()")
        yield (status, out) == (0, "".join(f"{folder}/src/lib.rs:1:10: a.unwrap()\n" for folder in ("all/b/c", "deep/k/x")))
        yield told == 'members "a[b]": [ isn\'t read\nmembers "no/*/y": no folder fits\n2 matches in 2 files\n'


@example
def a_pattern_has_any_number_of_marks(program):
    found = ("a1b", "aéb", "xay", "ax", "xaybz", "xyz")
    patterns = {"a?b": ["a1b", "aéb"], "*a*": ["a1b", "ax", "aéb", "xay", "xaybz"], "x*y*": ["xay", "xaybz", "xyz"], "?a?b?": ["xaybz"], "**/?????": ["xaybz"],
                "a?": ["ax"], "*z*z": [], "*a*" * 40 + "?": []}
    for pattern, folders in patterns.items():
        files = {"Cargo.toml": f'[workspace]\nmembers = ["{pattern}"]\n'}
        for folder in found:
            files |= {f"{folder}/Cargo.toml": MANIFEST, f"{folder}/src/lib.rs": "fn f() { a.unwrap() }\n"}
        with Package(files) as package:
            out = package.run(program, "--search", "$a.unwrap()")[1]
            yield out == "".join(f"{folder}/src/lib.rs:1:10: a.unwrap()\n" for folder in folders)


@example
def files_that_nothing_reaches_are_told(program):
    files = {"Cargo.toml": MANIFEST, "src/lib.rs": "fn f() {}\n", "src/bin/one.rs": "fn main() {}\n", "src/b.rs": "", "other.rs": ""}
    with Package(files) as package:
        yield package.run(program, "-q", RULE)[2] == "1 file below src is reached by no mod item: src/b.rs; name it behind --\n"
        yield package.run(program, "-q", RULE, "--", "src/lib.rs") == (0, "", "")
    with Package(files | {"src/.hidden.rs": "", "src/.git/x.rs": "", "src/a/c.rs": "", "src/a.rs": ""}) as package:
        (package.folder / "src/link.rs").symlink_to(package.folder / "other.rs")
        told = "3 files below src are reached by no mod item: src/a.rs, src/a/c.rs, src/b.rs; name them behind --\n"
        yield package.run(program, "-q", RULE) == (0, "", told)
        (package.folder / "src/z.rs").write_text("")
        yield package.run(program, "-q", RULE)[2].startswith("4 files below src are reached by no mod item: src/a.rs, src/a/c.rs, src/b.rs, ..; name them behind --")
    # of two packages one has such a file, and a third one isn't searched
    files = {"Cargo.toml": '[workspace]\nmembers = ["one", "two"]\n'}
    for folder in "one", "two", "three":
        files |= {f"{folder}/Cargo.toml": MANIFEST.replace("little", folder), f"{folder}/src/lib.rs": "mod a;\n", f"{folder}/src/a.rs": ""}
    with Package(files | {"two/src/b.rs": "", "three/src/b.rs": ""}) as package:
        told = "1 file below two/src is reached by no mod item: two/src/b.rs; name it behind --\n"
        yield package.run(program, "-q", RULE) == (0, "", told)
        yield package.run(program, "-q", RULE, "-p", "one") == (0, "", "")


@example
def included_files_are_told(program):
    why = "isn't searched; name that file behind --\n"
    texts = {
        'include!("b.rs");\n': f"src/lib.rs:1:1: include!: b.rs {why}",
        '\ufeff\n#[cfg(a)]\ninclude! { r"b.rs", }\n': f"src/lib.rs:3:1: include!: b.rs {why}",
        'fn f() { g(); include!["../b.rs"]; }\n': f"src/lib.rs:1:15: include!: ../b.rs {why}",
        # this one is searched
        'mod a;\ninclude!("a.rs");\n': "",
        'fn f() -> &str { include_str!("b.rs"); let a = include!("b.rs"); // include!("b.rs");\n  include!(concat!("b", ".rs")); include!("b.rs") }\n': "",
        'include!("b.rs"); ' * 5: "".join(f"src/lib.rs:1:{at}: include!: b.rs {why}" for at in (1, 19, 37)) + "src/lib.rs: include!: ..\n",
    }
    for text, told in texts.items():
        with Package({"Cargo.toml": MANIFEST, "src/lib.rs": text, "b.rs": ""} | ({"src/a.rs": ""} if "mod a" in text else {})) as package:
            yield package.run(program, "-q", RULE) == (0, "", told)
            yield package.run(program, "-q", RULE, "--", "src") == (0, "", told)
    with Package({"src/lib.rs": 'include!("../b.rs");\n', "b.rs": ""}) as package:
        yield package.run(program, "-q", RULE, "--", "src", "b.rs") == (0, "", "")


@example
def dependencies_by_path_are_members(program):
    needs = {"one": 'two = { path = "../two" }\nlog = "0.4"', "two": "three = { workspace = true }", "three": 'four = { path = "../../four" }'}
    files = {"Cargo.toml": '[workspace]\nmembers = ["one"]\n\n[workspace.dependencies]\nthree = { path = "three" }\n'}
    for name, needed in needs.items():
        files[f"{name}/Cargo.toml"] = f'[package]\nname = "{name}"\n\n[dependencies]\n{needed}\n'
        files[f"{name}/src/lib.rs"] = "fn f() { a.unwrap() }\n"
    with Package(files) as package:
        status, out, _ = package.run(program, "--search", "$a.unwrap()")
        yield (status, out) == (0, "".join(f"{name}/src/lib.rs:1:10: a.unwrap()\n" for name in sorted(needs)))
        status, out, _ = package.run(program, "--search", "$a.unwrap()", "-p", "three")
        yield (status, out) == (0, "three/src/lib.rs:1:10: a.unwrap()\n")


@example
def links_are_not_followed(program):
    with Package() as package, Package({"inner.rs": INNER}) as other:
        (package.folder / "src/inner.rs").unlink()
        (package.folder / "src/inner.rs").symlink_to(other.folder / "inner.rs")
        status, _, told = package.run(program, RULE, "--write")
        yield status == 0 and "src/inner.rs" in told and other.read("inner.rs") == INNER
        yield package.read("src/lib.rs") == NEW_LIB


@example
def all_files_are_written_or_none(program):
    if os.geteuid() == 0:
        # who may write everywhere isn't stopped by a folder's mode: a left-over temporary file stops as well
        with Package() as package:
            (package.folder / "src/.lib.rs.ssr-tmp").write_text("")
            before = package.texts()
            status, _, told = package.run(program, RULE, "--write")
            yield status == 3 and "src/.lib.rs.ssr-tmp" in told and package.texts() == before
        return
    with Package() as package:
        os.chmod(package.folder / "src", 0o555)
        before = package.texts()
        status, _, _ = package.run(program, RULE, "--write")
        yield status == 3 and package.texts() == before
        os.chmod(package.folder / "src", 0o755)


@example
def a_clash_leaves_all_as_it_was(program):
    # Two matches in what a macro call stands for come from ranges of the file that share bytes.
    text = "fn f() { m!(1 + 2 + 3) }"
    tokens = [["(", False], ["1", False, 12, 13], ["+", False, 14, 15], ["2", False, 16, 17], [",", False]]
    tokens += [["2", False, 16, 17], ["+", False, 18, 19], ["3", False, 20, 21], [")", False]]
    clash = {
        "files": [{"name": "a.rs", "text": text}, {"name": "b.rs", "text": "fn g() { 1 + 2 }"}],
        "expansions": [{"call": [0, 9, 22], "kind": "expr", "tokens": tokens}],
        "scopes": [[0, 0, 24], [1, 0, 16], [2, 0, 9]],
    }
    with Package({"a.rs": text, "b.rs": "fn g() { 1 + 2 }", "facts.json": json.dumps(clash)}) as package:
        before = package.texts()
        status, out, told = package.run(program, "--facts", "facts.json", "$a + $b ==>> $b + $a", "--write")
        yield (status, out) == (3, "") and "a.rs:1:13" in told and len(told.splitlines()) == 1 and package.texts() == before


@example
def facts_are_read(program):
    text = "fn g() { 1 + 2 }"
    facts = {"files": [{"name": "b.rs", "text": text}], "scopes": [[0, 0, 16]]}
    with Package({"b.rs": text, "facts.json": json.dumps(facts)}) as package:
        status, _, _ = package.run(program, "--facts", "facts.json", "$a + $b ==>> $b + $a", "--write")
        yield status == 0 and package.read("b.rs") == "fn g() { 2 + 1 }"
        # the text on the disk is not that of the facts any more
        status, _, told = package.run(program, "--facts", "facts.json", "$a + $b ==>> $b + $a", "--write")
        yield status == 3 and "b.rs" in told and package.read("b.rs") == "fn g() { 2 + 1 }"
    outside = {"files": [{"name": "../b.rs", "text": text}], "scopes": [[0, 0, 16]]}
    with Package({"facts.json": json.dumps(outside)}) as package:
        status, _, told = package.run(program, "--facts", "facts.json", "$a + $b ==>> $b + $a", "--write")
        yield status == 3 and "outside" in told
    linked = {"files": [{"name": "link/b.rs", "text": text}], "scopes": [[0, 0, 16]]}
    with Package({"b.rs": text}) as other, Package({"facts.json": json.dumps(linked)}) as package:
        (package.folder / "link").symlink_to(other.folder)
        status, _, told = package.run(program, "--facts", "facts.json", "$a + $b ==>> $b + $a", "--write")
        yield status == 3 and "link/b.rs" in told and other.read("b.rs") == text


@example
def files_of_facts_go_by_their_normal_names(program):
    text = "fn f() { 1 + 2 }"
    rule = "$a + $b ==>> $b + $a"
    facts = {"files": [{"name": ".//src/./b.rs", "text": text}], "scopes": [[0, 0, 16]]}
    with Package({"src/b.rs": text, "facts.json": json.dumps(facts)}) as package:
        _, diff, _ = package.run(program, "--facts", "facts.json", rule)
        yield diff.startswith("--- a/src/b.rs\n+++ b/src/b.rs\n")
        applied = subprocess.run(["git", "apply", "-"], input=diff.encode(), cwd=package.folder)
        yield applied.returncode == 0 and package.read("src/b.rs") == "fn f() { 2 + 1 }"
        out = package.run(program, "--facts", "facts.json", "--search", "$a + $b", "--in", "src//./b.rs:1")[1]
        yield out == "src/b.rs:1:10: 1 + 2\n"
    # below target, and one file by two names
    for names, told in [["././target/x.rs"], "target/x.rs: below target"], [["b.rs", ".//b.rs"], "b.rs: comes twice"], [["a/../b.rs"], "a/../b.rs: outside of the folder"]:
        facts = {"files": [{"name": name, "text": text} for name in names], "scopes": [[number, 0, 16] for number in range(len(names))]}
        with Package({"b.rs": text, "target/x.rs": text, "a/x": "", "facts.json": json.dumps(facts)}) as package:
            before = package.texts()
            yield package.run(program, "--facts", "facts.json", rule, "--write") == (3, "", f"error: {told}\n") and package.texts() == before


# Malformed facts, and where they are so.
MALFORMED = [
    ({"members": [[0, 3, "new", 4], [0, 3, "new"]]}, "row 1 of members"),
    ({"files": [{"name": "a.rs", "text": ""}], "defs": [{"kind": "function", "colour": 1}]}, "row 0 of defs"),
    ({"position": [0]}, "key position"),
    ({"colours": [1]}, "key colours"),
    ({"scopes": 1}, "key scopes"),
    ([], "no object"),
    ({"files": [{"name": "a.rs", "text": ""}], "scopes": [[7, 0, 0]]}, "a number names nothing, or a row no node"),
]


@example
def malformed_facts_are_told_with_their_place(program):
    for facts, where in MALFORMED:
        with Package({"facts.json": json.dumps(facts)}) as package:
            told = package.run(program, RULE, "--facts", "facts.json")
            yield told == (3, "", f"error: facts.json: wrong shape: {where}\n")


@example
def names_are_looked_up_at_a_place(program):
    with Package() as package:
        yield package.run(program, RULE, "--in", "src/lib.rs:3:1")[0] == 0
        status, _, told = package.run(program, RULE, "--in", "src/none.rs:1")
        yield status == 3 and "src/none.rs:1:1" in told


# ** Names: a package with a function that is imported, one of its own of the same name, and a glob of a crate that isn't read.

DEPOT = {
    "Cargo.toml": MANIFEST.replace("little", "depot") + "\n[dependencies]\nrayon = \"1\"\n",
    "src/lib.rs": """\
use std::mem;
mod pool;
pub mod queue;
pub fn clear(slot: &mut Option<u32>) -> Option<u32> { mem::replace(slot, None) }
pub fn attempt(job: u32) -> bool { job < u32::max_value() }
""",
    "src/queue.rs": """\
use crate::attempt;
use std::mem::replace as put;
pub struct Queue { pub jobs: Vec<u32>, pub last: Option<u32> }
impl Queue {
    pub fn last(&mut self) -> bool { assert!(put(&mut self.last, None).is_some()); self.ready() == 0 }
    pub fn ready(&self) -> usize { self.jobs.iter().filter(|job| attempt(**job)).count() }
}
pub fn start(job: u32) -> bool { job > 0 }
fn replace(old: u32, new: Option<u32>) -> u32 { new.unwrap_or(old) }
pub fn own(n: u32) -> bool { let attempt = |n: u32| n == 2; attempt(replace(n, None)) }
""",
    "src/pool.rs": """\
use crate::queue::Queue;
use rayon::prelude::*;
pub fn reset(q: &mut Queue) -> bool {
    std::mem::replace(&mut q.last, None);
    q.jobs.par_iter().all(|job| crate::attempt(*job))
}
""",
}
TAKE = "std::mem::replace($a, None) ==>> $a.take()"
UNDECIDED = "src/pool.rs:4:5: undecided by `None`: std::mem::replace(&mut q.last, None)\n"

# Words of the command, the lines that a diff adds, and what is told.
DEPOT_RUNS = [
    (
        [TAKE],
        [
            "pub fn clear(slot: &mut Option<u32>) -> Option<u32> { slot.take() }",
            "    pub fn last(&mut self) -> bool { assert!((&mut self.last).take().is_some()); self.ready() == 0 }",
        ],
        "2 matches in 2 files: 2 edits; 1 undecided\n",
    ),
    (
        ["attempt($j) ==>> queue::start($j)"],
        [
            "    q.jobs.par_iter().all(|job| crate::queue::start(*job))",
            "    pub fn ready(&self) -> usize { self.jobs.iter().filter(|job| start(**job)).count() }",
        ],
        "2 matches in 2 files: 2 edits; 1 undecided\n",
    ),
    (
        ["std::mem::replace($a, $b) ==>> std::mem::take($a)"],
        [
            "pub fn clear(slot: &mut Option<u32>) -> Option<u32> { mem::take(slot) }",
            "    std::mem::take(&mut q.last);",
            "    pub fn last(&mut self) -> bool { assert!(std::mem::take(&mut self.last).is_some()); self.ready() == 0 }",
        ],
        "3 matches in 3 files: 3 edits\n",
    ),
    (["u32::max_value() ==>> u32::MAX"], ["pub fn attempt(job: u32) -> bool { job < u32::MAX }"], "1 match in 1 file: 1 edit\n"),
    (
        ["--in", "src/queue.rs:1", "replace($a, $b) ==>> $b"],
        ["pub fn own(n: u32) -> bool { let attempt = |n: u32| n == 2; attempt(None) }"],
        "1 match in 1 file: 1 edit\n",
    ),
    (["queue::Queue::ready($q) ==>> $q.jobs.len()"], [], "0 matches; 1 undecided\n"),
]


def added(diff):
    """The lines that a diff adds, by the files' names."""
    return sorted(line[1:] for line in diff.splitlines() if line.startswith("+") and not line.startswith("+++"))


@example
def names_are_known_by_the_sources(program):
    with Package(DEPOT) as package:
        for words, lines, told in DEPOT_RUNS:
            status, diff, err = package.run(program, *words)
            is_so = (status, added(diff), err) == (0, sorted(lines), told)
            if not is_so:
                print(f"{words}: status {status}\n{diff}{err}", end="")
            yield is_so


@example
def undecided_places_are_listed(program):
    with Package(DEPOT) as package:
        _, shown, told = package.run(program, TAKE)
        yield package.run(program, TAKE, "--undecided") == (0, shown, UNDECIDED + told)
        yield package.run(program, TAKE, "--undecided", "-q") == (0, shown, UNDECIDED)
        lines = package.run(program, TAKE, "--json")[1].splitlines()
        yield len(lines) == 3 and json.loads(lines[2])["summary"]["undecided"] == 1
        _, listed, told = package.run(program, "--search", "attempt($j)", "--undecided")
        yield [line.split(" ")[0] for line in listed.splitlines()] == ["src/pool.rs:5:33:", "src/queue.rs:6:66:"]
        yield told == "src/queue.rs:10:61: undecided by `attempt`: attempt(replace(n, None))\n2 matches in 2 files; 1 undecided\n"
        yield package.run(program, TAKE, "--write", "-q")[0] == 0 and "    std::mem::replace(&mut q.last, None);\n" in package.read("src/pool.rs")


@example
def paths_are_searched_with_the_names_of_their_package(program):
    with Package(DEPOT) as package:
        status, diff, told = package.run(program, "attempt($j) ==>> queue::start($j)", "--", "src/queue.rs")
        yield status == 0 and added(diff) == [DEPOT_RUNS[1][1][1]] and told == "1 match in 1 file: 1 edit; 1 undecided\n"
        yield package.run(program, "attempt($j) ==>> queue::start($j)", "--", "queue.rs", within="src") == (0, diff, told)
        yield package.run(program, TAKE, "--", "src/pool.rs") == (0, "", "0 matches; 1 undecided\n")
        yield package.run(program, TAKE, "--", "src/none.rs")[0] == 3
    with Package({**DEPOT, "src/empty.rs": ""}) as package:
        yield package.run(program, TAKE, "--", "src/empty.rs") == (0, "", "0 matches\n")
    with Package({"one.rs": "fn f() { std::mem::replace(a, None); }\n"}) as package:
        status, diff, told = package.run(program, TAKE, "--", "one.rs")
        yield status == 0 and added(diff) == ["fn f() { a.take(); }"] and told == "1 match in 1 file: 1 edit\n"


@example
def paths_that_do_not_resolve_are_told_with_what_ends_so(program):
    here = "names are looked up in src/lib.rs, or where --in says\n"
    with Package(DEPOT) as package:
        refused = "error: rule 0: Failed to resolve path"
        yield package.run(program, "reset($q) ==>> $q") == (3, "", f"{refused} `reset`\ncrate::pool::reset ends so; {here}")
        yield package.run(program, "nothing($q) ==>> $q") == (3, "", f"{refused} `nothing`\n{here}")
        status, _, told = package.run(program, "--in", "src/pool.rs:1", "start($q) ==>> $q")
        yield (status, told) == (3, f"{refused} `start`\ncrate::queue::start ends so; names are looked up where --in says\n")
        yield package.run(program, "--in", "src/pool.rs:1", "reset($q) ==>> $q")[0] == 0
    two = {"Cargo.toml": MANIFEST, "src/lib.rs": "mod p {}\nfn p() -> u8 { 1 }\nfn f() { p(); }\n"}
    with Package(two) as package:
        yield package.run(program, "p() ==>> 2")[2] == "1 match in 1 file: 1 edit\n"
        yield package.run(program, "p ==>> ()")[2] == "error: rule 0: Failed to resolve path `p`: p is a function and a module\n"


# ** Names that are easily taken for others: what each file is, the words of the command, the lines that a diff adds, and what is told.

EDITION_2015 = MANIFEST.replace("2021", "2015")
DROP = "std::mem::drop($a) ==>> free($a)"
OWN_FREE = "pub fn free<T>(_: T) {}\n"

TRAPS = [
    # a macro of the package may bring in a file
    ("macro_rules! load { () => { include!(\"b.rs\"); } }\nload!();\nfn free(a: u8) {}\nfn f() { drop(1) }\n", DROP, [], "0 matches; 1 undecided\n"),
    # so may a macro of another crate, as its name says, or since nothing in its argument could be the name of an item
    ("pub mod b { foreign::include_proto!(\"p\"); }\nuse b::*;\nfn free(a: u8) {}\nfn f() { drop(1) }\n", DROP, [], "0 matches; 1 undecided\n"),
    ("foreign::bindings!(\"p\");\nfn free(a: u8) {}\nfn f() { drop(1) }\n", DROP, [], "0 matches; 1 undecided\n"),
    # words that a macro of the package passes on to one that isn't read
    ("macro_rules! m { ($($n:ident)*) => { foreign::make! { $($n)* } } }\nm!(drop);\nfn free(a: u8) {}\nfn f() { drop(1) }\n", DROP, [], "0 matches; 1 undecided\n"),
    ("macro_rules! m { () => { foreign::make! { drop } } }\nm!();\nfn free(a: u8) {}\nfn f() { drop(1) }\n", DROP, [], "0 matches; 1 undecided\n"),
    ("macro_rules! same { ($($t:tt)*) => { $($t)* } }\nsame!(foreign::make!(drop););\nfn free(a: u8) {}\nfn f() { drop(1) }\n", DROP, [], "0 matches; 1 undecided\n"),
    # or to another one of the package
    ("macro_rules! a { ($n:ident) => { fn $n(_: u8) {} } }\nmacro_rules! b { () => { a!(drop); } }\nb!();\nfn free(a: u8) {}\nfn f() { drop(1) }\n", DROP, [], "0 matches; 1 undecided\n"),
    # what a function in such a macro calls declares nothing around it
    ("struct Job;\nimpl Job { fn a() -> u8 { 1 } }\nmacro_rules! m { ($t:ident) => { impl $t { fn b() { foreign::say!(\"b\") } } } }\nm!(Job);\nfn f() -> u8 { Job::a() }\n", "Job::a() ==>> 7", ["fn f() -> u8 { 7 }"], "1 match in 1 file: 1 edit\n"),
    # what an `impl`, a module or a macro has in the body of a macro is none of the names around, but what a block of foreign items has is
    ("macro_rules! m { ($t:ident $n:ident) => { impl $t { fn $n() {} } } }\nstruct Job;\nm!(Job drop);\nfn free(a: u8) {}\nfn f() { drop(1) }\n", DROP, ["fn f() { free(1) }"], "1 match in 1 file: 1 edit\n"),
    ("macro_rules! put { ($n:ident) => { fn $n() {} } }\nmacro_rules! m { ($t:ident $n:ident) => { impl $t { put!($n); } } }\nstruct Job;\nm!(Job drop);\nfn free(a: u8) {}\nfn f() { drop(1) }\n", DROP, ["fn f() { free(1) }"], "1 match in 1 file: 1 edit\n"),
    ("macro_rules! tests { () => { mod t { use super::*; fn drop() {} } } }\ntests!();\nfn free(a: u8) {}\nfn f() { drop(1) }\n", DROP, ["fn f() { free(1) }"], "1 match in 1 file: 1 edit\n"),
    ("macro_rules! m { ($n:ident) => { extern \"C\" { fn $n(a: u8); } } }\nm!(drop);\nfn free(a: u8) {}\nfn f() { drop(1) }\n", DROP, [], "0 matches; 1 undecided\n"),
    # a macro in the body of another one may declare it later
    ("macro_rules! m { ($n:ident) => { macro_rules! k { ($a:ident) => { fn $n($a: u8) {} } } } }\nm!(drop);\nk!(a);\nfn free(a: u8) {}\nfn f() { drop(1) }\n", DROP, [], "0 matches; 1 undecided\n"),
    ("macro_rules! put { ($n:ident) => { fn $n(a: u8) {} } }\nmacro_rules! m { ($n:ident) => { macro_rules! k { ($a:ident) => { put!($n); } } } }\nm!(drop);\nk!(a);\nfn free(a: u8) {}\nfn f() { drop(1) }\n", DROP, [], "0 matches; 1 undecided\n"),
    # an item in the body of a macro may be there
    ("macro_rules! make { () => { pub struct Job; } }\nmake!();\npub struct Task;\npub fn f(j: Job) {}\n", "Job ==>> Task", ["pub fn f(j: Task) {}"], "1 match in 1 file: 1 edit\n"),
    ("macro_rules! make { () => { fn drop(a: u8) {} }; (no) => {} }\nmake!();\nfn free(a: u8) {}\nfn f() { drop(1) }\n", DROP, [], "0 matches; 1 undecided\n"),
    # a name that a macro puts together
    ("macro_rules! m { ($n:ident) => { foreign::paste! { fn [<dr $n>](a: u8) {} } } }\nm!(op);\nfn free(a: u8) {}\nfn f() { drop(1) }\n", DROP, [], "0 matches; 1 undecided\n"),
    # another crate's macro with the name of one of the package
    ("macro_rules! make { () => {} }\nforeign::make!(drop);\nfn free(a: u8) {}\nfn f() { drop(1) }\n", DROP, [], "0 matches; 1 undecided\n"),
    # imported or declared, by the compiler's version
    ("#[rustversion::since(1.40)] use std::mem::drop as g;\n#[rustversion::before(1.40)] fn g(a: u8) {}\nfn free(a: u8) {}\nfn f() { g(1) }\n", DROP, [], "0 matches; 1 undecided\n"),
    # a module that says inside that it stands under a condition
    ("mod std { #![cfg(unix)] pub mod mem { pub fn drop(_: u8) {} } }\nfn free(a: u8) {}\nfn f() { std::mem::drop(1) }\n", "::std::mem::drop($a) ==>> free($a)", [], "0 matches; 1 undecided\n"),
    ("mod std { #![cfg(unix)] macro other() {} pub mod mem { pub fn drop(_: u8) {} } }\nfn free(a: u8) {}\nfn f() { std::mem::drop(1) }\n", "::std::mem::drop($a) ==>> free($a)", [], "0 matches; 1 undecided; 1 file not searched whole\n"),
    # so may a function, and a block of foreign items
    ("fn drop(a: u8) { #![cfg(unix)] }\nfn free(a: u8) {}\nfn f() { drop(1) }\n", DROP, [], "0 matches; 1 undecided\n"),
    ("extern \"C\" { #![cfg(unix)] fn drop(a: u8); }\nfn free(a: u8) {}\nfn f() { unsafe { drop(1) } }\n", DROP, [], "0 matches; 1 undecided\n"),
    # macros of a module that says inside that they are seen around it
    ("mod m { #![macro_use] macro_rules! check { ($a:expr) => { $a } } }\nfn f(a: u8) -> u8 { check!(a) }\n", "check!($a) ==>> $a", ["fn f(a: u8) -> u8 { a }"], "1 match in 1 file: 1 edit\n"),
    # what a foreign block has are items of the module around it
    ("extern \"C\" { fn drop(a: u8); }\nfn free(a: u8) {}\nfn f() { unsafe { drop(1) } }\n", DROP, [], "0 matches\n"),
    ("unsafe extern \"C\" { safe fn drop(a: u8); }\nfn free(a: u8) {}\nfn f() { drop(1) }\n", DROP, [], None),
    ("fn free(a: u8) {}\nfn f() { extern \"C\" { fn drop(a: u8); } unsafe { drop(1) } }\nfn g() { drop(2) }\n", DROP, ["fn g() { free(2) }"], "1 match in 1 file: 1 edit\n"),
    ("#[cfg(unix)] extern \"C\" { fn drop(a: u8); }\nfn free(a: u8) {}\nfn f() { unsafe { drop(1) } }\n", DROP, [], "0 matches; 1 undecided\n"),
    ("extern \"C\" { foreign::make!(drop); }\nfn free(a: u8) {}\nfn f() { unsafe { drop(1) } }\n", DROP, [], "0 matches; 1 undecided\n"),
    ("mod m { extern \"C\" { fn drop(a: u8); } }\nuse m::*;\nfn free(a: u8) {}\nfn f() { drop(1) }\n", DROP, ["fn f() { free(1) }"], "1 match in 1 file: 1 edit\n"),
    ("pub mod m { extern \"C\" { pub static limit: u8; pub fn take(limit: u8) -> u8; } }\npub mod n { pub static limit: u8 = 1; }\nfn f() -> u8 { unsafe { m::limit + m::take(2) + n::limit } }\n", "m::limit ==>> n::limit", ["fn f() -> u8 { unsafe { n::limit + m::take(2) + n::limit } }"], "1 match in 1 file: 1 edit\n"),
    # a crate under another name, in its module alone
    ("extern crate std as base;\nfn free(a: u8) {}\nfn f() { base::mem::drop(1) }\n", DROP, ["fn f() { free(1) }"], "1 match in 1 file: 1 edit\n"),
    ("mod m { extern crate foreign as std; fn f() { std::mem::drop(1) } }\nfn free(a: u8) {}\nfn f() { std::mem::drop(2) }\n", DROP, ["fn f() { free(2) }"], "1 match in 1 file: 1 edit\n"),
    ("mod m { #[cfg(unix)] extern crate foreign as std; fn f() { std::mem::drop(1) } }\nfn free(a: u8) {}\n", DROP, [], "0 matches; 1 undecided\n"),
    ("extern crate foreign as _;\nextern crate self as own;\nfn g(a: u8) -> u8 { a }\nfn f() -> u8 { own::g(1) }\n", "g($a) ==>> $a", ["fn f() -> u8 { 1 }"], "1 match in 1 file: 1 edit\n"),
    # an item, and a call that may declare one, behind attributes of a statement
    ("mod m { pub fn drop(a: u8) {} }\nfn free(a: u8) {}\nfn f() { #[cfg(unix)] use m::drop; drop(1) }\n", DROP, [], "0 matches; 1 undecided\n"),
    ("use std::mem;\nfn free(a: u8) {}\nfn f() { #[allow(unused)] make!(mem); mem::drop(1) }\nfn g() { #[allow(unused)] std::assert!(true); mem::drop(2) }\n", DROP, ["fn g() { #[allow(unused)] std::assert!(true); free(2) }"], "1 match in 1 file: 1 edit; 1 undecided\n"),
    # generics hide a name in their function
    (
        "mod m { pub struct Job; impl Job { pub fn make() -> u8 { 1 } } }\nuse m::Job;\ntrait Make { fn make() -> u8; }\nfn load<Job: Make, I: Iterator<Item: Into<u8>>>(i: I) -> u8 { Job::make() }\nfn f() -> u8 { Job::make() + m::Job::make() }\n",
        "m::Job::make() ==>> 7",
        ["fn f() -> u8 { 7 + 7 }"],
        "2 matches in 1 file: 2 edits; 1 undecided\n",
    ),
    ("fn f<#[allow(unused)] Vec: Default>() -> Vec { Vec::default() }\nfn g() -> Vec<u8> { Vec::default() }\n", "Vec::default() ==>> Vec::new()", ["fn g() -> Vec<u8> { std::vec::Vec::new() }"], "1 match in 1 file: 1 edit; 1 undecided\n"),
    # so do those that aren't read; which functions of a module have such isn't known
    (
        "mod m { pub struct Job; impl Job { pub fn make() -> u8 { 1 } } }\nuse m::Job;\ntrait Make { fn make() -> u8; }\nfn load<Job: Make, I: Iterator<next(..): Send>>(i: I) -> u8 { Job::make() }\nfn f() -> u8 { m::Job::make() }\n",
        "m::Job::make() ==>> 7",
        ["fn f() -> u8 { 7 }"],
        "1 match in 1 file: 1 edit; 1 undecided; 1 file not searched whole\n",
    ),
    # types of pointers, of bounds for any lifetime and of macros
    ("type G = fn(key: String) -> u8;\nfn f(g: fn(String), h: &dyn for<'a> Fn(&'a String), i: t!(String)) where for<'a> &'a String: Into<u8> {}\n", "String ==>> Vec<u8>", ["type G = fn(key: Vec<u8>) -> u8;", "fn f(g: fn(Vec<u8>), h: &dyn for<'a> Fn(&'a Vec<u8>), i: t!(String)) where for<'a> &'a Vec<u8>: Into<u8> {}"], "4 matches in 1 file: 4 edits\n"),
    # an item that isn't read
    # what isn't read hides no name of a rule, but one of the code
    ("foreign::bindings!(\"p\");\nmod m { fn g() { Vec::new(); } }\nfn f() { Vec::new(); }\n", "Vec::new() ==>> Vec::default()", ["mod m { fn g() { Vec::default(); } }"], "1 match in 1 file: 1 edit; 1 undecided\n"),
    ("foreign::doctest!(\"../README.md\");\nfn f() { Vec::new(); }\n", "Vec::new() ==>> Vec::default()", ["fn f() { Vec::default(); }"], "1 match in 1 file: 1 edit\n"),
    ("union Vec { a: u8 }\nfn f() { Vec::new(); std::vec::Vec::new(); }\n", "std::vec::Vec::new() ==>> 7", ["fn f() { Vec::new(); 7; }"], "1 match in 1 file: 1 edit\n"),
    ("union Vec { a: unsafe<'a> T }\nfn f() { Vec::new(); std::vec::Vec::new(); }\n", "std::vec::Vec::new() ==>> 7", ["fn f() { Vec::new(); 7; }"], "1 match in 1 file: 1 edit; 1 undecided; 1 file not searched whole\n"),
    # of a union that isn't read the name alone is unknown
    ("pub(crate) union Slot { a: std::mem::ManuallyDrop<Vec<u8>>, b: unsafe<'a> T }\nfn f() { Vec::new(); }\n", "std::vec::Vec::new() ==>> 7", ["fn f() { 7; }"], "1 match in 1 file: 1 edit; 1 file not searched whole\n"),
    # what a function binds is no item there
    ("fn g(a: u8) -> u8 { a }\nfn f(g: fn(u8) -> u8) -> u8 { g(1) }\nfn h() -> u8 { g(2) }\n", "g($a) ==>> $a", ["fn h() -> u8 { 2 }"], "1 match in 1 file: 1 edit; 1 undecided\n"),
    ("fn g(a: u8) -> u8 { a }\nfn f() -> u8 { if let Some(g) = k() { g(1) } else { 0 } }\n", "g($a) ==>> $a", [], "0 matches; 1 undecided\n"),
    ("fn g(a: u8) -> u8 { a }\nfn f(#[allow(unused)] g: fn(u8) -> u8) -> u8 { g(1) }\n", "g($a) ==>> $a", [], "0 matches; 1 undecided\n"),
    ("fn g(a: u8) -> u8 { a }\nfn f() { let h = async |g: fn(u8) -> u8| g(1); }\n", "g($a) ==>> $a", [], "0 matches; 1 undecided\n"),
    # a macro in the place of a pattern may bind what its argument names, but for constants
    ("macro_rules! p { ($n:ident) => { Some($n) } }\nfn g(a: u8) -> u8 { a }\nfn f(a: Option<fn(u8) -> u8>) -> u8 { match a { p!(g) => g(1), _ => g(2) } }\nfn h() -> u8 { g(3) }\n", "g($a) ==>> $a", ["fn h() -> u8 { 3 }"], "1 match in 1 file: 1 edit; 2 undecided\n"),
    ("fn g(a: u8) -> u8 { a }\nfn f(a: u8) -> u8 { let write!(g) = a else { return 0 }; g(1) }\n", "g($a) ==>> $a", [], "0 matches; 1 undecided\n"),
    ("fn g(a: Option<u8>) {}\nfn h(a: Option<u8>) {}\nfn f(a: Option<u8>) { if let p!(None) = a { g(None) } }\n", "g(None) ==>> h(None)", ["fn f(a: Option<u8>) { if let p!(None) = a { h(None) } }"], "1 match in 1 file: 1 edit\n"),
    # the name of an argument of a function without a body binds nothing
    ("fn g(a: u8) -> u8 { a }\nfn f(h: fn(g: u8) -> u8) -> u8 { h(1) + g(2) }\n", "g($a) ==>> $a", ["fn f(h: fn(g: u8) -> u8) -> u8 { h(1) + 2 }"], "1 match in 1 file: 1 edit\n"),
    ("fn g(a: u8) -> u8 { a }\nfn f() -> u8 { extern \"C\" { fn h(g: u8); } trait T { fn h(g: u8); } g(1) }\nfn i(h: fn(g: u8), g: fn(u8)) { g(2) }\n", "g($a) ==>> $a", ["fn f() -> u8 { extern \"C\" { fn h(g: u8); } trait T { fn h(g: u8); } 1 }"], "1 match in 1 file: 1 edit; 1 undecided\n"),
    ("fn g(a: u8) {}\npub mod m { pub fn h(a: u8) {} }\nuse m::h;\ntrait T { fn i(h: u8); }\nfn f() { g(1) }\n", "g($a) ==>> m::h($a)", ["fn f() { h(1) }"], "1 match in 1 file: 1 edit\n"),
    ("fn g(a: u8) {}\npub mod m { pub fn h(a: u8) {} }\nuse m::h;\ntrait T { fn i(h: u8) {} }\nfn f() { g(1) }\n", "g($a) ==>> m::h($a)", ["fn f() { m::h(1) }"], "1 match in 1 file: 1 edit\n"),
    # a function in a function hides the one around
    ("fn g(a: u8) -> u8 { a }\nfn f() -> u8 { fn g(a: u8) -> u8 { a + 1 } g(1) }\nfn h() -> u8 { g(2) }\n", "g($a) ==>> $a", ["fn h() -> u8 { 2 }"], "1 match in 1 file: 1 edit\n"),
    # a type, a function and a macro may have one name
    ("mod log { pub fn log(a: u8) -> u8 { a } }\nuse log::log;\nfn f() -> u8 { log(1) + log::log(2) }\n", "log::log($a) ==>> $a", ["fn f() -> u8 { 1 + 2 }"], "2 matches in 1 file: 2 edits\n"),
    # a module of the standard library is no value, and a builtin type may have its name
    ("use std::str;\nfn f(a: &str) -> bool { str::from_utf8(b\"a\").is_ok() }\n", "&str ==>> &[u8]", ["fn f(a: &[u8]) -> bool { str::from_utf8(b\"a\").is_ok() }"], "1 match in 1 file: 1 edit\n"),
    # imports in a circle
    ("mod a { pub use crate::b::*; pub fn g(a: u8) -> u8 { a } }\nmod b { pub use crate::a::*; }\nfn f() -> u8 { b::g(1) + a::g(2) }\n", "a::g($a) ==>> $a", ["fn f() -> u8 { 1 + 2 }"], "2 matches in 1 file: 2 edits\n"),
    # an item hides what a glob brings in
    ("mod a { pub fn g(a: u8) -> u8 { a } }\nuse a::*;\nfn g(a: u8) -> u8 { a + 1 }\nfn f() -> u8 { g(1) }\n", "a::g($a) ==>> $a", [], "0 matches\n"),
    # one that is private isn't seen from outside
    ("mod a { fn drop(a: u8) -> u8 { a } pub fn b() {} }\nuse a::*;\nfn free(a: u8) {}\nfn f() { drop(1) }\n", DROP, ["fn f() { free(1) }"], "1 match in 1 file: 1 edit\n"),
    # under one condition imported, under the other one declared
    ("#[cfg(unix)] use std::mem::drop as g;\n#[cfg(not(unix))] fn g(a: u8) {}\nfn free(a: u8) {}\nfn f() { g(1) }\n", DROP, [], "0 matches; 1 undecided\n"),
    # what an import under a condition brings in counts beside the prelude
    ("mod a { pub fn drop(a: u8) {} }\n#[cfg(unix)] use a::drop;\nfn free(a: u8) {}\nfn f() { drop(1) }\n", DROP, [], "0 matches; 1 undecided\n"),
    # a macro of the package may bring in anything by a glob
    ("mod a { pub fn drop(a: u8) {} }\nmacro_rules! all { () => { use a::*; } }\nall!();\nfn free(a: u8) {}\nfn f() { drop(1) }\n", DROP, [], "0 matches; 1 undecided\n"),
    # and a glob of an enum that a macro declares
    ("macro_rules! same { ($($t:tt)*) => { $($t)* } }\nsame! { pub enum Sort { None, Up } }\nuse Sort::*;\npub fn f() -> Sort { None }\n", "std::option::Option::None ==>> 7", [], "0 matches; 1 undecided\n"),
    ("macro_rules! make { () => { pub enum Sort { None, Up } } }\nmake!();\nuse Sort::*;\npub fn f() -> Sort { None }\n", "std::option::Option::None ==>> 7", [], "0 matches; 1 undecided\n"),
    # but for enums and modules of the standard library of which that is known
    ("fn free(a: u8) {}\nfn f() { use std::ops::Bound::*; drop(1) }\nfn g() { use std::ops::*; drop(1) }\n", DROP, ["fn f() { use std::ops::Bound::*; free(1) }"], "1 match in 1 file: 1 edit; 1 undecided\n"),
    # so may a file that is included
    ("include!(\"b.rs\");\nfn free(a: u8) {}\nfn f() { drop(1) }\n", DROP, [], "0 matches; 1 undecided\n"),
    # a macro of one function is none of another one
    ("fn f(a: u8) { macro_rules! assert { ($e:expr) => {} } assert!(a == 1); }\nfn g(a: u8) { assert!(a == 2); }\n", "std::assert!($a == $b) ==>> std::assert_eq!($a, $b)", None, None),
    # `self` and `Self`
    ("pub struct A;\nimpl A { pub fn new() -> A { A } fn b() -> A { Self::new() } }\nfn f() -> A { A::new() }\n", "A::new() ==>> A", None, "2 matches in 1 file: 2 edits\n"),
    # of a type of another crate too; in a trait it is no item
    ("pub trait Make { fn make() -> Self; fn twice(self) -> Self; }\nimpl Make for String { fn make() -> Self { Self::new() } fn twice(self) -> Self { self } }\n", "String ==>> Vec<u8>", ["impl Make for Vec<u8> { fn make() -> Vec<u8> { Self::new() } fn twice(self) -> Vec<u8> { self } }"], "3 matches in 1 file: 3 edits\n"),
    ("pub trait Make { fn make() -> Self; }\nimpl Make for String { fn make() -> Self { Self::new() } }\n", "String::new() ==>> 7", ["impl Make for String { fn make() -> Self { 7 } }"], "1 match in 1 file: 1 edit\n"),
    # another name for it
    ("use std::mem as m;\nuse m::drop as g;\nfn free(a: u8) {}\nfn f() { g(1); m::drop(2) }\n", DROP, ["fn f() { free(1); free(2) }"], "2 matches in 1 file: 2 edits\n"),
    # another crate may bring in a macro of the standard library's name, but for crates that are known to have none
    ("#[macro_use] extern crate pretty_assertions;\nfn f(a: bool) { assert!(a); }\n", "std::assert!($a) ==>> $a", [], "0 matches; 1 undecided\n"),
    ("#[macro_use] extern crate log;\nfn f(a: bool) { assert!(a); }\n", "std::assert!($a) ==>> $a", ["fn f(a: bool) { a; }"], "1 match in 1 file: 1 edit\n"),
    ("use defmt::*;\nfn f(a: bool) { assert!(a); }\n", "std::assert!($a) ==>> $a", [], "0 matches; 1 undecided\n"),
    # so may a macro that declares macros, in the modules below too
    ("macro_rules! make { () => { macro_rules! assert { ($e:expr) => {} } } }\nmake!();\nmod inner { fn f(a: bool) { assert!(a); } }\n", "std::assert!($a) ==>> $a", [], "0 matches; 1 undecided\n"),
    # a macro isn't seen in front of its own item
    ("fn f(a: bool) { assert!(a); }\nmacro_rules! assert { ($e:expr) => {} }\nfn g(a: bool) { assert!(a); }\n", "std::assert!($a) ==>> $a", [], "0 matches; 1 undecided\n"),
    # a function of a macro's name is no macro
    ("use std::ptr::write;\nfn f(a: &mut String) { write!(a, \"b\"); }\n", "std::write!($a, $b) ==>> $b", [], "0 matches; 1 undecided\n"),
    # a block in a macro's argument has its own names
    ("use std::mem::drop;\nfn free(a: u8) {}\nfn f() { assert!({ fn drop(a: u8) -> bool { a == 1 } drop(1) }) }\n", DROP, [], "0 matches\n"),
    # what is written isn't captured by a generic parameter
    ("pub struct Old;\npub struct Key;\nfn f<Key>(a: Old, k: Key) {}\n", "Old ==>> Key", ["fn f<Key>(a: crate::Key, k: Key) {}"], "1 match in 1 file: 1 edit\n"),
    # nor does it begin with what is there under a condition alone
    ("#[cfg(test)] use std::mem;\nfn f(a: &mut Vec<u8>) { std::mem::replace(a, Vec::new()); }\n", "std::mem::replace($a, Vec::new()) ==>> std::mem::take($a)", ["fn f(a: &mut Vec<u8>) { std::mem::take(a); }"], "1 match in 1 file: 1 edit\n"),
    # it keeps the path of the rule, and words of the language as names
    ("#![no_std]\nfn f(a: &mut u8) { core::mem::replace(a, 0); }\n", "core::mem::replace($a, $b) ==>> core::mem::swap($a, &mut $b)", ["fn f(a: &mut u8) { core::mem::swap(a, &mut 0); }"], "1 match in 1 file: 1 edit\n"),
    ("fn f() -> usize { std::mem::align_of::<u8>() }\n", "std::mem::align_of::<$t>() ==>> std::mem::size_of::<$t>()", ["fn f() -> usize { std::mem::size_of::<u8>() }"], "1 match in 1 file: 1 edit\n"),
    ("fn g(a: u8) -> u8 { a }\npub mod r#match { pub fn h(a: u8) -> u8 { a } }\nfn f() -> u8 { g(1) }\n", "g($a) ==>> r#match::h($a)", ["fn f() -> u8 { r#match::h(1) }"], "1 match in 1 file: 1 edit\n"),
    # an item in an item has a `Self` of its own
    ("pub struct A { pub a: u8 }\npub struct B { pub a: u8 }\nimpl A { pub fn f() { struct C { c: Option<Box<Self>> } } }\n", "A ==>> B", ["impl B { pub fn f() { struct C { c: Option<Box<Self>> } } }"], "1 match in 1 file: 1 edit; 1 undecided\n"),
    # a field alone names the field too
    ("fn g() {}\npub mod m { pub fn h() {} }\nstruct A { g: fn() }\nfn f() -> A { A { g } }\n", "g ==>> m::h", [], "0 matches; 1 undecided\n"),
    # aliases under different conditions may be those of different types
    ("pub mod a { pub enum K { Up, Down } }\npub mod b { pub enum K { Up } }\n#[cfg(unix)] type E = a::K;\n#[cfg(not(unix))] type E = b::K;\nfn f() -> E { E::Up }\n", "a::K::Up ==>> a::K::Down", [], "0 matches; 1 undecided\n"),
    # a module of another crate is no function
    ("pub fn time() {}\npub fn now() {}\nmod work { use super::*; use std::time; fn f() { time() } }\n", "time() ==>> now()", [], "0 matches; 1 undecided\n"),
    # a private name hides what a glob brings in there
    ("mod m { use std::mem::take as drop; pub use crate::a::*; }\nmod a { pub fn drop(a: u8) {} }\nfn now(a: u8) {}\nmod n { use crate::m::*; fn f() { drop(1) } }\n", "a::drop($a) ==>> now($a)", [], "0 matches; 1 undecided\n"),
    # a variant under a condition
    ("pub enum K { #[cfg(unix)] None, Up }\nuse K::*;\nfn f() -> Option<u8> { None }\n", "std::option::Option::None ==>> std::option::Option::Some(1)", [], "0 matches; 1 undecided\n"),
    # a constant in a pattern of a macro's argument binds nothing
    ("fn free(a: u8) {}\nfn f(a: Option<u8>) -> bool { matches!(a, None) && g(None) }\nfn g(a: Option<u8>) -> bool { true }\nfn h(a: Option<u8>) -> bool { false }\n", "g(None) ==>> h(None)", ["fn f(a: Option<u8>) -> bool { matches!(a, None) && h(None) }"], "1 match in 1 file: 1 edit\n"),
]


@example
def names_are_not_taken_for_others(program):
    for text, rule, lines, wanted in TRAPS:
        included = {"src/b.rs": "fn drop(a: u8) {}\n"} if "include!" in text else {}
        with Package({"Cargo.toml": MANIFEST, "src/lib.rs": text, **included}) as package:
            status, diff, told = package.run(program, rule)
            is_so = status == 0 and (lines is None or added(diff) == sorted(lines)) and (wanted is None or told.endswith(wanted))
            if not is_so:
                print(f"{text}{rule}: status {status}\n{diff}{told}", end="")
            yield is_so


# Packages, the words of the command, the lines that a diff adds, and what is told.
PACKAGES_WITH_TRAPS = [
    # a test that is named as a dependency
    (
        {"Cargo.toml": MANIFEST + '\n[dependencies]\nserde = "1"\n', "src/lib.rs": "pub fn f() { serde::to(1) }\n", "tests/serde.rs": "pub fn to(a: u8) {}\n"},
        ["serde::to($a) ==>> $a"],
        ["pub fn f() { 1 }"],
        "1 match in 1 file: 1 edit\n",
    ),
    # a file of two crates: each has one of its own
    (
        {
            "src/lib.rs": "pub mod counter;\n",
            "src/main.rs": "mod counter;\nmod cli;\nfn main() {}\n",
            "src/counter.rs": "pub fn old() {}\npub fn bump() {}\n",
            "src/cli.rs": "pub fn f() { crate::counter::old() }\n",
        },
        ["counter::old() ==>> counter::bump()"],
        ["pub fn f() { crate::counter::bump() }"],
        "1 match in 1 file: 1 edit\n",
    ),
    # below a file of two crates
    (
        {
            "tests/a.rs": "mod common;\nfn helper(a: u8) {}\n",
            "tests/b.rs": "mod common;\nfn helper(a: u8) {}\n",
            "tests/common/mod.rs": "pub mod inner;\n",
            "tests/common/inner.rs": "pub fn f() { crate::helper(1) }\n",
        },
        ["--in", "tests/a.rs:1", "helper($a) ==>> $a"],
        [],
        "0 matches; 1 undecided\n",
    ),
    # macros of another crate come into the crate that says so
    (
        {
            "src/lib.rs": "pub fn f(a: bool) { assert!(a) }\n",
            "tests/one.rs": "#[macro_use] extern crate little;\nfn g(a: bool) { assert!(a) }\n",
        },
        ["std::assert!($a) ==>> $a"],
        ["pub fn f(a: bool) { a }"],
        "1 match in 1 file: 1 edit; 1 undecided\n",
    ),
    # what means the same in both
    (
        {
            "tests/a.rs": "mod common;\n",
            "tests/b.rs": "mod common;\n",
            "tests/common/mod.rs": "pub mod inner;\nmod names;\n",
            "tests/common/inner.rs": "use super::names::put;\npub fn f() { put(1) }\n",
            "tests/common/names.rs": "pub use std::mem::drop as put;\n",
        },
        ["std::mem::drop($a) ==>> $a"],
        ["pub fn f() { 1 }"],
        "1 match in 1 file: 1 edit\n",
    ),
    # what is private is reached by an import, or not at all
    (
        {
            "src/lib.rs": "mod queue;\npub use queue::start;\npub fn attempt(a: u8) -> bool { a > 0 }\n",
            "src/queue.rs": "pub fn start(a: u8) -> bool { a > 0 }\n",
            "tests/one.rs": "fn f() { little::attempt(1); }\n",
        },
        ["attempt($a) ==>> queue::start($a)"],
        ["fn f() { little::start(1); }"],
        "1 match in 1 file: 1 edit\n",
    ),
    (
        {
            "src/lib.rs": "mod queue;\npub fn attempt(a: u8) -> bool { a > 0 }\n",
            "src/queue.rs": "pub fn start(a: u8) -> bool { a > 0 }\n",
            "tests/one.rs": "fn f() { little::attempt(1); }\n",
        },
        ["attempt($a) ==>> queue::start($a)"],
        [],
        "0 matches; 1 undecided\n",
    ),
]


@example
def crates_and_their_files_are_not_taken_for_others(program):
    for files, words, lines, told in PACKAGES_WITH_TRAPS:
        with Package({"Cargo.toml": MANIFEST, **files}) as package:
            status, diff, err = package.run(program, *words)
            is_so = (status, added(diff), err) == (0, sorted(lines), told)
            if not is_so:
                print(f"{words}: status {status}\n{diff}{err}", end="")
            yield is_so


@example
def editions_look_names_up_otherwise(program):
    text = "mod a { pub fn g(a: u8) -> u8 { a } pub fn h() -> u8 { ::a::g(1) } }\nuse a::g;\nfn f() -> u8 { g(2) }\n"
    with Package({"Cargo.toml": EDITION_2015, "src/lib.rs": text}) as package:
        yield package.run(program, "a::g($a) ==>> $a")[2] == "2 matches in 1 file: 2 edits\n"
    with Package({"Cargo.toml": MANIFEST, "src/lib.rs": text}) as package:
        yield package.run(program, "a::g($a) ==>> $a")[2] == "1 match in 1 file: 1 edit; 1 undecided\n"


@example
def files_of_several_crates_know_each_other(program):
    files = {
        "Cargo.toml": MANIFEST,
        "src/lib.rs": "pub fn g(a: u8) -> u8 { a }\n",
        "src/main.rs": "use little::g;\nfn main() { g(1); }\n",
        "tests/one.rs": "mod common;\nfn f() { little::g(2); common::g(3); }\n",
        "tests/two.rs": "mod common;\nfn f() { little::g(4); }\n",
        "tests/common/mod.rs": "pub fn g(a: u8) -> u8 { a }\n",
    }
    with Package(files) as package:
        status, diff, told = package.run(program, "g($a) ==>> $a")
        yield added(diff) == ["fn f() { 2; common::g(3); }", "fn f() { 4; }", "fn main() { 1; }"]
        yield (status, told) == (0, "3 matches in 3 files: 3 edits\n")


@example
def names_of_several_files_are_known(program):
    """What each file is, a rule, and the lines that it makes."""
    macro = {"src/lib.rs": "#[macro_export]\nmacro_rules! mac { ($a:expr) => { $a } }\n", "tests/one.rs": "fn f() { little::mac!(1); }\n"}
    # one file under two conditions, and two files
    one = {"src/lib.rs": "#[cfg(unix)] pub mod d;\n#[cfg(not(unix))] mod d;\nfn f() { d::g(1); }\n", "src/d.rs": "pub fn g(a: u8) -> u8 { a }\n"}
    two = {"src/lib.rs": "#[cfg(unix)] #[path = \"a.rs\"] mod d;\n#[cfg(not(unix))] mod d;\nmod e { pub use crate::d::g; }\nfn f() { e::g(1); a::g(2); }\nmod a { pub fn g(_: u8) {} }\n", "src/a.rs": "pub fn g(a: u8) -> u8 { a }\n"}
    for files, rule, lines, told in [
        (macro, "mac!($a) ==>> $a", ["fn f() { 1; }"], "1 match in 1 file: 1 edit\n"),
        (one, "d::g($a) ==>> $a", ["fn f() { 1; }"], "1 match in 1 file: 1 edit\n"),
        (two, "a::g($a) ==>> $a", ["fn f() { e::g(1); 2; }"], "1 match in 1 file: 1 edit; 1 undecided\n"),
    ]:
        with Package({"Cargo.toml": MANIFEST, **files}) as package:
            status, diff, err = package.run(program, rule)
            is_so = status == 0 and added(diff) == lines and err.endswith(told)
            if not is_so:
                print(f"{files}{rule}: status {status}\n{diff}{err}", end="")
            yield is_so


def on_a_terminal(package, program, *words, **variables):
    """What comes on standard output where that is a terminal."""
    ours, its = pty.openpty()
    environment = {name: value for name, value in os.environ.items() if name != "NO_COLOR"}
    subprocess.run([program, "ssr", *words], cwd=package.folder, stdin=subprocess.DEVNULL, stdout=its, stderr=subprocess.DEVNULL, env={**environment, **variables}, timeout=120)
    os.close(its)
    text = os.read(ours, 1 << 16).decode()
    os.close(ours)
    return text


@example
def colours_are_asked_for(program):
    with Package() as package:
        yield "\x1b[32m+" in on_a_terminal(package, program, RULE)
        yield "\x1b[32m+" in on_a_terminal(package, program, RULE, NO_COLOR="")
        yield "\x1b" not in on_a_terminal(package, program, RULE, NO_COLOR="1")
        yield "\x1b[32m+" in on_a_terminal(package, program, "--color", "always", RULE, NO_COLOR="1")
        plain, colored = package.run(program, RULE)[1], package.run(program, RULE, "--color", "always")[1]
        yield "\x1b[32m+" in colored and "\x1b" not in plain
        yield package.run(program, RULE, "--color", "never")[1] == plain


if __name__ == "__main__":
    sys.exit(try_all(sys.argv[1:] or built_programs("cargo_ssr"), EXAMPLES))
