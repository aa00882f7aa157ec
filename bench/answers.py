#!/usr/bin/env python3
"""Compares what `cargo ssr` takes paths for with what the compiler says of them.

    bench/answers.py [--keep FOLDER] [--list] [--tests] PROGRAM [NAME ..]

    bench/answers.py crates/cargo_ssr/out/cargo_ssr slab url

Fetches packages of Rust source and what they stand on, as `lex_debian.py` does: all ten below, or those that are named. The
compiler dumps the paths of each library, under its default features (`rustc -Zunpretty=hir-tree`). With `--tests` it dumps those
of its tests too, where they can be built without what only tests stand on. With `--keep` packages and dumps stay in that folder
for the next run. Then the program searches each package for what these paths stand for, one pattern a run. It is told nothing
but the sources.

A pattern is a path with what stands around it in the code: generic arguments, fields, and members behind a type, with
placeholders for all parts. For each name that the code has, all items of that name are searched with each of these forms. So a
place that is taken for another item of the name is seen. Searched are the package's own items, and those of the standard
library and of other crates that it uses or that have the name of one of its own.

Printed is a row for each package:

    paths      paths to items that the compiler resolves, and that the program searches
    agree      the program matches the pattern of that item there
    undecided  it tells the place as undecided
    silent     it does neither
    wrong      it matches the pattern of another item there
    no rule    no path that a rule may have leads to the item
    unseen     paths in arguments of macros and other parts that are not searched, and names alone in a pattern
    elsewhere  matches in code that is not compiled so, as under a configuration and in tests: nothing is known of them
    runs       how often the program was run

Each silent and each wrong one is listed with its place, and with `--list` the undecided ones too. Ends with status 1 if there
is a wrong or a silent one.

Needs python 3, the commands rustc, cargo, apt-get and dpkg, and a list of packages (`apt-get update`). The dump is the
compiler's own affair: it is read as rustc 1.95 writes it.
"""
import argparse
import bisect
import collections
import concurrent.futures
import itertools
import json
import os
import re
import shutil
import subprocess
import sys
import tempfile

from beside_syn import SOURCES, write
from lex_debian import fetch, unpack
from resolved import Crate

NAMES = ["slab", "walkdir", "url", "anyhow", "either", "smallvec", "num-traits", "textwrap", "typed-arena", "hashbrown"]
TOKEN = re.compile(
    r"""\s+|//[^\n]*|/\*.*?\*/                                                  # white space and comments
    |b?r(?P<marks>\#*)".*?"(?P=marks)|b?"(?:\\.|[^"\\])*"|b?'(?:\\.[^']*|[^\\'])'  # texts
    |'\w+|r\#\w+|\w+|::|->|=>|\.\.=?|.""", re.S | re.X)
WORD = re.compile(r"(r#)?[A-Za-z_]\w*")
CLOSE = {"(": ")", "[": "]", "{": "}", "<": ">"}
ITEMS = ("Ctor", "Struct", "Enum", "Variant", "Union", "Trait", "TyAlias", "Fn", "Const", "Static", "PrimTy")
MEMBERS = ("AssocFn", "AssocConst", "AssocTy")
PATH = "\0"


# The packages, and what the compiler says of them


def closure(packages):
    """The packages with all of Rust that they stand on."""
    words = ["apt-get", "install", "-s", "--no-install-recommends", "-o", "Dir::State::status=/dev/null", *packages]
    told = subprocess.run(words, stdout=subprocess.PIPE, text=True, check=True).stdout
    return sorted(set(re.findall(r"^Inst (librust-\S+)", told, re.M)))


def folder_of(registry, name):
    """The folder of a crate's sources. Debian's names have `-` where a crate's may have `_`."""
    form = re.compile(name.replace("-", "[-_]") + r"-\d.*")
    return next(os.path.join(registry, each) for each in os.listdir(registry) if form.fullmatch(each))


def copied(package, folder):
    """Two copies of a package: one as it is, and one that can be built without what its tests stand on."""
    whole, built = (os.path.join(folder, sort, os.path.basename(package)) for sort in ("whole", "built"))
    for copy in (whole, built):
        shutil.rmtree(copy, ignore_errors=True)
        shutil.copytree(package, copy)
    manifest = os.path.join(built, "Cargo.toml")
    with open(manifest) as file:
        tables = re.split(r"(?m)^(?=\[)", file.read())
    write(manifest, "".join(each for each in tables if not re.match(r"\[(target\..*\.)?dev-dependencies\b", each)))
    return whole, built


def targets(built, tests):
    """The words by which cargo is told a target of a package, and a name for the dump: the library, and its tests."""
    yield None, ["--lib"]
    below = os.path.join(built, "tests")
    if tests:
        yield None, ["--lib", "--profile", "test"]
    for name in sorted(os.listdir(below)) if tests and os.path.isdir(below) else []:
        if name.endswith(".rs"):
            yield "test_" + re.sub(r"\W", "_", name[:-3]), ["--test", name[:-3]]


def dumped(built, kept, tests):
    """What the compiler says of the library of a package, and of those of its tests that can be built."""
    crates = []
    for name, words in targets(built, tests):
        path = os.path.join(kept, "%s.%s.hir" % (os.path.basename(built), words[-1].strip("-")))
        if not os.path.isfile(path):
            dump(built, kept, path, words)
        with open(path, encoding="utf-8") as file:
            crates.append(Crate(file, name))
    if not crates[0].paths:
        sys.exit("%s can't be built" % built)
    return crates


def dump(built, kept, path, words):
    """Writes what the compiler says of a target of a package into a file, nothing where it can't be built."""
    words = ["cargo", "rustc", "--offline", "--quiet", *words, "--target-dir", os.path.join(kept, "target")]
    environment = dict(os.environ, RUSTC_BOOTSTRAP="1")
    with open(path, "wb") as file:
        run = subprocess.run([*words, "--", "-Zunpretty=hir-tree", "--cap-lints=allow"], cwd=built, env=environment,
                             stdout=file, stderr=subprocess.PIPE)
        if run.returncode != 0:
            file.truncate(0)
            print("%s isn't read: %s" % (os.path.basename(path), run.stderr.decode()[-500:]), file=sys.stderr)


# What stands in the files


class File:
    """The text of a file, its tokens, and where they are."""

    def __init__(self, path):
        with open(path, encoding="utf-8") as file:
            self.text = file.read()
        self.lines = list(itertools.accumulate((len(line) for line in self.text.splitlines(True)), initial=0))
        found = [match for match in TOKEN.finditer(self.text) if not re.match(r"\s|//|/\*", match.group())]
        self.tokens = [match.group() for match in found]
        self.ends = [match.end() for match in found]
        self.numbers = {match.start(): number for number, match in enumerate(found)}

    def place(self, line, column):
        return self.lines[line - 1] + column - 1

    def byte(self, place):
        return place if self.text.isascii() else len(self.text[:place].encode())


class Reader:
    """Reads patterns off the tokens of a file, from one on."""

    def __init__(self, file, number):
        self.tokens = file.tokens
        self.number = number
        self.names = ("$p%d" % number for number in itertools.count())
        self.has_comma = False

    def next(self, ahead=0):
        return self.tokens[self.number + ahead] if self.number + ahead < len(self.tokens) else ""

    def takes(self, *words):
        if tuple(self.tokens[self.number : self.number + len(words)]) != words:
            return False
        self.number += len(words)
        return True

    def group(self):
        """The tokens between the commas of the brackets that are next."""
        parts, open_ones, before = [[]], [], ""
        while self.next():
            token = self.next()
            if open_ones and token == CLOSE[open_ones[-1]]:
                open_ones.pop()
            elif token in "([{" or token == "<" and (not open_ones or "<" in open_ones or before == "::"):
                open_ones.append(token)
                if len(open_ones) == 1:
                    self.number += 1
                    continue
            self.number += 1
            before = token
            if not open_ones:
                self.has_comma = parts[-1] == [] and len(parts) > 1
                return [part for part in parts if part]
            if token == "," and len(open_ones) == 1:
                parts.append([])
            else:
                parts[-1].append(token)
        return []

    def generic(self, part):
        """A pattern for a generic argument."""
        if part[0].startswith("'") or part[0].isdigit() or part == ["_"]:
            return " ".join(part)
        return "%s = %s" % (part[0], next(self.names)) if part[1:2] == ["="] else next(self.names)

    def generics(self, is_value):
        """A pattern for the generic arguments behind a name."""
        if self.next() == "<" and not is_value or self.next() == "::" and self.next(1) == "<":
            mark = "::" if self.takes("::") else ""
            inside = ", ".join(self.generic(part) for part in self.group())
            return "%s<%s%s>" % (mark, inside, "," * self.has_comma)
        if self.next() == "(" and not is_value:
            inside = "(%s)" % ", ".join(next(self.names) for _ in self.group())
            return inside + (" -> " + next(self.names) if self.next() == "->" else "")
        return ""

    def path(self, is_value):
        """The names of a path, each with a pattern for its arguments."""
        pieces = []
        self.takes("::")
        while WORD.fullmatch(self.next()):
            name = self.next()
            self.number += 1
            pieces.append((name, self.generics(is_value)))
            if not (self.next() == "::" and WORD.fullmatch(self.next(1))):
                break
            self.number += 1
        return pieces

    def field(self, part):
        """A pattern for a field of a record."""
        if part[0] == "..":
            return ".." + (next(self.names) if part[1:] else "")
        if part[0] == "#":
            return None
        return (part[0] + ": " if part[1:2] == [":"] else "") + next(self.names)

    def around(self, sort):
        """A pattern for what stands behind a path."""
        if sort == "call pattern":
            return "(%s)" % ", ".join(".." if part == [".."] else next(self.names) for part in self.group())
        if sort in ("record", "record pattern"):
            fields = [self.field(part) for part in self.group()]
            return None if None in fields else " { %s }" % ", ".join(fields)
        return ""


class Place:
    """A path of the code: where it is, what it stands for, and a pattern for it, with a mark for the path to the item."""

    def __init__(self, file, start, end, key, shape, name):
        self.file, self.start, self.end = file, start, end
        self.key, self.shape, self.name = key, shape, name


def key_of(crate, path):
    """The item that a path leads to, and the names of the members behind it."""
    segments, members = path.segments, list(path.members)
    if path.around == "of a trait" or segments[-1][1][0] in MEMBERS:
        members = [segments[-1][0]] + members if path.around != "of a trait" else []
        segments = segments[:-1]
    sort, item = segments[-1][1] if segments else ("Err", None)
    if sort in ("SelfTyAlias", "SelfCtor"):
        stands = crate.types.get(item)
        return stands and with_variant(crate, key_of(crate, stands), members)
    if sort not in ITEMS or not item:
        return None
    if members and crate.aliases.get(item) and is_variant(crate, key_of(crate, crate.aliases[item]), members):
        return with_variant(crate, key_of(crate, crate.aliases[item]), members)
    return with_variant(crate, (item, ()), members)


def is_variant(crate, key, members):
    return key is not None and "%s::%s" % (key[0], members[0]) in crate.variants


def with_variant(crate, key, members):
    """The key with these members, the first of which may be a variant."""
    if key is None or key[1] or not members:
        return key and (key[0], key[1] + tuple(members))
    if is_variant(crate, key, members):
        return "%s::%s" % (key[0], members[0]), tuple(members[1:])
    return key[0], tuple(members)


def end_of_type(file, number):
    """The number of the token behind the `as` of a path in angle brackets."""
    depth = 0
    while number < len(file.tokens):
        token = file.tokens[number]
        depth += (token == "<") - (token == ">")
        if token == "as" and depth == 1:
            return number + 1
        number += 1
    return None


def place_of(files, crate, path):
    """The place of a path, if it leads to an item. The pattern is None where there is none for it."""
    key, file = key_of(crate, path), files(path.file)
    if key is None or file is None or path.expansion != "0" or path.around == "type" and path.members:
        return None
    number = file.numbers.get(file.place(path.line, path.column))
    if number is not None and path.around == "of a trait":
        number = end_of_type(file, number)
    if number is None:
        return None
    reader = Reader(file, number)
    pieces = reader.path(path.around not in ("type", "trait", "of a trait"))
    count = len(path.segments) + len(path.members) - (path.around == "of a trait")
    if len(pieces) != count or pieces[-1][0] == "self":
        return None
    end = file.ends[reader.number - 1]
    last = len(pieces) - 1 - len(key[1])
    shape = PATH + pieces[last][1] + "".join("::" + name + args for name, args in pieces[last + 1 :])
    behind = reader.around(path.around)
    is_told = behind is not None and not any(args for _, args in pieces[:last])
    if path.around == "pattern" and len(pieces) == 1:
        is_told = False
    start = file.ends[number] - len(file.tokens[number])
    return Place(path.file, start, end, key, shape + behind if is_told else None, pieces[last][0])


def places_of(package, crates):
    """The places of all paths to items, by where they are, and the files."""
    known = {}

    def files(name):
        if name not in known:
            path = os.path.join(package, name)
            known[name] = File(path) if os.path.isfile(path) and not os.path.isabs(name) else None
        return known[name]

    places = collections.defaultdict(list)
    for crate in crates:
        for path in crate.paths:
            place = place_of(files, crate, path)
            if place:
                places[place.file, files(place.file).byte(place.start)].append(place)
    return places, files


# Paths by which rules can lead to items


# items of the standard library, by their modules, of which packages often have one of the same name
NAMESAKES = """
alloc Layout alloc dealloc realloc handle_alloc_error
any Any TypeId type_name
borrow Borrow BorrowMut Cow ToOwned
boxed Box
cell Cell Ref RefCell RefMut
cmp Eq Ord Ordering PartialEq PartialOrd Reverse max min
collections BTreeMap HashMap HashSet VecDeque
collections::hash_map DefaultHasher Drain Entry IntoIter IntoKeys IntoValues Iter IterMut Keys OccupiedEntry RandomState VacantEntry Values
collections::hash_set Difference Intersection SymmetricDifference Union
convert AsMut AsRef From Into TryFrom TryInto identity
error Error
fmt Arguments Binary Debug Display Error Formatter LowerHex Result UpperHex Write format write
hash BuildHasher BuildHasherDefault Hash Hasher
io BufRead Error ErrorKind Read Result Seek Write copy empty repeat
iter Chain Cloned DoubleEndedIterator ExactSizeIterator Extend Filter FromIterator FusedIterator IntoIterator Iterator Map Product Sum
iter once repeat zip
marker Copy PhantomData Send Sized Sync
mem ManuallyDrop MaybeUninit align_of drop forget replace size_of swap take transmute
net IpAddr Ipv4Addr Ipv6Addr
num FpCategory ParseFloatError ParseIntError Wrapping
ops Add AddAssign Bound Deref DerefMut Div Drop Fn FnMut FnOnce Index IndexMut Mul Neg Not Range RangeBounds RangeFull Rem Shl Shr Sub
option Option
option::Option None Some
path Path PathBuf
ptr NonNull copy copy_nonoverlapping null read write
rc Rc Weak
result Result
result::Result Err Ok
slice Chunks Drain Iter IterMut from_raw_parts from_raw_parts_mut
str Chars FromStr from_utf8
string Drain String ToString
sync Arc Mutex Weak
vec Drain IntoIter Splice Vec
""".splitlines()


def public_names(item):
    """Paths that may lead to an item of another crate: its own, and that without some of the modules around it."""
    crate, *modules, name = item.split("::")
    crates = ["std", crate] if crate in ("core", "alloc", "std") else [crate]
    for left_out in range(len(modules) + 1):
        for kept in itertools.combinations(modules, len(modules) - left_out):
            for root in crates:
                yield "::".join([root, *kept, name])


def known_paths(paths, folder):
    """What those of these paths stand for that the compiler knows, by items of each the first path."""
    left = sorted(set(paths), key=paths.index)
    source = os.path.join(folder, "probe.rs")
    words = ["rustc", "--edition", "2021", "--crate-type", "lib", "--cap-lints", "allow", source]
    for _ in range(4):
        write(source, "".join("mod m%d { pub use %s as x; }\n" % (number, path) for number, path in enumerate(left)))
        run = subprocess.run([*words, "--error-format=json", "--emit=metadata", "-o", source + ".meta"], stderr=subprocess.PIPE)
        spans = [span for line in run.stderr.decode().splitlines() for span in json.loads(line)["spans"]]
        refused = {span["line_start"] - 1 for span in spans if span["is_primary"]}
        if run.returncode == 0:
            break
        left = [path for number, path in enumerate(left) if number not in refused]
    environment = dict(os.environ, RUSTC_BOOTSTRAP="1")
    run = subprocess.run([*words, "-Zunpretty=hir-tree"], env=environment, stdout=subprocess.PIPE, check=True)
    known = {}
    for names, meanings in Crate(run.stdout.decode().splitlines()).imports:
        for sort, item in meanings:
            if sort in ITEMS and "::".join(names) in left:
                known.setdefault(item, "::".join(names))
    return known


def written_paths(crate):
    """The paths of imports and those behind a module that a crate has, each with what it stands for."""
    modules = {}
    for names, meanings in crate.imports:
        for sort, item in meanings:
            if sort == "Mod" and names:
                modules.setdefault(item, "::".join(names))
            elif names and item:
                yield "::".join(names), item
    for path in crate.paths:
        parts = [(sort, item) for _, (sort, item) in path.segments]
        if len(parts) > 1 and parts[-2][0] == "Mod" and parts[-1][1]:
            item = parts[-2][1]
            for module in (modules.get(item, item), item):
                yield module + "::" + path.segments[-1][0], parts[-1][1]


def paths_of_others(crates, places, folder):
    """Paths to the items of other crates that the packages use, or that have the name of one of their own."""
    roots = ("std", "core", "alloc")
    used = {place.key[0] for all_of in places for each in all_of.values() for place in each}
    told = [(path, item) for crate in crates for path, item in written_paths(crate)]
    in_std = [path.split("::", 1)[1] for path, _ in told if path.split("::")[0] in roots]
    derived = [path for item in sorted(used) if item.split("::")[0] in roots for path in public_names(item)]
    named = {place.name for all_of in places for each in all_of.values() for place in each}
    own = named & {item.split("::")[-1] for crate in crates for item, (sort, _) in crate.items.items() if sort in ITEMS}
    alike = ["std::%s::%s" % (line.split()[0], name) for line in NAMESAKES for name in line.split()[1:] if name in own]
    known = known_paths([root + "::" + path for path in in_std for root in ("std", "core")] + derived + alike, folder)
    for path, item in told:
        if path.split("::")[0] == item.split("::")[0] and item in used:
            known.setdefault(item, path)
    return known


def paths_to(item, items, root, others):
    """Paths to an item, each with the words that tell where it is looked up, in the order in which they are tried."""
    if item in items:
        parts = item.split("::")
        sort, (file, line, column, _) = items[item]
        place = ["--in", "%s:%s:%s" % (file, line, column)]
        if parts[0] == root and not any("{" in part for part in parts):
            yield "crate::" + "::".join(parts[1:]), []
        if sort == "Variant":
            yield "::".join(parts[-2:]), place
        else:
            yield "self::" + parts[-1], place
            yield parts[-1], place
    elif item in others:
        yield others[item], []
    elif "::" not in item:
        yield item, []
    elif item.split("::")[0] not in ("std", "core", "alloc"):
        for name in public_names(item):
            yield name, []


# What the program says


def told(program, package, words):
    """The status, the matches as files and bytes, and the undecided places as files, lines and columns, with the names."""
    run = subprocess.run([program, "ssr", "--json", "--undecided", *words], cwd=package, stdout=subprocess.PIPE, stderr=subprocess.PIPE)
    lines = [json.loads(line) for line in run.stdout.decode().splitlines()]
    matches = {(line["file"], line["start"]): line["end"] for line in lines if "rule" in line}
    undecided = re.findall(r"(?m)^(.+?):(\d+):(\d+): undecided by `(.*?)`", run.stderr.decode())
    return run.returncode, matches, {(file, int(line), int(column)): name for file, line, column, name in undecided}


def searched_nodes(program, package):
    """The ranges of all nodes that are searched."""
    run = subprocess.run([program, "ssr", "--json", "--search", "$a"], cwd=package, stdout=subprocess.PIPE, stderr=subprocess.DEVNULL)
    lines = [json.loads(line) for line in run.stdout.decode().splitlines()]
    return {(line["file"], line["start"], line["end"]) for line in lines if "rule" in line}


# The comparison


class Answers:
    """What the program answers in a package, beside what the compiler does."""

    def __init__(self, program, package, crates, others):
        self.program, self.package, self.others = program, package, others
        self.items = {item: told for crate in crates for item, told in crate.items.items()}
        self.root = next(iter(crates[0].items)).split("::")[0]
        self.places, self.files = places_of(package, crates)
        nodes = searched_nodes(program, package)
        seen = {where: [place for place in all_of if self.is_seen(place, nodes)] for where, all_of in self.places.items()}
        self.unseen = sum(not kept for kept in seen.values())
        self.places = {where: kept for where, kept in seen.items() if kept}
        self.by_key = collections.defaultdict(list)
        for where, all_of in self.places.items():
            for place in all_of:
                self.by_key[place.key].append((where, place))
        self.agreed, self.undecided, self.nameless, self.wrong, self.elsewhere = set(), {}, set(), {}, {}

    def is_seen(self, place, nodes):
        file = self.files(place.file)
        return place.shape is not None and (place.file, file.byte(place.start), file.byte(place.end)) in nodes

    def shapes(self):
        """For each name the patterns of the places that have it."""
        shapes = collections.defaultdict(set)
        for all_of in self.places.values():
            for place in all_of:
                for name in {place.name, place.key[0].split("::")[-1]}:
                    shapes[name].add((place.key[1], place.shape))
        return shapes

    def tasks(self):
        """The items that are searched, each with all patterns of its names."""
        shapes = self.shapes()
        items = {item for item, (sort, _) in self.items.items() if sort in ITEMS} | set(self.others)
        names = collections.defaultdict(set)
        for all_of in self.places.values():
            for place in all_of:
                names[place.key[0]] |= {place.name} - {"Self"}
        for item in sorted(items | set(names)):
            for members, shape in sorted(set().union(*(shapes[name] for name in names[item] | {item.split("::")[-1]}))):
                yield item, members, shape

    def run(self, task):
        """Searches for an item by a pattern, by the first path that leads there."""
        item, members, shape = task
        for path, words in paths_to(item, self.items, self.root, self.others):
            status, matches, undecided = told(self.program, self.package, [*words, "--search=" + shape.replace(PATH, path)])
            if status == 0:
                return task, path, matches, undecided
        return task, None, {}, {}

    def take(self, task, path, matches, undecided):
        item, members, shape = task
        key = (item, members)
        for where in matches:
            places = self.places.get(where, [])
            if any(place.key == key for place in places):
                self.agreed.add(where)
            elif places:
                self.wrong[where] = (shape.replace(PATH, path), places[0])
            else:
                self.elsewhere.setdefault(where, []).append(shape.replace(PATH, path))
        for where, place in self.by_key[key]:
            if path is None and place.shape == shape:
                self.nameless.add(where)
            name = undecided.get(self.position(where, place))
            if name is not None:
                self.undecided[where] = name

    def position(self, where, place):
        """The file, line and column of a place, as the program tells them."""
        file = self.files(where[0])
        line = bisect.bisect_right(file.lines, place.start)
        return where[0], line, place.start - file.lines[line - 1] + 1

    def rows(self):
        """The places of each sort."""
        every = set(self.places)
        undecided = set(self.undecided) - self.agreed
        nameless = self.nameless - self.agreed - undecided
        silent = every - self.agreed - undecided - nameless - set(self.wrong)
        return {"agree": self.agreed, "undecided": undecided, "silent": silent, "wrong": set(self.wrong), "no rule": nameless}

    def tell(self, sort, where):
        """A line for a place."""
        place = self.places[where][0]
        text = self.files(where[0]).text[place.start : place.end].replace("\n", " ")
        line = "%s: %s:%d:%d: %s stands for %s" % (sort, *self.position(where, place), text, "::".join([place.key[0], *place.key[1]]))
        if sort == "wrong":
            line += ", and is taken for `%s`" % self.wrong[where][0]
        elif sort == "undecided":
            line += ", by `%s`" % self.undecided[where]
        print("    " + line)


def main():
    options = argparse.ArgumentParser()
    options.add_argument("--keep")
    options.add_argument("--list", action="store_true")
    options.add_argument("--tests", action="store_true")
    options.add_argument("program")
    options.add_argument("names", nargs="*", default=NAMES)
    options = options.parse_args()
    sys.setrecursionlimit(10000)
    program = os.path.abspath(options.program)
    with tempfile.TemporaryDirectory() as folder:
        kept = os.path.abspath(options.keep or folder)
        packages = closure(["librust-%s-dev" % name for name in options.names])
        fetch(kept, packages)
        source = os.path.join(folder, "source")
        unpack(kept, packages, source)
        registry = os.path.join(source, "usr/share/cargo/registry")
        write(os.path.join(folder, ".cargo", "config.toml"), SOURCES % registry)
        copies = [copied(folder_of(registry, name), folder) for name in options.names]
        crates = [dumped(built, kept, options.tests) for _, built in copies]
        places = [places_of(whole, own)[0] for (whole, _), own in zip(copies, crates)]
        others = paths_of_others([crate for own in crates for crate in own], places, folder)
        heads = ["paths", "agree", "undecided", "silent", "wrong", "no rule", "unseen", "elsewhere", "runs"]
        print("%-14s" % "package" + "".join("%10s" % head for head in heads))
        fine = True
        for name, (whole, _), own in zip(options.names, copies, crates):
            fine = compared(name, Answers(program, whole, own, others), options.list) and fine
    return 0 if fine else 1


def compared(name, answers, lists_all):
    """Prints the row of a package: whether no answer is wrong or missing in silence."""
    tasks = list(answers.tasks())
    with concurrent.futures.ThreadPoolExecutor(2) as pool:
        for done in pool.map(answers.run, tasks):
            answers.take(*done)
    rows = answers.rows()
    numbers = [len(answers.places), *(len(rows[sort]) for sort in ("agree", "undecided", "silent", "wrong", "no rule"))]
    numbers += [answers.unseen, len(answers.elsewhere), len(tasks)]
    print("%-14s" % name + "".join("%10d" % number for number in numbers), flush=True)
    for sort in ("wrong", "silent") + (("undecided", "no rule") if lists_all else ()):
        for where in sorted(rows[sort]):
            answers.tell(sort, where)
    return not rows["silent"] and not rows["wrong"]


if __name__ == "__main__":
    sys.exit(main())
