"""Reads what `rustc -Zunpretty=hir-tree` writes of a crate: its paths, with what each part of them stands for."""
import re

SPAN = re.compile(r"span: (.+?):(\d+):(\d+): \d+:\d+ \(#(\d+)\),")
DEFINITION = re.compile(r"DefId\(\d+:\d+ ~ (\w+)\[[0-9a-f]+\](.*)\),?$")
OWN = re.compile(r"(DefId\(0:\d+ ~ )\w+\[")
BUILTIN = {"Str": "str", "Bool": "bool", "Char": "char"}
# what is read of a path's surroundings: the node, the word behind its `kind`, and the name that it has here
AROUND = {
    ("Ty", "Path"): "type",
    ("Expr", "Path"): "value",
    ("Expr", "Struct"): "record",
    ("Pat", "Struct"): "record pattern",
    ("Pat", "TupleStruct"): "call pattern",
    ("PatExpr", "Path"): "pattern",
}


class Path:
    """A path of a file: where it begins, what is around it, and what its segments stand for.

    `members` are the segments behind a type, of which this dump doesn't tell what they stand for.
    """

    def __init__(self, span, around, segments, members):
        self.file, line, column, self.expansion = span
        self.line, self.column = int(line), int(column)
        self.around = around
        self.segments = segments
        self.members = members


class Crate:
    """The paths of a crate, where its items are, what the paths of its imports stand for, and the types of its `impl`s.

    With a name it goes by that: the crate of a test may be named as the library is.
    """

    def __init__(self, lines, name=None):
        self.paths = []
        self.items = {}
        self.imports = []
        self.types = {}
        self.aliases = {}
        self.variants = set()
        if name:
            lines = (OWN.sub(r"\1%s[" % name, line) for line in lines)
        for owner, tree in owners(lines):
            self.walk(owner, tree)

    def walk(self, owner, node):
        label, parts = node
        sort = word_of(label) if label.endswith("{") else label
        kind = part(node, "kind: ")
        if sort == "Item" and kind[0] == "kind: Use(":
            self.imports.append(import_of(kind))
            return
        if sort in ("Item", "Variant", "ForeignItem"):
            self.take_item(sort, node, kind)
        if sort == "Impl":
            self.types[owner] = path_of_type(part(node, "self_ty: "))
        if sort in ("Ty", "Expr", "Pat", "PatExpr") and kind and kind[1]:
            self.take(path_in(kind[1][0], AROUND.get((sort, word_of(kind[0])))))
        if sort == "TraitRef":
            self.take(plain_path(part(node, "path: "), "trait"))
        for each in parts or []:
            self.walk(owner, each)

    def take(self, path):
        if path:
            self.paths.append(path)
            self.variants |= {item for _, (sort, item) in path.segments if sort in ("Ctor", "Variant")}

    def take_item(self, sort, node, kind):
        owner = part(node, "def_id: " if sort == "Variant" else "owner_id: ")
        span = part(node, "span: ")
        if not span or not SPAN.match(span[0]):
            return
        name = definition(owner[0])
        if sort == "Variant":
            self.variants.add(name)
        self.items[name] = (sort if sort == "Variant" else word_of(kind[0]), SPAN.match(span[0]).groups())
        if kind and kind[0] == "kind: TyAlias(":
            self.aliases[name] = path_of_type(part(kind, "Ty {"))


def owners(lines):
    """The parts of a dump, each with the definition that it is of, as trees: a line with the lines inside of it."""
    stack = None
    for line in lines:
        line = line.strip()
        if line.endswith(" => OwnerNodes {"):
            owner = definition(line[: -len(" => OwnerNodes {")])
            stack = [(line, [])]
        elif stack is None:
            continue
        elif line.endswith(("(", "{", "[")):
            stack.append((line, []))
            stack[-2][1].append(stack[-1])
        elif line in (")", "),", "}", "},", "]", "],"):
            done = stack.pop()
            if not stack:
                yield owner, done
                stack = None
        else:
            stack[-1][1].append((line, None))


def word_of(label):
    """The sort of a node: `Expr` of `init: Expr {`."""
    return label.split(": ")[-1].rstrip("({[ ,").split("(")[0]


def part(node, start):
    """The first part of a node whose line begins so."""
    return next((each for each in node[1] or [] if each[0].startswith(start)), None)


def definition(text):
    """The definition that a line tells, without numbers: `core::mem::replace`."""
    match = DEFINITION.search(text)
    return match and match.group(1) + match.group(2).replace("::{constructor#0}", "")


def meaning(node):
    """What a segment stands for: the sort, and the definition if it is one."""
    label, parts = node
    if parts is None:
        return word_of(label), None
    sort = word_of(label)
    if sort == "PrimTy":
        builtin = parts[0][1][0][0] if parts[0][1] else parts[0][0]
        builtin = builtin.rstrip(",")
        return "PrimTy", BUILTIN.get(builtin, builtin)
    if sort == "Def":
        return word_of(parts[0][0]), definition(parts[-1][0])
    if sort in ("SelfTyAlias", "SelfCtor"):
        return sort, next((definition(line) for line, _ in parts if "DefId" in line), None)
    return sort, None


def segments_in(node):
    """The segments of a path, each with its name and what it stands for."""
    return [segment_of(each) for each in part(node, "segments: ")[1]]


def segment_of(node):
    name = part(node, "ident: ")[0][len("ident: ") :].rsplit("#", 1)[0].rstrip(",")
    return name, meaning(part(node, "res: "))


def plain_path(node, around):
    """The path of a node `Path`, if a file has it."""
    match = SPAN.match(part(node, "span: ")[0])
    return match and Path(match.groups(), around, segments_in(node), [])


def path_in(node, around):
    """The path of a node `Resolved` or `TypeRelative`."""
    if around is None:
        return None
    if node[0] == "Resolved(":
        path = plain_path(node[1][1], around)
        if path and node[1][0][1]:
            path.around = "of a trait"
        return path
    if node[0] == "TypeRelative(":
        path = path_of_type(node[1][0])
        if path:
            path.around = around
            path.members.append(segment_of(node[1][1])[0])
        return path
    return None


def path_of_type(node):
    """The path that a type is."""
    kind = part(node, "kind: ")
    return path_in(kind[1][0], "type") if kind and kind[0] == "kind: Path(" else None


def import_of(kind):
    """The names of the path that an import has, and what it stands for."""
    path = kind[1][0]
    names = [segment_of(each)[0] for each in part(path, "segments: ")[1] or []]
    found = [space[1][0] for space in part(path, "res: ")[1] or [] if space[1]]
    return names, [meaning(each) for each in found if each[1]]
