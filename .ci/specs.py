"""Reads the tree as a reader of the statements does: the definitions of specs/, the structs and enums of src/, the
heads of the public entries, and what each of them names.

A public entry is a function that its crate's lib.rt gives out, that has no `requires`, and that takes no struct with a
ghost field, whose fact its maker shows as a `requires` asks it. A static library's crate says nothing of its own:
.ci/contracts holds its exports to the entries that they call. A crate with a main.rt is a program's, as is one on
which programs' crates stand and no others: its entry is the function `program`, if it has one.
"""
import os
import re
import textwrap

WORD = re.compile(r"[^\s(){}\[\]<>,;:.∷→≡×λ]+")
START = re.compile(r"(?:abbrev pub|unfoldable pub|pub record|pub data|pub(?! mod))\s+([^\s:({]+)")
PROGRAM = re.compile(r"^fn program\(.*?\n\{\n", re.S | re.M)
HEAD = re.compile(r"^( *)pub fn (\w+)(.*?)\n\1\{\n", re.S | re.M)
IMPL = r"^impl(?:<[^>]*>)? (?:[\w:<>]+ for )?(\w+)"
USE = re.compile(r"^(pub )?use ((?:\w+::)+)(?:(\w+)|\{([^}]*)\});", re.M)
SPECS = r"^(?:ghost )?use Rattle\.(\w+)\.specs\."
DEFINITION, TYPE, ENTRY = "definition", "type", "entry"


class Item:
    """A definition, a type or the head of a public entry, with the comment above it."""

    def __init__(self, kind, crate, path, name, lines, first, last):
        self.kind, self.crate, self.path, self.name = kind, crate, path, name
        self.at, self.lines = first + 1, textwrap.dedent("\n".join(lines[first:last])).split("\n")
        while first and lines[first - 1].strip().startswith("#["):
            first -= 1
        above = first
        while above and is_comment(lines[above - 1]):
            above -= 1
        self.comment = [line.strip() for line in lines[above:first]]
        self.leads, self.aliases = set(), {}

    def believed(self):
        """Its lines that are neither empty nor comments."""
        return [line for line in self.lines if line.strip() and not is_comment(line)]

    def parts(self):
        """The fields of a record, the constructors of a data type and the clauses of an entry, each with its line."""
        form = {ENTRY: r"\s*ensures (\w+) ", DEFINITION: r"  (?:pub )?([^\s:]+) :"}.get(self.kind)
        if not form or self.kind == DEFINITION and not self.lines[0].startswith(("pub record", "pub data")):
            return {}
        found = {i: re.match(form, line) for i, line in enumerate(self.lines)}
        return {part[1]: i for i, part in found.items() if part}


def is_comment(line):
    return line.strip().startswith(("--", "//"))


def read(path):
    if not os.path.isfile(path):
        return ""
    with open(path, encoding="utf8") as file:
        return file.read()


def files(folder, kind, listing, form):
    """The files of a folder, in the order in which `listing` names them."""
    order = re.findall(form, read(f"{folder}/{listing}"), re.M)
    names = [name for name in os.listdir(folder) if name.endswith(kind)] if os.path.isdir(folder) else []
    rank = {f"{name}{kind}": i for i, name in enumerate(order)}
    return [f"{folder}/{name}" for name in sorted(names, key=lambda name: (rank.get(name, -1), name))]


def definitions(crate, path):
    lines = read(path).split("\n")
    starts = [i for i, line in enumerate(lines) if START.match(line)]
    for first, last in zip(starts, starts[1:] + [len(lines)]):
        while not lines[last - 1].strip() or is_comment(lines[last - 1]):
            last -= 1
        yield Item(DEFINITION, crate, path, START.match(lines[first])[1], lines, first, last)


def types(crate, path):
    lines = read(path).split("\n")
    for first, line in enumerate(lines):
        start = re.match(r"(?:pub )?(?:struct|enum) (\w+)", line)
        if start:
            last = first + 1 if line.endswith((";", "}")) else lines.index("}", first) + 1
            yield Item(TYPE, crate, path, start[1], lines, first, last)


def uses(text, form):
    """The paths that a text takes in by `pub use`, if `form` is so, or else by `use`."""
    for public, place, name, names in USE.findall(text):
        if public == form:
            yield from (place + name for name in [name] + re.findall(r"\w+", names) if name)


def asking():
    """The structs with a ghost field."""
    for folder in sorted(os.listdir("crates")):
        for path in files(f"crates/{folder}/src", ".rt", "lib.rt", r"^(?:pub )?mod (\w+);"):
            for name, parts in re.findall(r"^(?:pub )?struct (\w+)[^\n]*\{\n(.*?)^\}", read(path), re.S | re.M):
                if re.search(r"^ +(?:pub )?ghost ", parts, re.M):
                    yield name


def asks(owner, head):
    """Whether a function's head has a `requires`, or it takes a struct with a ghost field."""
    taken = [owner] * ("self" in head) + re.findall(r": &?(?:mut )?(\w+)", head)
    return bool(re.search(r"^\s*requires ", head, re.M)) or bool(set(taken) & set(asking()))


def entries(crate, path, lib):
    text = read(path)
    given = set(re.findall(r"^pub (?:struct|enum) (\w+)", lib, re.M))
    given |= {name.split("::")[-1] for name in uses(lib, "pub ")}
    for head in HEAD.finditer(text):
        owner = re.findall(IMPL, text[:head.start()], re.M)[-1] if head[1] else ""
        out = owner in given if owner else head[2] in given or path.endswith("/lib.rt")
        if not out or asks(owner, head[0]):
            continue
        first = text.count("\n", 0, head.start())
        name = f"{owner}::{head[2]}" if owner else head[2]
        yield Item(ENTRY, crate, path, name, text.split("\n"), first, first + head[0].count("\n") - 1)


def program(crate, path):
    text = read(path)
    for head in PROGRAM.finditer(text):
        first = text.count("\n", 0, head.start())
        yield Item(ENTRY, crate, path, "program", text.split("\n"), first, first + head[0].count("\n") - 1)


class Tree:
    """All items, those of lower crates first, and what each leads to."""

    def __init__(self):
        self.below = {}
        for name, below in re.findall(r"^(\w+):(.*)$", read("crates.txt"), re.M):
            self.below[name] = below.split()
        self.items = [item for crate in sorted(self.below, key=self.floor) for item in self.crate(crate)]
        self.at = {(item.path, item.name): item for item in self.items}
        for item in self.items:
            if item.lines[0].startswith("pub data"):
                for part in item.parts():
                    self.at.setdefault((item.path, part), item)
        scopes = {item.path: self.scope(item) for item in self.items}
        for item in self.items:
            words = {word for line in item.believed() for word in WORD.findall(line) + re.findall(r"\w+\.(?=\w)", line)}
            known = {word: other for word, other in scopes[item.path].items() if word in words and other is not item}
            item.leads = set(known.values())
            item.aliases = {word: other for word, other in known.items()
                            if other.kind == DEFINITION and word not in (other.name, *other.parts())}

    def floor(self, crate):
        """How many crates stand below one another under this one."""
        return max((1 + self.floor(below) for below in self.below.get(crate, [])), default=0)

    def programs(self, crate):
        """Whether a crate is a program's."""
        above = [name for name, below in self.below.items() if crate in below]
        return os.path.isfile(f"crates/{crate}/src/main.rt") or bool(above) and all(map(self.programs, above))

    def crate(self, crate):
        """A crate's types, then its definitions, then the heads of its entries; of a program no types."""
        source = files(f"crates/{crate}/src", ".rt", "lib.rt", r"^(?:pub )?mod (\w+);")
        specs = files(f"crates/{crate}/specs", ".antt", "Lib.antt", r"^pub mod (\w+)")
        lib = "" if self.programs(crate) else read(f"crates/{crate}/src/lib.rt")
        found = [item for path in source for item in types(crate, path)] if lib else []
        found += [item for path in specs for item in definitions(crate, path)]
        found += [item for path in source for item in entries(crate, path, lib)] if lib else []
        return found + list(program(crate, f"crates/{crate}/src/main.rt"))

    def scope(self, item):
        """What the words of an item's file lead to."""
        text = read(item.path)
        known = {}
        for crate, module, names in re.findall(SPECS + r"(\w+)\.\{([^}]*)\}", text, re.M):
            for pair in filter(None, re.split(r",\s*", " ".join(names.split()))):
                old, _, new = pair.partition(" as ")
                known[new or old] = self.at.get((f"crates/{crate}/specs/{module}.antt", old))
        for crate, place, names in re.findall(
                SPECS + r"declared\.([\w.]+?)\.(\{[^}]*\}|TheVariants as \w+)", text, re.M):
            *folders, name = place.split(".")
            path = f"crates/{crate}/src/{'/'.join(folders) or 'lib'}.rt"
            form = "." if names.startswith("TheVariants") else ""
            known[re.findall(r"\w+", names)[-1] + form] = self.at.get((path, name))
        if item.path.endswith(".rt"):
            taken = set(uses(text, ""))
            for other in self.items:
                if other.kind == TYPE and (other.crate == item.crate or f"{other.crate}::{other.name}" in taken):
                    known.setdefault(other.name, other)
        else:
            known.update({name: other for (path, name), other in self.at.items() if path == item.path})
        return {word: other for word, other in known.items() if other}

    def reached(self, roots):
        """All that these lead to, themselves among them."""
        seen, todo = set(), list(roots)
        while todo:
            item = todo.pop()
            if item not in seen:
                seen.add(item)
                todo += item.leads
        return seen

    def said(self, name, path):
        """The item that a name of docs/STATEMENTS.md is in, if any, and the part of it."""
        whole, _, part = name.partition(".")
        return self.at.get((path, whole)), part

    def signed(self, blocks):
        """What each block of 'What is signed' makes her believe that those before it don't: its terms, and the public
        entries of the crates that they stand on."""
        before = set()
        for block in blocks:
            if block.section == "What is signed":
                terms = [self.said(*name)[0] for name in block.names("says")]
                crates = {crate for term in terms for crate in [term.crate, *self.below[term.crate]]}
                entries = [item for item in self.items if item.kind == ENTRY and item.crate in crates]
                reached = self.reached([*terms, *entries])
                yield block, reached - before
                before |= reached

    def believed(self, blocks):
        """All that the blocks of 'What is signed' make her believe."""
        return set().union(*(items for _, items in self.signed(blocks)))
