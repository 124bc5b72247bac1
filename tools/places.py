#!/usr/bin/env python3
"""Counts the places in crates/*/src that docs/DESIGN-PASS.md speaks of, point by point.

    tools/places.py [FOLDER] [POINT ..]     FOLDER: a checkout (default: this one)

Each line is a place: the point, the file and line, and what was found there.
"""
import collections
import pathlib
import re
import sys

FOLDER = pathlib.Path(__file__).resolve().parent.parent
args = sys.argv[1:]
if args and not args[0].isdigit():
    FOLDER = pathlib.Path(args.pop(0))
WANTED = {int(a) for a in args} or set(range(1, 9))

sources = sorted(FOLDER.glob("crates/*/src/**/*.rt"))
found = collections.defaultdict(list)


def place(point, path, line, what):
    found[point].append((path.relative_to(FOLDER), line, what))


def code_of(path):
    """The file's lines without comments."""
    return [re.sub(r"(^|\s)//.*", "", line) for line in path.read_text().split("\n")]


FN = re.compile(r"^(\s*)(?:pub(?:\(crate\))? )?(?:const )?fn (\w+)")


def functions(path):
    """Each function: its name, its line, its head's parameters, its clauses, its body."""
    lines = code_of(path)
    i = 0
    while i < len(lines):
        m = FN.match(lines[i])
        if not m:
            i += 1
            continue
        depth, j, head = 0, i, ""
        while j < len(lines):
            head += lines[j] + "\n"
            depth += lines[j].count("(") - lines[j].count(")")
            if depth == 0 and "(" in head:
                break
            j += 1
        k, clauses = j + 1, ""
        if not head.rstrip().endswith(("{", ";")):
            while k < len(lines) and lines[k].strip() != "{" and k - j < 60:
                clauses += lines[k] + "\n"
                k += 1
        end = k
        while end < len(lines) and lines[end] != m.group(1) + "}":
            end += 1
        params = re.findall(r"(\w+): ([^,()]+(?:\([^()]*\))?[^,()]*)", head[head.index("(") :])
        yield m.group(2), i + 1, params, clauses, "\n".join(lines[k:end])
        i = end + 1


all_functions = [(path, *f) for path in sources for f in functions(path)]

# 1. Own enums of the shape of Option or Result, a value beside its flag, numbers for kinds.
for path in sources:
    lines, owner = code_of(path), ""
    for i, line in enumerate(lines):
        owner = (re.findall(r"^impl (\w+)", line) or [owner])[0]
        if re.match(r"^    (Refused\(u8\)|Nothing|Failed|Differ),?$", line):
            place(1, path, i + 1, "a variant for a refusal or for nothing: " + line.strip())
        if re.match(r"^    (pub )?(outcome|answer): [A-Z]\w+,$", line):
            place(1, path, i + 1, "an outcome with a value beside it: " + line.strip())
        if owner in ("Number", "Kind", "Face") and re.match(r"^\s+(pub )?const [A-Z]+: u(8|32) =", line):
            place(1, path, i + 1, "a number for a kind: " + line.strip())

# 2. Functions whose bodies are the same but for names, types and numbers.
WORDS = {"let", "mut", "while", "for", "in", "if", "else", "return", "match", "as", "true", "false"}
bodies = collections.defaultdict(list)
for path, name, line, params, clauses, body in all_functions:
    names = {}
    text = re.sub(r'b?"(?:[^"\\]|\\.)*"', "TEXT", body)
    text = re.sub(r"\b[0-9][0-9a-z_]*\b", "N", text)
    text = re.sub(
        r"\b[A-Za-z_]\w*\b",
        lambda m: m.group(0) if m.group(0) in WORDS else names.setdefault(m.group(0), f"v{len(names)}"),
        text,
    )
    text = re.sub(r"\s+", " ", text)
    if len(text) > 60:
        bodies[text].append((path, line, name))
for group in bodies.values():
    if len(group) > 1:
        path, line, _ = group[0]
        place(2, path, line, "the same body: " + ", ".join(n for _, _, n in group))

# 3. Loops that count an index by hand, or that take a slice's items by a range.
for path in sources:
    lines = code_of(path)
    for i, line in enumerate(lines):
        ranged = re.search(r"\bfor (\w+) in [\w.() ]+\.\.", line)
        if re.search(r"\b(while|loop)\b", line):
            place(3, path, i + 1, line.strip())
        elif ranged and any(f"[{ranged[1]}]" in below for below in lines[i + 1 : i + 4]):
            place(3, path, i + 1, line.strip())

# 4. Conversion and printing by hand.
for path in sources:
    for i, line in enumerate(code_of(path)):
        if re.search(r"(/ 256|% 256|256 \*|65536 \*)", line):
            place(4, path, i + 1, "digits: " + line.strip())
        elif re.search(r"\b(write_all|text)\((rt, )?b\"", line) or re.search(r"\bput\(text,", line):
            place(4, path, i + 1, "printing: " + line.strip())
    for _, name, line, _, _, _ in [f for f in all_functions if f[0] == path]:
        if re.match(r"^(wide|magnitude|twos_complement|force_of|put_number|put_word|hex|number)$", name):
            place(4, path, line, "a conversion: " + name)

# 5. A fact in the contracts of three or more functions; parameters that travel together.
facts = collections.defaultdict(list)
groups = collections.defaultdict(list)
for path, name, line, params, clauses, body in all_functions:
    if path.parts[-3] in ("station", "station_c"):
        continue  # the C interface has numbers and slices only
    for clause in re.findall(r"requires(?: \w+)? \{([^}]*)\}", clauses):
        for fact in re.split(r"\) × \(", re.sub(r"\s+", " ", clause).strip(" ()")):
            facts[fact].append((path, line, name))
    plain = [p for p, _ in params if p != "rt"]
    for a in range(len(plain)):
        for b in range(a + 3, len(plain) + 1):
            groups[tuple(plain[a:b])].append((path, line, name))
for fact, where in facts.items():
    if len(where) >= 3:
        place(5, where[0][0], where[0][1], f"a fact in {len(where)} contracts: {fact}")
largest = {g: w for g, w in groups.items() if len(w) >= 3}
for g, where in largest.items():
    inside = any(g != h and len(w) >= len(where) and any(h[k : k + len(g)] == g for k in range(len(h))) for h, w in largest.items())
    if not inside:
        place(5, where[0][0], where[0][1], f"together in {len(where)} functions: " + ", ".join(g))

# 6. A buffer with a length beside it; text as bytes.
for path, name, line, params, clauses, body in all_functions:
    types = dict(params)
    slices = [p for p, t in types.items() if t.strip().startswith(("&[", "&mut [", "["))]
    for count in ("held", "count"):
        if types.get(count, "").strip() == "usize" and slices:
            place(6, path, line, f"{name}: {count} beside {', '.join(slices)}")
    for p in ("name", "label", "title", "kind"):
        if types.get(p, "").strip() == "&[u8]":
            place(6, path, line, f"{name}: text as bytes: {p}")

# 7. A switch on which step to run.
for path in sources:
    for i, line in enumerate(code_of(path)):
        if re.search(r"\bmatch (self|axis|kind)\b", line):
            place(7, path, i + 1, line.strip())

# 8. Proof files, and lines that several answers repeat.
answers = sorted(FOLDER.glob("crates/*/proofs/**/Answers.antt"))
lets = collections.Counter(
    line.strip() for a in answers for line in a.read_text().split("\n") if line.strip().startswith("let ")
)
if 8 in WANTED:
    print(f"8  answers: {len(answers)} files, {sum(len(a.read_text().splitlines()) for a in answers)} lines")
    print(f"8  lets that stand in several answers: {sum(1 for n in lets.values() if n > 1)}, ", end="")
    print(f"on {sum(n for n in lets.values() if n > 1)} lines")

for point in sorted(found):
    if point in WANTED:
        for path, line, what in found[point]:
            print(f"{point}  {path}:{line}: {what}")
print()
for point in sorted(WANTED - {8}):
    print(f"point {point}: {len(found[point])} places")
