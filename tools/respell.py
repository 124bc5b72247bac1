#!/usr/bin/env python3
"""Brings the repository's own definitions and lemmas to snake case.

respell.py [--names] [PAGE ..]

Without PAGE: every .antt and .rt file of crates/. A name is one that a file of specs/ or proofs/ declares; types and
modules keep theirs, as do the functions of src/, strings and exported names. With PAGE: the same names, and those that
port.py turned, in these files (pages, scripts, edits) alone; the names are then taken from tools/respelled.txt, which
the run without PAGE writes. --names prints what would be renamed and what falls together, and writes nothing.
"""
import collections
import glob
import os
import re
import sys

ROOT = os.path.join(os.path.dirname(os.path.abspath(__file__)), "..")
LIST = os.path.join(ROOT, "tools", "respelled.txt")
# A word of antt: all between blanks, brackets, commas and dots.
WORD = re.compile(r"[^\s(){}\[\],;.\"`@«»|]+")
DECLARED = re.compile(r"\s*(?:(?:pub|abbrev|unfoldable|opaque)\s+)*([a-z][^\s(){}\[\],;.:]*)\s*(:(?:\s|$)|$)")
STRING = re.compile(r'b?"(?:\\.|[^"\\])*"')
KEPT = {"where", "use", "mod", "pub", "module", "open", "let", "in", "elim", "rw", "unfolding", "infixl", "infixr"}
# Lemmas that would fall together with another name of their file, and what they are called in it instead.
APART = [
    ("yard/proofs/Fits.antt", "from_one", "says_from_one"),
    ("rerun/proofs/program/Proof.antt", "lines-of", "lines_are"),
    ("face/proofs/Carry.antt", "nine_words", "session_nine"),
    ("merge/proofs/Orders.antt", "no_room", "told_no_room"),
    ("merge/proofs/Ways.antt", "no_room", "told_no_room"),
    ("merge/proofs/merge_logs/Proof.antt", "no_room", "told_no_room"),
    ("station/proofs/Merging.antt", "no_room", "told_no_room"),
]

# Lemmas that would fall together with a definition or a field of the same words.
OTHERWISE = {
    "by-lever": "lever_decides",
    "exactly-when": "numbers_exactly",
    "from-history": "from_the_history",
    "joined-saving": "saving_joined",
    "lever-by": "lever_at_by",
    "log-of-records": "log_of_all_records",
    "log-sound": "soundness_of_logs",
    "merge-leaves": "merging_leaves",
    "no-fault": "never_fault",
    "no-wall": "no_wall_is",
    "none-refused": "none_is_refused",
    "part-start": "part_starts",
    "place-order": "order_by_place",
    "plus-zero": "adds_zero",
    "read-after-write": "reads_what_is_written",
    "row-serves": "row_is_right",
    "same-saving": "saving_same",
    "sound-log": "log_of_sound",
    "well-formed": "is_well_formed",
    "with-log": "given_log",
    "world-room": "room_of_world",
    "write-after-read": "writes_what_was_read",
}


def snake(name):
    """The name in snake case: of camel case and of words joined by hyphens."""
    if name in OTHERWISE:
        return OTHERWISE[name]
    hyphens = re.sub(r"(?<=[\w'])-(?=[\w'])", "_", name)
    return re.sub(r"(?<=[a-z0-9])([A-Z])", lambda m: "_" + m[1].lower(), hyphens)


def files():
    for suffix in ("antt", "rt"):
        yield from sorted(glob.glob(os.path.join(ROOT, "crates", "*", "**", "*." + suffix), recursive=True))


def read(path):
    with open(path, encoding="utf8") as file:
        return file.read()


def declared(path):
    """The names that an .antt file declares."""
    found = set()
    lines = [line.split("--")[0].rstrip() for line in read(path).splitlines()]
    for line, after in zip(lines, lines[1:] + [""]):
        match = DECLARED.match(line)
        if match and match[1] not in KEPT and (match[2] or after.lstrip().startswith(":")):
            found.add(match[1])
    return found


def imported(text):
    """The names that a file takes from a library."""
    found = set()
    for match in re.finditer(r"^\s*(?:ghost )?(?:pub )?use ([\w.·]+)\.\{([^}]*)\}", text, re.M):
        own = match[1].startswith("Rattle.") and os.path.isdir(os.path.join(ROOT, "crates", match[1].split(".")[1]))
        if not own:
            found.update(word.split(" as ")[-1].strip() for word in match[2].split(","))
    return found


def names():
    found, taken = set(), set()
    for path in files():
        taken |= imported(read(path))
        if path.endswith(".antt"):
            found |= declared(path)
    found -= taken
    return {name: snake(name) for name in found if snake(name) != name}


def turned(text, names, strings):
    """The text with each name respelled; strings stay where they are code's."""
    def word(match):
        return names.get(match[0], match[0])

    if strings:
        return WORD.sub(word, text)
    out, end = [], 0
    for match in STRING.finditer(text):
        out += [WORD.sub(word, text[end:match.start()]), match[0]]
        end = match.end()
    return "".join(out + [WORD.sub(word, text[end:])])


def main(words):
    if words and words[0] != "--names":
        pairs = dict(line.split() for line in read(LIST).splitlines())
        for path in words:
            text = read(path)
            after = turned(text, pairs, True)
            if after != text:
                with open(path, "w", encoding="utf8") as file:
                    file.write(after)
        return
    table = names()
    texts = {path: read(path) for path in files()}
    for place, name, other in APART:
        path = os.path.join(ROOT, "crates", place)
        texts[path] = turned(texts[path], {name: other}, True)
    falls = collections.defaultdict(list)
    for path, text in texts.items():
        code = "\n".join(line.split("--")[0].split("//")[0] for line in text.splitlines())
        tokens = set(WORD.findall(code))
        taken = imported(text)
        for name in tokens & table.keys():
            for other in tokens & table.keys():
                if name < other and table[name] == table[other]:
                    falls[name, other].append(os.path.relpath(path, ROOT))
        for name, after in table.items():
            if name in tokens and after in tokens:
                falls[name, after].append(os.path.relpath(path, ROOT))
            if name in taken:
                falls[name, "a library's"].append(os.path.relpath(path, ROOT))
    for (name, after), where in sorted(falls.items()):
        print(f"falls together: {name} {after}: {' '.join(where)}")
    print(f"{len(table)} names")
    if words:
        return
    for path, text in texts.items():
        after = turned(text, table, path.endswith(".antt"))
        if after != read(path):
            with open(path, "w", encoding="utf8") as file:
                file.write(after)
    with open(LIST, "w", encoding="utf8") as file:
        file.writelines(f"{name} {after}\n" for name, after in sorted(table.items()))


main(sys.argv[1:])
