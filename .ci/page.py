"""Reads docs/STATEMENTS.md: its sections, and in them the blocks, one for each sentence.

    **W6** 'After n steps the state is ..' (demand 2)
    - says: `name`, `name` in `path`
    - proof: `name` in `path`
    - tried: `crate/label`, `crate/label`

A block has one `says` or more, one `proof` or more and one `tried`, in this order. A long line goes on in the next,
two spaces in. An empty line ends the block.
"""
import re

PAGE = "docs/STATEMENTS.md"
WIDEST = 120
LABELS = ["says", "proof", "tried"]
PLAIN = {"definition", "by the checker", "run"}


class Block:
    """A sentence, with what says it, what proves it and what was tried."""

    def __init__(self, number, at, section, sentence):
        self.number, self.at, self.section, self.sentence = number, at, section, sentence
        self.items = []

    def of(self, label):
        """The items with this label."""
        return [text for name, text in self.items if name == label]

    def names(self, label):
        """The names under this label, each with its file."""
        for text in self.of(label):
            group = grouped(text)
            for name in group[0] if group else []:
                yield name, group[1]


def grouped(text):
    """The names and the path of `name`, `name` in `path`; nothing where it isn't that."""
    group = re.fullmatch(r"((?:`[^`]+`, )*`[^`]+`) in `([^`]+)`", text)
    return (re.findall(r"`([^`]+)`", group[1]), group[2]) if group else None


def lines():
    with open(PAGE, encoding="utf8") as page:
        return page.read().split("\n")


def section(title):
    """The lines of one section, without its title."""
    page = lines()
    start = page.index(f"## {title}") + 1
    end = next((i for i in range(start, len(page)) if page[i].startswith("## ")), len(page))
    return "\n".join(page[start:end]).strip("\n").split("\n")


def blocks():
    """All blocks of the page, and what is wrong with its lines, each with the number of the line."""
    found, faults = [], []
    block = title = None
    for at, line in enumerate(lines(), 1):
        start = re.match(r"\*\*([A-Z]\d+)\*\* (\S.*)", line)
        item = re.match(r"- (\w+): (\S.*)", line)
        if len(line) > WIDEST:
            faults.append((at, f"{len(line)} characters"))
        if line.startswith("## "):
            title = line[3:]
        if line == "":
            block = None
        elif start and block is None:
            block = Block(start[1], at, title, start[2])
            found.append(block)
        elif item and item[1] in LABELS and block:
            block.items.append((item[1], item[2]))
        elif block and not block.items and not re.match(r"  |- |\*\*[A-Z]\d", line):
            block.sentence += " " + line
        elif block and line.startswith("  ") and block.items:
            label, text = block.items[-1]
            block.items[-1] = label, f"{text} {line.strip()}"
        elif block or item and item[1] in LABELS or re.match(r"\||\*\*[A-Z]\d", line):
            faults.append((at, f"no line of a block: {line}"))
    return found, faults
