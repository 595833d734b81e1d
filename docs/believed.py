#!/usr/bin/env python3
"""Counts the lines of definitions that a reader has to believe: docs/believed.py [-l]

From what the contracts of `unify` and `fit` and the two demands name, every name is followed to its definition, and the
lines of what is reached are counted, comments, blank lines and `use` lines left out; -l lists them. The programs that
join, tell a clash's node, read and answer stand for `Joined` and `Clash`, `ClashNode`, `Image` and `Given` by theorems (MADE_ONE): these are followed
instead. What the contract of `formula` and the meaning of formulas name besides is counted by itself, and so is what
says which input is malformed, why and where, what says what a suite is and what is printed for one, and what says the same of
a library. Exits with 1 where there are more lines than the limits.
"""
import pathlib
import re
import sys

TOP = pathlib.Path(__file__).resolve().parent.parent
LIMIT = 510
FORMULAS_LIMIT = 300
MALFORMED_LIMIT = 160
SUITES_LIMIT = 340
LIBRARIES_LIMIT = 350
ROOTS = [
    ("theory", "Outcome", "Outcome"),
    ("answering", "Number", "row_of"),
    ("theory", "FitTest", "FitGiven"),
    ("fit", "Number", "number_of"),
    ("theory", "Demands", "Demand2"),
    ("theory", "Demands", "Demand3"),
]
# what a program of words is, of which the demands are proved
PROGRAMS = [("theory", "Programs", "Meets"), ("theory", "Programs", "sized")]
# what a formula is, and what comes of its text
FORMULAS = [("translate", "Translated", "Translated"), ("translate", "Answered", "Answered"), ("formulas", "Formula", "Satisfied")]
# what is malformed, and which part starts there
MALFORMED = [("answering", "Caused", "Caused"), ("malformed", "Malformed", "Reported"), ("malformed", "Part", "Part")]
# what a suite leaves, when it is refused, and what is printed for its text
SUITES = [("suite", "Suite", "Suited"), ("suite", "Refusals", "Refuses"), ("suite", "Expected", "FirstUnexpected"),
    ("suite_text", "Report", "suite_printed")]
# what a library's file is, what is read of one, listed and written, when it is refused, and what is printed for a text
LIBRARIES = [("library", "File", "file"), ("library", "Rules", "Why"), ("library", "Rules", "WhyListed"), ("library", "Told", "FetchTold"),
    ("library", "Told", "ListTold"), ("library", "Check", "block_checked"), ("library_writing", "Reasons", "WhyWritten"),
    ("library_writing", "Told", "WriteTold"), ("library_text", "Serves", "serves")]
# the program, the definitions that it is shown to agree with, and the theorem's file
MADE_ONE = {
    ("theory", "Join", "join"): [("theory", "Net", "Joined"), ("theory", "Net", "Clash")],
    ("theory", "Located", "clash_node?"): [("theory", "ClashNode", "ClashNode")],
    ("theory", "Reading", "decode"): [("theory", "LayoutOne", "Image")],
    ("descriptions", "Unified", "unified"): [("descriptions", "Rules", "Given")],
    ("formulas", "Part", "part_graph"): [("formulas", "Part", "Definite"), ("formulas", "Part", "PartClashes")],
}
WORD = re.compile(r"[^\s(){}.;,@]+")
DECLARED = re.compile(r"^( *)(?:abbrev |unfoldable )?(?:pub )?(?:(record|data) )?([^\s(){}:]+)(?: [^:]*)? :(?: |$)")


class File:
    """A file of definitions: its lines, where each name is declared, and what its `use` lines bring in."""

    def __init__(self, crate, stem):
        self.crate, self.stem = crate, stem
        text = (TOP / "crates" / crate / "specs" / f"{stem}.antt").read_text(encoding="utf-8")
        self.lines = text.splitlines()
        self.brought = {}
        for crate_of, stem_of, items in re.findall(
            r"^(?:unfoldable )?(?:pub )?use Rattle\.(\w+)\.specs\.(\w+)\.\{([^}]*)\}", text, re.M
        ):
            for item in items.split(","):
                names = item.strip().split(" as ")
                self.brought[names[-1]] = (crate_of, stem_of, names[0])
        self.blocks = {}
        self.inside = {}
        self.parse()

    def parse(self):
        """Groups lines: a declaration and all that stands deeper, or that begins with its name."""
        at, owner = 0, None
        while at < len(self.lines):
            line = self.lines[at]
            found = DECLARED.match(line)
            bare = line.strip()
            if not bare or bare.startswith("--") or re.match(r"^(?:unfoldable )?(?:pub )?use ", line):
                pass
            elif re.match(r"^ *(?:abbrev |unfoldable )?mutual|^ *module |^ *open |^ *infix", line):
                owner = None
            elif found and not (owner and len(found.group(1)) > owner[1] and owner[2]):
                owner = (found.group(3), len(found.group(1)), found.group(2))
                self.blocks.setdefault(owner[0], []).append(bare)
            elif owner:
                self.blocks[owner[0]].append(bare)
                inner = re.match(r"^ *(?:pub )?(\S+) :", line)
                if owner[2] and inner:
                    self.inside.setdefault(inner.group(1), owner[0])
            at += 1

    def find(self, name):
        """Where a name stands; a field or a constructor stands with its type."""
        name = self.inside.get(name, name)
        if name in self.blocks:
            return self.crate, self.stem, name
        return self.brought.get(name)


files = {}


def file_of(crate, stem):
    if (crate, stem) not in files:
        path = TOP / "crates" / crate / "specs" / f"{stem}.antt"
        files[crate, stem] = File(crate, stem) if path.exists() else None
    return files[crate, stem]


def parts(word):
    """The names that a word may be an occurrence of: itself, or an operator whose part it is."""
    return [word, f"◌{word}◌"]


def reached(roots):
    seen, todo, counted = set(), list(roots), {}
    while todo:
        at = todo.pop()
        if at in seen:
            continue
        seen.add(at)
        if at in MADE_ONE:
            todo += MADE_ONE[at]
            continue
        file = file_of(*at[:2])
        if file is None:
            continue
        there = file.find(at[2])
        if there is None:
            sys.exit(f"docs/believed.py: {at[2]} is not declared in {at[0]}:{at[1]}")
        if there != at:
            todo.append(there)
            continue
        block = file.blocks[at[2]]
        counted[at] = len(block)
        text = "\n".join(block)
        for crate, stem, name in re.findall(r"Rattle\.(\w+)\.specs\.(\w+)\.([^\s(){}.;,@]+)", text):
            todo.append((crate, stem, name))
        for word in set(WORD.findall(text)):
            for name in parts(word):
                there = file.find(name)
                if there:
                    todo.append(there)
    return counted


counted = reached(ROOTS)
total = sum(counted.values())
programs = {at: count for at, count in reached(PROGRAMS).items() if at not in counted}
more = sum(programs.values())
formulas = {at: count for at, count in reached(FORMULAS).items() if at not in counted}
typed = sum(formulas.values())
malformed = {at: count for at, count in reached(MALFORMED).items() if at not in counted}
broken = sum(malformed.values())
suites = {at: count for at, count in reached(SUITES).items() if at not in counted}
told = sum(suites.values())
libraries = {at: count for at, count in reached(LIBRARIES).items() if at not in counted}
filed = sum(libraries.values())
if "-l" in sys.argv[1:]:
    for (crate, stem, name), count in [pair for part in (counted, programs, formulas, malformed, suites, libraries) for pair in sorted(part.items())]:
        print(f"{count:4} {crate}:{stem}.{name}")
print(f"docs/believed.py: {total} lines in {len(counted)} definitions have to be believed; the limit is {LIMIT}")
print(f"docs/believed.py: {more} lines in {len(programs)} definitions say besides what a program of words is")
print(f"docs/believed.py: {typed} lines in {len(formulas)} definitions say what a formula is; the limit is {FORMULAS_LIMIT}")
print(f"docs/believed.py: {broken} lines in {len(malformed)} definitions say what is malformed; the limit is {MALFORMED_LIMIT}")
print(f"docs/believed.py: {told} lines in {len(suites)} definitions say what a suite is; the limit is {SUITES_LIMIT}")
print(f"docs/believed.py: {filed} lines in {len(libraries)} definitions say what a library is; the limit is {LIBRARIES_LIMIT}")
over = total > LIMIT or filed > LIBRARIES_LIMIT or typed > FORMULAS_LIMIT or broken > MALFORMED_LIMIT or told > SUITES_LIMIT
sys.exit(1 if over or not counted or not formulas or not malformed or not suites or not libraries else 0)
