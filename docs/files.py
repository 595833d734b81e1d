#!/usr/bin/env python3
"""Lists in docs/TRACE.md the files under specs/ that it has not named: docs/files.py [--check]

A file is listed with the comment that it begins with, crates in the order of crates.txt; those that begin as the files of
the same names of a crate before are that crate's for layout one, and have one line. The list is written between the two
marks; with --check nothing is written, and the exit status is 1 if another list stands there.
"""
import pathlib
import re
import sys
import textwrap

TOP = pathlib.Path(__file__).resolve().parent.parent
TRACE = TOP / "docs" / "TRACE.md"
BEGIN, END = "<!-- files, by docs/files.py -->", "<!-- end of files -->"


def crates():
    lines = (TOP / "crates.txt").read_text(encoding="utf-8").splitlines()
    return [line.partition(":")[0].split()[0] for line in lines if line.strip() and not line.startswith("#")]


def opening(path):
    """The comment that a file begins with, without what it says of assumptions."""
    lines = []
    for line in path.read_text(encoding="utf-8").splitlines():
        if not line.startswith("--"):
            break
        lines.append(line.removeprefix("--").strip())
    return re.sub(r" *Assumes nothing[^.]*\.", "", " ".join(lines))


def item(text):
    return textwrap.fill(text, 120, initial_indent="- ", subsequent_indent="  ", break_on_hyphens=False)


def listed(above):
    seen = {}
    for crate in crates():
        instances = {}
        for path in sorted((TOP / "crates" / crate / "specs").glob("*.antt")):
            if path.stem == "Lib" or re.search(rf"`{crate}:{path.stem}[.`]", above):
                continue
            says = opening(path)
            first = seen.setdefault((path.stem, says), crate)
            if first == crate:
                yield item(f"`{crate}:{path.stem}`: {says}")
            else:
                instances.setdefault(first, []).append(f"`{crate}:{path.stem}`")
        for first, files in instances.items():
            yield item(", ".join(files) + f": layout one's instance of the file of the same name of `{first}`.")


text = TRACE.read_text(encoding="utf-8")
if text.count(BEGIN) != 1 or text.count(END) != 1:
    sys.exit(f"docs/files.py: docs/TRACE.md has not the marks {BEGIN} and {END} once each")
above, _, rest = text.partition(BEGIN)
below = rest.partition(END)[2]
items = list(listed(above))
after = above + BEGIN + "\n" + "\n".join(items) + "\n" + END + below
if "--check" in sys.argv[1:]:
    if after != text:
        sys.exit("docs/files.py: docs/TRACE.md lists other files; run docs/files.py")
else:
    TRACE.write_text(after, encoding="utf-8")
print(f"docs/files.py: {len(items)} lines of files in docs/TRACE.md")
