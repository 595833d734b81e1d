#!/usr/bin/env python3
"""Writes into docs/FIGURES.md where each wrong edit is first refused: docs/figures.py LOG [ABOUT]

LOG is what `.ci/run`, `rt ci` or `rt must-fail` printed. For each edit the table has the place of the first error, a dash where the
prover named none. ABOUT is a sentence on the run, which is put over the table. What stood between the two marks is replaced. Exits
with 1 if the log has no edit.
"""
import pathlib
import re
import sys

TOP = pathlib.Path(__file__).resolve().parent.parent
FIGURES = TOP / "docs" / "FIGURES.md"
BEGIN, END = "<!-- refusals, by docs/figures.py -->", "<!-- end of refusals -->"
EDIT = re.compile(r"^rt: must-fail (\w+)/(\S+)\.edit: refused, as it must be(?:(?: \([^)\n]*\))?: (?:note: )?(?:\./)?(\S+?:\d+:\d+): )?", re.M)
LAST = re.compile(r"^\d+ passed, \d+ failed\b.*$", re.M)


def refusals(edits):
    yield "| Edit | First refused at |"
    yield "|---|---|"
    for (crate, edit), where in sorted(edits.items()):
        yield f"| `{crate}!{edit}` | {where or '-'} |"


if len(sys.argv) not in (2, 3):
    sys.exit("usage: docs/figures.py LOG [ABOUT]")
log = pathlib.Path(sys.argv[1]).read_text(encoding="utf-8", errors="replace")
edits = {(crate, edit): where for crate, edit, where in EDIT.findall(log)}
if not edits:
    sys.exit(f"docs/figures.py: {sys.argv[1]} has no edit that was refused")
about = [sys.argv[2]] if len(sys.argv) == 3 else []
about += [f"Its last line: `{last}`." for last in LAST.findall(log)[-1:]]
parts = [" ".join(about)] if about else []
parts.append("\n".join(refusals(edits)))
text = FIGURES.read_text(encoding="utf-8")
if text.count(BEGIN) != 1 or text.count(END) != 1:
    sys.exit(f"docs/figures.py: docs/FIGURES.md has not the marks {BEGIN} and {END} once each")
above, _, rest = text.partition(BEGIN)
FIGURES.write_text(above + BEGIN + "\n\n" + "\n\n".join(parts) + "\n\n" + END + rest.partition(END)[2], encoding="utf-8")
print(f"docs/figures.py: {len(edits)} edits")
