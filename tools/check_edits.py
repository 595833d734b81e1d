#!/usr/bin/env python3
"""Checks that every wrong edit applies: tools/check_edits.py [CRATE..]

Goes over crates/*/must-fail/*.edit and crates/*/edits/*.edit, or those of the crates that are named. Each has a line `file: PATH`, a file of
the crate, and then pairs of lines `old: TEXT` and `new: TEXT`. A text that is to go has to stand exactly once in the file as the pairs before
made it, and the whole has to change something. Prints what does not apply, and exits with 1 if there is any, with 2 if there is no edit.
"""
import pathlib
import sys

TOP = pathlib.Path(__file__).resolve().parent.parent
FOLDERS = ("must-fail", "edits")


def edits(crates):
    for folder in FOLDERS:
        for edit in TOP.glob(f"crates/*/{folder}/*.edit"):
            if not crates or edit.parts[-3] in crates:
                yield edit


def wrong(edit):
    """What keeps an edit from being applied, or nothing."""
    crate = edit.parent.parent
    path, old, texts, first, pairs = None, None, {}, {}, 0
    for line in edit.read_text(encoding="utf-8").split("\n"):
        if line.startswith("file: "):
            path = crate / line.removeprefix("file: ").strip()
            if not path.is_file():
                return f"no file {path.relative_to(crate)}"
        elif line.startswith("old: "):
            old = line.removeprefix("old: ")
        elif line.startswith("new:"):
            if path is None or old is None:
                return "a new: line stands before any file: or old: line"
            text = texts.setdefault(path, path.read_text(encoding="utf-8"))
            first.setdefault(path, text)
            found = text.count(old)
            if found != 1:
                return f"stands {found} times in {path.relative_to(crate)}: {old}"
            texts[path] = text.replace(old, line.removeprefix("new:").removeprefix(" "))
            old, pairs = None, pairs + 1
    if old is not None:
        return "an old: line has no new: line"
    if pairs == 0:
        return "it has no pair of lines"
    return None if texts != first else "it changes nothing"


every = sorted(edits(sys.argv[1:]))
bad = 0
for edit in every:
    why = wrong(edit)
    if why:
        bad += 1
        print(f"{edit.relative_to(TOP)}: {why}")
print(f"tools/check_edits.py: {len(every)} edits, {bad} do not apply")
sys.exit(2 if not every else 1 if bad else 0)
