#!/usr/bin/env python3
"""Brings the repository's own definitions and lemmas to the spelling of today's Rattle: words in snake case, types in camel case.

usage: tools/snake_names.py [--check]

It goes over the .antt, .rt and .edit files below crates/, and over what stands between backticks in the pages. A name that a file takes
from a library of the kit stays in that file. A new name that another definition, a lemma, a parameter or a
local has already is listed and left as it is (a function of src/ may have it: functions are named by their module). --check only lists.
"""

import re
import subprocess
import sys
from pathlib import Path

TOP = Path(__file__).resolve().parent.parent
CRATES = TOP / "crates"
WORD = r"[^\s(){}.;,@\"«»\[\]\\`]+"
PIECE = re.compile(r'--[^\n]*|//[^\n]*|"(?:[^"\\\n]|\\.)*"|' + WORD)
DECLARED = re.compile(
    r"(?m)^[ \t]*(?:(?:pub|abbrev|unfoldable|data|record|mutual|syntax)[ \t]+)*"
    rf"((?:{WORD}[ \t]+)*?{WORD})[ \t]*(?:\{{[^}}\n]*\}}|\([^)\n]*\)|[ \t])*:(?!:)"
)
USE = re.compile(r"(?m)^[ \t]*(?:pub )?(?:ghost )?use ([^\s;{]+?)\.\{([^}]*)\}")
SKIP = set("let in where record data module use if then else".split())


def files(*ends):
    for path in sorted(CRATES.rglob("*")):
        if path.suffix in ends and "out" not in path.parts:
            yield path


def kind_of(text, name):
    """Whether the declaration's type ends in Type: then it names a type."""
    found = re.search(rf"(?ms)^[^\S\n]*[^\n]*?(?<!\S){re.escape(name)}(?!\S)[^\n:]*:(?!:)((?:[^\n]*\n[ \t]+(?=[^\n]*→))*[^\n]*)", text)
    if not found:
        return False
    return bool(re.search(r"Type(?: \S+)?\s*(?:where)?\s*$", found.group(1).strip()))


def snake(name):
    return re.sub(r"(?<=[^\W_?'₀-₉])-(?=\w)|(?<=[\w?'₀-₉])-(?=\w)", "_", name)


def camel(name):
    return "".join(part[:1].upper() + part[1:] for part in name.split("-"))


def own_names():
    names = {}
    for path in files(".antt"):
        if path.name in ("Proof.antt", "Answers.antt", "Invariants.antt"):
            continue
        text = path.read_text(encoding="utf-8")
        for found in DECLARED.finditer(text):
            for name in found.group(1).split():
                if "-" in name and re.search(r"\w-\w", name) and name not in SKIP and not name.startswith("-"):
                    is_type = name[:1].isupper() and kind_of(text, name)
                    names.setdefault(name, set()).add(camel(name) if is_type else snake(name))
    return names


def taken():
    """The words that are declared, bound or imported somewhere in proofs, definitions and code, but for the names of functions."""
    found = set()
    for path in files(".antt", ".rt"):
        text = path.read_text(encoding="utf-8")
        code = re.sub(r"--[^\n]*|//[^\n]*", "", text)
        if path.suffix == ".rt":
            functions = set(re.findall(r"\bfn (\w+)", code))
            imported = set(re.findall(r"\b(\w+)\b", " ".join(re.findall(r"(?m)^(?:pub )?(?:use|mod|pub mod) [^;]*;", code))))
            found |= set(re.findall(r"\b(\w+): ", code)) - functions - imported
        else:
            paths = set(re.findall(r"(?<=\.)[^\s(){}.;,]+(?=\.)|(?<=\.)[^\s(){}.;,]+ as", code))
            for piece in PIECE.findall(code):
                if not piece.startswith('"') and piece not in paths:
                    found.add(piece)
    return found


def foreign(text):
    out = set()
    for module, items in USE.findall(text):
        own = re.match(r"Rattle\.(\w+)\.", module)
        if not (own and (CRATES / own.group(1)).is_dir()):
            out |= {item.strip().split(" as ")[0] for item in items.split(",")}
    return out


def turned(text, names, kept):
    def one(found):
        piece = found.group(0)
        if piece.startswith('"'):
            return piece
        if piece.startswith(("--", "//")):
            return re.sub(r"`[^`]*`", lambda it: quoted(it.group(0), names), piece)
        return piece if piece in kept else names.get(piece, piece)

    return PIECE.sub(one, text)


def quoted(text, names):
    return re.sub(r"[^\s(){}.;,:!@\"«»\[\]\\`]+", lambda it: names.get(it.group(0), it.group(0)), text)


def main():
    names, there = own_names(), taken()
    chosen, fallen = {}, []
    for old, new in sorted(names.items()):
        if len(new) > 1:
            new = {snake(old)}
        (word,) = new
        if word == old:
            continue
        if word in there or word in chosen.values():
            fallen.append(f"{old} -> {word}")
            if word == snake(old) or snake(old) in there or snake(old) in chosen.values():
                continue
            word = snake(old)
        chosen[old] = word
    print(f"{len(chosen)} names, {len(fallen)} that fall together with another and stay:")
    print("\n".join(fallen))
    if "--check" in sys.argv:
        return
    for path in files(".antt", ".rt", ".edit"):
        text = path.read_text(encoding="utf-8")
        new = turned(text, chosen, foreign(text))
        if new != text:
            path.write_text(new, encoding="utf-8")
    pages = subprocess.run(["git", "ls-files", "*.md"], cwd=TOP, capture_output=True, text=True, check=True).stdout.split()
    for page in pages:
        path = TOP / page
        text = path.read_text(encoding="utf-8")
        new = re.sub(r"`[^`\n]*`", lambda it: quoted(it.group(0), chosen), text)
        if new != text:
            path.write_text(new, encoding="utf-8")


main()
