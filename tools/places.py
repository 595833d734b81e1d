#!/usr/bin/env python3
"""Counts, point by point, the places in crates/*/src that docs/DESIGN-PASS.md
speaks of. `tools/places.py` prints the counts, `tools/places.py POINT` the
places of one point, and `--at COMMIT` looks at the text of a commit."""
import collections
import glob
import re
import subprocess
import sys


def texts(commit):
    if commit is None:
        for path in sorted(glob.glob("crates/*/src/**/*.rt", recursive=True)):
            with open(path, encoding="utf-8") as f:
                yield path, f.read()
        return
    listed = subprocess.run(["git", "ls-tree", "-r", "--name-only", commit, "crates"],
                            check=True, capture_output=True, text=True).stdout
    for path in sorted(listed.split("\n")):
        if re.fullmatch(r"crates/\w+/src/.*\.rt", path):
            yield path, subprocess.run(["git", "show", f"{commit}:{path}"], check=True,
                                       capture_output=True, text=True).stdout


def plain(text):
    return re.sub(r"//[^\n]*", "", text)


def functions(text):
    """Name, parameters, result, contract and body of each function."""
    form = re.compile(r"^( *)(?:pub(?:\(\w+\))? )?(?:extern \"C\" )?fn (\w+)(?:<[^\n]*?>)?\((.*?)\)"
                      r"(?: -> ([^\n]*?))?((?:\n\1    (?:requires|ensures|ghost).*?)?)(?: |\n\1)\{\n(.*?)^\1\}",
                      re.S | re.M)
    for m in form.finditer(text):
        yield m.group(2), m.group(3), (m.group(4) or "").strip(), m.group(5), m.group(6)


def loops(body):
    """Test and body of each `while`."""
    for m in re.finditer(r"^( *)(?:'\w+: )?while (.*?) \{\n(.*?)^\1\}", body, re.S | re.M):
        yield m.group(2), m.group(3)


def shape(body):
    body = re.sub(r"\s+", " ", body)
    body = re.sub(r"\b\d[\d_]*\b", "0", body)
    words = {"let", "mut", "if", "else", "while", "for", "in", "return", "match", "as", "true",
             "false", "break", "continue"}
    return re.sub(r"[A-Za-z_]\w*(?:::\w+)*", lambda m: m.group() if m.group() in words else "x", body)


def point_1(files):
    whole = "".join(text for _, text in files)
    failures = set(re.findall(r"Result<[^\n]*?, (?:\w+::)*(\w+)>", whole))
    for path, text in files:
        for m in re.finditer(r"enum (\w+) \{\n(.*?)^\}", text, re.S | re.M):
            body = re.sub(r"\{[^}]*\}|\([^)]*\)", "!", m.group(2))
            variants = re.findall(r"^    (\w+) ?(!?)", body, re.M)
            if m.group(1) in failures:
                continue
            if any(v[1] for v in variants) and any(not v[1] for v in variants):
                yield f"{path}: enum {m.group(1)}: a value or none"
            elif len(variants) == 2 and not any(v[1] for v in variants):
                yield f"{path}: enum {m.group(1)}: yes or no"
        for m in re.finditer(r"struct (\w+)(?:<[^>]*>)? \{\n(.*?)^\}", text, re.S | re.M):
            if re.search(r": bool,", m.group(2)) and m.group(2).count(",") > 1:
                yield f"{path}: struct {m.group(1)}: a flag beside values"
        for name, _, result, _, body in functions(text):
            if result in ("u32", "usize") and re.search(r"(=>|return|^) *\d+[,;]?$", body, re.M):
                yield f"{path}: fn {name}: answers a number for a case"


def point_2(files):
    by_shape = collections.defaultdict(list)
    for path, text in files:
        for name, params, _, _, body in functions(text):
            if len(body) > 60 or "while" in body:
                by_shape[(shape(body), params.count(":"))].append(f"{path}: fn {name}")
    for places in by_shape.values():
        for twin in places[1:]:
            yield f"{twin} ~ {places[0]}"


def point_3(files):
    for path, text in files:
        for name, _, _, _, body in functions(text):
            for test, inner in loops(body):
                stepped = re.findall(r"\b(\w+) [+-]= 1;", inner)
                if any(re.search(rf"\b{v}\b", test) for v in stepped):
                    yield f"{path}: fn {name}: while {test}"


def point_4(files):
    for path, text in files:
        for name, params, result, _, body in functions(text):
            inner = body.strip()
            if re.fullmatch(r"\(?\*?\w+\)? as \w+", inner):
                yield f"{path}: fn {name}: a conversion"
            elif re.match(r"match \w+ \{", inner) and re.search(r"=> \d+,", inner):
                yield f"{path}: fn {name}: an enum to a number"
            elif result == "Row" and inner.startswith("match"):
                yield f"{path}: fn {name}: an answer to a row"
            elif result == "bool" and len(re.findall(r"if \w+\.(\w+) != \w+\.\1", inner)) > 0:
                yield f"{path}: fn {name}: an equality"
        for m in re.finditer(r"(?:#\[derive\(([^)]*)\)\]\n)?(?:pub )?(?:enum|struct) (\w+)", text):
            if m.group(1) is None:
                yield f"{path}: type {m.group(2)}: no derive"


def point_5(files):
    facts, groups = collections.Counter(), collections.Counter()
    for path, text in files:
        for name, params, _, contract, _ in functions(text):
            for clause in re.findall(r"requires(?: \w+)? \{(.*?)\}\n?", contract, re.S):
                for fact in set(re.split(r"[()]* × [()]*", re.sub(r"\s+", " ", clause.strip(" ()")))):
                    facts[re.sub(r"\.(old|now|new)\b", "", fact.strip(" ()"))] += 1
            names = re.findall(r"(\w+): ", params)
            for a in range(len(names)):
                for b in range(a + 1, len(names)):
                    for c in range(b + 1, len(names)):
                        groups[(names[a], names[b], names[c])] += 1
    for fact, count in facts.most_common():
        if count >= 3:
            yield f"a fact in {count} functions: {fact}"
    for group, count in groups.most_common():
        if count >= 3:
            yield f"parameters in {count} functions: {', '.join(group)}"


def point_6(files):
    for path, text in files:
        for name, params, _, contract, _ in functions(text):
            slices = re.findall(r"(\w+): &(?:'\w+ )?(?:mut )?\[", params)
            for s in slices:
                for n in re.findall(rf"\b(\w+) ≤ (?:suc )?length {s}\.", contract):
                    if re.search(rf"\b{n}: usize", params):
                        yield f"{path}: fn {name}: {s} with {n} beside it"


def point_7(files):
    for path, text in files:
        for name, _, _, _, body in functions(text):
            for m in re.finditer(r"match \w+ \{\n((?: +\w+::\w+(?:\([^)]*\))? => \w+\([^)]*\),\n)+) *\}", body):
                args = set(re.findall(r"=> \w+\(([^)]*)\),", m.group(1)))
                if len(args) == 1 and m.group(1).count("=>") > 1:
                    yield f"{path}: fn {name}: a match that picks a function"


POINTS = {"1": point_1, "2": point_2, "3": point_3, "4": point_4, "5": point_5, "6": point_6, "7": point_7}


def main(args):
    commit = None
    if "--at" in args:
        at = args.index("--at")
        commit = args[at + 1]
        del args[at:at + 2]
    files = [(path, plain(text)) for path, text in texts(commit)]
    if args:
        places = list(POINTS[args[0]](files))
        print("\n".join(places))
        return
    for point, find in POINTS.items():
        print(f"point {point}: {len(list(find(files)))}")


main(sys.argv[1:])
