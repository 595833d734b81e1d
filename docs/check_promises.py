#!/usr/bin/env python3
"""Checks the documents against the files they cite: docs/check_promises.py [--mend]

A citation stands between backquotes and has one of these forms:
  theory:Rules.Given     the name is declared in specs/Rules.antt of the crate, or else in proofs/Rules.antt
  theory:Rules           the file is there, in specs/ or else in proofs/
  unify:fn unify, told   the crate's code declares these functions
  unify:proof of unify   the crate's code declares this function, whose proof the check has; several names as above. What is written of
                         it, where anything is, stands under proofs/
  unify!nothing_written  the edit nothing_written.edit of the crate, under must-fail/ or edits/
Every citation of every document has to be found, and every path that is named has to be there, but for what is built; in a path NAME stands
for a crate and NN for a number.
- PROMISES has a block a promise: the promise, then `stated:`, `proved:` and two times `rules out: … (shown by …)`. The
  statement cites a definition or a function, the proof anything, and what shows a wrong answer is an edit, a theorem in
  proofs/, or "the contract alone". Every edit is cited by a block, and every public function of a library is named at
  the head of one, as **`name`** (`crate`).
- TRACE names every public definition of the crates in READ and of the files in READ_FILES, and every file under specs/. Layout one's instance of a
  definition, which is that of the same file and name with what layout one has for its parameters, needs no line.
Prints what is wrong and exits with 1; exits with 2 if there is nothing to look up. With --mend, a citation that is not
found, or a head whose functions are elsewhere, is first rewritten where one place only can be meant, as after a move.
"""
import functools
import pathlib
import re
import sys

TOP = pathlib.Path(__file__).resolve().parent.parent
# where wrong edits stand: those that the gate tries, and those that mutation/edits tries
EDITS = ("must-fail", "edits")
READ = ["descriptions", "theory", "answering", "unify", "fit", "call_text", "answer_text", "reply", "formula_text", "malformed", "explaining", "suite",
    "suite_reading", "verdicts", "suite_lines", "suite_text"]
# of other crates, the files that are read
READ_FILES = {"formulas": ["Formula", "Part", "Draft", "Describe", "Known"], "signs": ["Limits", "Signs", "Grammar"],
              "translate": ["Translated", "Row", "Answered"], "roles": ["Faults", "Causes"], "faults": ["Hints"]}
DOCS = sorted(TOP.glob("*.md")) + sorted(TOP.glob("docs/**/*.md"))
CITED = re.compile(r"`(\w+)(?:(!)(\w+)|:(fn|proof of) ([\w, ]+)|:([A-Z]\w*)(?:\.([^`\s]+))?)`")
PATH = re.compile(r"`((?:crates|commands|second|docs|include|examples|bench|fuzz|mutation|parked|tools)/[^` ]+)`")
STANDS_FOR = re.compile(r"\b(?:NAME|NN)\b|\*")
HEAD = re.compile(r"\*\*([^*]+)\*\* \(`(\w+)`\)")
ALONE = "the contract alone"

wrong = []


def says(doc, what):
    wrong.append(f"{doc}: {what}")


@functools.cache
def body(path):
    return path.read_text(encoding="utf-8") if path.is_file() else ""


@functools.cache
def declares(path, name):
    """Whether a file of definitions declares the name: a definition, a field or a constructor."""
    word = re.escape(name)
    head = rf"^ *(?:abbrev |unfoldable )?(?:pub )?(?:record |data )?{word}(?: [^:]*)? :"
    loose = rf"^ *(?:pub )?(?:record|data) {word}(?=\s)"
    return re.search(head, body(path), re.M) is not None or re.search(loose, body(path), re.M) is not None


@functools.cache
def code(crate):
    return "\n".join(body(path) for path in sorted((TOP / "crates" / crate / "src").glob("*.rt")))


def place(crate, stem, name=None):
    """The file that is meant: in specs/ or else in proofs/, and with a name the first of the two that declares it."""
    for part in ("specs", "proofs"):
        path = TOP / "crates" / crate / part / f"{stem}.antt"
        if path.is_file() and (name is None or declares(path, name)):
            return path
    return None


def found(cited):
    """Whether a citation, as CITED finds it, is of something that is there."""
    crate, edit, edited, kind, names, stem, name = cited
    if edit:
        return any((TOP / "crates" / crate / folder / f"{edited}.edit").is_file() for folder in EDITS)
    if kind:
        return all(re.search(rf"\bfn {each}\b", code(crate)) for each in names.split(", "))
    return place(crate, stem, name or None) is not None


def written(cited):
    crate, edit, edited, kind, names, stem, name = cited
    if edit:
        return f"`{crate}!{edited}`"
    if kind:
        return f"`{crate}:{kind} {names}`"
    return f"`{crate}:{stem}.{name}`" if name else f"`{crate}:{stem}`"


def mended(match):
    """A citation that is not found, rewritten to the one place where it is."""
    cited = match.groups(default="")
    if found(cited):
        return match.group(0)
    crates = [root.name for root in sorted(TOP.glob("crates/*"))]
    there = [(crate,) + cited[1:] for crate in crates if found((crate,) + cited[1:])]
    if not there and cited[6]:
        stems = {(path.parent.parent.name, path.stem) for path in TOP.glob("crates/*/*/*.antt") if declares(path, cited[6])}
        there = [(crate,) + cited[1:5] + (stem, cited[6]) for crate, stem in stems]
    return written(there[0]) if len(there) == 1 else match.group(0)


def moved(match):
    """The head of a block, with the one crate that has its functions."""
    names = set(re.findall(r"`(\w+)`", match.group(1)))
    there = [root.parts[-3] for root in sorted(TOP.glob("crates/*/src/lib.rt")) if names <= set(functions(root.parent.parent))]
    return f"**{match.group(1)}** (`{there[0]}`)" if match.group(2) not in there and len(there) == 1 else match.group(0)


def mend(path):
    text = path.read_text(encoding="utf-8")
    after = HEAD.sub(moved, CITED.sub(mended, text))
    if after != text:
        path.write_text(after, encoding="utf-8")
        print(f"{path.relative_to(TOP)}: citations rewritten")


def citations(text):
    return [match.groups(default="") for match in CITED.finditer(text)]


def check_citations(path):
    doc, text = path.relative_to(TOP), path.read_text(encoding="utf-8")
    crates = {root.name for root in TOP.glob("crates/*")}
    cited = citations(text)
    for word, crate in re.findall(r"(`(\w+)(?:!|:(?!:))[^`\n]*`)", text):
        if crate in crates and not CITED.fullmatch(word):
            says(doc, f"no form of a citation: {word}")
    for each in cited:
        if each[0] not in crates:
            says(doc, f"no crate {each[0]}: {written(each)}")
        elif not found(each):
            says(doc, f"not found: {written(each)}")
    for name in sorted(set(PATH.findall(text))):
        if not STANDS_FOR.search(name) and "/out/" not in name and not (TOP / name).exists():
            says(doc, f"no file {name}")
    return len(cited)


def blocks(text):
    """The promises: each its head and the lines under it, as (field, what it says)."""
    for block in re.findall(r"^(\*\*.*?)(?=\n\n|\Z)", text, re.M | re.S):
        head, *fields = re.split(r"\n- ", block)
        yield head.replace("\n", " "), [field.replace("\n  ", " ").partition(": ")[::2] for field in fields]


def shown(by):
    """Whether it is an edit, a theorem, or the contract alone."""
    if by == ALONE:
        return True
    for crate, edit, _, kind, _, stem, name in citations(by):
        theorem = TOP / "crates" / crate / "proofs" / f"{stem}.antt"
        if edit or (not kind and name and declares(theorem, name)):
            return True
    return False


def check_block(doc, head, fields):
    about = head[:60]
    if [field for field, _ in fields] != ["stated", "proved", "rules out", "rules out"]:
        says(doc, f"not stated, proved, rules out, rules out: {about}")
        return
    stated, proof, *ruled = [said for _, said in fields]
    if not any(kind == "fn" or name for _, _, _, kind, _, _, name in citations(stated)):
        says(doc, f"the statement cites no definition or function: {about}")
    if not citations(proof):
        says(doc, f"the proof cites nothing: {about}")
    for said in ruled:
        answer = re.fullmatch(r"(.+) \(shown by (.+)\)", said)
        if answer is None or not shown(answer.group(2)):
            says(doc, f"not shown by an edit, a theorem or {ALONE}: {about}")


def functions(crate):
    """The public functions of a library, those in private modules left out."""
    root = body(crate / "src" / "lib.rt")
    modules = re.findall(r"^pub mod (\w+);", root, re.M)
    for text in [root] + [body(crate / "src" / f"{module}.rt") for module in modules]:
        yield from re.findall(r'^pub (?:extern "C" )?fn (\w+)', text, re.M)


def check_promises(path):
    doc, text = path.relative_to(TOP), path.read_text(encoding="utf-8")
    every, named = list(blocks(text)), set()
    for head, fields in every:
        check_block(doc, head, fields)
        for names, crate in HEAD.findall(head):
            named.update((crate, name) for name in re.findall(r"`(\w+)`", names))
    cited = {(each[0], each[2]) for each in citations(text) if each[1]}
    for edit in sorted(found for folder in EDITS for found in TOP.glob(f"crates/*/{folder}/*.edit")):
        if (edit.parts[-3], edit.stem) not in cited:
            says(doc, f"no block cites `{edit.parts[-3]}!{edit.stem}`")
    for root in sorted(TOP.glob("crates/*/src/lib.rt")):
        for name in functions(root.parent.parent):
            if (root.parts[-3], name) not in named:
                says(doc, f"no block has the function {name} of {root.parts[-3]}")
    return len(every)


def public(file):
    """The public definitions of a file of definitions; fields and constructors are part of theirs."""
    depth = None
    for line in body(file).splitlines():
        indent = len(line) - len(line.lstrip())
        if depth is not None and line.strip() and indent <= depth:
            depth = None
        if depth is not None:
            continue
        declared = re.match(r"^ *(?:abbrev |unfoldable )?pub (record |data )?(\S+)", line)
        if declared and declared.group(2) not in ("mod", "use"):
            yield declared.group(2)
            if declared.group(1):
                depth = indent


def instances(file):
    """The names that a file gives to the definition of the same file and name in another crate, made one for layout one."""
    return set(re.findall(rf"^(\S+) = Rattle\.\w+\.specs\.{file.stem}\.\1(?: \w+)*$", body(file), re.M))


def check_complete(path):
    doc = path.relative_to(TOP)
    cited = [each for each in citations(path.read_text(encoding="utf-8")) if each[5]]
    files = {place(each[0], each[5], each[6] or None) for each in cited}
    names = {(each[0], each[5], each[6]) for each in cited}
    for file in sorted(TOP.glob("crates/*/specs/*.antt")):
        crate = file.parts[-3]
        if file.stem == "Lib":
            continue
        if file not in files:
            says(doc, f"does not name `{crate}:{file.stem}`")
        if crate in READ or file.stem in READ_FILES.get(crate, []):
            for name in sorted(set(public(file)) - instances(file)):
                if (crate, file.stem, name) not in names:
                    says(doc, f"no line has `{crate}:{file.stem}.{name}`")


if "--mend" in sys.argv[1:]:
    for path in DOCS:
        mend(path)
cited = sum(check_citations(path) for path in DOCS)
rows = check_promises(TOP / "docs" / "PROMISES.md")
check_complete(TOP / "docs" / "TRACE.md")
for line in wrong:
    print(line)
if cited == 0 or rows == 0:
    print("docs/check_promises.py: nothing to look up")
    sys.exit(2)
print(f"docs/check_promises.py: {cited} citations in {len(DOCS)} documents; {rows} promises")
sys.exit(1 if wrong else 0)
