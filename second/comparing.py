"""What the comparisons of a program with the second program share: running both on seeded random texts,
one after another, up to the first that is answered differently.

out/second/second must be built. The same seed gives the same texts.
"""

import collections
import pathlib
import subprocess
import sys

TOP = pathlib.Path(__file__).resolve().parent.parent
SECOND = TOP / "out" / "second" / "second"
DIFFERS = TOP / "out" / "differs.txt"


def second(*arguments, text=b""):
    """What the second program prints when it is run so."""
    command = [SECOND, *map(str, arguments)]
    return subprocess.run(command, input=text, stdout=subprocess.PIPE, check=True).stdout


def answer(command, text):
    """The exit status of a command for a text, and what it prints."""
    done = subprocess.run(command, input=text, stdout=subprocess.PIPE, check=False)
    return done.returncode, done.stdout


def status(number):
    """How a command exits after a number: 0 after number 0, 1 after a clash, 2 after anything else."""
    return {b"0": 0, b"6": 1, b"10": 1, b"11": 1}.get(number, 2)


def compare(texts_of, answers_of, kind_of):
    """Compares the program that the command line names with the second program.

    texts_of gives as many texts as are asked for from a seed; answers_of the exit status and what is to
    be printed for each, where None is a status that is not looked at; kind_of a word for what was printed,
    by which the texts are counted.
    """
    if len(sys.argv) < 4:
        sys.exit(f"usage: second/{pathlib.Path(sys.argv[0]).name} SEED COUNT PROGRAM [ARGUMENT ..]")
    seed, count, program = int(sys.argv[1]), int(sys.argv[2]), sys.argv[3:]
    texts = texts_of(seed, count)
    kinds = collections.Counter()
    for index, (text, expected) in enumerate(zip(texts, answers_of(texts), strict=True)):
        found = answer(program, text)
        if found[1] != expected[1] or expected[0] not in (None, found[0]):
            DIFFERS.write_bytes(text)
            sys.exit(f"compare: seed {seed}, text {index} (out/differs.txt): {program[0]} {found}, second {expected}")
        kinds[kind_of(expected[1])] += 1
    counts = ", ".join(f"{kind}: {kinds[kind]}" for kind in sorted(kinds))
    print(f"compare: {count} texts of seed {seed} answered alike; {counts}")
