"""Compares `meet` and the second program byte for byte on seeded random texts, good and bad ones.

The second program exits with 0 whatever it prints; `meet` has to exit as README says of what is printed.

Usage: second/compare.py SEED COUNT, from anywhere; out/second/second must be built. The same
seed gives the same texts.
"""

import random
import sys

from comparing import DIFFERS, SECOND, TOP, answer, second, status

MEET = TOP / "meet"


def generated_calls(seed, count):
    """The words of `count` calls of unification, as meet takes them: mode, both inputs counted."""
    lines = second("generate", seed, 2 * count).decode().splitlines()
    calls = [line.split() for line in lines if line.startswith("unify ")]
    return [[mode, *words] for _, mode, _, _, *words in calls][:count]


def text_of(chance, numbers):
    """The numbers as a text, parted in different ways, now and then with leading zeros."""
    parts = [chance.choice(["", "", "", " ", "\n", " \n "])]
    for number in numbers:
        parts.append("0" * chance.choice([0] * 20 + [1, 3, 40]) + number)
        parts.append(chance.choice([" "] * 12 + ["\n", "  ", " \n\n"]))
    if chance.random() < 0.5:
        parts.pop()
    return "".join(parts).encode()


def spoilt(chance, text):
    """The text with one fault, or with what only looks like one."""
    kind = chance.randrange(8)
    place = chance.randrange(len(text) + 1)
    if kind == 0:
        return text[:place] + bytes([chance.randrange(256)]) + text[place:]
    if kind == 1:
        return text[:place]
    if kind == 2:
        return text + chance.choice([b" 0", b"\t", b"\r\n", b" 4294967296", b"x", b" "])
    if kind == 3:
        return text[:place] + chance.choice([b" ", b"\n", b"\t", b"-", b"+", b".", b"\0"]) + text[place:]
    if kind == 4:
        return text + b" " * chance.choice([65536 - len(text), 65537 - len(text)])
    if kind == 5:
        words = text.split()
        index = chance.randrange(len(words))
        words[index] = chance.choice([b"2048", b"2049", b"4294967295", b"4294967296", b"9" * 30, b"0"])
        return b" ".join(words)
    if kind == 6:
        words = text.split()
        del words[chance.randrange(len(words))]
        return b" ".join(words)
    return chance.choice([b"", b" ", b"3 0 0", b"3 1 0 0", b"0 0 0", b"bad input"])


def number_of(printed):
    """The number in what `meet` prints; none after bad input."""
    return printed.partition(b" words ")[0].partition(b"answer ")[2]


def main():
    seed, count = int(sys.argv[1]), int(sys.argv[2])
    chance = random.Random(seed)
    bad = 0
    for index, numbers in enumerate(generated_calls(seed, count)):
        text = text_of(chance, numbers)
        if index % 3 == 2:
            text = spoilt(chance, text)
        ours, theirs = answer([MEET], text), answer([SECOND], text)
        bad += ours[1] == b"bad input\n"
        if theirs[0] != 0 or ours != (status(number_of(theirs[1])), theirs[1]):
            DIFFERS.write_bytes(text)
            sys.exit(f"compare: seed {seed}, text {index} (out/differs.txt): meet {ours}, second {theirs}")
    print(f"compare: {count} texts of seed {seed} answered alike, {bad} of them bad input")


if __name__ == "__main__":
    main()
