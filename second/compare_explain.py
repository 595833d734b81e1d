"""Compares a program with `second explain` on seeded random inputs: half of them clash, and of the others
most are malformed.

The program reads a call as `meet` does and prints the sentences of docs/EXPLAIN.md; it has to exit
with 0 after number 0, with 1 after 6, 10 and 11, and with 2 after anything else.

Usage: second/compare_explain.py SEED COUNT PROGRAM [ARGUMENT ..], from anywhere; out/second/second
must be built. The same seed gives the same inputs.
"""

import random

from comparing import compare, second, status


def generated_inputs(seed, count):
    """So many inputs of the second program's generators; one in 16 is cut somewhere, and mostly bad input."""
    chance = random.Random(seed)
    lines = second("clashing", seed, count // 2).splitlines(keepends=True)
    lines += second("broken", seed, count - count // 2).splitlines(keepends=True)
    return [line[: chance.randrange(len(line))] if index % 16 == 7 else line for index, line in enumerate(lines)]


def number_of(printed):
    """The number in the first sentence; none where the input is bad."""
    return printed.partition(b":")[0].partition(b" ")[2]


def expected_answers(inputs):
    """What `second explain` prints for each input, and the status that goes with it."""
    answers = [second("explain", text=text) for text in inputs]
    return [(2 if printed.startswith(b"bad input") else status(number_of(printed)), printed) for printed in answers]


def kind_of(printed):
    """Bad input, or the number; where definite graphs clash, also which input the node is of."""
    place = " in the second" if b" of the second input, at" in printed else ""
    return printed.partition(b":")[0].decode() + place


if __name__ == "__main__":
    compare(generated_inputs, expected_answers, kind_of)
