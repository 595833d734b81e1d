"""Compares a program with `second formula` on seeded random texts, good and bad ones.

The program reads one text from standard input, every byte of it, and prints as `second formula`
does; its exit status is not looked at.

Usage: second/compare_formula.py SEED COUNT PROGRAM [ARGUMENT ..], from anywhere; out/second/second
must be built. The same seed gives the same texts.
"""

from comparing import compare, second


def generated_texts(seed, count):
    """So many texts of the second program's generator, without the rooms."""
    lines = second("texts", seed, count).decode().splitlines()
    return [bytes.fromhex(line.split(" ")[2]) for line in lines]


def expected_answers(texts):
    """What `second formula` prints for each text, from one run of the form for many texts."""
    calls = "".join(f"formula 1024 {text.hex()}\n" for text in texts)
    lines = second("formulas", text=calls.encode()).splitlines()
    return [(None, line.replace(b" : ", b"\n") + b"\n") for line in lines]


def kind_of(printed):
    """The number that a text gives."""
    return f"number {printed.split()[1].decode()}"


if __name__ == "__main__":
    compare(generated_texts, expected_answers, kind_of)
