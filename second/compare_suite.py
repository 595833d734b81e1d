"""Compares a program with `second suite` on seeded random texts of suites, good and bad ones.

The program reads one text from standard input and prints as `second suite` does; its exit status is not
looked at.

Usage: second/compare_suite.py SEED COUNT PROGRAM [ARGUMENT ..], from anywhere; out/second/second
must be built. The same seed gives the same texts.
"""

from comparing import compare, second


def generated_texts(seed, count):
    """So many texts of the second program's generator."""
    return [bytes.fromhex(line) for line in second("suite_texts", seed, count).decode().splitlines()]


def expected_answers(texts):
    """What `second suite` prints for each text, from one run of the form for many texts."""
    digits = "".join(f"{text.hex()}\n" for text in texts)
    printed = second("suites", text=digits.encode())
    return [(None, answer + b"\n") for answer in printed.split(b"\n\n")[:-1]]


def kind_of(printed):
    """What was printed: bad input, a refusal or a report, by whether all tests are as expected."""
    last = printed.splitlines()[-1].decode()
    if not last.endswith("not run"):
        return last
    return "all as expected" if last.endswith(", 0 not, 0 not run") else "not all as expected"


if __name__ == "__main__":
    compare(generated_texts, expected_answers, kind_of)
