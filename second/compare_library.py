"""Compares a program with `second library` on seeded random texts of libraries, good and bad ones, and hands the files that one of
them wrote to the other.

The program reads one text from standard input and prints as `second library` does; its exit status is not looked at.

Usage: second/compare_library.py SEED COUNT PROGRAM [ARGUMENT ..], from anywhere; out/second/second must be built. The same seed
gives the same texts.
"""

import sys

from comparing import DIFFERS, SECOND, answer, compare, second

def generated_texts(seed, count):
    """So many texts of the second program's generator."""
    return [bytes.fromhex(line) for line in second("library_texts", seed, count).decode().splitlines()]


def expected_answers(texts):
    """What `second library` prints for each text."""
    return [(None, second("library", text=text)) for text in texts]


def kind_of(printed):
    """The number, and whether it is one of writing or of reading; or bad input."""
    first = printed.partition(b"\n")[0].decode().split()
    if first[0] == "bad":
        return "bad input"
    return " ".join(["number", first[1], *first[2:3]])


def written(program, text):
    """The file that a program writes for a text; None where it writes none."""
    first, _, file = answer(program, text)[1].partition(b"\n")
    return file if first.startswith(b"answer 0 bytes ") else None


def entries_of(text):
    """The entries that a text asks to be written, and the words of each."""
    numbers = [int(number) for number in text.split()][2:]
    entries = numbers[2 : 2 + numbers[0]]
    rest = numbers[2 + numbers[0] :]
    words = []
    for count in entries[1::2]:
        words.append(rest[:count])
        rest = rest[count:]
    return entries, words


def reads_back(program, file, text):
    """Whether a program lists and reads from a file what a text asked to be written, and finds no damage in it."""
    entries, words = entries_of(text)

    def said(command, numbers):
        line = " ".join(map(str, numbers))
        return answer(program, command + file)[1] == f"answer 0 words {len(numbers)}\n{line}\n".encode()

    whole = answer(program, b"3 0\n" + file)[1] == b"answer 0\n"
    reads = [said(f"2 {identifier}\n".encode(), run) for identifier, run in zip(entries[::2], words, strict=True)]
    return whole and said(b"1 0\n", entries) and all(reads)


def exchange(texts):
    """Each of both programs reads what the other has written; how many files there were."""
    program, other = sys.argv[3:], [SECOND, "library"]
    files = 0
    for text in texts:
        for writer, reader in ((program, other), (other, program)):
            file = written(writer, text)
            if file is not None:
                files += 1
                if not reads_back(reader, file, text):
                    DIFFERS.write_bytes(text)
                    sys.exit(f"compare: {reader[0]} does not read what {writer[0]} wrote (out/differs.txt)")
    print(f"compare: {files} files written by one are read by the other")


if __name__ == "__main__":
    compare(generated_texts, expected_answers, kind_of)
    exchange(generated_texts(int(sys.argv[1]), int(sys.argv[2])))
