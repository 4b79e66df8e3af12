"""Runs stored cases of a call through the archive by lend.c. A case is (name, call, file, table, length of the output, length of the
answer, five numbers, what is written). Of each every byte of all four slices is compared, and guard bytes around each; so is the
number returned."""
import struct
import subprocess
import tempfile

from common import numbers
from counts import finish
from ready import WARNINGS, ask, words_of

ARCHIVE = "target/staticlib/liboctalmure.a"
GUARD = 16
FIVE = 20  # the bytes of the five numbers
CALLS = ("import", "export", "why")
PARTS = ("the number returned", "the file", "the table", "the output", "the answer")


def lent(length, first=b""):
    """A slice and its guards as they are lent, but for its first bytes."""
    memory = bytearray((37 * i + 11) % 256 for i in range(length + 2 * GUARD))
    memory[GUARD : GUARD + len(first)] = first
    return bytes(memory)


def asked(case):
    _, call, file, table, room, answer, _, _ = case
    return numbers(call, len(file), len(table), room, answer) + file + table


def wanted(case):
    """The number returned, and all memory afterwards: a short answer is met first of all, and nothing is said there."""
    _, _, file, table, room, answer, five, written = case
    said = numbers(*five) if answer >= FIVE else b""
    return numbers(five[0]), lent(len(file), file), lent(len(table), table), lent(room, written), lent(answer, said)


def lender(room):
    """The words that run the program which makes the calls."""
    ask("make", "-s", ARCHIVE)
    cc, program = ask("tools/compiler", "cc")[0], f"{room}/lend"
    ask(cc, "-std=c11", "-O2", *WARNINGS, "-static", "-Iinclude", "-o", program, "tests/cases/lend.c", ARCHIVE)
    return words_of(program)


def left(words, cases):
    """What the calls of all cases leave, as one text."""
    return subprocess.run(words, input=b"".join(map(asked, cases)), stdout=subprocess.PIPE, check=True).stdout


def verdicts(cases, got):
    at = 0
    for case in cases:
        wrong = []
        for what, part in zip(PARTS, wanted(case)):
            there, at = got[at : at + len(part)], at + len(part)
            if there != part:
                wrong.append(what)
        said = " ".join(str(number[0]) for number in struct.iter_unpack("<I", there[GUARD : GUARD + FIVE])) if case[5] >= FIVE else "nothing"
        yield f"{CALLS[case[1]]}, {case[0]}: it says {said}, and these are not as they must be: {', '.join(wrong)}", not wrong
    yield "the calls leave more than was lent", at == len(got)


def run_stored(cases):
    with tempfile.TemporaryDirectory() as room:
        got = left(lender(room), cases)
    finish(verdicts(cases, got))
