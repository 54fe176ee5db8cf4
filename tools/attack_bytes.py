#!/usr/bin/env python3
"""Gives the proved program texts and profiles that were changed at random, and compares it with independent readers.

    tools/attack_bytes.py [--texts 100000] [--profiles 100000] [--seed 1]

A text is cut out of a real one or made of odd lines, and then bytes are changed, taken out or put in, and pieces of
others spliced in. `fold` has to write the report that the reader below makes, or the line of the text's first fault. A
profile is one of the tests' or a real one, cut, with bits changed, with fields of others put in, or with fields moved
from one message into another. Where the reader of check_profiles.py finds a fault, `fold` has to print its line; else a
report, or a fault of samples.

No run may end by a signal, or write a report at another status than 0. Run it at the top of the repository once ./build
has made the program. The exit status is 1 where a run ended otherwise.
"""
import argparse
import collections
import pathlib
import random
import subprocess
import sys

from check_profiles import moved, own_answer, vectors

TOP = pathlib.Path(__file__).resolve().parent.parent
PROGRAM = TOP / "out/flame"
GREATEST = 2**63 - 1
DEEPEST = 65_535
ODD_LINES = [
    b"a 1\n", b"a;b 2\n", b"a;;b 3\r\n", b" 4\n", b"\n", b"\r\n", b"a\n", b"a 1.5\n", b"a  5\n", b"a 5 \n", b"a\t5\n",
    b"a 9223372036854775807\n", b"a 9223372036854775808\n", b"a 000000000000000000000007\n", b"a 0\n", b"a 1\r\r\n",
    b"\xff 1\n", b"\xc3\xa9;b 2\n", b"\xed\xa0\x80 1\n", b"\xf4\x90\x80\x80 1\n", b"a\x00b 1\n", b";;; 2\n", b"a -1\n",
]


class Fault(Exception):
    """The first fault of a text."""


def row_of(line, number):
    """The stack and the count of a line."""
    try:
        line.decode("utf-8")
    except UnicodeDecodeError:
        raise Fault(f"F1 NotUtf8 line {number}") from None
    stack, space, count = line.rpartition(b" ")
    if not space or not count or count.strip(b"0123456789"):
        raise Fault(f"F2 NoCount line {number}")
    if int(count) > GREATEST:
        raise Fault(f"F3 Count line {number}")
    frames = tuple(frame for frame in stack.split(b";") if frame)
    if len(frames) > DEEPEST:
        raise Fault(f"F4 Depth line {number}")
    return frames, int(count)


def folded(text):
    """The folded report of a text."""
    weights, total = collections.Counter(), 0
    *lines, last = text.split(b"\n")
    lines = [line.removesuffix(b"\r") for line in lines] + [last]
    for number, line in enumerate(lines, 1):
        if line:
            frames, count = row_of(line, number)
            total += count
            if total > GREATEST:
                raise Fault(f"F5 Heavy line {number}")
            weights[frames] += count
    rows = sorted((frames, weight) for frames, weight in weights.items() if weight)
    return b"".join(b";".join(frames) + b" " + str(weight).encode() + b"\n" for frames, weight in rows)


def of_text(text):
    """The status, the report and the line that `fold` has to give for a text."""
    try:
        return 0, folded(text), b""
    except Fault as fault:
        return 1, b"", f"flame: {fault}\n".encode()


# ---- changes

def changed(dice, data, others):
    """The bytes with a few of them changed, taken out or put in, or with a piece of other bytes spliced in."""
    data = bytearray(data)
    for _ in range(dice.choice([0, 1, 1, 2, 4])):
        at = dice.randrange(len(data) + 1)
        what = dice.random()
        if what < 0.3:
            data[at : at + 1] = bytes([dice.choice(b"\n\r ;09a\x80\xff\x00")])
        elif what < 0.5 and at < len(data):
            data[at] ^= 1 << dice.randrange(8)
        elif what < 0.7:
            del data[at : at + dice.choice([1, 2, 9])]
        else:
            other = dice.choice(others)
            start = dice.randrange(len(other) + 1)
            data[at:at] = other[start : start + dice.randrange(40)]
    return bytes(data)


def random_text(dice, real):
    """A text of odd lines, or a piece of a real one, changed."""
    if dice.random() < 0.5:
        text = b"".join(
            dice.choice(ODD_LINES[: dice.choice([3, 5, len(ODD_LINES)])]) for _ in range(dice.randint(0, 6))
        )
    else:
        at = dice.randrange(len(real))
        text = real[at : at + dice.randrange(400)]
    return changed(dice, text, [real, b"".join(ODD_LINES)])


def random_profile(dice, bases):
    """A profile that was cut, changed, or had fields moved."""
    data = dice.choice(bases)
    for _ in range(dice.choice([0, 1, 1, 2])):
        data = moved(dice, data)
    if dice.random() < 0.6:
        data = changed(dice, data, bases)
    return data[: dice.choice([len(data)] * 3 + [dice.randrange(len(data) + 1)])]


# ---- runs

def ended(words, data):
    ran = subprocess.run([PROGRAM, *words], input=data, capture_output=True, timeout=60)
    return ran.returncode, ran.stdout, ran.stderr


def is_right_profile(end, data):
    """Whether a run over a profile ended as it may."""
    status, report, line = end
    answer = own_answer(data)
    if isinstance(answer, str):
        return end == (1, b"", f"flame: {answer}\n".encode())
    if status == 0:
        return line == b"" and (report == b"" or report.endswith(b"\n"))
    return status == 1 and report == b"" and line.startswith(b"flame: B")


def attack(cases):
    """Runs all cases; counts their ends, and prints and counts those that are wrong."""
    ends, wrong = collections.Counter(), 0
    for words, data, is_right in cases:
        end = ended(words, data)
        ends[end[0], b" ".join(end[2].split()[1:3]).decode(errors="replace")] += 1
        if not is_right(end):
            wrong += 1
            if wrong <= 10:
                print(f"WRONG: {' '.join(words)} of {data.hex()}: {end}")
    told = ", ".join(f"{count} with {status} {line}".rstrip() for (status, line), count in sorted(ends.items()))
    print(told, flush=True)
    return wrong


def texts(dice, count):
    real = (TOP / "examples/json_report.folded").read_bytes()
    for _ in range(count):
        text = random_text(dice, real)
        yield ["fold"], text, lambda end, text=text: end == of_text(text)


def profiles(dice, count):
    bases = [base for base in vectors() if base] + [(TOP / "examples/work.pb").read_bytes()[:3000]]
    for _ in range(count):
        data = random_profile(dice, bases)
        yield ["fold", "--format", "pprof"], data, lambda end, data=data: is_right_profile(end, data)


def main():
    reader = argparse.ArgumentParser(description=__doc__, formatter_class=argparse.RawDescriptionHelpFormatter)
    reader.add_argument("--texts", type=int, default=100_000)
    reader.add_argument("--profiles", type=int, default=100_000)
    reader.add_argument("--seed", type=int, default=1)
    given = reader.parse_args()
    dice = random.Random(given.seed)
    wrong = attack(texts(dice, given.texts)) + attack(profiles(dice, given.profiles))
    print(f"{given.texts} texts and {given.profiles} profiles, {wrong} ended wrongly")
    sys.exit(1 if wrong else 0)


if __name__ == "__main__":
    main()
