#!/usr/bin/env python3
"""Runs `flame top` on short stacks, of which few come twice, alone and with a line behind each that weighs nothing, and
prints what each run costs. Such a line repeats no stack text, so that no text should be kept because of it.

    bench/lines_without_weight.py [--lines 1000000] [--rounds 3] [--program FILE]

./build must have made the program, or another is given. Where lines without weight cost the memory of all stack texts,
it says so and ends with 1.
"""
import argparse
import os
import pathlib
import random
import subprocess
import sys
import tempfile

TOP = pathlib.Path(__file__).resolve().parent.parent
NAMES = 1000
INPUTS = {"stacks alone": "", "an empty line behind each": "\n", "a line of weight 0 behind each": "x 0\n"}
# Kept texts take several times the memory of a run that keeps a few thousand.
MOST_MORE = 1.5


def write_lines(file, lines, behind):
    """Writes so many lines, the same in each file, each with other text behind it."""
    dice = random.Random(7)
    with open(file, "w", encoding="utf-8") as out:
        for _ in range(lines):
            out.write(";".join(f"name_{dice.randrange(NAMES)}" for _ in range(3)) + f" 1\n{behind}")


def cost_of(program, file):
    """Seconds of processor time of a top list, and the peak memory of the process in bytes."""
    with open(file, "rb") as rows:
        process = subprocess.Popen([program, "top"], stdin=rows, stdout=subprocess.DEVNULL)
        _, status, used = os.wait4(process.pid, 0)
    if status:
        sys.exit(f"top ended with {status}")
    return used.ru_utime + used.ru_stime, used.ru_maxrss * 1024


def print_cost(label, program, file, rounds):
    """Prints the least time and the peak memory of some rounds, and returns the memory."""
    costs = [cost_of(program, file) for _ in range(rounds)]
    seconds, memory = min(cost[0] for cost in costs), max(cost[1] for cost in costs)
    print(f"{label:<32}{file.stat().st_size / 1e6:>8.1f} MB{seconds:>8.2f} s{memory / 1e6:>8.1f} MB", flush=True)
    return memory


def main():
    reader = argparse.ArgumentParser(description=__doc__, formatter_class=argparse.RawDescriptionHelpFormatter)
    reader.add_argument("--lines", type=int, default=1_000_000)
    reader.add_argument("--rounds", type=int, default=3)
    reader.add_argument("--program", type=pathlib.Path, default=TOP / "out/flame")
    options = reader.parse_args()
    if not options.program.is_file():
        sys.exit("first run ./build")
    print(f"load {os.getloadavg()[0]:.1f} on {os.cpu_count()} cores", flush=True)
    with tempfile.TemporaryDirectory(prefix="lines-") as work:
        file, memory = pathlib.Path(work) / "input.folded", {}
        for label, behind in INPUTS.items():
            write_lines(file, options.lines, behind)
            memory[label] = print_cost(label, options.program, file, options.rounds)
    least, *others = memory.values()
    if max(others) > MOST_MORE * least:
        sys.exit("MISS: lines that weigh nothing cost the memory of all stack texts")


if __name__ == "__main__":
    main()
