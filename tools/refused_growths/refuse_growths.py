#!/usr/bin/env python3
"""Refuses each growth of each public call that asks for memory in turn, and says how the calls ended.

    tools/refused_growths/refuse_growths.py [--work FOLDER] [--built] [--jobs 2] [CASE ..]

The cases stand in cases/, what each answers in cases.py. A case prepares what a call is lent, and makes the call while
growths.c counts growths and refuses some: for n = 1, 2, .. until nothing was refused, growth n alone, n and n + 1, and
n and all after it. Each run of a call ends with its usual answer, or, where a growth was refused, with its
out-of-memory fault. All that it was lent is then as it was, or handed back, and the same call, with memory, gives the
usual answer. Every block is given back. Calls with a fault that comes before running out of memory always tell it, and
those that ask for no growth ask for none. A call that consumes what it is given is made again with the same, made anew;
so is `CountedRows::count`, which says that its rows are then of no use.

The program is a quick build of the crates' own sources, of which nothing is proved (build.py). --work keeps it, and
with --built it isn't built again. Building takes two or three minutes, and all runs some five. The exit status is 1
where a run ended otherwise.
"""
import argparse
import collections
import concurrent.futures
import itertools
import os
import pathlib
import re
import subprocess
import sys
from typing import NamedTuple

from build import NAME, build
from cases import ANSWERS, ASK_FOR_NONE, NAMED_FAULTS

sys.path.insert(0, str(pathlib.Path(__file__).resolve().parent.parent.parent / "bench"))
from proved_program import run_outside  # noqa: E402

# How many growths are refused, 0 for all from the first on.
KINDS = (1, 2, 0)
AS_USUAL = "as usual"
NO_MEMORY = ("no memory", "no memory: none started", "no memory: no thread", "no memory: a worker stopped")
COUNTS = re.compile(r"^growths (\d+) refused (\d+) kept (-?\d+)$", re.M)


class End(NamedTuple):
    """How a run ended: as usual, with a line that says that memory ran out, or else with what is wrong of it."""
    kind: str
    growths: int
    refused: int
    wrong: str


def end_of(program, case, first, count):
    """How a run of a case ended of which some growths were refused, from the first on."""
    variables = {"REFUSE_FROM": str(first), "REFUSE_COUNT": str(count), "ASAN_OPTIONS": "detect_leaks=0"}
    try:
        ran = subprocess.run([str(program), case], env={**os.environ, **variables}, capture_output=True, timeout=20)
    except subprocess.TimeoutExpired:
        return End("", 0, 0, "it hung")
    said, errors = ran.stdout.decode(errors="replace"), ran.stderr.decode(errors="replace")
    counts = COUNTS.search(errors)
    if ran.returncode or not counts:
        return End("", 0, 0, f"status {ran.returncode}: {said!r} {errors[-2000:]!r}")
    growths, refused, kept = map(int, counts.groups())
    kind, wrong = judged(case, said, refused)
    if kept:
        wrong = f"{kept} blocks weren't given back"
    return End(kind, growths, refused, wrong)


def judged(case, said, refused):
    """How a call ended that said this, and what is wrong of it, if something is."""
    usual = ANSWERS[case] + "\n"
    if said == usual:
        return AS_USUAL, ""
    kind, _, rest = said.partition("\n")
    if kind not in NO_MEMORY or rest != usual:
        return "", f"it said {said!r}"
    if not refused:
        return kind, "no growth was refused"
    if case in NAMED_FAULTS:
        return kind, "its fault comes before running out of memory"
    return kind, ""


class Sweep(NamedTuple):
    """All runs of a case: its growths, how many runs ended how, and what is wrong of some."""
    case: str
    growths: int
    ends: collections.Counter
    wrong: list


def refused_runs(program, case, growths):
    """Each run of a case until none is refused: how many growths are, from which on, and how it ended."""
    for count in KINDS:
        for first in itertools.count(1):
            end = end_of(program, case, first, count)
            yield count, first, end
            if not end.refused and (end.kind == AS_USUAL or first > growths):
                break


def sweep(program, case):
    """Refuses each growth of a case in turn, in all three ways."""
    plain = end_of(program, case, 0, 0)
    if plain.wrong or plain.kind != AS_USUAL:
        return Sweep(case, plain.growths, collections.Counter(), [f"without a refusal: {plain.wrong or plain.kind}"])
    ends, wrong = collections.Counter(), []
    if (case in ASK_FOR_NONE) != (plain.growths == 0):
        wrong.append(f"it asked for {plain.growths} growths")
    for count, first, end in refused_runs(program, case, plain.growths):
        ends[end.kind] += 1
        if end.wrong:
            wrong.append(f"at growth {first}, {count or 'all'} refused: {end.wrong}")
    return Sweep(case, plain.growths, ends, wrong)


def print_sweep(done):
    """One line of the table, and what is wrong."""
    ends = done.ends
    no_memory = sum(ends[kind] for kind in NO_MEMORY)
    runs, usual, wrong = sum(ends.values()), ends[AS_USUAL], len(done.wrong)
    print(f"{done.case:40} {done.growths:7} {runs:7} {usual:7} {no_memory:9} {wrong:7}", flush=True)
    for kind in NO_MEMORY[1:]:
        if ends[kind]:
            print(f"    {kind}: {ends[kind]}")
    for text in filter(None, done.wrong[:10]):
        print(f"    WRONG {text}")


def sweep_all(program, cases, jobs):
    """Prints the table of all cases, and tells whether something is wrong."""
    print(f"{'case':40} {'growths':>7} {'runs':>7} {'usual':>7} {'no memory':>9} {'wrong':>7}")
    with concurrent.futures.ThreadPoolExecutor(jobs) as pool:
        done = []
        for one in pool.map(lambda case: sweep(program, case), cases):
            print_sweep(one)
            done.append(one)
    ends = sum((one.ends for one in done), collections.Counter())
    growths, wrong = sum(one.growths for one in done), sum(len(one.wrong) for one in done)
    print_sweep(Sweep(f"{len(done)} cases", growths, ends, [""] * wrong))
    return wrong > 0


def main():
    reader = argparse.ArgumentParser(description=__doc__, formatter_class=argparse.RawDescriptionHelpFormatter)
    reader.add_argument("--work", type=pathlib.Path, help="a folder outside the repository that is kept")
    reader.add_argument("--built", action="store_true", help="take the program that is there")
    reader.add_argument("--jobs", type=int, default=2, help="how many cases run at once")
    reader.add_argument("cases", nargs="*", metavar="CASE", help="cases alone, of those in cases.py")
    options = reader.parse_args()
    for case in options.cases:
        if case not in ANSWERS:
            reader.error(f"there is no case {case}")

    def run(folder):
        program = folder / NAME if options.built else build(folder)
        return sweep_all(program, options.cases or list(ANSWERS), options.jobs)

    sys.exit(1 if run_outside(options.work, NAME, run) else 0)


if __name__ == "__main__":
    main()
