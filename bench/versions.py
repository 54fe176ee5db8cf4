#!/usr/bin/env python3
"""Times sessions over published versions beside a book behind one lock, in one run, and prints both and their ratios.

    bench/versions.py [--nodes 20000] [--rounds 3] [--cases WORDS] [--work FOLDER]

The rows have 34 frames and are random walks in a seeded call graph, as in additions.py. The first are one addition that
builds a tree of so many nodes; then each case has its own threads add batches or ask for reports. All cases run in turn
on both stores, several rounds, and the least time of each counts. An addition behind the lock may wait for a layout of
the whole tree, so in a greater tree fewer are made beside layouts. `rate` is the lock's time by the versions': above 1
the versions are faster. `longest` is the longest single step, of the round in which it was least. At last it prints the
peak memory of a store to which rows are added one by one, without an old report and with one that a session holds.

The program is versions.rattle, proved and linked in a copy of the crates below it that stands outside the repository.
--work keeps the copy, so that the next run proves only what changed.
"""
import argparse
import os
import pathlib
import random
import re
import subprocess

from proved_program import copy_program, link, output_of, run_outside
from random_stacks import function_names, tree_stacks, write_folded

NAME = "versions"
LIBRARIES = ["profile_rows", "folded_text", "call_tree", "flame_report", "op_book", "live_store", "anyhow"]
STORES = "versions", "lock"
# A processor for each thread: one adds, and the others ask.
CORES = max(os.cpu_count() or 2, 2)
ASKERS = CORES - 1

# What is timed: its name, what the threads do, how many they are, the steps of the first, rows in a batch, the report,
# whether the first thread's time counts or that of the others, and how many sessions the store has.
CASES = [
    ("one asks Total", "ask", 1, 200_000, 1, "total", "first", 2),
    (f"{ASKERS} ask Total", "ask", ASKERS, 100_000, 1, "total", "others", CORES),
    ("one adds rows", "add", 1, 20_000, 1, "total", "first", 2),
    ("one adds rows, in a store of 64 sessions", "add", 1, 20_000, 1, "total", "first", 64),
    ("one adds batches of 100", "add", 1, 200, 100, "total", "first", 2),
    ("four add rows", "add", 4, 5_000, 1, "total", "first", 5),
    ("one adds rows beside one that asks Total", "add_beside_ask", 2, 10_000, 1, "total", "first", 3),
    (f"one adds rows beside {ASKERS} that ask Total", "add_beside_ask", CORES, 10_000, 1, "total", "first", CORES + 1),
    (f"those {ASKERS}", "add_beside_ask", CORES, 10_000, 1, "total", "others", CORES + 1),
    ("one asks Total beside one that adds rows", "ask_beside_add", 2, 50_000, 1, "total", "first", 3),
    ("one asks Total beside three that add rows", "ask_beside_add", 4, 50_000, 1, "total", "first", 5),
    ("one adds rows beside one that asks for layouts", "add_beside_ask", 2, 5_000, 1, "flame", "first", 3),
]


def write_rows(folder, options):
    """Writes the tree's rows and those that are added, and tells how many build the tree."""
    dice = random.Random(options.seed)
    names = function_names(dice, options.names)
    stacks = tree_stacks(dice, options.nodes, len(names))
    added = [dice.choice(stacks) for _ in range(options.additions)]
    write_folded(folder / "rows.folded", names, stacks + added)
    return len(stacks)


def steps_of(case, nodes):
    """How many steps the first thread takes in a tree of so many nodes."""
    _, _, _, steps, _, report, _, _ = case
    return steps * 20_000 // max(nodes, 20_000) if report == "flame" else steps


def times_of(program, store, case, tree_rows, nodes, file):
    """Nanoseconds a step, and the longest step, of the threads that count."""
    _, work, threads, _, batch_rows, report, who, sessions = case
    steps = steps_of(case, nodes)
    said = output_of([program, store, work, threads, tree_rows, steps, batch_rows, report, sessions, "none"], file)
    found = re.findall(r"steps (\d+) nanoseconds (\d+) longest (\d+)", said)
    rows = [tuple(map(int, numbers)) for numbers in found]
    rows = rows[:1] if who == "first" or len(rows) == 1 else rows[1:]
    steps = sum(row[0] for row in rows)
    return sum(row[1] for row in rows) / max(steps, 1), max(row[2] for row in rows)


def peak_memory(program, held, tree_rows, file):
    """The peak memory, in bytes, of a store to which 10,000 rows are added."""
    words = [program, "versions", "add", 1, tree_rows, 10_000, 1, "flame", 2, held]
    with open(file, "rb") as rows:
        process = subprocess.Popen(list(map(str, words)), stdin=rows, stdout=subprocess.DEVNULL)
        _, status, used = os.wait4(process.pid, 0)
    if status:
        raise SystemExit(f"{words} ended with {status}")
    return used.ru_maxrss * 1024


def read_options():
    reader = argparse.ArgumentParser(description=__doc__, formatter_class=argparse.RawDescriptionHelpFormatter)
    reader.add_argument("--nodes", type=int, default=20_000, help="how many nodes the tree has")
    reader.add_argument("--names", type=int, default=3_000, help="how many functions there are")
    reader.add_argument("--additions", type=int, default=20_000, help="how many rows there are to add")
    reader.add_argument("--rounds", type=int, default=3)
    reader.add_argument("--cases", default="", help="only the cases with these words in their names")
    reader.add_argument("--seed", type=int, default=7)
    reader.add_argument("--work", type=pathlib.Path, help="a folder outside the repository that is kept")
    return reader.parse_args()


def run(options, work):
    copy_program(NAME, LIBRARIES, work)
    print(f"proves and links {NAME}", flush=True)
    program = link(NAME, work, ["versions", "add", "0", "0", "0", "1", "total", "2", "none"], "")
    tree_rows = write_rows(work, options)
    print(f"{tree_rows} rows build a tree of {options.nodes} nodes")
    print(f"load {os.getloadavg()[0]:.1f} on {os.cpu_count()} cores", flush=True)
    cases = [case for case in CASES if options.cases in case[0]]
    least = {}
    for _ in range(options.rounds):
        for case in cases:
            for store in STORES:
                times = times_of(program, store, case, tree_rows, options.nodes, work / "rows.folded")
                least[case, store] = min(times, least.get((case, store), times))
    print(f"{'nanoseconds a step':<50}{'versions':>12}{'lock':>12}{'rate':>8}{'longest':>12}{'of lock':>12}")
    for case in cases:
        (ours, longest), (lock, of_lock) = (least[case, store] for store in STORES)
        print(f"{case[0]:<50}{ours:>12.0f}{lock:>12.0f}{lock / ours:>8.2f}{longest:>12}{of_lock:>12}")
    for held in ("none", "held"):
        print(f"peak memory, {held}: {peak_memory(program, held, tree_rows, work / 'rows.folded')}")


def main():
    options = read_options()
    run_outside(options.work, NAME, lambda work: run(options, work))


if __name__ == "__main__":
    main()
