#!/usr/bin/env python3
"""Times the audit of a store's journal beside the making of it, and prints a table.

    bench/audits.py [--changes 25000,50000,100000] [--reports 10] [--sessions 8] [--work FOLDER]

A change adds a batch of ten rows. The rows have 34 frames. They are random walks in a seeded call graph, and a tree of
all of them has --nodes nodes. The batches are added in a circle, by the sessions in turn. Evenly in between, the
sessions ask for reports, by turns the total and the top list of ten names: one for each --reports changes. The last
line is of as many changes without reports.

The audit goes through the receipts of all sessions. It sorts them, and answers each report again where it stands: a
total from the totals so far, a top list over a tree, for which each change is made once more, in order. So beside the
reports themselves its time is that of the sorting, (n + m) log (n + m) for n changes and m reports, and of n changes
where a top list is asked for.

The times are wall times, and the least of several rounds counts; `busy` is how far the two together are above their
processor time. The program is audits.rattle. It is proved and linked in a copy of the crates below it that stands
outside the repository, in some five minutes on one core where the checks of these crates have left their work in them.
--work keeps the copy.
"""
import argparse
import os
import pathlib
import random
import typing

from proved_program import copy_program, link, output_of, run_outside
from random_stacks import function_names, tree_stacks, write_folded

NAME = "audits"
LIBRARIES = ["profile_rows", "folded_text", "call_tree", "flame_report", "op_book", "log_audit", "anyhow"]


class Size(typing.NamedTuple):
    """How many operations a journal and its logs tell of."""
    changes: int
    reports: int


class Times(typing.NamedTuple):
    """Milliseconds of the making and of the audit, by the wall and by the processor."""
    made: int
    made_processor: int
    audited: int
    audited_processor: int


def write_rows(file, options):
    """Writes rows whose tree has the nodes that are asked for: its stacks, and more that are drawn from them."""
    dice = random.Random(options.seed)
    names = function_names(dice, options.names)
    stacks = tree_stacks(dice, options.nodes, len(names))
    rows = stacks + [dice.choice(stacks) for _ in range(options.rows - len(stacks))]
    dice.shuffle(rows)
    write_folded(file, names, rows)
    return len(rows)


def build(folder):
    """Proves and links the program, and returns its file."""
    copy_program(NAME, LIBRARIES, folder)
    print(f"proves and links {NAME}", flush=True)
    return link(NAME, folder, ["2", "2", "1"], "a;b 1\n")


def sizes(options):
    """The sizes with reports, and the last of them without."""
    counts = [int(count) for count in options.changes.split(",")]
    with_reports = [Size(count, count // options.reports) for count in counts]
    return with_reports + [Size(counts[-1], 0)]


def times_of(program, size, sessions, file):
    said = output_of([program, size.changes, size.reports, sessions], file).split()
    if int(said[1]) != sum(size):
        raise ValueError(f"the run has {said[1]} steps, not {sum(size)}")
    return Times(*(int(said[place]) for place in (3, 4, 6, 7)))


def time_all(program, wanted, options, file):
    """Runs the program for each size in turn, several rounds, and returns the least of each time."""
    least = {}
    for _ in range(options.rounds):
        for size in wanted:
            times = times_of(program, size, options.sessions, file)
            least[size] = Times(*map(min, times, least.get(size, times)))
    return least


def print_times(least):
    print(f"{'changes':>9}{'reports':>9}{'making ms':>11}{'audit ms':>10}{'ratio':>7}{'ns a receipt':>14}{'busy':>6}")
    for size, times in least.items():
        ratio = f"{times.audited / times.made:.2f}"
        busy = (times.made + times.audited) / (times.made_processor + times.audited_processor)
        each = f"{times.audited * 1e6 / sum(size):.0f}"
        print(f"{size.changes:>9}{size.reports:>9}{times.made:>11}{times.audited:>10}{ratio:>7}{each:>14}{busy:>6.2f}")


def read_options():
    reader = argparse.ArgumentParser(description=__doc__, formatter_class=argparse.RawDescriptionHelpFormatter)
    reader.add_argument("--changes", default="25000,50000,100000", help="numbers of changes, with commas")
    reader.add_argument("--reports", type=int, default=10, help="how many changes there are for each report")
    reader.add_argument("--sessions", type=int, default=8, help="how many sessions there are, 1 to 64")
    reader.add_argument("--nodes", type=int, default=20_000, help="how many nodes the tree of all rows has")
    reader.add_argument("--rows", type=int, default=10_000, help="how many rows there are, of which ten make a batch")
    reader.add_argument("--names", type=int, default=2_000, help="how many functions there are")
    reader.add_argument("--rounds", type=int, default=3)
    reader.add_argument("--seed", type=int, default=7)
    reader.add_argument("--work", type=pathlib.Path, help="a folder outside the repository that is kept")
    return reader.parse_args()


def run(options, work):
    program = build(work)
    file = work / "rows.folded"
    rows = write_rows(file, options)
    print(f"{rows} rows with a tree of {options.nodes} nodes; {options.sessions} sessions", flush=True)
    print(f"load {os.getloadavg()[0]:.1f} on {os.cpu_count()} cores", flush=True)
    print_times(time_all(program, sizes(options), options, file))
    print(f"load {os.getloadavg()[0]:.1f} at the end")


def main():
    options = read_options()
    run_outside(options.work, NAME, lambda work: run(options, work))


if __name__ == "__main__":
    main()
