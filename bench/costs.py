#!/usr/bin/env python3
"""Times the library's calls one by one on folded text and on a profile, and prints what each costs.

    bench/costs.py FOLDED PROFILE [--rounds 5] [--work FOLDER]

For each call it prints nanoseconds of processor time for each byte of the input, the least of several rounds, and how
much the peak memory of the process is above that of one that only reads the input, in bytes for each byte of it.

The program is costs.rattle, proved and linked in a copy of the crates below it that stands outside the repository.
--work keeps the copy, so that the next run proves only what changed.
"""
import argparse
import os
import pathlib
import re
import subprocess

from proved_program import copy_program, link, run_outside

NAME = "costs"
LIBRARIES = ["profile_store", "anyhow"]
OF_TEXT = "read_folded", "write_folded", "batch_top", "batch_flame", "tree", "tree_top", "tree_flame"
OF_PROFILE = "decode", "batch_of", "encode"


def cost_of(program, call, file):
    """Nanoseconds in a call, and the peak memory of the process in bytes."""
    with open(file, "rb") as rows:
        process = subprocess.Popen([program, call], stdin=rows, stdout=subprocess.PIPE, text=True)
        said = process.stdout.read()
        _, status, used = os.wait4(process.pid, 0)
    if status:
        raise SystemExit(f"{call} ended with {status}")
    return int(re.search(r"nanoseconds (\d+)", said).group(1)), used.ru_maxrss * 1024


def print_costs(program, calls, file, rounds):
    size = file.stat().st_size
    _, idle = cost_of(program, "none", file)
    print(f"{file.name}, {size} bytes")
    for call in calls:
        costs = [cost_of(program, call, file) for _ in range(rounds)]
        nanos, memory = min(cost[0] for cost in costs), max(cost[1] for cost in costs)
        print(f"{call:<16}{nanos / size:>10.2f} ns a byte{(memory - idle) / size:>10.1f} bytes a byte", flush=True)


def run(options, work):
    copy_program(NAME, LIBRARIES, work)
    print(f"proves and links {NAME}", flush=True)
    program = link(NAME, work, ["none"], "")
    print(f"load {os.getloadavg()[0]:.1f} on {os.cpu_count()} cores", flush=True)
    print_costs(program, OF_TEXT, options.folded, options.rounds)
    print_costs(program, OF_PROFILE, options.profile, options.rounds)


def main():
    reader = argparse.ArgumentParser(description=__doc__, formatter_class=argparse.RawDescriptionHelpFormatter)
    reader.add_argument("folded", type=pathlib.Path, help="a file of folded text")
    reader.add_argument("profile", type=pathlib.Path, help="a file of a profile, unpacked")
    reader.add_argument("--rounds", type=int, default=5)
    reader.add_argument("--work", type=pathlib.Path, help="a folder outside the repository that is kept")
    options = reader.parse_args()
    run_outside(options.work, NAME, lambda work: run(options, work))


if __name__ == "__main__":
    main()
