#!/usr/bin/env python3
"""Folds a file of folded text with dask distributed: folds as tasks, and a tree of merges.

    dask_fold.py INPUT OUTPUT [--scheduler ADDRESS] [--parts NUMBER]

Without a scheduler it starts workers on this host. With one, all workers see INPUT, and have the program where FLAME
says. A task's result is known by the part that it is of, so one that is lost and made again counts once.
"""
import argparse
import os
import pathlib
import subprocess

from distributed import Client

FLAME = os.environ.get("FLAME", str(pathlib.Path(__file__).resolve().parent / "../../out/flame"))
# How many reports one merge takes.
FAN = 8


def fold(text):
    """The folded report of folded text. A status other than 0 is an error of the task."""
    return subprocess.run([FLAME, "fold"], input=text, check=True, capture_output=True).stdout


def line_end(file, at):
    """The place behind the line that a place stands in; the place itself where a line ends just before it."""
    if at == 0:
        return 0
    file.seek(at - 1)
    file.readline()
    return file.tell()


def fold_part(path, start, end):
    """The folded report of the lines that begin in a range of bytes."""
    with open(path, "rb") as file:
        first, behind = line_end(file, start), line_end(file, end)
        file.seek(first)
        return fold(file.read(behind - first))


def merge(reports):
    return fold(b"".join(reports))


def fold_all(client, path, parts):
    """The folded report of a file, as a future."""
    size = os.path.getsize(path)
    edges = [size * part // parts for part in range(parts + 1)]
    reports = [
        client.submit(fold_part, path, start, end, key=f"fold-{path}-{start}-{end}", retries=3)
        for start, end in zip(edges, edges[1:])
    ]
    while len(reports) > 1:
        groups = [reports[at : at + FAN] for at in range(0, len(reports), FAN)]
        reports = [client.submit(merge, group, retries=3) for group in groups]
    return reports[0]


def main():
    reader = argparse.ArgumentParser(description=__doc__, formatter_class=argparse.RawDescriptionHelpFormatter)
    reader.add_argument("input", type=os.path.abspath)
    reader.add_argument("output", type=pathlib.Path)
    reader.add_argument("--scheduler", help="the address of a scheduler; without one, workers on this host")
    reader.add_argument("--parts", type=int, default=16)
    given = reader.parse_args()
    options = {"address": given.scheduler} if given.scheduler else {"threads_per_worker": 1, "dashboard_address": None}
    with Client(**options) as client:
        report = fold_all(client, given.input, max(1, given.parts)).result()
    fresh = given.output.with_name(given.output.name + ".new")
    fresh.write_bytes(report)
    fresh.rename(given.output)


if __name__ == "__main__":
    main()
