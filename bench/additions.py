#!/usr/bin/env python3
"""Times additions of one row to a call tree of a million nodes, and prints the rates beside those of plain Rust.

    bench/additions.py [--pages 64,128,256] [--rounds 5] [--work FOLDER] [--peers FOLDER]

The rows have 34 frames. They are random walks in a seeded call graph, so that they share their first frames, as stacks
do. The first rows build the tree, and then as many as --additions says are added one by one, each a row of the tree
that is drawn at random. Three kinds of additions are timed:
  alone    a batch is added in place (`Grower::with_batch`);
  planned  a batch is planned and credited, so that the next tree stands beside the one before;
  shared   the same, and a share of the tree after each addition is held until the next.

The program is additions.rattle, in a copy of the crates below it that stands outside the repository: the gate doesn't
know of it. It is proved and linked there, about ten minutes for each page size from nothing on one core. --work keeps
the copies, so that the next run proves only what changed. --pages and --group build it with other constants of
shared_pages: items in a page, and pages in a group, which are as many as the groups on a shelf.

--peers, or PEERS in the environment, is a folder with two Rust programs, of which any may lack:
  live     the whole addition, with names and child index. `lock`: a tree in one Vec, changed in place. `paged`: pages
           behind Arc, 256 nodes each, 64 pages a group, and a new version for each addition. It runs twice, on the
           tree's rows and on all rows; the difference is the additions'.
  pages    the pages alone, without names and index: it is run once, and its line `256 two 64` is printed.
All other programs run in turn, several rounds, and the least time of each counts. A ratio is our rate to theirs, in
wall time, since the peers tell no other; `busy` is how far our own wall time is above its processor time.
"""
import argparse
import os
import pathlib
import random
import re

from proved_program import copy_program, link, output_of, run_outside
from random_stacks import function_names, tree_stacks, write_folded

NAME = "additions"
LIBRARIES = ["profile_rows", "folded_text", "call_tree", "anyhow"]
KINDS = {"alone": "lock", "planned": "lock", "shared": "paged --page 256"}


def write_rows(folder, options):
    """Writes the tree's rows, and those with the additions behind them, and tells how many build the tree."""
    dice = random.Random(options.seed)
    names = function_names(dice, options.names)
    stacks = tree_stacks(dice, options.nodes, len(names))
    added = [dice.choice(stacks) for _ in range(options.additions)]
    for file, rows in (("tree", stacks), ("all", stacks + added)):
        write_folded(folder / f"{file}.folded", names, rows)
    return len(stacks)


def set_pages(crate, page, group):
    """Writes other numbers of items in a page, a group and a shelf wherever the sources and proofs have them."""
    text = "".join((crate / "src" / name).read_text(encoding="utf-8") for name in ("pages.rt", "shelf.rt"))
    had = [re.search(rf"^const {name}: usize = (\d+);", text, re.M)[1] for name in ("PAGE", "GROUP", "SHELF")]
    wanted = dict(zip(had, (str(page), str(page * group), str(page * group * group))))
    for part in ("src", "specs", "proofs"):
        for file in (crate / part).rglob("*.*t"):
            text = file.read_text(encoding="utf-8")
            changed = re.sub(r"\b(%s)\b" % "|".join(had), lambda found: wanted[found[1]], text)
            if changed != text:
                file.write_text(changed, encoding="utf-8")


def build(folder, page, group):
    """Proves and links the program with pages of this size, and returns its file."""
    crates = copy_program(NAME, LIBRARIES, folder)
    set_pages(crates / "shared_pages", page, group)
    print(f"proves and links {NAME}: pages of {page}, {group} to a group, {group} groups to a shelf", flush=True)
    return link(NAME, folder, ["alone", "0"], "")


def our_times(program, kind, tree_rows, file):
    """Nanoseconds an addition by the wall and by the processor."""
    said = output_of([program, kind, tree_rows], file).split()
    return int(said[3]), int(said[5])


def peer_seconds(program, store, file):
    said = output_of([program, "rates", "--store", *store.split(), "--threads", 1, "--ask-every", 0], file)
    return float(re.search(r"([\d.]+) s, ", said)[1])


def time_all(ours, live, rows, tree_rows, rounds):
    """Runs every program in turn, and returns the least of each time."""
    least = {}

    def keep(what, time):
        least[what] = min(time, least.get(what, time))

    for _ in range(rounds):
        for kind, store in KINDS.items():
            for label, program in ours.items():
                wall, processor = our_times(program, kind, tree_rows, rows / "all.folded")
                keep((label, kind, "wall"), wall)
                keep((label, kind, "processor"), processor)
            for file in ("tree", "all") if live else ():
                keep((store, file), peer_seconds(live, store, rows / f"{file}.folded"))
    return least


def print_times(labels, least, additions, has_peer):
    peers = {}
    print(f"{'':<24}{'ns each':>10}{'processor':>11}{'each second':>13}{'ratio':>8}{'busy':>7}")
    for kind, store in KINDS.items() if has_peer else ():
        peers[kind] = (least[store, "all"] - least[store, "tree"]) * 1e9 / additions
        print(f"{'live ' + store:<24}{peers[kind]:>10.0f}{'':>11}{1e9 / peers[kind]:>13.0f}")
    for kind in KINDS:
        for label in labels:
            wall, processor = (least[label, kind, clock] for clock in ("wall", "processor"))
            ratio = f"{peers[kind] / wall:.2f}" if has_peer else ""
            times = f"{wall:>10}{processor:>11}{1e9 / wall:>13.0f}{ratio:>8}{wall / processor:>7.2f}"
            print(f"{label + ' ' + kind:<24}{times}")


def print_pages(program, nodes, file):
    said = output_of([program, nodes], file)
    print("pages", re.search(r"^256 two 64 .*$", said, re.M)[0])


def read_options():
    reader = argparse.ArgumentParser(description=__doc__, formatter_class=argparse.RawDescriptionHelpFormatter)
    reader.add_argument("--pages", default="256", help="numbers of items in a page, with commas")
    reader.add_argument("--group", type=int, default=16, help="how many pages a group has")
    reader.add_argument("--nodes", type=int, default=1_000_000, help="how many nodes the tree has")
    reader.add_argument("--names", type=int, default=20_000, help="how many functions there are")
    reader.add_argument("--additions", type=int, default=40_000, help="how many are timed")
    reader.add_argument("--rounds", type=int, default=5)
    reader.add_argument("--seed", type=int, default=7)
    reader.add_argument("--peers", default=os.environ.get("PEERS"), help="the folder of the Rust programs")
    reader.add_argument("--work", type=pathlib.Path, help="a folder outside the repository that is kept")
    return reader.parse_args()


def peer(options, name):
    """A peer's file, where it is there."""
    file = pathlib.Path(options.peers) / name if options.peers else None
    return file.resolve() if file and file.is_file() else None


def run(options, work):
    ours = {}
    for page in map(int, options.pages.split(",")):
        ours[f"{page} x {options.group}"] = build(work / f"pages_{page}_{options.group}", page, options.group)
    tree_rows = write_rows(work, options)
    print(f"{tree_rows} rows build a tree of {options.nodes} nodes; {options.additions} additions", flush=True)
    print(f"load {os.getloadavg()[0]:.1f} on {os.cpu_count()} cores", flush=True)
    live, pages = peer(options, "live"), peer(options, "pages")
    least = time_all(ours, live, work, tree_rows, options.rounds)
    print_times(ours, least, options.additions, live is not None)
    if pages:
        print_pages(pages, options.nodes, work / "tree.folded")


def main():
    options = read_options()
    run_outside(options.work, NAME, lambda work: run(options, work))


if __name__ == "__main__":
    main()
