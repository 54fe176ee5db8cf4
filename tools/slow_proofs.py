#!/usr/bin/env python3
"""Says which functions cost their proofs most.

    tools/slow_proofs.py [CRATE..]

Each crate, or every crate, is checked from nothing by one process, over the libraries that `./build` keeps of those
below it. A part of a proof is kept in a file as it is done, so what passes between two files is the later one's time:
X.Lts is what the function's borrows and drops cost, X.Proof its clauses. The dearest functions of all these crates are
listed, with their share of their crate's time.
"""
import collections
import pathlib
import re
import subprocess
import sys
import tempfile

sys.dont_write_bytecode = True
from libraries import find_kit, is_kept, listed, over_libraries, read_crates, sums_of

SHOWN = 40
# A part's file: the function with its module, and the part's kind.
PART = re.compile(r"-proofs\.((?!TheLinks)[^-]+?)(?:\.[A-Z][\w-]*)*$")


def parts_of(folder):
    """The parts of proofs in a folder, each with the seconds since the one before, in order."""
    files = sorted((file.stat().st_mtime_ns, file.name) for file in folder.rglob("*.oantt"))
    for (before, _), (after, name) in zip(files, files[1:]):
        yield name.removesuffix(".oantt").removesuffix(".decls"), (after - before) / 1e9


def seconds_of(kit, crate):
    """The seconds that each function of a crate took, and what is no function's under the crate's own name."""
    seconds = collections.Counter()
    with tempfile.TemporaryDirectory() as name:
        words = [*over_libraries(kit, crate, "check"), "--incremental", name, "--jobs", "1"]
        checked = subprocess.run(words, cwd=crate.folder(), stdout=subprocess.PIPE, stderr=subprocess.STDOUT, text=True)
        if checked.returncode:
            sys.exit(f"{checked.stdout}slow_proofs: {crate.name} is not proved")
        for part, took in parts_of(pathlib.Path(name)):
            found = PART.search(part)
            seconds[found[1] if found else crate.name] += took
    return seconds


def main():
    kit, names = find_kit(), sys.argv[1:] or list(listed())
    crates = read_crates(names)
    sums = sums_of(crates, kit)
    below = {name for crate in crates if crate.name in names for name in crate.below}
    unkept = [crate.name for crate in crates if crate.name in below and not is_kept(crate, sums)]
    if unkept:
        sys.exit(f"slow_proofs: first ./build {' '.join(unkept)}")
    rows = []
    for crate in crates:
        if crate.name in names:
            seconds = seconds_of(kit, crate)
            whole = sum(seconds.values())
            print(f"{crate.name}: {whole:.0f} seconds", flush=True)
            rows += [(took, took / whole, crate.name, function) for function, took in seconds.items()]
    for took, share, crate, function in sorted(rows, reverse=True)[:SHOWN]:
        print(f"{took:6.1f} {share:4.0%} {crate} {function}")


if __name__ == "__main__":
    main()
