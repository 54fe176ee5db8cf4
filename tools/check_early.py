#!/usr/bin/env python3
"""Proves functions of a crate before those below it are proved: python3 tools/check_early.py CRATE FUNCTION

Of a crate below, the library is taken that `./build` keeps, if nothing changed since. Any other crate is read from its
sources: what the functions reach of it is proved, and the rest only has to compile. So a change far below is tried high
above in minutes. FUNCTION begins a path, such as `locked_book::LockedBook::commit`. It is no verdict on the crate.
"""
import subprocess
import sys

sys.dont_write_bytecode = True
from libraries import extern, find_kit, found_in, is_kept, library_of, of_kit, prover, read_crates, sums_of


def source_of(crate):
    """The words for a crate that is read from its sources."""
    uses = dict.fromkeys(["core", *crate.of_kit, *crate.named])
    return ["--lib", f"{crate.name}:{','.join(uses)}={crate.folder() / crate.root()}"]


def main(name, function):
    kit = find_kit()
    crates = read_crates([name])
    sums = sums_of(crates, kit)
    *below, crate = crates
    kept = {it.name: library_of(it.name) for it in below if is_kept(it, sums)}
    sources = [it for it in below if it.name not in kept]
    print("from their sources:", *(it.name for it in sources), flush=True)
    of_all = of_kit(kit, sorted({"core", *(name for it in crates for name in it.of_kit)}))
    words = [*extern(of_all | kept), *found_in([kit / "rlibs", *(it.parent for it in kept.values())])]
    words += [word for it in sources for word in source_of(it)]
    done = crate.folder() / "out" / "early"
    done.mkdir(parents=True, exist_ok=True)
    command = [*prover(kit, crate, "check", words), "--incremental", done, "--only", function]
    return subprocess.run(command, cwd=crate.folder()).returncode


sys.exit(main(*sys.argv[1:]))
