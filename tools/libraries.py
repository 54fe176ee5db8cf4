"""The repository's crates, and the libraries of them that `./build` keeps, over which other checks are made.

A library has what crates above may cite of a crate, without its proofs. It stands in the crate's folder out/, and
beside it what its check read, as a sum, and the seconds that it took.
"""
import dataclasses
import hashlib
import os
import pathlib
import shutil
import subprocess
import sys

ROOT = pathlib.Path(__file__).resolve().parent.parent
PROCESSORS = len(os.sched_getaffinity(0))
# The crates that run worked rows, which no user calls.
OF_WORKED_ROWS = ("library_steps", "worked_rows")


@dataclasses.dataclass
class Crate:
    """A crate, the libraries of the kit and the crates that it names, and all crates below it, lowest first."""
    name: str
    of_kit: list
    named: list
    below: list

    def folder(self):
        return ROOT / "crates" / self.name

    def sources(self, *parts):
        return sorted(file for part in parts for file in (self.folder() / part).rglob("*.*t"))

    def read(self):
        """What its proof reads of it."""
        return self.sources("src", "specs", "proofs")

    def root(self):
        """The file that its proof begins with, in its folder."""
        return "src/main.rt" if self.is_program() else "src/lib.rt"

    def is_program(self):
        return (self.folder() / "src" / "main.rt").is_file()


def find_kit():
    """The folder of the kit, whose command rt is on the path."""
    if not shutil.which("rt"):
        sys.exit("the Rattle kit's command rt isn't on the path")
    page = subprocess.run(["rt", "doc"], stdout=subprocess.PIPE, text=True, check=True).stdout.strip()
    return pathlib.Path(page).parent


def listed():
    """The words of each crate's line in crates.txt."""
    lines = [line.partition("#")[0].strip() for line in (ROOT / "crates.txt").read_text().splitlines()]
    return {line.partition(":")[0]: line.partition(":")[2].split() for line in lines if line}


def read_crates(names):
    """These crates and those that they stand on, lowest first."""
    words, found = listed(), {}

    def add(name):
        if name in found:
            return
        named = [it for it in words[name] if it in words]
        for lower in named:
            add(lower)
        below = dict.fromkeys(name for lower in named for name in [*found[lower].below, lower])
        found[name] = Crate(name, ["std", *(it for it in words[name] if it not in words)], named, list(below))

    for name in names:
        if name not in words:
            sys.exit(f"crates.txt has no crate {name}")
        add(name)
    return list(found.values())


def sums_of(crates, kit):
    """A sum for each crate of all that its proof reads: the kit's release, its own sources, and all below it."""
    sums = {}
    for crate in crates:
        whole = hashlib.sha256((kit / "KIT-ID").read_bytes())
        whole.update(repr((crate.of_kit, crate.named, [sums[name] for name in crate.below])).encode())
        for file in crate.read():
            whole.update(repr((str(file.relative_to(ROOT)), file.read_bytes())).encode())
        sums[crate.name] = whole.hexdigest()
    return sums


def library_of(name):
    """Where a crate's library stands: rt ci reads no sources there, and rt removes it where it makes its own."""
    return ROOT / "crates" / name / "out" / "rlib" / "proved" / f"{name}.rlib"


def note_of(name, what):
    """The file beside a crate's library that says this of it: `sum`, `seconds`, `refused`."""
    return library_of(name).with_suffix(f".{what}")


def is_kept(crate, sums):
    """Whether the library of the crate is as its sources are."""
    note = note_of(crate.name, "sum")
    return note.is_file() and note.read_text() == sums[crate.name]


def prover(kit, crate, command, words):
    """A command of the prover on the crate, with words that say what stands below it."""
    return [
        kit / "bin" / "rattle", command, "--crate-name", crate.name, crate.root(), *words,
        "--antt-project", kit / "rattle" / "logic" / "antt-project.json", "--logic-built", kit / "logic_built"]


def extern(places):
    """The words for libraries that stand at these places, by their names."""
    return [word for name, place in places.items() for word in ("--extern", f"{name}={place}")]


def found_in(folders):
    """The words for folders that have libraries which others name."""
    return [word for folder in folders for word in ("-L", f"dependency={folder}")]


def of_kit(kit, names):
    """Where these libraries of the kit stand."""
    return {name: kit / "rlibs" / f"{name}.rlib" for name in names}


def over_libraries(kit, crate, command):
    """A command of the prover on the crate, over the libraries of those below it."""
    places = of_kit(kit, crate.of_kit) | {name: library_of(name) for name in crate.named}
    folders = [kit / "rlibs", *(library_of(name).parent for name in crate.below)]
    return prover(kit, crate, command, [*extern(places), *found_in(folders)])
