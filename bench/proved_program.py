"""What benchmarks and tools that run a proved program share: it is built outside the repository, and run on a file.

A program NAME is NAME.rattle in this folder or another, with what its proof needs in NAME.proofs. It is proved and
linked in a copy of the crates below it, since the gate doesn't know of it. Where the copy's folder is kept, the next
run proves only what changed.
"""
import pathlib
import shutil
import subprocess
import sys
import tempfile

TOP = pathlib.Path(__file__).resolve().parent.parent


def crates_below(libraries):
    """The lines of crates.txt for these libraries and all below them."""
    lines = (TOP / "crates.txt").read_text(encoding="utf-8").splitlines()
    parts = [line.partition(":") for line in lines if line[:1] not in ("#", "")]
    uses = {name: rest.split() for name, _, rest in parts}
    found, left = {}, list(libraries)
    while left:
        name = left.pop()
        if name in uses and name not in found:
            found[name] = uses[name]
            left += uses[name]
    return found


def copy_crate(name, into):
    """Copies a crate's sources, and what earlier checks of it kept unless the copy has its own."""
    for part in ("src", "specs", "proofs", "out"):
        at, to = TOP / "crates" / name / part, into / name / part
        if part != "out":
            shutil.rmtree(to, ignore_errors=True)
        if at.is_dir() and not to.exists():
            # (what ./build keeps is of no use here)
            shutil.copytree(at, to, ignore=shutil.ignore_patterns("proved"))


def copy_proofs(at, into):
    """Copies a program's proof files, which aren't named as such where the gate would look for their crate."""
    for file in at.rglob("*.proof"):
        to = (into / file.relative_to(at)).with_suffix(".antt")
        to.parent.mkdir(parents=True, exist_ok=True)
        shutil.copyfile(file, to)
    if at.is_dir():
        (into / "Lib.antt").touch()


def write_list(crates, folder):
    """Lists crates, each with those that it stands on, where `rt` looks for them, beside the handles allowed."""
    lines = [f"{crate}: {' '.join(uses)}\n" for crate, uses in crates.items()]
    (folder / "crates.txt").write_text("".join(lines), encoding="utf-8")
    shutil.copyfile(TOP / "HANDLES", folder / "HANDLES")


def copy_program(name, libraries, folder, at=TOP / "bench"):
    """Copies a program over these libraries, with all crates below it, and returns the folder of the crates."""
    crates = folder / "crates"
    below = crates_below(libraries)
    for crate in below:
        copy_crate(crate, crates)
    (crates / name / "src").mkdir(parents=True, exist_ok=True)
    shutil.copyfile(at / f"{name}.rattle", crates / name / "src/main.rt")
    copy_proofs(at / f"{name}.proofs", crates / name / "proofs")
    below[name] = libraries
    write_list(below, folder)
    return crates


def link(name, folder, words, text):
    """Proves and links a program that was copied, runs it once with these words on this text, and returns its file."""
    crate = folder / "crates" / name
    words = ["rt", "run", "--jobs", "1", "--", *words]
    ran = subprocess.run(words, cwd=crate, input=text, capture_output=True, text=True)
    if ran.returncode:
        sys.exit(ran.stderr + f"{name} is not proved or not linked")
    return crate / "out" / name


def output_of(words, file):
    """What a program prints that reads this file."""
    with open(file, "rb") as rows:
        return subprocess.run(list(map(str, words)), stdin=rows, check=True, capture_output=True, text=True).stdout


def run_outside(folder, name, run):
    """Calls `run` with a folder outside the repository: with this one, or where it is None with one that is removed."""
    if folder is None:
        with tempfile.TemporaryDirectory(prefix=f"{name}-") as work:
            return run(pathlib.Path(work))
    work = folder.resolve()
    if TOP in [work, *work.parents]:
        sys.exit("--work is a folder outside the repository: rt all stops at sources that crates.txt doesn't name")
    work.mkdir(parents=True, exist_ok=True)
    return run(work)
