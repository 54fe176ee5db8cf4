"""Builds a program over the crates outside the repository, quickly: nothing of it is proved.

It is a quick build (`rt try`) of the crates' own sources, with the address sanitizer: it also ends a run that uses a
block that was given back. keep.c, which is linked into it, keeps the program.
"""
import os
import pathlib
import shutil
import subprocess
import sys

HERE = pathlib.Path(__file__).resolve().parent
sys.path.insert(0, str(HERE.parent.parent / "bench"))
from proved_program import TOP, crates_below, write_list  # noqa: E402


def copy_sources(name, sources, libraries, c_files, folder):
    """Copies a program's sources and all crates below it, and returns the folder of its crate."""
    crates = folder / "crates"
    shutil.rmtree(crates, ignore_errors=True)
    below = crates_below(libraries)
    for crate in below:
        for part in ("src", "specs", "proofs"):
            at = TOP / "crates" / crate / part
            if at.is_dir():
                shutil.copytree(at, crates / crate / part)
    (crates / name / "src").mkdir(parents=True)
    for file, source in sources.items():
        shutil.copyfile(source, crates / name / "src" / f"{file}.rt")
    (crates / name / "c").mkdir()
    for file in [HERE / "keep.c", *c_files]:
        shutil.copyfile(file, crates / name / "c" / file.name)
    below[name] = libraries
    write_list(below, folder)
    return crates / name


def build(name, sources, libraries, folder, c_files=(), words=()):
    """The program of these sources, by their names, which is run once with these words."""
    program = folder / name
    program.unlink(missing_ok=True)
    crate = copy_sources(name, sources, libraries, c_files, folder)
    variables = {**os.environ, "RT_ALLOW_C": name, "CFLAGS": f"-Wall -Wextra '-DKEEP_AT=\"{program}\"'"}
    how = {"cwd": crate, "env": variables, "input": "", "capture_output": True, "text": True}
    ran = subprocess.run(["rt", "try", "--", *words], **how)
    if not program.exists():
        sys.exit(ran.stderr + ran.stdout + f"{name} isn't built")
    return program
