#!/usr/bin/env python3
"""Compares what `go tool pprof` reads of real profiles before and after they pass through pprof_profile.

It makes profiles of real programs in a temporary folder: all that Go's runtime writes of examples/work.go, CPU and
heap profiles of Go's compiler and linker and a CPU profile of gofmt, and, where gcc and google-perftools are there
(Debian: libgoogle-perftools-dev), a CPU profile of a C program. Profiles that are named as arguments are taken too.
Each is unpacked, decoded by `decode` and written again by `encode`; then `go tool pprof -raw` prints both, and the two
texts have to be equal: the same sample types, samples with their values, locations and labels, locations with the
functions, files and lines of their inlined calls, and mappings.

Run it at the top of the repository: python3 tools/compare_profiles.py [FILE..]. It needs Go (Debian: golang-go), and is
no part of the gate.
"""
import gzip
import os
import pathlib
import shutil
import subprocess
import sys
import tempfile

from profile_program import answers

TOP = pathlib.Path(__file__).resolve().parent.parent
LENGTHS = ["200ms", "1s", "3s"]
PACKAGES = ["go/types", "go/parser", "encoding/json", "regexp/syntax", "text/template", "compress/flate", "fmt"]
C_PROGRAM = """
#include <stdio.h>
#include <stdlib.h>
static int fib(int n) { return n < 2 ? n : fib(n - 1) + fib(n - 2); }
static int compare(const void *a, const void *b) { return *(const int *)a - *(const int *)b; }
int main(void) {
    long total = 0;
    for (int round = 0; round < 4; round++) {
        int count = 2000000, *items = malloc(count * sizeof *items);
        for (int i = 0; i < count; i++) items[i] = (int)((i * 2654435761u) >> 3);
        qsort(items, count, sizeof *items, compare);
        total += items[7] + fib(34);
        free(items);
    }
    printf("%ld\\n", total);
}
"""


def run(words, **more):
    return subprocess.run([str(word) for word in words], check=True, capture_output=True, text=True, **more).stdout


def converted(program, path):
    """A profile in pprof's format of one in another: the older text of Go's heap profiles, or google-perftools'."""
    made = path.with_suffix(".pb.gz")
    run(["go", "tool", "pprof", "-proto", "-output", made, program, path])
    return made


def go_tool(name):
    return pathlib.Path(run(["go", "env", "GOTOOLDIR"]).strip()) / name


def of_work(folder):
    program = folder / "work"
    run(["go", "build", "-trimpath", "-o", program, TOP / "examples/work.go"])
    for length in LENGTHS:
        profiles = folder / f"work_{length}"
        profiles.mkdir()
        run([program, profiles, length])
        yield from sorted(profiles.iterdir())


def of_compiler(folder):
    for package in PACKAGES:
        names = run(["go", "list", "-f", '{{.Dir}} {{join .GoFiles " "}}', package]).split()
        sources = [pathlib.Path(names[0]) / name for name in names[1:]]
        made = folder / package.replace("/", "_")
        flags = ["-cpuprofile", f"{made}_cpu", "-memprofile", f"{made}_heap", "-memprofilerate", "4096"]
        run(["go", "tool", "compile", "-p", package, "-o", f"{made}.a", *flags, *sources])
        yield from [pathlib.Path(f"{made}_cpu"), converted(go_tool("compile"), pathlib.Path(f"{made}_heap"))]


def of_linker(folder):
    object_file, made = folder / "work.o", folder / "link"
    run(["go", "tool", "compile", "-o", object_file, TOP / "examples/work.go"])
    flags = ["-cpuprofile", f"{made}_cpu", "-memprofile", f"{made}_heap", "-memprofilerate", "4096"]
    run(["go", "tool", "link", "-o", folder / "linked", *flags, object_file])
    yield from [pathlib.Path(f"{made}_cpu"), converted(go_tool("link"), pathlib.Path(f"{made}_heap"))]


def of_gofmt(folder):
    made = folder / "gofmt_cpu"
    sources = pathlib.Path(run(["go", "env", "GOROOT"]).strip()) / "src"
    run(["gofmt", "-cpuprofile", made, "-l", *[sources / name for name in ("net", "runtime", "crypto", "encoding")]])
    yield made


def of_perftools(folder):
    if not shutil.which("gcc") or not list(pathlib.Path("/usr/lib").glob("*/libprofiler.so")):
        print("no google-perftools here: left out")
        return
    source, program = folder / "c_work.c", folder / "c_work"
    source.write_text(C_PROGRAM)
    run(["gcc", "-g", "-O1", source, "-o", program, "-Wl,--no-as-needed", "-lprofiler"])
    run([program], env=dict(os.environ, CPUPROFILE=str(folder / "c_work.prof")))
    yield converted(program, folder / "c_work.prof")


def unpacked(path):
    data = path.read_bytes()
    return gzip.decompress(data) if data[:2] == b"\x1f\x8b" else data


def as_text(folder, data):
    path = folder / "shown.pb"
    path.write_bytes(data)
    return run(["go", "tool", "pprof", "-symbolize=none", "-raw", path])


def count_lines(text):
    """How many samples and locations a text of -raw has."""
    samples, rest = text.split("Samples:\n", 1)[1].split("\nLocations\n", 1)
    locations = rest.split("\nMappings\n", 1)[0]
    has_values = [line for line in samples.split("\n")[1:] if line.lstrip()[:1].isdigit() and ": " in line]
    return len(has_values), sum(line.lstrip().split(":")[0].isdigit() for line in locations.split("\n"))


def compared(folder, path, data, found):
    if isinstance(found, str):
        print("REFUSED", path.name, found)
        return False, 0, 0
    before, after = as_text(folder, data), as_text(folder, found)
    samples, locations = count_lines(before)
    state = "same" if before == after else "DIFFERS"
    place = path.relative_to(folder) if path.is_relative_to(folder) else path.name
    print(f"{state} {place}: {len(data)} bytes, {len(found)} written, {samples} samples, {locations} locations")
    return before == after, samples, locations


def main():
    with tempfile.TemporaryDirectory() as name:
        folder = pathlib.Path(name)
        os.environ.update(GO111MODULE="off", GOCACHE=str(folder / "cache"), PPROF_TMPDIR=name)
        paths = [pathlib.Path(word).resolve() for word in sys.argv[1:]] + [TOP / "examples/work.pb"]
        for made in (of_work, of_compiler, of_linker, of_gofmt, of_perftools):
            paths += made(folder)
        rows = [unpacked(path) for path in paths]
        results = [compared(folder, *row) for row in zip(paths, rows, answers(rows))]
    same = sum(result[0] for result in results)
    samples, locations = sum(result[1] for result in results), sum(result[2] for result in results)
    print(f"{same} of {len(results)} profiles are the same, with {samples} samples and {locations} locations")
    return 0 if same == len(results) else 1


if __name__ == "__main__":
    sys.exit(main())
