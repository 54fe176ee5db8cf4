#!/usr/bin/env python3
"""Compares flame's reports on real profiles with those of other tools.

For each profile that compare_profiles.py makes (and those named as arguments), and each of its sample types:
- `flame top` with the flat and cumulative weights that `go tool pprof -top` gives, its trimming switched off;
- `flame fold` with the stacks of `go tool pprof -traces`;
- `flame flame` with a layout made here from the folded stacks, in 100 and in 1,200 columns;
- where flamegraph.pl is there (Debian: libdevel-nytprof-perl), the frames that it draws with the paths of the folded
  stacks.

Where the tools are known to differ, the difference is taken away, and a line says which it was and how often:
- a semicolon in a function's name: flame writes a colon, since folded text can't hold it;
- an address that no function is known for: flame names it `0x..`, and go tool pprof puts all addresses of a file
  together, as `[FILE]`;
- a sample without locations: flame folds it as the empty stack, and -traces prints nothing for it;
- a frame that flamegraph.pl draws in pieces: it orders stacks as joined text, so that a sibling whose name goes on from
  the frame's with a character below the semicolon (`geneq.func1` beside `geneq`) comes between two of its children.
Each other difference is printed, and the last line says how many were compared.

Run it at the top of the repository once ./build has made the program: python3 tools/compare_reports.py [FILE..]. It
needs Go (Debian: golang-go), and is no part of the gate.
"""
import collections
import html
import json
import os
import pathlib
import re
import subprocess
import sys
import tempfile

import compare_profiles

TOP = pathlib.Path(__file__).resolve().parent.parent
PROGRAM = TOP / "out/flame"
FLAMEGRAPH = pathlib.Path("/usr/share/perl5/Devel/NYTProf/flamegraph.pl")
VALUE = re.compile(r"^(-?\d+)([A-Za-z]*)$")
DRAWN = re.compile(r"<title>(.*) \(([\d,]+) samples, [\d.]+%\)</title>\s*<rect x=\"([\d.]+)\" y=\"([\d.]+)\"")


def run(words, data=b""):
    return subprocess.run([str(word) for word in words], input=data, check=True, capture_output=True).stdout.decode()


def sample_types(raw):
    """The sample types of a text of -raw, as pairs of name and unit."""
    words = raw.split("Samples:\n", 1)[1].split("\n", 1)[0].split()
    return [tuple(word.replace("[dflt]", "").split("/")) for word in words]


def cleaned(name, reasons):
    """A name as folded text can hold it: with a colon for each semicolon."""
    reasons["semicolon"] += ";" in name
    return name.replace(";", ":")


def files_of_addresses(raw):
    """The name that go tool pprof gives the locations of each address without a function: their mapping's file."""
    locations, mappings = raw.split("Locations\n", 1)[1].split("Mappings\n", 1)
    mapped = re.findall(r"^(\d+): 0x\w+/0x\w+/0x\w+ (\S+)", mappings, re.M)
    files = {number: pathlib.Path(file).name for number, file in mapped}
    named = re.findall(r"^ +\d+: (0x\w+) M=(\d+) *$", locations, re.M)
    return {address: f"[{files[mapping]}]" for address, mapping in named if mapping in files}


def by_file(rows, files, reasons):
    """Rows as go tool pprof names them: an address without a function by its file, and no row without frames."""
    named = collections.Counter()
    for stack, weight in rows.items():
        reasons["address"] += any(frame in files for frame in stack)
        reasons["no locations"] += not stack
        named[tuple(files.get(frame, frame) for frame in stack)] += weight
    named.pop((), None)
    return named


def top_by_file(rows):
    """The flat and cumulative weights of names in rows."""
    sums = collections.defaultdict(lambda: [0, 0])
    for stack, weight in rows.items():
        sums[stack[-1]][0] += weight
        for frame in set(stack):
            sums[frame][1] += weight
    return {name: tuple(pair) for name, pair in sums.items()}


def number(word):
    return int(VALUE.match(word).group(1)) if VALUE.match(word) else None


def flame_top(data, kind):
    words = [PROGRAM, "top", "--format", "pprof", "--value", kind, "--count", "4294967295"]
    lines = run(words, data).split("\n")[1:-1]
    split = (line.split(" ", 2) for line in lines)
    return {name: (int(flat), int(cumulative)) for flat, cumulative, name in split}


def pprof_words(report, path, kind, unit):
    shown = {"nanoseconds": "ns", "bytes": "B"}.get(unit, unit)
    untrimmed = ["-nodecount=100000000", "-nodefraction=0", "-edgefraction=0"]
    chosen = [f"-sample_index={kind}", f"-unit={shown}"]
    return ["go", "tool", "pprof", "-symbolize=none", report, *untrimmed, *chosen, path]


def pprof_top(path, kind, unit, reasons):
    lines = run(pprof_words("-top", path, kind, unit)).split("\n")
    start = next(at for at, line in enumerate(lines) if line.split()[:2] == ["flat", "flat%"])
    sums = collections.defaultdict(lambda: [0, 0])
    for line in lines[start + 1:]:
        words = line.split(None, 5)
        if len(words) == 6:
            name = cleaned(re.sub(r" \((partial-)?inline\)$", "", words[5]), reasons)
            sums[name][0] += number(words[0])
            sums[name][1] += number(words[3])
    return {name: tuple(pair) for name, pair in sums.items() if pair != [0, 0]}


def pprof_traces(path, kind, unit, reasons):
    stacks = collections.Counter()
    for block in re.split(r"-+\+-+\n", run(pprof_words("-traces", path, kind, unit)))[1:]:
        frames, value = [], None
        for line in block.rstrip("\n").split("\n"):
            if line[10:11] == ":" or len(line.split()) == 0:
                continue
            if value is None:  # the value takes more than its ten columns where it is long
                word, name = line.split(None, 1)
                value = number(word)
            else:
                name = line[13:]
            frames.append(cleaned(re.sub(r" \(inline\)$", "", name), reasons))
        if value:
            stacks[tuple(reversed(frames))] += value
    return stacks


def folded(data, kind):
    text = run([PROGRAM, "fold", "--format", "pprof", "--value", kind], data)
    rows = (line.rsplit(" ", 1) for line in text.split("\n")[:-1])
    return text, {tuple(stack.split(";")) if stack else (): int(weight) for stack, weight in rows}


def layout(rows, columns):
    """The rectangles of rows, by sums over all rows for each path."""
    order = sorted(rows, key=lambda stack: [name.encode() for name in stack])
    total, starts, weights, ends = sum(rows.values()), {}, collections.Counter(), {}
    for stack in order:
        for depth in range(len(stack) + 1):
            weights[stack[:depth]] += rows[stack]
    for path in sorted(weights, key=lambda path: [name.encode() for name in path]):
        parent = path[:-1]
        starts[path] = ends.get(parent, starts.get(parent, 0)) if path else 0
        if path:
            ends[parent] = starts[path] + weights[path]
    rects = []
    for path in sorted(weights, key=lambda path: [name.encode() for name in path]):
        left, right = starts[path] * columns // total, (starts[path] + weights[path]) * columns // total
        if left < right:
            rects.append({"depth": len(path), "left": left, "name": path[-1] if path else "", "right": right,
                          "weight": weights[path], "x": starts[path]})
    return {"columns": columns, "rects": rects, "total": total}, weights


def drawn(text, weights, reasons):
    """How many frames flamegraph.pl draws, and those that differ from the paths of the rows."""
    svg = run([FLAMEGRAPH, "--minwidth=0", "--width=100000", "--hash"], text.encode())
    rows = [(html.unescape(name), int(count.replace(",", "")), float(y)) for name, count, x, y in DRAWN.findall(svg)]
    levels = {y: depth for depth, y in enumerate(sorted({y for _, _, y in rows}, reverse=True))}
    seen = collections.Counter((levels[y], name, count) for name, count, y in rows if name != "all")
    want = collections.Counter((len(path), path[-1], weight) for path, weight in weights.items() if path)
    pieces, wholes = by_name(seen - want), by_name(want - seen)
    reasons["drawn in pieces"] += sum(pieces[frame] == wholes[frame] for frame in wholes)
    other = [frame for frame in pieces | wholes if pieces[frame] != wholes[frame]]
    return len(rows), [f"flamegraph.pl {frame}: {pieces[frame]}, of {wholes[frame]}" for frame in other]


def by_name(frames):
    """The weights of frames by depth and name."""
    sums = collections.Counter()
    for (depth, name, weight), times in frames.items():
        sums[depth, name] += weight * times
    return sums


def differences(kind_of, one, other):
    keys = [key for key in set(one) | set(other) if one.get(key) != other.get(key)]
    return [f"{kind_of} {key!r}: flame {one.get(key)}, other {other.get(key)}" for key in sorted(keys)[:5]]


def compared(path, data, kind, unit, files, counts, reasons):
    found = []
    text, rows = folded(data, kind)
    named = by_file(rows, files, reasons)
    top = flame_top(data, kind)
    found += differences("name", top_by_file(named) if files else top, pprof_top(path, kind, unit, reasons))
    found += differences("stack", named, pprof_traces(path, kind, unit, reasons))
    framed = {stack: weight for stack, weight in rows.items() if stack}
    found += differences("sum of the stacks", top, top_by_file(framed))
    counts.update(names=len(top), stacks=len(rows))
    if rows:
        for columns in (100, 1200):
            made = json.loads(run([PROGRAM, "flame", "--format", "pprof", "--value", kind, "--columns", columns], data))
            want, weights = layout(rows, columns)
            found += [] if made == want else [f"layout in {columns} columns"]
            counts.update(rectangles=len(made["rects"]))
        if FLAMEGRAPH.exists():
            count, other = drawn(text, weights, reasons)
            counts.update(drawn=count)
            found += other[:5]
    return found


def main():
    counts, reasons, failed = collections.Counter(), collections.Counter(), 0
    with tempfile.TemporaryDirectory() as name:
        folder = pathlib.Path(name)
        os.environ.update(GO111MODULE="off", GOCACHE=str(folder / "cache"), PPROF_TMPDIR=name)
        paths = [pathlib.Path(word).resolve() for word in sys.argv[1:]] + [TOP / "examples/work.pb"]
        makers = [
            compare_profiles.of_work,
            compare_profiles.of_compiler,
            compare_profiles.of_linker,
            compare_profiles.of_gofmt,
            compare_profiles.of_perftools,
        ]
        for made in makers:
            paths += made(folder)
        for number_of, path in enumerate(paths):
            data = compare_profiles.unpacked(path)
            plain = folder / f"plain_{number_of}.pb"
            plain.write_bytes(data)
            counts.update(profiles=1)
            raw = run(["go", "tool", "pprof", "-symbolize=none", "-raw", plain])
            for kind, unit in sample_types(raw):
                counts.update(types=1)
                before = reasons.copy()
                found = compared(plain, data, kind, unit, files_of_addresses(raw), counts, reasons)
                known = ", ".join(f"{reason}: {times}" for reason, times in (reasons - before).items())
                if known:
                    print(f"{path.name} {kind}: known differences: {known}")
                failed += bool(found)
                for line in found:
                    print(f"{path.name} {kind}: {line}")
    print(", ".join(f"{count} {what}" for what, count in counts.items()) + f"; {failed} types differ")
    return 1 if failed else 0


if __name__ == "__main__":
    sys.exit(main())
