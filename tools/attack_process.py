#!/usr/bin/env python3
"""Attacks the proved program as a process, and says of each case whether it ended as it may.

    tools/attack_process.py [--limits NUMBER] [--only WORD]

Each subcommand is run with limits of its address space (400, or as many as --limits says, from the least at which a
process starts at all to more than it takes, of 50,000 rows but for `live`), of threads, and of the size of a file;
with a full disk, a pipe that is closed, a directory as its input, a pipe that nobody reads, and with signals in the
middle. A run has to give the right report and status 0; or a stated status and its one line, and no report. Only at
status 3 may a beginning of the report be written. A run that a signal ends may have written a beginning, as much as the
system took.

Run it at the top of the repository once ./build has made the program. The exit status is 1 where a case ended
otherwise.
"""
import argparse
import collections
import fcntl
import os
import pathlib
import resource
import signal
import subprocess
import sys
import tempfile
import time

TOP = pathlib.Path(__file__).resolve().parent.parent
PROGRAM = TOP / "out/flame"
FOLDED = TOP / "examples/json_report.folded"
PROFILE = TOP / "examples/work.pb"
MB = 1 << 20
# How many distinct rows the subcommands read whose address space is limited.
ROWS = 50_000
# The name of a case, its words, and its input.
CASES = [
    ("top", ["top"], FOLDED),
    ("top of a profile", ["top", "--format", "pprof"], PROFILE),
    ("flame", ["flame"], FOLDED),
    ("fold", ["fold"], FOLDED),
    ("fold of a profile", ["fold", "--format", "pprof"], PROFILE),
    ("proto", ["proto"], FOLDED),
    ("live, 4 sessions", ["live", "--sessions", "4"], FOLDED),
    ("live, 64 sessions", ["live", "--sessions", "64"], FOLDED),
    ("live, warm", ["live", "--sessions", "4", "--warm"], FOLDED),
    ("live of a profile, all values", ["live", "--format", "pprof", "--all"], PROFILE),
]
SHORTAGES = {b"flame: E4 NoMemory\n", b"flame: E5 Start\n", b"flame: S2 Place\n", b"flame: N2 Place\n"}
READ = b"flame: E1 Read\n"
WRITE = b"flame: E2 Write\n"


def limited(kind, amount, user=None):
    """What a child does before it becomes the program: it takes a limit, and another user, whom limits of threads
    bind."""

    def set_limit():
        resource.setrlimit(kind, (amount, amount))
        if user is not None:
            os.setuid(user)

    return set_limit


def ended(words, source, **options):
    """How a run of the program ends: its status, and what it wrote on both streams."""
    with open(source, "rb") as data:
        done = subprocess.run([PROGRAM, *words], stdin=data, capture_output=True, timeout=120, **options)
    return done.returncode, done.stdout, done.stderr


def is_whole(end, report):
    return end == (0, report, b"")


def is_short(end):
    """Whether a run ended for want of something, with its line and nothing else."""
    return end[0] == 4 and end[1] == b"" and end[2] in SHORTAGES


def least_space():
    """The least address space, in steps of a quarter of a MB, in which the process starts and refuses no words."""
    for quarters in range(4, 400):
        space = quarters * MB // 4
        try:
            end = ended(["top", "--count", "x"], os.devnull, preexec_fn=limited(resource.RLIMIT_AS, space))
        except (OSError, subprocess.SubprocessError):
            continue
        if end[0] == 2 or (end[0] == 4 and end[2] in SHORTAGES):
            return space
    sys.exit("no process starts")


def space_taken(words, source):
    """A limit of the address space at which a case gives its report, doubled until it does."""
    space = 8 * MB
    while ended(words, source, preexec_fn=limited(resource.RLIMIT_AS, space))[0] != 0:
        space *= 2
    return space


def write_rows(folder):
    """Writes inputs of many distinct rows, folded text and a profile, by the inputs of few rows that they stand for."""
    folded, profile = folder / "rows.folded", folder / "rows.pb"
    folded.write_text("".join(f"main;run_{row % 97};step_{row} {row + 1}\n" for row in range(ROWS)), encoding="utf-8")
    profile.write_bytes(ended(["proto"], folded)[1])
    return {FOLDED: folded, PROFILE: profile}


def attack_space(words, source, report, count, least):
    """Ends by limits of the address space, from the least to more than is taken."""
    most = space_taken(words, source) + MB
    for step in range(count):
        space = least + (most - least) * step // count
        end = ended(words, source, preexec_fn=limited(resource.RLIMIT_AS, space))
        yield f"{space} bytes of address space", end, is_whole(end, report) or is_short(end)


def attack_threads(words, source, report):
    """Ends by limits of how many threads a user has, where another user's program may be run."""
    if os.getuid() != 0:
        return
    for count in range(1, 70, 3):
        end = ended(words, source, preexec_fn=limited(resource.RLIMIT_NPROC, count, 65534))
        yield f"{count} threads", end, is_whole(end, report) or is_short(end)


def attack_writes(words, source, report):
    """Ends with a writer that fails at once or in the middle."""
    with open(source, "rb") as data, open("/dev/full", "wb") as full:
        done = subprocess.run([PROGRAM, *words], stdin=data, stdout=full, stderr=subprocess.PIPE, timeout=120)
    yield "a full disk", (done.returncode, b"", done.stderr), (done.returncode, done.stderr) == (3, WRITE)
    reading, writing = os.pipe()
    os.close(reading)
    with open(source, "rb") as data, os.fdopen(writing, "wb") as closed:
        done = subprocess.run([PROGRAM, *words], stdin=data, stdout=closed, stderr=subprocess.PIPE, timeout=120)
    is_right = (done.returncode, done.stderr) == (3, WRITE) or done.returncode == -signal.SIGPIPE
    yield "a closed pipe", (done.returncode, b"", done.stderr), is_right
    for size in (0, 1, len(report) // 2, len(report) - 1):
        with tempfile.TemporaryFile() as part, open(source, "rb") as data:
            take = limited(resource.RLIMIT_FSIZE, size)
            done = subprocess.run(
                [PROGRAM, *words], stdin=data, stdout=part, stderr=subprocess.PIPE, timeout=120, preexec_fn=take
            )
            part.seek(0)
            written = part.read()
        end = (done.returncode, written, done.stderr)
        ends = (done.returncode, done.stderr) == (3, WRITE) or done.returncode == -signal.SIGXFSZ
        yield f"a file of {size} bytes", end, ends and report.startswith(written)


def attack_pipe(words, source, report):
    """Ends with a pipe of one page that nobody reads: what it hasn't room for waits until the run is ended."""
    reading, writing = os.pipe()
    room = fcntl.fcntl(writing, fcntl.F_SETPIPE_SZ, 4096)
    with open(source, "rb") as data, os.fdopen(writing, "wb") as pipe, subprocess.Popen(
        [PROGRAM, *words], stdin=data, stdout=pipe, stderr=subprocess.PIPE
    ) as child:
        waits = len(report) > room
        try:
            child.wait(timeout=1 if waits else 120)
        except subprocess.TimeoutExpired:
            child.terminate()
        errors = child.communicate()[1]
    with os.fdopen(reading, "rb") as pipe:
        end = (child.returncode, pipe.read(), errors)
    is_cut = (end[0], end[2]) == (-signal.SIGTERM, b"") and report.startswith(end[1])
    yield "a pipe that nobody reads", end, is_cut if waits else is_whole(end, report)


def attack_reads(words):
    """Ends with an input that can't be read, or ends before it begins."""
    inputs = os.open(TOP, os.O_RDONLY)
    done = subprocess.run([PROGRAM, *words], stdin=inputs, capture_output=True, timeout=120)
    os.close(inputs)
    end = (done.returncode, done.stdout, done.stderr)
    yield "a directory", end, end == (3, b"", READ)
    done = subprocess.run(["sh", "-c", 'exec "$0" "$@" <&-', PROGRAM, *words], capture_output=True, timeout=120)
    end = (done.returncode, done.stdout, done.stderr)
    yield "a closed input", end, end == (3, b"", READ)


def attack_signals(words, source, report):
    """Ends of runs that are stopped and go on, that get a signal which nobody handles, and that are ended."""
    for number in (signal.SIGSTOP, signal.SIGWINCH, signal.SIGTERM, signal.SIGKILL):
        with subprocess.Popen(
            [PROGRAM, *words], stdin=subprocess.PIPE, stdout=subprocess.PIPE, stderr=subprocess.PIPE
        ) as child:
            data = source.read_bytes()
            child.stdin.write(data[:100])
            child.stdin.flush()
            time.sleep(0.02)
            child.send_signal(number)
            if number == signal.SIGSTOP:
                time.sleep(0.02)
                child.send_signal(signal.SIGCONT)
            out, err = child.communicate(data[100:] if number in (signal.SIGSTOP, signal.SIGWINCH) else b"")
        end = (child.returncode, out, err)
        killed = number in (signal.SIGTERM, signal.SIGKILL)
        is_right = end == (-number, b"", b"") if killed else is_whole(end, report)
        yield f"signal {signal.Signals(number).name}", end, is_right


def attacks(words, source, report, count, least, rows):
    if words[0] == "live":
        yield from attack_space(words, source, report, count, least)
        yield from attack_threads(words, source, report)
    else:
        yield from attack_space(words, rows[source], ended(words, rows[source])[1], count, least)
    yield from attack_writes(words, source, report)
    yield from attack_pipe(words, source, report)
    yield from attack_reads(words)
    yield from attack_signals(words, source, report)


def attack_all(given, least, rows):
    """Attacks all cases, and says how many runs ended wrongly."""
    wrong = 0
    for name, words, source in CASES:
        if given.only not in name:
            continue
        report, ends = ended(words, source)[1], collections.Counter()
        for what, end, is_right in attacks(words, source, report, given.limits, least, rows):
            ends[end[0], end[2].decode(errors="replace").strip()] += 1
            if not is_right:
                wrong += 1
                print(f"WRONG: {name}, {what}: status {end[0]}, {len(end[1])} bytes, {end[2]!r}")
        told = ", ".join(f"{number} with {status} {line}".rstrip() for (status, line), number in ends.most_common())
        print(f"{name}: {told}", flush=True)
    return wrong


def main():
    reader = argparse.ArgumentParser(description=__doc__, formatter_class=argparse.RawDescriptionHelpFormatter)
    reader.add_argument("--limits", type=int, default=400, help="how many limits of the address space a case has")
    reader.add_argument("--only", default="", help="the cases whose names have this word")
    given = reader.parse_args()
    least = least_space()
    print(f"a process starts with {least / MB:.2f} MB of address space")
    with tempfile.TemporaryDirectory() as folder:
        wrong = attack_all(given, least, write_rows(pathlib.Path(folder)))
    print(f"{wrong} ended wrongly")
    sys.exit(1 if wrong else 0)


if __name__ == "__main__":
    main()
