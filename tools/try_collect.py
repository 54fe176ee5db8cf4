"""Runs the program `collect` on pipes, files, folders and a full disk: python3 tools/try_collect.py [MB] [CASE..]

It prints a line for each case: what it shows, with its figure, and ok or WRONG. Its status is 1 where one was wrong.
Without a number, each of four pipes brings 20 MB; a case is known by a word of its name. `./build` makes what it needs.
"""
import os
import pathlib
import random
import re
import subprocess
import sys
import tempfile
import threading
import time

ROOT = pathlib.Path(__file__).resolve().parent.parent
COLLECT, FLAME = ROOT / "out" / "collect", ROOT / "out" / "flame"
LIMIT = 600


def stacks(lines, distinct, seed):
    """Folded text of so many lines, of at most so many stacks of 5 to 40 frames."""
    draw = random.Random(seed)
    names = [f"module_{n % 97}::function_{n}" for n in range(2000)]
    pool = [";".join(draw.choices(names, k=draw.randint(5, 40))) for _ in range(distinct)]
    return "".join(f"{draw.choice(pool)} {draw.randint(1, 1000)}\n" for _ in range(lines)).encode()


def fold(text):
    return subprocess.run([FLAME, "fold"], input=text, stdout=subprocess.PIPE, check=True).stdout


class Run:
    """A run of `collect` in a folder of its own, with what it says."""

    def __init__(self, folder, *words):
        self.out = folder / "out"
        self.out.mkdir(exist_ok=True)
        self.process = subprocess.Popen(
            [COLLECT, *map(str, words)], cwd=folder, stdin=subprocess.DEVNULL, stdout=subprocess.PIPE,
            stderr=subprocess.PIPE)

    def end(self):
        self.printed, said = self.process.communicate(timeout=LIMIT)
        self.said, self.status = said.decode(), self.process.returncode
        return self

    def windows(self):
        return sorted(self.out.glob("*.folded"), key=lambda file: int(file.stem))

    def folded(self):
        return fold(b"".join(file.read_bytes() for file in self.windows()))


def write_pipe(path, text, *, pause=0, parts=1):
    """Writes a text to a named pipe in a thread, in so many parts with a pause after each."""
    def write():
        try:
            with open(path, "wb") as pipe:
                for at in range(parts):
                    pipe.write(text[len(text) * at // parts:len(text) * (at + 1) // parts])
                    pipe.flush()
                    time.sleep(pause)
        except BrokenPipeError:
            pass
    thread = threading.Thread(target=write, daemon=True)
    thread.start()
    return thread


def make_pipes(folder, count):
    pipes = [folder / f"pipe{n}" for n in range(count)]
    for pipe in pipes:
        os.mkfifo(pipe)
    return pipes


def four_pipes(folder, megabytes):
    texts = [stacks(megabytes * 1900, megabytes * 250, seed) for seed in range(4)]
    pipes = make_pipes(folder, 4)
    began = time.time()
    run = Run(folder, "--window", 1, "--out", "out", *pipes)
    writers = [write_pipe(pipe, text) for pipe, text in zip(pipes, texts)]
    run.end()
    for writer in writers:
        writer.join()
    seconds, size = time.time() - began, sum(map(len, texts))
    good = run.status == 0 and run.folded() == fold(b"".join(fold(text) for text in texts))
    rate = size / seconds / 1e6
    return good, f"{len(run.windows())} windows add up to the fold of {size // 10**6} MB, {rate:.0f} MB/s"


def killed(folder, megabytes):
    text = stacks(megabytes * 1900, megabytes * 250, 7)
    pipes = make_pipes(folder, 1)
    run = Run(folder, "--rows", 2000, "--out", "out", *pipes)
    write_pipe(pipes[0], text, pause=0.05, parts=100)
    time.sleep(2)
    run.process.kill()
    run.end()
    whole = all(fold(file.read_bytes()) == file.read_bytes() for file in run.windows())
    count = len(run.windows())
    front = b"".join(line + b"\n" for line in text.split(b"\n")[:2000 * count])
    return whole and count > 0 and run.folded() == fold(front), f"after kill -9, {count} files are whole, in order"


def peak(run):
    status = pathlib.Path(f"/proc/{run.process.pid}/status").read_text()
    return int(re.search(r"VmHWM:\s+(\d+)", status)[1])


def ten_thousand_windows(folder, _):
    text = stacks(10_000, 500, 3)
    pipes = make_pipes(folder, 1)
    run = Run(folder, "--rows", 100, "--out", "out", *pipes)
    write_pipe(pipes[0], text * 100, pause=0.001, parts=10_000)
    peaks = {}
    while run.process.poll() is None:
        for count in (1000, 9900):
            if count not in peaks and (run.out / f"{count}.folded").exists():
                peaks[count] = peak(run)
        time.sleep(0.005)
    run.end()
    windows = run.windows()
    last = fold(b"".join(file.read_bytes() for file in windows[-100:]))
    good = len(windows) == 10_000 and last == fold(text) and peaks[9900] <= 1.05 * peaks[1000]
    return good, f"10,000 windows: peak of {peaks[1000]} KB after 1,000, of {peaks[9900]} KB after 9,900"


def stalled(folder, _):
    text = stacks(20_000, 300, 5)
    pipes = make_pipes(folder, 2)
    run = Run(folder, "--window", 1, "--out", "out", *pipes)
    writer = write_pipe(pipes[0], text)
    with open(pipes[1], "wb") as waiting:
        writer.join()
        time.sleep(2.5)
        early = run.folded()
        waiting.write(b"late 1\n")
    run.end()
    good = early == fold(text) and run.folded() == fold(text + b"late 1\n")
    return good, "a source stalls: the other's windows are written"


def cut(folder, _):
    pipes = make_pipes(folder, 2)
    run = Run(folder, *pipes)
    write_pipe(pipes[0], b"a;b 3\na;c 12")
    write_pipe(pipes[1], b"a;b 1\na;c")
    run.end()
    good = run.printed == b"a;b 4\na;c 12\n" and "pipe1: F2 NoCount line 2" in run.said and run.status == 1
    return good, f"sources end in the middle of a line: {run.said.strip()}"


def faulty(folder, _):
    text = stacks(50_000, 300, 6)
    (folder / "bad.folded").write_bytes(b"a;b 3\n" * 10_000 + b"a;b x\n" + b"a;b 3\n" * 10_000)
    (folder / "good.folded").write_bytes(text)
    run = Run(folder, "--out", "out", "bad.folded", "good.folded", "missing.folded").end()
    wanted = "collect: bad.folded: F2 NoCount line 10001, and nothing after it is read\n"
    good = run.folded() == fold(text + b"a;b 30000\n") and wanted in run.said and "missing.folded: No such" in run.said
    return good and run.status == 1, "a faulty line and a source that isn't there: a line for each, all others count"


def heavy(folder, _):
    for number in range(3):
        (folder / f"{number}.folded").write_bytes(b"a;b 9223372036854775807\n")
    run = Run(folder, "--out", "out", "0.folded", "1.folded", "2.folded").end()
    good = [file.read_bytes() for file in run.windows()] == [b"a;b 9223372036854775807\n"] * 3 and run.status == 0
    early = run.said.count("a window ended early, since its weights are above 2^63 - 1 together")
    return good and early == 2, "windows that would weigh too much end early, and the next ones have what they refused"


def refused(folder, _):
    (folder / "packed.pb").write_bytes(b"\x1f\x8b\x08\x00")
    cases = [
        (["--window", 0, "x"], 2, "'0' for '--window"), (["--rows", 0, "x"], 2, "'0' for '--rows"), ([], 2, "<SOURCE>"),
        (["--out", "nowhere", "x"], 2, "nowhere: No such"), (["packed.pb"], 1, "packed.pb: P1 Gzip")]
    wrong = []
    for words, status, text in cases:
        run = Run(folder, *words).end()
        if run.status != status or text not in run.said:
            wrong.append((words, run.status, run.said))
    return not wrong, f"{len(cases)} kinds of bad input have a line each {wrong or ''}"


def many_sources(folder, _):
    told = []
    for count in (64, 65):
        below = folder / str(count)
        below.mkdir()
        pipes = make_pipes(below, count)
        run = Run(below, *pipes)
        for number, pipe in enumerate(pipes):
            write_pipe(pipe, f"source;{number:02} 1\n".encode() * 100)
        run.end()
        told.append(run.printed == b"".join(f"source;{n:02} 100\n".encode() for n in range(count)))
    return all(told), "64 and 65 sources"


def spool(folder, _):
    box, texts = folder / "box", [stacks(500, 100, seed) for seed in range(20)]
    box.mkdir()
    run = Run(folder, "--window", 1, "--out", "out", "box")
    told = []
    reader = threading.Thread(target=lambda: told.extend(run.process.stdout), daemon=True)
    reader.start()
    for number, text in enumerate(texts):
        (box / f".{number}").write_bytes(text)
        (box / f".{number}").rename(box / f"{number:03}.folded")
        time.sleep(0.1)
    until = time.time() + 20
    while len(told) < len(texts) and time.time() < until:
        time.sleep(0.1)
    run.process.kill()
    run.process.wait()
    names = [f"box/{number:03}.folded\n".encode() for number in range(len(texts))]
    return told == names and run.folded() == fold(b"".join(texts)), "a folder: each file once, and its name is told"


def full_disk(folder, _):
    small = folder / "small"
    small.mkdir()
    if subprocess.run(["mount", "-t", "tmpfs", "-o", "size=64k", "tmpfs", small], stderr=subprocess.DEVNULL).returncode:
        return True, "a full disk: NOT TRIED, since nothing can be mounted"
    try:
        pipes = make_pipes(folder, 1)
        run = Run(folder, "--rows", 1000, "--out", "small", *pipes)
        write_pipe(pipes[0], stacks(1000, 5, 1) + stacks(1000, 900, 2) + stacks(1000, 5, 3), pause=0.2, parts=3)
        run.end()
        files = [fold(file.read_bytes()) == file.read_bytes() for file in small.glob("*.folded")]
        lost = run.said.count("a window is lost")
        return run.status == 3 and lost == 1 and files == [True, True], f"a full disk: {run.said.strip()}"
    finally:
        subprocess.run(["umount", small], check=True)


CASES = [
    four_pipes, killed, ten_thousand_windows, stalled, cut, faulty, heavy, refused, many_sources, spool, full_disk]


def main(words):
    megabytes = int(words.pop(0)) if words and words[0].isdigit() else 20
    is_wrong = False
    for case in CASES:
        if words and not any(word in case.__name__ for word in words):
            continue
        with tempfile.TemporaryDirectory() as folder:
            began = time.time()
            good, told = case(pathlib.Path(folder), megabytes)
        is_wrong |= not good
        print(f"{'ok   ' if good else 'WRONG'} {time.time() - began:6.1f} s  {told}", flush=True)
    return is_wrong


if __name__ == "__main__":
    sys.exit(main(sys.argv[1:]))
