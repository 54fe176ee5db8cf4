"""Measures `collect` beside the same in careful Rust: python3 bench/collecting.py FILE [TIMES] [ROUNDS]

Four named pipes bring the file, folded text, so many times each. For both, in turn, it prints the least of some rounds:
seconds by the wall, processor seconds of user and kernel mode, and peak memory; then the ratios. Where `flame` takes so
much, `cat` and `flame fold` on the same pipes stand beside them. It needs `out/collect`, `out/flame` and rustc.
"""
import os
import pathlib
import subprocess
import sys
import tempfile
import time

ROOT = pathlib.Path(__file__).resolve().parent.parent
# How many bytes `flame` takes.
MOST = 1 << 28


def build_peer(folder):
    peer = folder / "peer"
    source = ROOT / "bench" / "collect_peer.rs"
    subprocess.run(["rustc", "-O", "-C", "target-cpu=x86-64-v2", source, "-o", peer], check=True)
    return peer


def measure(folder, files, words):
    """What a run takes: the wall, both kinds of processor time, and kilobytes."""
    pipes = [folder / f"pipe{number}" for number in range(4)]
    for pipe in pipes:
        os.mkfifo(pipe)
    writers = [subprocess.Popen(f"exec cat {files} > '{pipe}'", shell=True) for pipe in pipes]
    began = time.time()
    process = subprocess.Popen([*words, *pipes], stdin=subprocess.DEVNULL)
    _, status, used = os.wait4(process.pid, 0)
    wall = time.time() - began
    for one in [*writers, *pipes]:
        one.wait() if isinstance(one, subprocess.Popen) else one.unlink()
    if status:
        sys.exit(f"{words[0]} ends with {status}")
    return wall, used.ru_utime, used.ru_stime, used.ru_maxrss


def main(file, times=1, rounds=5):
    size = 4 * times * os.path.getsize(file)
    with tempfile.TemporaryDirectory() as work:
        folder = pathlib.Path(work)
        out = folder / "out"
        out.mkdir()
        ways = {
            "collect": [ROOT / "out" / "collect", "--window", "1", "--out", out],
            "careful Rust": [build_peer(folder), "1", out]}
        if size <= MOST:
            ways["cat and flame fold"] = ["sh", "-c", f"cat \"$@\" | '{ROOT}/out/flame' fold > '{out}/fold'", "fold"]
        least = {}
        for _ in range(rounds):
            for name, words in ways.items():
                took = measure(folder, f"'{file}' " * times, words)
                least[name] = min(least.get(name, took), took, key=lambda it: it[1] + it[2])
    ours = least["collect"]
    for name, (wall, user, kernel, memory) in least.items():
        rate = size / wall / 1e6
        print(f"{name}: {wall:.2f} s, {rate:.0f} MB/s, {user:.2f} + {kernel:.2f} s of processor, {memory} KB")
        if name != "collect":
            print(f"  `collect` takes {ours[0] / wall:.2f} of it by the wall, "
                  f"{(ours[1] + ours[2]) / (user + kernel):.2f} of processor time")


main(sys.argv[1], *map(int, sys.argv[2:4]))
