#!/usr/bin/env python3
"""Samples a running program, this one, and writes folded stacks: one line for each stack, its frames from root to leaf.

  python3 sample_json.py > json_report.folded

The program makes a nested report, writes it as indented JSON (which the json module does in Python, by recursion) and
adds up its numbers. A thread looks at its stack every 2 ms of 1.2 s.
"""
import collections
import json
import sys
import threading
import time

SECONDS, INTERVAL = 1.2, 0.002


def make_report(depth, width):
    if depth == 0:
        return {"id": width, "values": [width * k for k in range(6)]}
    return {"level": depth, "parts": [make_report(depth - 1, width + k) for k in range(4)]}


def add_numbers(part):
    if isinstance(part, dict):
        return sum(add_numbers(value) for value in part.values())
    if isinstance(part, list):
        return sum(add_numbers(value) for value in part)
    return part


def work(end):
    while time.monotonic() < end:
        report = make_report(5, 3)
        text = json.dumps(report, indent=1)
        add_numbers(json.loads(text))


def frames_of(frame):
    names = []
    while frame is not None:
        module = frame.f_globals.get("__name__", "?")
        names.append("%s.%s" % (module, frame.f_code.co_name.strip("<>")))
        frame = frame.f_back
    return names[::-1]


def sample(thread, end, stacks):
    while time.monotonic() < end:
        time.sleep(INTERVAL)
        frame = sys._current_frames().get(thread)
        if frame is not None:
            stacks[";".join(frames_of(frame))] += 1


def main():
    stacks = collections.Counter()
    end = time.monotonic() + SECONDS
    sampler = threading.Thread(target=sample, args=(threading.get_ident(), end, stacks))
    sampler.start()
    work(end)
    sampler.join()
    for stack, count in sorted(stacks.items()):
        print(stack, count)


main()
