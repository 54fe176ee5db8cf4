#!/usr/bin/env python3
"""Changes the logs of random journals, and compares what the audit says with a model of it in Python.

    tools/attack_audits/attack_audits.py [--cases 100000] [--seed 1] [--work FOLDER] [--built]

A case has 1 to 8 sessions and 1 to 4 values, random additions, resets and reports, and then no change of its logs, or
one or two: a receipt left out, doubled, moved, its place, operation, reply or answer changed, or a log told as another
session's. The program is attack_audits.rattle, in which sessions of a store make the journal and the logs; it changes
the logs, and audits them. The model knows the operations alone, and works out each reply and the first fault by itself.

The program is a quick build of the crates' own sources, of which nothing is proved (tools/quick_program); --work keeps
it, and with --built it isn't built again. The exit status is 1 where the two differ anywhere.
"""
import argparse
import collections
import dataclasses
import pathlib
import random
import subprocess
import sys
import tempfile

HERE = pathlib.Path(__file__).resolve().parent
sys.path.insert(0, str(HERE.parent / "quick_program"))
from quick_program import build  # noqa: E402

NAME = "attack_audits"
LIBRARIES = ["profile_rows", "flame_report", "op_book", "log_audit", "live_store", "anyhow"]
NAMES = ["a", "b", "main", "x"]
KINDS = ["total", "folded", "flat", "cum"]
CASES_A_RUN = 5000


@dataclasses.dataclass(frozen=True)
class Receipt:
    """What a session was told: an operation, its reply, and how many changes stood before it."""
    op: tuple
    reply: tuple
    at: int

    def is_change(self):
        return self.op[0] != "ask"

    def key(self):
        return 2 * self.at + 1 if self.is_change() else 2 * self.at


@dataclasses.dataclass
class Log:
    session: int
    receipts: list


@dataclasses.dataclass
class Journal:
    sessions: int
    width: int
    entries: list


# ---- the plain profile

def profile_after(operations, value):
    """The weight of each stack by a value, after operations."""
    weights = collections.Counter()
    for op in operations:
        if op[0] == "reset":
            weights.clear()
        elif op[0] == "add":
            for stack, values in op[1]:
                weights[stack] += values[value]
    return {stack: weight for stack, weight in weights.items() if weight}


def top_list(weights, rank, count):
    """The names of most weight: flat, cumulative, name."""
    totals = collections.defaultdict(lambda: [0, 0])
    for stack, weight in weights.items():
        for name in set(stack):
            totals[name][1] += weight
        if stack:
            totals[stack[-1]][0] += weight
    order = sorted(totals, key=lambda name: (-totals[name][rank], name.encode()))
    return tuple((*totals[name], name) for name in order[:count])


def plain_answer(operations, op):
    """What the plain profile answers to an operation after others."""
    if op[0] != "ask":
        return "placed", sum(earlier[0] != "ask" for earlier in operations)
    _, value, kind = op
    weights = profile_after(operations, value)
    total = sum(weights.values())
    if kind == "total":
        return "total", total
    if kind == "folded":
        return "folded", tuple(sorted(weights.items()))
    rank, count = (0, 2) if kind == "flat" else (1, 3)
    return "top", total, top_list(weights, rank, count)


# ---- the audit's first fault

def second_log(logs):
    seen = set()
    for log in logs:
        if log.session in seen:
            return f"A1 TwoLogs session {log.session}"
        seen.add(log.session)
    return None


def is_known(journal, session, receipt):
    if session >= journal.sessions:
        return False
    if receipt.is_change():
        here = (session, receipt.op, receipt.reply)
        return receipt.at < len(journal.entries) and journal.entries[receipt.at] == here
    return receipt.at <= len(journal.entries) and receipt.op[1] < journal.width


def may_follow(earlier, later):
    return earlier.key() < later.key() or (earlier.key() == later.key() and not later.is_change())


def first_place(logs, is_right):
    """The first receipt, log after log, that isn't right beside the one before it."""
    for log in logs:
        for index, receipt in enumerate(log.receipts):
            if not is_right(log, receipt, log.receipts[index - 1] if index else None):
                return f"session {log.session} index {index}"
    return None


def first_missing(journal, logs):
    received = {receipt.at for log in logs for receipt in log.receipts if receipt.is_change()}
    return next((place for place in range(len(journal.entries)) if place not in received), None)


def expected(journal, logs):
    """What the audit has to say."""
    if fault := second_log(logs):
        return fault
    if place := first_place(logs, lambda log, receipt, _: is_known(journal, log.session, receipt)):
        return f"A2 Stranger {place}"
    if place := first_place(logs, lambda _, receipt, earlier: earlier is None or may_follow(earlier, receipt)):
        return f"A3 Order {place}"
    if (entry := first_missing(journal, logs)) is not None:
        return f"A4 Missing entry {entry}"
    operations = [op for _, op, _ in journal.entries]

    def is_right(_log, receipt, _earlier):
        return receipt.is_change() or receipt.reply == plain_answer(operations[:receipt.at], receipt.op)

    if place := first_place(logs, is_right):
        return f"A5 WrongAnswer {place}"
    return f"run {sum(len(log.receipts) for log in logs)}"


# ---- cases

def random_op(dice, width):
    what = dice.random()
    if what < 0.35:
        return "ask", dice.randrange(width), dice.choice(KINDS)
    if what < 0.45:
        return ("reset",)
    rows = []
    for _ in range(dice.randint(0, 3)):
        stack = tuple(dice.choice(NAMES) for _ in range(dice.randint(0, 3)))
        rows.append((stack, tuple(dice.choice([0, 1, 2, 5]) for _ in range(width))))
    return "add", tuple(rows)


def line_of(session, op):
    """The line for the program that makes an operation."""
    if op[0] == "ask":
        return f"ask {session} {op[1]} {op[2]}"
    rows = op[1] if op[0] == "add" else ()
    words = [op[0], str(session)] + [f"{';'.join(stack)}:{','.join(map(str, values))}" for stack, values in rows]
    return " ".join(words)


def random_history(dice):
    """A journal, the logs of its sessions, and the lines that make both."""
    journal = Journal(dice.randint(1, 8), dice.randint(1, 4), [])
    logs = [Log(session, []) for session in range(journal.sessions)]
    lines = [f"case {journal.sessions} {journal.width}"]
    operations = []
    for _ in range(dice.randint(0, 14)):
        session, op = dice.randrange(journal.sessions), random_op(dice, journal.width)
        reply = plain_answer(operations, op)
        logs[session].receipts.append(Receipt(op, reply, len(journal.entries)))
        if op[0] != "ask":
            journal.entries.append((session, op, reply))
            operations.append(op)
        lines.append(line_of(session, op))
    return journal, logs, lines


def random_receipt(dice, logs):
    """The log and the index of a receipt, where there is one."""
    places = [(log, index) for log in range(len(logs)) for index in range(len(logs[log].receipts))]
    return dice.choice(places) if places else None


def change_number(dice, journal, logs, log, index):
    """Changes a number of a receipt, and gives the line that does so."""
    receipts, number = logs[log].receipts, dice.randint(0, len(journal.entries) + 1)
    if dice.random() < 0.5:
        receipts[index] = dataclasses.replace(receipts[index], at=number)
        return f"at {log} {index} {number}"
    receipts[index] = dataclasses.replace(receipts[index], reply=("placed", number))
    return f"placed {log} {index} {number}"


def change_by_other(dice, logs, log, index):
    """Changes a receipt by another, or copies it elsewhere, and gives the line that does so."""
    receipts = logs[log].receipts
    other, place = random_receipt(dice, logs)
    given = logs[other].receipts[place]
    what = dice.choice(["op", "reply", "copy"])
    if what == "copy":
        receipts.insert(index, given)
    else:
        receipts[index] = dataclasses.replace(receipts[index], **{what: getattr(given, what)})
    return f"{what} {log} {index} {other} {place}"


def change(dice, journal, logs):
    """Changes the logs once, and gives the line that does so."""
    found = random_receipt(dice, logs)
    if found is None or dice.random() < 0.1:
        log, number = dice.randrange(len(logs)), dice.randint(0, journal.sessions)
        logs[log].session = number
        return f"session {log} 0 {number}"
    log, index = found
    receipts, what = logs[log].receipts, dice.random()
    if what < 0.2:
        del receipts[index]
        return f"drop {log} {index} 0"
    if what < 0.4:
        to = dice.randrange(len(receipts))
        receipts.insert(to, receipts.pop(index))
        return f"move {log} {index} {to}"
    if what < 0.7:
        return change_number(dice, journal, logs, log, index)
    return change_by_other(dice, logs, log, index)


def random_case(dice):
    """The lines of a case, and what the audit has to say of it."""
    journal, logs, lines = random_history(dice)
    for _ in range(dice.choice([0, 1, 1, 1, 2])):
        lines.append(change(dice, journal, logs))
    return [*lines, "end"], expected(journal, logs)


def mismatches(program, cases):
    """The cases of which the program says something else than the model."""
    text = "".join(f"{line}\n" for lines, _ in cases for line in lines)
    ran = subprocess.run([program], input=text, capture_output=True, text=True)
    said = ran.stdout.splitlines()
    if ran.returncode or len(said) != len(cases):
        sys.exit(f"{ran.stderr}the program ended with {ran.returncode} behind {len(said)} of {len(cases)} cases")
    return [(lines, wanted, told) for (lines, wanted), told in zip(cases, said) if wanted != told]


def run(options, work):
    program = work / NAME if options.built else build(NAME, {"main": HERE / f"{NAME}.rattle"}, LIBRARIES, work)
    dice, ends, wrong = random.Random(options.seed), collections.Counter(), []
    for start in range(0, options.cases, CASES_A_RUN):
        cases = [random_case(dice) for _ in range(min(CASES_A_RUN, options.cases - start))]
        ends.update(" ".join(wanted.split()[:2]) if wanted[0] == "A" else "a run" for _, wanted in cases)
        wrong += mismatches(program, cases)
    for lines, wanted, told in wrong[:5]:
        print("\n".join(lines), f"should be: {wanted}", f"was: {told}", sep="\n")
    print(", ".join(f"{count} {end}" for end, count in sorted(ends.items())))
    print(f"{options.cases} cases, {len(wrong)} mismatches")
    return 1 if wrong else 0


def main():
    parser = argparse.ArgumentParser(description=__doc__, formatter_class=argparse.RawDescriptionHelpFormatter)
    parser.add_argument("--cases", type=int, default=100_000)
    parser.add_argument("--seed", type=int, default=1)
    parser.add_argument("--work", type=pathlib.Path)
    parser.add_argument("--built", action="store_true")
    options = parser.parse_args()
    if options.work:
        options.work.mkdir(parents=True, exist_ok=True)
        sys.exit(run(options, options.work.resolve()))
    with tempfile.TemporaryDirectory() as work:
        sys.exit(run(options, pathlib.Path(work)))


main()
