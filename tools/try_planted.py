#!/usr/bin/env python3
"""Tries a crate's wrong bodies, those of `must-fail/` and of `planted/`, many in one check.

    python3 tools/try_planted.py [CRATE..]      tries those that weren't seen refused as the sources are now
    python3 tools/try_planted.py --stale        says of which crates that is so, in a second

An edit is a file with a line 'file: src/NAME.rt' and pairs of lines 'old: TEXT' and 'new: TEXT', as rt reads it. The
gate tries those of `must-fail/`, each in a check of its own. Most of such a check is loading. Here a check of a copy of
the crate, over the libraries that `./build` keeps of those below it, has all wrong bodies at once, at most one for each
function; a wrong body is refused where the check says that a goal of its function isn't proved. What isn't refused is
tried again without those that are, and at last alone. What no check refuses is told, and the exit status is 1.

Beside the crate's library stays for which sum of sources each edit was seen refused.
"""
import argparse
import hashlib
import json
import os
import pathlib
import re
import shutil
import subprocess
import sys
import tempfile

sys.dont_write_bytecode = True
from libraries import ROOT, find_kit, is_kept, listed, note_of, over_libraries, read_crates, sums_of

FUNCTION = re.compile(r"^( *)(?:pub(?:\([a-z]+\))? )?(?:const )?fn (\w+)", re.MULTILINE)
# The head of an `impl`: the last word of its trait, if it has one, and its type.
IMPL = re.compile(r"^impl(?:<(?:[^<>\n]|<[^<>\n]*>)*>)? (?:(?:\w+::)*(\w+)(?:<.*>)? for )?(\w+)", re.MULTILINE)
# What a check says of a function, below what it says of the goals that it didn't prove by itself.
VERDICT = re.compile(r"^fn [^:]+::(\S+): (.*)")
OPEN = re.compile(r"^note: src/\S+ (?:it is not proved|`search` found no proof)")
# What a check says of an answer that a function's proof files give.
ANSWER = re.compile(r"^\./proofs/(\S+)/\w+\.antt:\S+ error: (.*)")
# What it says where a wrong body has another name than the answer takes, which shows nothing: a name of a step, and
# that of the goal itself.
NO_STEP = re.compile(r"has no field|there is no|\(nearest:")
NO_GOAL = re.compile(r"Goals` has no")


class Edit:
    """One wrong body, and the place that it changes."""

    def __init__(self, path, crate):
        self.path, self.name, self.file, self.pairs = path, path.stem, "", []
        old = None
        for line in path.read_text().split("\n"):
            if line.startswith("file: "):
                self.file = line[len("file: ") :].strip()
            elif line.startswith("old: "):
                old = line[len("old: ") :]
            elif line.startswith("new:"):
                self.pairs.append((old, line[len("new:") :].removeprefix(" ")))
        text = (crate / self.file).read_text()
        for old, _ in self.pairs:
            if text.count(old) != 1:
                sys.exit(f"{path}: its old text stands in {self.file} {text.count(old)} times: {old}")
        self.functions = {function_at(text, text.index(old)) for old, _ in self.pairs}
        self.sum = hashlib.sha256(path.read_bytes()).hexdigest()

    def applied(self, text):
        for old, new in self.pairs:
            text = text.replace(old, new)
        return text


def function_at(text, place):
    """The `impl` and the name of the function that a place of a source stands in, the last one that begins before it.
    A check names an `impl` by its type, with a capital, and its trait."""
    before = text[: text.find("\n", place)]
    found = FUNCTION.findall(before)
    if not found:
        return "", ""
    indent, name = found[-1]
    if not indent:
        return "", name
    trait, kind = IMPL.findall(before)[-1]
    return kind[0].upper() + kind[1:] + trait, name


def stands_in(parts, module, function):
    """Whether the parts of a path name the function of this module, or what stands in it."""
    kind, name = function
    inside = parts[len(module) :]
    if parts[: len(module)] != module or not inside:
        return False
    # (after the trait's name may stand what it is of, as in `FromAllocError`)
    return inside[0] == name if not kind else inside[0].startswith(kind) and inside[1:2] == [name]


def is_in(path, file, function):
    """Whether what a check names by this path is the function of the file, or stands in it. An `impl` may stand in
    another module than its type, and the check names its functions by the type."""
    parts = [it for it in path.split("::") if it != "fn"]
    module = [] if file == "src/lib.rt" else file.removeprefix("src/").removesuffix(".rt").split("/")
    homes = [parts[:depth] for depth in range(len(parts))] if function[0] else [module]
    return any(stands_in(parts, home, function) for home in homes)


def unproved(output):
    """The paths of the functions of which the check didn't prove a goal: not for a callee's sake, since a goal stands
    on callees' contracts alone, and not for a name that an answer misses. Where an answer misses its goal, one of the
    open goals may be that under its new name."""
    wrong, renamed, found, left_open = set(), [], [], 0
    for line in output.split("\n"):
        if answer := ANSWER.match(line):
            path, said = answer[1].replace("/", "::"), answer[2]
            if NO_GOAL.search(said):
                renamed.append(path)
            elif not NO_STEP.search(said):
                wrong.add(path)
        elif OPEN.match(line):
            left_open += 1
        elif verdict := VERDICT.match(line):
            path = verdict[1]
            if not verdict[2].startswith("proved") and (path in wrong or left_open > renamed.count(path)):
                found.append(path)
            left_open = 0
    return found


def refused(edit, output):
    """Whether the check says that a function of the edit isn't proved, by a goal of its own. An edit of no function was
    alone in the check, and any function will do."""
    paths = unproved(output)
    if ("", "") in edit.functions:
        return bool(paths)
    return any(is_in(path, edit.file, it) for path in paths for it in edit.functions)


def checked(kit, crate, room, edits):
    """What a check of the copy in the room says with these edits."""
    folder, texts = room / "crates" / crate.name, {}
    shutil.rmtree(folder / "src")
    shutil.copytree(crate.folder() / "src", folder / "src")
    for edit in edits:
        texts[edit.file] = edit.applied(texts.get(edit.file) or (crate.folder() / edit.file).read_text())
    for file, text in texts.items():
        (folder / file).write_text(text)
    words = [*over_libraries(kit, crate, "check"), "--incremental", room / "kept", "--jobs", "2"]
    both = {"stdout": subprocess.PIPE, "stderr": subprocess.STDOUT}
    return subprocess.run(words, cwd=folder, text=True, errors="replace", **both).stdout


def apart(edits):
    """The first edits for each function that any changes, or one that changes none."""
    outside = [it for it in edits if ("", "") in it.functions]
    if outside:
        return outside[:1]
    chosen, functions = [], set()
    for edit in edits:
        own = {(edit.file, it) for it in edit.functions}
        if not own & functions:
            chosen.append(edit)
            functions |= own
    return chosen


def edits_of(crate):
    """The crate's edits."""
    files = (it for part in ("must-fail", "planted") for it in sorted((crate.folder() / part).glob("*.edit")))
    return [Edit(it, crate.folder()) for it in files]


class Seen:
    """Which of a crate's edits were seen refused, as the sources are now."""

    def __init__(self, crate, sum):
        self.note, self.sum = note_of(crate.name, "refused"), sum
        kept = json.loads(self.note.read_text()) if self.note.is_file() else {}
        self.edits = set(kept.get("edits", [])) if kept.get("sum") == sum else set()

    def add(self, edits):
        self.edits |= {it.sum for it in edits}
        self.note.parent.mkdir(parents=True, exist_ok=True)
        self.note.write_text(json.dumps({"sum": self.sum, "edits": sorted(self.edits)}))


def try_crate(kit, crate, sum, verbose):
    """Tries the crate's edits that weren't seen refused, and returns those that no check refuses."""
    edits, seen = edits_of(crate), Seen(crate, sum)
    left, checks, missed = [it for it in edits if it.sum not in seen.edits], 0, []
    with tempfile.TemporaryDirectory() as name:
        room = pathlib.Path(name)
        left_out = shutil.ignore_patterns("out", "must-fail", "planted")
        shutil.copytree(crate.folder(), room / "crates" / crate.name, ignore=left_out)
        many = True
        while left:
            chosen = apart(left) if many else left[:1]
            output = checked(kit, crate, room, chosen)
            checks += 1
            if verbose:
                print(output)
            shown = [it for it in chosen if refused(it, output)]
            seen.add(shown)
            if len(chosen) == 1 and not shown:
                missed += chosen
            left = [it for it in left if it not in shown and it not in missed]
            # (where many show nothing, one may keep the others from being checked)
            many = bool(shown)
    refused_ones = len(edits) - len(missed)
    print(f"{crate.name}: {refused_ones} of {len(edits)} wrong bodies refused, in {checks} checks", flush=True)
    for edit in missed:
        print(f"{crate.name}: NOT REFUSED: {edit.path.relative_to(ROOT)}", flush=True)
    return missed


def is_stale(crate, sum):
    """Whether some edit of the crate wasn't seen refused as the sources are now. Tells how many."""
    edits, seen = edits_of(crate), Seen(crate, sum)
    unseen = [it for it in edits if it.sum not in seen.edits]
    if unseen:
        print(f"{crate.name}: {len(unseen)} of {len(edits)} wrong bodies weren't seen refused as the sources are now")
    return bool(unseen)


def main():
    parser = argparse.ArgumentParser(description=__doc__.split("\n")[0])
    parser.add_argument("crates", nargs="*", metavar="CRATE")
    parser.add_argument("--stale", action="store_true", help="only say which crates have edits to be tried")
    parser.add_argument("--verbose", action="store_true", help="print what each check says")
    words = parser.parse_args()
    kit, all_crates = find_kit(), read_crates(words.crates or listed())
    sums = sums_of(all_crates, kit)
    chosen = [it for it in all_crates if not words.crates or it.name in words.crates]
    if words.stale:
        sys.exit(1 if any([is_stale(it, sums[it.name]) for it in chosen]) else 0)
    below = {name for it in chosen for name in it.below}
    unkept = [it.name for it in all_crates if it.name in below and not is_kept(it, sums)]
    if unkept:
        print(f"first: ./build {' '.join(unkept)}", flush=True)
        subprocess.run([ROOT / "build", *unkept], check=True)
    missed = [edit for it in chosen for edit in try_crate(kit, it, sums[it.name], words.verbose)]
    sys.exit(1 if missed else 0)


if __name__ == "__main__":
    main()
