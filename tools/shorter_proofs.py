#!/usr/bin/env python3
"""shorter_proofs.py CRATE [JOBS]: tries proofs of a crate that take three lines or more as one call of a tactic each.

An equation of an answer or of a lemma, also of one in a module, becomes a call of `grind` or `search` over the lemmas
that its term cites and its own calls of the lemma, where that is shorter; what stands after its `where` goes too. The
crate is checked over the libraries that `./build` keeps of those below it, and what the prover refuses is put back,
until nothing is refused, and then the next form is tried; imports that nothing uses any more are removed at last. It
changes the files of crates/CRATE/proofs, and says how many lines are gone, once the crate is proved. Nothing else may
work in the crate meanwhile.
"""
import pathlib
import re
import subprocess
import sys
from dataclasses import dataclass

sys.dont_write_bytecode = True
from libraries import ROOT, find_kit, over_libraries, read_crates

WIDTH = 120
LEAST = 3
# The forms of a call, each a tactic and what its list begins with, and where these names are from.
FORMS = [("grind", ("arith", "common_steps")), ("grind", ("arith",)), ("search", ("rules",))]
HOMES = {
    "arith": "Rattle.std.proofs.Common",
    "rules": "Rattle.std.proofs.Common",
    "common_steps": "Rattle.std.proofs.lemmas.Grind",
}
IMPORT = re.compile(r"^use ([\w.\-]+)\.\{([^}]*)\}", re.M)
SIGNATURE = re.compile(r"^ *(?:pub )?([^\s:]+) : ", re.M)
EQUATION = re.compile(r"^( *[^\s:=]+)((?: [^=:→]*)?) =(?: |$)")
REFUSED = re.compile(r"(?:^|: )\./(proofs/\S+?\.antt):(\d+):\d+: error: ", re.M)
ARGUMENT = re.compile(r"[A-Za-z_][\w\-'.]*|\d+|\[\]")
BINDER = re.compile(r"λ ([^.]*)\.|let ([^=:]*)[=:]|(?<!\|)\| ([^↦|]*)↦")
WORD = re.compile(r"[A-Za-z_][\w\-']*")
KEYWORDS = {"in", "then", "where", "let", "rw", "at"}


@dataclass
class Try:
    """An equation whose term was replaced: its file, its old lines, and its new ones."""

    file: pathlib.Path
    old: list
    new: list


def imports_of(text):
    """The names that a file imports, each with the module that it is from."""
    return {name.strip(): module for module, names in IMPORT.findall(text) for name in names.split(",")}


def is_lemma(name, module):
    """Whether an imported name may be that of a lemma: a lemma's name has a dash or is from a module of proofs."""
    if "◌" in name or "-" in name:
        return "◌" not in name
    return name[:1].islower() and ".proofs." in module and not module.endswith("std.proofs.Common")


def end_of_group(text, start):
    """Where the parenthesis or brace that opens at start is closed."""
    depth = 0
    for at in range(start, len(text)):
        depth += (text[at] in "({") - (text[at] in ")}")
        if depth == 0:
            return at + 1
    return len(text)


def argument_at(text, start):
    """The end of the argument that begins at start, with its projections; start itself where none does."""
    if text[start : start + 1] in ("(", "{"):
        end = end_of_group(text, start)
        return end + re.match(r"(\.[\w\-]+)*", text[end:]).end()
    found = ARGUMENT.match(text, start)
    return found.end() if found and found.group() not in KEYWORDS else start


def bound_in(term):
    """The names that a term binds: by a λ, a let or a pattern."""
    return {word for parts in BINDER.findall(term) for part in parts for word in WORD.findall(part)}


def calls_of(name, term):
    """The calls of a lemma in a term, each with its arguments up to the first that the term itself binds."""
    calls, bound = [], bound_in(term)
    for found in re.finditer(rf"(?<![\w\-.]){re.escape(name)}(?![\w\-])", term):
        end = found.end()
        while end < len(term) and term[end] == " ":
            after = argument_at(term, end + 1)
            if after == end + 1 or not bound.isdisjoint(WORD.findall(term[end + 1 : after])):
                break
            end = after
        call = term[found.start() : end]
        if call != name and call not in calls:
            calls.append(call)
    return calls


def laid_out(head, tactic, facts):
    """The equation of a tactic's call, as the formatter lays it out."""
    line = f"{head} = {tactic} ({', '.join(facts)})"
    if len(line) <= WIDTH:
        return [line]
    indent = " " * (len(head) - len(head.lstrip()) + 4)
    if len(line) - len(head) + len(indent) - 2 <= WIDTH:
        return [f"{head} =", f"{indent}{tactic} ({', '.join(facts)})"]
    return [f"{head} =", f"{indent}{tactic} (", *(f"{indent}  {fact}," for fact in facts), f"{indent})"]


def shorter(name, head, term, imports, earlier, form):
    """The equation as one call of a tactic over what its term cites."""
    words = set(re.findall(r"[^\s(){}\[\],;.]+", term))
    cited = [lemma for lemma, module in imports.items() if lemma in words and is_lemma(lemma, module)]
    cited += [lemma for lemma in earlier if lemma in words]
    tactic, begin = form
    return laid_out(head, tactic, [*begin, *(x for x in cited if x not in begin), *calls_of(name, term)])


def with_imports(text, names):
    """The text of a file in which these names are imported."""
    for name in names:
        if name in imports_of(text):
            continue
        home = HOMES[name]
        line = f"use {home}.{{"
        if line in text:
            text = text.replace(line, f"{line}{name}, ", 1)
        else:
            text = re.sub(r"^use ", f"{line}{name}}}\nuse ", text, count=1, flags=re.M)
    return text


def end_of_equation(lines, start):
    """The line after the equation that begins at a line: its others are further in, or close what it opened. Among
    those after its `where` may be empty lines."""
    indent, end = depth_of(lines[start]), start + 1
    while end < len(lines) and (depth_of(lines[end]) > indent or lines[end].strip()[:1] in (")", "]", "}")):
        end += 1
        if end + 1 < len(lines) and not lines[end] and any(line.strip() == "where" for line in lines[start:end]):
            end += depth_of(lines[end + 1]) > indent
    return end


def depth_of(line):
    """How far in a line begins; an empty one ends every equation."""
    return len(line) - len(line.lstrip()) if line else -1


def try_file(file, form):
    """Replaces the equations of a file that are long enough, and returns the tries."""
    text = file.read_text(encoding="utf-8")
    lines, imports = text.split("\n"), imports_of(text)
    names, tries, kept, at = SIGNATURE.findall(text), [], [], 0
    while at < len(lines):
        end, found = end_of_equation(lines, at), EQUATION.match(lines[at])
        old = lines[at:end]
        if found and found[1].strip() in names and len(old) >= LEAST and "{" not in found[2]:
            name, head = found[1].strip(), found[1] + found[2]
            term = re.sub(r"\s+", " ", "\n".join(old)[len(head) + 2 :])
            new = shorter(name, head, term, imports, names[: names.index(name)], form)
            if len(new) < len(old):
                tries.append(Try(file, old, new))
                old = new
        if not found:
            end, old = at + 1, lines[at : at + 1]
        kept += old
        at = end
    if tries:
        file.write_text(with_imports("\n".join(kept), form[1]), encoding="utf-8")
    return tries


def check(crate, *words):
    """Checks the crate, from what an earlier check of this kind left."""
    kept = crate.folder() / "out" / "shorter"
    kept.mkdir(parents=True, exist_ok=True)
    words = [*over_libraries(find_kit(), crate, "check"), "--incremental", kept, *words]
    return subprocess.run(words, cwd=crate.folder(), stdout=subprocess.PIPE, stderr=subprocess.STDOUT, text=True)


def refused_lines(crate, jobs):
    """Checks the crate, and returns the lines that the prover refuses, by file."""
    said = check(crate, "--jobs", jobs, "--allow-holes").stdout
    refused = {}
    for file, line in REFUSED.findall(said):
        refused.setdefault(crate.folder() / file, set()).add(int(line))
    return refused


def lines_at(one):
    """The lines of its file at which a try stands."""
    text = one.file.read_text(encoding="utf-8")
    first = text[: text.find("\n".join(["", *one.new, ""]))].count("\n") + 2
    return range(first, first + len(one.new))


def put_back(tries, refused):
    """Puts the old lines of refused tries in their places, and returns the tries that are left and those put back.
    Where a file is refused at no try, all of its tries go."""
    back = [one for one in tries if not refused.get(one.file, set()).isdisjoint(lines_at(one))]
    back = back or [one for one in tries if one.file in refused]
    for one in back:
        text = one.file.read_text(encoding="utf-8")
        changed = text.replace("\n".join(["", *one.new, ""]), "\n".join(["", *one.old, ""]), 1)
        one.file.write_text(changed, encoding="utf-8")
    return [one for one in tries if one not in back], back


def lines_of(crate):
    return sum(file.read_text(encoding="utf-8").count("\n") for file in crate.sources("proofs"))


def main():
    crate = read_crates([sys.argv[1]])[-1]
    jobs = sys.argv[2] if len(sys.argv) > 2 else "1"
    before = lines_of(crate)
    for form in FORMS:
        files = crate.sources("proofs")
        tries = [one for file in files for one in try_file(file, form)]
        count, back = len(tries), tries
        while back:
            tries, back = put_back(tries, refused_lines(crate, jobs))
        print(f"{form[0]} {form[1]}: {len(tries)} of {count} equations are one call", flush=True)
    if check(crate, "--jobs", jobs, "--fix-imports").returncode:
        sys.exit(f"shorter_proofs: {crate.name} isn't proved: put its proofs back")
    print(f"{before - lines_of(crate)} of {before} lines are gone")


if __name__ == "__main__":
    main()
