#!/usr/bin/env python3
"""Writes what each public call promises, out of the sources: `docs/contracts/CRATE.md`, and `docs/CONTRACTS.md` as
their index.

    python3 tools/contracts.py            writes the files
    python3 tools/contracts.py --check    says which files aren't current, and ends with 1 if any isn't

Of each call that the crate exports stand there its comment, its signature with its clauses, and the names of the edits
that change it; of each type its public fields or its variants, with their comments, and its ghost fields; of each trait
its calls; of each `impl` what it says of a trait. What a crate exports of others stands at the head of its page, and
edits of functions inside at the end.
"""
import pathlib
import re
import sys
import textwrap

from libraries import OF_WORKED_ROWS
from try_planted import Edit

ROOT = pathlib.Path(__file__).resolve().parent.parent
FOLDER = ROOT / "docs/contracts"
INDEX = ROOT / "docs/CONTRACTS.md"
CALL = re.compile(r"^( *)(pub )?(?:pub\([a-z]+\) )?(?:const )?fn (\w+)")
IMPL = re.compile(r"^impl(?:<(?:[^<>]|<[^<>]*>)*>)? (?:(\S+(?:<.*>)?) for )?(.+?)(?: where)? \{$")
TRAIT = re.compile(r"^pub trait (\w+)")
OWN_TRAIT = re.compile(r"^(?:pub\([a-z]+\) )?trait (\w+)", re.MULTILINE)
TYPE = re.compile(r"^pub (struct|enum) (\w+)")
# Constants and names of types.
NAMED = re.compile(r"^pub (?:const|type) (\w+)\b.*;$")
# What a crate's root exports: a module, or names of one.
OPEN_MODULE = re.compile(r"^pub mod (\w+);", re.MULTILINE)
EXPORT = re.compile(r"^pub use (?:crate::)?(\w+)::(?:\{([^}]*)\}|(\w+));", re.MULTILINE)
CLAUSE = re.compile(r"\b(ensures|requires)\b")
PROMISE = re.compile(r"^    (?:pub(?:\([a-z]+\))? )?ghost (?!use )\w+")
# Traits whose `impl` says nothing that a caller reads: what a value is seen as stands in the clauses.
SILENT = ("Model", "Drop", "Eq")


class Item:
    """A call, a type, a trait, or what an `impl` says of one: where it stands, its comment, and its lines without a
    body."""

    def __init__(self, module, owner, name, public, comment, lines):
        self.module = module
        self.owner = owner
        self.name = name
        self.public = public
        self.comment = comment
        self.lines = lines
        self.edits = []

    def title(self):
        return f"{self.owner}::{self.name}" if self.owner else self.name

    def is_call(self):
        return bool(CALL.match(self.lines[0]))


def depth_of(line):
    """By how many braces more a line opens than it closes, text aside."""
    bare = re.sub(r"'[{}]'|\"[^\"]*\"", "", line)
    return bare.count("{") - bare.count("}")


def head_of(lines, start):
    """The lines of a function from its `fn` to its body, which begins with a brace that no clause opens, or to the
    semicolon of one without a body."""
    head, depth = [], 0
    for line in lines[start:]:
        before, depth = depth, depth + depth_of(line)
        if before == 0 and line.strip() in ("{", "{}"):
            return head
        if before == 0 and line.endswith((" {", "{}")) and not CLAUSE.search(line):
            return head + [re.sub(r" ?\{\}?$", "", line)]
        if depth == 0 and line.endswith(";"):
            return head + [line[:-1]]
        head.append(line)
    return head


def comment_above(lines, start):
    """The comment of an item, without the marks."""
    found = []
    for index in range(start - 1, -1, -1):
        text = lines[index].strip()
        if text.startswith("///"):
            found.append(text[3:].removeprefix(" "))
        elif not text.startswith("#["):
            break
    return found[::-1]


def dedented(lines, indent):
    return [line[indent:] if line[:indent].isspace() else line for line in lines]


def promises(lines, start):
    """What an `impl` or a trait says by ghost items, each with its comment and up to its end."""
    found, depth, open_item = [], 1, False
    for index, line in enumerate(lines[start + 1 :], start + 1):
        if depth == 1 and PROMISE.match(line):
            found += [f"    /// {it}" for it in comment_above(lines, index)]
            open_item = True
        if open_item:
            found.append(line)
        depth += depth_of(line)
        if depth == 1 and line.rstrip().endswith((";", ",")):
            open_item = False
        if depth == 0:
            break
    return found


def members(lines, start):
    """The lines of each field or variant of a type, its comment among them."""
    found, member, depth = [], [], 0
    for line in lines[start + 1 : lines.index("}", start)]:
        member.append(line)
        depth += depth_of(line)
        if depth == 0 and line.endswith(",") and not line.lstrip().startswith(("//", "#")):
            found.append(member)
            member = []
    return found


def is_shown(member):
    """Whether a struct shows the field to its users: a public one, or a ghost field."""
    return any(line.startswith("    pub ") or PROMISE.match(line) for line in member)


def derives_above(lines, start):
    """What a type derives, as the source has it."""
    above = start
    while lines[above - 1].startswith("#["):
        above -= 1
    return [line for line in lines[above:start] if line.startswith(("#[derive(", "#[error("))]


def shape_of(lines, start):
    """A type without its private fields."""
    head, derives = lines[start], derives_above(lines, start)
    if not head.endswith(" {"):
        return [*derives, head]
    kept = members(lines, start)
    shown = [it for it in kept if " enum " in head or is_shown(it)]
    if not shown:
        return [*derives, f"{head} /* private fields */ }}"]
    hidden = ["    /* private fields */"] if shown != kept else []
    return [*derives, head, *(line for it in shown for line in it), *hidden, "}"]


def is_public(marked, trait, declared, head):
    """Whether users see a call: one that is marked so, one that a trait declares, or one of an `impl` that says more
    than its trait."""
    return bool(marked) or declared or bool(trait) and any(CLAUSE.search(line) for line in head)


def items_of(path, module, own_traits):
    """The calls of a source file, public or not, its public types and traits, and what its `impl`s say of traits, but
    for those that the crate keeps to itself."""
    lines = path.read_text(encoding="utf-8").split("\n")
    owner, trait, declared, found = "", "", False, []
    for index, line in enumerate(lines):
        comment = comment_above(lines, index)
        if line and not line[0].isspace() and not line.startswith("}"):
            owner, trait, declared = "", "", False
        if head := IMPL.match(line):
            trait = "" if head[1] in own_traits else head[1] or ""
            owner = re.sub(r"<.*", "", head[2])
            said = promises(lines, index)
            if trait and trait not in SILENT and said:
                found.append(Item(module, owner, trait, True, [], [line[:-2]] + said))
        elif head := TRAIT.match(line):
            owner, declared = head[1], True
            found.append(Item(module, "", owner, True, comment, [line[:-2]] + promises(lines, index)))
        elif head := TYPE.match(line):
            found.append(Item(module, "", head[2], True, comment, shape_of(lines, index)))
        elif head := NAMED.match(line):
            found.append(Item(module, "", head[1], True, comment, [line]))
        elif head := CALL.match(line):
            text = head_of(lines, index)
            public = is_public(head[2], trait, declared, text)
            found.append(Item(module, owner, head[3], public, comment, dedented(text, len(head[1]))))
    return found


def add_edits(crate, items):
    """Puts the name of each edit of the crate to the call that it changes."""
    for path in sorted((*crate.glob("must-fail/*.edit"), *crate.glob("planted/*.edit"))):
        edit = Edit(path, crate)
        for item in items:
            if edit.file == f"src/{item.module}.rt" and any(is_function(item, it) for it in edit.functions):
                item.edits.append(path.stem)
                break


def is_function(item, function):
    kind, name = function
    return item.name == name and (not item.owner or kind.startswith(item.owner[0].upper() + item.owner[1:]))


def section(item):
    """What the document says of a call."""
    text = [f"### `{item.title()}`", ""]
    for part in re.sub(r"(?m)^# (\w+)\n\n", r"\1: ", "\n".join(item.comment)).split("\n\n"):
        if part:
            text += [*(wrapped(part) if part.startswith("Errors: ") else part.split("\n")), ""]
    text += ["```", *item.lines, "```", ""]
    if item.edits:
        text += [*wrapped(f"Edits: {quoted(item.edits)}."), ""]
    return text


def wrapped(text, indent=""):
    return textwrap.wrap(text, 120, subsequent_indent=indent, break_long_words=False, break_on_hyphens=False)


def quoted(names):
    return ", ".join(f"`{it}`" for it in names)


def root_of(crate):
    root = crate / "src/lib.rt"
    return root.read_text(encoding="utf-8") if root.is_file() else ""


def exported(crate):
    """The modules that a crate opens, and the names that it exports of others."""
    text = root_of(crate)
    names = {it for _, several, one in EXPORT.findall(text) for it in re.findall(r"\w+", several or one)}
    return set(OPEN_MODULE.findall(text)), names


def handed_on(crate):
    """What the page says of the names that a crate exports of other crates."""
    found = []
    for source, several, one in EXPORT.findall(root_of(crate)):
        if source != crate.name and (ROOT / "crates" / source).is_dir():
            names = [it.strip() for it in (several or one).split(",") if it.strip()]
            found.append(f"{quoted(names)} of [{source}]({source}.md)")
    return [*wrapped(f"Exported too: {'; '.join(found)}."), ""] if found else []


def exports_of(item):
    """The names by one of which a crate exports the item: its type's or its own, and its trait's."""
    is_impl = item.lines[0].startswith("impl")
    return {item.owner or item.name} | ({item.name} if is_impl else set())


def page_of(crate):
    """The page of a crate, empty where nothing is public, and how many public calls and edits it has."""
    modules, names = exported(crate)
    paths = sorted((crate / "src").rglob("*.rt"))
    own_traits = {it for path in paths for it in OWN_TRAIT.findall(path.read_text(encoding="utf-8"))}
    items = []
    for path in paths:
        module = str(path.relative_to(crate / "src"))[:-3]
        items += items_of(path, module, own_traits)
    add_edits(crate, items)
    for item in items:
        item.public &= item.module in modules or bool(names & exports_of(item))
    public = [it for it in items if it.public]
    inside = [it for it in items if not it.public and it.edits]
    text = [f"# {crate.name}", "", f"Made by `tools/contracts.py` out of `crates/{crate.name}/src`.", ""]
    text += handed_on(crate)
    for module in dict.fromkeys(it.module for it in public):
        text += [f"## {module}.rt", ""]
        for item in public:
            if item.module == module:
                text += section(item)
    if inside:
        text += ["## Edits of functions inside", ""]
        text += [line for it in inside for line in wrapped(f"- `{it.title()}`: {quoted(it.edits)}.", "  ")]
        text.append("")
    edits = sum(len(it.edits) for it in items)
    return "\n".join(text) if public else "", sum(it.is_call() for it in public), edits


def pages():
    """All files with their texts."""
    names = re.findall(r"^(\w+):", (ROOT / "crates.txt").read_text(encoding="utf-8"), re.MULTILINE)
    made, rows = {}, []
    for name in (name for name in names if name not in OF_WORKED_ROWS):
        text, calls, edits = page_of(ROOT / "crates" / name)
        if text:
            made[FOLDER / f"{name}.md"] = text
            rows.append(f"| [{name}](contracts/{name}.md) | {calls} | {edits} |")
    made[INDEX] = INDEX_TEXT + "\n".join(rows) + "\n"
    return made


INDEX_TEXT = """# Contracts

`tools/contracts.py` makes these pages from the sources. They have each public type, and each public call with its
comment, its clauses, and the names of its edits: wrong bodies that the prover has to refuse. `OnOk`, `IfOk` and
`OnErr`, `IfErr` say what holds where the call succeeds or fails; `.old` and `.new` are a value before and after the
call, `.now` is what a reference leads to. `f_with` has the clauses of `f` and takes a `Hashing`; the edits of `f`
change its body. [MODEL.md](MODEL.md) explains the definitions that clauses cite, and [PROVED.md](PROVED.md) has what
no clause can say.

| crate | public calls | edits |
|---|---|---|
"""


def main():
    made = pages()
    stale = [path for path, text in made.items() if not path.is_file() or path.read_text(encoding="utf-8") != text]
    left = [path for path in FOLDER.glob("*.md") if path not in made]
    if "--check" in sys.argv[1:]:
        for path in stale + left:
            print(f"not current: {path.relative_to(ROOT)}")
        sys.exit(1 if stale or left else 0)
    FOLDER.mkdir(exist_ok=True)
    for path in stale:
        path.write_text(made[path], encoding="utf-8")
    for path in left:
        path.unlink()


if __name__ == "__main__":
    main()
