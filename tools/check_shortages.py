"""Compares the places that make an out-of-memory fault with those that are known.

    python3 tools/check_shortages.py

A contract can't refuse a body that answers `NoMemory` without need. But a call that is out of memory says so by the
value that it was given: such a fault is made in few places, and elsewhere handed on. This lists each place in the
sources of the crates that makes one, or a fault for lack of a thread or of a place for versions, and compares the list
with `shortages.txt`, which has a reason for each. It ends with 1 where a place is new, or one of the list is gone.

A place isn't listed where it hands on the callee's own by its name: an arm `Other::NoMemory => Own::NoMemory`, or a
`From` of a type that says nothing else. Patterns, types, clauses and worked rows aren't listed.
"""
import collections
import re
import sys

sys.dont_write_bytecode = True
from libraries import OF_WORKED_ROWS, ROOT

KNOWN = ROOT / "tools" / "shortages.txt"
WANT = re.compile(r"\b(?:(?:\w+::)+(?:NoMemory|Place|Start|Version)|NoMemory|AllocError)\b|\bno_memory\(\)")
# What a source has beside code, and code that makes no value. Clauses and declared types end at their brace.
COMMENT = re.compile(r"\"(?:[^\"\\]|\\.)*\"|'(?:[^'\\]|\\.)'|//[^\n]*|#\[[^\n]*\]")
ITEM = re.compile(
    r"\b(?:use (?:(?!NoMemory as |AllocError as )[^;])*|ghost (?:use|\w+ =) [^;]*|ghost \w+: \{[^}]*\});|\bstruct \w+;"
)
CLAUSE = re.compile(r"\b(?:ensures|requires|struct|enum)\b[^{;]*\{")
FROM = re.compile(r"impl(?:<[^\n]*>)? From<(?:NoMemory|AllocError|AllocFailed<T>)> for \w+ \{")
# What stands around a type, and around a pattern or a function's name.
TYPE_BEFORE = re.compile(r"(?:, |<|\w: |for )$")
TYPE_AFTER = re.compile(r"> |>\)|>[,;]?$|>>|\)? -> |\)\s+(?:ensures|\{)", re.MULTILINE)
PATTERN_BEFORE = re.compile(r" \| $|\bfn $")
PATTERN_AFTER = re.compile(r"\)*(?: =>| \| | if )")
# The arm that hands on what it met.
ARM = re.compile(
    r"^\s*(?:Err\()?(?:\w+::)+(NoMemory|OutOfMemory|Place|Start|Version)\)? => (?:[\w:]+\()*$", re.MULTILINE
)
IMPL = re.compile(r"^impl(?:<(?:[^<>\n]|<[^<>\n]*>)*>)? (?:(?:\w+::)*(\w+)(?:<.*>)? for )?(\w+)", re.MULTILINE)
FUNCTION = re.compile(r"^( *)(?:pub(?:\([a-z]+\))? )?(?:const )?fn (\w+)", re.MULTILINE)


def blanked(text):
    """A piece of source as white space, so that places after it stay where they are."""
    return re.sub(r"[^\n]", " ", text)


def closing(text, start):
    """The place after the brace that closes the one before `start`."""
    depth, at = 1, start
    while depth:
        depth += {"{": 1, "}": -1}.get(text[at], 0)
        at += 1
    return at


def code_of(text):
    """A source's code, with all else blank."""
    for pattern in (COMMENT, ITEM):
        text = pattern.sub(lambda found: blanked(found[0]), text)
    for pattern in (CLAUSE, FROM):
        for found in list(pattern.finditer(text)):
            end = closing(text, found.end())
            text = text[: found.start()] + blanked(text[found.start() : end]) + text[end:]
    return text


def is_made(code, found):
    """Whether the code makes the fault here: it is no type and no pattern, and no arm that hands it on."""
    before, after = code[: found.start()], code[found.end() :]
    if PATTERN_BEFORE.search(before) or PATTERN_AFTER.match(after):
        return False
    if TYPE_BEFORE.search(before) and TYPE_AFTER.match(after):
        return False
    arm = ARM.search(before)
    return not (arm and found[0].endswith("NoMemory" if arm[1] == "OutOfMemory" else arm[1]))


def function_at(text, place):
    """The name of the function that a place of a source stands in, with its type where it has one."""
    before = text[:place]
    indent, name = (FUNCTION.findall(before) or [("", "(none)")])[-1]
    return f"{IMPL.findall(before)[-1][1]}::{name}" if indent else name


def places_in(path):
    """Each place of a source that makes such a fault: its file, its function and its line."""
    text = path.read_text()
    code = code_of(text)
    for found in WANT.finditer(code):
        if is_made(code, found):
            line = text[text.rfind("\n", 0, found.start()) + 1 : text.find("\n", found.start())].strip()
            yield f"{path.relative_to(ROOT / 'crates')} {function_at(text, found.start())}: {line}"


def sources():
    """The sources of the crates, but for those of worked rows."""
    for path in sorted((ROOT / "crates").glob("*/src/**/*.rt")):
        if path.relative_to(ROOT / "crates").parts[0] not in OF_WORKED_ROWS:
            yield path


def known_places():
    """The places of the list. The line below a place, which begins with blanks, is its reason."""
    places, reasons = [], 0
    for line in KNOWN.read_text().splitlines():
        if line.startswith(" "):
            reasons += 1
        elif line and not line.startswith("#"):
            places.append(line)
    if reasons != len(places):
        sys.exit(f"{KNOWN}: {len(places)} places and {reasons} reasons")
    return places


def main():
    found = collections.Counter(place for path in sources() for place in places_in(path))
    known = collections.Counter(known_places())
    for place in (found - known).elements():
        print(f"new: {place}")
    for place in (known - found).elements():
        print(f"gone: {place}")
    print(f"{found.total()} places make an out-of-memory fault; {known.total()} are known")
    sys.exit(found != known)


if __name__ == "__main__":
    main()
