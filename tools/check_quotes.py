#!/usr/bin/env python3
"""Says which Rust that docs/LIBRARY.md quotes stands in no source: each quoted block has to stand in one, line by line.

    tools/check_quotes.py

Indentation doesn't count. The exit status is 1 where a block stands nowhere.
"""
import pathlib
import re
import sys

TOP = pathlib.Path(__file__).resolve().parent.parent


def stripped(text):
    """A text's lines without their indentation."""
    return "\n".join(line.strip() for line in text.strip().splitlines())


def quotes(file):
    """The blocks of Rust that a page quotes."""
    return re.findall(r"^```rust\n(.*?)^```", file.read_text(encoding="utf-8"), re.MULTILINE | re.DOTALL)


def main():
    sources = [stripped(file.read_text(encoding="utf-8")) for file in TOP.glob("crates/*/src/**/*.rt")]
    blocks = quotes(TOP / "docs/LIBRARY.md")
    missing = [block for block in blocks if not any(stripped(block) in source for source in sources)]
    for block in missing:
        print(f"stands in no source:\n{block}")
    print(f"{len(blocks)} quotes, {len(missing)} that stand nowhere")
    sys.exit(bool(missing) or not blocks)


main()
