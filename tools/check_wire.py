#!/usr/bin/env python3
"""Compares pprof_wire with the official parser, `protoc --decode_raw` (Debian: protobuf-compiler).

It writes a few hundred byte lists into a throw-away program over pprof_wire, which prints the fields of each in
the form of --decode_raw, runs that program by `rt try`, and compares each list's text with what protoc prints.
Lists on which the two are known to differ are printed side by side and not compared: docs/DECISIONS.md says why.

Run it at the top of the repository: python3 tools/check_wire.py. It is no part of the gate.
"""
import pathlib
import random
import shutil
import subprocess
import sys
import tempfile

SEED = 20
KNOWN_DIFFERENCES = [
    ("a group, which is empty", "0b0c"),
    ("a group with a field in it", "0b10010c"),
    ("a tenth byte of 2", "08ffffffffffffffffff02"),
    ("a tenth byte of 127", "08ffffffffffffffffff7f"),
    ("a tag of six bytes", "88808080800001"),
    ("a tag of 33 bits", "888080801001"),
    ("a length of six bytes", "0a818080808000" + "7e"),
]
MAIN = """#![tactic(auto)]
use pprof_wire::{Fields, Value};
use std::io;

fn show(rt: &impl Print, bytes: &[u8]) -> io::Result<()> {
    let mut fields = Fields::new(bytes);
    while let Some(read) = fields.next_field() {
        match read {
            Ok(field) => {
                let number = field.number;
                match field.value {
                    Value::Varint(value) => println!(rt; "{number}: {value}")?,
                    Value::Fixed64(value) => println!(rt; "{number}: 0x{value:016x}")?,
                    Value::Fixed32(value) => println!(rt; "{number}: 0x{value:08x}")?,
                    Value::Bytes(content) => match str::from_utf8(content) {
                        Ok(text) => println!(rt; "{number}: \\"{text}\\"")?,
                        Err(_) => println!(rt; "{number}: bytes")?,
                    },
                }
            }
            Err(fault) => {
                println!(rt; "fault {fault}")?;
                break;
            }
        }
    }
    println!(rt; "--")
}

fn main(rt: HostRuntime) -> io::Result<()> {
%s
    Ok(())
}
"""


def varint(number, longer=0):
    groups = []
    while number >= 128:
        groups.append(number % 128 + 128)
        number //= 128
    groups.append(number)
    for _ in range(longer):
        groups[-1] += 128
        groups.append(0)
    return bytes(groups)


def field(draw):
    number = draw.choice([1, 2, 15, 16, 2047, 2048, 2**29 - 1])
    kind = draw.choice([0, 1, 2, 5])
    tag = varint(number * 8 + kind, draw.choice([0, 0, 0, 1]) if number < 16 else 0)
    if kind == 0:
        size = draw.choice([1, 7, 8, 14, 32, 63, 64])
        value = draw.randrange(2**size)
        return tag + varint(value, draw.choice([0, 0, 1]) if size < 60 else 0)
    if kind == 1:
        return tag + draw.randbytes(8)
    if kind == 5:
        return tag + draw.randbytes(4)
    # 7e is no field, so protoc prints the content as text
    content = b"~" * draw.choice([0, 1, 2, 127, 128, 200])
    return tag + varint(len(content), draw.choice([0, 0, 1])) + content


def lists():
    draw = random.Random(SEED)
    rows = [b"", b"\x00", b"\x00\x00", b"\x06", b"\x0e", b"\x0f\x01", b"\x0e\x80", b"\x80\x80\x80\x80\x10\x01"]
    rows.append(b"\x0a" + b"\xff" * 9 + b"\x01")
    for _ in range(150):
        whole = b"".join(field(draw) for _ in range(draw.randrange(1, 4)))
        rows.append(whole)
        rows.append(whole[: draw.randrange(len(whole))])
    return rows


def by_protoc(row):
    done = subprocess.run(["protoc", "--decode_raw"], input=row, capture_output=True)
    return done.stdout.decode() if done.returncode == 0 else "fault"


def by_crate(rows):
    top = pathlib.Path(__file__).resolve().parent.parent
    with tempfile.TemporaryDirectory() as folder:
        root = pathlib.Path(folder)
        ignored = shutil.ignore_patterns("out")
        for crate in ["basics", "pprof_wire"]:
            shutil.copytree(top / "crates" / crate, root / "crates" / crate, ignore=ignored)
        (root / "crates/wire_dump/src").mkdir(parents=True)
        (root / "crates.txt").write_text("basics: thiserror\npprof_wire: basics thiserror\nwire_dump: pprof_wire\n")
        calls = "\n".join("    show(&rt, &[%s])?;" % ", ".join(map(str, row)) for row in rows)
        (root / "crates/wire_dump/src/main.rt").write_text(MAIN % calls)
        subprocess.run(["git", "init", "-q", str(root)], check=True)
        done = subprocess.run(["rt", "try"], cwd=root / "crates/wire_dump", capture_output=True, text=True)
    texts = done.stdout.split("--\n")
    if len(texts) != len(rows) + 1:
        sys.exit("rt try gave no answer:\n" + done.stdout[-2000:] + done.stderr[-2000:])
    return texts[:-1]


def main():
    rows = lists()
    named = [(name, bytes.fromhex(text)) for name, text in KNOWN_DIFFERENCES]
    texts = by_crate(rows + [row for _, row in named])
    wrong = 0
    for row, text in zip(rows, texts):
        ours = "fault" if "fault" in text else text
        theirs = by_protoc(row)
        if ours != theirs:
            wrong += 1
            print("DIFFERS", row.hex(), "ours:", text.split("\n"), "protoc:", theirs.split("\n"))
    for (name, row), text in zip(named, texts[len(rows):]):
        print("known:", name, row.hex(), "ours:", text.split("\n"), "protoc:", by_protoc(row).split("\n"))
    print(f"{len(rows) - wrong} of {len(rows)} byte lists agree")
    return 1 if wrong else 0


if __name__ == "__main__":
    sys.exit(main())
