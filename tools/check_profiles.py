#!/usr/bin/env python3
"""Compares pprof_profile with an independent reader and writer of profiles, on many byte lists.

The reader below is written from profile.proto (google/pprof) and the Protocol Buffers encoding page, with the choices
of docs/DECISIONS.md, and knows nothing of the crate. For each byte list the crate's answer is compared with its own:
the canonical bytes of the profile, or the text of the first fault. The lists are the vectors of the worked rows,
every proper prefix of each, each of their bytes changed to every other value, ids, lengths and indices at their limits,
a real profile with bytes changed here and there, random splices of fields, and fields that stand in another message.

Run it at the top of the repository: python3 tools/check_profiles.py. It is no part of the gate.
"""
import pathlib
import random
import sys

from profile_program import answers

SEED = 22
SPLICES = 60000
MOVES = 30000
CHANGES_OF_REAL = 10000
TOP = pathlib.Path(__file__).resolve().parent.parent

# For each message its fields by number: the name, and the kind. `*` marks what repeats.
LABEL = {1: ("key", "int"), 2: ("str", "int"), 3: ("num", "int"), 4: ("num_unit", "int")}
LINE = {1: ("function_id", "uint"), 2: ("line", "int")}
VALUE_TYPE = {1: ("type", "int"), 2: ("unit", "int")}
SAMPLE = {1: ("location_id", "uint*"), 2: ("value", "int*"), 3: ("label", LABEL)}
MAPPING = {
    1: ("id", "uint"), 2: ("memory_start", "uint"), 3: ("memory_limit", "uint"), 4: ("file_offset", "uint"),
    5: ("filename", "int"), 6: ("build_id", "int"), 7: ("has_functions", "bool"), 8: ("has_filenames", "bool"),
    9: ("has_line_numbers", "bool"), 10: ("has_inline_frames", "bool"),
}
LOCATION = {
    1: ("id", "uint"), 2: ("mapping_id", "uint"), 3: ("address", "uint"), 4: ("line", LINE), 5: ("is_folded", "bool"),
}
FUNCTION = {
    1: ("id", "uint"), 2: ("name", "int"), 3: ("system_name", "int"), 4: ("filename", "int"), 5: ("start_line", "int"),
}
PROFILE = {
    1: ("sample_type", VALUE_TYPE), 2: ("sample", SAMPLE), 3: ("mapping", MAPPING), 4: ("location", LOCATION),
    5: ("function", FUNCTION), 6: ("string_table", "text*"), 7: ("drop_frames", "int"), 8: ("keep_frames", "int"),
    9: ("time_nanos", "int"), 10: ("duration_nanos", "int"), 11: ("period_type", ("one", VALUE_TYPE)),
    12: ("period", "int"), 13: ("comment", "int*"), 14: ("default_sample_type", "int"),
}
SCALARS = ("int", "uint", "bool")


class Fault(Exception):
    pass


def varint_at(data, at):
    number = 0
    for count in range(10):
        if at + count >= len(data):
            raise Fault("P2 Wire W1 Truncated")
        byte = data[at + count]
        if count == 9 and byte > 1:
            raise Fault("P2 Wire W2 LongVarint")
        number |= (byte & 127) << (7 * count)
        if byte < 128:
            return number, at + count + 1
    raise AssertionError


def field_at(data, at):
    tag, at = varint_at(data, at)
    number, wire = tag >> 3, tag & 7
    if not 1 <= number < 1 << 29:
        raise Fault("P2 Wire W3 FieldNumber")
    if wire in (3, 4):
        raise Fault("P2 Wire W4 Group")
    if wire in (6, 7):
        raise Fault("P2 Wire W5 WireType")
    if wire == 0:
        value, at = varint_at(data, at)
        return number, wire, value, at
    size = {1: 8, 5: 4}.get(wire)
    if size is None:
        size, at = varint_at(data, at)
    if size > len(data) - at:
        raise Fault("P2 Wire W1 Truncated")
    return number, wire, data[at : at + size], at + size


def empty(table):
    made = {}
    for name, kind in table.values():
        if kind in SCALARS:
            made[name] = 0
        elif isinstance(kind, tuple):
            made[name] = empty(kind[1])
        else:
            made[name] = []
    return made


def scalar(kind, number):
    if kind == "bool":
        return int(number != 0)
    return number - (1 << 64) if kind == "int" and number >> 63 else number


def take(message, name, kind, wire, value):
    """What one field does to a message."""
    if kind in SCALARS:
        expect(wire, [0])
        message[name] = scalar(kind, value)
    elif kind == "text*":
        expect(wire, [2])
        try:
            bytes(value).decode("utf-8")
        except UnicodeDecodeError:
            raise Fault("P3 NotUtf8")
        message[name].append(bytes(value))
    elif isinstance(kind, str):
        expect(wire, [0, 2])
        take_numbers(message[name], kind[:-1], wire, value)
    elif isinstance(kind, tuple):
        expect(wire, [2])
        read(kind[1], message[name], value)
    else:
        expect(wire, [2])
        made = empty(kind)
        read(kind, made, value)
        message[name].append(made)


def expect(wire, wanted):
    if wire not in wanted:
        raise Fault("P2 Wire W5 WireType")


def take_numbers(items, kind, wire, value):
    if wire == 0:
        items.append(scalar(kind, value))
        return
    at = 0
    while at < len(value):
        number, at = varint_at(value, at)
        items.append(scalar(kind, number))


def read(table, message, data):
    at = 0
    while at < len(data):
        number, wire, value, at = field_at(data, at)
        if number in table:
            take(message, *table[number], wire, value)


def indices(draft):
    for kind in draft["sample_type"] + [draft["period_type"]]:
        yield from (kind["type"], kind["unit"])
    for sample in draft["sample"]:
        for label in sample["label"]:
            yield from (label["key"], label["str"], label["num_unit"])
    for mapping in draft["mapping"]:
        yield from (mapping["filename"], mapping["build_id"])
    for function in draft["function"]:
        yield from (function["name"], function["system_name"], function["filename"])
    yield from (draft["drop_frames"], draft["keep_frames"], draft["default_sample_type"])
    yield from draft["comment"]


def ids(draft, name):
    return [item["id"] for item in draft[name]]


def validate(draft):
    strings = draft["string_table"]
    tables = [ids(draft, name) for name in ("mapping", "location", "function")]
    mappings, locations, functions = map(set, tables)
    rules = [
        ("P4 NoStrings", lambda: strings),
        ("P5 FirstString", lambda: strings[0] == b""),
        ("P6 StringIndex", lambda: all(0 <= index < len(strings) for index in indices(draft))),
        ("P7 ZeroId", lambda: all(0 not in table for table in tables)),
        ("P8 DoubleId", lambda: all(len(set(table)) == len(table) for table in tables)),
        ("P9 NoLocation", lambda: all(locations.issuperset(sample["location_id"]) for sample in draft["sample"])),
        ("P10 NoMapping", lambda: all(item["mapping_id"] in mappings | {0} for item in draft["location"])),
        ("P11 NoFunction", lambda: all(
            line["function_id"] in functions | {0} for item in draft["location"] for line in item["line"])),
        ("P12 ValueCount", lambda: all(
            len(sample["value"]) == len(draft["sample_type"]) for sample in draft["sample"])),
    ]
    for fault, holds in rules:
        if not holds():
            raise Fault(fault)


def varint(number):
    number &= (1 << 64) - 1
    groups = bytearray()
    while number > 127:
        groups.append(number & 127 | 128)
        number >>= 7
    groups.append(number)
    return bytes(groups)


def content_field(number, content):
    return varint(number << 3 | 2) + varint(len(content)) + content


def written(table, message):
    """The canonical bytes."""
    out = b""
    for number, (name, kind) in sorted(table.items()):
        value = message[name]
        if kind in SCALARS:
            out += varint(number << 3) + varint(value) if value else b""
        elif kind == "text*":
            out += b"".join(content_field(number, text) for text in value)
        elif isinstance(kind, str):
            content = b"".join(map(varint, value))
            out += content_field(number, content) if content else b""
        elif isinstance(kind, tuple):
            content = written(kind[1], value)
            out += content_field(number, content) if content else b""
        else:
            out += b"".join(content_field(number, written(kind, item)) for item in value)
    return out


def own_answer(data):
    try:
        if data[:2] == b"\x1f\x8b":
            raise Fault("P1 Gzip")
        draft = empty(PROFILE)
        read(PROFILE, draft, data)
        validate(draft)
        return written(PROFILE, draft)
    except Fault as fault:
        return str(fault)


def vectors():
    """The bytes that the scripts of worked rows give a name."""
    named = {}
    for line in (TOP / "crates/worked_rows/data/vectors.rows").read_text().splitlines():
        word, _, rest = line.partition(" ")
        if word == "let":
            name = rest
            named[name] = b""
        elif word == ">hex":
            named[name] += bytes.fromhex(rest)
        elif word == ">of":
            named[name] += named[rest]
    if not named:
        raise SystemExit("the scripts name no bytes")
    yield from named.values()


def limits(base):
    """A vector with a field after it whose number, length or index is at a limit."""
    numbers = [0, 1, 2, 3, 4, 127, 128, 2**31 - 1, 2**31, 2**32 - 1, 2**32, 2**63 - 1, 2**63, 2**64 - 2, 2**64 - 1]
    for field, (_, kind) in PROFILE.items():
        for number in numbers:
            yield base + varint(field << 3) + varint(number)
            yield base + varint(field << 3 | 2) + varint(number)
            yield base + content_field(field, varint(number))
            table = kind[1] if isinstance(kind, tuple) else kind
            if isinstance(table, dict):
                for inner in table:
                    yield base + content_field(field, varint(inner << 3) + varint(number))
                    yield base + content_field(field, content_field(inner, varint(number)))
                    yield base + content_field(field, varint(inner << 3 | 2) + varint(number))
    for tag in [2**32, 2**32 + 10, 2**35, 2**63, 2**64 - 1]:
        yield base + varint(tag) + b"\x00"


def pieces(data):
    """The fields of a byte list, as they stand."""
    at = 0
    while at < len(data):
        start = at
        *_, at = field_at(data, at)
        yield data[start:at]


def splices(draw, bases):
    fields = [field for base in bases for field in pieces(base)]
    for _ in range(SPLICES):
        base = draw.choice(bases)
        parts = list(pieces(base))
        for _ in range(draw.randrange(4)):
            parts.insert(draw.randrange(len(parts) + 1), draw.choice(fields))
        data = bytearray(b"".join(parts))
        for _ in range(draw.choice([0, 0, 1, 2])):
            data[draw.randrange(len(data))] = draw.randrange(256)
        yield bytes(data)


def fields_in(data):
    """The fields of a byte list, where it reads as fields."""
    try:
        return list(pieces(data))
    except Fault:
        return []


def moved(draw, data):
    """A byte list of which a field of one message stands in another, where it has two messages."""
    parts = fields_in(data)
    messages = [at for at, part in enumerate(parts) if field_at(part, 0)[1] == 2]
    if len(messages) < 2:
        return data
    giver, taker = draw.sample(messages, 2)
    (number, _, given, _), (other, _, taken, _) = field_at(parts[giver], 0), field_at(parts[taker], 0)
    inner, others = fields_in(given), fields_in(taken)
    if inner:
        others.insert(draw.randrange(len(others) + 1), inner.pop(draw.randrange(len(inner))))
        parts[giver] = content_field(number, b"".join(inner))
        parts[taker] = content_field(other, b"".join(others))
    return b"".join(parts)


def moves(draw, bases):
    for _ in range(MOVES):
        data = draw.choice(bases)
        for _ in range(draw.choice([1, 1, 2, 3])):
            data = moved(draw, data)
        yield data


def changed_real(draw):
    real = (TOP / "examples/work.pb").read_bytes()
    yield real
    for _ in range(CHANGES_OF_REAL):
        data = bytearray(real)
        for _ in range(draw.choice([1, 1, 2])):
            data[draw.randrange(len(data))] = draw.randrange(256)
        yield bytes(data[: draw.choice([len(data), len(data), draw.randrange(len(data))])])


def rows():
    draw = random.Random(SEED)
    bases = list(vectors())
    for base in bases:
        yield "vector", base
        for size in range(len(base)):
            yield "prefix", base[:size]
        for at in range(len(base)):
            for byte in range(256):
                if byte != base[at]:
                    yield "changed byte", base[:at] + bytes([byte]) + base[at + 1 :]
    for data in limits(bases[0]):
        yield "limit", data
    for data in splices(draw, bases):
        yield "splice", data
    for data in moves(draw, bases):
        yield "moved field", data
    for data in changed_real(draw):
        yield "real profile", data


def main():
    kinds, lists = zip(*rows())
    wrong = 0
    for kind, data, found in zip(kinds, lists, answers(lists)):
        wanted = own_answer(data)
        if found != wanted:
            wrong += 1
            if wrong < 20:
                print("DIFFERS", kind, data.hex(), "ours:", found, "theirs:", wanted)
    for kind in dict.fromkeys(kinds):
        print(f"{kinds.count(kind):7} {kind}")
    print(f"{len(lists) - wrong} of {len(lists)} byte lists agree")
    return 1 if wrong else 0


if __name__ == "__main__":
    sys.exit(main())
