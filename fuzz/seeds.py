#!/usr/bin/env python3
"""Writes the first inputs of the fuzz driver: the models and calls of the repository's cases, in the driver's form.

    fuzz/seeds.py FOLDER

fuzz/input.c says what the form is. A case with a row that is too long for it is left out. The last line says how many were written.
"""
import argparse
import json
import pathlib

CASES = pathlib.Path(__file__).resolve().parent.parent / "cases" / "decisions.jsonl"
OPS = ["check", "prepare", "normalise", "encode", "fragments", "decode"]
KINDS = ["prepend", "replace", "collapse", "strip"]
SCHEMES = [None, "never", "always", "first"]
NO_ID = 4294967295
LONGEST = 254


class TooLong(Exception):
    pass


def number(value):
    if value == NO_ID:
        return bytes([250])
    if value < 250:
        return bytes([value])
    return bytes([251]) + value.to_bytes(2, "little") if value < 1 << 16 else bytes([252]) + value.to_bytes(4, "little")


def octets(values):
    if len(values) > LONGEST:
        raise TooLong
    return bytes([len(values)]) + bytes(values)


def words(values):
    if len(values) > LONGEST:
        raise TooLong
    return bytes([len(values)]) + b"".join(map(number, values))


def fallback(row):
    if isinstance(row, dict):
        return bytes([len(row)]) + b"".join(bytes([int(byte)]) + number(id) for byte, id in row.items())
    return bytes([255]) + words(row)


def tokens(t):
    return octets(bytes.fromhex(t["bytes"])) + words(t["offsets"]) + words(t["ids"]) + octets(t["lstrip"]) + octets(t["rstrip"])


def tables(m):
    spans = []
    for kind, *rest in m["steps"]:
        numbers = rest if kind == "strip" else sum(rest, [])
        spans += numbers + [0] * (4 - len(numbers))
    scheme, split = m["metaspace"] or [None, False]
    return (octets(bytes.fromhex(m["piece_bytes"])) + words(m["piece_offsets"]) + words(m["lookup"]) + fallback(m["fallback"])
            + words(m["left"]) + words(m["right"]) + words(m["result"]) + words(m["rank"]) + tokens(m["first"]) + tokens(m["second"])
            + octets(bytes.fromhex(m["step_bytes"])) + octets([KINDS.index(s[0]) for s in m["steps"]]) + words(spans)
            + bytes([SCHEMES.index(scheme), split]))


def head(op, flag):
    """A byte that gives the operation, no coded text, and the flag from 128 on."""
    return bytes([next(b for b in range(128 if flag else 0, 256) if b % 6 == OPS.index(op) and b // 6 % 2 == 0)])


def call(c):
    flag = c.get("first", False) or c.get("continuation", False)
    given = words(c["ids"]) if c["op"] == "decode" else octets(bytes.fromhex(c["text"]))
    target = b""
    if c["op"] == "fragments":
        target = bytes([255]) if c["target"] == 2 ** 64 - 1 else bytes([0]) + number(c["target"])
    lent = [c["room"], *c.get("scratch", [])]
    if max(lent) > LONGEST:
        raise TooLong
    return head(c["op"], flag) + given + target + bytes(lent)


def main():
    p = argparse.ArgumentParser(description=__doc__, formatter_class=argparse.RawDescriptionHelpFormatter)
    p.add_argument("folder", metavar="FOLDER", type=pathlib.Path)
    folder = p.parse_args().folder
    try:
        folder.mkdir(parents=True, exist_ok=True)
    except OSError as fault:
        p.exit(1, f"seeds.py: {fault.filename}: {fault.strerror}\n")
    written = left_out = 0
    for line in CASES.read_text().splitlines():
        case = json.loads(line)
        try:
            seed = bytes([written & 1]) + tables(case["model"]) + b"".join(map(call, case["calls"]))
        except TooLong:
            left_out += 1
            continue
        (folder / f"{written:03}").write_bytes(seed)
        written += 1
    print(f"{written} written, {left_out} left out")


main()
