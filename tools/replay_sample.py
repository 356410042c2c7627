#!/usr/bin/env python3
"""Turn cases of the published Rust into the sample that the program `replay` reads.

    oracle/run RUST LIB --sample sample.jsonl --count 4000 --seed 1
    tools/replay_sample.py sample.jsonl crates/replay/stdin

JSONL has one line a model with its calls, as `oracle/run --sample` writes them. A model or call that does not fit the form below is left
out, and how many were is said.

OUT begins with the 16 bytes `varitmol replay1` and six words of four bytes, the lowest byte first: the length of OUT, Adler's sum over what
follows the sum, the count of rows, where the bytes end, where the flags end, and the count of numbers. Then come the bytes, the
flags (a byte each, 0 or 1), and the numbers (below 255 one byte; any other 255, then four bytes, the lowest first).

The first numbers are the rows, 27 numbers each; the numbers that rows point to follow. A row is a model or a call on the last model before it:

    model  0; start and ends of its numbers (piece offsets, lookup, fallback ids, left, right, result, rank, offsets and ids of the first token
           list, those of the second, steps), of its bytes (pieces, bytes with a fallback id, first and second tokens, step bytes) and of
           its flags (lstrip and rstrip of the first list, of the second); metaspace (0 none, 1 never, 2 always, 3 first); split.
           A step is five numbers: kind (0 prepend, 1 replace, 2 collapse, 3 strip), then two places and lengths, or two flags.
    call   1 encode, 2 fragments, 3 decode, 4 normalise; continuation or first; target (low and high half); the answer's five numbers;
           room of the first scratch buffer and what stands in each of its bytes afterwards; the same of the second; start and ends of
           its numbers (ids, result cells) and of its bytes (text, result bytes); zeros.

Before a call every result cell is 9 and every scratch byte is 5.
"""
import argparse
import json
import struct
import sys
import zlib

NAME = b"varitmol replay1"
HEAD = 40
ROW = 27
ROOM = 512  # the program's longest buffer
BYTES, NUMBERS, FLAGS = 524288, 262144, 65536  # the longest sample that it takes
CALLS = {"encode": 1, "fragments": 2, "decode": 3, "normalise": 4}
STEPS = {"prepend": 0, "replace": 1, "collapse": 2, "strip": 3}
SCHEMES = {"never": 1, "always": 2, "first": 3}


class Unfit(Exception):
    """A model or a call that the form has no place for."""


class Sample:
    def __init__(self):
        self.rows, self.numbers, self.data, self.flags = [], [], bytearray(), bytearray()
        self.calls = 0

    def places(self, store, parts):
        """Put the parts behind each other, and give where the first starts and each ends."""
        out = [len(store)]
        for part in parts:
            store.extend(part)
            out.append(len(store))
        return out

    def model(self, m):
        if not isinstance(m["fallback"], dict):
            raise Unfit
        fallback = sorted((int(byte), piece) for byte, piece in m["fallback"].items())
        if len(m["steps"]) > 16:
            raise Unfit
        first, second = m["first"], m["second"]
        scheme, split = (SCHEMES[m["metaspace"][0]], int(m["metaspace"][1])) if m["metaspace"] else (0, 0)
        numbers = self.places(self.numbers, [
            m["piece_offsets"], m["lookup"], [piece for _, piece in fallback], m["left"], m["right"], m["result"], m["rank"],
            first["offsets"], first["ids"], second["offsets"], second["ids"], [n for step in m["steps"] for n in step_numbers(step)]])
        data = self.places(self.data, [
            bytes.fromhex(m["piece_bytes"]), bytes(byte for byte, _ in fallback), bytes.fromhex(first["bytes"]),
            bytes.fromhex(second["bytes"]), bytes.fromhex(m["step_bytes"])])
        flags = self.places(self.flags, [
            [int(flag) for flag in column] for column in (first["lstrip"], first["rstrip"], second["lstrip"], second["rstrip"])])
        self.rows.append([0] + numbers + data + flags + [scheme, split])

    def call(self, c):
        result = c["out"] if isinstance(c["out"], list) else bytes.fromhex(c["out"])
        rooms = c.get("scratch", [0, 0])
        after = [bytes.fromhex(text) for text in c.get("scratch_after", ["", ""])]
        if len(result) != c["room"] or [len(scratch) for scratch in after] != rooms:
            raise Unfit
        if max(c["room"], *rooms) > ROOM or any(len(set(scratch)) > 1 for scratch in after):
            raise Unfit
        if any(not 0 <= n < 2**32 for n in c["answer"]) or not 0 <= c.get("target", 0) < 2**64:
            raise Unfit
        flag = int(c.get("continuation", c.get("first", False)))
        target = c.get("target", 0)
        scratch = [n for room, cells in zip(rooms, after) for n in (room, cells[0] if cells else 0)]
        as_cells = isinstance(result, list)
        numbers = self.places(self.numbers, [c.get("ids", []), result if as_cells else []])
        data = self.places(self.data, [bytes.fromhex(c.get("text", "")), b"" if as_cells else result])
        row = [CALLS[c["op"]], flag, target % 2**32, target >> 32] + c["answer"] + scratch + numbers + data
        self.rows.append(row + [0] * (ROW - len(row)))
        self.calls += 1

    def packed(self):
        shift = ROW * len(self.rows)  # the rows stand before the numbers that they point to
        rows = [moved(row, shift) for row in self.rows]
        numbers = [n for row in rows for n in row] + self.numbers
        if len(numbers) > NUMBERS or len(self.flags) > FLAGS:
            raise ValueError(f"{len(numbers)} numbers and {len(self.flags)} flags, the program takes {NUMBERS} and {FLAGS}")
        bytes_end = HEAD + len(self.data)
        summed = struct.pack("<4I", len(self.rows), bytes_end, bytes_end + len(self.flags), len(numbers))
        summed += self.data + self.flags + b"".join(map(pack, numbers))
        return NAME + struct.pack("<2I", len(NAME) + 8 + len(summed), zlib.adler32(summed)) + summed


def step_numbers(step):
    """The five numbers of a step."""
    given = [n for part in step[1:] for n in (part if isinstance(part, list) else [int(part)])]
    return [STEPS[step[0]]] + given + [0] * (4 - len(given))


def moved(row, shift):
    """A row whose places among the numbers are `shift` on."""
    start, end = (1, 14) if row[0] == 0 else (13, 16)
    return row[:start] + [n + shift for n in row[start:end]] + row[end:]


def pack(number):
    return bytes([number]) if number < 255 else b"\xff" + struct.pack("<I", number)


def main():
    parser = argparse.ArgumentParser(description=__doc__, formatter_class=argparse.RawDescriptionHelpFormatter)
    parser.add_argument("jsonl", metavar="JSONL")
    parser.add_argument("out", metavar="OUT")
    args = parser.parse_args()
    sample, left_out = Sample(), 0
    with open(args.jsonl) as file:
        for line in file:
            case = json.loads(line)
            try:
                sample.model(case["model"])
            except Unfit:
                left_out += len(case["calls"])
                continue
            for call in case["calls"]:
                try:
                    sample.call(call)
                except Unfit:
                    left_out += 1
    packed = sample.packed()
    if len(packed) > BYTES:
        raise ValueError(f"{len(packed)} bytes, the program takes {BYTES}")
    with open(args.out, "wb") as file:
        file.write(packed)
    print(f"{args.out}: {len(sample.rows) - sample.calls} models, {sample.calls} calls, {len(packed)} bytes; {left_out} calls left out")


if __name__ == "__main__":
    try:
        main()
    except OSError as error:
        sys.exit(f"replay_sample.py: {error}")
    except (KeyError, ValueError, TypeError, struct.error) as error:
        sys.exit(f"replay_sample.py: no sample can be made: {error!r}")
