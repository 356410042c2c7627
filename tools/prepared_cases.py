#!/usr/bin/env python3
"""Runs stored cases through a call and through its prepared twin, and compares both with what is stored: answer, result, scratch.

    tools/prepared_cases.py LIBRARY CASES [--only encode]

LIBRARY is the static library as a shared one (tools/library.py has the commands that make it). A line of CASES has a model and calls on
it; a call has what it is lent, its answer and what stands in the buffers afterwards. Before a call every result cell is 9 and every
scratch byte 5. The twin is called on models that the check accepts, with the rows that varitmol_prepare gives. The exit status is 0
only if nothing differed and both forms ran.
"""
import argparse
import collections
import ctypes
import json

from complaints import end, run
from library import flags, function, lent, octets, words

SCHEMES = {None: 0, "never": 1, "always": 2, "first": 3}
KINDS = ["prepend", "replace", "collapse", "strip"]
NO_ID = 4294967295
ADJACENCY_LEN = 1024
INDEX_LEN = 169032


def tokens(t):
    return octets(bytes.fromhex(t["bytes"])) + words(t["offsets"]) + words(t["ids"]) + flags(t["lstrip"]) + flags(t["rstrip"])


def columns(m):
    fallback = m["fallback"]
    if isinstance(fallback, dict):
        fallback = [fallback.get(str(byte), NO_ID) for byte in range(256)]
    spans = []
    for kind, *rest in m["steps"]:
        numbers = rest if kind == "strip" else sum(rest, [])
        spans += numbers + [0] * (4 - len(numbers))
    scheme, split = m["metaspace"] or [None, 0]
    return (octets(bytes.fromhex(m["piece_bytes"])) + words(m["piece_offsets"]) + words(m["lookup"]) + words(fallback)
            + words(m["left"]) + words(m["right"]) + words(m["result"]) + words(m["rank"]) + tokens(m["first"]) + tokens(m["second"])
            + octets(bytes.fromhex(m["step_bytes"])) + octets([KINDS.index(s[0]) for s in m["steps"]]) + words(spans)
            + [ctypes.c_uint8(SCHEMES[scheme]), ctypes.c_uint8(split)])


def outcome(f, model, rows, c):
    """The answer and every lent cell, in the form in which cases are stored."""
    out = lent(ctypes.c_uint32, [9] * c["room"])
    scratch = [lent(ctypes.c_uint8, [5] * n) for n in c.get("scratch", [])]
    own = [ctypes.c_bool(c["continuation"])] if c["op"] == "encode" else [ctypes.c_size_t(c["target"])]
    answer = f(*model, *rows, *octets(bytes.fromhex(c["text"])), *own, *out, *sum(scratch, []))
    return ([getattr(answer, name) for name, _ in answer._fields_], list(out[0][:c["room"]]),
            [bytes(buffer[:length.value]).hex() for buffer, length in scratch])


def main():
    parser = argparse.ArgumentParser(description=__doc__, formatter_class=argparse.RawDescriptionHelpFormatter)
    parser.add_argument("library")
    parser.add_argument("cases")
    parser.add_argument("--only", choices=["encode", "fragments"])
    a = parser.parse_args()
    calls = [a.only] if a.only else ["encode", "fragments"]
    check, prepare = function(a.library, "varitmol_check"), function(a.library, "varitmol_prepare")
    plain = {name: function(a.library, "varitmol_" + name) for name in calls}
    twins = {name: function(a.library, f"varitmol_{name}_prepared") for name in calls}
    ran, differ = collections.Counter(), 0
    for number, line in enumerate(open(a.cases), 1):
        try:
            d = json.loads(line)
            model = columns(d["model"])
        except (KeyError, TypeError, ValueError) as fault:
            end(f"{a.cases}: line {number} is not of the form that cases have: {type(fault).__name__} {fault}")
        rows = lent(ctypes.c_uint64, [7] * ADJACENCY_LEN) + lent(ctypes.c_uint32, [7] * INDEX_LEN)
        fine = check(*model).number == 0
        if fine:
            assert prepare(*model, *rows).number == 0
        for c in d["calls"]:
            if c["op"] not in calls:
                continue
            want = (c["answer"], c["out"], c.get("scratch_after", []))
            forms = [("call", plain[c["op"]], [])] + ([("prepared", twins[c["op"]], rows)] if fine else [])
            for form, f, given in forms:
                ran[c["op"], form] += 1
                got = outcome(f, model, given, c)
                if got != want:
                    differ += 1
                    print(f"line {number}, {c['op']} ({form}): {json.dumps(c)}\n  gave {got}")
    for (name, form), count in sorted(ran.items()):
        print(f"{name}, {form}: {count}")
    print(f"{sum(ran.values())} ran, {differ} differ")
    raise SystemExit(differ != 0 or any(not ran[name, form] for name in calls for form in ("call", "prepared")))


run(main)
