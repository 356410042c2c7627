#!/usr/bin/env python3
"""Runs the program captions with arguments and compares what it writes with what is stored.

    tools/captions_cases.py [--cases cases/captions.jsonl] WORD...

The words are the command that runs the program: crates/captions/out/captions, where `rt run` leaves it on x86-64, an emulator's in front of it
elsewhere. A line of the cases has the arguments, what stands on standard input, as rows of a string and how often it comes, and what the program
writes to standard output and standard error. Bytes that are no UTF-8 stand as Python's surrogateescape has them. The exit status is 0 only if all are as stored.
"""
import argparse
import json
import pathlib
import subprocess

from complaints import end, run

CASES = pathlib.Path(__file__).resolve().parent.parent / "cases" / "captions.jsonl"


def octets(text):
    return text.encode("utf-8", "surrogateescape")


def wrote(command, case):
    given = b"".join(octets(row) * times for row, times in case["stdin"])
    ran = subprocess.run(command + case["args"], input=given, capture_output=True, timeout=120)
    return {"stdout": ran.stdout, "stderr": ran.stderr}


def main():
    parser = argparse.ArgumentParser(description=__doc__, formatter_class=argparse.RawDescriptionHelpFormatter)
    parser.add_argument("--cases", type=pathlib.Path, default=CASES)
    parser.add_argument("command", nargs=argparse.REMAINDER)
    options = parser.parse_args()
    if not options.command:
        end("which program? crates/captions/out/captions")
    cases = [json.loads(line) for line in options.cases.read_text().splitlines()]
    if not cases:
        end(f"{options.cases}: no case")
    failed = 0
    for case in cases:
        told = wrote(options.command, case)
        others = [where for where in told if told[where] != octets(case[where])]
        failed += bool(others)
        for where in others:
            print(f"{case['says']}: {where}\n  stored  {octets(case[where])!r}\n  written {told[where]!r}")
    print(f"{len(cases) - failed} passed, {failed} failed")
    raise SystemExit(failed > 0)


run(main)
