#!/usr/bin/env python3
"""Times fragments on texts of 1 MiB that are hard on it, with both kinds of split and two targets.

    tools/fragments_speed.py LIBRARY [BYTES]

LIBRARY is the static library as a shared one; tools/library.py has the commands that make it. A line has the numbers written
and the best of three calls, each with the model check and what is derived of the model; the model has three pieces. BYTES is another
length for the texts: a time that grows faster than the text does is what this looks for.
"""
import argparse
import ctypes
import random

from complaints import run
from library import NO_TOKENS, best_time, flags, function, octets, words

PIECES = ["▁".encode(), b"a", b"b"]
LONGEST = 1048576


def tokens(contents, lstrip, rstrip):
    offsets = [0]
    for c in contents:
        offsets.append(offsets[-1] + len(c))
    count = len(contents)
    return octets(b"".join(contents)) + words(offsets) + words(range(count)) + flags([lstrip] * count) + flags([rstrip] * count)


def columns(first, split):
    offsets = [0, 3, 4, 5]
    no_steps = octets(b"") + octets(b"") + words([])
    return (octets(b"".join(PIECES)) + words(offsets) + words([1, 2, 0]) + words([4294967295] * 256) + words([]) * 4
            + first + NO_TOKENS + no_steps + [ctypes.c_uint8(2), ctypes.c_uint8(split)])


def texts(size):
    """Texts with the tokens that they are cut with."""
    spaces = b" " * size
    dotted = bytearray(spaces)
    for at in range(5000, size - 3, 7001):
        dotted[at:at + 3] = b"<n>"
    dotted = bytes(dotted)
    tabs = (b"\t " * size)[:size]
    dice = random.Random(1)
    running = "".join(dice.choice("      etaoinshrdlucmfwygpbvkxqjz") for _ in range(size)).encode()
    n = tokens([b"<n>"], True, True)
    yield "spaces, no tokens", spaces, NO_TOKENS
    yield "spaces, a token that strips both sides", spaces, n
    yield "the same, with the token here and there", dotted, n
    yield "the same, a token that does not strip", dotted, tokens([b"<n>"], False, False)
    yield "spaces, one space a token with lstrip", spaces, tokens([b" "], True, False)
    yield "spaces, one space a token with rstrip", spaces, tokens([b" "], False, True)
    yield "spaces, 255 spaces a token", spaces, tokens([b" " * 255], False, False)
    yield "tabs and spaces, a token at the end", tabs[:-3] + b"<n>", n
    yield "words, 8,192 tokens that begin with <", running, tokens([b"<t%d>" % i for i in range(8192)], True, True)
    yield "words, 8,192 tokens that begin with letters", running, tokens([b"%c%d" % (97 + i % 26, i) for i in range(8192)], True, True)


def main():
    p = argparse.ArgumentParser(description=__doc__, formatter_class=argparse.RawDescriptionHelpFormatter)
    p.add_argument("library", metavar="LIBRARY")
    p.add_argument("bytes", metavar="BYTES", nargs="?", type=int, default=LONGEST)
    a = p.parse_args()
    if not 3 <= a.bytes <= LONGEST:
        p.error(f"BYTES is a number from 3 to {LONGEST}")
    fragments, size = function(a.library, "varitmol_fragments"), a.bytes
    out = words([0] * (2 * size + 2))
    for name, text, first in texts(size):
        for split, kind in enumerate(("SpaceRuns", "EveryMark")):
            for target in (0, 4096):
                if first[3].value > 8192 and target == 0 and "letters" in name:
                    continue
                arguments = columns(first, split) + octets(text) + [ctypes.c_size_t(target)] + out
                spent = best_time(fragments, arguments, 3) / 1e6
                written = fragments(*arguments).written
                print(f"{name}, {kind}, target {target}: {written} numbers, {spent:.0f} ms", flush=True)


run(main)
