#!/usr/bin/env python3
"""Times the model check on accepted models of growing size, and what prepare takes beyond it.

    tools/check_speed.py LIBRARY

LIBRARY is the static library as a shared one; tools/library.py has the commands that make it.
A model's pieces are the 256 bytes to fall back on and random words with all their parts, its rows all the ways to join
two such parts to a third, up to a number. So each letter of one byte is there twice, as in models that people use. A line
has the best of ten calls, and of ten on the same model with its longest piece twice too: then the check looks for every
piece in the lookup list. Last stands how much longer prepare takes than the check on a model of that size whose marks all stand at the
front of a piece, so that every piece is walked.
"""
import argparse
import ctypes
import random

from complaints import run
from library import NO_TOKENS, best_time, function, octets, words

# Pieces and rows wanted.
SIZES = ((4000, 12500), (8000, 25000), (16000, 50000), (32000, 100000), (64000, 200000))
LETTERS = "eeeettaaooiinnsshrrdlucmfwygpbvkxqjzé"


def model(pieces_wanted, rows_wanted, front, letters):
    """Pieces and rows; the first 256 pieces are the bytes. Words begin with front and go on with letters."""
    dice = random.Random(pieces_wanted)
    ids = {}
    while len(ids) + 256 < pieces_wanted:
        word = front + "".join(dice.choice(letters) for _ in range(dice.randrange(2, 9)))
        for i in range(len(word)):
            for j in range(i + 1, len(word) + 1):
                ids.setdefault(word[i:j], len(ids) + 256)
    rows = sorted((ids[p[:i]], ids[p[i:]], n) for p, n in ids.items() for i in range(1, len(p)))
    dropped = set(dice.sample(range(len(rows)), max(0, len(rows) - rows_wanted)))
    return [bytes([b]) for b in range(256)] + [p.encode() for p in ids], [row for i, row in enumerate(rows) if i not in dropped]


def columns(pieces, rows):
    offsets = [0]
    for p in pieces:
        offsets.append(offsets[-1] + len(p))
    lookup = sorted({p: i for i, p in enumerate(pieces)}.values(), key=pieces.__getitem__)
    left, right, result = ([row[k] for row in rows] for k in range(3))
    no_steps = octets(b"") + octets(b"") + words([])
    return (octets(b"".join(pieces)) + words(offsets) + words(lookup) + words(range(256))
            + words(left) + words(right) + words(result) + words(range(len(rows)))
            + NO_TOKENS * 2 + no_steps + [ctypes.c_uint8(2), ctypes.c_uint8(0)])


def main():
    p = argparse.ArgumentParser(description=__doc__, formatter_class=argparse.RawDescriptionHelpFormatter)
    p.add_argument("library", metavar="LIBRARY")
    library = p.parse_args().library
    check, prepare = (function(library, name) for name in ("varitmol_check", "varitmol_prepare"))
    derived = [(ctypes.c_uint64 * 1024)(), ctypes.c_size_t(1024)] + words([0] * 169032)
    for size in SIZES:
        pieces, rows = model(*size, "", "▁▁" + LETTERS)
        usual, twice = (best_time(check, columns(p, rows), 10) / 1e6 for p in (pieces, pieces + [max(pieces, key=len)]))
        walked = columns(*model(*size, "▁", LETTERS))
        beyond = (best_time(prepare, walked + derived, 10) - best_time(check, walked, 10)) / 1e6
        print(f"{len(pieces)} pieces, {len(rows)} rows: {usual:.2f} ms; with a long piece twice {twice:.2f} ms; prepare {beyond:.2f} ms more")


run(main)
