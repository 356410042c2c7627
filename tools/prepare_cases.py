#!/usr/bin/env python3
"""Writes cases for prepare, worked out from the words of docs/RULES.md (sections 5, 6 and 15) alone.

    tools/prepare_cases.py > cases/prepare.jsonl

tools/spec_cases.py has the form of a case, and computes them with the definitions.
"""
import argparse
import itertools
import json

from complaints import run

MARK = "▁"
TURNING = ("replace", " ", MARK)
ADJACENCY, INDEX = 1024, 169032
SLOTS, SECOND_SLOTS, SHARED, NONE = 131072, 32768, 2 ** 31, 2 ** 32 - 1

T_PIECES = [b"\xe2\x96\x81", b"a", b"b", b"ab", b"\xe2\x96\x81a", b".", b"\xc3", b"\xa9"]
T = {"pieces": T_PIECES, "rows": [(0, 1, 4, 1), (1, 2, 3, 0)], "fallback": {0xC3: 6, 0xA9: 7},
     "first": [], "second": [], "steps": [], "metaspace": ("always", False)}
U = dict(T, pieces=T_PIECES + ["b▁a".encode()], rows=T["rows"] + [(2, 4, 8, 2)])

# Pairs of ids that lie far apart: the three of its rows share a slot of the first pair table. Most ids have no piece.
S_PIECES = {0: b"a", 2: b"b", 104: b"c", 128: b"d", 206: b"e", 256: b"f", 257: b"ba", 258: b"cd", 259: b"ef"}
S = dict(T, pieces=[S_PIECES.get(id, b"") for id in range(260)], rows=[(2, 0, 257, 1), (104, 128, 258, 0), (206, 256, 259, 0)],
         fallback={})

# Two of its rows share a slot of the first table, and two another; those two that it does not name share a slot of the second.
V_PIECES = {0: b"a", 18: b"b", 20: b"c", 37: b"d", 122: b"e", 128: b"f", 139: b"g", 146: b"h", 147: b"cb", 148: b"da", 149: b"eh", 150: b"gf"}
V = dict(S, pieces=[V_PIECES.get(id, b"") for id in range(151)],
         rows=[(20, 18, 147, 0), (37, 0, 148, 3), (122, 146, 149, 2), (139, 128, 150, 1)])


# ---- the columns

def end_to_end(strings):
    return b"".join(strings).hex(), [0, *itertools.accumulate(len(s) for s in strings)]


def tokens(contents):
    octets, offsets = end_to_end([c.encode() for c in contents])
    none = [False] * len(contents)
    return {"bytes": octets, "offsets": offsets, "ids": list(range(50, 50 + len(contents))), "lstrip": none, "rstrip": none}


def columns(m):
    piece_bytes, piece_offsets = end_to_end(m["pieces"])
    listed = {p: i for i, p in reversed(list(enumerate(m["pieces"]))) if p}
    steps, step_bytes = [], b""
    for kind, *strings in m["steps"]:
        spans = []
        for s in strings:
            spans.append([len(step_bytes), len(s.encode())])
            step_bytes += s.encode()
        steps.append([kind, *spans])
    rows = {name: [row[k] for row in m["rows"]] for k, name in enumerate(("left", "right", "result", "rank"))}
    return {"piece_bytes": piece_bytes, "piece_offsets": piece_offsets, "lookup": [listed[p] for p in sorted(listed)],
            "fallback": {str(b): i for b, i in m["fallback"].items()}, **rows,
            "first": tokens(m["first"]), "second": tokens(m["second"]), "step_bytes": step_bytes.hex(), "steps": steps,
            "metaspace": m["metaspace"]}


# ---- what is derived

def crossings(pieces):
    """Rule 5.1: for each the id of its piece, the place of its mark there, and what stands before and behind the mark."""
    for id, piece in enumerate(pieces):
        try:
            text = piece.decode()
        except UnicodeDecodeError:
            continue
        for i in range(1, len(text)):
            if text[i] == MARK != text[i - 1]:
                yield id, len(text[:i].encode()), text[:i], text[i + 1:]


def splits(m):
    return bool(m["metaspace"]) and m["metaspace"][1]


def kind_number(m):
    crossed = list(crossings(m["pieces"]))
    if splits(m):
        return 1
    return 2 if len(crossed) > 32 or any(c in pre + post for _, _, pre, post in crossed for c in (MARK, " ")) else 0


def raw_path_number(m):
    if kind_number(m) == 2 or m["second"]:
        return 0
    if m["steps"] == [("prepend", MARK), TURNING]:
        return 0 if splits(m) else 2
    if m["steps"] == [TURNING] or not m["steps"] and m["metaspace"]:
        return {"never": 1, "always": 3, "first": 4}[m["metaspace"][0] if m["metaspace"] else "never"]
    return 0


def adjacency(m):
    words = [0] * ADJACENCY
    for piece in m["pieces"]:
        for x, y in zip(piece, piece[1:]):
            words[4 * x + y // 64] |= 1 << y % 64
    return words


def begun(contents):
    first = {c.encode()[0] for c in contents}
    return [int(b in first) for b in range(256)]


def slot(left, right):
    return (left * 1327217885 + right * 1123411259) // 32768 % SLOTS


def second_slot(left, right):
    return (left * 1123411259 + right * 1640531527) // 131072 % SECOND_SLOTS


def table(rows, slots, slot_of, places):
    """For each slot one more than the place of its row; where several have it, of that with the lowest rank, and SHARED more."""
    words = [0] * slots
    sharing = {}
    for place in places:
        sharing.setdefault(slot_of(*rows[place][:2]), []).append(place)
    for at, those in sharing.items():
        words[at] = min(those, key=lambda place: rows[place][3]) + 1 + (SHARED if len(those) > 1 else 0)
    return words


def pair_tables(rows):
    """The first over all rows, the second over those that the first does not name."""
    first = table(rows, SLOTS, slot, range(len(rows)))
    named = {word % SHARED - 1 for word in first if word}
    return first + table(rows, SECOND_SLOTS, second_slot, [place for place in range(len(rows)) if place not in named])


def index(m):
    pieces, lookup = m["pieces"], columns(m)["lookup"]
    kind = kind_number(m)
    noted = list(crossings(pieces)) if kind == 0 else []
    words = [word for id, place, _, _ in noted for word in (id, place)]
    ids = {pieces[id]: id for id in lookup}
    shift = next(s for s in range(8) if s == 7 or len(pieces) <= 4096 << s)
    return [kind, raw_path_number(m), len(noted), *words, *[0] * (64 - len(words)), ids.get(MARK.encode(), NONE), shift,
            *[sum(pieces[id][0] < b for id in lookup) for b in range(257)],
            *[ids.get(bytes([b]), NONE) for b in range(256)],
            *[sum(left < b << shift for left, *_ in m["rows"]) for b in range(4097)], *pair_tables(m["rows"]),
            *begun(m["first"]), *begun(m["second"]), max((len(c.encode()) for c in m["first"]), default=0)]


# ---- the cases

def runs(words):
    return {"runs": [[word, len(list(same))] for word, same in itertools.groupby(words)]}


def call(m, refused=0, rows=ADJACENCY, room=INDEX, index_alone=False):
    """prepare, lent rows of these lengths; a refusal leaves them as they were. What is left of adjacency may be left out."""
    number = refused or (12 if rows < ADJACENCY or room < INDEX else 0)
    after = [[9] * room, [5] * rows]
    if number == 0:
        after = [words + [0] * (n - len(words)) for words, n in ((index(m), room), (adjacency(m), rows))]
    told = {"op": "prepare", "room": room, "scratch": [rows, 0], "answer": [number, 0, 0 if number else ADJACENCY + INDEX, 0, 0],
            "out": runs(after[0])}
    return told if index_alone else dict(told, scratch_after=[runs(after[1]), []])


CASES = [
    ("rule 14.1's T", T, [{}, {"rows": ADJACENCY - 1}, {"room": INDEX - 1}]),
    ("rule 14.2's U has a crossing; tokens of two, three and five bytes; longer rows end in zeros",
     dict(U, first=["é", "<n>", "<unk>"], metaspace=("first", False)), [{"rows": ADJACENCY + 1, "room": INDEX + 2}]),
    ("tokens of the second list leave no raw path", dict(U, second=["a", "▁b"], first=["."]), [{}]),
    ("metaspace that splits notes no crossing", dict(U, metaspace=("never", True)), [{}]),
    ("a tangled crossing, and no mark among the pieces", dict(T, pieces=[b"a", "a▁b▁".encode()], rows=[], fallback={}), [{}]),
    ("a mark and spaces turned into marks, without metaspace", dict(T, steps=[("prepend", MARK), TURNING], metaspace=None), [{}]),
    ("spaces turned into marks alone", dict(T, steps=[TURNING], metaspace=None), [{}]),
    ("three rows share a slot; of the two of lowest rank the first is named", S, [{"index_alone": True}]),
    ("two rows that the first table does not name share a slot of the second", V, [{"index_alone": True}]),
    ("a piece that is no UTF-8", dict(T, pieces=[b"a\xc3"], rows=[], fallback={}), [{"refused": 3, "rows": 2, "room": 3}]),
]


def main():
    argparse.ArgumentParser(description=__doc__, formatter_class=argparse.RawDescriptionHelpFormatter).parse_args()
    for says, m, calls in CASES:
        print(json.dumps({"says": says, "model": columns(m), "calls": [call(m, **c) for c in calls]}, separators=(",", ":")))


run(main)
