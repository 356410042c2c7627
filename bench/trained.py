"""Reads a model that SentencePiece trained, and writes pieces and merge rows for the benchmark program."""
import pathlib
import struct

NORMAL, BYTE = 1, 6


def fields(data):
    """The fields of a protocol buffer: number and value."""
    at = 0

    def varint():
        nonlocal at
        value = shift = 0
        while True:
            byte = data[at]
            at += 1
            value |= (byte & 127) << shift
            shift += 7
            if byte < 128:
                return value

    while at < len(data):
        key = varint()
        kind = key & 7
        if kind == 0:
            yield key >> 3, varint()
        else:
            length = {1: 8, 5: 4}.get(kind) or varint()
            yield key >> 3, data[at:at + length]
            at += length


def pieces(path):
    """Content, score and type of each piece; a byte's piece is that byte, and one that stands for no text is empty."""
    for number, value in fields(pathlib.Path(path).read_bytes()):
        if number == 1:
            piece = {1: b"", 2: bytes(4), 3: NORMAL} | dict(fields(value))
            content = bytes([int(piece[1][3:5], 16)]) if piece[3] == BYTE else piece[1] if piece[3] == NORMAL else b""
            yield content, struct.unpack("<f", piece[2])[0], piece[3]


def write_rows(model, out):
    return write_pieces(list(pieces(model)), out)


def write_pieces(all_pieces, out):
    """A line for each piece (its bytes in hex, then whether it is a byte's), an empty line, a line for each merge row.

    A merge row is any way to put a piece together of two others; its rank is the place of the piece's score among all.
    """
    normal = {content: at for at, (content, _, kind) in enumerate(all_pieces) if kind == NORMAL}
    rows = []
    for rank, at in enumerate(sorted(normal.values(), key=lambda at: -all_pieces[at][1])):
        text = all_pieces[at][0]
        rows += [(normal[text[:cut]], normal[text[cut:]], at, rank) for cut in range(1, len(text))
                 if text[:cut] in normal and text[cut:] in normal]
    with open(out, "w") as file:
        for content, _, kind in all_pieces:
            file.write(f"{content.hex()} {'byte' if kind == BYTE else ''}\n")
        file.write("\n")
        for row in rows:
            file.write(" ".join(map(str, row)) + "\n")
    return len(all_pieces), len(rows)
