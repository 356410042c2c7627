#!/usr/bin/env python3
"""Draws docs/house.svg, the crates and what each uses, from crates.txt.

    tools/house.py [--check]

A crate stands one row below the lowest of those that it uses. A line goes to what a crate uses itself, where none of the others that it
uses does so for it. With --check nothing is written, and the exit status is 1 if the picture is not that of crates.txt.
"""
import argparse
import pathlib
import sys

from complaints import end, run

ROOT = pathlib.Path(__file__).resolve().parent.parent
KIT = {"io", "libc", "os", "check", "bytes"}
WIDTH, HEIGHT, ACROSS, DOWN, MARGIN = 104, 34, 130, 84, 20


def crates():
    used = {}
    for line in (ROOT / "crates.txt").read_text().splitlines():
        if line and not line.startswith("#"):
            words, _, names = line.partition(":")
            name = words.split()[0]
            used[name] = [n for n in names.split() if n not in KIT]
    missing = sorted({n for names in used.values() for n in names} - set(used))
    if missing:
        end(f"crates.txt: {', '.join(missing)} is used and has no line")
    return used


def rows(used):
    row = {}

    def place(name):
        if name not in row:
            row[name] = 1 + max((place(n) for n in used[name]), default=-1)
        return row[name]

    for name in used:
        place(name)
    return [[n for n in used if row[n] == k] for k in range(max(row.values()) + 1)]


def direct(used, name):
    """What a crate uses, without what those it uses bring along."""
    return [n for n in used[name] if not any(n in used[m] for m in used[name])]


def picture(used):
    levels = rows(used)
    wide = max(len(level) for level in levels) * ACROSS
    at = {}
    for k, level in enumerate(levels):
        left = MARGIN + (wide - len(level) * ACROSS) / 2 + (ACROSS - WIDTH) / 2
        for i, name in enumerate(level):
            at[name] = (left + i * ACROSS, MARGIN + k * DOWN)
    parts = [f'<svg xmlns="http://www.w3.org/2000/svg" width="{wide + 2 * MARGIN}" height="{(len(levels) - 1) * DOWN + HEIGHT + 2 * MARGIN}" '
             'font-family="sans-serif" font-size="14">']
    for name, (x, y) in at.items():
        for other in direct(used, name):
            u, v = at[other]
            parts.append(f'<line x1="{x + WIDTH / 2:g}" y1="{y:g}" x2="{u + WIDTH / 2:g}" y2="{v + HEIGHT:g}" stroke="#8a8a8a"/>')
    for name, (x, y) in at.items():
        parts.append(f'<rect x="{x:g}" y="{y:g}" width="{WIDTH}" height="{HEIGHT}" rx="5" fill="#f4efe6" stroke="#5a4a3a"/>')
        parts.append(f'<text x="{x + WIDTH / 2:g}" y="{y + HEIGHT / 2 + 5:g}" text-anchor="middle" fill="#222">{name}</text>')
    return "\n".join(parts + ["</svg>"]) + "\n"


def main():
    p = argparse.ArgumentParser(description=__doc__, formatter_class=argparse.RawDescriptionHelpFormatter)
    p.add_argument("--check", action="store_true", help="only say whether the picture is that of crates.txt")
    check = p.parse_args().check
    file, drawn = ROOT / "docs" / "house.svg", picture(crates())
    if check:
        sys.exit(0 if file.is_file() and file.read_text() == drawn else "docs/house.svg is not that of crates.txt: run tools/house.py")
    file.write_text(drawn)


run(main)
