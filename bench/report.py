"""The results of bench/run as a page, a plot and lines for a terminal."""
import collections
import dataclasses
import math

OURS = "prepared"
SIDES = ["Rust, fresh", "Rust, warm", "plain Rust", "SentencePiece"]
COLOURS = {OURS: "#1b6ca8", "Rust, fresh": "#d08a2e", "Rust, warm": "#e3c08a", "plain Rust": "#6b8f71", "SentencePiece": "#8d6a9f"}
GROWTH = [("1 KiB", "growth, 1 KiB"), ("16 KiB", "growth, 16 KiB"), ("256 KiB", "growth, 256 KiB"), ("1 MiB", "encode, 1 MiB")]


@dataclasses.dataclass
class Facts:
    text: str
    measured: int
    model: str
    processor: str
    rounds: int


class Results:
    """Best and median times in ns of each row and side, from the lines of the benchmark program."""

    def __init__(self, lines):
        self.rows = collections.defaultdict(dict)
        self.bytes = {}
        for line in lines.splitlines():
            row, side, size, best, median = line.split("\t")
            self.rows[row][side] = float(best), float(median)
            self.bytes[row] = int(size)

    def time(self, row, side, which=0):
        return self.rows.get(row, {}).get(side, (None, None))[which]

    def ratio(self, row, side, ours=OURS, which=0):
        """How many times as fast the library is."""
        a, b = self.time(row, ours, which), self.time(row, side, which)
        return b / a if a and b else None

    def speed(self, row, side):
        """MB a second."""
        time = self.time(row, side)
        return self.bytes[row] * 1000 / time if time else None

    def a_byte(self, row, side):
        """ns a byte."""
        time = self.time(row, side)
        return time / self.bytes[row] if time else None


def number(value, unit=""):
    """Three digits, or a dash for none."""
    if value is None:
        return "-"
    digits = 0 if value >= 100 else 1 if value >= 10 else 2 if value >= 1 else 3
    return f"{value:,.{digits}f}{unit}"


def times(value):
    """A ratio; a small one as a fraction."""
    return "-" if value is None else f"{value:.2f}" if value >= 0.1 else f"1/{1 / value:,.0f}"


def targets(r):
    """What was aimed at, what came out, and whether it suffices; None where it could not be measured."""
    def row(name, value, met):
        return name, value, None if value is None else met(value)
    time = r.time("check and prepare", "Varitmol")
    lines = [
        row("encode 1 MiB: 8 times SentencePiece's speed", r.ratio("encode, 1 MiB", "SentencePiece", "Varitmol"), lambda v: v >= 8),
        row("encode 1 MiB: no slower than the Rust with a fresh state", r.ratio("encode, 1 MiB", "Rust, fresh", "Varitmol"), lambda v: v >= 1),
        row("lines, prepared: 4 times SentencePiece's speed", r.ratio("lines", "SentencePiece"), lambda v: v >= 4),
        row("decode: 10 times SentencePiece's speed", r.ratio("decode", "SentencePiece"), lambda v: v >= 10),
    ]
    table = [(name, "-" if value is None else times(value) + " times", met) for name, value, met in lines]
    return table + [("check and prepare: under 6 ms together", number(time / 1e6, " ms"), time < 6e6)]


def ratio_cell(r, row, side):
    best, median = r.ratio(row, side), r.ratio(row, side, which=1)
    return "-" if best is None else f"{times(best)} ({times(median)})"


def page(r, facts):
    verdict = {True: "met", False: "missed", None: "not measured"}
    rows = [row for row in r.rows if OURS in r.rows[row] and not row.startswith(("growth", "normalise"))]
    lines = [
        "# Benchmarks", "",
        f"Taken with `bench/run RUST LIB --write`, {facts.rounds} rounds, on one machine: {facts.processor}.", "",
        f"- Text: the first {facts.measured:,} bytes of {facts.text}.",
        f"- Model: {facts.model}.", "",
        "All sides run in one process, one after the other in each round. Times are the processor time of that process, the best of all rounds,",
        "in brackets the median. Other programs ran on the same machine and share its caches: differences of a tenth mean nothing.", "",
        "`Rust, fresh` is the published Rust with a new state for each text, for lines one for all of them; `Rust, warm` with one that has seen",
        "the same text. The state remembers each unit's ids. `plain Rust` is the library's algorithm in Rust with sorted tables and no cache",
        "(bench/src/plain.rs). `One unit` is a model with which the whole text is one unit, as a text without spaces and punctuation is with any.", "",
        "## Targets", "", "| target | measured | |", "|---|---|---|",
        *[f"| {name} | {value} | {verdict[met]} |" for name, value, met in targets(r)], "",
        f"The check alone takes {number(r.time('check', 'Varitmol') / 1e6)} ms. Encode checks the model and derives what it needs on each call and takes",
        f"{number(r.time('encode, 1 MiB', 'Varitmol') / 1e6)} ms for the text; with a prepared model it takes {number(r.time('encode, 1 MiB', OURS) / 1e6)} ms.", "",
        "![speeds](benchmarks.svg)", "",
        "## How many times as fast the library is", "",
        "Below 1 the other side is faster: at 1/4 it takes a quarter of the time. Models are prepared or checked before. The Rust's calls test",
        "that the text is UTF-8, as the library's do.", "",
        "| | library, ms | " + " | ".join("against " + side for side in SIDES) + " |", "|---|---|" + "---|" * len(SIDES),
        *[f"| {row} | {number(r.time(row, OURS) / 1e6)} | " + " | ".join(ratio_cell(r, row, side) for side in SIDES) + " |" for row in rows], "",
        "## Growth", "", "Encode with a prepared model, in ns a byte.", "",
        "| | library | " + " | ".join(SIDES) + " |", "|---|---|" + "---|" * len(SIDES),
        *["| " + name + " | " + " | ".join(number(r.a_byte(row, side)) for side in [OURS] + SIDES) + " |"
          for name, row in GROWTH], "",
        "## Normalise", "", "One step or metaspace alone, on a checked model, against the Rust.", "",
        "| step | library, ns a byte at 16 KiB | times the Rust's speed | at 1 MiB | times the Rust's speed |", "|---|---|---|---|---|",
    ]
    for row in r.rows:
        if row.startswith("normalise: ") and row.endswith(", 16 KiB"):
            step = row[len("normalise: "):-len(", 16 KiB")]
            large = f"normalise: {step}, 1 MiB"
            lines.append(f"| {step} | {number(r.a_byte(row, OURS))} | {ratio_cell(r, row, 'Rust, fresh')} | "
                         f"{number(r.a_byte(large, OURS))} | {ratio_cell(r, large, 'Rust, fresh')} |")
    return "\n".join(lines) + "\n"


def terminal(r):
    lines = []
    for row, sides in r.rows.items():
        for side, (best, median) in sides.items():
            lines.append(f"{row:<36} {side:<14} best {best / 1e6:10.3f} ms, median {median / 1e6:10.3f} ms")
    lines += [f"{name}: {value}, {'met' if met else 'not measured' if met is None else 'missed'}" for name, value, met in targets(r)]
    return "\n".join(lines)


def plot(r):
    """Bars for three rows, and how encode grows; both on a logarithmic scale of MB a second."""
    low, high = 0.3, 300.0
    left, top, width, height = 70, 40, 380, 260

    def y(speed):
        part = (math.log10(min(max(speed, low), high)) - math.log10(low)) / (math.log10(high) - math.log10(low))
        return top + height - part * height

    def axes(x):
        marks = [0.3, 1, 3, 10, 30, 100, 300]
        return [f'<line x1="{x}" y1="{y(m):.1f}" x2="{x + width}" y2="{y(m):.1f}" stroke="#ddd"/>'
                f'<text x="{x - 6}" y="{y(m) + 4:.1f}" text-anchor="end">{m:g}</text>' for m in marks]

    sides = [OURS] + SIDES
    out = ['<svg xmlns="http://www.w3.org/2000/svg" width="960" height="380" font-family="sans-serif" font-size="12">',
           '<rect width="960" height="380" fill="white"/>', *axes(left)]
    groups = [("encode, 1 MiB", "encode, 1 MiB"), ("lines", "lines of 60 bytes"), ("decode", "decode")]
    for place, (row, label) in enumerate(groups):
        start = left + 8 + place * width / len(groups)
        for at, side in enumerate(sides):
            if speed := r.speed(row, side) if row in r.rows else None:
                out.append(f'<rect x="{start + at * 21:.1f}" y="{y(speed):.1f}" width="18" height="{top + height - y(speed):.1f}" fill="{COLOURS[side]}">'
                           f'<title>{side}: {number(speed)} MB/s</title></rect>')
        out.append(f'<text x="{start + 52:.1f}" y="{top + height + 18}" text-anchor="middle">{label}</text>')
    second = left + width + 90
    out += axes(second)
    for side in sides:
        points = [(second + 30 + at * (width - 60) / 3, y(speed)) for at, (_, row) in enumerate(GROWTH) if (speed := r.speed(row, side))]
        path = " ".join(f"{a:.1f},{b:.1f}" for a, b in points)
        out.append(f'<polyline points="{path}" fill="none" stroke="{COLOURS[side]}" stroke-width="2"/>')
        out += [f'<circle cx="{a:.1f}" cy="{b:.1f}" r="3" fill="{COLOURS[side]}"/>' for a, b in points]
    for at, (label, _) in enumerate(GROWTH):
        out.append(f'<text x="{second + 30 + at * (width - 60) / 3:.1f}" y="{top + height + 18}" text-anchor="middle">{label}</text>')
    out.append(f'<text x="{left}" y="22">MB a second, logarithmic</text><text x="{second}" y="22">encode by length of text, MB a second</text>')
    for at, side in enumerate(sides):
        x = left + at * 165
        name = "Varitmol, prepared" if side == OURS else side
        out.append(f'<rect x="{x}" y="346" width="12" height="12" fill="{COLOURS[side]}"/><text x="{x + 17}" y="357">{name}</text>')
    return "\n".join(out + ["</svg>"]) + "\n"
