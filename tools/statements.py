#!/usr/bin/env python3
"""Checks docs/STATEMENTS.md against the functions of the library, and their contracts against the forms that settle an outcome.

    tools/statements.py [--forms]

Reads every `pub fn`, `pub extern "C" fn` and `pub(crate) fn` of the library crates, and every function of their traits. Each has one
row in its crate's tables, which cites definitions that the function's `ensures` names, gives two wrong answers, and names what shows
it: an edit of some crate's must-fail folder, or the contract. Each contract settles the result and every cell lent as `&mut`, or the page lists what it leaves
open. A contract settles what stands by itself on the left of an equation, or under a view that theorems/specs/Settled.antt shows
injective, where the right side is computed from what was there before. --forms also tells how many contracts have which form.
Prints what is wrong and exits with 1 if there is anything.
"""
import argparse
import collections
import pathlib
import re
import sys

from complaints import run

ROOT = pathlib.Path(__file__).resolve().parent.parent
CRATES = "utf8 model index normalise units merge sections records prepare stretches encode fragments decode varitmol".split()
PAGE = ROOT / "docs" / "STATEMENTS.md"
LAWS = ROOT / "crates" / "theorems" / "specs" / "Settled.antt"
FUNCTION = re.compile(r'^( *)pub(?:\(crate\))? (?:extern "C" )?fn (\w+)', re.M)
TRAIT = re.compile(r"^pub(?:\(crate\))? trait (\w+)[^\n]*\{\n(.*?)^\}", re.M | re.S)
TRAIT_FUNCTION = re.compile(r"^    fn (\w+)", re.M)
CLAUSE = re.compile(r"(?:\b(requires|ensures)(?: \w+)? )?\{")
ROWS = "| function | promise | definition | two wrong answers it rules out | shown by |"
OPEN = "| function | left open | why |"


def closed(text, start):
    """Where the bracket that opens at start closes, counting its kind alone."""
    opening, closing, depth = text[start], {"{": "}", "(": ")"}[text[start]], 0
    for at in range(start, len(text)):
        depth += (text[at] == opening) - (text[at] == closing)
        if depth == 0:
            return at
    raise ValueError(f"no end of {text[start:start + 40]}")


def bare(term):
    """The term without brackets around the whole of it and without the quotes of a Rattle name."""
    term = re.sub("[«»]", "", term).strip()
    while term.startswith("(") and closed(term, 0) == len(term) - 1:
        term = term[1:-1].strip()
    return term


def split_at(term, sign):
    """The two sides of the first such sign outside brackets, or nothing."""
    depth = 0
    for at, char in enumerate(term):
        depth += (char in "({") - (char in ")}")
        if depth == 0 and term.startswith(f" {sign} ", at):
            return bare(term[:at]), bare(term[at + len(sign) + 2:])
    return None


class Function:
    """A function whose name ends at a place of its source; fields has those of the crate's structs."""
    def __init__(self, crate, path, text, at, fields):
        self.crate, self.path = crate, path
        start = text.index("(", at)
        stop = closed(text, start)
        self.lent = re.findall(r"(\w+): &(?:'\w+ )?mut ", text[start:stop])
        answer = re.compile(r"\s*-> (.*?)\s+(?:(?:requires|ensures)(?: \w+)? )?\{", re.S).match(text, stop + 1)
        self.fields = fields.get(re.sub("<.*", "", answer[1]), []) if answer else []
        self.sought = (["result"] if answer else []) + self.lent
        self.ensures = []
        clause = CLAUSE.search(text, stop)
        while clause[1] and ";\n" not in text[stop:clause.start()]:  # a trait's function has no body behind its clauses
            stop = closed(text, clause.end() - 1)
            if clause[1] == "ensures":
                self.ensures.append(" ".join(text[clause.end():stop].split()))
            clause = CLAUSE.search(text, stop)

    def says(self, word):
        return any(re.search(r"(?<![\w'-])" + re.escape(word) + r"(?![\w'-])", clause) for clause in self.ensures)


def settles(left, views):
    """What an equation settles that has this on its left, and by which form."""
    left = bare(left)
    if left == "result":
        return "result", "the result"
    if left == "result.now":
        return "result", "the result's elements"
    if cell := re.fullmatch(r"(\w+)\.new", left):
        return cell[1], "a lent cell"
    if (view := re.fullmatch(r"(\w+) result", left)) and view[1] in views:
        return "result", "a view of the result"
    return None, None


def known_before(term, function, result_known):
    """Whether a term names nothing that is known only after the call, but for the result where that is settled. A word before ` =` names
    a record's field."""
    if not result_known and re.search(r"(?<!\.)\bresult\b(?! =)", term):
        return False
    return not any(re.search(rf"(?<!\.)\b{cell}\b(?!\.old\b| =)", term) for cell in function.lent)


def equations(claim):
    """The equations of a claim, each as its two sides, and whether bounds stand beside them; nothing where it has another form."""
    claim = bare(claim)
    if both := split_at(claim, "×"):
        first, rest = equations(both[0]), equations(both[1])
        return (first[0] + rest[0], first[1] or rest[1]) if first and rest else (first[0], True) if first else None
    if whole := re.match(r"◌≡◌ \{A = \w+\} (?=\(record \{)", claim):
        stop = closed(claim, whole.end()) + 1
        return [(bare(claim[whole.end():stop]), bare(claim[stop:]))], False
    sides = split_at(claim, "≡")
    return ([sides], False) if sides else None


def settled_by(function, views):
    """The parts of the outcome that the contract settles, and the form that it has."""
    settled, shown, forms = set(), [], []
    for clause in function.ensures:
        head = re.fullmatch(r"(?:let (.*?) in )?(.*)", clause)
        if not (found := equations(head[2])):
            return set(), "no equation"
        named = head[1] or ""
        for left, right in found[0]:
            if not known_before(f"{named} {right}", function, "result" in settled):
                return set(), "an equation whose right side is not computed from what was there before"
            whole = left.startswith("record {")
            values = [bare(entry.split(" = ", 1)[1]) for entry in left[len("record {"):-1].split(";") if entry.strip()] if whole else [left]
            of_result = [value for value in values if value.startswith("result.") and value != "result.now"]
            fields = [value[len("result."):] for value in of_result]
            parts = [settles(value, views) for value in values if value not in of_result]
            if (None, None) in parts:
                continue
            settled |= {part for part, _ in parts}
            shown += [field.removesuffix(".now") for field in fields]
            if fields and sorted(shown) == sorted(function.fields):
                settled.add("result")
            form = parts[0][1] if not whole and parts else "a field of the result" if not whole else "a record of the result and lent cells"
            forms.append("a record of the result by its fields and lent cells" if whole and fields else form)
        if found[1]:
            forms[-1] += " and a bound"
    return settled, ", then ".join(dict.fromkeys(forms)) or "an equation on something else"


def fields_of_structs():
    """The fields of each struct, those of a struct in it by their path."""
    shapes = {
        struct[1]: re.findall(r"^ +(?:pub )?(\w+): (?:&'\w+ )?(\w+)?", struct[2], re.M)
        for crate in CRATES for source in (ROOT / "crates" / crate / "src").glob("**/*.rt")
        for struct in re.finditer(r"^pub(?:\(crate\))? struct (\w+)(?:<[^>]*>)? \{\n(.*?)^\}", source.read_text(), re.M | re.S)
    }

    def paths(name):
        return [f"{field}.{path}" if path else field for field, kind in shapes[name] for path in (paths(kind) if kind in shapes else [""])]

    return {name: paths(name) for name in shapes}


def functions():
    found, fields = {}, fields_of_structs()
    for crate in CRATES:
        sources = sorted((ROOT / "crates" / crate / "src").glob("**/*.rt"))
        texts = {source: source.read_text() for source in sources}
        for source, text in texts.items():
            module = [] if source.stem == "lib" else [source.stem]
            for match in FUNCTION.finditer(text):
                owner = re.findall(r"^impl(?:<[^>]*>)? (\w+)(?:<[^>]*>)? \{|^\}", text[:match.start()], re.M)[-1:] if match[1] else []
                path = "::".join(module + [word for word in owner if word] + [match[2]])
                found[crate, path] = Function(crate, path, text, match.end(), fields)
            for trait in TRAIT.finditer(text):
                for match in TRAIT_FUNCTION.finditer(text, trait.start(2), trait.end(2)):
                    path = "::".join(module + [trait[1], match[1]])
                    found[crate, path] = Function(crate, path, text, match.end(), fields)
    return found


def tables():
    """The rows of the page: by crate and function what a row says, and what is left open."""
    rows, open_rows, twice, crate, kind = {}, {}, [], None, None
    for line in PAGE.read_text().splitlines():
        if line.startswith("#"):
            crate, kind = line.strip("# `"), None
        elif line in (ROWS, OPEN):
            kind = line
        elif not line.startswith("|"):
            kind = None
        elif kind and not line.startswith("|---"):
            cells = [cell.strip() for cell in line.strip("|").split(" | ")]
            name = cells[0].strip("` ")
            key, into = ((crate, name), rows) if kind == ROWS else (tuple(name.split("::", 1)), open_rows)
            if key in into:
                twice.append("::".join(key))
            into[key] = cells[1:]
    return rows, open_rows, twice


def faults_of_row(function, cells, edits):
    place = f"{function.crate}::{function.path}"
    if len(cells) != 4 or not all(cells):
        return [f"{place}: its row has not five cells"]
    faults = []
    names = re.findall(r"`([^`]+)`", cells[1])
    faults += [f"{place}: its contract has no {name}" for name in names if not function.says(name)]
    if not names:
        faults.append(f"{place}: its row cites nothing")
    if len(cells[2].split("; ")) != 2:
        faults.append(f"{place}: its row has not two wrong answers")
    shown = [word.strip("`") for word in cells[3].split(", ")]
    for word in shown:
        home, _, edit = word.rpartition("/")
        if word != "contract" and f"{home or function.crate}/{edit}" not in edits:
            faults.append(f"{place}: there is no edit {word}")
    return faults


def main():
    parser = argparse.ArgumentParser(description=__doc__, formatter_class=argparse.RawDescriptionHelpFormatter)
    parser.add_argument("--forms", action="store_true", help="tell how many contracts have which form")
    wanted = parser.parse_args()
    found = functions()
    rows, open_rows, twice = tables()
    edits = {f"{edit.parent.parent.name}/{edit.name}" for edit in (ROOT / "crates").glob("*/must-fail/*.edit")}
    views = set(re.findall(r"^pub (\w+)_injective ", LAWS.read_text(), re.M))
    faults = [f"{name}: two rows" for name in twice]
    faults += [f"{crate}::{name}: no row" for crate, name in found if (crate, name) not in rows]
    faults += [f"{crate}::{name}: a row, but no such function" for crate, name in rows if (crate, name) not in found]
    faults += [f"{'::'.join(key)}: listed as open, but no such function" for key in open_rows if key not in found]
    named = {edit.rpartition("/")[2] for edit in edits}
    faults += [f"there is no edit {edit}" for edit in sorted(set(re.findall(r"\w+\.edit\b", PAGE.read_text())) - named)]
    forms, settled_count, open_count = collections.Counter(), 0, 0
    for key, function in found.items():
        if key in rows:
            faults += faults_of_row(function, rows[key], edits)
        settled, form = settled_by(function, views)
        left = [part for part in function.sought if part not in settled]
        listed = re.findall(r"`([^`]+)`", open_rows[key][0]) if key in open_rows else []
        forms[form + (", and more left open" if left and settled else "")] += 1
        settled_count += not left
        open_count += bool(left and listed)
        if left and not listed:
            faults.append(f"{'::'.join(key)}: its contract does not settle {', '.join(left)} ({form})")
        elif "result" not in left and sorted(left) != sorted(listed):
            faults.append(f"{'::'.join(key)}: listed as open is {', '.join(listed)}, open is {', '.join(left) or 'nothing'}")
    if wanted.forms:
        print("\n".join(f"{count:4} {form}" for form, count in forms.most_common()))
    each = "each with a row" if set(found) <= set(rows) else f"{len(set(found) & set(rows))} with a row"
    counts = f"{settled_count} contracts of a settled form, {open_count} listed with what they leave open"
    print("\n".join(faults + [f"{len(found)} functions, {each}; {counts}; {len(faults)} complaints"]))
    sys.exit(bool(faults))


run(main)
