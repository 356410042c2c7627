#!/usr/bin/env python3
"""Checks the outcome definitions of crates/*/specs against a file of cases, by computation.

    tools/spec_cases.py FILE [--jobs 2] [--explain 5]

FILE has a line for each model: {"model": {columns}, "calls": [..]}. Bytes are hex. A call has its op (check, normalise,
encode, fragments, decode, prepare), its input, room (the result buffer's length) and, where it has scratch, the two lengths; then
answer = [number, place, written, drops, skips], out and scratch_after. Before a call every result cell is 9 and every
scratch byte is 5. Of prepare the index is the result and adjacency the first scratch; {"runs": [[word, times], ..]} is a row of words.
Where a call of prepare has no scratch_after, adjacency is not compared: the definitions take too long on many pieces.

Each case becomes one equation that the prover computes, in a repository of its own outside this one; a case of prepare one for the answer
and one for each row, which is compared word by word. A case that differs is named by its line and its call (both counted from 1), with what
the definitions give in the place of what FILE says; of prepare's rows that is the first word that differs. Cases that could not be computed,
as too large ones, count as failed; the first of each reason is named with it. The exit status is 0 only if no case failed; the last line is
'N passed, M failed'.
"""
import argparse
import concurrent.futures
import json
import pathlib
import re
import shutil
import subprocess
import tempfile

from complaints import needs, run

ROOT = pathlib.Path(__file__).resolve().parent.parent
NONE = 4294967295
CASES_A_CRATE = 400

HEADER = """\
use Rattle.std.specs.Prelude.{ℕ, ◌/◌, ◌%◌, ◌^◌, ◌≡◌, refl, Bool, true, false, List, [], ◌∷◌, ◌++◌, eqb, length, get_or, take, drop, replicate, None, Some}
use Rattle.utf8.specs.Lists.{same}
use Rattle.model.specs.Model.{Model, TokenList}
use Rattle.model.specs.declared.Step.{Step}
use Rattle.model.specs.declared.Step.TheVariants.{Prepend, Replace, CollapseSpaces, Strip}
use Rattle.model.specs.declared.Metaspace.{Metaspace}
use Rattle.model.specs.declared.PrependScheme.TheVariants as scheme
use Rattle.theorems.specs.Cases.{Call, check, normalise, encode, fragments, decode, prepare, Lent, Case, Left, left, same_answer, agrees}

"""


# ---- antt text

def runs(values):
    """The list as an antt term; a run of equal elements is written by its length."""
    parts, i, single = [], 0, []
    def flush():
        if single:
            parts.append("(" + " ∷ ".join(single) + " ∷ [])")
            single.clear()
    while i < len(values):
        j = i
        while j < len(values) and values[j] == values[i]:
            j += 1
        if j - i >= 8:
            flush()
            parts.append(f"replicate {j - i} {values[i]}")
        else:
            for _ in range(j - i):
                single.append(str(values[i]))
                if len(single) == 256:
                    flush()
        i = j
    flush()
    if not parts:
        return "[]"
    text = parts.pop()
    while parts:
        text = f"({parts.pop()} ++ {text})"
    return f"({text})"


def octets(digits):
    return runs(list(bytes.fromhex(digits)))


def flag(value):
    return "true" if value else "false"


def flags(values):
    return runs([flag(x) for x in values])


def span(pair):
    return f"(record {{ place = {pair[0]}; len = {pair[1]} }})"


def step(s):
    kind = s[0]
    if kind == "prepend":
        return f"(Prepend {span(s[1])})"
    if kind == "replace":
        return f"(Replace {span(s[1])} {span(s[2])})"
    if kind == "collapse":
        return f"(CollapseSpaces {span(s[1])})"
    if kind == "strip":
        return f"(Strip {flag(s[1])} {flag(s[2])})"
    raise ValueError(f"no step is called {kind}")


def token_list(t):
    return (f"record {{ bytes = {octets(t['bytes'])}; offsets = {runs(t['offsets'])}; ids = {runs(t['ids'])}; "
            f"lstrip = {flags(t['lstrip'])}; rstrip = {flags(t['rstrip'])} }}")


def model_text(m):
    fallback = m["fallback"]
    if isinstance(fallback, dict):
        fallback = [fallback.get(str(b), NONE) for b in range(256)]
    steps = [step(s) for s in m["steps"]] + ["(Strip false false)"] * (16 - len(m["steps"]))
    metaspace = "None"
    if m["metaspace"]:
        name, split = m["metaspace"]
        metaspace = f"Some (record {{ prepend = scheme.{name.capitalize()}; split = {flag(split)} }})"
    columns = {
        "piece_bytes": octets(m["piece_bytes"]), "piece_offsets": runs(m["piece_offsets"]), "lookup": runs(m["lookup"]),
        "fallback": runs(fallback), "left": runs(m["left"]), "right": runs(m["right"]), "result": runs(m["result"]),
        "rank": runs(m["rank"]), "first": token_list(m["first"]), "second": token_list(m["second"]),
        "step_bytes": octets(m["step_bytes"]), "steps": runs(steps), "step_count": str(len(m["steps"])),
        "metaspace": metaspace,
    }
    return "record { " + "; ".join(f"{k} = {v}" for k, v in columns.items()) + " }"


def cells(value):
    if isinstance(value, dict):
        return [word for word, times in value["runs"] for _ in range(times)]
    return list(bytes.fromhex(value)) if isinstance(value, str) else value


def lent(out, scratch):
    a, b = scratch or ([], [])
    return f"record {{ out = {runs(out)}; scratch_a = {runs(a)}; scratch_b = {runs(b)} }}"


class One:
    """A case: where it stands in the file, and its text."""

    def __init__(self, line, number, model, call):
        self.line, self.number, self.model, self.op = line, number, model, call["op"]
        self.name = f"case_{line}_{number}"
        if self.op in ("check", "prepare"):
            self.call = self.op
        elif self.op == "normalise":
            self.call = f"(normalise {octets(call['text'])} {flag(call['first'])})"
        elif self.op == "encode":
            self.call = f"(encode {octets(call['text'])} {flag(call['continuation'])})"
        elif self.op == "fragments":
            self.call = f"(fragments {octets(call['text'])} {call['target']})"
        elif self.op == "decode":
            self.call = f"(decode {runs(call['ids'])})"
        else:
            raise ValueError(f"no call is called {self.op}")
        self.answer = call["answer"]
        self.out = cells(call.get("out", []))
        self.scratch = [cells(s) for s in call.get("scratch_after", [])]
        self.before = lent([9] * call.get("room", 0), [[5] * n for n in call.get("scratch", [])])
        self.after = lent(self.out, self.scratch)

    def equations(self):
        """By name. All of them hold exactly if the definitions leave what the file says."""
        number, place, written, drops, skips = self.answer
        answer = f"record {{ number = {number}; place = {place}; written = {written}; drops = {drops}; skips = {skips} }}"
        if self.op == "prepare":
            tests = {"answer": f"same_answer l.answer ({answer})"}
            tests.update({part: f"same l.after.{part} {runs(row)}" for part, row in self.buffers().items()})
            return {f"{self.name}_{part}": self.question(f"{self.name}_{part}", test) for part, test in tests.items()}
        return {self.name: f"{self.name} : agrees (record {{ model = {self.model}; call = {self.call}; before = {self.before}; "
                           f"answer = {answer}; after = {self.after} }}) ≡ true\nunfolding agrees {self.model}\n{self.name} = refl\n\n"}

    def buffers(self):
        return dict(zip(("out", "scratch_a", "scratch_b"), [self.out, *self.scratch]))

    def question(self, name, test):
        """An equation that holds exactly if the test of what the definitions leave, called `l`, is true."""
        return (f"{name} : (let l : Left = left {self.model} {self.call} ({self.before}) in {test}) ≡ true\n"
                f"unfolding agrees {self.model}\n{name} = refl\n\n")


# ---- the throw-away repository

class Repository:
    def __init__(self, folder, jobs):
        self.folder, self.jobs, self.crates = folder, jobs, 0
        # the crate that says what a case is, and those it uses: no program and no code that cases have no use for
        uses = dict(re.findall(r"^(\w+)[^:\n]*:(.*)", (ROOT / "crates.txt").read_text(), re.M))
        needed = uses["theorems"].split() + ["theorems"]
        self.libraries = " ".join(needed)
        self.listed = "".join(f"{n}:{uses[n]}\n" for n in needed)
        for name in needed:
            shutil.copytree(ROOT / "crates" / name, folder / "crates" / name, ignore=shutil.ignore_patterns("out", "must-fail"))

    def rt(self, name):
        """Checks a crate of cases: whether it is proved, and what was said. What it stands on is proved first, over what checks here kept."""
        ran = subprocess.run(["rt", "check", "--jobs", "1"], cwd=self.folder / "crates" / name, stdout=subprocess.PIPE, stderr=subprocess.STDOUT,
                             text=True)
        verdicts = re.findall(r"^logic=.*", ran.stdout, re.M)
        return ran.returncode == 0 and bool(verdicts) and verdicts[-1].startswith("logic=proved "), ran.stdout

    def prove(self, groups):
        """Each group is model texts by name and equations by name. Answers for each the names that were refused, each with its reason,
        or a reason alone where the whole group could not be judged."""
        names, lines = [], []
        for models, equations in groups:
            name = f"cases_{self.crates}"
            self.crates += 1
            crate = self.folder / "crates" / name
            (crate / "src").mkdir(parents=True)
            (crate / "specs").mkdir()
            (crate / "src" / "lib.rt").write_text("// Cases.\n\n#![tactic(auto)]\n")
            (crate / "specs" / "Lib.antt").write_text("pub mod Cases\n")
            text, starts = HEADER, []
            for m, body in models.items():
                text += f"unfoldable {m} : Model\n{m} = {body}\n\n"
            at = text.count("\n") + 1
            for e, body in equations.items():
                starts.append((at, e))
                text += body
                at += body.count("\n")
            (crate / "specs" / "Cases.antt").write_text(text)
            names.append(name)
            lines.append(starts)
        with open(self.folder / "crates.txt", "w") as f:
            f.write(self.listed + "".join(f"{n}: {self.libraries}\n" for n in names))
        # the first proves what all stand on
        with concurrent.futures.ThreadPoolExecutor(self.jobs) as pool:
            ran = [self.rt(names[0]), *pool.map(self.rt, names[1:])]
        verdicts = []
        for (proved, said), starts in zip(ran, lines):
            if proved:
                verdicts.append(({}, None))
                continue
            refused, other = {}, None
            for place, reason in re.findall(r"^\./specs/Cases\.antt:(\d+):\d+: error: (.*)", said, re.M):
                owner = [e for at, e in starts if at <= int(place)]
                if owner:
                    refused.setdefault(owner[-1], reason)
                else:
                    other = reason
            if not refused and other is None:
                other = said[-2000:] or "the prover said nothing"
            verdicts.append((refused, other))
        for name in names:
            shutil.rmtree(self.folder / "crates" / name)
        return verdicts


def judge(repository, groups):
    """The names of the equations that fail. An equation that was refused is put again as its opposite: where that is proved, the two
    sides differ and the reason is empty; where it is not, the equation could not be computed, and the reason says why."""
    failed, again = {}, []
    for (models, equations), (refused, other) in zip(groups, repository.prove(groups)):
        if other is not None:
            failed.update({e: other for e in equations})
        elif refused:
            failed.update({e: "" for e in refused})
            again.append((models, {e: t.replace("≡ true", "≡ false") if e in refused else t for e, t in equations.items()}))
    for (models, equations), (refused, other) in zip(again, repository.prove(again) if again else []):
        if other is not None:
            failed.update({e: other for e in equations})
        failed.update(refused)
    return failed


# ---- what the definitions give instead

FIELDS = ("number", "place", "written", "drops", "skips")


def known_bits(repository, case, models, terms, width):
    """The value of each term, by a question for each bit."""
    equations = {f"bit_{i}_{k}": case.question(f"bit_{i}_{k}", f"eqb (({t}) / (2 ^ {k}) % 2) 1")
                 for i, t in enumerate(terms) for k in range(width)}
    no = judge(repository, [(models, equations)])
    return [sum(1 << k for k in range(width) if f"bit_{i}_{k}" not in no) for i in range(len(terms))]


def first_difference(repository, case, models, buffer, expected):
    """The place of the first cell that differs, if there is one: by eighths of the part that has it."""
    start, stop = 0, len(expected)
    while stop - start > 1:
        size = -(-(stop - start) // 8)
        parts = {f"part_{at}": (at, min(at + size, stop)) for at in range(start, stop, size)}
        equations = {name: case.question(name, f"same (take {e - a} (drop {a} l.after.{buffer})) {runs(expected[a:e])}")
                     for name, (a, e) in parts.items()}
        no = judge(repository, [(models, equations)])
        wrong = [parts[name] for name in parts if name in no]
        if not wrong:
            return []
        start, stop = wrong[0]
    return list(range(start, stop))


def explain(repository, case, models):
    """In words: each part of the answer or buffer that differs."""
    wanted = {f"l.answer.{f}": v for f, v in zip(FIELDS, case.answer)}
    for b, expected in case.buffers().items():
        wanted[f"length l.after.{b}"] = len(expected)
        places = first_difference(repository, case, models, b, expected) if case.op == "prepare" else range(len(expected))
        wanted.update({f"get_or l.after.{b} {i} 0": expected[i] for i in places})
    terms = list(wanted)
    equations = {f"same_{i}": case.question(f"same_{i}", f"eqb ({t}) {wanted[t]}") for i, t in enumerate(terms)}
    no = judge(repository, [(models, equations)])
    wrong = [t for i, t in enumerate(terms) if f"same_{i}" in no][:8]
    values = known_bits(repository, case, models, wrong, 32)
    def shown(term):
        found = re.match(r"get_or l\.after\.(\w+) (\d+) 0", term)
        if found:
            return f"{found[1]}[{found[2]}]"
        return term.replace("l.answer.", "").replace("l.after.", "")
    return [f"{shown(t)}: the definitions give {v}, the file says {wanted[t]}" for t, v in zip(wrong, values)]


def main():
    p = argparse.ArgumentParser(description=__doc__, formatter_class=argparse.RawDescriptionHelpFormatter)
    p.add_argument("file")
    p.add_argument("--jobs", type=int, default=2)
    p.add_argument("--explain", type=int, default=5, help="how many differing cases are explained by value")
    a = p.parse_args()
    needs("rt", "it comes with Rattle's kit")
    models, cases = {}, []
    for line, text in enumerate(open(a.file), 1):
        if not text.strip():
            continue
        try:
            entry = json.loads(text)
            model = f"model_{line}"
            models[model] = model_text(entry["model"])
            cases += [One(line, number, model, call) for number, call in enumerate(entry["calls"], 1)]
        except (KeyError, TypeError, ValueError) as fault:
            p.exit(2, f"{a.file}: line {line} is not of the form that cases have: {type(fault).__name__} {fault}\n")
    equations, groups = {c: c.equations() for c in cases}, []
    for at in range(0, len(cases), CASES_A_CRATE):
        some = cases[at:at + CASES_A_CRATE]
        groups.append(({c.model: models[c.model] for c in some}, {e: text for c in some for e, text in equations[c].items()}))
    with tempfile.TemporaryDirectory() as folder:
        repository = Repository(pathlib.Path(folder) / "repository", a.jobs)
        refused = judge(repository, groups)
        reasons = {c: [refused[e] for e in equations[c] if e in refused] for c in cases}
        failed = [c for c in cases if reasons[c]]
        shown, said = 0, set()
        for case in failed:
            reason = min(reasons[case])
            if reason:
                if reason not in said:
                    print(f"line {case.line}, call {case.number} ({case.op}) was not computed: {reason[:600]}")
                said.add(reason)
                continue
            print(f"line {case.line}, call {case.number} ({case.op}) differs")
            shown += 1
            if shown <= a.explain:
                for sentence in explain(repository, case, {case.model: models[case.model]}):
                    print(f"  {sentence}")
    print(f"{len(cases) - len(failed)} passed, {len(failed)} failed")
    raise SystemExit(bool(failed) or not cases)


run(main)
