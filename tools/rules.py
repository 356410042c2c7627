#!/usr/bin/env python3
"""Checks that what the documents cite exists.

    tools/rules.py

A link [`name`](file) in docs/*.md names a definition or law that the file has, or a function `crate::module::name`, or a method `crate::Type::name`, with the file of its
proof: Answers.antt, where there is none Invariants.antt, and its source where Rattle proves it with no file. Every "rule 5.3" in the repository names a rule of docs/RULES.md. Prints what does
not exist and exits with 1 if there is anything.
"""
import argparse
import pathlib
import re
import subprocess
import sys

from complaints import end, needs, run

ROOT = pathlib.Path(__file__).resolve().parent.parent
LINK = re.compile(r"\[`([^`]+)`\]\(([^)]+)\)")
CITED = re.compile(r"\b[Rr]ules? (\d+)\.(\d+)")


PROOFS = ("Answers.antt", "Invariants.antt")


def source_of(function):
    """The source file of crate::module::name, its name, and the file that a link to it leads to."""
    crate, *modules, name = function.split("::")
    folder = ROOT / "crates" / crate
    source = folder / "src" / ("/".join(modules) + ".rt" if modules else "lib.rt")
    if modules and modules[-1][0].isupper():
        method = re.compile(rf"^impl\b[^\n]*\b{modules[-1]}\b(?:(?!^\}}).)*?^    (?:pub(?:\(crate\))? )?fn {name}\b", re.M | re.S)
        source = next((file for file in sorted((folder / "src").rglob("*.rt")) if method.search(file.read_text())), source)
    proofs = [folder / "proofs" / "/".join(modules) / name / file for file in PROOFS]
    return source, name, next((proof for proof in proofs if proof.is_file()), source)


def defines(text, name):
    words = r"(?:pub )?(?:unfoldable |abbrev )?(?:pub )?(?:record |data )?"
    return re.search(r"^\s*" + words + re.escape(name) + r"(?: |$)", text, re.M)


def faults_of_link(name, target):
    if not target.is_relative_to(ROOT) or not target.is_file():
        return f"no file {target}"
    if "::" not in name:
        return None if defines(target.read_text(), name) else f"{target.relative_to(ROOT)} has no {name}"
    source, function, expected = source_of(name)
    if not source.is_file():
        return f"no file {source.relative_to(ROOT)}"
    if not re.search(r"\bfn " + function + r"\b", source.read_text()):
        return f"{source.relative_to(ROOT)} has no fn {function}"
    return None if target == expected else f"{name} leads to {target.relative_to(ROOT)}, not to {expected.relative_to(ROOT)}"


def rules():
    """The numbers of all rules: (section, rule)."""
    found, section = set(), 0
    for line in (ROOT / "docs" / "RULES.md").read_text().splitlines():
        if heading := re.match(r"## (\d+)\.", line):
            section = int(heading[1])
        elif rule := re.match(r"(\d+)\. ", line):
            found.add((section, int(rule[1])))
    return found


def main():
    argparse.ArgumentParser(description=__doc__, formatter_class=argparse.RawDescriptionHelpFormatter).parse_args()
    needs("git", "it names the files to look through")
    faults, links, cited = [], 0, 0
    for page in sorted((ROOT / "docs").glob("*.md")):
        for name, path in LINK.findall(page.read_text()):
            links += 1
            if fault := faults_of_link(name, (page.parent / path).resolve()):
                faults.append(f"{page.name}: {fault}")
    known = rules()
    rows = re.findall(r"^\| (\d+)\.(\d+)[, |]", (ROOT / "docs" / "RULES.md").read_text(), re.M)
    faults += [f"RULES.md: a table has {s}.{r}, which is no rule" for s, r in rows if (int(s), int(r)) not in known]
    listed = subprocess.run(["git", "ls-files"], cwd=ROOT, capture_output=True, text=True)
    if listed.returncode != 0:
        end(f"git does not list the files of {ROOT}: {listed.stderr.strip()}")
    for name in listed.stdout.split():
        if name.endswith(".jsonl") or not (ROOT / name).is_file():
            continue
        for section, rule in CITED.findall((ROOT / name).read_text(errors="replace")):
            cited += 1
            if (int(section), int(rule)) not in known:
                faults.append(f"{name}: there is no rule {section}.{rule}")
    print("\n".join(faults + [f"{links} links and {cited} citations of {len(known)} rules: {len(faults)} lead nowhere"]))
    sys.exit(bool(faults))


run(main)
