#!/usr/bin/env python3
"""Prints what the repository weighs: for each crate its lines of code, definitions and proofs and its must-fail edits, and how
long its clauses are; and fails where one of the bars is passed.
"""
import pathlib
import re
import subprocess
import sys

import registers

CLAUSE = re.compile(r"\s*(ensures|requires|ghost (?!use)\w+)\b[^{;]*\{")
TOP = pathlib.Path(__file__).resolve().parent.parent

# What may not be passed. Of the lines, which are those that tools/registers.py doesn't write, 25,500 are the codec's; 900 are of floats,
# `Arc`, `Cow` and what came with them, 2,500 of values by their container, 2,000 of their JSON and the calls from C, 1,200 of types of
# many fields, of what is no JSON and of lengths without writing, 8,700 of types by their text (both ways) and of two containers
# compared (their JSON too), also from C, of which 3,200 are to go, and 100 of keys whose order isn't told and of refusals' paths.
BARS = {
    "crates": 30,
    "lines of .rt that no script writes": 41100,
    "of these, tests and examples": 9000,
    "must-fail edits": 75,
    "crates with must-fail edits": 8,
}

# The crates whose code tools/registers.py writes in part, and how many lines of them may be kept by hand.
WRITTEN = ("borsh_types", "borsh_ser", "borsh_de", "borsh_schema")
BY_HAND = f"lines kept by hand of {', '.join(WRITTEN)}"
BARS[BY_HAND] = 6000

# Of crates together, in lines of code, definitions and proofs; the gate fails past those that are `KEPT`.
TOGETHER = {
    "borsh_plan, borsh_values": (2900, 1050, 5800),
    "borsh_json": (5050, 2750, 14800),
    "borsh_source, borsh_texts": (2200, 830, 1450),
    "borsh_compare": (900, 180, 920),
}
KEPT = ("borsh_plan, borsh_values",)


def count(files):
    return sum(len(file.read_text(encoding="utf8").splitlines()) for file in files)


def lines(folder, ending):
    return count(folder.rglob("*" + ending))


def clause_lines(file):
    """The lines of clauses and ghost members, each with its number: from the one that opens a clause to the one that closes it."""
    depth = 0
    for number, line in enumerate(file.read_text(encoding="utf8").splitlines(), 1):
        if depth > 0 or CLAUSE.match(line):
            yield number, line
            depth = max(depth + line.count("{") - line.count("}"), 0)


def weigh(crate):
    edits = len(list((crate / "must-fail").glob("*.edit")))
    return lines(crate / "src", ".rt"), lines(crate / "specs", ".antt"), lines(crate / "proofs", ".antt"), edits


def is_test(name):
    return name.startswith(("test_", "example_"))


def in_git():
    """The files that are committed, or will be."""
    command = ["git", "ls-files", "--cached", "--others", "--exclude-standard"]
    listed = subprocess.run(command, cwd=TOP, capture_output=True, text=True, check=False)
    names = listed.stdout.splitlines() or [str(path.relative_to(TOP)) for path in TOP.rglob("*") if "out" not in path.parts]
    return [TOP / name for name in names if (TOP / name).is_file()]


def beside():
    """The lines of what is no Rattle: scripts, C, Python, Rust of other compilers, and rows of data."""
    kinds = {"Python": 0, "shell": 0, "C": 0, "Rust": 0, "rows": 0, "documents": 0}
    endings = {".py": "Python", ".sh": "shell", ".c": "C", ".h": "C", ".rs": "Rust", ".tsv": "rows", ".md": "documents"}
    for file in in_git():
        kind = endings.get(file.suffix)
        if kind is None and not file.suffix:
            head = file.read_bytes()[:40].split(b"\n")[0]
            kind = "Python" if b"python" in head else "shell" if b"bash" in head or b"/sh" in head else None
        if kind is not None:
            kinds[kind] += count([file])
    return kinds


def main():
    crates = {path.name: weigh(path) for path in sorted((TOP / "crates").iterdir()) if (path / "src").is_dir()}
    print("| Crate | Code | Definitions | Proofs | Must-fail edits |\n|---|---|---|---|---|")
    for name, weight in crates.items():
        print(f"| {name} | " + " | ".join(map(str, weight)) + " |")
    print("| all | " + " | ".join(str(sum(weight[i] for weight in crates.values())) for i in range(4)) + " |")

    clauses = [
        (len(line), f"{file.relative_to(TOP)}:{number}")
        for file in (TOP / "crates").glob("*/src/**/*.rt")
        for number, line in clause_lines(file)
    ]
    long = [clause for clause in clauses if clause[0] > 100]
    longest = max(clauses)
    print(f"\n{len(clauses)} clause lines: {len(long)} are longer than 100 columns; the longest has {longest[0]} ({longest[1]})")
    print("Beside them, in lines: " + ", ".join(f"{kind} {number}" for kind, number in beside().items()))

    figures = {
        "crates": len(crates),
        "lines of .rt that no script writes": sum(weight[0] for weight in crates.values()) - sum(registers.written_lines(name) for name in WRITTEN),
        "of these, tests and examples": sum(weight[0] for name, weight in crates.items() if is_test(name)),
        "must-fail edits": sum(weight[3] for weight in crates.values()),
        "crates with must-fail edits": sum(1 for weight in crates.values() if weight[3]),
        BY_HAND: sum(crates[name][0] - registers.written_lines(name) for name in WRITTEN),
    }
    passed = [name for name, figure in figures.items() if figure > BARS[name]]
    for name, figure in figures.items():
        print(f"{name}: {figure} (at most {BARS[name]})")
    for names, bars in TOGETHER.items():
        weight = [sum(crates[name][i] for name in names.split(", ")) for i in range(3)]
        print(f"{names}: {weight} (at most {list(bars)}{'' if names in KEPT else ', to come'})")
        if names in KEPT and any(figure > bar for figure, bar in zip(weight, bars)):
            passed.append(names)
    if passed:
        sys.exit("passed: " + ", ".join(passed))


main()
