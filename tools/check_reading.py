#!/usr/bin/env python3
"""Checks docs/TRUST.md: its tables of what to read have what of specs/ public calls need, each file once, with its lines, and the text
names their sums. With --write it writes all numbers; which row a file stands in is decided by hand.

The first table has whole files, one in each row, `| `CRATE/FILE` | LINES | ..`; the second, `| .. | `CRATE/FILE` LINES, .. |`, the lines of
those definitions of a file that clauses of public calls lead to (tools/reached.py).
"""
import pathlib
import re
import sys

from reached import reached_of

CRATES = (
    "borsh_io borsh_codec borsh_types borsh_ser borsh_de borsh_arrays borsh_enums borsh_walks borsh_plan borsh_values borsh_json "
    "borsh_compare borsh_definitions borsh_source borsh_texts borsh_schema borsh borsh_check_lines borsh_tool_commands borsh_c"
).split()

FIRST = re.compile(r"^\| `(\w+/[\w/]+)` \| (\d+) \|", re.M)
SECOND = re.compile(r"`(\w+/[\w/]+)` (\d+)")
top = pathlib.Path(__file__).resolve().parent.parent


def whole(names):
    """The lines of these files."""
    files = {}
    for name in names:
        crate, _, file = name.partition("/")
        path = top / "crates" / crate / "specs" / f"{file}.antt"
        if path.is_file():
            files[name] = len(path.read_text(encoding="utf-8").splitlines())
    return files


def with_numbers(text, readme, files):
    """The two pages with the lines of each file that TRUST names, and with the sum of each of its two tables in the sentence above it, the
    first one in the README too."""
    rows = [line for line in text.splitlines() if line.startswith("|")]
    tables = FIRST.findall("\n".join(rows)), SECOND.findall("\n".join(rows))
    sums = [f"{sum(files.get(name, 0) for name, _ in table):,}" for table in tables]
    text = FIRST.sub(lambda it: f"| `{it[1]}` | {files.get(it[1], it[2])} |", text)
    text = SECOND.sub(lambda it: f"`{it[1]}` {files.get(it[1], it[2])}", text)
    given = iter(sums)
    text = re.sub(r"\bthese [\d,]+(\s+lines)", lambda it: f"these {next(given)}{it[1]}", text, count=len(sums))
    return text, re.sub(r"\bwhich [\d,]+ lines of definitions", f"which {sums[0]} lines of definitions", readme)


def main():
    pages = [top / "docs/TRUST.md", top / "README.md"]
    before, reached = [page.read_text(encoding="utf-8") for page in pages], reached_of(CRATES)
    first = [name for name, _ in FIRST.findall(before[0])]
    files = {**{name: lines for name, lines in reached.items() if name.partition("/")[0] in CRATES}, **whole(first)}
    after = with_numbers(*before, files)
    names = [*first, *(name for name, _ in SECOND.findall(before[0]))]
    wrong = [f"`{name}` stands there twice" for name in sorted(set(names)) if names.count(name) > 1]
    wrong += [f"`{name}` isn't there" for name in sorted(files.keys() - set(names))]
    wrong += [f"no public call needs `{name}`" for name in sorted(set(names) - files.keys())]
    if sys.argv[1:] == ["--write"]:
        for page, text in zip(pages, after):
            page.write_text(text, encoding="utf-8")
    elif list(after) != before:
        wrong.append("numbers of lines are others: run tools/check_reading.py --write")
    for it in wrong:
        print(f"docs/TRUST.md, what to read: {it}")
    if wrong:
        sys.exit(1)
    print(f"docs/TRUST.md lists all that public calls need of specs/: {sum(files.values())} lines")


main()
