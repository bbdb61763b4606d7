#!/usr/bin/env python3
"""Checks docs/TESTS.md and docs/original-tests.txt against the tests. With --write it writes the numbers of docs/TESTS.md first.

The tables of docs/TESTS.md have each file of rows, `| `CRATE/FILE` | NUMBER/SECTIONS | ..`, and each crate with test
functions, `| `CRATE` | NUMBER | ..`, once with the number of its rows, and of their sections, or of its functions; and each reason
for which tests of the original are left out, `| REASON | NUMBER |`.

docs/original-tests.txt has the paths of the original's files of tests; below each, indented by two, names of tests; below these,
indented by four, where they are tested here: `PATH: SECTION` of a file of rows, `PATH: FUNCTION`, or `left out: REASON`; and, if
a type isn't the original's, `differs: WHY`. Below a section, indented by six, are beginnings of its rows, with a space for each tab:
the types that the original's tests are of, so that none of them is exchanged.
"""

import pathlib
import re
import sys

TOP = pathlib.Path(__file__).resolve().parent.parent
PAGE = TOP / "docs/TESTS.md"
TEST = re.compile(r"#\[test\]\s+fn (\w+)\(")
# A row of the page's tables: a name, a number, and perhaps that of sections.
ROW = re.compile(r"^(\| `?([^`|]+?)`? \| )([\d,]+)(?:/(\d+))? \|", re.M)


def sections(file):
    """The sections of a file of rows, with the number of their rows."""
    counts, current, in_heading = {}, None, False
    for line in file.read_text(encoding="utf-8").splitlines():
        if line.startswith("# "):
            if not in_heading:
                current = line[2:]
                counts[current] = counts.get(current, 0)
        elif line:
            counts[current] += 1
        in_heading = line.startswith("# ")
    return counts


def files_of_rows():
    return [*TOP.glob("crates/test_*/data/*.tsv"), *TOP.glob("derive/originals/*.tsv")]


def rows_of():
    """The rows of each section, `PATH: SECTION`, with a space for each tab and one behind them."""
    found = {}
    for file in files_of_rows():
        for part in re.findall(r"(?:^#.*\n)+(?:^(?!#).*\n)*", file.read_text(encoding="utf-8"), re.M):
            section = part.split("\n")[0][2:]
            found[f"{file.relative_to(TOP)}: {section}"] = [f"{row} ".replace("\t", " ") for row in part.splitlines()]
    return found


def tests():
    """Of each file its sections with the number of their rows, or its test functions, each counting as one."""
    files = {file: sections(file) for file in files_of_rows()}
    for file in TOP.glob("crates/*/src/**/*.rt"):
        found = TEST.findall(file.read_text(encoding="utf-8"))
        if found:
            files[file] = dict.fromkeys(found, 1)
    return {str(file.relative_to(TOP)): counts for file, counts in files.items()}


def short(path):
    """`crates/CRATE/data/FILE.tsv` as `CRATE/FILE`, and `crates/CRATE/src/FILE.rt` as `CRATE`."""
    if path.startswith("derive/"):
        return path
    _, crate, _, name = path.split("/", 3)
    return f"{crate}/{name[:-4]}" if name.endswith(".tsv") else crate


def original_tests(rows, wrong):
    """The tests of the original, `path: test`, each with where it is tested here; the rows named there are in their sections."""
    places, path, names, in_names, place = {}, None, [], False, ""
    for line in (TOP / "docs/original-tests.txt").read_text(encoding="utf-8").splitlines():
        if line.startswith("      "):
            if not any(row.startswith(line.strip() + " ") for row in rows.get(place, [])):
                wrong.append(f"docs/original-tests.txt: `{place}` has no row `{line.strip()}`")
        elif line.startswith("    "):
            place = line.strip()
            for name in names:
                places[f"{path}: {name}"].append(line.strip())
        elif line.startswith("  "):
            names = (names if in_names else []) + line.split()
            for name in line.split():
                places[f"{path}: {name}"] = []
        elif line and not line.startswith("#"):
            path = line
        in_names = line.startswith("  ") and not line.startswith("    ")
    return places


def told():
    """Of each row of the tables in docs/TESTS.md that has a number: the name, the number, and that of sections, or 0."""
    rows = ROW.findall(PAGE.read_text(encoding="utf-8"))
    return [(name, int(number.replace(",", "")), int(count or 0)) for _, name, number, count in rows]


def write(numbers, in_sections):
    """Writes the numbers of the rows whose names there are."""

    def row(it):
        if it[2] not in numbers:
            return it[0]
        count = f"/{in_sections[it[2]]}" if it[2] in in_sections else ""
        return f"{it[1]}{numbers[it[2]]:,}{count} |"

    PAGE.write_text(ROW.sub(row, PAGE.read_text(encoding="utf-8")), encoding="utf-8")


def main():
    wrong = []
    files, originals = tests(), original_tests(rows_of(), wrong)
    there = {f"{path}: {name}" for path, names in files.items() for name in names}
    numbers, in_sections = {}, {}
    for path, counts in files.items():
        numbers[short(path)] = numbers.get(short(path), 0) + sum(counts.values())
        if path.endswith(".tsv"):
            in_sections[short(path)] = len(counts)
    left_out = 0
    for test, places in originals.items():
        if all(place.startswith("differs: ") for place in places):
            wrong.append(f"docs/original-tests.txt: `{test}` is nowhere")
        for place in places:
            reason = re.match(r"left out: (.+)", place)
            if reason:
                numbers[reason[1]] = numbers.get(reason[1], 0) + 1
                left_out += 1
            elif place not in there and not place.startswith("differs: "):
                wrong.append(f"docs/original-tests.txt: there is no `{place}`")
    if sys.argv[1:] == ["--write"]:
        write(numbers, in_sections)
    rows = told()
    if len(rows) != len({name for name, *_ in rows}):
        wrong.append("docs/TESTS.md: a name stands there twice")
    are = {(name, number, in_sections.get(name, 0)) for name, number in numbers.items()}
    for name, number, count in sorted(set(rows) ^ are):
        what = f"{number} in {count} sections" if count else f"{number}"
        wrong.append(f"docs/TESTS.md: {name} " + ("is listed with" if (name, number, count) in rows else "has") + f" {what}")
    for problem in dict.fromkeys(wrong):
        print(problem)
    if wrong:
        sys.exit(1)
    data = sum(sum(counts.values()) for path, counts in files.items() if path.endswith(".tsv"))
    functions = sum(len(counts) for path, counts in files.items() if path.endswith(".rt"))
    print(
        f"docs/TESTS.md: {data} rows in {sum(in_sections.values())} sections, {functions} functions; "
        f"{len(originals) - left_out} tests of the original, {left_out} left out"
    )


main()
