#!/usr/bin/env python3
"""Checks the pages: how long they are, that links and paths lead somewhere, and that what they quote is there.

A fenced block with a path behind its language quotes that file: its lines stand there one after another, but for lines `..`, where
others are left out. White space at the beginning of a line and the mark of a doc comment count for nothing. Other blocks are `text`,
which is no code; `console`, on the pages whose commands the gate runs (tools/pages.py, tools/console.py); the README's program; and those of
the bindings' pages, which the bindings' tests run.
"""
import pathlib
import re
import sys

TOP = pathlib.Path(__file__).resolve().parent.parent

# How many words a page may have, those beside the others together, and all of them but the changelog.
WORDS = {
    "README.md": 1500,
    "docs/TRUST.md": 2705,
    "docs/TUTORIAL.md": 2200,
    "docs/TOOL.md": 2740,
    "docs/CALLING.md": 1500,
    "docs/IMPLEMENTING.md": 2150,
    "docs/DESIGN.md": 3300,
    "docs/DECISIONS.md": 3000,
    "conformance/README.md": 700,
}
BESIDE = (
    "docs/DIFFERENCES.md",
    "docs/MAINTAINING.md",
    "docs/TESTS.md",
    "CONTRIBUTING.md",
    "CHANGELOG.md",
    "bench/README.md",
    "conformance/replay/README.md",
)
BESIDE_WORDS = 5070
ALL_WORDS = 23285
README_LINES = 150
TABLE_COLUMNS = 200

# Blocks that quote nothing, by page: what else the gate runs.
RUN = {
    "README.md": ("console", "rust"),
    "docs/TUTORIAL.md": ("console",),
    "docs/TOOL.md": ("console",),
    "docs/CALLING.md": ("console",),
    "bench/README.md": ("asm",),
    "docs/DECISIONS.md": ("asm",),
    "bindings/c/README.md": ("c",),
    "bindings/python/README.md": ("python",),
    "bindings/python/MACHINES.md": ("python",),
    "bindings/js/README.md": ("js",),
    "bindings/rust/README.md": ("rust", "toml"),
}


def pages():
    found = [TOP / name for name in (*WORDS, *BESIDE)] + list((TOP / "docs").glob("*.md"))
    for pattern in ("bindings/*/*.md", "conformance/*.md", "*.md"):
        found += TOP.glob(pattern)
    return sorted({page for page in found if page.exists()})


def without_code(text):
    return re.sub(r"^```.*?^```$", "", text, flags=re.M | re.S)


def anchors(page):
    """The names by which the headings of a page are linked to."""
    headings = re.findall(r"^#+ (.+)$", without_code(page.read_text(encoding="utf-8")), re.M)
    return {re.sub(r"[^\w\- ]", "", heading.lower()).replace(" ", "-") for heading in headings}


def bad_links(page):
    text = re.sub(r"`[^`\n]*`", "", without_code(page.read_text(encoding="utf-8")))
    for target in re.findall(r"\]\(([^)\s]+)\)", text):
        if re.match(r"\w+:", target):
            continue
        path, _, anchor = target.partition("#")
        there = (page.parent / path).resolve() if path else page
        if not there.exists():
            yield f"there is no {target}"
        elif anchor and anchor not in anchors(there):
            yield f"{target} has no such heading"


def bad_paths(page):
    """Paths of the repository, or of `crates/`, that aren't there; a word in capitals stands for some name."""
    text = page.read_text(encoding="utf-8")
    paths = re.findall(r"`((?:crates|docs|bindings|conformance|wrong|tools|bench|derive|\.ci)/[\w./*-]+)", text)
    paths += ["crates/" + path for path in re.findall(r"`((?!conformance/|wrong/)\w+/(?:src|specs|proofs|must-fail|data|tests)/[\w./*-]+)", text)]
    for path in paths:
        is_pattern = re.search(r"\b[A-Z]+\b(?!\.md)", path)
        if "/out/" not in path and not is_pattern and not list(TOP.glob(path.rstrip("/."))):
            yield f"there is no {path}"


def bad_blocks(page):
    for kind in re.findall(r"^```(\w+)$", page.read_text(encoding="utf-8"), re.M):
        if kind != "text" and kind not in RUN.get(str(page.relative_to(TOP)), ()):
            yield f"nothing runs its block of {kind}"


def plain(text):
    return [re.sub(r"^///? ?", "", line.strip()).strip() for line in text.splitlines()]


def bad_quotes(page):
    for path, block in re.findall(r"^```\w+ (\S+)\n(.*?)^```$", page.read_text(encoding="utf-8"), re.M | re.S):
        file = TOP / path
        if not file.exists():
            yield f"there is no {path}, which it quotes"
            continue
        whole = "\n".join(["", *plain(file.read_text(encoding="utf-8")), ""])
        for piece in re.split(r"^\s*\.\.\n", block, flags=re.M):
            if "\n" + "\n".join(plain(piece)) + "\n" not in whole:
                yield f"{path} doesn't have {piece.strip()[:60]!r}"


def bad_places(page):
    """Below a quoted must-fail edit, a place `FILE:LINE:COLUMN` of what the prover says is the one that the edit changes."""
    crate, old = None, None
    for path, block in re.findall(r"^```text ?(\S*)\n(.*?)^```$", page.read_text(encoding="utf-8"), re.M | re.S):
        if "/must-fail/" in path:
            crate, old = path.partition("/must-fail/")[0], re.search(r"^old: (.*)$", block, re.M)[1]
        for file, line, column in re.findall(r"(src/\S+\.rt):(\d+):(\d+)", block) if old else ():
            there = (TOP / crate / file).read_text(encoding="utf-8").splitlines()[int(line) - 1]
            if not there[int(column) - 1 :].startswith(old):
                yield f"{file}:{line}:{column} isn't {old!r}"


def main():
    wrong, words = [], {}
    for page in pages():
        name = str(page.relative_to(TOP))
        text = page.read_text(encoding="utf-8")
        words[name] = len(text.split())
        if words[name] > WORDS.get(name, words[name]):
            wrong.append(f"{name}: {words[name]} words, and at most {WORDS[name]}")
        wrong += [f"{name}: {problem}" for check in (bad_links, bad_paths, bad_blocks, bad_quotes, bad_places) for problem in check(page)]
        if name in ("README.md", "docs/TRUST.md"):
            rows = [line for line in text.splitlines() if line.startswith("|") and len(line) > TABLE_COLUMNS]
            wrong += [f"{name}: a row of {len(row)} columns: {row[:60]}" for row in rows]
    lines = len((TOP / "README.md").read_text(encoding="utf-8").splitlines())
    if lines > README_LINES:
        wrong.append(f"README.md: {lines} lines, and at most {README_LINES}")
    beside = sum(words[name] for name in BESIDE)
    total = sum(words[name] for name in WORDS) + beside - words["CHANGELOG.md"]
    if beside > BESIDE_WORDS:
        wrong.append(f"{', '.join(BESIDE)}: {beside} words, and at most {BESIDE_WORDS}")
    if total > ALL_WORDS:
        wrong.append(f"all pages: {total} words, and at most {ALL_WORDS}")
    for problem in wrong:
        print(problem)
    if wrong:
        sys.exit(1)
    print(f"the pages have {total} words, and what they link to and quote is there")


main()
