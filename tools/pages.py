#!/usr/bin/env python3
"""pages.py PAGE..: runs each command of the pages' console blocks, from the repository's top, and compares what it prints.

A command is a line `$ COMMAND`; below it stand the lines of its standard output. A command of several pages is run once, and `rt ci`
isn't run. A block of `rust` that quotes no file is a program: it is run on the input of `example_map`, as a crate of its own, which
changes `crates/` and `crates.txt`, and has to print the encoding that `example_map` prints.
"""
import pathlib
import re
import subprocess
import sys

TOP = pathlib.Path(__file__).resolve().parent.parent


def blocks(page, kind):
    return re.findall(rf"^```{kind}\n(.*?)^```$", (TOP / page).read_text(encoding="utf-8"), re.M | re.S)


def commands_in(page):
    """Each command with what it prints."""
    for block in blocks(page, "console"):
        for part in re.split(r"^\$ ", block, flags=re.M)[1:]:
            command, _, wanted = part.partition("\n")
            if command != "rt ci":
                yield command, wanted


def run(command):
    done = subprocess.run(["bash", "-c", command], cwd=TOP, stdin=subprocess.DEVNULL, capture_output=True, text=True, check=False)
    return done.stdout, done.stderr


def run_program(text):
    """What the program prints, and whether the encoding is among it."""
    folder = TOP / "crates/page_program"
    (folder / "src").mkdir(parents=True)
    (folder / "src/main.rt").write_text(text, encoding="utf-8")
    with open(TOP / "crates.txt", "a", encoding="utf-8") as crates:
        crates.write("page_program: borsh hex anyhow\n")
    printed, said = run("cd crates/page_program && rt try <../example_map/stdin")
    encoding = (TOP / "crates/example_map/stdout").read_text(encoding="utf-8").splitlines()[2]
    return encoding in printed.splitlines(), printed + said


def main():
    known, failed = {}, False
    for page in sys.argv[1:]:
        for command, wanted in commands_in(page):
            if command not in known:
                known[command] = run(command)
            printed, said = known[command]
            is_right = printed == wanted
            failed |= not is_right
            print(f"{page}: `{command}` prints " + ("what it says" if is_right else f"{printed}{said}"), flush=True)
        for text in blocks(page, "rust"):
            is_right, printed = run_program(text)
            failed |= not is_right
            print(f"{page}: its program prints " + ("what it says" if is_right else printed), flush=True)
    sys.exit(1 if failed else 0)


main()
