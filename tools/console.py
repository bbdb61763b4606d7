#!/usr/bin/env python3
"""console.py TOOL [CHECK]: runs the commands of the console blocks in crates/borsh_tool/tests/ with TOOL as `borsh`; with CHECK as
`borsh_check`, those of docs/TOOL.md too.

A command is a line `$ COMMAND`, and lines `> TEXT` that go on with it; bash runs it in a folder that the blocks of a file share.
Below stands what it prints: each line of standard output as it is, each line of standard error behind `! `, and the exit status,
unless it is 0, as `exit status N`. Functions that a command writes to the file `functions` are there for the later ones.
`terminal COMMAND` runs a command whose standard output is a terminal; the escape character is shown as `\\e`.
"""

import os
import pathlib
import re
import subprocess
import sys
import tempfile

TOP = pathlib.Path(__file__).resolve().parent.parent

TERMINAL = f"""#!{sys.executable}
import os, pty, subprocess, sys
outer, inner = pty.openpty()
running = subprocess.Popen(sys.argv[1:], stdout=inner)
os.close(inner)
printed = b""
try:
    while part := os.read(outer, 4096):
        printed += part
except OSError:
    pass
sys.stdout.write(printed.decode().replace("\\r\\n", "\\n").replace("\\x1b", "\\\\e"))
sys.exit(running.wait())
"""


def commands_in(text):
    """The commands of a file's blocks, each with the lines that it prints."""
    for block in re.findall(r"^```console\n(.*?)^```$", text, re.MULTILINE | re.DOTALL):
        for part in re.split(r"^\$ ", block, flags=re.MULTILINE)[1:]:
            lines = part.splitlines()
            more = 1
            while more < len(lines) and lines[more].startswith("> "):
                more += 1
            yield "\n".join([lines[0]] + [line[2:] for line in lines[1:more]]), lines[more:]


def printed_by(command, room, path):
    """The lines that a command prints, as blocks have them."""
    variables = {"PATH": path, "BASH_ENV": f"{room}/functions"}
    done = subprocess.run(
        ["bash", "-c", command], cwd=room, env=variables, stdin=subprocess.DEVNULL, capture_output=True, check=False
    )
    lines = done.stdout.decode(errors="backslashreplace").splitlines()
    lines += ["! " + line for line in done.stderr.decode(errors="backslashreplace").splitlines()]
    return lines + ([f"exit status {done.returncode}"] if done.returncode else [])


def main():
    if len(sys.argv) not in (2, 3):
        sys.exit(__doc__.splitlines()[0])
    files = sorted((TOP / "crates/borsh_tool/tests").glob("*.md"))
    failed = 0
    with tempfile.TemporaryDirectory() as tools:
        os.symlink(pathlib.Path(sys.argv[1]).resolve(), f"{tools}/borsh")
        if len(sys.argv) == 3:
            os.symlink(pathlib.Path(sys.argv[2]).resolve(), f"{tools}/borsh_check")
            files.append(TOP / "docs/TOOL.md")
        pathlib.Path(f"{tools}/terminal").write_text(TERMINAL, encoding="utf-8")
        os.chmod(f"{tools}/terminal", 0o755)
        for file in files:
            commands = list(commands_in(file.read_text(encoding="utf-8")))
            wrong = 0
            with tempfile.TemporaryDirectory() as room:
                for command, wanted in commands:
                    printed = printed_by(command, room, f"{tools}:{os.environ['PATH']}")
                    if printed != wanted:
                        wrong += 1
                        print(f"{file.name}: $ {command}", *printed, "and not:", *wanted, sep="\n")
            print(f"{file.name}: {len(commands) - wrong} of {len(commands)} commands print what it says")
            failed += wrong
    return 1 if failed else 0


sys.exit(main())
