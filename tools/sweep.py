#!/usr/bin/env python3
"""Refuses each request for memory of borsh_check in turn: sweep.py PROGRAM HEAP ROWS

PROGRAM is borsh_check, and HEAP is heap.c as a shared library. Each line of ROWS is a line of input and its answer, as `INPUT => ANSWER`; a
`*` in an answer matches any text. The n-th request is refused, for each n, and then all requests from the n-th on. The
program either answers all lines, or it says that it is out of memory, its status is 1, and what it wrote is whole answers to
the first lines, all among them that were answered before the refusal. It never leaks a block.
"""

import concurrent.futures
import fnmatch
import os
import subprocess
import sys
import tempfile

# So many lines are one input: every request is refused, and no run is long.
GROUP = 20

OUT_OF_MEMORY = b"borsh_check: out of memory\n"


class Run:
    """The program, run on some lines, with a request refused."""

    def __init__(self, program, heap, lines, refuse="0"):
        report, told = os.pipe()
        # A file and no pipe: so each read gets as many bytes in every run.
        with tempfile.TemporaryFile() as file:
            file.write(b"".join(lines))
            file.seek(0)
            done = subprocess.run(
                [program],
                stdin=file,
                capture_output=True,
                env={"LD_PRELOAD": heap, "REFUSE": refuse, "HEAP_REPORT": str(told)},
                pass_fds=[told],
            )
        os.close(told)
        with os.fdopen(report) as numbers:
            self.requests, self.refused, self.blocks = map(int, numbers.read().split())
        self.out, self.errors, self.status = done.stdout, done.stderr, done.returncode


def read_rows(path):
    """The lines of input, and what their answers have to match."""
    with open(path) as file:
        rows = [row.rstrip("\n").split(" => ") for row in file]
    return [(f"{line}\n".encode(), f"{answer}\n") for line, answer in rows]


def faults_of(run, answers, first_request):
    """What is wrong with a run whose n-th request was refused, where n is `first_request`; `answers` are the right answers,
    each with how many requests the program makes until it is there."""
    right = b"".join(answer for answer, _ in answers)
    if run.blocks:
        yield f"{run.blocks} blocks leaked"
    if run.status == 0:
        if run.out != right or run.errors:
            yield f"other answers: {run.out}"
        return
    if run.status != 1 or run.errors != OUT_OF_MEMORY or not run.refused:
        yield f"status {run.status}, {run.errors}"
    if not right.startswith(run.out) or run.out[-1:] not in (b"", b"\n"):
        yield f"not whole answers to the first lines: {run.out}"
    given = b"".join(answer for answer, requests in answers if requests < first_request)
    if len(run.out) < len(given):
        yield f"lost answers: {len(run.out)} bytes were written of {len(given)}"


def sweep(program, heap, rows, pool):
    """How many runs met a refusal, how many answered all lines in spite of it, and what was wrong."""
    lines = [line for line, _ in rows]
    whole = Run(program, heap, lines)
    answers = whole.out.splitlines(keepends=True)
    faults = [
        f"{line}: {answer}"
        for (line, wanted), answer in zip(rows, answers)
        if not fnmatch.fnmatchcase(answer.decode(), wanted)
    ]
    if whole.status or whole.blocks or len(answers) != len(rows):
        faults.append(f"status {whole.status}, {len(answers)} answers, {whole.blocks} blocks leaked")
    fronts = pool.map(lambda count: Run(program, heap, lines[:count]), range(1, len(lines) + 1))
    answers = list(zip(answers, [front.requests for front in fronts]))
    orders = [(n, f"{n}{rest}") for n in range(1, whole.requests + 1) for rest in ("", "..")]
    runs = pool.map(lambda order: Run(program, heap, lines, order[1]), orders)
    survived = 0
    for (n, refuse), run in zip(orders, runs):
        survived += run.status == 0
        faults += [
            f"request {refuse} refused, in the lines from {lines[0]} on: {fault}"
            for fault in faults_of(run, answers, n)
        ]
    return len(orders), survived, faults


def main():
    program, heap, path = sys.argv[1:]
    rows = read_rows(path)
    refused, survived, faults = 0, 0, []
    with concurrent.futures.ThreadPoolExecutor(os.cpu_count()) as pool:
        for begin in range(0, len(rows), GROUP):
            counts = sweep(program, heap, rows[begin : begin + GROUP], pool)
            refused += counts[0]
            survived += counts[1]
            faults += counts[2]
    print(f"refused {refused} run")
    for fault in faults[:10]:
        print(fault)
    if faults:
        sys.exit(f"borsh_check: {len(faults)} faults in {refused} runs with a refused request")


main()
