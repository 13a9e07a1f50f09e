#!/usr/bin/env python3
"""Measures dlog replay beside another program that replays schedules: processor time, and the most memory.

usage: bench/compare_speed.py OTHER [WORD ..]

On each shape of schedule `dlog replay` and `OTHER WORD .. replay` run in turn, five times each, and the least processor
time of each is told, with how many times as much dlog takes. What they print is compared by its length alone
(bench/compare_replays.py compares the bytes). Where valgrind is there, the instructions of one run of each are counted
too, which other work on the machine does not change.
"""
import re, shutil, subprocess, sys

from replays import Run, built, schedule

ROWS = [
    ("append, flush, settle", 150000),
    ("a thousand appends a settle", 240000),
    ("appends in full entries", 200000),
    ("payloads of 8,000 bytes", 3000),
]
TURNS = 5


def instructions(command, given):
    """How many instructions a run takes, or none without valgrind."""
    if not shutil.which("valgrind"):
        return None
    given.seek(0)
    words = ["valgrind", "--tool=callgrind", "--callgrind-out-file=/dev/null"]
    told = subprocess.run(words + command, stdin=given, stdout=subprocess.DEVNULL, stderr=subprocess.PIPE, text=True).stderr
    found = re.search(r"Collected : (\d+)", told)
    return int(found[1]) if found else None


def main(words):
    if not words:
        sys.exit(__doc__)
    ours, theirs = [built(), "replay"], words + ["replay"]
    print("%-28s %9s | %8s %8s %6s | %6s %6s | %9s %9s %6s"
          % ("shape", "lines", "dlog ms", "other ms", "times", "MiB", "MiB", "dlog M", "other M", "times"))
    for shape, lines in ROWS:
        given = schedule(shape, lines)
        runs = [(Run(ours, given), Run(theirs, given)) for _ in range(TURNS)]
        if runs[0][0].out != runs[0][1].out:
            sys.exit("%s: %d and %d bytes were printed" % (shape, runs[0][0].out, runs[0][1].out))
        a, b = (min(run[i].processor for run in runs) for i in (0, 1))
        m, n = (min(run[i].memory for run in runs) for i in (0, 1))
        line = "%-28s %9d | %8.1f %8.1f %6.2f | %6.1f %6.1f |" % (shape, lines, a * 1e3, b * 1e3, a / b, m, n)
        i, j = instructions(ours, given), instructions(theirs, given)
        print(line + (" %9.1f %9.1f %6.2f" % (i / 1e6, j / 1e6, i / j) if i and j else ""), flush=True)


main(sys.argv[1:])
