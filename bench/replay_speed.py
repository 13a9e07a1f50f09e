#!/usr/bin/env python3
"""Measures dlog replay: seconds, bytes a second and the most memory, for schedules of growing length.

usage: bench/replay_speed.py

A replay is one pass: its time grows with the bytes of the schedule and of the transcript, whatever the shape of the lines.
Memory below that of this script can't be told, and is shown as at most that.
"""
import os

from replays import SHAPES, Run, built, least_memory, schedule


def main():
    program, least = built(), least_memory()
    print("%-28s %9s %11s %12s %9s %9s %9s" % ("shape", "lines", "bytes in", "bytes out", "seconds", "MB/s in", "MiB held"))
    for shape in SHAPES:
        for lines in (60000, 300000, 600000) if "8,000" not in shape else (300, 1500, 3000):
            given = schedule(shape, lines)
            if given is None:
                continue
            size, run = os.fstat(given.fileno()).st_size, Run([program, "replay"], given)
            held = "%9.1f" % run.memory if run.memory > least * 1.05 else "%9s" % ("<= %.0f" % run.memory)
            print("%-28s %9d %11d %12d %9.3f %9.1f %s" % (shape, lines, size, run.out, run.seconds, size / 1e6 / run.seconds, held))


main()
