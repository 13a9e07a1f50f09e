#!/usr/bin/env python3
"""Runs the built program `dlog` over each status that it can end with, and checks status, standard output and standard
error: words of every kind, failing, closed and full streams, limits, and pipes of more than 64 KiB.

    scripts/dlog_statuses.py [PROGRAM]

PROGRAM is crates/dlog/out/dlog where it is absent. It prints a line a case, and ends with 1 where a case failed.
"""
import os
import resource
import subprocess
import sys

TOP = os.path.dirname(os.path.dirname(os.path.abspath(__file__)))
PROGRAM = sys.argv[1] if len(sys.argv) > 1 else os.path.join(TOP, "crates", "dlog", "out", "dlog")

OPENING = b"setup 3 3 3 2\njoin 0\ncreate 0 s\nsettle\nopen 0 s\nsettle\n"
OPENED = b"2 joined 0 1\n4 created 0 s\n6 writer 0 s 1\n"
LINES, BYTES = 1_000_000, 16_777_216

GONE = object()  # a pipe whose reading end is closed

failed = []


def run(words, stdin=b"", stdout=None, stderr=None, closed=(), memory=None):
    """One run. A stream is bytes, a path to open or GONE; `closed` lists the descriptors that are closed."""

    def prepare():
        for number in closed:
            os.close(number)
        if memory is not None:
            resource.setrlimit(resource.RLIMIT_AS, (memory, memory))

    opened = []

    def stream(path, mode):
        if path is None:
            return subprocess.PIPE
        if path is GONE:
            reader, writer = os.pipe()
            os.close(reader)
            opened.append(writer)
            return writer
        opened.append(os.open(path, mode))
        return opened[-1]

    source = subprocess.PIPE if isinstance(stdin, bytes) else stream(stdin, os.O_RDONLY)
    try:
        child = subprocess.Popen(
            [PROGRAM] + list(words),
            stdin=source,
            stdout=stream(stdout, os.O_WRONLY),
            stderr=stream(stderr, os.O_WRONLY),
            preexec_fn=prepare,
        )
    except OSError:
        if memory is None:
            raise
        return None, b"", b""  # the program didn't begin in this room
    finally:
        given = list(opened)
        opened.clear()
        for number in given:
            os.close(number)
    out, err = child.communicate(stdin if isinstance(stdin, bytes) else None, timeout=120)
    return child.returncode, out, err


def check(name, want, got):
    """A case: the status, and what the streams hold, None where they are not seen."""
    good = got[0] == want[0] and all(w is None or w == g for w, g in zip(want[1:], got[1:]))
    if not good:
        failed.append(name)
    shown = tuple(t if t is None or isinstance(t, int) or len(t) < 200 else f"{len(t)} bytes" for t in got)
    print(f"{'ok' if good else 'FAILED'} {name}" + ("" if good else f": got {shown}, want status {want[0]}"))


def note(text):
    return b"dlog: " + text + b"\n"


def usage(place):
    return (1, b"", note(b"usage: word %d" % place))


# 0: all was done.
check("no line", (0, b"", b""), run(["replay"]))
check("worked lines", (0, OPENED, b""), run(["replay"], OPENING))
appends = b"".join(b"append 0 1 %s\n" % (b"61" * 100) for _ in range(2_000))
taken = b"".join(b"%d took 0 %d s 1 %s\n" % (i + 7, i + 1, b"61" * 100) for i in range(2_000))
check("pipes of more than 64 KiB", (0, OPENED + taken, b""), run(["replay"], OPENING + appends))
check("the most lines", (0, OPENED, b""), run(["replay"], OPENING + b"settle\n" * (LINES - 6)))
check("a full standard output that gets nothing", (0, None, b""), run(["replay"], stdout="/dev/full"))
check("a full standard error that gets nothing", (0, OPENED, None), run(["replay"], OPENING, stderr="/dev/full"))

# 1: the first word at which no command goes on.
BAD, LONG = b"\xff\xfe", b"a" * 100_000
check("no word", usage(1), run([]))
check("an empty word", usage(1), run([""]))
check("another word", usage(1), run(["play"]))
check("a further word", usage(2), run(["replay", "replay"]))
check("further words", usage(2), run(["replay", "a", "b", "c"]))
check("a word of 100000 bytes", usage(1), run([LONG]))
check("a further word of 100000 bytes", usage(2), run(["replay", LONG]))
check("word 1 is not UTF-8", usage(1), run([BAD]))
check("word 1 of 2 is not UTF-8", usage(1), run([BAD, "replay"]))
check("word 2 is not UTF-8", usage(2), run(["replay", BAD]))
check("word 2 behind another word is not UTF-8", usage(1), run(["play", BAD]))
check("word 3 is not UTF-8", usage(2), run(["replay", "a", BAD]))
check("a long word is not UTF-8", usage(2), run(["replay", LONG + BAD]))
check("an input that is not read", usage(1), run([], OPENING))
check("usage with a full standard error", (1, b"", None), run([], stderr="/dev/full"))
check("usage with a closed standard error", (1, b"", None), run([], closed=[2]))
check("usage with all streams closed", (1, None, None), run([], closed=[0, 1, 2]))

# 2: a line outside the grammar.
check("a cut line", (2, b"", note(b"bad schedule: line 2 column 7")), run(["replay"], b"setup 3 3 3 2\njoin 0"))
check("a bad byte", (2, b"", note(b"bad schedule: line 1 column 1")), run(["replay"], b"\xff"))
late = OPENING + b"append 0 1 61\nappend 0 01 61\n"
check("a late bad line", (2, OPENED + b"7 took 0 1 s 1 61\n", note(b"bad schedule: line 8 column 11")), run(["replay"], late))
check("a bad line with a full standard error", (2, b"", None), run(["replay"], b"x", stderr="/dev/full"))

# 3: a read failed.
check("standard input is a folder", (3, b"", note(b"read fault")), run(["replay"], stdin="/"))
check("a closed standard input", (3, b"", note(b"read fault")), run(["replay"], closed=[0]))

# 4: a write failed.
check("a full standard output", (4, None, note(b"write fault")), run(["replay"], OPENING, stdout="/dev/full"))
check("a closed standard output", (4, None, note(b"write fault")), run(["replay"], OPENING, closed=[1]))
check("a standard output whose reader is gone", (4, None, note(b"write fault")), run(["replay"], OPENING, stdout=GONE))
check("a full standard output before a bad line", (4, None, note(b"write fault")), run(["replay"], OPENING + b"x", stdout="/dev/full"))

# 12: past a limit.
check("a line too many", (12, OPENED, note(b"limit: lines 1000000")), run(["replay"], OPENING + b"settle\n" * (LINES - 5)))
check("a byte too many", (12, b"", note(b"limit: schedule 16777216")), run(["replay"], b"x" * (BYTES + 1)))
check("the most bytes", (2, b"", note(b"bad schedule: line 1 column 1")), run(["replay"], b"x" * BYTES))

# 13: want of memory, in the words or in the run. The least room in which the program begins differs by machine, so the
# room grows step by step: each run that begins ends with its status and the whole note.
many = ["replay"] + [b"b" * 100_000] * 15
for name, words, stdin, other in [
    ("words", many, b"", usage(2)),
    ("run", ["replay"], OPENING + b"append 0 1 %s\n" % (b"61" * 1_000_000), None),
]:
    seen, wrong = 0, None
    for room in range(1 << 20, 64 << 20, 1 << 18):
        got = run(words, stdin, memory=room)
        if got[0] == 13:
            seen += 1
            if got[1:] != (b"", note(b"no memory")):
                wrong = got
        elif got[0] == 0 or (other is not None and got == other):
            if seen:
                break
        elif got[0] in (1, 2, 3, 4, 12):
            wrong = got
    good = seen > 0 and wrong is None
    if not good:
        failed.append(name)
    print(f"{'ok' if good else 'FAILED'} want of memory in the {name}" + ("" if good else f": {seen} runs, {wrong}"))

print(f"{len(failed)} failed" if failed else "all passed")
sys.exit(1 if failed else 0)
