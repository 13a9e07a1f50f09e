#!/usr/bin/env python3
"""Compares ./dlog replay with another program that replays schedules, on random early schedules.

usage: bench/compare_replays.py FROM TO OTHER [WORD ..]

For each seed from FROM to TO it makes a schedule (the six opening lines, then appends, flushes and settles; some with
a spoilt field, a cut last line or bytes behind the end), runs `./dlog replay` and `OTHER WORD .. replay` on it, and
compares what they print, their statuses and their notes. It prints the first seed at which they differ, and then stops.
"""
import os, random, subprocess, sys

TOP = os.path.dirname(os.path.dirname(os.path.abspath(__file__)))
OPENING = [b"setup 3 3 3 2\n", b"join 0\n", b"create 0 s\n", b"settle\n", b"open 0 s\n", b"settle\n"]
GREATEST = 9223372036854775807


def payload(draw):
    size = draw.choice([0, 0, 1, 2, 3, 5, 20, 300]) if draw.random() < 0.97 else draw.choice([400000, 1040384, 1040385])
    return draw.randbytes(size).hex().encode() or b"-"


def append(draw, last):
    txid = max(0, min(GREATEST, last[0] + draw.choice([0, 0, 1, 1, 1, 2, 1000, -1, -3, 10**17])))
    last[0] = max(last[0], txid)
    return b"append 0 %d %s\n" % (txid, payload(draw))


def spoilt(draw):
    return draw.choice([
        b"append 0 9223372036854775808 -\n", b"append 0 01 -\n", b"append 0 1 6\n", b"append 0 1 6A\n", b"append 0 1 -0\n",
        b"append 0 1  61\n", b"append 0 1 61 \n", b"append 0 x 61\n", b"append 0 1 \xff\n", b"append 0 1\n", b"append 0 -1 61\n",
        b"flush 0 \n", b"flush 0\r\n", b"settle \n", b"\n", b"\x80\n", b"append 0 92233720368547758070 -\n",
    ])


def schedule(seed):
    draw = random.Random(seed)
    lines, last = list(OPENING), [0]
    for _ in range(draw.choice([0, 1, 5, 20, 60, 200])):
        kind = draw.random()
        lines.append(append(draw, last) if kind < 0.55 else b"flush 0\n" if kind < 0.8 else b"settle\n")
    if draw.random() < 0.3:
        lines.insert(draw.randrange(6, len(lines) + 1), spoilt(draw))
    if draw.random() < 0.2:
        lines = lines[:draw.randrange(len(lines) + 1)]
    text = b"".join(lines)
    if draw.random() < 0.2 and text:
        text = text[:len(text) - draw.randrange(1, 1 + min(9, len(lines[-1])))]
    return text


def run(command, text):
    done = subprocess.run(command, input=text, capture_output=True)
    return done.stdout, done.returncode, done.stderr


def main(words):
    if len(words) < 3:
        sys.exit(__doc__)
    first, last, other = int(words[0]), int(words[1]), words[2:] + ["replay"]
    for seed in range(first, last + 1):
        text = schedule(seed)
        ours, theirs = run([os.path.join(TOP, "dlog"), "replay"], text), run(other, text)
        if ours != theirs:
            print("seed %d differs: status %d and %d, notes %r and %r, %d and %d bytes"
                  % (seed, ours[1], theirs[1], ours[2], theirs[2], len(ours[0]), len(theirs[0])))
            sys.exit(1)
    print("%d schedules: the same bytes, status and note" % (last - first + 1))


main(sys.argv[1:])
