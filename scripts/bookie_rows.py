#!/usr/bin/env python3
"""Writes rows of the tests of crates/dl_bookie_rows: random ones, by a model of the storage node that is written apart from the crates;
and what a load finds in a file of ten items whose bytes are spoilt one by one, and in its cuts, by a reading of the file's layout that is
written apart from them too.

usage: scripts/bookie_rows.py MODEL > crates/dl_bookie_rows/src/tests/written.rt

MODEL is a folder with the module `machine`, whose `Bookie` has `take`, `commit` and `reset`. A row is a line `WHAT IS DONE => WHAT IS
TOLD`; src/tests/table.rt says which there are.
"""
import random, sys
from contextlib import redirect_stdout
from itertools import groupby

with redirect_stdout(None):
    from item_rows import field, first_fault

sys.path.insert(0, sys.argv[1])
from machine import Bookie

TAG, COUNT, SEED = 7, 160, 11


def small(letter):
    return bytes([1, 0, 0, 1, 0, 0, 0, 21] + [0] * 19 + [1]) + letter.encode()


def fenced(is_fenced):
    return "fenced" if is_fenced else "open"


def told(reply):
    kind, fields = reply[0], reply[1:]
    if kind in ("addok", "addfenced", "copyok"):
        word = {"addok": "added", "addfenced": "fenced", "copyok": "copied"}[kind]
        return " ".join([word] + [str(x) for x in fields])
    if kind == "lacis":
        tag, ledger, is_fenced, count = fields
        return f"lac {tag} {ledger} {fenced(is_fenced)} {count}"
    if kind == "entryis":
        tag, ledger, entry, data = fields
        return f"entry {tag} {ledger} {entry} of {len(data)} {data[-1]}"
    tag, ledger, entry, is_fenced = fields
    return f"none {tag} {ledger} {entry} {fenced(is_fenced)}"


def message(rng):
    verb = rng.choices(["add", "copy", "ask", "lac", "fence"], [8, 4, 4, 2, 1])[0]
    ledger, entry, count = rng.randrange(1, 4), rng.randrange(5), rng.randrange(6)
    letter = rng.choice("abc")
    if verb == "add":
        return f"add {ledger} {entry} {count} {letter}", ("add", ledger, entry, count, small(letter))
    if verb == "copy":
        return f"copy {ledger} {entry} {count} {letter}", ("copy", TAG, ledger, entry, count, small(letter))
    if verb == "ask":
        return f"ask {ledger} {entry}", ("askentry", TAG, ledger, entry)
    return f"{verb} {ledger}", ("asklac", TAG, ledger, verb == "fence")


def commit(node):
    return "commit => " + (" ".join(told(reply) for _, _, reply in node.commit()) if node.queue else "nothing")


def take(node, line, sent):
    reply = node.take(3, 9, sent)
    return f"{line} => " + ("queued" if reply is None else told(reply))


def stopped(node, calls, outcome):
    """A commit whose file stops, and the load behind it: the gate is opened by the third call."""
    if calls >= 2 and outcome == "after":
        node.commit()
    node.reset()
    return "commit => fault\nload"


def random_rows(rng):
    node, stop = Bookie(), None
    for _ in range(COUNT):
        what = rng.randrange(20)
        if what < 2:
            node.reset()
            stop = (rng.randrange(4), rng.choice(["before", "after"])) if what else None
            yield f"stop {stop[0]} {stop[1]}" if stop else "load"
        elif what < 5 and stop and node.queue:
            yield stopped(node, *stop)
            stop = None
        elif what < 5:
            yield commit(node)
        else:
            yield take(node, *message(rng))


MAGIC, LAST_NUMBER = b"DLJRNL01", (1 << 63) - 1
GREATEST = (1 << 64) - 1
BATCHES = [
    [("add", 1, 0, 0, "a"), ("fence", 1)],
    [("copy", 2, 7, 6, "b"), ("fence", 2), ("add", 3, 1, 1, "c"), ("fence", GREATEST), ("add", 3, 2, 2, "d")],
    [("fence", 3), ("copy", 3, GREATEST, 1 << 63, "e"), ("fence", 0)],
]


def item_bytes(item):
    if item[0] == "fence":
        return field(3, 1) + field(item[1], 8)
    kind, ledger, entry, count, data = item
    return field({"add": 1, "copy": 2}[kind], 1) + field(ledger, 8) + field(entry, 8) + field(count, 8) + field(len(data), 4) + data


def file_of(batches):
    bodies = [b"".join(item_bytes(item) for item in batch) for batch in batches]
    return MAGIC + b"".join(b"\1" + field(i, 8) + field(len(body), 4) + body for i, body in enumerate(bodies)) + b"\0"


def damage(data):
    """The place of the first fault in a file, or none: the layout of the whole file comes before the items."""
    if data[:8] != MAGIC:
        return 0
    gate, number, bodies = 8, None, []
    while True:
        if gate == len(data):
            return gate
        if data[gate] != 1:
            break
        at = gate + 1
        found = int.from_bytes(data[at:at + 8], "big")
        if at + 8 > len(data) or found > LAST_NUMBER or number not in (None, found - 1):
            return at
        size = int.from_bytes(data[at + 8:at + 12], "big")
        if at + 12 + size > len(data):
            return at + 8
        bodies.append((gate, data[at + 12:at + 12 + size]))
        gate, number = at + 12 + size, found
    faults = (first_fault(gate, body) for gate, body in bodies)
    return next((fault for fault in faults if fault is not None), None)


def runs(files):
    found = ("loads" if at is None else str(at) for at in map(damage, files))
    return " ".join(f"{word}*{len(list(group))}" for word, group in groupby(found))


def turned(data, bit):
    return [data[:i] + bytes([data[i] ^ bit]) + data[i + 1:] for i in range(len(data))]


def spoilt_rows():
    node = Bookie()
    yield "new never before"
    for batch in BATCHES:
        for kind, *fields in batch:
            line = " ".join([kind] + [str(x) for x in fields])
            sent = ("asklac", TAG, fields[0], True) if kind == "fence" else None
            if kind == "add":
                sent = ("add", *fields[:3], small(fields[3]))
            if kind == "copy":
                sent = ("copy", TAG, *fields[:3], small(fields[3]))
            yield take(node, line, sent)
        yield commit(node)
    data = file_of(node.batches)
    assert sum(map(len, node.batches)) == 10 and damage(data) is None
    yield "turned 1 => " + runs(turned(data, 1))
    yield "turned 128 => " + runs(turned(data, 128))
    yield "cuts => " + runs([data[:i] for i in range(len(data))])


def table(name, text, rows):
    print(f"\n/// {text}\npub const {name}: &str = \"\\")
    print("\n".join(rows) + '";')


print("//! Rows of a storage node, written by scripts/bookie_rows.py.")
table("RANDOM", "Random messages, commits, stops and loads.", random_rows(random.Random(SEED)))
table("SPOILT", "What a load finds in a file of ten items with one bit of each byte turned, and in its first bytes.", spoilt_rows())
