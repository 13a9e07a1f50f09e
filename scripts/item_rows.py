#!/usr/bin/env python3
"""Prints crates/dl_byte_rows/src/items/rows.rt: what a reading of the layout of items, written here apart from the crate,
finds in a body of ten items whose bytes are spoilt one by one."""

from contextlib import redirect_stdout

with redirect_stdout(None):
    from spoilt_entries import field, outcome, record

GATE, BEFORE_BODY, BEFORE_LENGTH = 1_000, 13, 9
ADD, COPY, FENCE = 1, 2, 3


def first_fault(gate, body):
    """The place of the first fault in the file, or none, where the gate of the batch stands at this place."""
    def found(at):
        return gate + BEFORE_BODY + at

    if not body:
        return gate + BEFORE_LENGTH
    at = 0
    while at < len(body):
        kind = body[at]
        if kind not in (ADD, COPY, FENCE):
            return found(at)
        at += 1
        for width in [8] if kind == FENCE else [8, 8, 8, 4]:
            if at + width > len(body):
                return found(at)
            size = int.from_bytes(body[at:at + width], "big")
            at += width
        if kind != FENCE:
            if at + size > len(body):
                return found(at)
            letter, flaw = outcome(body[at:at + size])
            if letter != "O":
                return found(at + flaw)
            at += size
    return None


def place(body):
    return first_fault(GATE, body)


def entry(*records):
    body = b"".join(records)
    return bytes([1, 0]) + field(len(records), 2) + field(len(body), 4) + body


def item(kind, ledger, number, count, entry):
    return field(kind, 1) + field(ledger, 8) + field(number, 8) + field(count, 8) + field(len(entry), 4) + entry


def fence(ledger):
    return field(FENCE, 1) + field(ledger, 8)


HI, END = entry(record(0, 0, 5, b"hi")), entry(record(1, 1, 5, b""))
PAIR = entry(record(2, 4, 6, bytes([0, 0]) + field(2, 2) + field(1, 4) + b"c" + field(2, 4) + b"de"))
TWO = entry(record(4, 0, 6, b""), record(5, 0, 7, b"x"))
BODY = b"".join([
    item(ADD, 1, 0, 0, HI), fence(1), item(COPY, 2, 7, 6, END), fence(2), item(ADD, 3, 1, 1, PAIR),
    item(ADD, 3, 2, 2, TWO), fence((1 << 64) - 1), item(COPY, 3, (1 << 64) - 1, 1 << 63, HI), fence(0), fence(3),
])
assert place(BODY) is None


def table(name, text, places):
    print(f"\n/// {text}\npub fn {name}() -> &'static str {{\n    \"")
    words = ["ok" if at is None else str(at) for at in places]
    for i in range(0, len(words), 20):
        print(" ".join(words[i:i + 20]))
    print("\"\n}")


def turned(bit):
    return [place(BODY[:i] + bytes([BODY[i] ^ bit]) + BODY[i + 1:]) for i in range(len(BODY))]


print("//! A body of ten items, and the place of the first fault where it is spoilt, or `ok`: the gate of")
print("//! the batch stands at 1,000. Written by scripts/item_rows.py.\n")
print("/// The body: adds, copies and fences; entries of records, a control record and a record set.")
print(f"pub static BODY: [u8; {len(BODY)}] = [")
for i in range(0, len(BODY), 24):
    print("    " + ", ".join(str(x) for x in BODY[i:i + 24]) + ",")
print("];")
table("lowest_turned", "What is found with the lowest bit of each byte turned, by its place.", turned(1))
table("highest_turned", "What is found with the highest bit of each byte turned.", turned(128))
table("cut_off", "What is found in the first bytes, by how many they are.", [place(BODY[:i]) for i in range(len(BODY))])
