#!/usr/bin/env python3
"""Prints crates/dl_byte_rows/src/records/spoilt.rt: what a reading of the entry layout, written here apart from the
crate, finds in an entry of three records whose bytes are spoilt one by one."""

MOST_ENTRY, MOST_PAYLOAD = 1_048_576, 1_040_384


class Fault(Exception):
    pass


def rows(part):
    return {0: 1, 1: 0}.get(part[1], part[3])


def decode(b):
    n = len(b)

    def number(at, k, end=n):
        if at + k > end:
            raise Fault("S", at)
        return int.from_bytes(b[at:at + k], "big")

    def want(holds, letter, at):
        if not holds:
            raise Fault(letter, at)

    want(n <= MOST_ENTRY, "T", 0)
    want(number(0, 1) == 1, "F", 0)
    want(number(1, 1) == 0, "C", 1)
    count = number(2, 2)
    want(count > 0, "B", 2)
    length = number(4, 4)
    want(length <= n - 8, "S", 4)
    want(length >= n - 8, "L", 8 + length)
    at, parts = 8, []
    for _ in range(count):
        position = number(at, 4)
        if parts:
            want(position == parts[-1][0] + rows(parts[-1]), "B", at)
        flags = number(at + 4, 4)
        want(flags in (0, 4) or (flags == 1 and count == 1), "F", at + 4)
        txid = number(at + 8, 8)
        want(txid < 1 << 63, "F", at + 8)
        if parts:
            want(txid >= parts[-1][2], "X", at + 8)
        size = number(at + 16, 4)
        want(size <= MOST_PAYLOAD, "T", at + 16)
        want(flags != 1 or size == 0, "B", at + 16)
        end = at + 20 + size
        want(end <= n, "S", at + 20)
        members = 0
        if flags == 4:
            p = at + 20
            want(number(p, 1, end) == 0, "C", p)
            want(number(p + 1, 1, end) == 0, "F", p + 1)
            members = number(p + 2, 2, end)
            want(1 <= members <= 64, "B", p + 2)
            a = p + 4
            for _ in range(members):
                k = number(a, 4, end)
                want(a + 4 + k <= end, "S", a + 4)
                a += 4 + k
            want(a == end, "L", a)
        parts.append((position, flags, txid, members))
        at = end
    want(at == n, "L", at)


def outcome(b):
    try:
        decode(bytes(b))
        return ("O", 0)
    except Fault as fault:
        return fault.args


def field(n, k):
    return n.to_bytes(k, "big")


def record(position, flags, txid, payload):
    return field(position, 4) + field(flags, 4) + field(txid, 8) + field(len(payload), 4) + payload


payload = bytes([0, 0]) + field(2, 2) + field(1, 4) + b"c" + field(2, 4) + b"de"
body = record(7, 0, 5, b"hi") + record(8, 4, 5, payload) + record(10, 0, 6, b"x")
entry = bytes([1, 0]) + field(3, 2) + field(len(body), 4) + body


def table(name, text, outcomes):
    words = [f"{letter}{at}" for letter, at in outcomes]
    print(f"\n/// {text}\npub fn {name}() -> &'static str {{\n    \"")
    for i in range(0, len(words), 20):
        print(" ".join(words[i:i + 20]))
    print("\"\n}")


print("//! An entry of three records, and what is found where it is spoilt: a letter for the kind of fault, or O for none, and")
print("//! its place. Written by scripts/spoilt_entries.py.\n")
print("/// The entry: a record, a record set of two members, and a record.")
print(f"pub static ENTRY: [u8; {len(entry)}] = [")
for i in range(0, len(entry), 24):
    print("    " + ", ".join(str(x) for x in entry[i:i + 24]) + ",")
print("];")
table("changed", "What is found with the lowest bit of each byte turned, by its place.",
      [outcome(entry[:i] + bytes([entry[i] ^ 1]) + entry[i + 1:]) for i in range(len(entry))])
table("cut_off", "What is found in the first bytes, by how many they are.", [outcome(entry[:i]) for i in range(len(entry))])
table("cut_short", "What is found in them where the header says so many, from 0 behind it.",
      [outcome(entry[:4] + field(i - 8, 4) + entry[8:i]) for i in range(8, len(entry))])
table("added", "What is found with a byte more, where the header doesn't count it, and where it does.",
      [outcome(entry + b"\0"), outcome(entry[:4] + field(len(body) + 1, 4) + body + b"\0")])
