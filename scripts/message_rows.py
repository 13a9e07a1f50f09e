#!/usr/bin/env python3
"""Prints crates/dl_byte_rows/src/messages/rows.rt: messages of every kind, and what a reading of their layout, written here
apart from the crate, finds in other bytes."""

ALNUM = b"abcdefghijklmnopqrstuvwxyzABCDEFGHIJKLMNOPQRSTUVWXYZ0123456789_-"
SHORT, BAD, LONG = "cut short", "bad kind", "bytes left over"


class Fault(Exception):
    pass


class Reader:
    def __init__(self, b):
        self.b, self.at = b, 0

    def take(self, n):
        if self.at + n > len(self.b):
            raise Fault(SHORT, self.at)
        self.at += n
        return self.b[self.at - n:self.at]

    def number(self, n):
        return int.from_bytes(self.take(n), "big")

    def choice(self, *allowed):
        at = self.at
        n = self.number(1)
        if n not in allowed:
            raise Fault(BAD, at)
        return n

    def run(self, n):
        return self.take(self.number(n))

    def part(self, at, run):
        for i, c in enumerate(run):
            if c not in ALNUM or i >= 80:
                raise Fault(BAD, at + i)

    def name(self):
        first = self.at
        run = self.run(2)
        if not run:
            raise Fault(BAD, first)
        self.part(first + 2, run)

    def path(self, stem=False):
        first = self.at
        run = self.run(2)
        if not run:
            raise Fault(BAD, first)
        if run[:1] != b"/":
            raise Fault(BAD, first + 2)
        at, parts = first + 3, run[1:].split(b"/")
        if run != b"/":
            for part in parts:
                self.part(at, part)
                at += len(part)
                if not part:
                    # an empty part is bad at the `/` that ends it, or where the path ends in its own `/`
                    raise Fault(BAD, at if at < self.at else at - 1)
                at += 1
        if stem and (len(parts[-1]) > 70 or len(run) > 65525):
            raise Fault(BAD, first)

    def version(self):
        if self.choice(0, 1):
            self.number(8)

    def op(self, kinds):
        kind = self.choice(*kinds)
        if kind == 1:
            mode = self.choice(0, 1, 2, 3)
            self.path(mode >= 2)
            self.run(4)
        elif kind == 3:
            self.path()
            self.run(4)
            self.version()
        elif kind == 7:
            at = self.at
            count = self.number(2)
            if count == 0:
                raise Fault(BAD, at)
            for _ in range(count):
                self.op(range(1, 7))
        else:
            self.path()
            if kind in (2, 4):
                self.version()

    def answer(self, kinds):
        kind = self.choice(*kinds)
        if kind == 1:
            self.path()
        elif kind == 3:
            self.number(8)
        elif kind == 4:
            self.run(4)
            self.number(8)
        elif kind == 5:
            for _ in range(self.number(4)):
                self.name()
        elif kind == 6:
            for _ in range(self.number(2)):
                self.answer(range(1, 6))
        elif kind == 7:
            self.number(2)
            if self.choice(1, 2, 3, 4, 5, 6) in (3, 4):
                self.number(8)

    def message(self):
        kind = self.choice(*range(1, 14))
        if kind == 7:
            self.choice(1, 2, 3, 4, 5)
        if kind in (2, 3, 4, 8, 9, 10, 11):
            self.number(4)
        self.number(8)
        if kind == 3:
            self.choice(0, 1)
        elif kind == 9:
            self.choice(0, 1)
            self.number(8)
        elif kind == 12:
            self.number(4)
            self.op(range(1, 8))
        elif kind == 13:
            self.number(4)
            if self.choice(0, 1):
                self.answer(range(1, 8))
        else:
            self.number(8)
        if kind in (1, 2):
            self.number(8)
        if kind in (1, 2, 10):
            self.run(4)
        if kind == 11:
            self.choice(0, 1)
        if self.at < len(self.b):
            raise Fault(LONG, self.at)


def found(b):
    try:
        Reader(bytes(b)).message()
        return "message"
    except Fault as fault:
        return "%s at %d" % fault.args


def u(n, k):
    return n.to_bytes(k, "big")


def run(k, b):
    return u(len(b), k) + b


def any_version():
    return b"\0"


def version(n):
    return b"\1" + u(n, 8)


LEDGER, ENTRY, COUNT, TAG = u(0x0102030405060708, 8), u(0x1112131415161718, 8), u(0x2122232425262728, 8), u(0x31323334, 4)
ASKER = u(0x4142434445464748, 8) + u(0x51525354, 4)
PATH = run(2, b"/a/bC")
OPS = [
    b"\1\0" + PATH + run(4, b"xy"),
    b"\2" + PATH + any_version(),
    b"\3" + PATH + run(4, b"z") + version(9),
    b"\4" + PATH + version(1 << 63),
    b"\5" + run(2, b"/"),
    b"\6" + PATH,
]
ANSWERS = [
    b"\1" + PATH,
    b"\2",
    b"\3" + u(7, 8),
    b"\4" + run(4, b"q") + u(8, 8),
    b"\5" + u(2, 4) + run(2, b"a") + run(2, b"_-9"),
]
FAILURES = [b"\1", b"\2", b"\3" + u(5, 8), b"\4" + u(6, 8), b"\5", b"\6"]
ROWS = [
    b"\1" + LEDGER + ENTRY + COUNT + run(4, b"abc"),
    b"\2" + TAG + LEDGER + ENTRY + COUNT + run(4, b"d"),
    b"\3" + TAG + LEDGER + b"\1",
    b"\4" + TAG + LEDGER + ENTRY,
    b"\5" + LEDGER + ENTRY,
    b"\6" + LEDGER + ENTRY,
    b"\7\5" + LEDGER + ENTRY,
    b"\10" + TAG + LEDGER + ENTRY,
    b"\11" + TAG + LEDGER + b"\0" + COUNT,
    b"\12" + TAG + LEDGER + ENTRY + run(4, b""),
    b"\13" + TAG + LEDGER + ENTRY + b"\1",
    b"\14" + ASKER + b"\7" + u(len(OPS), 2) + b"".join(OPS),
    b"\14" + ASKER + OPS[0][:1] + b"\2" + OPS[0][2:],
    b"\15" + ASKER + b"\0",
    b"\15" + ASKER + b"\1\6" + u(len(ANSWERS), 2) + b"".join(ANSWERS),
    b"\15" + ASKER + b"\1\6" + u(0, 2),
    b"\15" + ASKER + b"\1" + ANSWERS[1],
] + [b"\15" + ASKER + b"\1\7" + u(3, 2) + why for why in FAILURES]


def get(path):
    return b"\14" + ASKER + b"\5" + run(2, path)


def create(mode, path):
    return b"\14" + ASKER + bytes([1, mode]) + run(2, path) + run(4, b"")


def names(*items):
    return b"\15" + ASKER + b"\1\5" + u(len(items), 4) + b"".join(run(2, item) for item in items)


FORMS = [
    b"\0", b"\16", ROWS[4] + b"\0",
    get(b""), get(b"a"), get(b"/"), get(b"/a"), get(b"/a/"), get(b"//"), get(b"//a"), get(b"/a//b"), get(b"/a.b"),
    get(b"/" + 80 * b"a"), get(b"/" + 81 * b"a"), get(b"/b/" + 81 * b"a" + b"/"),
    create(0, b"/" + 80 * b"a"), create(1, b"/" + 71 * b"a"), create(2, b"/" + 70 * b"a"), create(3, b"/" + 70 * b"a"),
    create(2, b"/" + 71 * b"a"), create(3, b"/" + 71 * b"a" + b"/b"), create(3, b"/b/" + 71 * b"a"), create(2, b"/"), create(3, b"/a/"),
    create(4, b"/a"),
    names(), names(b""), names(b"a", b"b/c"), names(80 * b"a"), names(b"a", 81 * b"a"), names(b"/"),
    b"\14" + ASKER + b"\7" + u(0, 2), b"\14" + ASKER + b"\7" + u(1, 2) + b"\7" + u(1, 2) + OPS[4],
    b"\15" + ASKER + b"\1\6" + u(1, 2) + b"\6" + u(0, 2), b"\15" + ASKER + b"\1\6" + u(1, 2) + b"\7" + u(0, 2) + b"\1",
]
assert all(found(row) == "message" for row in ROWS)

print("//! Bytes in hex, and behind ` => ` what is found in them: a message, or a fault and its place. Written by")
print("//! scripts/message_rows.py.\n")
print("/// The rows: messages of every kind, and then forms of kinds, paths, names and lists.")
print("pub fn rows() -> &'static str {\n    \"")
for row in ROWS + FORMS:
    print(f"{row.hex()} => {found(row)}")
print("\"\n}")
