#!/usr/bin/env python3
"""Writes rows of the tests of crates/dl_meta, by a journal, a tree and sessions that are written here apart from the crates.

usage: scripts/meta_rows.py spoilt > crates/dl_store_rows/src/meta/spoilt.rt
       scripts/meta_rows.py requests > crates/dl_store_rows/src/meta/requests.rt

`spoilt` is a file of ten items, and what a load finds in it where a byte is changed or the file is cut: the place of the fault, or a
number that says what is loaded. `requests` are random requests of several sessions, and the replies.
"""
import random, sys

LETTERS = b"abcdefghijklmnopqrstuvwxyzABCDEFGHIJKLMNOPQRSTUVWXYZ0123456789_-"
LASTING, EPHEMERAL, COUNTED, EPHEMERAL_COUNTED = range(4)
CREATE, DELETE, SET, CHECK, GET, CHILDREN, MULTI = range(1, 8)
NO_NODE, NODE_EXISTS, BAD_VERSION, NOT_EMPTY, EPHEMERAL_PARENT, SPENT = range(1, 7)


# ---- the tree and the sessions


class Node:
    def __init__(self, data, owner):
        self.data, self.version, self.owner, self.counter = data, 0, owner, 0

    def copy(self):
        other = Node(self.data, self.owner)
        other.version, other.counter = self.version, self.counter
        return other


class Failed(Exception):
    pass


def above(path):
    return path[:path.rfind(b"/")] or b"/"


class Tree:
    def __init__(self, conf):
        self.nodes = {b"/": Node(b"", None), b"/conf": Node(b"\1" + conf, None), b"/streams": Node(b"", None), b"/ledgers": Node(b"", None)}

    def children(self, path):
        return sorted(p[p.rfind(b"/") + 1:] for p in self.nodes if p != b"/" and above(p) == path)

    def node(self, path):
        if path not in self.nodes:
            raise Failed((NO_NODE,))
        return self.nodes[path]

    def versioned(self, path, version):
        node = self.node(path)
        if version is not None and version != node.version:
            raise Failed((BAD_VERSION, node.version))
        return node

    def create(self, session, mode, path, data):
        counted = mode in (COUNTED, EPHEMERAL_COUNTED)
        if path == b"/" and not counted:
            raise Failed((NO_NODE,))
        parent = self.node(above(path))
        if parent.owner is not None:
            raise Failed((EPHEMERAL_PARENT,))
        made = path + (b"%010d" % parent.counter if counted else b"")
        if made in self.nodes:
            raise Failed((NODE_EXISTS,))
        parent.counter += counted
        self.nodes[made] = Node(data, session if mode in (EPHEMERAL, EPHEMERAL_COUNTED) else None)
        return b"\1" + run(made, 2)

    def delete(self, path, version):
        if path != b"/":
            self.versioned(path, version)
        count = len(self.children(path))
        if path == b"/" or count:
            raise Failed((NOT_EMPTY, count))
        del self.nodes[path]
        return b"\2"

    def one(self, session, op):
        kind, path = op[0], op[1]
        if kind == CREATE:
            return self.create(session, op[3], path, op[2])
        if kind == DELETE:
            return self.delete(path, op[2])
        if kind == SET:
            node = self.versioned(path, op[3])
            node.data, node.version = op[2], node.version + 1
            return b"\3" + number(node.version, 8)
        if kind == CHECK:
            self.versioned(path, op[2])
            return b"\2"
        if kind == GET:
            node = self.node(path)
            return b"\4" + run(node.data, 4) + number(node.version, 8)
        self.node(path)
        names = self.children(path)
        return b"\5" + number(len(names), 4) + b"".join(run(name, 2) for name in names)

    def apply(self, session, op):
        """The bytes of the answer."""
        before = {path: node.copy() for path, node in self.nodes.items()}
        ops = op[1] if op[0] == MULTI else [op]
        answers = []
        for place, one in enumerate(ops):
            try:
                answers.append(self.one(session, one))
            except Failed as why:
                self.nodes = before
                code, *more = why.args[0]
                return b"\7" + number(place, 2) + number(code, 1) + b"".join(number(n, 8) for n in more)
        return b"\6" + number(len(answers), 2) + b"".join(answers) if op[0] == MULTI else answers[0]


class Sessions:
    def __init__(self):
        self.last, self.live = 0, {}

    def connect(self, session):
        self.last = session
        self.live[session] = 0


# ---- bytes


def number(n, size):
    return n.to_bytes(size, "big")


def run(data, size):
    return number(len(data), size) + data


def version_bytes(version):
    return b"\0" if version is None else b"\1" + number(version, 8)


def op_bytes(op):
    kind, path = op[0], op[1]
    if kind == MULTI:
        return b"\7" + number(len(path), 2) + b"".join(op_bytes(one) for one in path)
    if kind == CREATE:
        return number(kind, 1) + number(op[3], 1) + run(path, 2) + run(op[2], 4)
    data = run(op[2], 4) if kind == SET else b""
    version = version_bytes(op[-1]) if kind in (DELETE, SET, CHECK) else b""
    return number(kind, 1) + run(path, 2) + data + version


def journal(bodies):
    frames = (b"\1" + number(i, 8) + run(body, 4) for i, body in enumerate(bodies))
    return b"DLJRNL01" + b"".join(frames) + b"\0"


# ---- what a load finds


class Fault(Exception):
    pass


class Reader:
    """Reads an item; places are those of the file."""

    def __init__(self, data, start, end):
        self.data, self.at, self.end = data, start, end

    def take(self, size):
        if self.at + size > self.end:
            raise Fault(self.at)
        self.at += size
        return self.data[self.at - size:self.at]

    def number(self, size, holds=lambda n: True):
        at = self.at
        n = int.from_bytes(self.take(size), "big")
        if not holds(n):
            raise Fault(at)
        return n

    def run(self, size):
        length = self.number(size)
        return self.take(length)

    def path(self, holds=lambda path: True):
        at = self.at
        path = self.run(2)
        if not path:
            raise Fault(at)
        if path[:1] != b"/":
            raise Fault(at + 2)
        place = at + 3
        for part in path[1:].split(b"/") if path != b"/" else []:
            for i, letter in enumerate(part):
                if letter not in LETTERS or i == 80:
                    raise Fault(place + i)
            place += len(part)
            if not part:
                raise Fault(place if place < at + 2 + len(path) else place - 1)
            place += 1
        if not holds(path):
            raise Fault(at)
        return path

    def version(self):
        return self.number(8) if self.number(1, lambda n: n < 2) else None

    def one(self, kind):
        if kind == CREATE:
            mode = self.number(1, lambda n: n < 4)
            is_stem = lambda path: len(path) - path.rfind(b"/") - 1 <= 70 and len(path) <= 65525
            path = self.path(is_stem) if mode >= COUNTED else self.path()
            return (kind, path, self.run(4), mode)
        path = self.path((lambda path: path != b"/conf") if kind in (DELETE, SET) else (lambda path: True))
        data = [self.run(4)] if kind == SET else []
        version = [self.version()] if kind in (DELETE, SET, CHECK) else []
        return (kind, path, *data, *version)

    def request(self):
        kind = self.number(1, lambda n: CREATE <= n <= MULTI)
        if kind != MULTI:
            return self.one(kind)
        count = self.number(2, lambda n: n > 0)
        return (kind, [self.one(self.number(1, lambda n: CREATE <= n < MULTI)) for _ in range(count)])


def batches_in(data):
    """Where each body begins and ends."""
    if data[:8] != b"DLJRNL01":
        raise Fault(0)
    at, due, bodies = 8, None, []
    while True:
        if at == len(data):
            raise Fault(at)
        if data[at] != 1:
            return bodies
        head = Reader(data, at + 1, len(data))
        due = head.number(8, lambda n: n < 1 << 63 and (due is None or n == due)) + 1
        size = head.number(4, lambda n: n <= len(data) - at - 13)
        bodies.append((at + 13, at + 13 + size))
        at += 13 + size


def load(data):
    """A sum of the nodes, and of what is known of the sessions; 0 where nothing is loaded."""
    bodies = batches_in(data) if data else []
    tree, sessions = None, Sessions()
    for i, (start, end) in enumerate(bodies):
        reader = Reader(data, start, end)
        kind = reader.number(1, lambda n: n == 1 if i == 0 else 2 <= n <= 4)
        if kind == 1:
            most, conf = 16, []
            for _ in range(4):
                most = reader.number(1, lambda n: 1 <= n <= most)
                conf.append(most)
            tree = Tree(bytes(conf))
        elif kind == 2:
            sessions.connect(reader.number(8, lambda n: n == sessions.last + 1))
        else:
            session = reader.number(8, lambda n: n in sessions.live)
            if kind == 3:
                del sessions.live[session]
                tree.nodes = {path: node for path, node in tree.nodes.items() if node.owner != session}
            else:
                sessions.live[session] = reader.number(4, lambda n: n > sessions.live[session])
                tree.apply(session, reader.request())
        if reader.at != end:
            raise Fault(reader.at)
    return tree, sessions


def found(data):
    """The place of a fault; 60000 where there is no store; 61000 and 100 for each live session, and the last one."""
    try:
        tree, sessions = load(data)
    except Fault as fault:
        return fault.args[0]
    return 60000 if tree is None else 61000 + 100 * len(sessions.live) + sessions.last


# ---- the rows


def text_of(data):
    return " ".join(str(c) for c in data)


def table(name, rows, text):
    print(f"\n{text}\npub const {name}: &str = \"\\\n" + "\n".join(rows) + "\";")


def ask(session, count, op):
    return b"\4" + number(session, 8) + number(count, 4) + op_bytes(op)


ITEMS = [
    b"\1\3\3\3\2", b"\2" + number(1, 8), ask(1, 1, (CREATE, b"/streams/s", b"", LASTING)),
    ask(1, 2, (MULTI, [(CREATE, b"/a", b"xy", EPHEMERAL), (SET, b"/a", b"z", 0), (CHECK, b"/b", None)])),
    b"\2" + number(2, 8), ask(2, 7, (CREATE, b"/ledgers/L", b"", COUNTED)), ask(2, 9, (SET, b"/streams/s", b"abc", None)),
    ask(1, 4, (GET, b"/conf")), b"\3" + number(1, 8), ask(2, 10, (DELETE, b"/ledgers/L0000000000", 0)),
]


def spoilt():
    data = journal(ITEMS)
    print("//! A file of ten items, and what a load finds where it is spoilt: the place of the fault; or 60000 where there is no store;")
    print("//! or 61000, and 100 for each live session, and the last session given. Written by scripts/meta_rows.py.")
    table("FILE", [text_of(data)], "/// The bytes of the file.")
    rows = []
    for i, c in enumerate(data):
        turned, raised = (found(data[:i] + bytes([change]) + data[i + 1:]) for change in (255 - c, (c + 1) % 256))
        rows.append(f"{found(data[:i])} {turned} {raised}")
    table("FOUND", rows, "/// What is found where the file ends before a byte, where each bit of that byte is turned, and where it is one higher.")


PATHS = [b"/", b"/a", b"/b", b"/a/c", b"/a/d", b"/b/e", b"/a/c/f", b"/a/0000000000", b"/streams", b"/streams/s", b"/x/y"]


def random_one(draw):
    kind, path = draw.choice([CREATE] * 5 + [DELETE] * 2 + [SET, SET, CHECK, GET, CHILDREN]), draw.choice(PATHS)
    version = draw.choice([None, None, 0, 1, 2])
    data = bytes(draw.choice(b"xyz") for _ in range(draw.randrange(4)))
    more = {CREATE: (data, draw.choice([LASTING, LASTING, EPHEMERAL, COUNTED, EPHEMERAL_COUNTED])), DELETE: (version,), SET: (data, version), CHECK: (version,)}
    return (kind, path, *more.get(kind, ()))


def random_op(draw):
    return (MULTI, [random_one(draw) for _ in range(draw.randrange(1, 4))]) if draw.randrange(4) == 0 else random_one(draw)


def requests():
    draw, tree, sessions, rows = random.Random(5), Tree(b"\3\3\3\2"), Sessions(), []
    for i in range(120):
        verb = draw.choice([1] + [3] * 14 + [2] if sessions.live else [1])
        session, count = draw.randrange(1, sessions.last + 2), draw.choice([0, 1, 1, 1, 2])
        if verb == 1:
            session = sessions.last + 1
            sessions.connect(session)
            rows.append(f"connect => {session}")
        elif verb == 2:
            rows.append(f"end {session} => {str(session in sessions.live).lower()}")
            sessions.live.pop(session, None)
            tree.nodes = {path: node for path, node in tree.nodes.items() if node.owner != session}
        else:
            request = random_op(draw)
            reply, count = "expired", sessions.live.get(session, 0) + count
            if session in sessions.live:
                runs = count > sessions.live[session]
                reply = "bytes " + text_of(tree.apply(session, request)) if runs else "none"
                sessions.live[session] = max(count, sessions.live[session])
            rows.append(f"{session} {count} bytes {text_of(op_bytes(request))} => {reply}")
    print("//! Random requests of several sessions and their replies. A row is `connect => SESSION`, `end SESSION => WAS LIVE`, or `SESSION NUMBER")
    print("//! REQUEST => REPLY`, with the bytes of a request and of an answer in decimal. Written by scripts/meta_rows.py.")
    table("ROWS", rows, "/// The rows.")


if __name__ == "__main__":
    {"spoilt": spoilt, "requests": requests}[sys.argv[1]]()
