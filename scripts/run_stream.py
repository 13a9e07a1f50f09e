#!/usr/bin/env python3
"""Runs the definitions of dl_rules_ledger and dl_rules_stream beside the clients of a model of the machine.

    run_stream.py TOOLS MODEL [--crates crates] [--seeds FROM TO]

TOOLS is a folder with the module `antt`, which runs definitions; MODEL one with the modules `machine`, `fuzz`, which makes random
schedules, and `lines`, which reads them. Each line and each letter that a client of the model takes is also given to the orders
and tasks of the definitions, put together here as a client puts them together; what both send and show has to be the same. A client is run
within a whole machine on random schedules, and alone, where random answers come to its requests and any messages
from any bookies. Rows of what no sound file leads to are compared with what is written here."""
import argparse, os, random, sys

sys.path.insert(0, os.path.dirname(os.path.abspath(__file__)))
from definitions import Definitions, ends, load
from model_values import answer_value, message, meta_op, prepare, told

COUNTS = {}


class Differs(Exception):
    """The definitions say something else than what stands apart."""


def count(what):
    COUNTS[what] = COUNTS.get(what, 0) + 1


def place(d):
    return "%d:%d:%d" % (d["segment"], d["entry"], d["slot"])


def hexed(p):
    return bytes(p).hex() if p else "-"


def text(codes):
    return bytes(codes).decode()


def refusal(r):
    """A refusal as the words of its line."""
    kind, rest = r[0], r[1:]
    if kind == "Moved":
        return "moved %s %d" % (text(rest[0]), rest[1])
    if kind == "GaveUp":
        return "gaveup " + text(rest[0])
    if kind in ("BeyondEnd", "Truncated"):
        return kind.lower() + " " + place(rest[0])
    return " ".join([kind.lower()] + [str(x) for x in rest])


class Rules:
    """The definitions by their short names."""

    FILES = {
        "Makes": ["make_first", "make_hears"],
        "Removes": ["remove_first", "remove_hears"],
        "Opens": ["open_first", "open_hears", "open_recovers"],
        "Recovers": ["recover_first", "recover_hears"],
        "Seeks": ["seek_first", "seek_hears"],
        "Truncates": ["truncate_first", "truncate_hears"],
        "Purges": ["purge_first", "purge_hears"],
        "Closes": ["close_first", "close_hears"],
        "Requests": ["op_of"],
        "LogWriters": ["log_started", "appends", "appends_set", "log_flushes", "commits", "closes", "log_hears", "log_state", "sent_count", "last_sent_entry", "log_of"],
        "LogReaders": ["reader_started", "reader_reads", "read_hears", "after_read"],
    }

    def __init__(self, d):
        self.d = d
        for file, names in self.FILES.items():
            for n in names:
                setattr(self, n, d.function("dl_rules_stream.%s.%s" % (file, n)))
        self.ring = d.function("dl_quorum.Pieces.ring")


class Order:
    def __init__(self, line, kind, hears=None, stage=None):
        self.line, self.kind, self.hears, self.stage, self.waits = line, kind, hears, stage, False


class Client:
    """A client made of the definitions' orders. Its letters and events are those of one call."""

    def __init__(self, rules, conf, number, session, calls):
        self.r, self.d, self.conf = rules, rules.d, conf
        self.number, self.session, self.calls = number, session, calls
        self.asked, self.order, self.writer, self.reader = 0, None, None, None
        self.begin()

    def begin(self):
        self.letters, self.events, self.acks = [], [], []

    def args(self, **fields):
        return self.d.antt.record(**{k: self.d.value(v) for k, v in fields.items()})

    # -- acts
    def show(self, *words):
        self.events.append(" ".join(str(x) for x in words))

    def refuse(self, r):
        self.show("refused", self.number, refusal(r))

    def tell(self, letters):
        for t in self.d.antt.to_list(letters):
            self.letters.append((("b", t.f_bookie), self.d.plain(t.f_msg)))

    def goes(self, move):
        """A move of the order under way: its stage, and what it does next."""
        order = self.order
        order.stage, next_ = move[1], move[2]
        kind = next_[0].name
        count("moves that " + kind)
        if kind == "Ask":
            self.asked += 1
            order.waits = True
            self.letters.append((("m", 0), ("MetaAsk", self.session, self.asked, self.d.plain(self.r.op_of(next_[1])))))
        elif kind == "Tell":
            self.tell(next_[1])
        elif kind == "Refused":
            self.order = None
            self.refuse(self.d.plain(next_[1]))
        elif kind == "Done":
            self.order = None
            self.done(order, next_[1])

    def done(self, order, x):
        """An order that is done."""
        if order.kind == "create":
            self.show("created", self.number, order.stream)
        elif order.kind == "remove":
            self.show("removed", self.number, order.stream)
        elif order.kind == "open":
            opened = self.d.plain(x)
            q = self.d.antt.record(e=self.conf[1], qw=self.conf[2], qa=self.conf[3])
            pieces = self.r.ring(opened["ledger"], self.conf[0], q)
            start = self.d.antt.record(segment=opened["segment"], last=opened["last"], ledger=opened["ledger"], pieces=pieces)
            self.writer = {"line": order.line, "stream": order.stream, "opened": opened, "q": q, "now": self.r.log_started(start)}
            self.show("writer", self.number, order.stream, opened["segment"])
        elif order.kind == "recover":
            found = self.d.plain(x)
            if found[0] == "Whole":
                self.show("whole", self.number, order.stream)
            else:
                self.show("recovered", self.number, order.stream, place(found[1]))
        elif order.kind == "seek":
            point = x
            now = self.r.reader_started(point, order.start)
            self.reader = {"stream": order.stream, "now": now, "args": self.args(stream=order.stream, conf=self.conf_value())}
            if order.how == "txid":
                self.show("opened", self.number, order.stream, "txid", order.arg)
            else:
                self.show("opened", self.number, order.stream, place(self.d.plain(now.f_position.f_cursor)))
        elif order.kind == "read":
            rows = self.d.plain(x)
            if rows:
                self.show("rows", self.number, order.stream, *("%s/%d/%s" % (place(r["place"]), r["txid"], hexed(r["payload"])) for r in rows))
            else:
                self.show("end", self.number, order.stream)
        elif order.kind == "truncate":
            self.show("truncated", self.number, order.stream, place(self.d.plain(x)))
        elif order.kind == "purge":
            self.show("purged", self.number, order.stream, x)
        elif order.kind == "closing":
            self.show("released", self.number, order.stream)

    def conf_value(self):
        return self.d.antt.record(**dict(zip(("b", "e", "qw", "qa"), self.conf)))

    # -- lines
    def line(self, line, step):
        kind = step[0]
        if kind in ("append", "set", "flush"):
            return self.writes(step)
        if self.order is not None:
            return self.refuse(("Busy", self.order.line))
        if kind == "open" and self.writer is not None:
            return self.refuse(("Busy", self.writer["line"]))
        if kind in ("commit", "close"):
            if self.writer is None:
                return self.refuse(("NoWriter",))
            result = (self.r.commits if kind == "commit" else self.r.closes)(self.writer["now"])
            if result[0] is self.d.antt.ERR:
                return self.refuse(self.d.plain(result[1]))
            self.order = Order(line, kind)
            self.order.stream = self.writer["stream"]
            self.writer_moves(result[1])
            return self.writer_goes_on()
        self.order = order = Order(line, kind)
        stream = order.stream = step[2] if kind != "read" else self.reader["stream"]
        r, conf = self.r, self.conf_value()
        if kind in ("create", "remove", "purge"):
            first, hears = {"create": (r.make_first, r.make_hears), "remove": (r.remove_first, r.remove_hears), "purge": (r.purge_first, r.purge_hears)}[kind]
            x = self.d.value(stream)
        elif kind in ("open", "recover"):
            first, hears = (r.open_first, r.open_hears) if kind == "open" else (r.recover_first, r.recover_hears)
            x = self.args(tag=line, stream=stream, conf=conf)
        elif kind == "seek":
            first, hears, x = r.seek_first, r.seek_hears, self.d.value(stream)
            how, arg = step[3], step[4]
            order.how, order.arg = how, arg
            order.start = self.d.con("Start.Oldest") if how == "oldest" else self.d.con("Start.Tx", arg) if how == "txid" else self.d.con("Start.Place", dict(zip(("segment", "entry", "slot"), arg)))
        elif kind == "truncate":
            first, hears = r.truncate_first, r.truncate_hears
            x = self.args(stream=stream, place=dict(zip(("segment", "entry", "slot"), step[3])))
        else:
            self.show("reading", self.number, stream)
            move = r.reader_reads(self.reader["args"], self.reader["now"], line, step[2])
            return self.reader_goes(move)
        order.hears = lambda stage, h: hears(x, stage, h)
        self.goes(first(x))

    def reader_goes(self, move):
        self.reader["now"] = self.r.after_read(self.reader["now"], move)
        self.goes(move)

    # -- the writer
    def writer_moves(self, move):
        """What a call of the writer does, its acknowledgements first."""
        before, self.writer["now"] = self.writer["now"], move.f_now
        for row in self.d.plain(move.f_rows):
            self.acks.append("ack %d %d %s" % (row["origin"]["client"], row["origin"]["call"], place(row["place"])))
        self.tell(move.f_letters)
        if self.r.sent_count(move.f_now) > self.r.sent_count(before):
            entry = self.d.plain(self.r.last_sent_entry(move.f_now)).value["entry"]
            self.show("sent", self.number, "%d:%d" % (self.writer["opened"]["segment"], entry))

    def writes(self, step):
        if self.writer is None:
            return self.refuse(("NoWriter",))
        now, kind = self.writer["now"], step[0]
        if kind == "flush":
            result = self.r.log_flushes(now)
        else:
            origin = self.args(client=self.number, call=self.calls + 1)
            call = self.r.appends if kind == "append" else self.r.appends_set
            result = call(now, origin, step[2], self.d.value(step[3]))
        count("calls of writers")
        if result[0] is self.d.antt.ERR:
            return self.refuse(self.d.plain(result[1]))
        self.writer_moves(result[1])
        for p in [] if kind == "flush" else [step[3]] if kind == "append" else step[3]:
            self.calls += 1
            self.show("took", self.number, self.calls, self.writer["stream"], step[2], hexed(p))

    def writer_goes_on(self):
        """A commit or a close under way, by the writer's state."""
        order = self.order
        if order is None or order.kind not in ("commit", "close"):
            return
        state = self.d.plain(self.r.log_state(self.writer["now"]))
        count("states " + state[0])
        if state[0] == "IsFenced":
            self.order = None
            if order.kind == "close":
                self.writer = None
            self.refuse(("Fenced", state[1]))
        elif state[0] == "HasCommitted":
            self.order = None
            self.show("committed", order.stream, "%d:%d:0" % (self.writer["opened"]["segment"], state[1]))
        elif state[0] == "MayClose":
            _, entries, rows, last = state
            opened = self.writer["opened"]
            some = lambda x: (self.d.antt.SOME, self.d.value(x))
            completion = self.args(stream=order.stream, member=some(opened["member"]), segment=opened["segment"], ledger=opened["ledger"], entries=entries, rows=rows, last=last, greatest=opened["segment"], version=opened["version"])
            x = self.args(completion=completion, q=self.writer["q"], version=0, member=opened["member"])
            self.order = Order(order.line, "closing", lambda stage, h: self.r.close_hears(x, stage, h))
            self.order.stream, self.writer = order.stream, None
            self.goes(self.r.close_first(x))

    # -- letters
    def hear(self, frm, m):
        kind, order = m[0], self.order
        if kind == "metareply":
            if order is None or not order.waits or m[2] != self.asked:
                return
            order.waits = False
            if m[3] is None:
                self.order = None
                return self.refuse(("Expired", self.session))
            return self.order_hears(self.d.con("Heard.Reply", answer_value(self.d, m[3])))
        if kind == "full":
            return
        msg = message(self.d, m)
        if kind in ("addok", "addfenced"):
            if self.writer is None or self.writer["opened"]["ledger"] != m[1]:
                return
            self.writer_moves(self.r.log_hears(self.writer["now"], frm[1], msg))
            return self.writer_goes_on()
        if order is not None and m[1] == order.line and (order.hears or order.kind == "read"):
            self.order_hears(self.d.con("Heard.From", frm[1], msg))

    def order_hears(self, h):
        order = self.order
        if order.kind == "read":
            return self.reader_goes(self.r.read_hears(self.reader["args"], self.reader["now"].f_stage, h))
        if order.kind == "open":
            ended = self.d.plain(self.r.open_recovers(order.stage, h))
            if ended is not None:
                self.show("recovered", self.number, order.stream, place(ended.value))
        self.goes(order.hears(order.stage, h))


def watched(machine, rules):
    """The model's clients, each beside one of the definitions."""

    class Watched(machine.Client):
        def __init__(self, world, number, session):
            super().__init__(world, number, session)
            conf = (world.b, world.q.e, world.q.qw, world.q.qa)
            self.beside = Client(rules, conf, number, session, world.taken.get(number, 0))

        def both(self, what, call, given):
            w = self.w
            letters, events, acks = len(w.letters), len(w.own), len(w.acks)
            self.beside.begin()
            getattr(self.beside, call)(*given)
            getattr(super(), call)(*given)
            sent = [(to, ("MetaAsk", msg[1], msg[2], rules.d.plain(meta_op(rules.d, msg[3]))) if msg[0] == "metaask" else told_by(msg)) for _, to, _, msg, _ in w.letters[letters:]]
            want = (sent, w.own[events:], w.acks[acks:])
            got = (self.beside.letters, self.beside.events, self.beside.acks)
            count(what)
            if got != want:
                raise Differs("%s %r\n  definitions: %r\n  model:       %r" % (what, given, got, want))

        def line(self, line, step):
            self.both("lines", "line", (line, step))
            count("orders " + step[0])

        def hear(self, frm, m):
            self.both("letters", "hear", (frm, m))

    return Watched


# ---- a client alone ------------------------------------------------------------------------------------------------


class Alone:
    """What a client of the model needs of a world, without nodes: it keeps what is sent."""

    def __init__(self, machine, rng):
        b, e, qw, qa = rng.choice([(3, 3, 3, 2), (4, 3, 3, 2), (5, 4, 3, 2), (3, 2, 2, 1), (1, 1, 1, 1), (5, 5, 3, 2), (4, 3, 2, 2)])
        self.b, self.q = b, machine.Quorum(e, qw, qa)
        self.own, self.acks, self.letters, self.taken, self.ledgers = [], [], [], {}, {}

    def send(self, frm, to, session, msg):
        self.letters.append([frm, to, session, msg, False])

    def grow(self, ledger, n):
        pass


class Answers:
    """Random answers to a client's requests, and random messages of bookies."""

    def __init__(self, machine, world, rng):
        self.m, self.w, self.rng = machine, world, rng
        self.ledger, self.failing = rng.randrange(3), rng.choice([4, 12, 40])

    def quorum(self):
        e = self.rng.randint(1, self.w.b)
        qw = self.rng.randint(1, e)
        return self.m.Quorum(e, qw, self.rng.randint(1, qw))

    def version(self):
        return self.rng.choice([0, 1, 2, 2**64 - 1])

    def why(self, op):
        """A failure that the operation may have."""
        r = self.rng
        bad = [("badversion", self.version())]
        others = {"create": [("nodeexists",), ("ephemeralparent",), ("spent",)], "delete": bad + [("notempty", r.randrange(3))], "set": bad + bad + [("spent",)], "check": bad}
        return r.choice([("nonode",)] + others.get(op[0], []))

    def members(self, own):
        r = self.rng
        names = ["m-%010d" % r.randrange(6) for _ in range(r.randrange(3))] + [own] + r.choices(["m-1", "x-0000000000", "m-000000000a", "m"], k=r.randrange(2))
        return sorted(set(names))

    def segments(self):
        r = self.rng
        low = r.randrange(1, 4)
        names = ["c%010d" % k for k in range(low, low + r.randrange(3))]
        names += ["p%010d" % (low + len(names))] if r.randrange(2) else []
        return sorted(names + r.choices(["c0000000000", "p1", "d0000000001", "c00000000011"], k=r.randrange(2)))

    def node(self, path):
        """The bytes of the node at a path."""
        m, r, name = self.m, self.rng, path.rsplit("/", 1)[1]
        if name == "maxseq":
            return m.maxseq_bytes(r.choice([0, 1, 2, 5, 9_999_999_998, 9_999_999_999]), r.randrange(4))
        if name == "alloc":
            return m.alloc_bytes(r.choice([None, 0, 7]))
        if name == "cut":
            return m.cut_bytes((r.randrange(1, 5), r.randrange(3), r.randrange(3)))
        if name[0] == "L":
            state = r.choice(["writing", "recovering", "recovering", "closed"])
            return m.ledger_bytes(state, self.quorum(), r.randrange(4) if state == "closed" else 0)
        self.ledger = r.randrange(3)
        if name[0] == "p":
            return m.progress_bytes(int(name[1:]), self.ledger)
        return m.completed_bytes(int(name[1:]), self.ledger, r.randrange(4), r.randrange(9), r.randrange(5))

    def one(self, op, own):
        kind, path = op[0], op[1]
        if kind == "create":
            return ("made", path + ("%010d" % self.rng.randrange(4) if "counted" in op[3] else ""))
        if kind == "children":
            return ("names", self.members(own) if path.endswith("/lock") else self.segments())
        if kind == "get":
            return ("bytes", self.node(path), self.version())
        return ("version", self.version()) if kind == "set" else ("done",)

    def answer(self, op, own):
        multi = op[0] == "multi"
        if self.rng.randrange(self.failing) == 0:
            at = self.rng.randrange(len(op[1])) if multi else 0
            return ("failed", at, self.why(op[1][at] if multi else op))
        return ("many", [self.one(x, own) for x in op[1]]) if multi else self.one(op, own)

    def entry(self):
        r = self.rng
        txid, position = r.randrange(4), r.randrange(3)
        kind = r.choice(["plain", "plain", "control", "set"])
        if kind == "control":
            return self.m.encode_entry([("control", position, txid, None)])
        if kind == "set":
            return self.m.encode_entry([("set", position, txid, [bytes([r.randrange(9)]) for _ in range(r.randrange(1, 4))])])
        n = r.randrange(1, 3)
        return self.m.encode_entry([("plain", position + i, txid + i, b"x") for i in range(n)])

    def message(self, tags, about):
        """A message of a bookie about what was asked of bookies, or about something else."""
        r = self.rng
        tag, ledger, e = r.choice(tags), self.ledger, r.randrange(4)
        if about and r.randrange(8):
            asked = r.choice(about)
            tag, ledger, e = asked
        kind = r.choice(["lacis"] * 3 + ["entryis", "noentry", "noentry", "noentry", "copyok", "copyok", "copyok", "addok", "addok", "addok", "addfenced", "full"])
        if kind == "addfenced" and r.randrange(4):
            kind = "addok"
        if kind == "lacis":
            return ("lacis", tag, ledger, r.randrange(4) > 0, r.choice([0, 0, 1, 2, 3, 2**64 - 1]))
        if kind == "entryis":
            return ("entryis", tag, ledger, e, self.entry())
        if kind == "noentry":
            return ("noentry", tag, ledger, e, r.randrange(4) > 0)
        if kind == "full":
            return ("full", 1, ledger, e)
        return (kind, tag, ledger, e) if kind == "copyok" else (kind, ledger, e)


def any_line(rng, joined):
    """A line of the client, where it may come."""
    orders = ["create", "remove", "recover", "recover", "seek", "read", "read", "truncate", "purge"]
    writes = ["append", "append", "append", "set", "flush", "flush", "commit", "commit", "close"]
    kind = rng.choice(orders + (writes if rng.randrange(12) == 0 else ["open"] * 3) if joined.writer is None else orders + writes * 3)
    d = (rng.randrange(1, 5), rng.randrange(3), rng.randrange(3))
    if kind == "append":
        return (kind, 0, rng.randrange(6), bytes(rng.randrange(3)))
    if kind == "set":
        return (kind, 0, rng.randrange(6), [bytes(rng.randrange(3)) for _ in range(rng.randrange(1, 4))])
    if kind in ("flush", "commit", "close"):
        wr = joined.writer
        return None if kind == "flush" and wr is not None and not wr.closing and wr.fenced is None and not wr.builder else (kind, 0)
    if kind == "seek":
        how = rng.choice(["oldest", "dlsn", "txid"])
        return (kind, 0, "s", how, {"oldest": None, "dlsn": d, "txid": rng.randrange(4)}[how])
    if kind == "read":
        return (kind, 0, rng.choice([1, 2, 5])) if joined.reader is not None else None
    return (kind, 0, "s", d) if kind == "truncate" else (kind, 0, "s")


def alone_seed(machine, rules, seed):
    rng = random.Random(seed)
    world = Alone(machine, rng)
    joined = watched(machine, rules)(world, 0, 1)
    answers, own, tags, about = Answers(machine, world, rng), "m-0000000000", [1], []
    for i in range(1, rng.randrange(20, 160)):
        if joined.order is None or rng.randrange(10) == 0:
            step = any_line(rng, joined)
            if step is not None:
                tags = tags[-3:] + [i]
                joined.line(i, step)
        elif joined.awaits is not None and rng.randrange(3):
            number, op, _ = joined.awaits
            a = None if rng.randrange(40) == 0 else answers.answer(op, own)
            if a is not None and a[0] == "made" and "m-" in a[1]:
                own = a[1].rsplit("/", 1)[1]
            if op[0] == "create" and a is not None and a[0] == "made" and op[1] == "/ledgers/L":
                world.ledgers.setdefault(int(a[1][-10:]), {"rows": []})
            joined.hear(("m", 0), ("metareply", 1, number if rng.randrange(9) else number - 1, a))
        else:
            about = [(m[1], m[2], m[3] if m[0] != "asklac" else 0) for _, to, _, m, _ in world.letters[-12:] if m[0] in ("asklac", "askentry", "copy")]
            about += [(tags[-1], m[1], m[2]) for _, to, _, m, _ in world.letters[-12:] if m[0] == "add"]
            joined.hear(("b", rng.randrange(world.b + 1)), answers.message(tags, about))
        world.acks.clear()
        for event in world.own:
            count("alone: " + (event.split(" ")[0] if not event.startswith("refused") else " ".join(event.split(" ")[:3:2])))
        world.own.clear()
    count("clients alone")


# ---- rows that no sound file leads to ------------------------------------------------------------------------------


def rows(rules, machine):
    """An order, the answers to its requests in order, and the events that the last one gives."""
    m, q = machine, machine.Quorum(3, 3, 2)
    seg = "/streams/s/segs/p0000000001"
    look = lambda names, maxseq=m.maxseq_bytes(1, 4), alloc=m.alloc_bytes(None): ("many", [("names", names), ("bytes", maxseq, 3), ("bytes", alloc, 5)])
    listed = lambda names, cut=m.cut_bytes((1, 0, 0)): ("many", [("names", names), ("bytes", cut, 0)])
    ends = lambda names, cut=m.cut_bytes((1, 0, 0)), maxseq=m.maxseq_bytes(6, 4): ("many", [("names", names), ("bytes", cut, 0), ("bytes", maxseq, 0)])
    at = lambda data: ("bytes", data, 0)
    gone = ("failed", 0, ("nonode",))
    member = [("made", "/streams/s/lock/m-0000000002"), ("names", ["m-0000000002"])]
    in_progress, ledger, wide = at(m.progress_bytes(1, 7)), "/ledgers/L0000000007", machine.Quorum(4, 3, 2)
    recover, opening, cut = ("recover", 0, "s"), ("open", 0, "s"), ("truncate", 0, "s", (3, 0, 0))
    table = [
        (recover, [look(["p0000000001"], b"")], "refused 0 gaveup /streams/s/maxseq"),
        (recover, [look(["p0000000001"], m.maxseq_bytes(1, 2**63))], "refused 0 gaveup /streams/s/maxseq"),
        (recover, [look([], alloc=b"\1\2" + bytes(8))], "refused 0 gaveup /streams/s/alloc"),
        (recover, [look(["c0000000001", "p0000000000", "p000000000a", "p1", "q0000000009"])], "whole 0 s"),
        (recover, [look(["c0000000002", "p0000000001"])], "whole 0 s"),
        (recover, [look(["p0000000001"]), at(b"\1")], "refused 0 gaveup " + seg),
        (recover, [look(["p0000000001"]), at(m.progress_bytes(2, 7))], "refused 0 gaveup " + seg),
        (recover, [look(["p0000000001"]), at(m.completed_bytes(1, 7, 0, 0, 0))], "refused 0 gaveup " + seg),
        (recover, [look(["p0000000001"]), in_progress, at(b"\1\4\3\3\2" + bytes(8))], "refused 0 gaveup " + ledger),
        (recover, [look(["p0000000001"]), in_progress, at(m.ledger_bytes("writing", wide, 0))], "refused 0 gaveup " + ledger),
        (recover, [look(["p0000000001"]), in_progress, at(m.ledger_bytes("writing", q, 0)), ("failed", 0, ("spent",))], "refused 0 gaveup " + ledger),
        (recover, [look(["p0000000001"]), in_progress, gone, in_progress], "refused 0 gaveup " + ledger),
        (recover, [look(["p0000000001"]), in_progress, gone, gone, look([])], "whole 0 s"),
        (recover, [look(["p0000000001"]), in_progress, at(m.ledger_bytes("closed", q, 0)), gone], "recovered 0 s 1:0:0"),
        (recover, [look(["p0000000001"]), in_progress, at(m.ledger_bytes("closed", q, 0)), ("failed", 1, ("nodeexists",))], "refused 0 gaveup /streams/s/segs/c0000000001"),
        (recover, [look(["p0000000001"]), in_progress, at(m.ledger_bytes("closed", q, 0)), ("failed", 2, ("badversion", 4))], "refused 0 moved /streams/s/maxseq 4"),
        (opening, member + [look([], m.maxseq_bytes(9_999_999_999, 0))], "refused 0 gaveup /streams/s/maxseq"),
        (opening, [("made", "/streams/s/lock/m-0000000002"), ("names", ["m-0000000001", "m-0000000002"]), ("done",)], "refused 0 held 1"),
        (opening, [("made", "/streams/s/lock/m-0000000002"), ("names", ["a-0000000001", "m-000000001", "m-0000000002"]), look([]), ("failed", 0, ("spent",))], "refused 0 gaveup /ledgers/L"),
        (cut, [ends(["p0000000002"])], "refused 0 beyondend 2:0:0"),
        (cut, [ends(["c0000000002"]), ("version", 1)], "truncated 0 s 3:0:0"),
        (cut, [ends(["c0000000001"])], "refused 0 beyondend 2:0:0"),
        (cut, [ends([], maxseq=m.maxseq_bytes(1, 0))], "refused 0 beyondend 2:0:0"),
        (cut, [ends([], m.cut_bytes((3, 0, 0)))], "refused 0 truncated 3:0:0"),
        (cut, [ends([], b"\1" + bytes(20))], "refused 0 gaveup /streams/s/cut"),
        (("purge", 0, "s"), [listed(["c0000000001"], m.cut_bytes((2, 0, 0))), at(m.completed_bytes(2, 7, 0, 0, 0))], "refused 0 gaveup /streams/s/segs/c0000000001"),
        (("purge", 0, "s"), [listed(["c0000000001"], m.cut_bytes((2, 0, 0))), at(m.completed_bytes(1, 7, 0, 0, 0)), ("failed", 1, ("badversion", 9))], "refused 0 moved %s 9" % ledger),
        (("seek", 0, "s", "oldest", None), [listed([], b"\1" + bytes(19))], "refused 0 gaveup /streams/s/cut"),
    ]
    def play(joined, line, step, heard):
        joined.begin()
        joined.line(line, step)
        for a in heard:
            joined.begin()
            frm, msg = (("b", a[1]), a[2]) if a[0] == "from" else (("m", 0), ("metareply", 1, joined.asked, a))
            joined.hear(frm, msg)
        return joined.events
    for step, heard, want in table:
        got = play(Client(rules, (3, 3, 3, 2), 0, 1, 0), 1, step, heard)
        count("rows of orders")
        if got != [want]:
            raise Differs("%r %r\n  definitions: %r\n  written:     %r" % (step, heard, got, want))
    names, done = ["p0000000001"], at(m.completed_bytes(1, 7, 2, 2, 5))
    reads = [
        ([listed(names), in_progress, gone, listed(names), in_progress, gone], ["refused 0 gaveup " + ledger]),
        ([listed(names), in_progress, gone, listed(names), gone, listed(names), in_progress, gone, listed([])], ["end 0 s"]),
        ([listed(names), in_progress, gone, listed(names), at(m.progress_bytes(1, 8)), gone, listed(names), in_progress, gone, listed([])], ["end 0 s"]),
        ([listed(["c0000000002"])], ["refused 0 truncated 1:0:0"]),
        ([listed([], m.cut_bytes((2, 0, 1)))], ["refused 0 truncated 2:0:1"]),
        ([listed(["c0000000001"]), done, at(m.ledger_bytes("closed", wide, 2))], ["refused 0 gaveup " + ledger]),
        ([listed(["c0000000002", "p0000000001"]), in_progress, at(m.ledger_bytes("writing", q, 0)), ("from", 1, ("lacis", 2, 7, False, 0)), ("from", 2, ("lacis", 2, 7, False, 0))], ["end 0 s"]),
        ([listed(["c0000000001"]), in_progress], ["refused 0 gaveup /streams/s/segs/c0000000001"]),
    ]
    for heard, want in reads:
        joined = Client(rules, (3, 3, 3, 2), 0, 1, 0)
        play(joined, 1, ("seek", 0, "s", "oldest", None), [listed([])])
        got = play(joined, 2, ("read", 0, 5), heard)
        count("rows of reads")
        if got != want:
            raise Differs("read %r\n  definitions: %r\n  written:     %r" % (heard, got, want))
    # the last entry that has a number is copied, and then no number is left
    joined = Client(rules, (3, 3, 3, 2), 0, 1, 0)
    play(joined, 1, recover, [look(["p0000000001"]), in_progress, at(m.ledger_bytes("recovering", q, 0))])
    last, data = 2**64 - 1, m.encode_entry([("plain", 0, 0, b"")])
    for b, msg in [(1, ("lacis", 1, 7, True, last)), (2, ("lacis", 1, 7, True, 0)), (1, ("entryis", 1, 7, last, data)), (1, ("copyok", 1, 7, last)), (1, ("copyok", 1, 7, last)), (0, ("copyok", 1, 7, last))]:
        joined.begin()
        joined.hear(("b", b), msg)
    count("rows of orders")
    if joined.events != ["refused 0 gaveup " + ledger]:
        raise Differs("a copy of the last entry: %r" % (joined.events,))


# the limits of a writer as small numbers, in the definitions and in the model
SMALL = {"dl_rules_stream.LogWriters.longest_payload": ("MAX_PAYLOAD", 19), "dl_rules_stream.LogWriters.longest_entry": ("MAX_ENTRY", 75), "dl_rules_stream.LogWriters.window": ("WINDOW", 2)}


def alone(d, machine, rules, seeds):
    """Clients alone, half of them with small limits."""
    for small in (False, True):
        old = {}
        for name, (theirs, n) in SMALL.items():
            old[name] = getattr(machine, theirs)
            if d.function(name) != old[name]:
                raise Differs("%s is %r, and apart %r" % (name, d.function(name), old[name]))
            if small:
                d.fix(name, n)
                setattr(machine, theirs, n)
        for seed in seeds:
            alone_seed(machine, rules, 2 * seed + small)
            d.world.forget()
        for name, (theirs, n) in SMALL.items():
            d.fix(name, old[name])
            setattr(machine, theirs, old[name])


def told_by(m):
    """A message that a client sends, as a plain one."""
    kind, rest = m[0], [list(x) if isinstance(x, bytes) else x for x in m[1:]]
    return ({"add": "Add", "copy": "Copy", "asklac": "AskLac", "askentry": "AskEntry"}[kind],) + tuple(rest)


def main():
    p = argparse.ArgumentParser()
    p.add_argument("tools")
    p.add_argument("model")
    p.add_argument("--crates", default="crates")
    p.add_argument("--seeds", nargs=2, type=int, default=[0, 100])
    p.add_argument("--alone", nargs=2, type=int, default=[0, 1000])
    a = p.parse_args()
    antt, machine = load(a.tools, "antt"), load(a.model, "machine")
    fuzz, lines = load(a.model, "fuzz"), load(a.model, "lines")

    def run():
        d = Definitions(antt, a.crates)
        prepare(d)
        d.name("dl_msg.heard.Heard", "Reply", "From")
        d.name("dl_types.start.Start", "Oldest", "Place", "Tx")
        rules = Rules(d)
        rows(rules, machine)
        alone(d, machine, rules, range(*a.alone))
        plain = machine.Client
        for seed in range(*a.seeds):
            schedule = fuzz.schedule(seed)
            machine.Client = watched(machine, rules)
            world = machine.World()
            for i, line in enumerate(schedule.splitlines(keepends=True), 1):
                for event in world.step(i, lines.parse_line(line)):
                    count("events " + (event.split(" ")[0] if not event.startswith("refused") else " ".join(event.split(" ")[:3:2])))
            machine.Client = plain
            d.world.forget()
            count("schedules")
        for what in sorted(COUNTS):
            print("%8d %s" % (COUNTS[what], what))

    return ends(antt.deep, run)


if __name__ == "__main__":
    sys.exit(main())
