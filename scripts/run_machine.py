#!/usr/bin/env python3
"""Runs the definitions of the machine beside a model of it that is written apart from them.

    run_machine.py TOOLS MODEL [--crates crates] [--part PART ..] [--seeds FROM TO] [--jobs N] [--used FILE]
    run_machine.py TOOLS MODEL --unused FILE .. [--unreached scripts/unreached_rules.txt]
    run_machine.py TOOLS MODEL --wrong scripts/wrong_rules.txt [--only WORD] [--seeds FROM TO] [--crates crates]
    run_machine.py TOOLS MODEL --checker OUT [--seeds FROM TO] [--longest LINES] [--count N] [--crates crates]

TOOLS is a folder with the module `antt`, which runs definitions, and MODEL one with the modules `dlog`, `machine`, `lines`,
`check`, `fuzz` and `test_rows`. It ends with what was counted, and with status 1 at the first difference. What is compared, byte
by byte where it is text:

    rows     worked rows, those of this script and those of the model's tests: the transcript; the status with its numbers; the last
             state (each node's durable list, queue and mode, the letters and which were delivered, how far each ledger has grown)
    big      the same of rows with payloads and entries at their limits; minutes
    fuzz     the same of random schedules of every profile, a fifth of them spoilt
    limits   random schedules, each limit just as high as the schedule needs and one below: constants of the definitions and of the
             model are replaced by small numbers
    true     limits at their true numbers, just below and just above: the counts of a run by random schedules that begin just below
             them, and, with seed 0, pool, index, ledgers, queue and both journals of nodes that are loaded from lists; minutes
    lines    lines of schedules, as they stand and spoilt: what they say, the column at which no line goes on, the spelling
    legal    transcripts by hand, and those of random schedules, as they stand and spoilt: the place of the first fault, and the
             spelling of each event
    faults   random schedules with devices that fail: what failed commits, looks and loads leave keeps every rule of a transcript

With --used the equations that were used are added to a file (one for each run at a time); --unused reads such files and lists the
equations that no run used: each has to stand in the file of those that are not reached, with its reason, and none that stands
there may have been used. With --wrong the wrong edits of a file are made one by one, and each has to be found. With --checker a
crate is written in which the proof checker computes the transcripts of worked rows and random schedules, each of which has to be
the model's: then `git init -q OUT`, and `rt check` in OUT/crates/rows. A schedule of some 200 lines is past its bound on steps."""
import argparse, collections, gc, json, multiprocessing, os, random, re, shutil, sys, tempfile, threading, time, types

sys.path.insert(0, os.path.dirname(os.path.abspath(__file__)))
import checker_rows, true_limits
from definitions import Definitions, Differs, Some, load, same
from model_values import item, meta_item, prepare, waiting

CHUNK = 10


# ---- equations that are used ---------------------------------------------------------------------------------------

USED = set()


def count_equations(antt):
    """Has each equation, and each branch of an `if` in it, note that it was used."""
    inner, result = antt.Gen.clauses, antt.Gen.result

    def note(gen, depth, what):
        keys = gen.world.space.setdefault("keys", [])
        gen.world.space["noted"] = USED.add
        keys.append((gen.d.path(), what))
        gen.emit(depth, "noted(keys[%d])" % (len(keys) - 1))

    def clauses(gen, d, params, env, depth, loop, waits=None):
        gen.equation, gen.branch = 0, 0
        return inner(gen, d, params, env, depth, loop, waits)

    def branches(gen, e, env, depth, loop):
        """The branches of an `if`, each with a note of its own."""
        at = "%d" % gen.equation
        mine, gen.branch = gen.branch + 1, gen.branch + 2
        gen.emit(depth, "if %s:" % gen.term(e[1], env))
        note(gen, depth + 1, "%s, branch %d of an if" % (at, mine))
        noted(gen, e[2], env, depth + 1, loop)
        gen.emit(depth, "else:")
        note(gen, depth + 1, "%s, branch %d of an if" % (at, mine + 1))
        noted(gen, e[3], env, depth + 1, loop)

    def noted(gen, e, env, depth, loop):
        outer = getattr(gen, "inside", False)
        if not outer:
            gen.equation += 1
            note(gen, depth, "%d" % gen.equation)
        gen.inside = True
        if e[0] == "app" and e[1] == ("v", "cond") and len(e[2]) == 3 and "cond" not in env:
            e = ("if",) + tuple(e[2])
        if e[0] == "if":
            branches(gen, e, env, depth, loop)
        else:
            result(gen, e, env, depth, loop)
        gen.inside = outer

    antt.Gen.clauses, antt.Gen.result = clauses, noted


# ---- both sides ----------------------------------------------------------------------------------------------------

# definitions whose values are kept, since they are asked for again and again at the same arguments
KEPT = ["dl_rules_ledger.Writers.confirmed_count", "dl_rules_ledger.Writers.first_fence", "dl_quorum.WriteSets.write_set"]
KEPT += ["dl_machine.Runs.turn", "dl_rules_stream.LogReaders.reader_started", "dl_rules_nodes.Items.item_length", "dl_rules_nodes.Items.meta_item_length"]

# the events of the model's lines: the constructor, and the fields that are bytes (b), places (d) or plain (.)
EVENTS = {
    "joined": ("Joined", ".."), "expired": ("Expired", "."), "created": ("Created", ".b"), "removed": ("Removed", ".b"),
    "released": ("Released", ".b"), "whole": ("Whole", ".b"), "writer": ("Writer", ".b."), "took": ("Took", "..b.b"), "sent": ("Sent", "..."),
    "grow": ("Grow", "bd...b"), "ack": ("Ack", "..d"), "committed": ("Committed", "bd"), "closed": ("Closed", "b."),
    "recovered": ("Recovered", ".bd"), "point": ("Point", "bd"), "truncated": ("Truncated", ".bd"), "purged": ("Purged", ".b."),
    "opened": ("OpenedAt", ".bd"), "opened txid": ("OpenedFrom", ".b."), "reading": ("Reading", ".b"), "end": ("End", ".b"), "none": ("Nothing", ""),
}
REFUSALS = {
    "expired": ("Expired", "."), "held": ("Held", "."), "fenced": ("Fenced", "."), "moved": ("Moved", "b."), "nostream": ("NoStream", ""),
    "streamexists": ("StreamExists", ""), "txidback": ("TxidBack", ".."), "toolong": ("TooLong", "."), "beyondend": ("BeyondEnd", "d"),
    "nowriter": ("NoWriter", ""), "truncated": ("Truncated", "d"), "notempty": ("NotEmpty", "."), "busy": ("Busy", "."),
    "windowfull": ("WindowFull", ""), "gaveup": ("GaveUp", "b"),
}
MODES = {"up": "Up", "down": "Down", "lost": "Lost"}


def keep_values(antt, d, path):
    """Has a definition keep its values."""
    d.function(path)
    crate, rest = path.split(".", 1)
    definition = d.world.definition("Rattle.%s.specs.%s" % (crate, rest))
    n = len(definition.parsed[0][0]) if definition.parsed else antt.arity_of(definition)
    antt.compile_decl(d.world, definition)
    d.world.space["d%d" % definition.id] = antt.remember(d.world, definition, d.world.space["d%d" % definition.id], ["a%d" % i for i in range(n)])


class Sides:
    """The definitions and the model."""

    def __init__(self, tools, model, crates, count=False):
        self.antt = load(tools, "antt")
        if count:
            count_equations(self.antt)
        os.environ.pop("DLOG", None)
        self.dlog, self.machine, self.lines, self.check, self.fuzz = (load(model, m) for m in ("dlog", "machine", "lines", "check", "fuzz"))
        self.model = model
        self.d = d = Definitions(self.antt, crates)
        prepare(d)
        d.name("dl_transcript.event.Event", "Rows", "Refused", "Mail", *(name for name, _ in EVENTS.values()))
        d.name("dl_types.refusal.Refusal", *(name for name, _ in REFUSALS.values()))
        d.name("dl_types.address.Address", "Client", "Bookie", "Meta")
        self.parsed_line, self.step_line = d.function("dl_schedule.StepReading.parsed_line"), d.function("dl_schedule.StepLines.step_line")
        self.print_event, self.fault_of = d.function("dl_transcript.Lines.print_event"), d.function("dl_transcript.Legal.fault_of")
        self.replay, self.limit_text = d.function("dl_machine.Replays.replay"), d.function("dl_types.Statuses.limit_text")
        self.profiles = collections.Counter()
        self.fuzz.random = types.SimpleNamespace(Random=self.noting)
        for path in KEPT:
            keep_values(self.antt, d, path)

    def noting(self, seed):
        """A generator that notes which profile a random schedule has."""
        r = random.Random(seed)
        choice = r.choice

        def noted(xs):
            x = choice(xs)
            if "mixed" in xs:
                self.profiles["schedules of the profile " + x] += 1
            return x

        r.choice = noted
        return r

    def bytes(self, v):
        return bytes(self.antt.to_list(v))

    def list(self, data):
        return self.antt.from_list(list(data))

    # -- replays
    def replayed(self, text):
        """The transcript, the status, the note and the last state, as definitions give them."""
        r = self.replay(self.list(text))
        end = self.ended(r)
        last = self.last_state(r.f_state) if end[1] != 12 else None
        self.d.world.forget()
        return end + (last,)

    def ended(self, r):
        """The transcript of a replay, the status and the note."""
        out, ended = self.bytes(r.f_text), r.f_ended
        kind = ended[0].name
        if kind == "Done":
            end = 0, None
        elif kind == "BadLine":
            end = 2, "bad schedule: line %d column %d" % ended[1:]
        else:
            end = 12, "limit: %s %d" % (self.bytes(self.limit_text(ended[1].f_name)).decode(), ended[1].f_number)
        return (out,) + end

    def wanted(self, text, world=None):
        """The same as the model gives it."""
        w = world or self.machine.World()
        out, status, note = self.dlog.run(text, w)
        return out, status, note, self.model_state(w) if status != 12 else None

    def last_state(self, s):
        """A state: its nodes, its metadata, its letters and its ledgers."""
        d, antt = self.d, self.antt
        b = 0 if s.f_conf[0] is antt.NONE else s.f_conf[1].f_b
        nodes = []
        for i in range(b):
            n = s.f_nodes(i)
            nodes.append((n.f_mode[0].name, d.plain(n.f_bookie.f_batches), d.plain(n.f_bookie.f_queue)))
        marks = [s.f_delivered(i) for i in range(len(antt.to_list(s.f_letters)))]
        grown = [n for n in (s.f_ledgers(l).f_grown for l in range(64))]
        return {"nodes": nodes, "items": d.plain(s.f_meta.f_items), "meta": s.f_meta_up, "marks": marks, "grown": grown}

    def model_state(self, w):
        nodes = [(MODES[b.state], [[item(x) for x in batch] for batch in b.batches], [waiting(q) for q in b.queue]) for b in w.bookies]
        items = [self.d.plain(meta_item(self.d, x)) for x in reversed(w.meta.items)] if w.meta else []
        grown = [w.ledgers[l]["grown"] if l in w.ledgers else 0 for l in range(64)]
        return {"nodes": nodes, "items": items, "meta": w.meta is not None and w.meta.state == "up", "marks": [x[4] for x in w.letters], "grown": grown}

    # -- events
    def place(self, d):
        return self.antt.record(segment=d[0], entry=d[1], slot=d[2])

    def fields(self, form, values):
        """Fields by their form: a place takes three values."""
        out, at = [], 0
        for c in form:
            if c == "d":
                out.append(self.place(values[at : at + 3]))
                at += 3
            else:
                out.append(self.list(values[at].encode() if isinstance(values[at], str) else values[at]) if c == "b" else values[at])
                at += 1
        return out

    def event(self, e, line):
        """An event of the model as one of definitions; the ends of a link are read off its line."""
        d, kind, rest = self.d, e[0], e[1:]
        if kind == "rows":
            rows = [self.antt.record(place=self.place(p), txid=t, payload=self.list(x)) for p, t, x in rest[2]]
            return d.made["Event.Rows"](rest[0], self.list(rest[1].encode()), self.antt.from_list(rows))
        if kind == "mail":
            return d.made["Event.Mail"](*(self.end(x) for x in line.split()[2:4]), rest[-1])
        if kind.startswith("refused "):
            name, form = REFUSALS[kind.split()[1]]
            return d.made["Event.Refused"](rest[0], d.made["Refusal." + name](*self.fields(form, rest[1:])) if form else d.made["Refusal." + name]())
        name, form = EVENTS[kind]
        return d.made["Event." + name](*self.fields(form, rest)) if form else d.made["Event." + name]()

    def end(self, word):
        """An end of a link by its word."""
        kind = {b"c": "Client", b"b": "Bookie", b"m": "Meta"}[word[:1]]
        return self.d.made["Address." + kind](*([int(word[1:])] if kind != "Meta" else []))

    def said(self, transcript):
        """What is said of a transcript: the place of its first fault, or of the first line that is none of the grammar."""
        events, bad = [], None
        for i, line in enumerate(self.check.split_lines(transcript), 1):
            try:
                n, e = self.lines.parse_event(line)
            except self.lines.BadLine:
                bad = i
                break
            value = self.event(e, line)
            same("the spelling of an event", self.bytes(self.print_event(n, value)), line, repr(line))
            events.append(self.antt.pair(n, value))
        fault = self.fault_of(self.antt.from_list(events))
        self.d.world.forget()
        if fault[0] is not self.antt.NONE:
            return "illegal %d" % fault[1]
        return "badline %d" % bad if bad else "legal"


def compared(s, what, text, told):
    """A replay on both sides."""
    want = s.wanted(text)
    same(what, s.replayed(text), want, told)
    return want


def schedule(s, seed):
    text = s.fuzz.schedule(seed)
    return s.fuzz.spoil(text, random.Random(seed)) if seed % 5 == 4 else text


# ---- worked rows ---------------------------------------------------------------------------------------------------

OPEN = "setup 3 3 3 2;join 0;join 1;create 0 s;settle;open 0 s;settle;"


def asked(client, *numbers):
    """Requests of a client and their replies, each delivered."""
    return "".join("deliver c%d m %d;deliver m c%d %d;" % (client, n, client, n) for n in numbers)


# client 0 has one entry confirmed; the letters by which it closes, moves the point behind the segment and purges it
ONE_ENTRY = OPEN + "append 0 1 61;flush 0;settle;"
CLOSED = "close 0;" + asked(0, 8, 9, 10)
CUT = "truncate 0 s 2:0:0;" + asked(0, 11, 12)
PURGED = "purge 0 s;" + asked(0, 13, 14, 15)
# client 1 has asked to close the ledger that it recovers
RECOVERED = OPEN + "recover 1 s;" + asked(1, 1, 2, 3, 4) + """deliver c1 b0 1;deliver c1 b1 1;sync 0;sync 1;deliver b0 c1 1;deliver b1 c1 1;
    deliver c1 b0 2;deliver c1 b1 2;deliver b0 c1 2;deliver b1 c1 2;"""

# each is named for what it shows
ROWS = {
    "a denial before the fence is durable doesn't count, also where one with the fence follows it": OPEN
    + """append 0 5 61;flush 0;recover 1 s;deliver c1 m 1;deliver m c1 1;deliver c1 m 2;deliver m c1 2;deliver c1 m 3;deliver m c1 3;
    deliver c1 m 4;deliver m c1 4;deliver c1 b0 1;deliver c1 b1 1;sync 0;sync 1;deliver b0 c1 1;deliver b1 c1 1;deliver c1 b2 2;
    deliver b2 c1 1;deliver c1 b0 2;deliver b0 c1 2;deliver c1 m 5;settle""",
    "a stream is created again where it was removed, by two at once": """setup 3 3 3 2;join 0;join 1;remove 0 s;settle;create 0 s;settle;
    open 1 s;settle;remove 0 s;settle;close 1;settle;truncate 1 s 2:0:0;settle;purge 1 s;settle;remove 0 s;settle;create 0 s;create 1 s;settle;
    open 1 s;settle;mail""",
    "a setup whose numbers don't fit, lines before it, and a second one": """join 0;settle;mail;setup 3 4 3 2;setup 3 3 4 2;setup 3 3 2 3;
    setup 3 3 3 2;setup 3 3 3 2;join 0;sync 3;lose 3;kill b3;up b3;stop 3 1 1;deliver c0 b15 1;deliver c0 m 1;up b0;up m;kill m;kill m;
    join 1;expire 1;crash 0;crash 0;create 0 s;up m;expire 2;expire 1;expire 1;lose 0;lose 0;up b0;kill b0;mail;settle""",
    "bookies beyond the ensemble are left out, and a bookie that is lost answers nothing": """setup 5 3 2 2;join 0;create 0 s;settle;open 0 s;
    settle;lose 1;append 0 1 61;flush 0;settle;append 0 2 62;flush 0;settle;append 0 3 63;flush 0;settle;close 0;settle;mail""",
    "a letter of an earlier session reaches nodes, and its answer reaches nobody": OPEN
    + """append 0 1 61;flush 0;join 0;settle;recover 0 s;settle;append 0 2 62;deliver b0 c0 1;mail;expire 1;open 0 s;settle;append 0 3 63;
    flush 0;settle""",
    "a request that runs twice, an old one, and one whose commit stops": OPEN
    + """recover 1 s;stopmeta 1 1 2 1;settle;up m;deliver c1 m 1;settle;deliver c1 m 1;deliver m c1 1;recover 1 s;stopmeta 1 5 3 1;up m;
    stopmeta 1 1 4 1;stopmeta 1 9 4 1;stopmeta 2 1 4 1;settle;crash 1;stopmeta 1 5 4 1;truncate 0 s 1:0:1;settle""",
    "a segment is completed by another while it is closed": ONE_ENTRY
    + "close 0;" + asked(0, 8) + "recover 1 s;" + asked(1, 1, 2, 3) + "deliver c1 b0 1;deliver b0 c1 1;deliver c1 m 4;settle",
    "two purges at once, the segment gone before it is looked at": ONE_ENTRY + CLOSED + CUT
    + "purge 0 s;purge 1 s;" + asked(0, 13) + asked(1, 1) + asked(0, 14, 15) + "settle",
    "two purges at once, the segment gone before it is deleted": ONE_ENTRY + CLOSED + CUT
    + "purge 0 s;purge 1 s;" + asked(0, 13) + asked(1, 1) + asked(0, 14) + asked(1, 2) + asked(0, 15) + "settle",
    "a read whose ledger is purged": ONE_ENTRY + CLOSED + "seek 1 s oldest;settle;" + CUT + "read 1 10;" + asked(1, 2, 3) + PURGED + "settle",
    "a recovery whose ledger is purged before it is looked at": ONE_ENTRY + "recover 1 s;" + asked(1, 1, 2) + CLOSED + CUT + PURGED + "settle",
    "a recovery whose ledger is purged before it is marked": ONE_ENTRY + "recover 1 s;" + asked(1, 1, 2, 3) + CLOSED + CUT + PURGED + "settle",
    "a recovery whose ledger is purged before it is closed": RECOVERED
    + "join 2;recover 2 s;" + asked(2, 1, 2, 3) + """deliver c2 b0 1;deliver c2 b1 1;deliver b0 c2 1;deliver b1 c2 1;deliver c2 b0 2;
    deliver c2 b1 2;deliver b0 c2 2;deliver b1 c2 2;""" + asked(2, 4, 5) + "truncate 2 s 2:0:0;" + asked(2, 6, 7) + "purge 2 s;" + asked(2, 8, 9, 10)
    + "settle",
    "an answer of a storage node that comes while an order asks the metadata node": ONE_ENTRY
    + "expire 1;open 1 s;" + asked(1, 1, 2, 3, 4, 5, 6) + """deliver c1 b0 1;deliver c1 b1 1;deliver c1 b2 1;sync 0;sync 1;sync 2;deliver b0 c1 1;
    deliver b1 c1 1;deliver c1 b0 2;deliver b0 c1 2;deliver c1 b1 2;deliver b1 c1 2;deliver b2 c1 1;settle;read 1 1;seek 1 s txid 2;settle;read 1 1;
    settle;append 1 1 61;flush 1;settle;commit 1;settle;read 1 1000;settle""",
    "orders on a stream that is not there, and a read of one that was removed": """setup 3 3 3 2;join 0;recover 0 s;settle;open 0 s;settle;
    seek 0 s oldest;settle;truncate 0 s 2:0:0;settle;purge 0 s;settle;remove 0 s;settle;create 0 s;settle;seek 0 s oldest;settle;remove 0 s;settle;
    read 0 1;settle;create 0 s;settle;read 0 1;settle;recover 0 s;settle""",
    "two recoveries that mark a ledger at once": OPEN
    + "append 0 1 61;flush 0;join 2;recover 1 s;recover 2 s;" + asked(1, 1, 2, 3) + asked(2, 1, 2, 3) + asked(1, 4) + asked(2, 4) + "settle;mail",
    "two recoveries that close a ledger at once": RECOVERED
    + "join 2;recover 2 s;" + asked(2, 1, 2, 3) + """deliver c2 b0 1;deliver c2 b1 1;deliver b0 c2 1;deliver b1 c2 1;deliver c2 b0 2;
    deliver c2 b1 2;deliver b0 c2 2;deliver b1 c2 2;""" + asked(1, 5) + asked(2, 4) + "settle;mail",
    "two truncations at once": ONE_ENTRY
    + CLOSED + "truncate 0 s 1:0:1;truncate 1 s 2:0:0;" + asked(0, 11) + asked(1, 1) + asked(0, 12) + asked(1, 2) + "settle",
    "a recovery whose segment is completed before it is looked at": ONE_ENTRY + "recover 1 s;" + asked(1, 1) + CLOSED + "settle",
    "a read whose segment is purged before it is looked at": ONE_ENTRY
    + CLOSED + "seek 1 s oldest;settle;" + CUT + "read 1 10;" + asked(1, 2) + PURGED + "settle",
    "a recovery that comes to another ledger hears late answers of the first one": RECOVERED
    + "join 2;recover 2 s;" + asked(2, 1, 2, 3) + """deliver c2 b0 1;deliver c2 b1 1;deliver b0 c2 1;deliver b1 c2 1;deliver c2 b0 2;
    deliver c2 b1 2;deliver b0 c2 2;deliver b1 c2 2;""" + asked(2, 4, 5) + "truncate 2 s 2:0:0;" + asked(2, 6, 7) + "purge 2 s;" + asked(2, 8, 9, 10)
    + "expire 1;open 2 s;" + asked(2, 11, 12, 13, 14, 15, 16) + asked(1, 5, 6, 7, 8, 9, 10) + """deliver c1 b2 1;sync 2;deliver b2 c1 1;deliver c1 b1 3;
    deliver c1 b0 3;sync 1;sync 0;deliver b1 c1 3;deliver b0 c1 3;deliver c1 b2 2;deliver b2 c1 2;settle;mail""",
    "a recovery hears late answers about the entry before": OPEN
    + """append 0 1 61;flush 0;append 0 2 62;flush 0;deliver c0 b0 1;deliver c0 b0 2;sync 0;deliver c0 b1 1;deliver c0 b1 2;sync 1;deliver c0 b2 1;
    deliver c0 b2 2;sync 2;recover 1 s;""" + asked(1, 1, 2, 3, 4) + """deliver c1 b0 1;deliver c1 b1 1;sync 0;sync 1;deliver b0 c1 1;deliver b1 c1 1;
    deliver c1 b0 2;deliver c1 b1 2;deliver c1 b2 2;deliver b0 c1 2;deliver b1 c1 2;deliver c1 b0 3;deliver c1 b1 3;deliver c1 b2 3;deliver b0 c1 3;
    deliver b1 c1 3;deliver b1 c1 2;deliver c1 b0 4;deliver b0 c1 4;deliver b2 c1 2;settle;mail""",
    "a read hears a late answer about the entry before": OPEN
    + "append 0 1 61;flush 0;append 0 2 62;flush 0;settle;commit 0;settle;seek 1 s oldest;settle;read 1 10;" + asked(1, 2, 3, 4)
    + """deliver c1 b0 1;deliver c1 b1 1;deliver b0 c1 1;deliver b1 c1 1;deliver c1 b0 2;deliver c1 b1 2;deliver b0 c1 2;deliver b1 c1 2;settle""",
    "a reply that comes again while a commit waits": OPEN
    + "append 0 1 61;expire 1;seek 0 s oldest;deliver c0 m 8;deliver m c0 8;commit 0;deliver m c0 8;settle",
    "a late answer to a read before": ONE_ENTRY
    + "seek 1 s oldest;" + asked(1, 1) + "read 1 10;" + asked(1, 2, 3, 4) + """deliver c1 b0 1;deliver c1 b1 1;deliver b0 c1 1;deliver b1 c1 1;
    deliver c1 b2 1;read 1 10;""" + asked(1, 5, 6, 7) + "deliver c1 b0 2;deliver b0 c1 2;deliver b2 c1 1;deliver c1 b1 2;deliver b1 c1 2;settle",
    "an open hears late answers of its recovery while it looks again, allocates and starts": OPEN
    + "expire 1;open 1 s;" + asked(1, 1, 2, 3, 4, 5, 6) + """deliver c1 b0 1;deliver c1 b1 1;deliver c1 b2 1;sync 0;sync 1;sync 2;deliver b0 c1 1;
    deliver b1 c1 1;deliver c1 b0 2;deliver c1 b1 2;deliver b0 c1 2;deliver b1 c1 2;""" + asked(1, 7) + "deliver b2 c1 1;" + asked(1, 8) + "deliver b2 c1 1;"
    + asked(1, 9) + "deliver b2 c1 1;" + asked(1, 10) + "deliver b2 c1 1;" + asked(1, 11) + "deliver b2 c1 1;settle;mail",
    "a close that is stopped inside the setting of its ledger's node": OPEN
    + """append 0 1 61;flush 0;settle;append 0 2 62;append 0 2 63;close 0;deliver c0 b0 2;deliver c0 b1 2;sync 0;sync 1;deliver b0 c0 2;
    deliver b1 c0 2;stopmeta 0 8 3 1;up m;settle;recover 1 s;settle;mail""",
}


def text_of(row):
    return "".join(x.strip() + "\n" for x in row.split(";") if x.strip()).encode()


def model_rows(s):
    """The schedules that the model's own tests replay."""
    texts, real = [], s.dlog.run
    s.dlog.run = lambda text, *more: (texts.append(text), real(text, *more))[1]
    source = os.path.join(s.model, "test_rows.py")
    try:
        with open(source) as f, open(os.devnull, "w") as out:
            kept, sys.stdout = sys.stdout, out
            exec(compile(f.read(), source, "exec"), {"__file__": source, "__name__": "rows"})
    except SystemExit:
        pass
    finally:
        sys.stdout, s.dlog.run = kept, real
    return texts


def rows(s, seed):
    for what, row in ROWS.items():
        compared(s, "a row: " + what, text_of(row), "the whole row")
    texts = [x for x in model_rows(s) if len(x) < 100000]
    for i, text in enumerate(texts):
        compared(s, "a worked row", text, "row %d: %r" % (i, text[:200]))
    return {"rows": len(ROWS) + len(texts)}


# reads of a thousand rows, and of the rest
THOUSAND = OPEN + ("set 0 1 %s;" % " ".join(["61"] * 64)) * 16
THOUSAND += "flush 0;settle;commit 0;settle;seek 1 s oldest;settle;read 1 1000;settle;read 1 1000;settle;read 1 1000;settle"

# a whole entry has 8 bytes, a record in it 20, a set 4 and each member 4 besides
LONGEST, ENTRY = 1040384, 1048576


def big(s, seed):
    """Payloads, sets and entries just at their limits and one byte past them, and reads of as many rows as may be."""
    hexes = lambda n: "61" * n if n else "-"
    left = ENTRY - 8 - 20 - LONGEST - 20
    texts = [text_of(THOUSAND)] + [x for x in model_rows(s) if len(x) >= 100000]
    for more in (left, left + 1):
        texts.append(text_of(OPEN + "append 0 1 %s;append 0 2 %s;flush 0;settle" % (hexes(LONGEST), hexes(more))))
    for last in (LONGEST - 4 - 4 - 4, LONGEST - 4 - 4 - 4 + 1):
        texts.append(text_of(OPEN + "set 0 1 - %s;set 0 2 %s;flush 0;settle" % (hexes(last), " ".join(["61"] * 64))))
    for i, text in enumerate(texts):
        compared(s, "a big row", text, "row %d" % i)
    return {"big rows": len(texts)}


def fuzz(s, seed):
    text = schedule(s, seed)
    want = compared(s, "a replay", text, "seed %d" % seed)
    told = {"schedules": 1, "schedules that end with status %d" % want[1]: 1, "lines run": text.count(b"\n")}
    told.update(s.profiles)
    s.profiles.clear()
    return told


# ---- limits --------------------------------------------------------------------------------------------------------

# the limits by name: the definitions that are the number, and where the model has it
NAMES = {
    "pool": (["dl_rules_nodes.Limits.pool_pages"], ("machine", "POOL_PAGES")),
    "index": (["dl_rules_nodes.Limits.most_entries"], ("machine", "MAX_INDEX")),
    "ledgers": (["dl_rules_nodes.Limits.most_ledgers"], ("machine", "MAX_LEDGERS")),
    "queue": (["dl_rules_nodes.Limits.most_waiting"], ("machine", "MAX_QUEUE")),
    "journal": (["dl_rules_nodes.Limits.longest_journal"], ("machine", "MAX_JOURNAL")),
    "window": (["dl_rules_stream.LogWriters.window"], ("machine", "WINDOW")),
    "payload": (["dl_rules_stream.LogWriters.longest_payload"], ("machine", "MAX_PAYLOAD")),
    "entry": (["dl_rules_stream.LogWriters.longest_entry"], ("machine", "MAX_ENTRY")),
    "messages": (["dl_machine.Limits.most_messages"], ("machine", "MAX_MESSAGES")),
    "message-bytes": (["dl_machine.Limits.most_message_bytes"], ("machine", "MAX_MESSAGE_BYTES")),
    "transcript": (["dl_machine.Limits.most_transcript"], ("dlog", "MAX_TRANSCRIPT")),
    "lines": (["dl_machine.Limits.most_lines"], ("dlog", "MAX_LINES")),
    "schedule": (["dl_machine.Limits.most_schedule"], ("dlog", "MAX_SCHEDULE")),
    "calls": (["dl_machine.Limits.most_calls"], None),
    "sessions": (["dl_rules_nodes.Limits.greatest_session"], None),
}

# the limits that a run passes and goes on; the model's builder sends an empty entry where no record fits an entry at all, so that
# the limit on entries begins where each record of the random schedules fits
GO_ON = {"pool": (0, 64), "index": (0, 4096), "ledgers": (0, 512), "queue": (0, 512), "window": (1, 64), "payload": (0, 64), "entry": (60, 4096)}


class Limited:
    """Both sides under a small limit."""

    def __init__(self, s, name, number):
        self.s, self.name, self.number = s, name, number

    def __enter__(self):
        paths, place = NAMES[self.name]
        d, self.kept = self.s.d, []
        for path in paths:
            d.function(path)
            key = "d%d" % d.world.definition("Rattle.%s.specs.%s" % tuple(path.split(".", 1))).id
            self.kept.append((d.world.space, key, d.world.space[key]))
            d.fix(path, self.number)
        self.model = ModelLimit(self.s, self.name, self.number) if place else None
        if self.model:
            self.model.__enter__()
        d.world.forget()

    def __exit__(self, *_):
        for space, key, old in self.kept:
            space[key] = old
        if self.model:
            self.model.__exit__()
        self.s.d.world.forget()


class ModelLimit:
    """The model under a small limit. Names of its machine that other modules took over are theirs too."""

    def __init__(self, s, name, number):
        self.s, self.number, self.place = s, number, NAMES[name][1]

    def __enter__(self):
        self.module, name = getattr(self.s, self.place[0]), self.place[1]
        self.old = getattr(self.module, name)
        setattr(self.module, name, self.number)

    def __exit__(self, *_):
        setattr(self.module, self.place[1], self.old)


def needs(s, text):
    """What a schedule needs of each thing whose limit ends a run."""
    w = s.machine.World()
    out = s.dlog.run(text, w)[0]
    need = {"messages": len(w.letters), "message-bytes": w.message_bytes, "transcript": len(out), "schedule": len(text)}
    need["lines"] = len(s.check.split_lines(text))
    need["calls"] = max(taken_by(s, text).values(), default=0)
    need["sessions"] = w.meta.last if w.meta else 0
    need["journal"] = w.meta.size if w.meta else 0
    return need


def records(step):
    return 1 if step[0] == "append" else len(step[3])


def taken_by(s, text):
    """How many records each client would have had taken by the end, were its greatest line not refused."""
    w, most = s.machine.World(), {}
    for i, line in enumerate(s.check.split_lines(text), 1):
        step = s.lines.parse_line(line)
        if step[0] in ("append", "set") and w.b is not None and step[1] in w.clients:
            most[step[1]] = max(most.get(step[1], 0), w.taken.get(step[1], 0) + records(step))
        w.step(i, step)
    return most


def stopped(s, text, name, number, world=None):
    """The replay by the model up to the first line at which records, or sessions, would pass a number."""
    world = world or s.machine.World
    w, kept = world(), []
    for i, line in enumerate(s.check.split_lines(text), 1):
        step = s.lines.parse_line(line)
        if name == "calls" and step[0] in ("append", "set") and w.b is not None and step[1] in w.clients:
            if w.taken.get(step[1], 0) + records(step) > number:
                return s.dlog.run(b"".join(kept), world())[0], 12, "limit: calls %d" % number, None
        if name == "sessions" and step[0] == "join" and w.b is not None and w.meta.state == "up" and w.meta.last >= number:
            return s.dlog.run(b"".join(kept))[0], 12, "limit: sessions %d" % number, None
        w.step(i, step)
        kept.append(line)
    return s.wanted(text, world())


def least(s, text, name, free):
    """The least number for a limit at which a schedule runs as it does without one."""
    low, high = GO_ON[name]

    def runs_free(n):
        with ModelLimit(s, name, n):
            return s.dlog.run(text) == free

    if not runs_free(high) or runs_free(low):
        return None
    while low + 1 < high:
        middle = (low + high) // 2
        low, high = (low, middle) if runs_free(middle) else (middle, high)
    return high


def full_journals(s, told):
    """A storage node's journal without room for an entry, where the metadata node's has room for its items."""
    text = text_of(OPEN + "append 0 1 %s;flush 0;settle;append 0 2 61;flush 0;settle;recover 1 s;settle" % ("61" * 6000))
    w = s.machine.World()
    s.dlog.run(text, w)
    n = max(b.size for b in w.bookies) + 13
    for number in range(w.meta.size + 14, n + 40, 997):
        with Limited(s, "journal", number):
            compared(s, "a replay under the limit on journals", text, "a big entry, %d" % number)
        told["journals of storage nodes"] += 1


# a message comes again while it waits, and once it is durable, and a recovery copies
REPEATED = OPEN + """append 0 1 61;flush 0;append 0 2 62;flush 0;deliver c0 b0 1;deliver c0 b0 1;deliver c0 b0 2;deliver c0 b0 2;sync 0;deliver c0 b0 2;
    settle;recover 1 s;settle"""


def repeated(s, told):
    """What a storage node has no room for, at each of the first numbers; its queue is seen before a commit too."""
    for name in ("pool", "index", "ledgers", "queue"):
        for number in range(5):
            with Limited(s, name, number):
                for text in (REPEATED, REPEATED[: REPEATED.index("sync 0")]):
                    compared(s, "a replay under the limit on %s" % name, text_of(text), "messages that come again, %d" % number)
            told["messages that come again, under a limit on %s" % name] += 1


def limits(s, seed):
    text, told = s.fuzz.schedule(seed), collections.Counter()
    free, need = s.dlog.run(text), needs(s, text)
    s.profiles.clear()
    if seed % 100 == 0:
        repeated(s, told)
        full_journals(s, told)
    ending = ["messages", "message-bytes", "transcript", "lines", "schedule", "calls", "sessions", "journal"]
    for name in ending[seed % 4 :: 4]:
        for number in (need[name], need[name] - 1):
            if number < 0 or need[name] == 0:
                continue
            with Limited(s, name, number):
                want = s.wanted(text) if NAMES[name][1] else stopped(s, text, name, number)
                same("a replay under the limit on %s" % name, s.replayed(text), want, "seed %d, %d" % (seed, number))
            told["%s %s" % (name, "just enough" if number == need[name] else "one too few")] += 1
            if name != "journal" and (want[1] == 12) != (number < need[name]):
                raise Differs("the model's limit on %s did not stop seed %d at %d" % (name, seed, number))
    for name in sorted(GO_ON)[seed % 2 :: 2]:
        n = least(s, text, name, free)
        for number in (n, n - 1) if n is not None else ():
            with Limited(s, name, number):
                compared(s, "a replay under the limit on %s" % name, text, "seed %d, %d" % (seed, number))
            told["%s %s" % (name, "just enough" if number == n else "one too few")] += 1
    return told


def true(s, seed):
    """The limits at their true numbers: the nodes once, and the counts of a run by random schedules."""
    told = collections.Counter()
    if seed == 0:
        true_limits.nodes(s, told)
    true_limits.counts(s, seed, told, sys.modules[__name__])
    return told


# ---- lines ---------------------------------------------------------------------------------------------------------

LINES = [
    b"", b"\n", b"set\n", b"setup 17 1 1 1\n", b"setup 1 1 1 0\n", b"append 64 1 61\n", b"append 0 9223372036854775807 -\n",
    b"append 0 9223372036854775808 -\n", b"append 0 1 6\n", b"append 0 1 61", b"read 0 0\n", b"read 0 1000\n", b"read 0 1001\n",
    b"deliver c0 c1 1\n", b"deliver b3 m 1\n", b"deliver m c63 4294967295\n", b"deliver m c63 4294967296\n", b"deliver c1 b15 0\n",
    b"stop 0 5 0\n", b"stop 0 4 2\n", b"stopmeta 0 1 1 2\n", b"stopmeta 0 1 4 1\n", b"sync 16\n", b"lose 15\n", b"kill c1\n", b"kill b16\n",
    b"kill m\n", b"up m", b"up b15\n", b"expire 0\n", b"expire 18446744073709551615\n", b"expire 18446744073709551616\n",
    b"seek 0 s oldest\n", b"seek 0 s dlsn 0:0:0\n", b"seek 0 s dlsn 1:18446744073709551615:4294967295\n", b"seek 0 s dlsn 1:0:4294967296\n",
    b"seek 0 s txid 9223372036854775807\n", b"seek 0 s other\n", b"truncate 0 s 0:0:0\n", b"create 0 " + b"a" * 64 + b"\n",
    b"create 0 " + b"a" * 65 + b"\n", b"create 0 A\n", b"create 0 a-_9\n", b"set 0 1" + b" 61" * 64 + b"\n", b"set 0 1" + b" -" * 65 + b"\n",
    b"set 0 1\n", b"set 0 1 61 \n", b"settle", b"settle\n", b"mail \n", b"crash 63\n", b"purge 0 s\n", b"recover 0 s\n", b"remove 0 s\n",
]


def column(s, line):
    v = s.parsed_line(s.list(line))
    try:
        s.lines.parse_line(line)
        want = None
    except s.lines.BadLine as b:
        want = b.column
    same("the column of a line", None if v[0].name == "Ok" else v[1], want, repr(line))
    if want is None:
        same("the spelling of a line", s.bytes(s.step_line(v[1])), line, repr(line))


def lines(s, seed):
    r, n = random.Random(seed), 0
    if seed % CHUNK == 0:
        for x in LINES:
            column(s, x)
        n += len(LINES)
    for x in sorted(set(s.fuzz.schedule(seed).splitlines(True))):
        column(s, x)
        for _ in range(3):
            column(s, s.fuzz.spoil(x, r).split(b"\n")[0] + b"\n" * (r.random() < 0.9))
        n += 4
    s.profiles.clear()
    s.d.world.forget()
    return {"lines": n}


# ---- transcripts ---------------------------------------------------------------------------------------------------


SEEN = "1 joined 0 1;1 joined 1 2;1 writer 0 s 1;1 took 0 1 s 5 61;1 took 0 2 s 6 62;2 grow s 1:0:0 5 0 1 61;2 grow s 1:0:1 6 0 2 62;"
READING = SEEN + "3 opened 1 s 1:0:0;3 reading 1 s;"
MOVED = SEEN + "3 closed s 1;3 point s 1:0:1;3 point s 2:0:0;4 opened 1 s txid 5;4 reading 1 s;"
# rows at the last slot of an entry, and at the last one of a segment
EDGE = """1 joined 0 1;1 took 0 1 s 5 61;1 took 0 2 s 5 62;1 grow s 1:0:4294967295 5 0 1 61;1 grow s 1:18446744073709551615:4294967295 5 0 2 62;
    1 committed s 1:18446744073709551615:0;2 opened 0 s 1:0:0;"""
REASONS = """expired 1;held 0;fenced 2;moved /a 1;nostream;streamexists;txidback 5 4;toolong 9;beyondend 1:0:0;nowriter;truncated 1:0:1;truncated 1:0:0;
    notempty 1;busy 3;windowfull;gaveup /a"""
# what follows these lines, one transcript each
ENDS = {
    SEEN: """3 grow s 1:0:1 6 0 3 62;3 grow s 1:0:2 6 0 0 62;3 grow s 1:0:2 6 0 2 62;3 grow s 1:1:0 6 0 3 62;3 ack 0 1 1:0:0;3 ack 0 0 1:0:0;3 ack 0 3 1:0:0;
        3 ack 0 1 1:0:1;3 ack 1 1 1:0:0;3 committed s 1:1:0;3 committed s 1:1:1;3 committed s 3:0:0;3 recovered 0 s 1:1:0;3 recovered 0 s 0:0:0;
        3 point s 2:0:0;3 point s 1:0:0;3 point s 2:0:1;3 truncated 0 s 1:0:0;3 writer 0 s 1;3 writer 0 s 2;3 writer 0 s 0;3 reading 1 s;3 end 1 s;
        3 rows 1 s 1:0:0/5/61;3 refused 1 truncated 1:0:0;3 mail c0 m 1;3 none;3 joined 0 4;3 joined 0 3;3 expired 0;3 expired 1;3 expired 3;3 sent 0 1:0;
        3 created 0 s;3 removed 0 s;3 released 0 s;3 whole 0 s;3 purged 0 s 1;2 none;1 none;3 closed s 2;3 closed s 1;3 took 0 2 s 5 61;3 took 0 3 t 1 -""",
    SEEN + "3 closed s 1;3 recovered 0 s 1:1:0;": """4 recovered 1 s 1:1:0;4 recovered 1 s 1:2:0;4 recovered 1 s 1:0:0;4 recovered 1 s 2:0:0;4 writer 1 s 2;
        4 grow s 1:1:0 6 0 2 62;4 point s 2:0:0;4 point s 2:0:1""",
    SEEN + "3 opened 1 s 1:0:0;": "4 refused 1 truncated 1:0:1;4 end 1 s;4 rows 1 s 1:0:0/5/61;4 reading 1 t;4 reading 0 s;4 reading 1 s",
    READING: """4 rows 1 s 1:0:0/5/61;4 rows 1 s 1:0:0/5/61 1:0:1/6/62;4 rows 1 s 1:0:0/5/61 1:0:1/6/62 1:0:2/6/62;4 rows 1 s 1:0:1/6/62;
        4 rows 1 s 1:0:0/5/62;4 rows 1 s 1:0:0/6/61;4 rows 1 s 1:0:0/5/-;4 rows 1 s 1:0:0/5/61 1:0:1/6/63;4 rows 1 t 1:0:0/5/61;4 end 1 t;4 end 1 s;
        4 reading 1 s;4 opened 1 s 1:0:1;4 joined 1 3;4 refused 0 nostream""",
    READING + "3 committed s 1:1:0;": "4 end 1 s;4 rows 1 s 1:0:0/5/61",
    READING + "4 rows 1 s 1:0:0/5/61;3 committed s 1:1:0;5 reading 1 s;": "6 end 1 s;6 rows 1 s 1:0:1/6/62;6 rows 1 s 1:0:0/5/61",
    SEEN + "3 committed s 1:1:0;3 opened 1 s 1:0:0;3 reading 1 s;": "4 end 1 s;4 grow s 1:0:2 6 0 3 62",
    EDGE + "2 reading 0 s;2 rows 0 s 1:0:4294967295/5/61;3 reading 0 s;": """4 end 0 s;4 rows 0 s 1:18446744073709551615:4294967295/5/62;
        4 rows 0 s 1:0:4294967295/5/61""",
    EDGE + "2 reading 0 s;2 rows 0 s 1:0:4294967295/5/61 1:18446744073709551615:4294967295/5/62;3 reading 0 s;": """4 end 0 s;
        4 rows 0 s 1:18446744073709551615:4294967295/5/62;4 rows 0 s 2:0:0/5/62""",
    MOVED: """5 rows 1 s 1:0:0/5/61;5 rows 1 s 1:0:1/6/62;5 rows 1 s 1:0:0/5/61 1:0:1/6/62;5 rows 1 s 2:0:0/6/62;5 end 1 s;5 refused 1 truncated 1:0:0;
        5 refused 1 truncated 1:0:1;5 refused 1 truncated 2:0:0;5 refused 1 truncated 2:0:1;5 refused 0 truncated 7:0:0;5 truncated 0 s 1:0:1;
        5 truncated 0 s 2:0:0;5 truncated 0 s 1:0:0""",
}


def transcripts():
    """Transcripts that show what each rule allows and refuses; each refusal comes while a read is under way, and then the read ends or begins."""
    cut = lambda text: [x.strip() for x in text.split(";") if x.strip()]
    for begin, ends in ENDS.items():
        yield from ([*cut(begin), x] for x in cut(ends))
    for why in cut(REASONS):
        for end in ("5 end 1 s", "5 reading 1 s", "5 rows 1 s 1:0:0/5/61"):
            yield [*cut(READING), "4 refused 1 " + why, end]
            yield [*cut(MOVED), "5 refused 1 " + why, end]


def spoilt(s, r, text):
    """A transcript with a line lost, twice, moved or changed."""
    x = text.splitlines(True)
    k = r.random()
    i = r.randrange(len(x))
    if k < 0.3:
        del x[i]
    elif k < 0.45:
        x.insert(i, x[r.randrange(len(x))])
    elif k < 0.6:
        j = r.randrange(len(x))
        x[i], x[j] = x[j], x[i]
    elif k < 0.95:
        numbers = list(re.finditer(rb"\d+", x[i]))[1:]
        if numbers:
            m = r.choice(numbers)
            x[i] = x[i][: m.start()] + b"%d" % max(0, int(m.group()) + r.choice([-1, 1, 1, 2, 10])) + x[i][m.end() :]
    else:
        return s.fuzz.spoil(text, r)
    return b"".join(x)


def legal(s, seed):
    r, told = random.Random(seed), collections.Counter()
    text = s.dlog.run(s.fuzz.schedule(seed))[0]
    s.profiles.clear()
    for x in transcripts() if seed % CHUNK == 0 else ():
        t = "".join(line + "\n" for line in x).encode()
        want = s.check.check(t)
        same("what is said of a transcript", s.said(t), want, t.decode())
        told["rows of transcripts that are " + want.split()[0]] += 1
    for i in range(8):
        t = text if i == 0 or not text else spoilt(s, r, text)
        want = s.check.check(t)
        same("what is said of a transcript", s.said(t), want, "seed %d, %d" % (seed, i))
        told["transcripts that are " + want.split()[0]] += 1
        told["transcripts that were spoilt"] += t != text
    return told


# ---- failing devices -----------------------------------------------------------------------------------------------


def run_with(s, text, luck_of, told):
    """A run whose devices fail: what becomes of each atomic step is said by its line. Its transcript has to keep every rule."""
    antt, f = s.antt, s.d.function
    step_with, is_fit, state, out = f("dl_machine.Runs.step_with"), f("dl_machine.Runs.is_fit"), f("dl_machine.States.blank"), []
    met, fit = 0, 0
    for line, word in enumerate(text.splitlines(True), 1):
        x, lucks = s.parsed_line(s.list(word))[1], {}

        def luck(i):
            if i not in lucks:
                lucks[i] = luck_of(word)
            return lucks[i]

        fit += is_fit(lambda b: True, luck, state, line, x)
        now = step_with(luck, state, line, x)
        state = now.f_state
        out += [s.bytes(s.print_event(line, e)) for e in antt.to_list(now.f_events)]
        met += sum(v[0].name != "Well" for v in lucks.values())
    s.d.world.forget()
    same("what is said of a run with failing devices", s.check.check(b"".join(out)), "legal", told)
    return {"runs with failing devices": 1, "failures": met, "lines whose failures may be": fit}


# a storage node is stopped inside a commit, and its first load fails
STOPPED = OPEN + "append 0 1 61;flush 0;deliver c0 b0 1;deliver c0 b1 1;stop 0 3 %d;up b0;up b0;deliver c0 b0 1;settle;recover 1 s;settle"


def faults(s, seed):
    """What devices that fail leave has to keep every rule of a legal transcript: there is no model of them."""
    r, told = random.Random(seed), collections.Counter()
    text = s.fuzz.schedule(seed)
    s.profiles.clear()
    well, fails, falls, unmade = (s.d.world.con("Rattle.dl_machine.specs.Fates." + n) for n in ("Well", "Fails", "Falls", "Unmade"))

    def any_luck(word):
        y = r.random() / (20 if word.startswith(b"up ") else 1)
        return fails(y < 0.01) if y < 0.02 else falls() if y < 0.03 else unmade(s.list([r.randrange(3)])) if y < 0.1 else well()

    for kept, other in ((0, False), (0, True), (1, False), (1, True)) if seed % CHUNK == 0 else ():
        first = [fails(other)]
        told.update(run_with(s, text_of(STOPPED % kept), lambda word: first.pop() if first and word == b"up b0\n" else well(), "a failed load"))
    told.update(run_with(s, text, any_luck, "seed %d" % seed))
    return told


# ---- the checker as a second judge ---------------------------------------------------------------------------------

TEXT_OF_RUN = "Rattle.dl_machine.specs.Replays.{replay_text}"


def judged(s, options):
    """The schedules that the checker is to run: worked rows, and random ones of at most so many lines."""
    yield from (("row_%d" % i, text) for i, text in enumerate([text_of(x) for x in ROWS.values()] + model_rows(s)))
    yield from (("seed_%d" % seed, s.fuzz.schedule(seed)) for seed in range(*options.seeds))


def write_rows(s, options):
    """Writes the crate in which the checker computes transcripts, each of which has to be the model's."""
    rows, most = [], options.count
    for name, text in judged(s, options):
        if text.count(b"\n") > options.longest or len(rows) == most:
            continue
        out = s.dlog.run(text)[0]
        if len(text) + len(out) <= 200 * options.longest:
            rows.append((name, checker_rows.with_input(s.antt, "replay_text input", text), s.list(out)))
    c, lemmas = checker_rows.build(s.antt, s.d.world, [TEXT_OF_RUN], rows)
    checker_rows.write(c, lemmas, options.checker)
    print("%d rows of at most %d lines; the last is %s" % (len(rows), options.longest, rows[-1][0]))


# ---- all of it -----------------------------------------------------------------------------------------------------

PARTS = {"rows": rows, "fuzz": fuzz, "limits": limits, "true": true, "lines": lines, "legal": legal, "faults": faults, "big": big}
ONCE = ("rows", "big")
KEPT_SIDES = {}


def sides(options):
    """The two sides, made once in each process."""
    key = options.tools, options.model, options.crates, bool(options.used)
    if key not in KEPT_SIDES:
        KEPT_SIDES[key] = Sides(*key)
    return KEPT_SIDES[key]


def in_depth(run):
    """Runs where recursion may go deep; 0 where it came to its end."""
    sys.setrecursionlimit(10**9)
    threading.stack_size(1 << 30)
    gc.disable()
    done = []
    t = threading.Thread(target=lambda: (run(), done.append(True)))
    t.start()
    t.join()
    return 0 if done else 1


def work(args):
    options, part, seeds = args
    out = []

    def run():
        told, fault = collections.Counter(), None
        s = sides(options)
        try:
            for seed in seeds:
                told.update(PARTS[part](s, seed))
        except Differs as x:
            fault = "%s: %s" % (part, x)
        except s.antt.Unread as x:
            fault = "UNREAD: %s" % x
        out.append((told, USED.copy(), set(s.d.world.space.get("keys", [])), fault))

    in_depth(run)
    return out[0] if out else ({}, set(), set(), "%s: no answer for seeds %s" % (part, seeds))


def compare(options):
    """Runs the parts; gives what was counted, and the first difference, or None."""
    jobs = []
    for part in options.part:
        seeds = list(range(*options.seeds)) if part not in ONCE else [0]
        jobs += [(options, part, seeds[i : i + CHUNK]) for i in range(0, len(seeds), CHUNK)]
    told, used, known, fault = collections.Counter(), set(), set(), None
    with multiprocessing.Pool(options.jobs, maxtasksperchild=20) as pool:
        for i, r in enumerate(pool.imap_unordered(work, jobs), 1):
            told.update(r[0])
            used, known = used | r[1], known | r[2]
            if i % 10 == 0:
                print("%d of %d, %d schedules" % (i, len(jobs), told["schedules"]), file=sys.stderr, flush=True)
            if r[3]:
                fault = r[3]
                pool.terminate()
                break
    if options.used:
        keep_used(options.used, used, known)
    return told, fault


def read_used(path):
    if not os.path.exists(path):
        return set(), set()
    with open(path) as f:
        kept = json.load(f)
    return set(map(tuple, kept["used"])), set(map(tuple, kept["known"]))


def keep_used(path, used, known):
    old = read_used(path)
    with open(path, "w") as f:
        json.dump({"used": sorted(old[0] | used), "known": sorted(old[1] | known)}, f)


def read_unreached(path):
    """Which equations no run is expected to use, each with why: a reason in brackets, then lines of a definition and its equations."""
    out, reason = {}, None
    with open(path, encoding="utf-8") as f:
        for line in f:
            if line.startswith("["):
                reason = line.strip().strip("[]")
            elif line.strip() and not line.startswith("#"):
                name, _, numbers = line.strip().partition(": ")
                out.update(((name, n), reason) for n in numbers.split())
    return out


def equation(name, what):
    """A definition without what all have in common, and the number of its equation, with that of a branch where it has branches."""
    return name.replace("Rattle.", "").replace(".specs.", "."), what.replace(", branch ", "/").replace(" of an if", "")


def list_unused(options):
    """Lists the equations that no run has used; each has to be expected, and none that is expected may have been used."""
    used, known = set(), set()
    for path in options.unused:
        more = read_used(path)
        used, known = used | more[0], known | more[1]
    used, known = {equation(*x) for x in used}, {equation(*x) for x in known}
    reasons, lists = read_unreached(options.unreached), collections.defaultdict(lambda: collections.defaultdict(list))
    for name, number in sorted(known - used):
        lists[reasons.get((name, number), "NOT EXPECTED")][name].append(number)
    for name, number in sorted(x for x in reasons if x in used or x not in known):
        lists["EXPECTED, BUT USED OR NOT THERE"][name].append(number)
    for why, names in sorted(lists.items()):
        print("[%s]\n%s" % (why, "\n".join("%s: %s" % (name, " ".join(numbers)) for name, numbers in names.items())))
    print("%d equations and branches were compiled, %d used, %d not" % (len(known), len(known & used), len(known - used)))
    sys.exit(any(why in lists for why in ("NOT EXPECTED", "EXPECTED, BUT USED OR NOT THERE")))


def edits(path):
    """The wrong edits of a file: a name in brackets, the parts that find it where they aren't rows and fuzz, the file, the old text
    and the new one."""
    out = []
    for line in open(path, encoding="utf-8"):
        line = line.rstrip("\n")
        if line.startswith("["):
            out.append([line.strip("[]"), ["rows", "fuzz"], []])
        if line.startswith("part: "):
            out[-1][1] = line.split()[1:]
        for word in ("file: ", "old: ", "new: "):
            if line.startswith(word):
                out[-1][2].append(line[len(word) :])
    return out


def edited(options, name, texts):
    """A copy of the crates with one wrong edit."""
    folder = tempfile.mkdtemp()
    crates = os.path.join(folder, "crates")
    shutil.copytree(options.crates, crates, ignore=shutil.ignore_patterns("out", "proofs", "must-fail"))
    for file, old, new in zip(texts[0::3], texts[1::3], texts[2::3]):
        file = os.path.join(crates, file)
        with open(file, encoding="utf-8") as f:
            text = f.read()
        if text.count(old) != 1:
            raise SystemExit("%s: the old text stands %d times" % (name, text.count(old)))
        with open(file, "w", encoding="utf-8") as f:
            f.write(text.replace(old, new))
    return folder, crates


def wrong(options):
    """Makes each wrong edit, and says what found it."""
    missed, found = 0, 0
    for name, parts, texts in edits(options.wrong):
        if options.only not in name:
            continue
        folder, crates = edited(options, name, texts)
        fault = compare(argparse.Namespace(**dict(vars(options), crates=crates, part=parts)))[1]
        shutil.rmtree(folder)
        is_found = fault is not None and not fault.startswith("UNREAD")
        missed, found = missed + (not is_found), found + is_found
        print("%s: %s" % (name, fault.splitlines()[0] + ", " + fault.splitlines()[-1].strip() if is_found else fault or "NOT FOUND"), flush=True)
    print("%d wrong edits found, %d not" % (found, missed))
    sys.exit(missed > 0)


def main():
    p = argparse.ArgumentParser(description=__doc__, formatter_class=argparse.RawDescriptionHelpFormatter)
    p.add_argument("tools"), p.add_argument("model")
    p.add_argument("--crates", default="crates")
    p.add_argument("--part", nargs="+", choices=list(PARTS), default=list(PARTS))
    p.add_argument("--seeds", nargs=2, type=int, default=(0, 100))
    p.add_argument("--jobs", type=int, default=1)
    p.add_argument("--used"), p.add_argument("--unused", nargs="+"), p.add_argument("--wrong"), p.add_argument("--only", default="")
    p.add_argument("--unreached", default=os.path.join(os.path.dirname(os.path.abspath(__file__)), "unreached_rules.txt"))
    p.add_argument("--checker"), p.add_argument("--longest", type=int, default=70), p.add_argument("--count", type=int, default=300)
    options = p.parse_args()
    options.crates = os.path.abspath(options.crates)
    if options.unused:
        list_unused(options)
    if options.wrong:
        wrong(options)
    if options.checker:
        sys.exit(in_depth(lambda: write_rows(sides(options), options)))
    start = time.time()
    told, fault = compare(options)
    for k, n in sorted(told.items()):
        print("%8d %s" % (n, k))
    print("%.0f seconds" % (time.time() - start))
    if fault:
        print(fault)
    sys.exit(fault is not None)


if __name__ == "__main__":
    main()
