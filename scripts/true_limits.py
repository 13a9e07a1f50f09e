"""The limits of the machine at their true numbers.

A run that comes to such a limit by itself would take hours, so that both sides begin just below it. A count of a run (lines, bytes
of them, messages, their bytes, bytes of the transcript, records of a client) begins so high that a schedule has just enough, or one
too few: in the definitions by the value from which a replay goes on, in the model by a limit as low as what it counts. The nodes
begin loaded from lists. Entries of a megabyte share their bytes, so that full journals fit into memory.

How many different entries and ledgers a list has is counted in Python here, since the definition compares each with each, and the
length of a metadata item with a megabyte is that of the item without it and the megabyte's. That these say what the definitions
say is tested on small lists and items."""
import random
from definitions import Differs, same
from model_values import meta_item, message

CONF = (3, 3, 3, 2)
BIG = 1040384
SMALL_ENTRY = [("plain", 0, 1, b"x")]


def row(text):
    return "".join(x.strip() + "\n" for x in text.split(";") if x.strip()).encode()


def asked(client, *numbers):
    """Requests of a client and their replies, each delivered."""
    return "".join("deliver c%d m %d;deliver m c%d %d;" % (client, n, client, n) for n in numbers)


# a client opens a stream, without a settling, which would commit what waits
OPEN = "join 0;create 0 s;" + asked(0, 1) + "open 0 s;" + asked(0, 2, 3, 4, 5, 6, 7)


class Loaded:
    """Both sides, loaded from the same lists: the batches and the queue of storage node 0, and the items of the metadata node."""

    def __init__(self, s):
        self.s, self.shared, self.lengths = s, {}, {}
        f = s.d.function
        self.loaded, self.blank = f("dl_machine.States.state_of_files"), f("dl_machine.States.blank")
        self.replay_from, self.lines_of = f("dl_machine.Replays.replay_from"), f("dl_text.TextLines.lines_of")

    def bytes(self, data):
        """Bytes as a list, the same list for the same bytes."""
        if data not in self.shared:
            self.shared[data] = self.s.list(data)
            self.lengths[id(self.shared[data])] = len(data)
        return self.shared[data]

    def item(self, x):
        made = self.s.d.made
        if x[0] == "fence":
            return made["Item.FenceItem"](x[1])
        return made["Item.AddItem" if x[0] == "add" else "Item.CopyItem"](x[1], x[2], x[3], self.bytes(x[4]))

    def meta_item(self, x):
        """An item of the metadata node; the bytes that a long one sets are shared."""
        made, d = self.s.d.made, self.s.d
        if x[0] == "ask" and x[3][0] == "set":
            op = made["OneOp.Set"](d.value(x[3][1]), self.bytes(x[3][2]), d.value(None))
            return made["MetaItem.Ask"](x[1], x[2], made["MetaOp.One"](op))
        return meta_item(d, x)

    def world(self, batches=(), queue=(), items=(), lost=()):
        """The model's world."""
        m = self.s.machine
        w = m.World()
        w.b, w.q, w.meta, w.bookies = CONF[0], m.Quorum(*CONF[1:]), m.Meta(CONF), [m.Bookie() for _ in range(CONF[0])]
        for x in items:
            w.meta.keep(x)
        for batch in batches:
            w.bookies[0].keep(batch)
        for waiting in queue:
            assert w.bookies[0].put(*waiting) is None
        for b in lost:
            w.bookies[b].state = "lost"
        return w

    def state(self, batches=(), queue=(), items=(), lost=()):
        """The definitions' state."""
        antt, d = self.s.antt, self.s.d
        record, from_list = antt.record, antt.from_list
        waiting = [
            record(client=c, session=k, reply=message(d, reply), item=antt.NONE.value if x is None else (antt.SOME, self.item(x))) for c, k, reply, x in queue
        ]
        kept = from_list([from_list([self.item(x) for x in batch]) for batch in batches])
        first = record(first=0, batches=kept, queue=from_list(waiting))
        other = record(first=0, batches=(), queue=())
        held = [self.meta_item(x) for x in (("conf",) + CONF,) + tuple(items)]
        nodes = from_list([antt.NONE.value if b in lost else (antt.SOME, other if b else first) for b in range(CONF[0])])
        return self.loaded(nodes, record(first=0, items=from_list(held[::-1])))

    def going(self, state, **counts):
        """What is known before the first line: the state, and what was counted so far."""
        record = self.s.antt.record
        counted = dict(lines=0, bytes=0, printed=0)
        counted.update((k, n) for k, n in counts.items() if k in counted)
        return record(state=state, traffic=record(messages=counts.get("messages", 0), bytes=counts.get("message_bytes", 0)), **counted)

    def run(self, going, text):
        """The replay of the definitions from there on."""
        return self.replay_from(going, self.lines_of(self.s.list(text)))

    def light(self, s):
        """A last state without the entries: how many batches each node has, its queue's length and mode, and what was delivered."""
        to_list = self.s.antt.to_list
        nodes = [s.f_nodes(i) for i in range(CONF[0])]
        shown = [(n.f_mode[0].name, len(to_list(n.f_bookie.f_batches)), len(to_list(n.f_bookie.f_queue))) for n in nodes]
        letters = len(to_list(s.f_letters))
        return {"nodes": shown, "items": len(to_list(s.f_meta.f_items)), "marks": [s.f_delivered(i) for i in range(letters)]}

    def light_model(self, w):
        modes = {"up": "Up", "down": "Down", "lost": "Lost"}
        shown = [(modes[b.state], len(b.batches), len(b.queue)) for b in w.bookies]
        return {"nodes": shown, "items": len(w.meta.items), "marks": [x[4] for x in w.letters]}

    def compared(self, what, text, **lists):
        """A schedule from these lists on, on both sides; gives what the model says."""
        s, w = self.s, self.world(**lists)
        out, status, note = s.dlog.run(text, w)
        want = (out, status, note, self.light_model(w) if status != 12 else None)
        r = self.run(self.going(self.state(**lists)), text)
        got = s.ended(r)
        same("at a true limit, " + what, got + (self.light(r.f_state) if got[1] != 12 else None,), want, repr(text[:200]))
        s.d.world.forget()
        return w, want


# ---- counts of a run -----------------------------------------------------------------------------------------------

# each limit that ends a run, by the count that a replay goes on from
COUNTS = {"messages": "messages", "message-bytes": "message_bytes", "transcript": "printed", "schedule": "bytes"}


def counts(s, seed, told, limits):
    """Counts that begin just below the true limits."""
    lists, text = Loaded(s), s.fuzz.schedule(seed)
    need = limits.needs(s, text)
    s.profiles.clear()
    for name, count in COUNTS.items():
        module, constant = limits.NAMES[name][1]
        most = getattr(getattr(s, module), constant)
        for over in (0, 1) if need[name] else ():
            with limits.ModelLimit(s, name, need[name] - over):
                out, status, note = s.dlog.run(text)
            want = out, status, note and "limit: %s %d" % (name, most)
            got = s.ended(lists.run(lists.going(lists.blank, **{count: most - need[name] + over}), text))
            same("at the true limit on %s" % name, got, want, "seed %d" % seed)
            s.d.world.forget()
            told["%s, true number: %s" % (name, "one too few" if over else "just enough")] += 1
    many_lines(s, lists, text, told)
    many_calls(s, lists, text, need["calls"], told, limits)


def many_lines(s, lists, text, told):
    most, words = s.dlog.MAX_LINES, s.check.split_lines(text)
    for over in (0, 1):
        before, w, out, end = most - len(words) + over, s.machine.World(), [], (0, None)
        for i, line in enumerate(words, before + 1):
            if i > most:
                end = 12, "limit: lines %d" % most
                break
            out += ["%d %s\n" % (i, e) for e in w.step(i, s.lines.parse_line(line))]
        same("at the true limit on lines", s.ended(lists.run(lists.going(lists.blank, lines=before), text)), ("".join(out).encode(),) + end, "")
        s.d.world.forget()
        told["lines, true number: %s" % ("one too few" if over else "just enough")] += 1


def many_calls(s, lists, text, need, told, limits):
    most = s.machine.U32
    for over in (0, 1) if need else ():
        before = most - need + over

        def world():
            w = s.machine.World()
            w.taken = {c: before for c in range(64)}
            return w

        want = limits.stopped(s, text, "calls", most, world)
        state = lists.blank.but(f_calls=lambda c: before)
        same("at the true limit on calls", s.ended(lists.run(lists.going(state), text)), want[:3], "")
        s.d.world.forget()
        told["calls, true number: %s" % ("one too few" if over else "just enough")] += 1


# ---- the nodes -----------------------------------------------------------------------------------------------------


def entry(s, n=None):
    """An entry of one record with a payload of so many bytes, or a small one."""
    return s.machine.encode_entry(SMALL_ENTRY if n is None else [("plain", 0, 1, b"a" * n)])


def count_quickly(s):
    """Has different entries and ledgers be counted in Python."""
    antt, world = s.antt, s.d.world
    entries = lambda xs: len({x[1:3] for x in antt.to_list(xs) if x[0].name != "FenceItem"})
    ledgers = lambda xs: len({x[1] for x in antt.to_list(xs)})
    for name, quick in (("entries_count", entries), ("ledgers_count", ledgers)):
        slow = s.d.function("dl_rules_nodes.Counts." + name)
        key = "d%d" % world.definition("Rattle.dl_rules_nodes.specs.Counts." + name).id
        r, made = random.Random(name), s.d.made
        for _ in range(300):
            kinds = [made["Item.FenceItem"](r.randrange(4))] + [made["Item." + k](r.randrange(4), r.randrange(4), 0, ()) for k in ("AddItem", "CopyItem")]
            xs = antt.from_list([kinds[r.randrange(3)] for _ in range(r.randrange(9))] + kinds[: r.randrange(4)])
            same("how many " + name, quick(xs), slow(xs), "")
        yield key, world.space[key], quick


def nodes(s, told):
    kept = list(count_quickly(s))
    for key, _, quick in kept:
        s.d.world.space[key] = quick
    try:
        # the lengths of items are kept only while they are few: the journal comes before the index
        for name, run in (("pool", pool), ("journal of a storage node", journal), ("queue", queue), ("ledgers", ledgers), ("index", index)):
            told["%s, true number: full and not full" % name] += run(s, Loaded(s))
        told["journal of the metadata node, true number: full and not full"] += meta_journal(s, Loaded(s))
        told["segments, true number: the last and none"] += segments(s, Loaded(s))
    finally:
        for key, slow, _ in kept:
            s.d.world.space[key] = slow


def expects(what, w, kind, fulls):
    """So many letters say that this is full."""
    n = sum(x[3][:2] == ("full", kind) for x in w.letters)
    if n != fulls:
        raise Differs("%s: %d letters say that it is full, and not %d" % (what, n, fulls))


def pool(s, lists):
    """Eight entries of a megabyte wait, and eight pages are left: an entry needs just these, or a byte more."""
    big = entry(s, BIG)
    queue = [(9, 99, ("addok", 77, e), ("add", 77, e, 0, big)) for e in range(8)]
    page = s.machine.PAGE
    spare = s.machine.POOL_PAGES - 8 * -(-(29 + len(big)) // page)
    for over in (0, 1):
        n = spare * page - 29 - 28 + over
        text = row(OPEN + "append 0 1 %s;flush 0;deliver c0 b0 1;deliver b0 c0 1;append 0 1 61;flush 0;deliver c0 b0 2;sync 0;settle" % ("61" * n))
        expects("pool", lists.compared("pool", text, queue=queue)[0], 1, 1)
    return 2


def index(s, lists):
    """The index has room for one entry, or for none; an entry that waits is not new."""
    small, most = entry(s), s.machine.MAX_INDEX
    text = "append 0 1 61;flush 0;deliver c0 b0 1;append 0 1 62;flush 0;deliver c0 b0 2;deliver c0 b0 1;sync 0;settle;recover 0 s;settle"
    for held, fulls in ((most - 1, 2), (most, 1)):
        batch = [("add", 77, e, 0, small) for e in range(held)]
        expects("index", lists.compared("index", row(OPEN + (text if held < most else "append 0 1 61;flush 0;deliver c0 b0 1")), batches=[batch])[0], 2, fulls)
    return 2


def ledgers(s, lists):
    """The table has room for one ledger, or for none."""
    most = s.machine.MAX_LEDGERS
    second = "join 1;create 1 t;" + asked(1, 1) + "open 1 t;" + asked(1, 2, 3, 4, 5, 6, 7) + "append 1 1 61;flush 1;deliver c1 b1 1;deliver c1 b0 1;settle"
    text = row(OPEN + "append 0 1 61;flush 0;deliver c0 b0 1;" + second)
    for held, fulls in ((most - 2, 0), (most - 1, 1), (most, 2)):
        batch = [("fence", 1000 + l) for l in range(held)]
        expects("ledgers", lists.compared("ledgers", text, batches=[batch])[0], 3, fulls)
    return 3


def queue(s, lists):
    """All but one place of the queue are taken, or all are, by repeats of one entry."""
    most = s.machine.MAX_QUEUE
    text = row(OPEN + "append 0 1 61;flush 0;deliver c0 b0 1;deliver c0 b0 1;sync 0")
    for held, fulls in ((most - 2, 0), (most - 1, 1)):
        waits = [(9, 99, ("addok", 77, 0), ("add", 77, 0, 0, entry(s)))] + [(9, 99, ("addok", 77, 0), None)] * (held - 1)
        expects("queue", lists.compared("queue", text, queue=waits)[0], 4, fulls)
    return 2


def filled(size, add, length, longest):
    """Adds pieces until a file that has so many bytes is exactly as long as that; a piece is a batch of this length."""
    while size < longest:
        n = min(length, longest - size)
        n = n if longest - size - n == 0 or longest - size - n > 1000 else n - 1000
        size += n
        add(n)


def journal(s, lists):
    """A journal with room for one entry with a payload of a byte, or for one byte less."""
    most, first = s.machine.MAX_JOURNAL, 13 + 29 + 29
    big = entry(s, BIG)
    for over in (0, 1):
        batches = []
        add = lambda n: batches.append([("add", 77, len(batches), 0, big if n == 42 + len(big) else entry(s, n - 42 - 28))])
        filled(9, add, 42 + len(big), most - first + over)
        text = "append 0 1 61;flush 0;deliver c0 b0 1;settle;append 0 1 62;flush 0;settle;join 1;recover 1 s;settle"
        expects("journal", lists.compared("journal", row(OPEN + text), batches=batches)[0], 5, 3)
    return 2


def measure_quickly(s, lists):
    """Has the length of an item that sets shared bytes be that of the item without them, and theirs."""
    made, slow = s.d.made, s.d.function("dl_rules_nodes.Items.meta_item_length")

    def quick(x):
        if x[0].name == "Ask" and x[3][0].name == "One" and x[3][1][0].name == "Set":
            path, data, version = x[3][1][1:]
            if id(data) in lists.lengths:
                return slow(made["MetaItem.Ask"](x[1], x[2], made["MetaOp.One"](made["OneOp.Set"](path, (), version)))) + lists.lengths[id(data)]
        return slow(x)

    for n in (1, 255, 256, 3000):
        x = lists.meta_item(("ask", 1, n, ("set", "/x", b"c" * n, None)))
        same("the length of an item", quick(x), slow(x), "%d bytes" % n)
    return quick


def meta_journal(s, lists):
    """A metadata journal with room for just what a schedule asks, or for one byte less."""
    text, light = row(OPEN + "append 0 1 61;flush 0;settle;close 0;settle;expire 1;expire 2"), [("connect", 1), ("ask", 1, 1, ("create", "/x", b"", "lasting"))]
    w = lists.world(items=light)
    before = w.meta.size
    s.dlog.run(text, w)
    need, most = w.meta.size - before, s.machine.MAX_JOURNAL
    key = "d%d" % s.d.world.definition("Rattle.dl_rules_nodes.specs.Items.meta_item_length").id
    quick, slow = measure_quickly(s, lists), s.d.world.space[key]
    s.d.world.space[key] = quick
    big, head = b"a" * (1 << 20), 13 + s.machine.Meta.item_size(("ask", 1, 1, ("set", "/x", b"", None)))
    for over in (0, 1):
        items = list(light)
        add = lambda n: items.append(("ask", 1, len(items), ("set", "/x", big if n == head + len(big) else b"b" * (n - head), None)))
        filled(before, add, head + len(big), most - need + over)
        want = lists.compared("journal of the metadata node", text, items=items)[1]
        if want[1] != (12 if over else 0):
            raise Differs("the journal of the metadata node has %d bytes too few and the status is %d" % (over, want[1]))
    s.d.world.space[key] = slow
    return 2


def segments(s, lists):
    """The stream's next segment is the last one, or past it; one storage node is lost."""
    m = s.machine
    made = [("create", "/streams/s" + p, x, "lasting") for p, x in (("", b""), ("/maxseq", b""), ("/cut", m.cut_bytes((1, 0, 0))), ("/alloc", m.alloc_bytes(None)))]
    made += [("create", "/streams/s" + p, b"", "lasting") for p in ("/lock", "/segs")]
    text = row("join 0;open 0 s;settle;append 0 1 61;flush 0;settle;close 0;settle;seek 0 s oldest;settle;read 0 1;settle;open 0 s;settle")
    for last in (9999999998, 9999999999):
        items = [("connect", 1), ("ask", 1, 1, ("multi", made)), ("ask", 1, 2, ("set", "/streams/s/maxseq", m.maxseq_bytes(last, 7), None))]
        out = lists.compared("segments", text, items=items, lost=[1])[1][0]
        if (b"gaveup /streams/s/maxseq" in out) is False or (b" writer " in out) != (last == 9999999998):
            raise Differs("segments: %r" % out)
    return 2
