#!/usr/bin/env python3
"""Runs the definitions of dl_transcript beside a model's reader of transcripts and its rules.

    run_transcripts.py TOOLS MODEL [--crates crates] [--seeds FROM TO]

TOOLS is a folder with the module `antt`, which runs definitions; MODEL one with the modules `dlog`, which replays schedules, `fuzz`,
which makes random ones, `lines`, which reads an event's line, and `check`, which says whether a transcript is legal. Lines of
transcripts are read as they stand and spoilt: both read the same, or stop at the same column, and what is read is spelt again as it
stood. Of whole transcripts, as they stand and spoilt, both say the same, at the same place."""
import argparse, os, random, re, sys

sys.path.insert(0, os.path.dirname(os.path.abspath(__file__)))
from definitions import Definitions, ends, load

COUNTS = {}

# lines at the bounds of their words, behind the number of their line
BOUNDS = [
    "opened 0 s txid 9223372036854775807", "opened 0 s txid 9223372036854775808", "opened 0 s 0:0:0", "opened 0 s t",
    "joined 64 1", "joined 63 18446744073709551615", "joined 0 0", "expired 18446744073709551616",
    "refused 0 moved /a/b 1", "refused 0 moved / 1", "refused 0 moved // 1", "refused 0 moved /a/ 1", "refused 0 gaveup a",
    "refused 0 gaveup /" + 80 * "a", "refused 0 gaveup /" + 81 * "a", "refused 0 badname 3", "refused 0 fenced 16",
    "refused 0 held 18446744073709551615", "refused 0 busy 4294967295", "refused 0 busy 4294967296", "refused 0 notempty 1",
    "mail c0 c1 1", "mail c0 b16 1", "mail m b0 1", "mail m c0 0", "mail b15 c63 4294967295", "mail c63 m 4294967296", "mail c0 m1",
    "took 0 4294967295 s 0 -", "took 0 0 s 0 0", "took 0 1 " + 64 * "a" + " 0 00", "took 0 1 " + 65 * "a" + " 0 00", "took 0 1 S 0 00",
    "rows 0 s 1:0:0/5/- 1:0:1/6/61", "rows 0 s", "rows 0 s ", "rows 0 s 1:0:0/5/- ", "rows 0 s" + 1000 * " 1:0:0/5/-",
    "sent 0 1 2", "grow s 0:18446744073709551615:4294967295 1 0 0 -", "grow s 0:0:4294967296 1 0 0 -", "none ", "nonee", "",
]


class Differs(Exception):
    """The definitions say something else than the model."""


def count(what):
    COUNTS[what] = COUNTS.get(what, 0) + 1


def same(what, got, want, told):
    if got != want:
        raise Differs("%s\n  definitions: %r\n  model:       %r\n  at %s" % (what, got, want, told))


def spoilt_line(r, line):
    """A line with a byte lost, changed or more, or cut."""
    b, k, i = bytearray(line), r.random(), r.randrange(len(line))
    if k < 0.25:
        del b[i]
    elif k < 0.6:
        b[i] = r.choice(b"0123456789 :/-abcmtx\n\x80")
    elif k < 0.8:
        b.insert(i, r.choice(b"0123456789 :/-abcm\n"))
    elif k < 0.9:
        del b[i:]
    else:
        b += r.choice([b" ", b"1", b"\n", b"x"])
    return bytes(b)


def spoilt_number(r, line):
    """A line with another number in it."""
    numbers = list(re.finditer(rb"\d+", line))[1:]
    if not numbers:
        return line
    m = r.choice(numbers)
    return line[: m.start()] + b"%d" % max(0, int(m.group()) + r.choice([-1, 1, 2, 10])) + line[m.end() :]


def spoilt(r, text):
    """A transcript with a line lost, twice, moved or spoilt."""
    x, k = text.splitlines(True), r.random()
    i, j = r.randrange(len(x)), r.randrange(len(x))
    if k < 0.25:
        del x[i]
    elif k < 0.4:
        x.insert(i, x[j])
    elif k < 0.5:
        x[i], x[j] = x[j], x[i]
    elif k < 0.9:
        x[i] = spoilt_number(r, x[i])
    else:
        x[i] = spoilt_line(r, x[i])
    return b"".join(x)


class Sides:
    """The definitions and the model."""

    def __init__(self, antt, model, crates):
        self.antt, self.dlog, self.fuzz, self.lines, self.check = antt, *(load(model, m) for m in ("dlog", "fuzz", "lines", "check"))
        self.d = Definitions(antt, crates)
        f = self.d.function
        self.parsed, self.printed = f("dl_transcript.Reading.parsed_event"), f("dl_transcript.Lines.print_event")
        self.judged = f("dl_transcript.Judging.judgement_of")

    def line(self, line):
        try:
            self.lines.parse_event(line)
            want = ("Ok", line)
        except self.lines.BadLine as bad:
            want = ("Err", bad.column)
        v = self.parsed(self.antt.from_list(list(line)))
        got = (v[0].name, v[1])
        if got[0] == "Ok":
            got = ("Ok", bytes(self.antt.to_list(self.printed(v[1][1], v[1][2]))))
        # the model reads rows apart from other lines, and doesn't tell their column
        if (got[0], want[0]) == ("Err", "Err") and re.match(rb"\d+ ro", line):
            want = got
        same("a line", got, want, line)
        count("lines that are read" if got[0] == "Ok" else "lines that stop")

    def transcript(self, text, told):
        v = self.judged(self.antt.from_list(list(text)))
        said = "legal" if v[0].name == "Legal" else "%s %d" % (v[0].name.lower(), v[1])
        same("what is said of a transcript", said, self.check.check(text), told)
        count("transcripts that are " + said.split(" ")[0])

    def schedule(self, seed):
        r = random.Random(seed)
        text = self.dlog.run(self.fuzz.schedule(seed))[0]
        lines = text.splitlines(True)
        for line in r.sample(lines, min(len(lines), 40)):
            self.line(line)
            self.line(spoilt_line(r, line))
            self.line(spoilt_number(r, line))
        self.transcript(text, "seed %d" % seed)
        for i in range(8 if lines else 0):
            self.transcript(spoilt(r, text), "seed %d, %d" % (seed, i))
        self.d.world.forget()


def main():
    p = argparse.ArgumentParser()
    p.add_argument("tools")
    p.add_argument("model")
    p.add_argument("--crates", default="crates")
    p.add_argument("--seeds", nargs=2, type=int, default=[0, 100])
    a = p.parse_args()
    os.environ.pop("DLOG", None)
    antt = load(a.tools, "antt")

    def run():
        sides = Sides(antt, a.model, a.crates)
        for bound in BOUNDS:
            sides.line(b"4294967295 %s\n" % bound.encode())
        for line in (b"", b"\n", b"1\n", b"1 \n", b"01 none\n", b"0 none\n", b"1 none", b"4294967296 none\n"):
            sides.line(line)
        for seed in range(*a.seeds):
            sides.schedule(seed)
        for what in sorted(COUNTS):
            print("%8d %s" % (COUNTS[what], what))

    return ends(antt.deep, run)


if __name__ == "__main__":
    sys.exit(main())
