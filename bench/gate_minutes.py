#!/usr/bin/env python3
"""Runs the gate once, whole, and prints what each crate costs it in processor minutes: its proof, its tests and its must-fail edits.

usage: gate_minutes.py [FOLDER]

The gate (`rt ci --anew`, which keeps nothing of earlier runs) runs in FOLDER, this repository where none is given; its output goes
to `gate.log` in the current folder, and its last line is printed last. While it runs, the processes below it are looked at twice a
second: a process that works on a crate names it, and its processor time counts for that crate. What a process uses in its last half
second is not seen, nor is one that ends sooner, so the parts sum to a little less than the whole, which is told exactly. Other work
on the machine makes the minutes longer. It is run by hand, and is no part of the tests.
"""
import os
import pathlib
import resource
import subprocess
import sys
import time

TOP = pathlib.Path(__file__).resolve().parent.parent
TICKS = os.sysconf("SC_CLK_TCK")


def children_of():
    """The processes of the machine by their parents: number, time of start, processor seconds."""
    found = {}
    for entry in pathlib.Path("/proc").iterdir():
        if entry.name.isdigit():
            try:
                fields = (entry / "stat").read_text().rsplit(")", 1)[1].split()
            except OSError:
                continue
            seconds = (int(fields[11]) + int(fields[12])) / TICKS
            found.setdefault(int(fields[1]), []).append((int(entry.name), fields[19], seconds))
    return found


def crate_of(pid):
    """The crate that a process names, none where it names none."""
    try:
        words = pathlib.Path(f"/proc/{pid}/cmdline").read_text().split("\0")
    except OSError:
        return None
    return words[words.index("--crate-name") + 1] if "--crate-name" in words[:-1] else None


def look(children, pid, crate, seen):
    """Notes the time of each process below one; those that name no crate work for the crate of their parent."""
    for child, start, seconds in children.get(pid, []):
        own = crate_of(child) or crate
        if own:
            seen[child, start] = (own, seconds)
        look(children, child, own, seen)


def code_lines(top, crate):
    return sum(len(path.read_text().splitlines()) for path in (top / "crates" / crate / "src").rglob("*.rt"))


def main():
    top = pathlib.Path(sys.argv[1]).resolve() if sys.argv[1:] else TOP
    seen, begun = {}, time.monotonic()
    with open("gate.log", "wb") as log:
        gate = subprocess.Popen(["rt", "ci", "--anew"], cwd=top, stdout=log, stderr=subprocess.STDOUT)
        while gate.poll() is None:
            look(children_of(), gate.pid, None, seen)
            time.sleep(0.5)
    used = resource.getrusage(resource.RUSAGE_CHILDREN)
    minutes = {}
    for crate, seconds in seen.values():
        minutes[crate] = minutes.get(crate, 0) + seconds / 60
    print(f"{'crate':18} {'lines':>6} {'minutes':>8} {'a thousand':>11}")
    for crate, count in sorted(minutes.items(), key=lambda item: -item[1]):
        lines = code_lines(top, crate)
        print(f"{crate:18} {lines:6} {count:8.1f} {1000 * count / max(lines, 1):11.1f}")
    whole = (used.ru_utime + used.ru_stime) / 60
    print(f"{'seen':18} {'':6} {sum(minutes.values()):8.1f}")
    print(f"{'all':18} {'':6} {whole:8.1f}    in {(time.monotonic() - begun) / 60:.1f} minutes of the clock")
    print(pathlib.Path("gate.log").read_text(errors="replace").strip().splitlines()[-1])
    return gate.returncode


sys.exit(main())
