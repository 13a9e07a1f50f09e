#!/bin/sh
# Times the writer of a log segment behind 1,000 to 1,000,000 entries: what it costs to take a record and send it as an entry of its own,
# and what it costs to hear an answer. Sixty-four entries are sent, as many as may be unconfirmed, and then the answers of two bookies are
# heard. It makes a scratch repository with the program, proves it, and runs it three times. The program times ten rounds of twenty times
# sixty-four entries, and the least of all is told.
#
# An entry and an answer are to cost the same, however many entries the segment has.
set -e
cd "$(dirname "$(readlink -f "$0")")/.."
. bench/scratch.sh
scratch_with bench_log_writer "dl_types dl_msg dl_lwrite dl_writer" dl_types dl_reading dl_codec dl_record dl_fields dl_tree_msg dl_msg \
    dl_quorum dl_formats dl_rules_ledger dl_rules_stream dl_subject dl_lwrite dl_writer
cat > "$bench/src/main.rt" <<'P'
//! Times the writer of a log segment.
#![tactic(auto)]

use dl_lwrite::writer::LedgerWriter;
use dl_msg::msg::Msg;
use dl_types::bookie::BookieId;
use dl_types::client::ClientId;
use dl_types::ensemble::Ensemble;
use dl_types::memory::NoMemory;
use dl_types::quorum::Quorum;
use dl_types::row::Origin;
use dl_types::txid::TxId;
use dl_writer::writer::LogWriter;
use std::alloc::Global;
use std::io;
use std::time::Instant;

/// The ledger of the segment.
const LEDGER: u64 = 3;

/// How many entries may be unconfirmed.
const WINDOW: u64 = 64;

/// How many windows of entries a round has, and how many rounds are timed.
const WINDOWS: u32 = 20;

const ROUNDS: u32 = 10;

/// No segment here has so many rows or entries.
const MANY: u32 = 1_000_000_000;

/// What the calls of a round took, in nanoseconds.
#[derive(Clone, Copy)]
struct Spent {
    sending: u128,
    hearing: u128,
}

/// A writer of the segment, on a ledger of three bookies, which each have every entry and two of which confirm it.
fn new_writer(alloc: Global) -> Result<LogWriter, NoMemory> {
    let Ok(q) = Quorum::new(3, 3, 2) else {
        return Err(NoMemory);
    };
    let ledger = LedgerWriter::start(alloc, LEDGER, q, Ensemble::of(LEDGER, 3, 3))?;
    LogWriter::start(alloc, 1, TxId::new(0), ledger)
}

/// Takes a record, and sends it as an entry of its own.
fn send(writer: &mut LogWriter) -> bool {
    if writer.rows() >= MANY || writer.entries() >= u64::from(MANY) {
        return false;
    }
    let origin = Origin {
        client: ClientId::new(1),
        call: 0,
    };
    if writer.append(origin, TxId::new(0), b"0123456789").is_err() {
        return false;
    }
    writer.entries() < u64::from(MANY) && writer.flush().is_ok()
}

/// Sends a window of entries.
fn send_window(writer: &mut LogWriter) -> bool {
    for _ in 0..WINDOW {
        if !send(writer) {
            return false;
        }
    }
    true
}

/// Hears that a bookie has an entry: how many rows that confirms.
fn hear(writer: &mut LogWriter, bookie: BookieId, entry: u64) -> usize {
    let ok = Msg::AddOk {
        ledger: LEDGER,
        entry,
    };
    if writer.entries() >= u64::from(MANY) {
        return 0;
    }
    match writer.hear(bookie, &ok) {
        Ok(acked) => acked.rows.as_slice().len(),
        Err(_) => 0,
    }
}

/// Hears that two bookies have the entries of a window, the first of them this one: how many rows that confirms.
fn hear_window(writer: &mut LogWriter, first: u64) -> usize {
    let mut rows = 0usize;
    for turn in 0..WINDOW {
        rows = rows.wrapping_add(hear(writer, BookieId::new(0), first.wrapping_add(turn)));
        rows = rows.wrapping_add(hear(writer, BookieId::new(1), first.wrapping_add(turn)));
    }
    rows
}

/// Sends a window of entries and hears their answers, or none where a row isn't confirmed.
fn time_window(rt: &HostRuntime, writer: &mut LogWriter) -> io::Result<Option<Spent>> {
    let first = writer.entries();
    let start = Instant::now(rt)?;
    let sent = send_window(writer);
    let sending = start.elapsed(rt)?.as_nanos();
    let start = Instant::now(rt)?;
    let rows = hear_window(writer, first);
    let hearing = start.elapsed(rt)?.as_nanos();
    let passed = sent && rows as u64 == WINDOW;
    Ok(passed.then_some(Spent { sending, hearing }))
}

/// Times a round, or none where a call fails.
fn time_round(rt: &HostRuntime, writer: &mut LogWriter) -> io::Result<Option<Spent>> {
    let mut sum = Spent {
        sending: 0,
        hearing: 0,
    };
    for _ in 0..WINDOWS {
        let Some(spent) = time_window(rt, writer)? else {
            return Ok(None);
        };
        sum.sending = sum.sending.wrapping_add(spent.sending);
        sum.hearing = sum.hearing.wrapping_add(spent.hearing);
    }
    Ok(Some(sum))
}

/// The least of the rounds, or none where a call fails.
fn least_round(rt: &HostRuntime, writer: &mut LogWriter) -> io::Result<Option<Spent>> {
    let mut least = Spent {
        sending: u128::MAX,
        hearing: u128::MAX,
    };
    for _ in 0..ROUNDS {
        let Some(spent) = time_round(rt, writer)? else {
            return Ok(None);
        };
        least.sending = least.sending.min(spent.sending);
        least.hearing = least.hearing.min(spent.hearing);
    }
    Ok(Some(least))
}

/// Writes so many windows of entries.
fn fill(writer: &mut LogWriter, windows: u32) -> bool {
    for _ in 0..windows {
        let first = writer.entries();
        if !send_window(writer) || hear_window(writer, first) as u64 != WINDOW {
            return false;
        }
    }
    true
}

/// Times the writer behind so many windows of entries.
fn times(rt: &HostRuntime, windows: u32) -> io::Result<()> {
    let Ok(mut writer) = new_writer(rt.alloc()) else {
        return rt.println("no memory");
    };
    if !fill(&mut writer, windows) {
        return rt.println("not filled");
    }
    let entries = writer.entries();
    let Some(spent) = least_round(rt, &mut writer)? else {
        return rt.println("not written");
    };
    println!(rt; "entries {entries} {} {}", spent.sending, spent.hearing)
}

fn main(rt: HostRuntime) -> io::Result<()> {
    times(&rt, 16)?;
    times(&rt, 1_563)?;
    times(&rt, 15_625)
}
P
build
for turn in 1 2 3; do out/bench_log_writer > "$scratch/numbers$turn"; done
python3 - "$scratch/numbers1" "$scratch/numbers2" "$scratch/numbers3" <<'P'
import sys
runs = [[line.split() for line in open(name)] for name in sys.argv[1:]]
for same in zip(*runs):
    if len(same[0]) != 4:
        sys.exit("a run failed: %s" % " ".join(same[0]))
    sending, hearing = [min(numbers) for numbers in zip(*([int(n) for n in row[2:]] for row in same))]
    print("behind %8s entries: %.2f us to send one, %.2f us to hear an answer" % (same[0][1], sending / 1_280_000, hearing / 2_560_000))
P
