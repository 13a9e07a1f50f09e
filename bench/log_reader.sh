#!/bin/sh
# Times the reader of a stream over one segment of 10,000 and of 1,000,000 rows, in reads of 1,000 rows, beside a plain decoding of as many
# entries; and counts the entries that it asks for. It makes a scratch repository with the program, proves it, and runs it three times; the
# least of the three times is told.
#
# A row is to cost the same, however long the segment is. An entry has 100 rows, and a read decodes each entry that it asks for once: ten, and
# the entry in which the read before has ended, since that might have more rows. The payloads of the rows are pieces of the entries.
set -e
cd "$(dirname "$(readlink -f "$0")")/.."
. bench/scratch.sh
scratch_with bench_log_reader "dl_types dl_record dl_msg dl_formats dl_reader bytes" dl_types dl_reading dl_codec dl_record dl_fields \
    dl_tree_msg dl_msg dl_quorum dl_formats dl_rules_ledger dl_rules_stream dl_subject dl_lread dl_requests dl_reader
cat > "$bench/src/main.rt" <<'P'
//! Times the reader of a stream.
#![tactic(auto)]

use bytes::Bytes;
use dl_formats::conf::Conf;
use dl_formats::cut::Cut;
use dl_formats::encode::{encode_cut, encode_ledger, encode_segment};
use dl_formats::ledger::{LedgerMeta, LedgerState};
use dl_formats::segment::SegmentMeta;
use dl_msg::heard::Heard;
use dl_msg::letters::Letters;
use dl_msg::msg::Msg;
use dl_msg::turn::Turn;
use dl_reader::reader::LogReader;
use dl_record::shared_row::shared_rows;
use dl_types::body::Body;
use dl_types::dlsn::Dlsn;
use dl_types::entry_bytes::EntryBytes;
use dl_types::memory::NoMemory;
use dl_types::meta_answer::MetaAnswer;
use dl_types::name::Name;
use dl_types::names::Names;
use dl_types::one_answer::OneAnswer;
use dl_types::one_answers::OneAnswers;
use dl_types::path::Path;
use dl_types::quorum::Quorum;
use dl_types::read_row::ReadRows;
use dl_types::start::Start;
use dl_types::txid::TxId;
use std::alloc::Global;
use std::io;
use std::time::Instant;

/// The bookies, which each have every entry.
const CONF: Conf = Conf {
    b: 3,
    e: 3,
    qw: 3,
    qa: 2,
};

/// The ledger of the one segment.
const LEDGER: u64 = 3;

/// Where the segment begins.
const FIRST: Dlsn = Dlsn {
    segment: 1,
    entry: 0,
    slot: 0,
};

/// The tag of the messages of a read.
const TAG: u32 = 1;

/// How many rows an entry has, and how many a read asks for.
const ROWS: u8 = 100;

const COUNT: u32 = 1_000;

/// More entries than a read asks for.
const ENTRIES: u32 = 16;

/// What a call came to: the reader asks for a node or for this entry, or gives so many rows.
#[derive(Clone, Copy, PartialEq, Eq)]
enum Came {
    AsksNode,
    AsksEntry(u64),
    Gives(u64),
    Other,
}

/// How many rows were read, and how many entries were heard.
#[derive(Clone, Copy)]
struct Tally {
    rows: u64,
    entries: u64,
}

/// What messages to bookies ask for.
fn asked(letters: &Letters) -> Came {
    match letters.as_slice().first() {
        Some(told) => match &told.msg {
            Msg::AskEntry { entry, .. } => Came::AsksEntry(*entry),
            _ => Came::Other,
        },
        None => Came::Other,
    }
}

/// What a turn says.
fn came_of(turn: Turn<ReadRows>) -> Came {
    match turn {
        Turn::Ask(_) => Came::AsksNode,
        Turn::Tell(letters) => asked(&letters),
        Turn::Done(rows) => Came::Gives(rows.as_slice().len() as u64),
        _ => Came::Other,
    }
}

/// What the reader does at what it hears.
fn hear(reader: &mut LogReader, heard: &Heard) -> Came {
    match reader.hear(heard) {
        Ok(turn) => came_of(turn),
        Err(_) => Came::Other,
    }
}

/// The list of the one segment, below no point.
fn listed(alloc: Global) -> Result<Heard, NoMemory> {
    let mut names = Names::new(alloc);
    names.push(Path::new(alloc, b"c0000000001")?)?;
    let bytes = Body::from_vec(encode_cut(alloc, &Cut { point: FIRST })?)?;
    let mut answers = OneAnswers::new(alloc);
    answers.push(OneAnswer::Names(names))?;
    answers.push(OneAnswer::Bytes { bytes, version: 0 })?;
    Ok(Heard::Reply(MetaAnswer::Many(answers)))
}

/// The bytes of one node.
fn node(bytes: Vec<u8>) -> Result<Heard, NoMemory> {
    let bytes = Body::from_vec(bytes)?;
    Ok(Heard::Reply(MetaAnswer::One(OneAnswer::Bytes { bytes, version: 0 })))
}

/// The node of the segment, which has so many entries.
fn segment(alloc: Global, entries: u64) -> Result<Heard, NoMemory> {
    node(encode_segment(
        alloc,
        &SegmentMeta::Completed {
            segment: 1,
            ledger: LEDGER,
            entries,
            rows: 0,
            last: TxId::new(0),
        },
    )?)
}

/// The node of its ledger.
fn ledger(alloc: Global, q: Quorum, count: u64) -> Result<Heard, NoMemory> {
    node(encode_ledger(
        alloc,
        &LedgerMeta {
            state: LedgerState::Closed,
            q,
            count,
        },
    )?)
}

/// An entry of rows with payloads of ten bytes.
fn entry(alloc: Global) -> Result<Bytes, NoMemory> {
    let mut bytes = Vec::new(alloc);
    bytes.extend_from_slice(&[1, 0, 0, ROWS, 0, 0])?;
    bytes.extend_from_slice(&[11, 184])?;
    for row in 0..ROWS {
        bytes.extend_from_slice(&[0, 0, 0, row])?;
        bytes.extend_from_slice(&[0; 12])?;
        bytes.extend_from_slice(&[0, 0, 0, 10])?;
        bytes.extend_from_slice(b"0123456789")?;
    }
    Ok(Bytes::from_vec(bytes)?)
}

/// The message of a bookie with an entry.
fn sent(entry: u64, bytes: &Bytes) -> Result<Heard, NoMemory> {
    let bytes = bytes.clone()?;
    Ok(Heard::From(
        0,
        Msg::EntryIs {
            tag: TAG,
            ledger: LEDGER,
            entry,
            bytes,
        },
    ))
}

/// What a reader hears at each read before entries.
#[derive(Drop)]
struct Replies {
    list: Heard,
    segment: Heard,
    ledger: Heard,
}

/// Begins a read, up to the first entry that it asks for.
fn begin(reader: &mut LogReader, replies: &Replies) -> Came {
    if reader.read(TAG, COUNT).is_err() {
        return Came::Other;
    }
    let listed = hear(reader, &replies.list);
    let found = hear(reader, &replies.segment);
    if listed == Came::AsksNode && found == Came::AsksNode {
        hear(reader, &replies.ledger)
    } else {
        Came::Other
    }
}

/// Hears the entry of this number.
fn hear_entry(reader: &mut LogReader, number: u64, bytes: &Bytes) -> Came {
    match sent(number, bytes) {
        Ok(heard) => hear(reader, &heard),
        Err(_) => Came::Other,
    }
}

/// Reads once, and hears each entry that the reader asks for.
fn read(reader: &mut LogReader, replies: &Replies, bytes: &Bytes) -> Tally {
    let mut came = begin(reader, replies);
    let mut entries = 0u64;
    for _ in 0..ENTRIES {
        if let Came::AsksEntry(number) = came {
            came = hear_entry(reader, number, bytes);
            entries = entries.wrapping_add(1);
        }
    }
    let rows = match came {
        Came::Gives(rows) => rows,
        _ => 0,
    };
    Tally { rows, entries }
}

/// Reads so many times.
fn read_all(reader: &mut LogReader, replies: &Replies, reads: u32, bytes: &Bytes) -> Tally {
    let mut sum = Tally {
        rows: 0,
        entries: 0,
    };
    for _ in 0..reads {
        let tally = read(reader, replies, bytes);
        sum.rows = sum.rows.wrapping_add(tally.rows);
        sum.entries = sum.entries.wrapping_add(tally.entries);
    }
    sum
}

/// A reader from the start of the stream on.
fn new_reader(alloc: Global) -> Result<LogReader, NoMemory> {
    let Ok(stream) = Name::new(alloc, b"s") else {
        return Err(NoMemory);
    };
    LogReader::start(alloc, &stream, Start::Oldest, FIRST, CONF)
}

/// The replies of a segment of so many entries.
fn new_replies(alloc: Global, q: Quorum, entries: u64) -> Result<Replies, NoMemory> {
    Ok(Replies {
        list: listed(alloc)?,
        segment: segment(alloc, entries)?,
        ledger: ledger(alloc, q, entries)?,
    })
}

/// Decodes so many times an entry: how many rows there were.
fn decode_all(alloc: Global, bytes: &EntryBytes, entries: u64) -> u64 {
    let mut rows = 0u64;
    for _ in 0..entries {
        if let Ok(found) = shared_rows(alloc, bytes) {
            rows = rows.wrapping_add(found.as_slice().len() as u64);
        }
    }
    rows
}

/// Times so many reads, and a plain decoding of as many entries.
fn reads(rt: &HostRuntime, q: Quorum, reads: u32) -> io::Result<()> {
    let alloc = rt.alloc();
    let entries = u64::from(reads).wrapping_mul(10);
    let (Ok(mut reader), Ok(replies), Ok(bytes), Ok(plain)) = (
        new_reader(alloc),
        new_replies(alloc, q, entries),
        entry(alloc),
        entry(alloc),
    ) else {
        return rt.println("no memory");
    };
    let start = Instant::now(rt)?;
    let tally = read_all(&mut reader, &replies, reads, &bytes);
    let micros = start.elapsed(rt)?.as_micros();
    let start = Instant::now(rt)?;
    let decoded = decode_all(alloc, &EntryBytes::from_bytes(plain), tally.entries);
    let plainly = start.elapsed(rt)?.as_micros();
    println!(rt;
        "rows {} {} {decoded} {micros} {plainly}",
        tally.rows, tally.entries
    )
}

fn main(rt: HostRuntime) -> io::Result<()> {
    let Ok(q) = Quorum::new(3, 3, 2) else {
        return rt.println("no quorum");
    };
    reads(&rt, q, 10)?;
    reads(&rt, q, 1_000)
}
P
build
for turn in 1 2 3; do out/bench_log_reader > "$scratch/numbers$turn"; done
python3 - "$scratch/numbers1" "$scratch/numbers2" "$scratch/numbers3" <<'P'
import sys
runs = [[line.split() for line in open(name)] for name in sys.argv[1:]]
for same in zip(*runs):
    if len(same[0]) != 6:
        sys.exit("a run failed: %s" % " ".join(same[0]))
    rows, entries, decoded = [int(n) for n in same[0][1:4]]
    read, plain = [min(numbers) for numbers in zip(*([int(n) for n in row[4:]] for row in same))]
    print("%8d rows, %6d entries heard: %.3f us a row, %.2f times a plain decoding of %d rows"
        % (rows, entries, read / max(rows, 1), read / max(plain, 1), decoded))
P
