#!/bin/sh
# Measures what sending an entry and hearing its acknowledgements cost, at ledgers of 1,000 to 1,000,000 entries and with
# entries of 1 byte and of 1 MiB: an entry is to cost the same at every length of the ledger, and at every size, since its
# bytes are shared. Measures also what it costs to decode a message with an entry of 1 MiB, beside a plain copy of the same
# bytes. It makes a scratch repository with the program, proves it, which takes some
# minutes, and runs it.
set -e
cd "$(dirname "$(readlink -f "$0")")/.."
. bench/scratch.sh
scratch_with bench_writer "dl_types dl_msg dl_lwrite bytes" dl_types dl_reading dl_codec dl_record dl_fields dl_tree_msg dl_msg dl_quorum dl_rules_ledger dl_subject dl_lwrite
cat > "$bench/src/main.rt" <<'P'
//! Times the writer of a ledger, and the bytes of messages.
#![tactic(auto)]

use bytes::Bytes;
use dl_lwrite::writer::LedgerWriter;
use dl_msg::decode::decode;
use dl_msg::msg::Msg;
use dl_types::ensemble::Ensemble;
use dl_types::quorum::Quorum;
use std::alloc::{AllocError, Global};
use std::io;
use std::time::Instant;

const LEDGER: u64 = 0;

const TURNS: u32 = 200;

// Sends an entry, and hears that two of its three bookies have it.
fn send(writer: &mut LedgerWriter, bytes: &Bytes) -> bool {
    let Ok(bytes) = bytes.clone() else {
        return false;
    };
    if writer.sent() >= 1_000_000_000 {
        return false;
    }
    let Ok((entry, _)) = writer.send(bytes) else {
        return false;
    };
    let ok = Msg::AddOk {
        ledger: LEDGER,
        entry,
    };
    writer.hear(0, &ok);
    writer.hear(1, &ok);
    true
}

fn send_all(writer: &mut LedgerWriter, bytes: &Bytes, count: u32) -> bool {
    for _ in 0..count {
        if !send(writer, bytes) {
            return false;
        }
    }
    writer.confirmed() == u64::from(count)
}

fn writes(rt: &HostRuntime, size: usize, count: u32) -> io::Result<()> {
    let alloc = rt.alloc();
    let Ok(q) = Quorum::new(3, 3, 2) else {
        return rt.println("no quorum");
    };
    let (Ok(zeros), Ok(mut writer)) = (zeros(alloc, size), LedgerWriter::start(alloc, LEDGER, q, Ensemble::of(LEDGER, 3, 3))) else {
        return rt.println("no memory");
    };
    let Ok(bytes) = Bytes::from_vec(zeros) else {
        return rt.println("no memory");
    };
    let start = Instant::now(rt)?;
    let all = send_all(&mut writer, &bytes, count);
    let micros = start.elapsed(rt)?.as_micros();
    println!(rt; "entries {count} of {size} bytes confirmed {all} microseconds {micros}")
}

fn zeros(alloc: Global, count: usize) -> Result<Vec<u8>, AllocError> {
    Ok(vec![in alloc; 0u8; count]?)
}

// The bytes of a message that carries an entry of 1 MiB.
fn message(alloc: Global) -> Result<Vec<u8>, AllocError> {
    let mut bytes = Vec::new(alloc);
    bytes.push(1u8)?;
    for _ in 0..25u32 {
        bytes.push(0u8)?;
    }
    bytes.push(16u8)?;
    for _ in 0..1_048_578u32 {
        bytes.push(0u8)?;
    }
    Ok(bytes)
}

fn messages(rt: &HostRuntime) -> io::Result<()> {
    let alloc = rt.alloc();
    let Ok(bytes) = message(alloc) else {
        return rt.println("no memory");
    };
    let start = Instant::now(rt)?;
    let mut seen = 0u64;
    for _ in 0..TURNS {
        if let Ok(copy) = bytes.clone() {
            seen = seen.wrapping_add(copy.len() as u64);
        }
    }
    let copied = start.elapsed(rt)?.as_micros();
    let start = Instant::now(rt)?;
    for _ in 0..TURNS {
        if decode(alloc, &bytes).is_ok() {
            seen = seen.wrapping_add(1);
        }
    }
    let decoded = start.elapsed(rt)?.as_micros();
    println!(rt; "message of {} bytes turns {TURNS} seen {seen} microseconds: copy {copied} decode {decoded}", bytes.len())
}

fn main(rt: HostRuntime) -> io::Result<()> {
    for count in [1000, 10_000, 100_000, 1_000_000] {
        writes(&rt, 1, count)?;
    }
    writes(&rt, 1_048_576, 100_000)?;
    messages(&rt)
}
P
build
out/bench_writer
