#!/bin/sh
# Measures how many bytes a second decode_entry, encode_entry and RowWalk pass, beside a plain copy of the same bytes.
# It makes a scratch repository with the program, proves it, and runs it.
set -e
cd "$(dirname "$(readlink -f "$0")")/.."
. bench/scratch.sh
scratch_with bench_records "dl_types dl_codec dl_record" dl_types dl_reading dl_codec dl_record
# an entry of 1,000 plain records of 1,000 bytes
python3 - "$bench/data/entry" <<'P'
import sys
body = b"".join(i.to_bytes(4, "big") + bytes(4) + (9).to_bytes(8, "big") + (1000).to_bytes(4, "big") + bytes(1000) for i in range(1000))
open(sys.argv[1], "wb").write(bytes([1, 0]) + (1000).to_bytes(2, "big") + len(body).to_bytes(4, "big") + body)
P
cat > "$bench/src/main.rt" <<'P'
//! Times the layout of entries.
#![tactic(auto)]

use dl_record::decode::decode_entry;
use dl_record::encode::encode_entry;
use dl_record::walk::RowWalk;
use std::fs;
use std::io;
use std::time::Instant;

const TURNS: u32 = 500;

fn main(rt: HostRuntime) -> io::Result<()> {
    let bytes = fs::read(&rt, "entry")?;
    let alloc = rt.alloc();
    let Ok(records) = decode_entry(alloc, &bytes) else {
        return rt.println("no entry");
    };
    let start = Instant::now(&rt)?;
    let mut seen = 0u64;
    for _ in 0..TURNS {
        if let Ok(copy) = bytes.clone() {
            seen = seen.wrapping_add(copy.len() as u64);
        }
    }
    let copied = start.elapsed(&rt)?.as_micros();
    let start = Instant::now(&rt)?;
    for _ in 0..TURNS {
        if let Ok(again) = decode_entry(alloc, &bytes) {
            seen = seen.wrapping_add(again.as_slice().len() as u64);
        }
    }
    let decoded = start.elapsed(&rt)?.as_micros();
    let start = Instant::now(&rt)?;
    for _ in 0..TURNS {
        if let Ok(entry) = encode_entry(alloc, records.as_slice()) {
            seen = seen.wrapping_add(entry.len() as u64);
        }
    }
    let encoded = start.elapsed(&rt)?.as_micros();
    let start = Instant::now(&rt)?;
    for _ in 0..TURNS {
        for row in RowWalk::new(&bytes) {
            seen = seen.wrapping_add(u64::from(row.slot));
        }
    }
    let walked = start.elapsed(&rt)?.as_micros();
    let size = bytes.len();
    println!(rt; "bytes {size} turns {TURNS} seen {seen}")?;
    println!(rt; "microseconds: copy {copied} decode {decoded} encode {encoded} walk {walked}")
}
P
build
cd data
../out/bench_records
