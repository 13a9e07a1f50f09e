#!/bin/sh
# Times a storage node on a depot in memory: what an add and its commit cost among few and among many entries, a commit of 64 entries
# of 1 KiB beside raw writes of the same bytes, and a load beside a plain copy of the file. It tells how many bytes of memory a node
# that was just made has touched. It makes a scratch repository with the program, proves it, and runs it three times. The program times
# each thing in several rounds, and the least of all is told, since a depot in memory now and then moves its bytes to a larger place.
#
# An add and its commit cost the bytes of their item and a look-up: so among 60,000 entries they are to take at most 1.5 times what they
# take among 100. A commit is to reach 0.8 of the raw writes. A load is to cost at most three plain copies, and a new node is to touch
# less than 1 MiB.
set -e
cd "$(dirname "$(readlink -f "$0")")/.."
. bench/scratch.sh
scratch_with bench_storage_node "dl_types dl_depot dl_journal dl_record dl_msg dl_bookie bytes" dl_types dl_reading dl_codec dl_record dl_fields \
    dl_tree_msg dl_msg dl_pool dl_session dl_tree dl_formats dl_rules_nodes dl_depot dl_journal dl_items dl_marks dl_restore dl_bookie
for call in take_all take_and_commit least_adds time_commits least_commits; do
    mkdir "$bench/proofs/$call"
    cat > "$bench/proofs/$call/Invariants.antt" <<P
use Rattle.dl_depot.specs.Memory.{view_by}
use Rattle.dl_journal.specs.Settled.{Stands}
use Rattle.bench_storage_node.proofs.$call.Given as goal

-- the journal stands for batches of its file
abbrev pub invariant-turns : goal.invariant-turns
invariant-turns l = Stands (view_by l.depot) l.node.journal
P
done
mkdir "$bench/proofs/take_batch"
cat > "$bench/proofs/take_batch/Invariants.antt" <<'P'
use Rattle.std.proofs.Common.{◌≡◌}
use Rattle.bench_storage_node.proofs.take_batch.Given as goal

-- the journal is as it was
abbrev pub invariant-turns : goal.invariant-turns
invariant-turns l = l.node.journal ≡ l.fn.node.journal
P
cat > "$bench/src/main.rt" <<'P'
//! Times the adds, commits and loads of a storage node on a depot in memory.
#![tactic(auto)]

ghost use Rattle.std.specs.Prelude.{◌≡◌, IfSome, IsTrue};
ghost use Rattle.dl_depot.specs.Memory.{view_by};
ghost use Rattle.dl_journal.specs.Settled.{Stands};
ghost use Rattle.dl_msg.specs.Whole.{IsWhole};

use bytes::Bytes;
use dl_bookie::bookie::Bookie;
use dl_bookie::replies::Replies;
use dl_bookie::taken::Taken;
use dl_depot::depot::Depot;
use dl_depot::file_id::FileId;
use dl_depot::memory::MemDepot;
use dl_msg::msg::Msg;
use dl_record::check::check_entry;
use dl_types::memory::NoMemory;
use std::alloc::{AllocError, Global};
use std::time::Instant;
use std::{fs, io};

/// The node's file, and that of the raw writes.
const NODE: u8 = 1;

const RAW: u8 = 2;

/// How many rounds are timed.
const ROUNDS: u64 = 5;

/// How many adds a round has, each with its commit.
const ADDS: u64 = 400;

/// How many commits of 64 entries a round has.
const COMMITS: u64 = 40;

/// How many loads are timed, and how many plain copies.
const LOADS: u32 = 5;

/// An entry of one record with a payload of so many bytes.
fn entry(alloc: Global, size: u32) -> Result<Bytes, NoMemory> {
    let mut bytes = Vec::new(alloc);
    bytes.extend_from_slice(&[1, 0, 0, 1])?;
    bytes.extend_from_slice(&size.wrapping_add(20).to_be_bytes())?;
    bytes.extend_from_slice(&[0; 16])?;
    bytes.extend_from_slice(&size.to_be_bytes())?;
    for _ in 0..size {
        bytes.push(97)?;
    }
    Ok(Bytes::from_vec(bytes)?)
}

/// Whether the entry that an Add carries is one.
fn is_whole_add(msg: &Msg) -> bool
    ensures { IsTrue result → IsWhole msg.now }
{
    match msg {
        Msg::Add { bytes, .. } => check_entry(bytes).is_ok(),
        _ => false,
    }
}

/// Takes a message: whether it waits for a commit.
fn waits(node: &mut Bookie, msg: &Msg) -> bool
    ensures { node.new.journal ≡ node.old.journal }
{
    is_whole_add(msg) && matches!(node.take(1, 1, msg), Taken::Queued)
}

/// Takes an add of this entry, by its number: a ledger has a thousand.
fn take(node: &mut Bookie, number: u64, bytes: &Bytes) -> bool
    ensures { node.new.journal ≡ node.old.journal }
{
    let Ok(bytes) = bytes.clone() else {
        return false;
    };
    let msg = Msg::Add {
        ledger: number / 1_000,
        entry: number,
        count: 0,
        bytes,
    };
    waits(node, &msg)
}

/// Commits what waits.
fn commit(depot: &mut MemDepot, node: &mut Bookie, replies: &mut Replies) -> bool
    requires { Stands (view_by depot.old) node.old.journal }
    ensures { Stands (view_by depot.new) node.new.journal }
{
    node.queued() > 0 && node.commit(depot, replies).is_ok()
}

/// Adds so many entries, a commit behind each 64.
fn take_all(
    depot: &mut MemDepot,
    node: &mut Bookie,
    replies: &mut Replies,
    bytes: &Bytes,
    count: u64,
) -> bool
    requires { Stands (view_by depot.old) node.old.journal }
    ensures { Stands (view_by depot.new) node.new.journal }
{
    'turns: for turn in 0..count {
        if !take(node, turn, bytes) {
            return false;
        }
        if turn % 64 == 63 && !commit(depot, node, replies) {
            return false;
        }
    }
    node.queued() == 0 || commit(depot, node, replies)
}

/// Adds the entries of a round from a number on, a commit behind each.
fn take_and_commit(
    depot: &mut MemDepot,
    node: &mut Bookie,
    replies: &mut Replies,
    bytes: &Bytes,
    from: u64,
) -> bool
    requires { Stands (view_by depot.old) node.old.journal }
    ensures { Stands (view_by depot.new) node.new.journal }
{
    'turns: for turn in 0..ADDS {
        if !take(node, from.wrapping_add(turn), bytes) {
            return false;
        }
        if !commit(depot, node, replies) {
            return false;
        }
    }
    true
}

/// The nanoseconds of a round of adds from a number on, or none where one fails.
fn time_adds(
    rt: &HostRuntime,
    depot: &mut MemDepot,
    node: &mut Bookie,
    replies: &mut Replies,
    bytes: &Bytes,
    from: u64,
) -> io::Result<Option<u128>>
    requires { Stands (view_by depot.old) node.old.journal }
    ensures { Stands (view_by depot.new) node.new.journal }
{
    let start = Instant::now(rt)?;
    let passed = take_and_commit(depot, node, replies, bytes, from);
    let taken = start.elapsed(rt)?.as_nanos();
    Ok(passed.then_some(taken))
}

/// The nanoseconds of the fastest round of adds behind so many entries, or none where one fails.
fn least_adds(
    rt: &HostRuntime,
    depot: &mut MemDepot,
    node: &mut Bookie,
    replies: &mut Replies,
    bytes: &Bytes,
    count: u64,
) -> io::Result<Option<u128>>
    requires { Stands (view_by depot.old) node.old.journal }
{
    let mut least = u128::MAX;
    'turns: for round in 0..ROUNDS {
        let from = count.wrapping_add(round.wrapping_mul(ADDS));
        let Some(taken) = time_adds(rt, depot, node, replies, bytes, from)? else {
            return Ok(None);
        };
        least = least.min(taken);
    }
    Ok(Some(least))
}

/// Takes 64 entries from a number on.
fn take_batch(node: &mut Bookie, bytes: &Bytes, from: u64) -> bool
    ensures { node.new.journal ≡ node.old.journal }
{
    let mut passed = true;
    'turns: for turn in 0..64u64 {
        passed = take(node, from.wrapping_add(turn), bytes) && passed;
    }
    passed
}

/// The nanoseconds of a round of commits of 64 entries each, from a number on, or none where a call fails.
fn time_commits(
    rt: &HostRuntime,
    depot: &mut MemDepot,
    node: &mut Bookie,
    replies: &mut Replies,
    bytes: &Bytes,
    from: u64,
) -> io::Result<Option<u128>>
    requires { Stands (view_by depot.old) node.old.journal }
    ensures { Stands (view_by depot.new) node.new.journal }
{
    let mut sum = 0u128;
    'turns: for turn in 0..COMMITS {
        if !take_batch(node, bytes, from.wrapping_add(turn.wrapping_mul(64))) {
            return Ok(None);
        }
        let start = Instant::now(rt)?;
        if !commit(depot, node, replies) {
            return Ok(None);
        }
        sum = sum.wrapping_add(start.elapsed(rt)?.as_nanos());
    }
    Ok(Some(sum))
}

/// The nanoseconds of the fastest round of commits, or none where a call fails.
fn least_commits(
    rt: &HostRuntime,
    depot: &mut MemDepot,
    node: &mut Bookie,
    replies: &mut Replies,
    bytes: &Bytes,
) -> io::Result<Option<u128>>
    requires { Stands (view_by depot.old) node.old.journal }
{
    let mut least = u128::MAX;
    'turns: for round in 0..ROUNDS {
        let from = round.wrapping_mul(COMMITS * 64);
        let Some(committed) = time_commits(rt, depot, node, replies, bytes, from)? else {
            return Ok(None);
        };
        least = least.min(committed);
    }
    Ok(Some(least))
}

/// Writes bytes at the end of a file, and has them on the device.
fn append<D: Depot>(depot: &mut D, file: FileId, bytes: &[u8]) -> bool {
    let Ok(size) = depot.size(file) else {
        return false;
    };
    if depot.write_at(file, size, bytes).is_err() {
        return false;
    }
    depot.sync(file).is_ok()
}

/// Writes what a round of commits writes, as raw bytes: each time a body, and behind it a gate.
fn append_all<D: Depot>(depot: &mut D, body: &[u8]) -> bool {
    let mut passed = true;
    for _ in 0..COMMITS {
        passed = append(depot, FileId::new(RAW), body) && passed;
        passed = append(depot, FileId::new(RAW), &[1]) && passed;
    }
    passed
}

/// The nanoseconds of the fastest round of raw writes, and whether all passed.
fn least_writes(rt: &HostRuntime, depot: &mut MemDepot, body: &[u8]) -> io::Result<(bool, u128)> {
    let mut passed = true;
    let mut least = u128::MAX;
    for _ in 0..ROUNDS {
        let start = Instant::now(rt)?;
        passed = append_all(depot, body) && passed;
        least = least.min(start.elapsed(rt)?.as_nanos());
    }
    Ok((passed, least))
}

/// So many zeros.
fn zeros(alloc: Global, count: usize) -> Result<Vec<u8>, AllocError> {
    Ok(vec![in alloc; 0u8; count]?)
}

/// Copies bytes: the last of the copy.
fn copy_of(bytes: &Vec<u8>) -> u8 {
    match bytes.clone() {
        Ok(copy) => copy.last().copied().unwrap_or(0),
        Err(_) => 0,
    }
}

/// The nanoseconds of the fastest plain copy, and the sum of the last bytes.
fn least_copy(rt: &HostRuntime, bytes: &Vec<u8>) -> io::Result<(u64, u128)> {
    let mut sum = 0u64;
    let mut least = u128::MAX;
    for _ in 0..LOADS {
        let start = Instant::now(rt)?;
        sum = sum.wrapping_add(u64::from(copy_of(bytes)));
        least = least.min(start.elapsed(rt)?.as_nanos());
    }
    Ok((sum, least))
}

/// The nanoseconds of the fastest load, and whether all passed.
fn least_load(rt: &HostRuntime, depot: &mut MemDepot) -> io::Result<(bool, u128)> {
    let mut passed = true;
    let mut least = u128::MAX;
    for _ in 0..LOADS {
        let start = Instant::now(rt)?;
        let loaded = Bookie::load(rt.alloc(), depot, FileId::new(NODE));
        least = least.min(start.elapsed(rt)?.as_nanos());
        passed = loaded.is_ok() && passed;
    }
    Ok((passed, least))
}

/// The bytes of the node's file.
fn read_file<D: Depot>(alloc: Global, depot: &mut D) -> Option<Vec<u8>> {
    let Ok(size) = depot.size(FileId::new(NODE)) else {
        return None;
    };
    let Ok(mut bytes) = zeros(alloc, size as usize) else {
        return None;
    };
    match depot.read(FileId::new(NODE), 0, &mut bytes) {
        Ok(_) => Some(bytes),
        Err(_) => None,
    }
}

/// A node that was just made.
fn new_node(alloc: Global) -> Option<(MemDepot, Bookie)>
    ensures { IfSome result (λ x. Stands (view_by x.0) x.1.journal) }
{
    let Ok(mut depot) = MemDepot::new(alloc) else {
        return None;
    };
    match Bookie::make(alloc, &mut depot, FileId::new(NODE)) {
        Ok(node) => Some((depot, node)),
        Err(_) => None,
    }
}

/// The resident memory of the process, in KiB.
fn resident(rt: &HostRuntime) -> io::Result<u64> {
    let text = fs::read_to_string(rt, "/proc/self/smaps_rollup")?;
    let line = text.lines().nth(1).unwrap_or("");
    Ok(
        line.split_whitespace()
            .nth(1)
            .and_then(|word| word.parse::<u64>().ok())
            .unwrap_or(0),
    )
}

/// How much memory a new node touches.
fn touched(rt: &HostRuntime) -> io::Result<()> {
    let before = resident(rt)?;
    let node = new_node(rt.alloc());
    let after = resident(rt)?;
    println!(rt;
        "touched {} {}",
        node.is_some() && before > 0,
        after.wrapping_sub(before)
    )
}

/// Times a load beside a plain copy of the file.
fn load(rt: &HostRuntime, depot: &mut MemDepot) -> io::Result<()> {
    let Some(bytes) = read_file(rt.alloc(), depot) else {
        return rt.println("no file");
    };
    let (_, copied) = least_copy(rt, &bytes)?;
    let (passed, loaded) = least_load(rt, depot)?;
    println!(rt; "load {passed} {} {copied} {loaded}", bytes.len())
}

/// Times adds and their commits behind so many entries, and then a load.
fn adds(rt: &HostRuntime, count: u64, replies: &mut Replies, bytes: &Bytes) -> io::Result<()> {
    let Some((mut depot, mut node)) = new_node(rt.alloc()) else {
        return rt.println("no node");
    };
    if !take_all(&mut depot, &mut node, replies, bytes, count) {
        return rt.println("not filled");
    }
    let Some(taken) = least_adds(rt, &mut depot, &mut node, replies, bytes, count)? else {
        return rt.println("not added");
    };
    println!(rt; "adds true {count} {taken}")?;
    load(rt, &mut depot)
}

/// Times commits of 64 entries of 1 KiB beside raw writes of the same bytes, and then a load.
fn commits(rt: &HostRuntime, replies: &mut Replies, bytes: &Bytes) -> io::Result<()> {
    let Some((mut depot, mut node)) = new_node(rt.alloc()) else {
        return rt.println("no node");
    };
    let Some(committed) = least_commits(rt, &mut depot, &mut node, replies, bytes)? else {
        return rt.println("not committed");
    };
    let size = depot.size(FileId::new(NODE)).unwrap_or(0) / (ROUNDS * COMMITS);
    let Ok(body) = zeros(rt.alloc(), size as usize) else {
        return rt.println("no memory");
    };
    let (passed, appended) = least_writes(rt, &mut depot, &body)?;
    println!(rt; "commits {passed} {size} {committed} {appended}")?;
    load(rt, &mut depot)
}

fn main(rt: HostRuntime) -> io::Result<()> {
    touched(&rt)?;
    let (Ok(small), Ok(large)) = (entry(rt.alloc(), 32), entry(rt.alloc(), 1_024)) else {
        return rt.println("no memory");
    };
    let Ok(mut replies) = Replies::new(rt.alloc()) else {
        return rt.println("no memory");
    };
    adds(&rt, 100, &mut replies, &small)?;
    adds(&rt, 60_000, &mut replies, &small)?;
    commits(&rt, &mut replies, &large)
}
P
build
for turn in 1 2 3; do out/bench_storage_node > "$scratch/numbers$turn"; done
python3 - "$scratch/numbers1" "$scratch/numbers2" "$scratch/numbers3" <<'P'
import sys
runs = [[line.split() for line in open(name)] for name in sys.argv[1:]]
for same in zip(*runs):
    words = same[0]
    if len(words) < 3 or words[1] != "true":
        sys.exit("a run failed: %s" % " ".join(words))
    numbers = [min(row) for row in zip(*([int(n) for n in words[2:]] for words in same))]
    if words[0] == "touched":
        print("a new node touches %d KiB" % numbers[0])
    elif words[0] == "adds":
        print("behind %6d entries: %.2f us an add with its commit" % (numbers[0], numbers[1] / 400_000))
    elif words[0] == "load":
        print("  a load of %d bytes: %.2f ms, %.2f plain copies" % (numbers[0], numbers[2] / 1e6, numbers[2] / max(numbers[1], 1)))
    else:
        print("a commit of 64 entries of 1 KiB: %.2f us, raw writes of its %d bytes %.2f us: %.2f of them"
            % (numbers[1] / 40_000, numbers[0], numbers[2] / 40_000, numbers[2] / max(numbers[1], 1)))
P
