#!/bin/sh
# Times requests to a metadata store of 1,000 to 1,000,000 nodes, and its load beside a plain reading of the same batches. It makes a
# scratch repository with the program, proves it, and runs it three times. The program times a round of requests five times, and a load and a
# reading three times each; the least of all is told, since a depot in memory now and then moves its bytes to a larger place.
#
# A request costs what it touches and the bytes of its item, whatever the size of the tree: so the time of one is to stay within a
# factor of 2, logarithms aside. A load is one pass: it is to cost at most three plain readings.
set -e
cd "$(dirname "$(readlink -f "$0")")/.."
. bench/scratch.sh
scratch_with bench_metadata "dl_types dl_depot dl_journal dl_tree_msg dl_msg dl_formats dl_meta" dl_types dl_reading dl_codec dl_record dl_fields \
    dl_tree_msg dl_msg dl_pool dl_session dl_tree dl_formats dl_rules_nodes dl_depot dl_journal dl_meta
for call in fill serve_round least_round; do
    mkdir "$bench/proofs/$call"
    cat > "$bench/proofs/$call/Invariants.antt" <<P
use Rattle.dl_depot.specs.Memory.{view_by}
use Rattle.dl_journal.specs.Settled.{Stands}
use Rattle.bench_metadata.proofs.$call.Given as goal

-- the journal stands for batches of its file
abbrev pub invariant-turns : goal.invariant-turns
invariant-turns l = Stands (view_by l.depot) l.store.journal
P
done
cat > "$bench/src/main.rt" <<'P'
//! Times the requests and the loads of a metadata store on a depot in memory.
#![tactic(auto)]

ghost use Rattle.std.specs.Prelude.{IfOk, IfSome};
ghost use Rattle.dl_depot.specs.Memory.{view_by};
ghost use Rattle.dl_journal.specs.Settled.{Stands};
ghost use Rattle.dl_tree_msg.specs.declared.rule.PathRule.TheVariants.{AllButConf};
ghost use Rattle.dl_tree_msg.specs.Rules.{allows};
ghost use Rattle.dl_tree_msg.specs.Requests.{IsRequest, IsAllowed};

use dl_depot::file_id::FileId;
use dl_depot::memory::MemDepot;
use dl_formats::conf::Conf;
use dl_journal::journal::Journal;
use dl_meta::store::MetaStore;
use dl_msg::meta_reply::MetaReply;
use dl_tree_msg::request::read_request;
use dl_tree_msg::rule::PathRule;
use dl_types::memory::NoMemory;
use dl_types::meta_answer::MetaAnswer;
use dl_types::meta_op::MetaOp;
use std::alloc::{AllocError, Global};
use std::io;
use std::time::Instant;

/// How many nodes a request of the filling makes.
const PER_REQUEST: u32 = 1_000;

/// How many requests a round has, how many rounds are timed, and the number of the first request of the first round.
const REQUESTS: u32 = 2_000;

const ROUNDS: u32 = 5;

const FIRST: u32 = 10_000;

/// How many loads are timed, and how many plain readings.
const LOADS: u32 = 3;

/// The last digit of a number.
fn digit(number: u32) -> u8 {
    b'0' + (number % 10) as u8
}

/// The digits of the number of a node.
fn digits(node: u32) -> [u8; 8] {
    [
        digit(node / 10_000_000),
        digit(node / 1_000_000),
        digit(node / 100_000),
        digit(node / 10_000),
        digit(node / 1_000),
        digit(node / 100),
        digit(node / 10),
        digit(node),
    ]
}

/// Adds the path of a node, behind its length.
fn put_path(out: &mut Vec<u8>, node: u32) -> Result<(), AllocError> {
    out.extend_from_slice(b"\0\x11/streams/")?;
    out.extend_from_slice(&digits(node))
}

/// A request that makes so many nodes, from one on.
fn making(alloc: Global, first: u32) -> Result<Vec<u8>, AllocError> {
    let mut bytes = Vec::new(alloc);
    bytes.push(7)?;
    bytes.extend_from_slice(&[(PER_REQUEST / 256) as u8, (PER_REQUEST % 256) as u8])?;
    for node in 0..PER_REQUEST {
        bytes.extend_from_slice(&[1, 0])?;
        put_path(&mut bytes, first.wrapping_add(node))?;
        bytes.extend_from_slice(&[0; 4])?;
    }
    Ok(bytes)
}

/// A request that sets a node.
fn setting(alloc: Global, node: u32) -> Result<Vec<u8>, AllocError> {
    let mut bytes = Vec::new(alloc);
    bytes.push(3)?;
    put_path(&mut bytes, node)?;
    bytes.extend_from_slice(&[0, 0, 0, 2, 7, 7, 0])?;
    Ok(bytes)
}

/// The request of these bytes.
fn request_in(alloc: Global, bytes: &[u8]) -> Result<MetaOp, NoMemory>
    ensures valid { IfOk result IsRequest }
    ensures allowed { IfOk result (IsAllowed (allows AllButConf)) }
{
    match read_request(alloc, PathRule::AllButConf, bytes) {
        Ok((op, _rest)) => Ok(op),
        Err(_) => Err(NoMemory),
    }
}

/// Whether a request was run, and what it asks was done.
fn is_done(reply: &MetaReply) -> bool {
    match reply {
        MetaReply::Answer(MetaAnswer::One(_)) => true,
        MetaReply::Answer(MetaAnswer::Many(_)) => true,
        _ => false,
    }
}

/// Serves the request of these bytes.
fn serve(
    alloc: Global,
    depot: &mut MemDepot,
    store: &mut MetaStore,
    number: u32,
    bytes: &[u8],
) -> bool
    requires { Stands (view_by depot.old) store.old.journal }
    ensures { Stands (view_by depot.new) store.new.journal }
{
    match request_in(alloc, bytes) {
        Err(_) => false,
        Ok(op) => match store.serve(depot, 1, number, &op) {
            Ok(Some(reply)) => is_done(&reply),
            _ => false,
        },
    }
}

/// Makes nodes from one on.
fn make_nodes(
    alloc: Global,
    depot: &mut MemDepot,
    store: &mut MetaStore,
    number: u32,
    first: u32,
) -> bool
    requires { Stands (view_by depot.old) store.old.journal }
    ensures { Stands (view_by depot.new) store.new.journal }
{
    match making(alloc, first) {
        Ok(bytes) => serve(alloc, depot, store, number, &bytes),
        Err(_) => false,
    }
}

/// Sets a node.
fn set_node(
    alloc: Global,
    depot: &mut MemDepot,
    store: &mut MetaStore,
    number: u32,
    node: u32,
) -> bool
    requires { Stands (view_by depot.old) store.old.journal }
    ensures { Stands (view_by depot.new) store.new.journal }
{
    match setting(alloc, node) {
        Ok(bytes) => serve(alloc, depot, store, number, &bytes),
        Err(_) => false,
    }
}

/// Makes so many nodes.
fn fill(alloc: Global, depot: &mut MemDepot, store: &mut MetaStore, nodes: u32) -> bool
    requires { Stands (view_by depot.old) store.old.journal }
    ensures { Stands (view_by depot.new) store.new.journal }
{
    'turns: for turn in 0..nodes / PER_REQUEST {
        if !make_nodes(
            alloc,
            depot,
            store,
            turn.wrapping_add(1),
            turn.wrapping_mul(PER_REQUEST),
        ) {
            return false;
        }
    }
    true
}

/// The node that a request sets: one here, one there.
fn node_of(number: u32, nodes: u32) -> u32 {
    number.wrapping_mul(2_654_435_761) % nodes.max(1)
}

/// Sets nodes here and there, by requests from a number on.
fn serve_round(
    alloc: Global,
    depot: &mut MemDepot,
    store: &mut MetaStore,
    nodes: u32,
    first: u32,
) -> bool
    requires { Stands (view_by depot.old) store.old.journal }
    ensures { Stands (view_by depot.new) store.new.journal }
{
    'turns: for turn in 0..REQUESTS {
        let number = first.wrapping_add(turn);
        if !set_node(alloc, depot, store, number, node_of(number, nodes)) {
            return false;
        }
    }
    true
}

/// The microseconds of a round of requests from a number on, or none where one fails.
fn time_round(
    rt: &HostRuntime,
    depot: &mut MemDepot,
    store: &mut MetaStore,
    nodes: u32,
    first: u32,
) -> io::Result<Option<u128>>
    requires { Stands (view_by depot.old) store.old.journal }
    ensures { Stands (view_by depot.new) store.new.journal }
{
    let start = Instant::now(rt)?;
    let passed = serve_round(rt.alloc(), depot, store, nodes, first);
    let served = start.elapsed(rt)?.as_micros();
    Ok(passed.then_some(served))
}

/// The microseconds of the fastest round, or none where a request fails.
fn least_round(
    rt: &HostRuntime,
    depot: &mut MemDepot,
    store: &mut MetaStore,
    nodes: u32,
) -> io::Result<Option<u128>>
    requires { Stands (view_by depot.old) store.old.journal }
{
    let mut least = u128::MAX;
    'turns: for round in 0..ROUNDS {
        let first = FIRST.wrapping_add(round.wrapping_mul(REQUESTS));
        let Some(served) = time_round(rt, depot, store, nodes, first)? else {
            return Ok(None);
        };
        least = least.min(served);
    }
    Ok(Some(least))
}

/// Reads the requests of all batches, and does nothing with them: how many there were.
fn read_all(alloc: Global, depot: &mut MemDepot) -> u64 {
    let Ok((_, batches)) = Journal::load(alloc, depot, FileId::new(0)) else {
        return 0;
    };
    let mut count = 0u64;
    for batch in &batches {
        let rest = batch.body.as_slice().get(13..).unwrap_or(b"");
        if read_request(alloc, PathRule::All, rest).is_ok() {
            count = count.wrapping_add(1);
        }
    }
    count
}

/// The microseconds of the fastest plain reading, and how many requests it read.
fn least_reading(rt: &HostRuntime, depot: &mut MemDepot) -> io::Result<(u64, u128)> {
    let mut count = 0;
    let mut least = u128::MAX;
    for _ in 0..LOADS {
        let start = Instant::now(rt)?;
        count = read_all(rt.alloc(), depot);
        least = least.min(start.elapsed(rt)?.as_micros());
    }
    Ok((count, least))
}

/// The microseconds of the fastest load, and whether the last one found a store.
fn least_load(rt: &HostRuntime, depot: &mut MemDepot) -> io::Result<(bool, u128)> {
    let mut found = false;
    let mut least = u128::MAX;
    for _ in 0..LOADS {
        let start = Instant::now(rt)?;
        let loaded = MetaStore::load(rt.alloc(), depot);
        least = least.min(start.elapsed(rt)?.as_micros());
        found = matches!(loaded, Ok(Some(_)));
    }
    Ok((found, least))
}

/// A store with a session, on a depot of its own.
fn new_store(alloc: Global) -> Option<(MemDepot, MetaStore)>
    ensures { IfSome result (λ x. Stands (view_by x.0) x.1.journal) }
{
    let conf = Conf {
        b: 3,
        e: 3,
        qw: 3,
        qa: 2,
    };
    let Ok(mut depot) = MemDepot::new(alloc) else {
        return None;
    };
    let Ok(mut store) = MetaStore::make(alloc, &mut depot, conf) else {
        return None;
    };
    match store.connect(&mut depot) {
        Ok(_) => Some((depot, store)),
        Err(_) => None,
    }
}

/// Times a store of so many nodes.
fn times(rt: &HostRuntime, nodes: u32) -> io::Result<()> {
    let Some((mut depot, mut store)) = new_store(rt.alloc()) else {
        return rt.println("no store");
    };
    if !fill(rt.alloc(), &mut depot, &mut store, nodes) {
        return rt.println("not filled");
    }
    let Some(served) = least_round(rt, &mut depot, &mut store, nodes)? else {
        return rt.println("not served");
    };
    let (count, read) = least_reading(rt, &mut depot)?;
    let (found, loaded) = least_load(rt, &mut depot)?;
    println!(rt; "{nodes} {found} {count} {served} {read} {loaded}")
}

fn main(rt: HostRuntime) -> io::Result<()> {
    for nodes in [1_000, 10_000, 100_000, 1_000_000] {
        times(&rt, nodes)?;
    }
    Ok(())
}
P
build
for turn in 1 2 3; do out/bench_metadata > "$scratch/numbers$turn"; done
python3 - "$scratch/numbers1" "$scratch/numbers2" "$scratch/numbers3" <<'P'
import sys
runs = [[line.split() for line in open(name)] for name in sys.argv[1:]]
print("%9s %12s %12s %12s %9s" % ("nodes", "us a request", "ms to read", "ms to load", "readings"))
for same in zip(*runs):
    if len(same[0]) != 6 or same[0][1] != "true":
        sys.exit("a run failed: %s" % " ".join(same[0]))
    served, read, loaded = [min(numbers) for numbers in zip(*([int(n) for n in row[3:]] for row in same))]
    print("%9s %12.2f %12.1f %12.1f %9.2f" % (same[0][0], served / 2000, read / 1000, loaded / 1000, loaded / max(read, 1)))
P
