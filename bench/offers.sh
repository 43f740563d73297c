#!/usr/bin/env bash
# How fast offers, leaves and picks are at 2^20 chunks: the time of 1,000 times an offer of all chunks and a leave, which is to
# be below 2 seconds, and of 100,000 picks by rarity, once with all chunks wanted and once with 100 far apart. Two other seats
# offer all chunks all along.
# The program is proved and built in a repository of its own, from copies of the crates that it stands on, by `rt run`; the
# first time that takes some minutes.
# Usage: bench/offers.sh [FOLDER]; the folder, a new one unless given, is kept where it is given, so that a later run of the
# same sources only runs the program.
set -eu

root=$(cd -- "$(dirname -- "$(readlink -f -- "${BASH_SOURCE[0]}")")/.." >/dev/null && pwd -P)

made=
folder=${1:-}
if [ -z "$folder" ]; then
    folder=$(mktemp -d)
    made=$folder
fi
clean() {
    [ -z "$made" ] || rm -rf -- "$made"
}
trap clean EXIT

mkdir -p "$folder/crates/offers/src" "$folder/crates/offers/specs" "$folder/crates/offers/proofs"
for crate in pp_terms pp_tree pp_ranges pp_avail; do
    mkdir -p "$folder/crates/$crate"
    for part in src specs proofs; do
        rm -rf -- "$folder/crates/$crate/$part"
        cp -r "$root/crates/$crate/$part" "$folder/crates/$crate/$part"
    done
done
grep -E '^(pp_terms|pp_tree|pp_ranges|pp_avail):' "$root/crates.txt" >"$folder/crates.txt"
echo 'offers: pp_terms pp_tree pp_ranges pp_avail anyhow' >>"$folder/crates.txt"
touch "$folder/crates/offers/specs/Lib.antt" "$folder/crates/offers/proofs/Lib.antt"

# What the loop of a function keeps.
keeps() {
    mkdir -p "$folder/crates/offers/proofs/$1"
    cat >"$folder/crates/offers/proofs/$1/Invariants.antt" <<END
use Rattle.std.proofs.Common.{◌≡◌, length}
use Rattle.offers.proofs.$1.Given as goal

abbrev pub invariant-$2 : goal.invariant-$2
invariant-$2 $3 = $4
END
}
keeps come_and_go loop l 'l.avail.chunks ≡ 1048576'
keeps all_wanted loop-i l 'length l.set ≡ l.fn.chunks'
keeps want_spread loop-i l 'length l.wanted ≡ 1048576'
keeps picks loop-i 'g l' 'length l.wanted ≡ 1048576'
keeps picks_among_few loop 'g l' 'length l.wanted ≡ 1048576'

cat >"$folder/crates/offers/src/main.rt" <<'END'
//! Times offers of all chunks, leaves and picks.
#![tactic(auto)]

ghost use Rattle.std.specs.Prelude.{◌≡◌, ◌*◌, ◌<◌, ◌≤◌, length, IfOk};

use pp_avail::{Avail, Rank, Ranker, pick};
use pp_ranges::ChunkRange;
use pp_tree::ChunkSet;
use std::alloc::{AllocError, Global};
use std::time::Instant;

const CHUNKS: u32 = 1_048_576;

fn offer_all(avail: &mut Avail, seat: u8)
    requires chunks { avail.old.chunks ≡ CHUNKS }
    requires seat { seat < 64 }
    ensures { avail.new.chunks ≡ CHUNKS }
{
    if let Some(range) = ChunkRange::new(0, CHUNKS - 1) {
        avail.offer(seat, range);
    }
}

// A seat offers all chunks and leaves, so many times.
fn come_and_go(avail: &mut Avail, times: u32)
    requires { avail.old.chunks ≡ CHUNKS }
    ensures { avail.new.chunks ≡ CHUNKS }
{
    for _ in 0..times {
        offer_all(avail, 2);
        avail.leave(2);
    }
}

fn none_wanted(alloc: Global, chunks: u32) -> Result<ChunkSet, AllocError>
    ensures { IfOk result (λ set. length set ≡ chunks) }
{
    ChunkSet::none(alloc, chunks)
}

fn all_wanted(alloc: Global, chunks: u32) -> Result<ChunkSet, AllocError>
    ensures { IfOk result (λ set. length set ≡ chunks) }
{
    let mut set = ChunkSet::none(alloc, chunks)?;
    for i in 0..chunks {
        set.insert(i);
    }
    Ok(set)
}

// So many picks of two seats in turn, each wanted no more once it is picked. Gives the last.
fn picks(avail: &Avail, wanted: &mut ChunkSet, ranker: &Ranker, times: u32) -> Option<u32>
    requires chunks { avail.now.chunks ≡ CHUNKS }
    requires wanted { length wanted.old ≡ CHUNKS }
    ensures { length wanted.new ≡ CHUNKS }
{
    let mut last = None;
    for i in 0..times {
        last = pick(avail, (i % 2) as u8, wanted, ranker);
        if let Some(chunk) = last {
            wanted.remove(chunk);
        }
    }
    last
}

// 100 chunks far apart are wanted and picked, so many times.
fn picks_among_few(avail: &Avail, wanted: &mut ChunkSet, ranker: &Ranker, times: u32) -> Option<u32>
    requires chunks { avail.now.chunks ≡ CHUNKS }
    requires wanted { length wanted.old ≡ CHUNKS }
    ensures { length wanted.new ≡ CHUNKS }
{
    let mut last = None;
    for _ in 0..times {
        want_spread(wanted);
        last = picks(avail, wanted, ranker, 100);
    }
    last
}

fn want_spread(wanted: &mut ChunkSet)
    requires { length wanted.old ≡ CHUNKS }
    ensures { length wanted.new ≡ CHUNKS }
{
    for i in 0..100 {
        wanted.insert(i * 10_000);
    }
}

fn main(rt: HostRuntime) -> Result<(), anyhow::Error> {
    let mut avail = Avail::new(rt.alloc(), CHUNKS)?;
    offer_all(&mut avail, 0);
    offer_all(&mut avail, 1);
    let begun = Instant::now(&rt)?;
    come_and_go(&mut avail, 1_000);
    let took = begun.elapsed(&rt)?.as_millis();
    println!(rt; "1,000 offers of all chunks and leaves: {took} ms")?;
    let rarest = Ranker::new(Rank::Rarest, |_: u32, copies: u32| copies);
    let mut wanted = all_wanted(rt.alloc(), CHUNKS)?;
    let begun = Instant::now(&rt)?;
    let last = picks(&avail, &mut wanted, &rarest, 100_000);
    let took = begun.elapsed(&rt)?.as_millis();
    let last = last.unwrap_or(CHUNKS);
    println!(rt; "100,000 picks of all chunks: {took} ms, the last {last}")?;
    let mut wanted = none_wanted(rt.alloc(), CHUNKS)?;
    let begun = Instant::now(&rt)?;
    let last = picks_among_few(&avail, &mut wanted, &rarest, 1_000);
    let took = begun.elapsed(&rt)?.as_millis();
    let last = last.unwrap_or(CHUNKS);
    println!(rt; "100,000 picks among 100 chunks far apart: {took} ms, the last {last}")?;
    Ok(())
}
END

cd "$folder/crates/offers"
rt run 2>/dev/null | grep ' ms'
