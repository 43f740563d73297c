#!/usr/bin/env bash
# How fast a fetch goes over a way that loses datagrams, by the way's own clock: one seeder and one fetcher over memory links, with 10
# milliseconds each way and no bound on the rate, where each datagram is lost by the throw of a die with 1,000 faces. What is printed
# is a rate by that clock, so it doesn't depend on the machine; the program is run by `rt try`, without a proof. A wait that brings
# nothing ends after a tenth of a second, and sooner behind a datagram where that is asked for: then a burst's chunks are committed, and
# acknowledged, when it has ended.
# Usage: bench/loss.sh [CHUNKS] [LOST] [WAIT], 1024 chunks of 1,024 bytes, 10 datagrams of 1,000 lost and 100 milliseconds of a wait
# behind a datagram unless given.
set -eu

root=$(cd -- "$(dirname -- "$(readlink -f -- "${BASH_SOURCE[0]}")")/.." >/dev/null && pwd -P)
chunks=${1:-1024}
lost=${2:-10}
wait=${3:-100}

folder=$(mktemp -d)
trap 'rm -rf -- "$folder"' EXIT
program=$folder/crates/loss
mkdir -p "$program/src" "$program/specs" "$program/proofs"
cp -r "$root/crates.txt" "$root/HANDLES" "$folder/"
for crate in $(sed -n 's/^\(pp_[a-z]*\):.*/\1/p' "$root/crates.txt"); do
    mkdir -p "$folder/crates/$crate"
    cp -r "$root/crates/$crate/src" "$root/crates/$crate/specs" "$root/crates/$crate/proofs" "$folder/crates/$crate/"

done
echo 'loss: pp_terms pp_outside pp_tree pp_avail pp_store pp_core arrayvec' >>"$folder/crates.txt"
touch "$program/specs/Lib.antt" "$program/proofs/Lib.antt"

sed -e "s/CHUNKS_HERE/$chunks/" -e "s/LOST_HERE/$lost/" -e "s/WAIT_HERE/$wait/" >"$program/src/main.rt" <<'END'
//! A fetch over a way that loses datagrams.
#![tactic(auto)]

use arrayvec::ArrayVec;
use pp_avail::Rank;
use pp_core::Peer;
use pp_outside::{Address, Event, MemoryDisk, MemoryLink, ZeroSource};
use pp_store::import;
use pp_tree::Descriptor;
use std::alloc::Global;
use std::fmt::Write;

const CHUNKS: u64 = CHUNKS_HERE;

// Of a thousand datagrams.
const LOST: u64 = LOST_HERE;

// Microseconds: a way's length, a step of the clock, a wait and one behind a datagram, and when the run is given up.
const WAY: u64 = 10_000;
const STEP: u64 = 1_000;
const WAIT: u64 = 100_000;
const BEHIND: u64 = WAIT_HERE * 1_000;
const END: u64 = 40_000_000_000;

const SEEDER: Address = Address::V4([10, 0, 0, 1], 7000);
const FETCHER: Address = Address::V4([10, 0, 0, 2], 7000);

// A peer with its devices; of each datagram that it sent the moment at which it comes, none for one that is lost; how many of them
// came; when the peer last took a turn, and how long it waits now.
#[derive(Drop)]
struct End {
    address: Address,
    peer: Peer,
    disk: MemoryDisk,
    link: MemoryLink,
    comes: Vec<Option<u64>>,
    came: usize,
    turned: u64,
    waits: u64,
}

#[derive(Drop)]
struct Die {
    state: u64,
}

impl Die {
    fn loses(&mut self) -> bool {
        self.state = self
            .state
            .wrapping_mul(6_364_136_223_846_793_005)
            .wrapping_add(1_442_695_040_888_963_407);
        (self.state >> 33) % 1000 < LOST
    }
}

impl End {
    // What was sent since is on its way, or lost.
    fn goes(&mut self, die: &mut Die, now: u64) {
        while self.comes.len() < self.link.sent() {
            let at = if die.loses() { None } else { Some(now + WAY) };
            let _ = self.comes.push(at);
        }
    }

    fn turn(&mut self, event: &Event, bytes: &[u8], die: &mut Die, now: u64) {
        let _ = self.peer.absorb(event, bytes, &mut self.disk);
        self.peer.flush(&mut self.disk, &mut self.link);
        self.goes(die, now);
        self.turned = now;
    }
}

// What has come of one is heard by the other, which waits at most so long for more.
fn hears(from: &mut End, to: &mut End, die: &mut Die, now: u64) {
    while from.came < from.comes.len() {
        match from.comes[from.came] {
            Some(at) if at > now => break,
            Some(_) => {
                let bytes = from.link.sent_bytes(from.came);
                let event = Event::Datagram {
                    from: from.address,
                    len: bytes.len(),
                    at: now,
                };
                to.turn(&event, bytes, die, now);
                to.waits = BEHIND;
            }
            None => {}
        }
        from.came += 1;
    }
    if to.turned + to.waits <= now {
        to.turn(&Event::Quiet { at: now }, &[], die, now);
        to.waits = WAIT;
    }
}

fn end_of(alloc: Global, swarm: &Descriptor, address: Address, dials: bool, mut disk: MemoryDisk) -> Option<End> {
    let mut dialled: ArrayVec<Address, 16> = ArrayVec::new();
    let mut asks = None;
    if dials {
        dialled.try_push(SEEDER).ok()?;
        asks = Some(Rank::Sequential);
    }
    let peer = Peer::open(alloc, swarm, [7; 32], asks, &dialled, &mut disk).ok()?;
    Some(End {
        address,
        peer,
        disk,
        link: MemoryLink::new(alloc).ok()?,
        comes: Vec::new(alloc),
        came: 0,
        turned: 0,
        waits: WAIT,
    })
}

fn fetched(alloc: Global) -> Option<u64> {
    let mut disk = MemoryDisk::new(alloc, &[]).ok()?;
    let swarm = import(1024, &mut ZeroSource::new(CHUNKS * 1024), &mut disk).ok()?;
    let mut seeder = end_of(alloc, &swarm, SEEDER, false, disk)?;
    let empty = MemoryDisk::new(alloc, &[]).ok()?;
    let mut fetcher = end_of(alloc, &swarm, FETCHER, true, empty)?;
    let mut die = Die { state: 1 };
    let mut now = WAIT;
    while now < END && fetcher.peer.committed().first_absent().is_some() {
        hears(&mut fetcher, &mut seeder, &mut die, now);
        hears(&mut seeder, &mut fetcher, &mut die, now);
        now += STEP;
    }
    Some(now)
}

fn main(rt: HostRuntime) {
    if let Some(took) = fetched(rt.alloc()) {
        let rate = CHUNKS * 1024 * 1000 / took;
        let _ = println!(rt; "{CHUNKS} chunks, {LOST} of 1000 lost, waits of {} ms: {} ms, {rate} kB/s", BEHIND / 1000, took / 1000);
    }
}
END

cd "$program"
rt try --seconds 3600
