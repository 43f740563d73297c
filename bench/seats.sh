#!/usr/bin/env bash
# How long a message takes at one of 64 seats: a million of each kind, at contents of 2^10 and of 2^20 chunks. A message is to take
# about 100 nanoseconds. At 2^10 chunks each seat is asked for 16 of them, at 2^20 for so many that its list is full, and most are
# refused. A HAVE changes at most four words of bits, whatever the number of chunks; so does an ACK. The ACKs come to seats of new
# channels: in each round a seat is asked for two chunks and sends what its window has room for, and only the ACKs are timed.
# The program is proved and built in a repository of its own, from copies of the crates that it stands on, by `rt run`; the
# first time that takes some minutes.
# Usage: bench/seats.sh [FOLDER]; the folder, a new one unless given, is kept where it is given, so that a later run of the
# same sources only runs the program.
set -eu

root=$(cd -- "$(dirname -- "$(readlink -f -- "${BASH_SOURCE[0]}")")/.." >/dev/null && pwd -P)

made=
folder=${1:-}
if [ -z "$folder" ]; then
    folder=$(mktemp -d)
    made=$folder
fi
clean() {
    [ -z "$made" ] || rm -rf -- "$made"
}
trap clean EXIT

crates='pp_terms pp_traffic pp_promises pp_tree pp_ranges pp_requests pp_plan pp_ledbat pp_paths pp_seat'
mkdir -p "$folder/crates/seats/src" "$folder/crates/seats/specs" "$folder/crates/seats/proofs"
: >"$folder/crates.txt"
for crate in $crates; do
    mkdir -p "$folder/crates/$crate"
    for part in src specs proofs; do
        rm -rf -- "$folder/crates/$crate/$part"
        cp -r "$root/crates/$crate/$part" "$folder/crates/$crate/$part"
    done
    grep -E "^$crate:" "$root/crates.txt" >>"$folder/crates.txt"
done
echo 'seats: pp_terms pp_tree pp_ranges pp_seat anyhow' >>"$folder/crates.txt"
touch "$folder/crates/seats/specs/Lib.antt" "$folder/crates/seats/proofs/Lib.antt"

cat >"$folder/crates/seats/src/main.rt" <<'END'
//! Times messages at 64 seats.
#![tactic(auto)]

use pp_ranges::ChunkRange;
use pp_seat::{Claimed, Listed, Seat};
use pp_tree::Digest;
use std::alloc::{AllocError, Global};
use std::time::Instant;

const TIMES: u32 = 1_000_000;

fn seats(alloc: Global, chunks: u32) -> Result<Vec<Seat>, AllocError> {
    let mut seats = Vec::new(alloc);
    if chunks == 0 || chunks > 1_048_576 {
        return Ok(seats);
    }
    for _ in 0..64 {
        let mut seat = Seat::new(alloc, chunks, 1024)?;
        seat.begin(1024, true);
        seat.prove();
        seats.push(seat)?;
    }
    Ok(seats)
}

// A chunk of the content, all over it.
fn chunk(i: u32, chunks: u32) -> u32 {
    (u64::from(i) * 7_919 % u64::from(chunks.max(1))) as u32
}

// REQUESTs of one chunk each. How many are listed.
fn requests(seats: &mut Vec<Seat>, chunks: u32) -> u64 {
    let mut listed = 0u64;
    for i in 0..TIMES {
        let at = chunk(i, chunks);
        if let Some(seat) = seats.get_mut((i % 64) as usize) {
            if let Some(range) = ChunkRange::new(at, at) {
                if seat.heard_request(range) == Listed::Yes {
                    listed = listed.saturating_add(1);
                }
            }
        }
    }
    listed
}

fn cancels(seats: &mut Vec<Seat>, chunks: u32) {
    for i in 0..TIMES {
        let at = chunk(i, chunks);
        if let Some(seat) = seats.get_mut((i % 64) as usize) {
            if let Some(range) = ChunkRange::new(at, at) {
                seat.heard_cancel(range);
            }
        }
    }
}

fn haves(seats: &mut Vec<Seat>, chunks: u32) {
    for i in 0..TIMES {
        let at = chunk(i, chunks);
        if let Some(seat) = seats.get_mut((i % 64) as usize) {
            if at < seat.chunks() {
                if let Some(range) = ChunkRange::new(at, at) {
                    seat.heard_have(range);
                }
            }
        }
    }
}

fn integrities(seats: &mut Vec<Seat>, chunks: u32) -> u64 {
    let mut claimed = 0u64;
    for i in 0..TIMES {
        let at = chunk(i, chunks);
        if let Some(seat) = seats.get_mut((i % 64) as usize) {
            if at < seat.chunks() {
                if let Some(range) = ChunkRange::new(at, at) {
                    if seat.heard_integrity(range, Digest::new([0; 32])) == Claimed::Yes {
                        claimed = claimed.saturating_add(1);
                    }
                }
            }
        }
    }
    claimed
}

// Waits that end, with nothing in flight.
fn waits(seats: &mut Vec<Seat>) {
    for i in 0..TIMES {
        if let Some(seat) = seats.get_mut((i % 64) as usize) {
            seat.taken(u64::from(i));
        }
    }
}

// All seats are those of new channels.
fn afresh(seats: &mut Vec<Seat>) {
    for seat in seats.iter_mut() {
        seat.begin(1024, true);
        seat.prove();
    }
}

// A seat is asked for a chunk and sends one, if its window has room. Which one.
fn send(seat: Option<&mut Seat>, at: u32, now: u64) -> Option<u32> {
    let seat = seat?;
    let range = ChunkRange::new(at, at)?;
    seat.heard_request(range);
    let next = seat.next()?;
    seat.said_data(next, now);
    Some(next)
}

// So it is with two chunks of each seat, from one on.
fn sends(seats: &mut Vec<Seat>, sent: &mut Vec<Option<u32>>, chunks: u32, from: u32, now: u64) -> Result<(), AllocError> {
    sent.clear();
    for i in 0..128 {
        let at = chunk(from.wrapping_add(i), chunks);
        sent.push(send(seats.get_mut((i % 64) as usize), at, now))?;
    }
    Ok(())
}

// ACKs of what was sent, with a delay of a millisecond. How many.
fn acks(seats: &mut Vec<Seat>, sent: &Vec<Option<u32>>, now: u64) -> u64 {
    let mut heard = 0u64;
    for (i, chunk) in sent.iter().enumerate() {
        if let (Some(at), Some(seat)) = (*chunk, seats.get_mut(i % 64)) {
            if at < seat.chunks() {
                if let Some(range) = ChunkRange::new(at, at) {
                    seat.heard_ack(range, 1_000, now);
                    heard = heard.saturating_add(1);
                }
            }
        }
    }
    heard
}

// Rounds of chunks sent and acknowledged. How many ACKs came, and how long those took, in nanoseconds.
fn rounds(rt: &HostRuntime, seats: &mut Vec<Seat>, chunks: u32) -> Result<(u64, u128), anyhow::Error> {
    let mut sent = Vec::new(rt.alloc());
    let mut heard = 0u64;
    let mut took = 0u128;
    for round in 0..TIMES / 128 {
        let now = 1_000_000 + 2_000 * u64::from(round);
        sends(seats, &mut sent, chunks, round.wrapping_mul(128), now)?;
        let begun = Instant::now(rt)?;
        heard = heard.saturating_add(acks(seats, &sent, now + 1_000));
        took = took.saturating_add(begun.elapsed(rt)?.as_nanos());
    }
    Ok((heard, took))
}

fn main(rt: HostRuntime) -> Result<(), anyhow::Error> {
    for chunks in [1_024, 1_048_576] {
        let mut seats = seats(rt.alloc(), chunks)?;
        let begun = Instant::now(&rt)?;
        let listed = requests(&mut seats, chunks);
        let took = begun.elapsed(&rt)?.as_millis();
        println!(rt; "{chunks} chunks: 1,000,000 REQUESTs: {took} ms, {listed} listed")?;
        let begun = Instant::now(&rt)?;
        cancels(&mut seats, chunks);
        let took = begun.elapsed(&rt)?.as_millis();
        println!(rt; "{chunks} chunks: 1,000,000 CANCELs: {took} ms")?;
        let begun = Instant::now(&rt)?;
        haves(&mut seats, chunks);
        let took = begun.elapsed(&rt)?.as_millis();
        println!(rt; "{chunks} chunks: 1,000,000 HAVEs: {took} ms")?;
        let begun = Instant::now(&rt)?;
        let claimed = integrities(&mut seats, chunks);
        let took = begun.elapsed(&rt)?.as_millis();
        println!(rt; "{chunks} chunks: 1,000,000 INTEGRITYs: {took} ms, {claimed} claimed")?;
        let begun = Instant::now(&rt)?;
        waits(&mut seats);
        let took = begun.elapsed(&rt)?.as_millis();
        println!(rt; "{chunks} chunks: 1,000,000 ends of waits: {took} ms")?;
        afresh(&mut seats);
        let (heard, took) = rounds(&rt, &mut seats, chunks)?;
        let each = took / u128::from(heard.max(1));
        let all = took / 1_000_000;
        println!(rt; "{chunks} chunks: {heard} ACKs: {all} ms, {each} ns each")?;
    }
    Ok(())
}
END

cd "$folder/crates/seats"
rt run 2>/dev/null | grep ' ms'
