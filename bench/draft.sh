#!/usr/bin/env bash
# How long it takes to write and send a full datagram of HAVE messages, which is to be below 20 microseconds, and a chunk of 1,024
# bytes; beside each the same without what this repository adds: the send alone, and the read, the digest and the send. All goes by
# UDP to a port of this machine at which the program itself listens and never reads; the chunks come from a file of 1 MiB. Each
# time is the least of 100 runs, so that what else runs on the machine counts little.
# The program is proved and built in a repository of its own, from copies of the crates that it stands on, by `rt run`; the
# first time that takes some minutes.
# Usage: bench/draft.sh [FOLDER]; the folder, a new one unless given, is kept where it is given, so that a later run of the
# same sources only runs the program.
set -eu

root=$(cd -- "$(dirname -- "$(readlink -f -- "${BASH_SOURCE[0]}")")/.." >/dev/null && pwd -P)

made=
folder=${1:-}
if [ -z "$folder" ]; then
    folder=$(mktemp -d)
    made=$folder
fi
clean() {
    [ -z "$made" ] || rm -rf -- "$made"
}
trap clean EXIT

program=$folder/crates/draft
mkdir -p "$program/src" "$program/specs" "$program/proofs" "$program/data"
for crate in pp_terms pp_traffic pp_outside pp_tree pp_ranges pp_options pp_wire pp_draft pp_adapt; do
    mkdir -p "$folder/crates/$crate"
    for part in src specs proofs; do
        rm -rf -- "$folder/crates/$crate/$part"
        cp -r "$root/crates/$crate/$part" "$folder/crates/$crate/$part"
    done
done
grep -E '^(pp_terms|pp_traffic|pp_outside|pp_tree|pp_ranges|pp_options|pp_wire|pp_draft|pp_adapt):' "$root/crates.txt" >"$folder/crates.txt"
echo 'draft: pp_terms pp_outside pp_tree pp_ranges pp_draft pp_adapt anyhow' >>"$folder/crates.txt"
cp "$root/HANDLES" "$folder/HANDLES"
touch "$program/specs/Lib.antt" "$program/proofs/Lib.antt"
head -c 1048576 /dev/zero >"$program/data/chunks.bench"

cat >"$program/src/main.rt" <<'END'
//! Times datagrams that are written and sent.
#![tactic(auto)]

ghost use Rattle.std.specs.Prelude.{◌≡◌, ◌*◌, ◌^◌, ◌<◌, ◌≤◌, length};
ghost use Rattle.std.specs.List.{AllByRecursion};
ghost use Rattle.pp_terms.specs.format.Descriptor.{chunks_of};
ghost use Rattle.pp_draft.specs.Notes.{IsInside};

use pp_adapt::{FileDisk, UdpLink};
use pp_draft::{ChunkReader, Delivery, Note, Receiver, Unread, post, post_chunk};
use pp_outside::{Address, Disk, Link};
use pp_ranges::ChunkRange;
use pp_tree::{Book, Descriptor, Digest, Method, leaf};
use std::time::{Clock, Instant};

const PLACE: Address = Address::V4([127, 0, 0, 1], 7919);

// Chunks of one digest, one after the other on the disk.
#[derive(Drop)]
struct Alike {
    digest: Digest,
}

impl<D: Disk> ChunkReader<D> for Alike {
    ghost can_read = { λ reader i n. (i < 2 ^ 20) × (n ≤ 8192) };

    ghost reads = { λ reader i answer bytes old new. Unit {0} };

    fn read(&self, chunk: u32, into: &mut [u8], disk: &mut D) -> Result<(), Unread> {
        if disk.read_at(u64::from(chunk) * 1024, into).is_err() {
            return Err(Unread::Disk);
        }
        if leaf(into) == self.digest {
            Ok(())
        } else {
            Err(Unread::Damaged)
        }
    }
}

// How many datagrams of the notes were sent, of so many.
fn notes_sent<D: Disk, L: Link>(
    notes: &[Note],
    descriptor: &Descriptor,
    to: &Receiver,
    disk: &D,
    link: &mut L,
    times: u32,
) -> u32
    requires some { 0 < length notes.now }
    requires inside { AllByRecursion (IsInside descriptor.now) notes.now }
{
    let mut out = [0; 16384];
    let mut sent: u32 = 0;
    for _ in 0..times {
        let posted = post(notes, descriptor, to, &mut out, disk, link);
        if posted.sent && posted.count == notes.len() {
            sent = sent.saturating_add(1);
        }
    }
    sent
}

// The same of HAVE messages of a range, as many as a datagram has room for.
#[tactic(auto, using(pp_draft::proofs::Filling::same_inside))]
fn haves_sent<D: Disk, L: Link>(
    range: ChunkRange,
    descriptor: &Descriptor,
    to: &Receiver,
    disk: &D,
    link: &mut L,
    times: u32,
) -> u32
    requires { range.last < chunks_of descriptor.now }
{
    notes_sent(
        &[Note::Have { range }; 1820],
        descriptor,
        to,
        disk,
        link,
        times,
    )
}

// How many datagrams of the bytes were sent, of so many.
fn bytes_sent<D: Disk, L: Link>(bytes: &[u8], disk: &D, link: &mut L, times: u32) -> u32 {
    let mut sent: u32 = 0;
    for _ in 0..times {
        if link.send(disk, &PLACE, bytes).is_ok() {
            sent = sent.saturating_add(1);
        }
    }
    sent
}

// How many of the chunks were sent, each in a datagram with no hash.
fn chunks_sent<D: Disk, L: Link>(
    descriptor: &Descriptor,
    book: &Book,
    reader: &Alike,
    disk: &mut D,
    link: &mut L,
) -> u32 {
    let mut out = [0; 16384];
    let mut sent: u32 = 0;
    for chunk in 0..descriptor.chunks() {
        let delivery = Delivery {
            to: Receiver {
                address: PLACE,
                channel: 7,
            },
            chunk,
            sent_at: 0,
            nodes: &[],
            book,
        };
        let _length = descriptor.chunk_len(chunk);
        let _most = descriptor.chunk();
        if post_chunk(&delivery, reader, descriptor, &mut out, disk, link) == Ok(true) {
            sent = sent.saturating_add(1);
        }
    }
    sent
}

// How many of as many datagrams as long were sent after a read and a digest.
fn bare_sent<D: Disk, L: Link>(chunks: u32, reader: &Alike, disk: &mut D, link: &mut L) -> u32
    requires { chunks ≤ 2 ^ 20 }
{
    let mut out = [0; 1045];
    let mut sent: u32 = 0;
    for chunk in 0..chunks {
        let place = u64::from(chunk) * 1024;
        let is_there = disk.read_at(place, &mut out[21..]).is_ok() && leaf(&out[21..]) == reader.digest;
        if is_there && link.send(disk, &PLACE, &out).is_ok() {
            sent = sent.saturating_add(1);
        }
    }
    sent
}

fn main(rt: HostRuntime) -> Result<(), anyhow::Error> {
    let mut disk = FileDisk::new(&rt);
    let mut link = UdpLink::new(&rt);
    let is_open = disk.attach("chunks.bench").is_ok() && link.bind(&PLACE).is_ok();
    println!(rt; "open: {is_open}")?;
    let digest = leaf(&[0; 1024]);
    let (Ok(descriptor), Some(range)) = (
        Descriptor::new(digest, 1024, 1_048_576, Method::Range32),
        ChunkRange::new(0, 0),
    ) else {
        return Ok(());
    };
    let to = Receiver {
        address: PLACE,
        channel: 7,
    };
    let _chunks = descriptor.chunks();
    let begun = Instant::now(&rt)?;
    let sent = haves_sent(range, &descriptor, &to, &disk, &mut link, 1_000);
    let took = begun.elapsed(&rt)?.as_nanos() / 1_000;
    println!(rt; "a full datagram of HAVE: {took} ns, {sent} of 1,000 sent")?;
    let begun = Instant::now(&rt)?;
    let sent = bytes_sent(&[0; 16384], &disk, &mut link, 1_000);
    let took = begun.elapsed(&rt)?.as_nanos() / 1_000;
    println!(rt; "its send alone: {took} ns, {sent} of 1,000 sent")?;
    let book = Book::empty(rt.alloc());
    let reader = Alike { digest };
    let begun = Instant::now(&rt)?;
    let sent = chunks_sent(&descriptor, &book, &reader, &mut disk, &mut link);
    let took = begun.elapsed(&rt)?.as_nanos() / 1024;
    println!(rt; "a chunk of 1,024 bytes: {took} ns, {sent} of 1,024 sent")?;
    let begun = Instant::now(&rt)?;
    let sent = bare_sent(1024, &reader, &mut disk, &mut link);
    let took = begun.elapsed(&rt)?.as_nanos() / 1024;
    println!(rt; "its read, digest and send alone: {took} ns, {sent} of 1,024 sent")?;
    Ok(())
}
END

cd "$program"
rt run >/dev/null 2>&1
cd data
for _ in $(seq 100); do
    ../out/draft
done | grep ' ns' | sort -t: -k1,1 -k2,2n | awk -F: '$1 != last { print } { last = $1 }'
