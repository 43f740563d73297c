#!/usr/bin/env bash
# What hostile datagrams cost a peer of 2^20 chunks of 256 bytes: the processor time of taking each, and of sending what is due then,
# by a seeder that has all chunks and by a fetcher that lacks them. The datagram comes on a proven channel, on some rows one on which all
# was asked for or offered, or on which 512 chunks fly. Each time is the least of five, each on a new channel, so that what else runs on
# the machine counts little. A datagram of at most 100 bytes is to cost at most 5 milliseconds, and one of 65,536 bytes at most 30; a row
# above that ends with OVER. The store lies in memory, which takes some 2 GB.
# The program is proved and built in a repository of its own, from copies of the crates that it stands on, by `rt run`; the
# first time that proves the whole peer. Where LIBS names a folder with the proved libraries NAME.rlib of these sources, the program
# alone is proved and built over them.
# Usage: [LIBS=FOLDER] bench/hostile.sh [FOLDER]; the folder, a new one unless given, is kept where it is given, so that a later run of
# the same sources only runs the program.
set -eu

root=$(cd -- "$(dirname -- "$(readlink -f -- "${BASH_SOURCE[0]}")")/.." >/dev/null && pwd -P)

made=
folder=${1:-}
if [ -z "$folder" ]; then
    folder=$(mktemp -d)
    made=$folder
fi
clean() {
    [ -z "$made" ] || rm -rf -- "$made"
}
trap clean EXIT

# The crates that stand below, each line of crates.txt behind those that it names.
below() {
    awk -v want="$1" '
        /^[a-z]/ { name = $1; sub(/:$/, "", name); names[++count] = name; line[name] = $0 }
        END {
            left = split(want, queue, " ")
            for (i = 1; i <= left; i++) needed[queue[i]] = 1
            for (i = count; i > 0; i--) {
                if (!(names[i] in needed)) continue
                words = split(line[names[i]], word, " ")
                for (j = 2; j <= words; j++) needed[word[j]] = 1
            }
            for (i = 1; i <= count; i++) if (names[i] in needed) print names[i]
        }' "$root/crates.txt"
}

stands_on='pp_terms pp_outside pp_tree pp_avail pp_store pp_core arrayvec anyhow'
program=$folder/crates/hostile
mkdir -p "$program/src" "$program/specs" "$program/proofs"
: >"$folder/crates.txt"
if [ -z "${LIBS:-}" ]; then
    for crate in $(below "$stands_on"); do
        mkdir -p "$folder/crates/$crate"
        for part in src specs proofs; do
            rm -rf -- "$folder/crates/$crate/$part"
            cp -r "$root/crates/$crate/$part" "$folder/crates/$crate/$part"
        done
        grep -E "^$crate:" "$root/crates.txt" >>"$folder/crates.txt"
    done
fi
echo "hostile: $stands_on" >>"$folder/crates.txt"
touch "$program/specs/Lib.antt" "$program/proofs/Lib.antt"

# A file of the program, written where it differs, so that what was built stays.
put() {
    cat >"$program/src/$1.new"
    if cmp -s -- "$program/src/$1.new" "$program/src/$1"; then
        rm -- "$program/src/$1.new"
    else
        mv -- "$program/src/$1.new" "$program/src/$1"
    fi
}

put main.rt <<'END'
//! Times what a seeder and a fetcher of 2^20 chunks take for hostile datagrams, by the processor.
#![tactic(auto)]

mod cases;
mod subject;

use cases::{CASES, Case, State};
use std::time::CpuClock;
use subject::Subject;

// How often each is timed; the least counts.
const TIMES: u32 = 5;

// Microseconds of the processor: taking a datagram, and sending what is due then; and how many datagrams that is.
#[derive(Clone, Copy)]
struct Cost {
    taking: u128,
    sending: u128,
    sent: usize,
}

// The processor's microseconds so far.
fn spent(rt: &HostRuntime) -> Result<u128, anyhow::Error> {
    Ok(rt.thread_cpu_time()?.as_micros())
}

// What one datagram costs, where the channel is in the state that the case wants.
fn measured(
    rt: &HostRuntime,
    subject: &mut Subject,
    case: &Case,
) -> Result<(usize, Cost), anyhow::Error> {
    subject.begins(case.state)?;
    let bytes = match case.state {
        State::Opening => subject.opening()?,
        _ => case.datagram(rt.alloc(), subject.number())?,
    };
    let before = subject.sent();
    let begun = spent(rt)?;
    subject.takes(&bytes);
    let taken = spent(rt)?;
    subject.sends();
    let done = spent(rt)?;
    let sent = subject.sent().saturating_sub(before);
    subject.ends(case.state)?;
    Ok((
        bytes.len(),
        Cost {
            taking: taken.saturating_sub(begun),
            sending: done.saturating_sub(taken),
            sent,
        },
    ))
}

// The least cost of some times.
fn least(
    rt: &HostRuntime,
    subject: &mut Subject,
    case: &Case,
) -> Result<(usize, Cost), anyhow::Error> {
    let (bytes, mut best) = measured(rt, subject, case)?;
    for _ in 1..TIMES {
        let (_, next) = measured(rt, subject, case)?;
        best.taking = best.taking.min(next.taking);
        best.sending = best.sending.min(next.sending);
    }
    Ok((bytes, best))
}

// The row of a case. Up to 100 bytes may cost 5 milliseconds, and more 30.
fn print(
    rt: &HostRuntime,
    role: &str,
    case: &Case,
    bytes: usize,
    best: Cost,
) -> Result<(), anyhow::Error> {
    let name = case.name;
    let Cost {
        taking,
        sending,
        sent,
    } = best;
    let total = taking.saturating_add(sending);
    let limit = if bytes <= 100 { 5_000 } else { 30_000 };
    let mark = if total > limit { "OVER" } else { "" };
    println!(rt; "{role}\t{name}\t{bytes}\t{sent}\t{taking}\t{sending}\t{total}\t{mark}")?;
    Ok(())
}

fn rows(rt: &HostRuntime, role: &str, subject: &mut Subject) -> Result<(), anyhow::Error> {
    for case in &CASES {
        let (bytes, best) = least(rt, subject, case)?;
        print(rt, role, case, bytes, best)?;
    }
    Ok(())
}

fn main(rt: HostRuntime) -> Result<(), anyhow::Error> {
    let mut seeder = Subject::seeder(rt.alloc())?;
    rows(&rt, "seeder", &mut seeder)?;
    let mut fetcher = Subject::fetcher(rt.alloc(), &seeder)?;
    rows(&rt, "fetcher", &mut fetcher)
}
END

put cases.rt <<'END'
//! The datagrams, by the formats of RFC 7574, section 8.

use std::alloc::{AllocError, Global};

/// What happened on the channel before the datagram comes.
#[derive(Clone, Copy, PartialEq)]
pub(crate) enum State {
    /// There is none: the datagram opens it.
    Opening,
    /// It is proven.
    Proven,
    /// All chunks were asked for.
    Asked,
    /// All chunks were offered.
    Offered,
    /// The window has grown to 512 chunks, which fly.
    Flying,
    /// The hashes on the way up from chunk 0 are claimed.
    Claimed,
}

/// Some messages, given so many times in one datagram, of which the first 65,536 bytes go. With a stride they are one message, and the
/// chunk that it names is greater by that each time. So many bytes of a DATA's content follow.
#[derive(Clone, Copy)]
pub(crate) struct Case {
    pub(crate) name: &'static str,
    pub(crate) state: State,
    messages: &'static [u8],
    times: u32,
    stride: u32,
    content: u32,
}

impl Case {
    // The messages, as they are given at one time.
    fn put(&self, time: u32, bytes: &mut Vec<u8>) -> Result<(), AllocError> {
        let (name, rest) = self.messages.split_at(self.messages.len().min(9));
        if self.stride == 0 || name.len() < 9 {
            bytes.extend_from_slice(self.messages)?;
        } else {
            let chunk = (time.wrapping_mul(self.stride) % 1_048_576).to_be_bytes();
            bytes.extend_from_slice(&[name[0]])?;
            bytes.extend_from_slice(&chunk)?;
            bytes.extend_from_slice(&chunk)?;
            bytes.extend_from_slice(rest)?;
        }
        for _ in 0..self.content {
            bytes.push(1)?;
        }
        Ok(())
    }

    /// The datagram for the channel of this number.
    pub(crate) fn datagram(&self, alloc: Global, number: [u8; 4]) -> Result<Vec<u8>, AllocError> {
        let mut bytes = number.to_vec(alloc)?;
        for time in 0..self.times {
            self.put(time, &mut bytes)?;
        }
        bytes.truncate(65536);
        Ok(bytes)
    }
}

pub(crate) const CASES: [Case; 60] = [
    Case {
        name: "an opening",
        state: State::Opening,
        messages: &[],
        times: 1,
        stride: 0,
        content: 0,
    },
    Case {
        name: "a keep-alive",
        state: State::Proven,
        messages: &[],
        times: 1,
        stride: 0,
        content: 0,
    },
    Case {
        name: "a closing handshake",
        state: State::Proven,
        messages: &[0, 0, 0, 0, 0, 255],
        times: 1,
        stride: 0,
        content: 0,
    },
    Case {
        name: "a closing handshake, all asked for",
        state: State::Asked,
        messages: &[0, 0, 0, 0, 0, 255],
        times: 1,
        stride: 0,
        content: 0,
    },
    Case {
        name: "a closing handshake, all offered",
        state: State::Offered,
        messages: &[0, 0, 0, 0, 0, 255],
        times: 1,
        stride: 0,
        content: 0,
    },
    Case {
        name: "a closing handshake, 512 chunks flying",
        state: State::Flying,
        messages: &[0, 0, 0, 0, 0, 255],
        times: 1,
        stride: 0,
        content: 0,
    },
    Case {
        name: "a DATA of one wrong byte",
        state: State::Proven,
        messages: &[1, 0, 0, 0, 0, 0, 0, 0, 0, 0, 0, 0, 0, 0, 0, 0, 0, 1],
        times: 1,
        stride: 0,
        content: 0,
    },
    Case {
        name: "a DATA outside",
        state: State::Proven,
        messages: &[1, 0, 16, 0, 0, 0, 16, 0, 0, 0, 0, 0, 0, 0, 0, 0, 0, 1],
        times: 1,
        stride: 0,
        content: 0,
    },
    Case {
        name: "an ACK of all, delay 0",
        state: State::Asked,
        messages: &[2, 0, 0, 0, 0, 0, 15, 255, 255, 0, 0, 0, 0, 0, 0, 0, 0],
        times: 1,
        stride: 0,
        content: 0,
    },
    Case {
        name: "an ACK of all, delay 2^63",
        state: State::Asked,
        messages: &[2, 0, 0, 0, 0, 0, 15, 255, 255, 128, 0, 0, 0, 0, 0, 0, 0],
        times: 1,
        stride: 0,
        content: 0,
    },
    Case {
        name: "an ACK of all, delay 2^64 - 1",
        state: State::Asked,
        messages: &[
            2, 0, 0, 0, 0, 0, 15, 255, 255, 255, 255, 255, 255, 255, 255, 255, 255,
        ],
        times: 1,
        stride: 0,
        content: 0,
    },
    Case {
        name: "an ACK of all, 512 chunks flying",
        state: State::Flying,
        messages: &[2, 0, 0, 0, 0, 0, 15, 255, 255, 0, 0, 0, 0, 0, 0, 0, 0],
        times: 1,
        stride: 0,
        content: 0,
    },
    Case {
        name: "a HAVE of all",
        state: State::Proven,
        messages: &[3, 0, 0, 0, 0, 0, 15, 255, 255],
        times: 1,
        stride: 0,
        content: 0,
    },
    Case {
        name: "a HAVE of all numbers",
        state: State::Proven,
        messages: &[3, 0, 0, 0, 0, 255, 255, 255, 255],
        times: 1,
        stride: 0,
        content: 0,
    },
    Case {
        name: "a HAVE outside",
        state: State::Proven,
        messages: &[3, 0, 16, 0, 0, 0, 16, 0, 0],
        times: 1,
        stride: 0,
        content: 0,
    },
    Case {
        name: "an INTEGRITY of all",
        state: State::Proven,
        messages: &[
            4, 0, 0, 0, 0, 0, 15, 255, 255, 7, 7, 7, 7, 7, 7, 7, 7, 7, 7, 7, 7, 7, 7, 7, 7, 7, 7,
            7, 7, 7, 7, 7, 7, 7, 7, 7, 7, 7, 7, 7, 7,
        ],
        times: 1,
        stride: 0,
        content: 0,
    },
    Case {
        name: "an IPv4 address",
        state: State::Proven,
        messages: &[5, 10, 0, 0, 9, 27, 88],
        times: 1,
        stride: 0,
        content: 0,
    },
    Case {
        name: "a PEX_REQ",
        state: State::Proven,
        messages: &[6],
        times: 1,
        stride: 0,
        content: 0,
    },
    Case {
        name: "type 7",
        state: State::Proven,
        messages: &[7, 0],
        times: 1,
        stride: 0,
        content: 0,
    },
    Case {
        name: "a REQUEST of all",
        state: State::Proven,
        messages: &[8, 0, 0, 0, 0, 0, 15, 255, 255],
        times: 1,
        stride: 0,
        content: 0,
    },
    Case {
        name: "a REQUEST of all numbers",
        state: State::Proven,
        messages: &[8, 0, 0, 0, 0, 255, 255, 255, 255],
        times: 1,
        stride: 0,
        content: 0,
    },
    Case {
        name: "a REQUEST outside",
        state: State::Proven,
        messages: &[8, 0, 16, 0, 0, 0, 16, 0, 0],
        times: 1,
        stride: 0,
        content: 0,
    },
    Case {
        name: "a reversed REQUEST",
        state: State::Proven,
        messages: &[8, 0, 15, 255, 255, 0, 0, 0, 0],
        times: 1,
        stride: 0,
        content: 0,
    },
    Case {
        name: "a CANCEL of all",
        state: State::Asked,
        messages: &[9, 0, 0, 0, 0, 0, 15, 255, 255],
        times: 1,
        stride: 0,
        content: 0,
    },
    Case {
        name: "a CHOKE",
        state: State::Proven,
        messages: &[10],
        times: 1,
        stride: 0,
        content: 0,
    },
    Case {
        name: "a CHOKE, all offered",
        state: State::Offered,
        messages: &[10],
        times: 1,
        stride: 0,
        content: 0,
    },
    Case {
        name: "an UNCHOKE",
        state: State::Proven,
        messages: &[11],
        times: 1,
        stride: 0,
        content: 0,
    },
    Case {
        name: "an UNCHOKE, all offered",
        state: State::Offered,
        messages: &[11],
        times: 1,
        stride: 0,
        content: 0,
    },
    Case {
        name: "ten REQUESTs far apart",
        state: State::Proven,
        messages: &[8, 0, 0, 0, 0, 0, 0, 0, 0],
        times: 10,
        stride: 7919,
        content: 0,
    },
    Case {
        name: "CHOKEs",
        state: State::Proven,
        messages: &[10],
        times: 65532,
        stride: 0,
        content: 0,
    },
    Case {
        name: "CHOKEs, all offered",
        state: State::Offered,
        messages: &[10],
        times: 65532,
        stride: 0,
        content: 0,
    },
    Case {
        name: "UNCHOKEs",
        state: State::Proven,
        messages: &[11],
        times: 65532,
        stride: 0,
        content: 0,
    },
    Case {
        name: "CHOKEs and UNCHOKEs in turn",
        state: State::Proven,
        messages: &[10, 11],
        times: 65532,
        stride: 0,
        content: 0,
    },
    Case {
        name: "CHOKEs and UNCHOKEs in turn, all offered",
        state: State::Offered,
        messages: &[10, 11],
        times: 65532,
        stride: 0,
        content: 0,
    },
    Case {
        name: "PEX_REQs",
        state: State::Proven,
        messages: &[6],
        times: 65532,
        stride: 0,
        content: 0,
    },
    Case {
        name: "HAVEs of all",
        state: State::Proven,
        messages: &[3, 0, 0, 0, 0, 0, 15, 255, 255],
        times: 7282,
        stride: 0,
        content: 0,
    },
    Case {
        name: "HAVEs far apart",
        state: State::Proven,
        messages: &[3, 0, 0, 0, 0, 0, 0, 0, 0],
        times: 7282,
        stride: 7919,
        content: 0,
    },
    Case {
        name: "HAVEs of every other chunk",
        state: State::Proven,
        messages: &[3, 0, 0, 0, 0, 0, 0, 0, 0],
        times: 7282,
        stride: 2,
        content: 0,
    },
    Case {
        name: "REQUESTs of all",
        state: State::Proven,
        messages: &[8, 0, 0, 0, 0, 0, 15, 255, 255],
        times: 7282,
        stride: 0,
        content: 0,
    },
    Case {
        name: "REQUESTs far apart",
        state: State::Proven,
        messages: &[8, 0, 0, 0, 0, 0, 0, 0, 0],
        times: 7282,
        stride: 7919,
        content: 0,
    },
    Case {
        name: "REQUESTs of every other chunk",
        state: State::Proven,
        messages: &[8, 0, 0, 0, 0, 0, 0, 0, 0],
        times: 7282,
        stride: 2,
        content: 0,
    },
    Case {
        name: "CANCELs of all",
        state: State::Asked,
        messages: &[9, 0, 0, 0, 0, 0, 15, 255, 255],
        times: 7282,
        stride: 0,
        content: 0,
    },
    Case {
        name: "CANCELs far apart, all asked for",
        state: State::Asked,
        messages: &[9, 0, 0, 0, 0, 0, 0, 0, 0],
        times: 7282,
        stride: 7919,
        content: 0,
    },
    Case {
        name: "CANCELs of every other chunk, all asked for",
        state: State::Asked,
        messages: &[9, 0, 0, 0, 0, 0, 0, 0, 0],
        times: 7282,
        stride: 2,
        content: 0,
    },
    Case {
        name: "REQUESTs and CANCELs of all in turn",
        state: State::Proven,
        messages: &[
            8, 0, 0, 0, 0, 0, 15, 255, 255, 9, 0, 0, 0, 0, 0, 15, 255, 255,
        ],
        times: 3641,
        stride: 0,
        content: 0,
    },
    Case {
        name: "ACKs of all",
        state: State::Proven,
        messages: &[2, 0, 0, 0, 0, 0, 15, 255, 255, 0, 0, 0, 0, 0, 0, 0, 0],
        times: 3855,
        stride: 0,
        content: 0,
    },
    Case {
        name: "ACKs far apart",
        state: State::Proven,
        messages: &[2, 0, 0, 0, 0, 0, 0, 0, 0, 0, 0, 0, 0, 0, 0, 0, 0],
        times: 3855,
        stride: 7919,
        content: 0,
    },
    Case {
        name: "ACKs of chunk 0, 512 chunks flying",
        state: State::Flying,
        messages: &[2, 0, 0, 0, 0, 0, 0, 0, 0, 0, 0, 0, 0, 0, 0, 0, 0],
        times: 3855,
        stride: 0,
        content: 0,
    },
    Case {
        name: "ACKs from chunk 10^6 down, 512 chunks flying",
        state: State::Flying,
        messages: &[2, 0, 0, 0, 0, 0, 0, 0, 0, 0, 0, 0, 0, 0, 0, 0, 0],
        times: 3855,
        stride: 1048575,
        content: 0,
    },
    Case {
        name: "ACKs of all, 512 chunks flying",
        state: State::Flying,
        messages: &[2, 0, 0, 0, 0, 0, 15, 255, 255, 0, 0, 0, 0, 0, 0, 0, 0],
        times: 3855,
        stride: 0,
        content: 0,
    },
    Case {
        name: "INTEGRITYs of all",
        state: State::Proven,
        messages: &[
            4, 0, 0, 0, 0, 0, 15, 255, 255, 7, 7, 7, 7, 7, 7, 7, 7, 7, 7, 7, 7, 7, 7, 7, 7, 7, 7,
            7, 7, 7, 7, 7, 7, 7, 7, 7, 7, 7, 7, 7, 7,
        ],
        times: 1599,
        stride: 0,
        content: 0,
    },
    Case {
        name: "INTEGRITYs far apart",
        state: State::Proven,
        messages: &[
            4, 0, 0, 0, 0, 0, 0, 0, 0, 7, 7, 7, 7, 7, 7, 7, 7, 7, 7, 7, 7, 7, 7, 7, 7, 7, 7, 7, 7,
            7, 7, 7, 7, 7, 7, 7, 7, 7, 7, 7, 7,
        ],
        times: 1599,
        stride: 7919,
        content: 0,
    },
    Case {
        name: "129 INTEGRITYs far apart",
        state: State::Proven,
        messages: &[
            4, 0, 0, 0, 0, 0, 0, 0, 0, 7, 7, 7, 7, 7, 7, 7, 7, 7, 7, 7, 7, 7, 7, 7, 7, 7, 7, 7, 7,
            7, 7, 7, 7, 7, 7, 7, 7, 7, 7, 7, 7,
        ],
        times: 129,
        stride: 7919,
        content: 0,
    },
    Case {
        name: "IPv4 addresses",
        state: State::Proven,
        messages: &[5, 10, 0, 0, 9, 27, 88],
        times: 9362,
        stride: 0,
        content: 0,
    },
    Case {
        name: "IPv6 addresses",
        state: State::Proven,
        messages: &[12, 0, 0, 0, 0, 0, 0, 0, 0, 0, 0, 0, 0, 0, 0, 0, 1, 0, 0],
        times: 3450,
        stride: 0,
        content: 0,
    },
    Case {
        name: "handshakes that change nothing",
        state: State::Proven,
        messages: &[0, 10, 11, 12, 13, 255],
        times: 10922,
        stride: 0,
        content: 0,
    },
    Case {
        name: "DATA of chunk 0",
        state: State::Proven,
        messages: &[1, 0, 0, 0, 0, 0, 0, 0, 0, 0, 0, 0, 0, 0, 0, 0, 0],
        times: 240,
        stride: 0,
        content: 256,
    },
    Case {
        name: "DATA of chunk 0, its path claimed",
        state: State::Claimed,
        messages: &[1, 0, 0, 0, 0, 0, 0, 0, 0, 0, 0, 0, 0, 0, 0, 0, 0],
        times: 240,
        stride: 0,
        content: 256,
    },
    Case {
        name: "DATA far apart",
        state: State::Proven,
        messages: &[1, 0, 0, 0, 0, 0, 0, 0, 0, 0, 0, 0, 0, 0, 0, 0, 0],
        times: 240,
        stride: 7919,
        content: 256,
    },
    Case {
        name: "DATA outside",
        state: State::Proven,
        messages: &[1, 0, 16, 0, 0, 0, 16, 0, 0, 0, 0, 0, 0, 0, 0, 0, 0],
        times: 240,
        stride: 0,
        content: 256,
    },
];
END

put subject.rt <<'END'
//! A peer of 2^20 chunks of 256 zeros over devices in memory, and one channel of it.

use crate::cases::State;
use anyhow::Error;
use arrayvec::ArrayVec;
use pp_avail::Rank;
use pp_core::Peer;
use pp_outside::{Address, Event, MemoryDisk, MemoryLink, ZeroSource};
use pp_store::import;
use std::alloc::{AllocError, Global};

const CHUNKS: u64 = 1_048_576;

const PEER: Address = Address::V4([10, 0, 0, 2], 7000);

// More than any channel lasts, in microseconds.
const LONG: u64 = 200_000_000;

// All chunks.
const ALL: [u8; 8] = [0, 0, 0, 0, 0, 15, 255, 255];

#[derive(Drop)]
pub(crate) struct Subject {
    alloc: Global,
    peer: Peer,
    disk: MemoryDisk,
    link: MemoryLink,
    number: [u8; 4],
    now: u64,
}

impl Subject {
    /// One that has all chunks.
    pub(crate) fn seeder(alloc: Global) -> Result<Subject, Error> {
        let mut disk = MemoryDisk::new(alloc, &[])?;
        let swarm = import(256, &mut ZeroSource::new(256 * CHUNKS), &mut disk)?;
        let peer = Peer::open(alloc, &swarm, [0; 32], None, &ArrayVec::new(), &mut disk)?;
        Ok(Subject {
            alloc,
            peer,
            disk,
            link: MemoryLink::new(alloc)?,
            number: [0; 4],
            now: 1,
        })
    }

    /// One that lacks all chunks of a seeder's swarm, and asks for them.
    pub(crate) fn fetcher(alloc: Global, seeder: &Subject) -> Result<Subject, Error> {
        let mut disk = MemoryDisk::new(alloc, &[])?;
        let swarm = seeder.peer.descriptor();
        let asks = Some(Rank::Rarest);
        let peer = Peer::open(alloc, &swarm, [0; 32], asks, &ArrayVec::new(), &mut disk)?;
        Ok(Subject {
            alloc,
            peer,
            disk,
            link: MemoryLink::new(alloc)?,
            number: [0; 4],
            now: 1,
        })
    }

    /// This peer's number of the channel.
    pub(crate) fn number(&self) -> [u8; 4] {
        self.number
    }

    /// How many datagrams were sent since the channel began.
    pub(crate) fn sent(&self) -> usize {
        self.link.sent()
    }

    /// A datagram comes a microsecond later.
    pub(crate) fn takes(&mut self, bytes: &[u8]) {
        if bytes.len() > 65536 {
            return;
        }
        self.now = self.now.saturating_add(1);
        let event = Event::Datagram {
            from: PEER,
            len: bytes.len(),
            at: self.now,
        };
        let _ = self.peer.absorb(&event, bytes, &mut self.disk);
    }

    /// What is due is sent.
    pub(crate) fn sends(&mut self) {
        self.peer.flush(&mut self.disk, &mut self.link);
    }

    /// The peer's handshake for no channel.
    pub(crate) fn opening(&self) -> Result<Vec<u8>, AllocError> {
        let root = self.peer.descriptor().root();
        let mut bytes = [0, 0, 0, 0, 0, 10, 11, 12, 13, 0, 1, 1, 1, 2, 0, 32].to_vec(self.alloc)?;
        bytes.extend_from_slice(root.bytes())?;
        bytes.extend_from_slice(&[3, 1, 4, 2, 6, 2, 8, 2, 0xfe, 0xf8, 9, 0, 0, 1, 0, 255])?;
        Ok(bytes)
    }

    // A message on the channel, and what is due then.
    fn hears(&mut self, messages: &[&[u8]]) -> Result<(), AllocError> {
        let mut bytes = self.number.to_vec(self.alloc)?;
        for message in messages {
            bytes.extend_from_slice(message)?;
        }
        self.takes(&bytes);
        self.sends();
        Ok(())
    }

    // The number of the channel, by the last datagram that was sent: the reply.
    fn learns(&mut self) {
        let sent = self.link.sent();
        if sent == 0 {
            return;
        }
        let reply = self.link.sent_bytes(sent - 1);
        if reply.len() >= 9 {
            self.number = [reply[5], reply[6], reply[7], reply[8]];
        }
    }

    // The window has grown to 512 chunks, and as many fly.
    fn flies(&mut self) -> Result<(), AllocError> {
        self.hears(&[&[8], &ALL])?;
        for _ in 0..600 {
            self.hears(&[&[2], &ALL, &[0; 8]])?;
        }
        Ok(())
    }

    // The siblings on the way up from chunk 0 are claimed, each with another digest than it has.
    fn claims(&mut self) -> Result<(), AllocError> {
        let mut width = 1u32;
        for _ in 0..20 {
            let first = width.to_be_bytes();
            width = width.saturating_mul(2);
            let last = width.saturating_sub(1).to_be_bytes();
            self.hears(&[&[4], &first, &last, &[7; 32]])?;
        }
        Ok(())
    }

    /// The channel comes to a state.
    pub(crate) fn begins(&mut self, state: State) -> Result<(), AllocError> {
        self.now = self.now.saturating_add(LONG);
        self.link = MemoryLink::new(self.alloc)?;
        if state == State::Opening {
            return Ok(());
        }
        let opening = self.opening()?;
        self.takes(&opening);
        self.sends();
        self.learns();
        self.hears(&[])?;
        match state {
            State::Flying => self.flies(),
            State::Claimed => self.claims(),
            State::Asked => self.hears(&[&[8], &ALL]),
            State::Offered => self.hears(&[&[3], &ALL]),
            State::Opening | State::Proven => Ok(()),
        }
    }

    /// The channel is closed.
    pub(crate) fn ends(&mut self, state: State) -> Result<(), AllocError> {
        if state == State::Opening {
            self.learns();
            self.hears(&[])?;
        }
        self.hears(&[&[0, 0, 0, 0, 0, 255]])
    }
}
END

# A row for each datagram, with milliseconds.
table() {
    awk -F '\t' '
        BEGIN { printf "%-8s %-48s %6s %5s %9s %9s %9s\n", "peer", "datagram", "bytes", "sent", "taking", "sending", "both, ms" }
        NF == 8 { printf "%-8s %-48s %6d %5d %9.3f %9.3f %9.3f %s\n", $1, $2, $3, $4, $5 / 1000, $6 / 1000, $7 / 1000, $8 }'
}

cd "$program"
if [ -z "${LIBS:-}" ]; then
    rt run 2>/dev/null | table
    exit
fi
kit=$(dirname -- "$(dirname -- "$(readlink -f -- "$(command -v rt)")")")
words="--extern std=$kit/rlibs/std.rlib -L dependency=$kit/rlibs -L dependency=$LIBS"
for crate in $stands_on; do
    lib=$LIBS/$crate.rlib
    [ -e "$lib" ] || lib=$kit/rlibs/$crate.rlib
    words="$words --extern $crate=$lib"
done
mkdir -p out
if [ ! -x out/hostile ] || [ src/main.rt -nt out/hostile ]; then
    "$kit/bin/rattle" build --crate-name hostile src/main.rt $words --antt-project "$kit/rattle/logic/antt-project.json" \
        --logic-built "$kit/logic_built" --jobs 1 --toolchain "$kit/toolchain" --backend llvm -o out/hostile.o >out/build.log
    "$kit/bin/rattle-link" --target x86_64-unknown-linux-gnu --toolchain "$kit/toolchain" -o out/hostile out/hostile.o \
        "$kit/c/libos_c.a" "$kit/c/liblibc_c.a"
fi
out/hostile | table
