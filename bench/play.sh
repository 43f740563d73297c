#!/usr/bin/env bash
# Whether what is played over loopback is the content: a content of random bytes is imported, one seeder serves it, and it is played into a new
# store, first for a few turns and then until all is there; what each run wrote is compared with the content. Prints how many bytes the first run
# wrote, and for the second its time and status. Exits with 1 where a byte differs or something is missing.
# Usage: bench/play.sh [MEBIBYTES [CHUNK [WINDOW [TURNS]]]]; 4, 1024, 256 and 1000 unless given; TURNS are those of the first run.
set -eu

root=$(cd -- "$(dirname -- "$(readlink -f -- "${BASH_SOURCE[0]}")")/.." >/dev/null && pwd -P)
size=$((${1:-4} * 1024 * 1024))
chunk=${2:-1024}
window=${3:-256}
turns=${4:-1000}

folder=$(mktemp -d)
seeder=
clean() {
    [ -z "$seeder" ] || kill "$seeder" 2>/dev/null || true
    rm -rf -- "$folder"
}
trap clean EXIT

"$root/ppspp" --version >/dev/null
cd "$folder"
head -c "$size" /dev/urandom >content
descriptor=$("$root/ppspp" import store "$chunk" <content)
"$root/ppspp" seed store "$descriptor" 127.0.0.1:17001 4000000000 >report 2>/dev/null &
seeder=$!
sleep 1

play() { "$root/ppspp" play played "$descriptor" 127.0.0.1:17002 "$1" "$window" 127.0.0.1:17001 2>/dev/null; }

play "$turns" >begun || true
wrote=$(stat -c %s begun)
cmp -n "$wrote" content begun
echo "in $turns turns the first $wrote of $size bytes"

begun=$(date +%s%3N)
status=0
play 4000000000 >whole || status=$?
echo "started again, all in $(($(date +%s%3N) - begun)) ms, status $status"
cmp content whole
[ "$status" -eq 0 ]
