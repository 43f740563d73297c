#!/usr/bin/env bash
# How fast a fetch is over a bad way: a content of seeded bytes is imported, one or two seeders serve it, each behind a relay that loses,
# repeats and reorders datagrams in both directions and adds a round trip, and one fetcher fetches it. Prints a row of docs/BENCH.md. Exits
# with 1 where the fetch fails or the content differs.
# Usage: bench/way.sh LOSS ROUND_TRIP_MS [SEEDERS [MEBIBYTES [CHUNK [REPEAT [REORDER]]]]]; chances are from 0 to 1.
set -eu

root=$(cd -- "$(dirname -- "$(readlink -f -- "${BASH_SOURCE[0]}")")/.." >/dev/null && pwd -P)
loss=$1
trip=$2
seeders=${3:-1}
size=$((${4:-16} * 1024 * 1024))
chunk=${5:-1024}
repeat=${6:-$loss}
reorder=${7:-$loss}

folder=$(mktemp -d)
children=()
clean() {
    [ ${#children[@]} -eq 0 ] || kill "${children[@]}" 2>/dev/null || true
    rm -rf -- "$folder"
}
trap clean EXIT

"$root/ppspp" --version >/dev/null
cd "$folder"
head -c "$size" /dev/zero | openssl enc -aes-128-ctr -nosalt -K 000102030405060708090a0b0c0d0e0f -iv 00000000000000000000000000000000 >content
descriptor=$("$root/ppspp" import store "$chunk" <content)

peers=()
for ((n = 0; n < seeders; n++)); do
    cp store "store.$n"
    "$root/ppspp" seed "store.$n" "$descriptor" "127.0.0.1:$((17101 + n))" 4000000000 >"seed.$n" 2>/dev/null &
    children+=($!)
    python3 "$root/bench/relay.py" "$((17201 + n))" "$((17101 + n))" "$loss" "$repeat" "$reorder" "$trip" "$n" &
    children+=($!)
    peers+=("127.0.0.1:$((17201 + n))")
done
sleep 1

now() { date +%s%3N; }
begun=$(now)
status=0
"$root/ppspp" fetch fetched "$descriptor" 127.0.0.1:17100 4000000000 rarest "${peers[@]}" >report 2>/dev/null || status=$?
took=$(($(now) - begun))
"$root/ppspp" export fetched "$descriptor" >exported || status=$?
cmp -s content exported || status=1
awk "BEGIN { printf \"| %s | %s ms | %d | %.1f s | %.2f MB/s |\\n\", \"$loss\", \"$trip\", $seeders, $took / 1000, $size / 1000 / $took }"
[ "$status" -eq 0 ] || { echo "the fetch failed with status $status" >&2; exit 1; }
