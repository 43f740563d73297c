#!/usr/bin/env bash
# How fast fetches are over loopback: a content of seeded bytes is imported, so many seeders serve it, and so many fetchers, started
# together, that name these seeders alone fetch it into new stores, whose exports are compared with the content. Prints for each fetcher
# megabytes a second, from its start to its end, its processor seconds and its counts of datagrams; then the processor seconds of each
# seeder, and the time of `sha256sum` on the content with the quotient of the
# slowest fetch to it. Exits with 1 where a fetch fails or a content differs.
# Usage: bench/fetch.sh [MEBIBYTES [CHUNK [SEEDERS [FETCHERS]]]]; 64, 1024, 1 and 1 unless given.
set -eu

root=$(cd -- "$(dirname -- "$(readlink -f -- "${BASH_SOURCE[0]}")")/.." >/dev/null && pwd -P)
size=$((${1:-64} * 1024 * 1024))
chunk=${2:-1024}
seeders=${3:-1}
fetchers=${4:-1}
first_port=17001

folder=$(mktemp -d)
children=()
clean() {
    [ ${#children[@]} -eq 0 ] || kill "${children[@]}" 2>/dev/null || true
    rm -rf -- "$folder"
}
trap clean EXIT

"$root/ppspp" --version >/dev/null
cd "$folder"
head -c "$size" /dev/zero | openssl enc -aes-128-ctr -nosalt -K 000102030405060708090a0b0c0d0e0f -iv 00000000000000000000000000000000 >content
descriptor=$("$root/ppspp" import store "$chunk" <content)

peers=()
for ((n = 0; n < seeders; n++)); do
    port=$((first_port + n))
    cp store "store.$n"
    "$root/ppspp" seed "store.$n" "$descriptor" "127.0.0.1:$port" 4000000000 >"seed.$n" &
    children+=($!)
    peers+=("127.0.0.1:$port")
done
sleep 1

now() { date +%s%3N; }
# the processor seconds of a process that runs, in hundredths
busy() { awk '{ print $14 + $15 }' "/proc/$1/stat"; }

begun=$(now)
sha256sum content >/dev/null
hashed=$(($(now) - begun))

# fetch N: fetcher N, with its time in milliseconds, its status and its processor seconds in files of its own
fetch() {
    local begun status=0
    begun=$(now)
    TIMEFORMAT='%U user and %S system'
    { time "$root/ppspp" fetch "fetched.$1" "$descriptor" "127.0.0.1:$((first_port + 100 + $1))" 4000000000 rarest "${peers[@]}" >"report.$1"; } 2>"times.$1" ||
        status=$?
    echo $(($(now) - begun)) >"took.$1"
    echo "$status" >"status.$1"
}

fetching=()
for ((n = 0; n < fetchers; n++)); do
    fetch "$n" &
    fetching+=($!)
done
wait "${fetching[@]}"

failed=0
slowest=0
for ((n = 0; n < fetchers; n++)); do
    status=$(cat "status.$n")
    took=$(cat "took.$n")
    [ "$took" -le "$slowest" ] || slowest=$took
    "$root/ppspp" export "fetched.$n" "$descriptor" >exported || status=$?
    cmp -s content exported || status=1
    awk "BEGIN { printf \"%d bytes, chunk %d, %d seeders, fetcher %d of %d: %.1f MB/s, %d ms\n\", $size, $chunk, $seeders, $n + 1, $fetchers, $size / 1000 / $took, $took }"
    echo "  processor seconds: $(tail -n 1 "times.$n")"
    echo "  $(grep -E '^(turns|datagrams|sent|stored|repeats|missing|wrong|send_faults) ' "report.$n" | tr '\n' ' ')"
    [ "$status" -eq 0 ] || { echo "  failed with status $status" >&2; failed=1; }
done
for ((n = 0; n < seeders; n++)); do
    echo "seeder $((n + 1)): processor hundredths of a second: $(busy "${children[$n]}")"
done
awk "BEGIN { printf \"sha256sum of the content: %d ms; the slowest fetch took %.1f times that\n\", $hashed, $slowest / $hashed }"
[ "$failed" -eq 0 ]
