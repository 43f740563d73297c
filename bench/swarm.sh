#!/usr/bin/env bash
# A swarm of one seeder and some fetchers that name only the seeder, each in a network namespace of its own, started some seconds apart: they
# find each other by peer exchange and serve each other. Prints how long each took, and how much the seeder sent, as a part of what all
# fetchers took together. Exits with 1 where a fetch fails or a content differs. Needs root and iproute2.
# Usage: bench/swarm.sh [MEBIBYTES [CHUNK [FETCHERS [GAP_SECONDS [RATE]]]]]; RATE bounds what the seeder sends, as 80mbit, where tc can.
set -eu

root=$(cd -- "$(dirname -- "$(readlink -f -- "${BASH_SOURCE[0]}")")/.." >/dev/null && pwd -P)
size=$((${1:-64} * 1024 * 1024))
chunk=${2:-1024}
fetchers=${3:-4}
gap=${4:-1}
rate=${5:-}
name=ppspp$$

folder=$(mktemp -d)
children=()
clean() {
    [ ${#children[@]} -eq 0 ] || kill "${children[@]}" 2>/dev/null || true
    wait 2>/dev/null || true
    for ((n = 0; n <= fetchers; n++)); do
        ip netns del "$name-$n" 2>/dev/null || true
    done
    ip link del "$name" 2>/dev/null || true
    rm -rf -- "$folder"
}
trap clean EXIT

"$root/ppspp" --version >/dev/null
cd "$folder"
ip link add "$name" type bridge
ip link set "$name" up
for ((n = 0; n <= fetchers; n++)); do
    ip netns add "$name-$n"
    ip link add "v$$-$n" type veth peer name eth0 netns "$name-$n"
    ip link set "v$$-$n" master "$name" up
    ip -n "$name-$n" addr add "10.77.0.$((n + 1))/24" dev eth0
    ip -n "$name-$n" link set eth0 up
done
[ -z "$rate" ] || ip netns exec "$name-0" tc qdisc add dev eth0 root tbf rate "$rate" burst 256k latency 50ms

head -c "$size" /dev/zero | openssl enc -aes-128-ctr -nosalt -K 000102030405060708090a0b0c0d0e0f -iv 00000000000000000000000000000000 >content
descriptor=$("$root/ppspp" import store "$chunk" <content)
ip netns exec "$name-0" "$root/ppspp" seed store "$descriptor" 10.77.0.1:7000 4000000000 >seed 2>/dev/null &
children+=($!)
sleep 1

sent() { cat "/sys/class/net/v$$-$1/statistics/rx_bytes"; }
before=$(sent 0)
fetches=()
for ((n = 1; n <= fetchers; n++)); do
    (
        TIMEFORMAT='%R'
        { time ip netns exec "$name-$n" "$root/ppspp" fetch "fetched.$n" "$descriptor" "10.77.0.$((n + 1)):7000" 4000000000 rarest 10.77.0.1:7000 >"report.$n" 2>/dev/null; } 2>"took.$n"
    ) &
    fetches+=($!)
    children+=($!)
    sleep "$gap"
done
status=0
for it in "${fetches[@]}"; do
    wait "$it" || status=$?
done
after=$(sent 0)
for ((n = 1; n <= fetchers; n++)); do
    "$root/ppspp" export "fetched.$n" "$descriptor" | cmp -s content - || status=1
    echo "fetcher $n: $(tail -n 1 "took.$n") s; $(grep -E '^(stored|repeats|sent) ' "report.$n" | tr '\n' ' ')"
done
awk "BEGIN { printf \"the seeder sent %.2f of what the %d fetchers took together (%d bytes)\\n\", ($after - $before) / $size / $fetchers, $fetchers, $size * $fetchers }"
[ "$status" -eq 0 ] || { echo "a fetch failed with status $status" >&2; exit 1; }
