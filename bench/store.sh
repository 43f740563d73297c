#!/usr/bin/env bash
# What a store costs: the processor time (user and system) of `check` on an empty file, and of `import`, `check` and `export` of
# a whole store, against that of `sha256sum` on the same content. Prints a line for 2^10 chunks and one for 2^20, each the least
# of three runs in milliseconds, and the quotient of `sha256sum` by it.
# Usage: bench/store.sh [CHUNK [FOLDER]]; CHUNK is 1024 unless given; the folder, a new one unless given, needs three times
# 2^20 chunks.
set -eu

root=$(cd -- "$(dirname -- "$(readlink -f -- "${BASH_SOURCE[0]}")")/.." >/dev/null && pwd -P)
chunk=${1:-1024}

made=
folder=${2:-}
if [ -z "$folder" ]; then
    folder=$(mktemp -d)
    made=$folder
fi
content=$folder/content.bench
store=$folder/store.bench
empty=$folder/empty.bench
took=$folder/took.bench
clean() {
    rm -f -- "$content" "$store" "$empty" "$took"
    [ -z "$made" ] || rmdir -- "$made"
}
trap clean EXIT

# The processor time of a command in milliseconds, the least of three runs. `prepare` runs before each.
prepare() { :; }
least() {
    local best= spent
    for _ in 1 2 3; do
        prepare
        TIMEFORMAT='%U %S'
        { time "$@" <"$content" >/dev/null; } 2>"$took"
        spent=$(tail -n 1 "$took" | awk '{ printf "%d", ($1 + $2) * 1000 }')
        if [ -z "$best" ] || [ "$spent" -lt "$best" ]; then
            best=$spent
        fi
    done
    echo "$best"
}
quotient() { awk "BEGIN { printf \"%.2f\", $1 / ($2 > 0 ? $2 : 1) }"; }

"$root/ppspp" --version >/dev/null
for count in 1024 1048576; do
    # The bytes are the same in every run: a keystream over zeros.
    head -c $((count * chunk)) /dev/zero | openssl enc -aes-128-ctr -nosalt -K 000102030405060708090a0b0c0d0e0f -iv 00000000000000000000000000000000 >"$content"
    hash=$(least sha256sum)
    prepare() { rm -f -- "$store"; }
    import=$(least "$root/ppspp" import "$store" "$chunk")
    rm -f -- "$store"
    descriptor=$("$root/ppspp" import "$store" "$chunk" <"$content")
    prepare() { :; }
    whole=$(least "$root/ppspp" check "$store" "$descriptor")
    export=$(least "$root/ppspp" export "$store" "$descriptor")
    : >"$empty"
    none=$(least "$root/ppspp" check "$empty" "$descriptor")
    echo "$count chunks of $chunk: sha256sum $hash ms; import $import ms ($(quotient "$hash" "$import")); check of an empty file $none ms, of a whole store $whole ms ($(quotient "$hash" "$whole")); export $export ms ($(quotient "$hash" "$export"))"
done
