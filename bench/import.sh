#!/usr/bin/env bash
# How fast an import is: the time of `import` on 256 MiB of seeded bytes against that of `sha256sum` on the same file.
# Prints, for chunks of 1,024 and 8,192 bytes, both times in milliseconds (the least of three) and their quotient, which
# is to be at least 0.75 and 0.9.
# Usage: bench/import.sh [FOLDER]; the folder, a new one unless given, needs 1 GiB.
set -eu

root=$(cd -- "$(dirname -- "$(readlink -f -- "${BASH_SOURCE[0]}")")/.." >/dev/null && pwd -P)
size=$((256 * 1024 * 1024))

made=
folder=${1:-}
if [ -z "$folder" ]; then
    folder=$(mktemp -d)
    made=$folder
fi
content=$folder/content.bench
store=$folder/store.bench
clean() {
    rm -f -- "$content" "$store"
    [ -z "$made" ] || rmdir -- "$made"
}
trap clean EXIT

# The bytes are the same in every run: a keystream over zeros.
head -c "$size" /dev/zero | openssl enc -aes-128-ctr -nosalt -K 000102030405060708090a0b0c0d0e0f -iv 00000000000000000000000000000000 >"$content"

now() { date +%s%3N; }

# The least time of three runs, in milliseconds.
least() {
    local best= begun took
    for _ in 1 2 3; do
        rm -f -- "$store"
        begun=$(now)
        "$@" <"$content" >/dev/null
        took=$(($(now) - begun))
        if [ -z "$best" ] || [ "$took" -lt "$best" ]; then
            best=$took
        fi
    done
    echo "$best"
}

"$root/ppspp" --version >/dev/null
hash=$(least sha256sum)
for chunk in 1024 8192; do
    took=$(least "$root/ppspp" import "$store" "$chunk")
    echo "chunk $chunk: import $took ms, sha256sum $hash ms, quotient $(awk "BEGIN { printf \"%.2f\", $hash / $took }")"
done
