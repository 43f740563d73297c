#!/usr/bin/env bash
# Refuses the memory that the program takes, one taking at a time, and tells how each command ended: how often with each status. Each run
# is one of the program that `./ppspp` runs, with a small library loaded into it that counts what is taken and refuses one. The stores hold
# 7,000 bytes in seven chunks. Wants gcc.
# Usage: bench/memory.sh
set -u

root=$(cd -- "$(dirname -- "$(readlink -f -- "${BASH_SOURCE[0]}")")/.." >/dev/null && pwd -P)
program=$root/crates/pp_main/out/pp_main
"$root/ppspp" --version >/dev/null || exit 1

folder=$(mktemp -d)
trap 'rm -rf -- "$folder"' EXIT
cd "$folder" || exit 1

gcc -O2 -shared -fPIC -xc -o refuse.so - <<'C' || exit 1
#define _GNU_SOURCE
#include <errno.h>
#include <stdio.h>
#include <stdlib.h>
extern void *__libc_malloc(size_t), *__libc_calloc(size_t, size_t), *__libc_realloc(void *, size_t), *__libc_memalign(size_t, size_t);
static long count, refused = -1;
static int is_refused(void) {
    if (refused < 0) {
        const char *at = getenv("REFUSE_AT");
        refused = at ? atol(at) : 0;
    }
    return ++count == refused;
}
void *malloc(size_t size) { return is_refused() ? NULL : __libc_malloc(size); }
void *calloc(size_t n, size_t size) { return is_refused() ? NULL : __libc_calloc(n, size); }
void *realloc(void *old, size_t size) { return is_refused() ? NULL : __libc_realloc(old, size); }
void *memalign(size_t align, size_t size) { return is_refused() ? NULL : __libc_memalign(align, size); }
void *aligned_alloc(size_t align, size_t size) { return memalign(align, size); }
int posix_memalign(void **out, size_t align, size_t size) { return (*out = memalign(align, size)) ? 0 : ENOMEM; }
__attribute__((destructor)) static void tell(void) {
    const char *to = getenv("COUNT_TO");
    long seen = count;
    FILE *file = to ? fopen(to, "w") : NULL;
    if (file) fprintf(file, "%ld\n", seen), fclose(file);
}
C

# the stores as they are before each run
prepare() {
    cp whole s.store
    rm -f new.store
}

# ends NAME INPUT WORD..: how a command ends with memory to spare, and with the first taking refused, the second, and so on
ends() {
    local name=$1 input=$2 total at status=0
    shift 2
    prepare
    COUNT_TO=count LD_PRELOAD=./refuse.so "$program" "$@" <"$input" >out 2>/dev/null || status=$?
    total=$(cat count)
    for ((at = 1; at <= total; at++)); do
        prepare
        REFUSE_AT=$at LD_PRELOAD=./refuse.so timeout 20 "$program" "$@" <"$input" >out 2>/dev/null
        echo $?
    done >statuses
    echo "$name: status $status with memory to spare, $total takings; refused at each: $(sort -n statuses | uniq -c |
        awk '{ printf "%sstatus %s %s times", (NR > 1 ? ", " : ""), $2, $1 }')"
}

head -c 7000 /dev/urandom >content
described=$("$program" import whole 1024 <content) || exit 1
printf 'ppspp-schedule 1\ncontent 1024 7000 5\npeer 0 seed\npeer 1 fetch sequential 0\nrun 30 100000\n' >schedule

ends import content import new.store 1024
ends check /dev/null check s.store "$described"
ends export /dev/null export s.store "$described"
ends seed /dev/null seed s.store "$described" 127.0.0.1:7801 2
ends fetch /dev/null fetch new.store "$described" 127.0.0.1:7802 2 rarest 127.0.0.1:7803
ends replay schedule replay
