#!/usr/bin/env bash
# Prints how long replays of traces of four sizes take, the ratio of each to the one before, and the most memory that
# each held. A trace is mixed: in waves of 32,768 operations blocks of 0 to 700 bytes of all three domains are allocated
# and then freed in another order, so that pools and arenas fill and empty; every 512th operation shows the heap, and
# as often a request of one of the sources is refused. Then come traces of a live heap that grows to 15, 30 and 60 arenas
# and to 25, 50 and 100 MiB of raw blocks, and empties in a random order. Then come traces of as many operations each
# with 100, 10,000 and 100,000 blocks live, without tracing and while tracing, and one of 130,943 blocks, each of which has
# 256 frames of its own. Last come 341 snapshots, filters and statistics each over 12,500, 25,000 and 50,000 traces.
# Usage: bench/replay.sh (the program is proved and built first where it is not)
set -eu
cd "$(dirname "$0")/.."
work=$(mktemp -d)
trap 'rm -rf "$work"' EXIT

trace() {
    awk -v n="$1" 'BEGIN {
        print "pymtrace 1"; print "track t"; print "acquire"
        split("r m o", letter, " ")
        for (i = 1; i < n; i++) {
            at = i % 32768
            k = at < 16384 ? at : ((at - 16384) * 7) % 16384
            name = sprintf("block_%026d", k)
            if (at % 512 == 0) print "heap"
            else if (at % 512 == 256) print "refuse " (at % 1024 == 256 ? "raw" : "arena") " 3"
            else if (at < 16384) print "malloc " letter[1 + k % 3] " " name " " (k * 37) % 701
            else print "free " letter[1 + k % 3] " " name
        }
    }'
}

# A trace in which so many arenas fill with blocks of 488 bytes, 1,984 to an arena, and raw blocks of 64 KiB come, 80 to
# three arenas, and all are freed in a random order.
growing() {
    awk -v arenas="$1" 'BEGIN {
        small = arenas * 1984
        all = small + int(arenas * 80 / 3)
        print "pymtrace 1"; print "track t"; print "acquire"
        for (i = 0; i < all; i++) {
            order[i] = i
            print i < small ? "malloc o b" i " 488" : "malloc r b" i " 65536"
        }
        seed = 1
        for (i = all - 1; i >= 0; i--) {
            seed = (seed * 1103515245 + 12345) % 2147483648
            k = int(seed / 2147483648 * (i + 1))
            at = order[k]; order[k] = order[i]
            print "free " (at < small ? "o" : "r") " b" at
        }
    }'
}

# A trace of 262,144 operations in which that many raw blocks are live once they have come: one is freed, and its name is
# allocated again. The last word begins tracing, or does nothing that costs anything.
living() {
    awk -v live="$1" -v first="$2" 'BEGIN {
        print "pymtrace 1"; print "track t"; print first; print "call main.py 1"
        for (i = 0; i < 262142; i++) {
            if (i < live) print "malloc r b" i " 16"
            else if ((i - live) % 2 == 0) print "free r b" int((i - live) / 2) % live
            else print "malloc r b" int((i - live) / 2) % live " 16"
        }
    }'
}

# A trace in which each block is allocated 256 calls deep, from a line of its own.
deep() {
    awk 'BEGIN {
        print "pymtrace 1"; print "track t"; print "start 65535"
        for (i = 0; i < 256; i++) print "call module_" i ".py " i
        for (i = 0; i < 130943; i++) { print "line " i; print "malloc r b" i " 16" }
    }'
}

# A trace of so many blocks, allocated from 997 lines of 20 files, and then of 1,023 operations: each snapshot is filtered by
# two rules, and what was kept or all of it is added up by file, by line or by traceback in turn, cumulative or not.
snapshots() {
    awk -v live="$1" 'BEGIN {
        print "pymtrace 1"; print "track t"; print "start 5"; print "call main.py 1"
        for (i = 0; i < live; i++) {
            if (i % 250 == 0) { if (i > 0) print "return"; print "call pkg/module_" i % 20 ".py " i / 250 }
            if (i % 10 == 0) print "line " i % 997
            print "malloc r b" i " " i % 97
        }
        split("filename lineno traceback", key, " ")
        for (i = 0; i < 341; i++) {
            k = key[1 + i % 3]
            print "snapshot all"
            print "keep part all in,all,*,*,pkg/*_1?.py ex,top,7,*,*"
            print "stats " (i % 4 < 2 ? "all" : "part") " " k " " (k != "traceback" && i % 2 ? "cumulative" : "plain") " 10"
        }
    }'
}

# Runs the replay of a trace, and prints its time in microseconds and the most memory that it held in KiB.
timed() {
    python3 - "$1" "$2" <<'PYTHON'
import os, resource, subprocess, sys, time
with open(sys.argv[1]) as trace, open(sys.argv[2], "w") as out:
    start = time.monotonic()
    status = subprocess.call(["crates/pymtrace/out/pymtrace", "replay"], stdin=trace, stdout=out)
    took = time.monotonic() - start
assert status == 0, status
print(int(took * 1e6), resource.getrusage(resource.RUSAGE_CHILDREN).ru_maxrss)
PYTHON
}

./pymtrace replay < examples/first.trace > "$work/out"

# Prints what the best of three runs took of the trace with so many operations, and its ratio to the one before.
before=""
measure() {
    best=""
    for _ in 1 2 3; do
        read -r took memory < <(timed "$work/trace" "$work/out")
        if [ -z "$best" ] || [ "$took" -lt "$best" ]; then best=$took; fi
    done
    tail -n 5 "$work/out" | head -n 1 | grep -q "^summary events $1 status 0$"
    ratio=""
    if [ -n "$before" ]; then ratio=$(awk -v a="$best" -v b="$before" 'BEGIN { printf ", ratio %.2f", a / b }'); fi
    echo "$1 operations, $(stat -c %s "$work/trace") bytes: $((best / 1000)).$(printf %03d $((best % 1000))) ms$ratio; $memory KiB at most"
    before=$best
}

for n in 32768 65536 131072 262144; do
    trace "$n" > "$work/trace"
    measure "$n"
done

before=""
for arenas in 15 30 60; do
    growing "$arenas" > "$work/trace"
    measure "$((1 + 2 * (arenas * 1984 + arenas * 80 / 3)))"
    grep -q "^summary arenas given $arenas back $((arenas - 1)) most $arenas$" "$work/out"
done

for first in stop "start 1" "start 25"; do
    before=""
    for live in 100 10000 100000; do
        living "$live" "$first" > "$work/trace"
        printf '%s, %s blocks live: ' "$first" "$live"
        measure 262144
    done
done

before=""
deep > "$work/trace"
printf '256 frames each: '
measure 262143

before=""
for live in 12500 25000 50000; do
    snapshots "$live" > "$work/trace"
    printf '%s traces, 341 snapshots, filters and statistics: ' "$live"
    measure "$(($(wc -l < "$work/trace") - 2))"
done
