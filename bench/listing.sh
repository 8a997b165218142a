#!/usr/bin/env bash
# How long a listing of versions at the limit of 33,554,432 bytes takes to read, in 1 GiB of memory: some 700,000 snapshots in an
# order in which no two stand as they should, beside sort(1) of the same bytes. Three rounds; prints the best of each.
set -eu
cd "$(dirname "$0")/.."
limit=33554432

# The program without a word prints how it is used, with status 2, and is proved and built first.
(cd crates/bench && rt run >/dev/null 2>&1) || [ $? = 2 ]
program=$PWD/crates/bench/out/bench
listing=$(mktemp)
trap 'rm -f "$listing"' EXIT

awk -v limit=$limit 'BEGIN {
    for (n = 9999999; ; n -= 7) {
        txg = 10000000 + (n * 7919) % 9999991
        line = sprintf("tank@s%07d\t%d\t%d\t%d\t0", n, n, txg, 1600000000 + txg)
        size += length(line) + 1
        if (size > limit) exit
        print line
    }
}' >"$listing"
rows=$(wc -l <"$listing")

read_() { (ulimit -v 1048576 && "$program" listing <"$listing"); }
sort_() { LC_ALL=C sort -t "$(printf '\t')" -k 3n "$listing" >/dev/null; }

answer=$(read_)
if [ "$answer" != "$rows rows" ]; then echo "wanted $rows rows: $answer" >&2 && exit 1; fi

declare -A best
for _ in 1 2 3; do
    for way in read_ sort_; do
        from=$(date +%s%N)
        "$way" >/dev/null
        took=$((($(date +%s%N) - from) / 1000000))
        if [ "${best[$way]:-$took}" -ge "$took" ]; then best[$way]=$took; fi
    done
done

awk -v bytes="$(wc -c <"$listing")" -v rows="$rows" -v read="${best[read_]}" -v sort="${best[sort_]}" 'BEGIN {
    printf "%d bytes, %d rows, in 1 GiB of memory\n", bytes, rows
    printf "read_versions %6d ms  %5.2f times the time of sort(1)\n", read, read / sort
    printf "sort(1)       %6d ms\n", sort
}'
uptime | sed 's/.*load/load/'
