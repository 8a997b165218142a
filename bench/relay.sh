#!/usr/bin/env bash
# How fast `relay` moves 4 GiB: from memory to a sink that discards, and from a pipe to /dev/null, beside cat and dd on the same pipe.
# The first never enters the kernel, so compare the second with cat. Five rounds, each of all four in turn; prints the best of each.
set -eu
cd "$(dirname "$0")/.."
bytes=$((4 * 1024 * 1024 * 1024))

# The program without a word prints how it is used, with status 2, and is proved and built first.
(cd crates/bench && rt run >/dev/null 2>&1) || [ $? = 2 ]
program=$PWD/crates/bench/out/bench

zeros() { dd if=/dev/zero bs=64K count=65536 status=none; }
memory() { echo "$bytes" | "$program" relay >/dev/null; }
relay() { zeros | "$program" pipe 2>/dev/null >/dev/null; }
cat_() { zeros | cat >/dev/null; }
dd_() { zeros | dd of=/dev/null bs=64K iflag=fullblock status=none; }

answer=$(echo "$bytes" | "$program" relay)
case $answer in
"whole $bytes,"*) ;;
*) echo "relay: $answer" >&2 && exit 1 ;;
esac

declare -A best
for _ in 1 2 3 4 5; do
    for way in memory relay cat_ dd_; do
        from=$(date +%s%N)
        "$way"
        took=$((($(date +%s%N) - from) / 1000000))
        if [ "${best[$way]:-$took}" -ge "$took" ]; then best[$way]=$took; fi
    done
done

awk -v bytes="$bytes" -v memory="${best[memory]}" -v relay="${best[relay]}" -v cat="${best[cat_]}" -v dd="${best[dd_]}" 'BEGIN {
    printf "relay in memory %6d ms  %6.2f GB/s  %5.2f times the rate of dd | cat\n", memory, bytes / memory / 1e6, cat / memory
    printf "dd | relay      %6d ms  %6.2f GB/s  %5.2f times the rate of dd | cat\n", relay, bytes / relay / 1e6, cat / relay
    printf "dd | cat        %6d ms  %6.2f GB/s\n", cat, bytes / cat / 1e6
    printf "dd | dd         %6d ms  %6.2f GB/s\n", dd, bytes / dd / 1e6
}'
uptime | sed 's/.*load/load/'
