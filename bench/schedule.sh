#!/usr/bin/env bash
# How long `next_cron` takes: 2,000 calls of each row, a minute apart. Five rounds of all rows; prints the best of each, less the time
# of a run of no calls, and fails where a call takes a millisecond or more.
set -eu
cd "$(dirname "$0")/.."
calls=2000

# The program without a word prints how it is used, with status 2, and is proved and built first.
(cd crates/bench && rt run >/dev/null 2>&1) || [ $? = 2 ]
program=$PWD/crates/bench/out/bench

# ends of 1970, of 2026 and of 2983
rows=(
    "31500000000 0 0 29 2 *"
    "1796083200000 0 0 29 2 *"
    "31988000000000 0 0 29 2 *"
    "0 0 0 30 2 *"
    "0 0 0 31 2,4,6,9,11 *"
    "1796083200000 0 0 30 2 *"
    "1796083200000 * * * * *"
    "1796083200000 0 0 29 2 1"
)

# nanoseconds of a run
run() {
    local from
    from=$(date +%s%N)
    echo "$1" | "$program" schedule >/dev/null
    echo $(($(date +%s%N) - from))
}

least=
declare -A best
for _ in 1 2 3 4 5; do
    took=$(run "0 0 * * * * *")
    if [ "${least:-$took}" -ge "$took" ]; then least=$took; fi
    for row in "${rows[@]}"; do
        took=$(run "$calls $row")
        if [ "${best[$row]:-$took}" -ge "$took" ]; then best[$row]=$took; fi
    done
done

slow=0
for row in "${rows[@]}"; do
    each=$(((best[$row] - least) / calls))
    answer=$(echo "1 $row" | "$program" schedule)
    printf '%8d ns a call  %-34s %s\n' "$each" "$row" "${answer% *}"
    if [ "$each" -ge 1000000 ]; then slow=1; fi
done
uptime | sed 's/.*load/load/'
exit $slow
