#!/usr/bin/env bash
# How long a ledger takes for 60,000 units of 64 jobs with four out at a time, and for 6,000: each job has parents, and for each
# filesystem a snapshot, a replication and both prunes. `free` has limits that no four reach; `tight` is what the daemon sets for four
# workers, one replication of a job and three of all jobs. `add` only adds. Three rounds; prints the best of each, less the time in
# which the units are made, and fails where `free` takes two seconds or more.
set -eu
cd "$(dirname "$0")/.."

# The program without a word prints how it is used, with status 2, and is proved and built first.
(cd crates/bench && rt run >/dev/null 2>&1) || [ $? = 2 ]
program=$PWD/crates/bench/out/bench

# milliseconds of a run
run() {
    local from
    from=$(date +%s%N)
    echo "$1" | "$program" ledger >/dev/null
    echo $((($(date +%s%N) - from) / 1000000))
}

slow=0
for filesystems in 23 234; do
    lines=("make $filesystems" "$filesystems 4 4 add" "$filesystems 4 4" "$filesystems 1 3")
    declare -A best=()
    for _ in 1 2 3; do
        for line in "${lines[@]}"; do
            took=$(run "$line")
            if [ "${best[$line]:-$took}" -ge "$took" ]; then best[$line]=$took; fi
        done
    done
    made=${best[${lines[0]}]}
    units=$(echo "${lines[2]}" | "$program" ledger)
    printf '%12s: made in %d ms; add %5d ms, free %5d ms, tight %5d ms\n' "$units" "$made" \
        $((best[${lines[1]}] - made)) $((best[${lines[2]}] - made)) $((best[${lines[3]}] - made))
    if [ $((best[${lines[2]}] - made)) -ge 2000 ]; then slow=1; fi
done
uptime | sed 's/.*load/load/'
exit $slow
