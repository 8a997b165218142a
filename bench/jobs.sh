#!/usr/bin/env bash
# bench/jobs.sh: how long the largest job file takes to read: 64 jobs, each with 256 patterns of filesystems and 64 rules, half of
# which have a regular expression. Beside it the reader of TOML alone, and that of python3 (tomllib), if it is there. Three rounds;
# prints the best of each, and ends with status 1 where the jobs take a second.
set -eu
cd "$(dirname "$0")/.."

# The program without a word prints how it is used, with status 2, and is proved and built first.
(cd crates/bench && rt run >/dev/null 2>&1) || [ $? = 2 ]
program=$PWD/crates/bench/out/bench
file=$(mktemp)
trap 'rm -f "$file"' EXIT

awk 'BEGIN {
    for (job = 0; job < 64; job++) {
        printf "[[jobs]]\nname = \"job_%02d\"\ntype = \"snap\"\n", job
        print "[jobs.snapshotting]\ntype = \"manual\"\n[jobs.filesystems]"
        for (k = 0; k < 256; k++) printf "\"t/%d/%d%s\" = %s\n", job, k, k % 2 ? "<" : "", k % 3 ? "true" : "false"
        print "[jobs.pruning]\nkeep = ["
        for (k = 0; k < 64; k++) {
            if (k % 2) printf "  { type = \"regex\", regex = \"^manual_%d_[0-9]*$\" },\n", k
            else printf "  { type = \"grid\", grid = \"1x1h(keep=all) | 24x1h | %dx1d\" },\n", k + 1
        }
        print "]"
    }
}' >"$file"

jobs() { "$program" jobs <"$file"; }
toml() { "$program" toml <"$file"; }
python() {
    python3 -c 'import sys, tomllib
print(len(tomllib.load(sys.stdin.buffer)), "keys")' <"$file"
}
ways=(jobs toml)
if python3 -c 'import tomllib' 2>/dev/null; then ways+=(python); fi

answer=$(jobs)
if [ "$answer" != "64 jobs" ]; then echo "wanted 64 jobs: $answer" >&2 && exit 1; fi
declare -A best=()
for _ in 1 2 3; do
    for way in "${ways[@]}"; do
        from=$(date +%s%N)
        "$way" >/dev/null
        took=$((($(date +%s%N) - from) / 1000000))
        if [ "${best[$way]:-$took}" -ge "$took" ]; then best[$way]=$took; fi
    done
done
printf '%d bytes' "$(wc -c <"$file")"
for way in "${ways[@]}"; do printf '   %s %d ms' "$way" "${best[$way]}"; done
echo
uptime | sed 's/.*load/load/'
[ "${best[jobs]}" -lt 1000 ]
