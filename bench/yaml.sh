#!/usr/bin/env bash
# bench/yaml.sh [BYTES]: how long a text of the YAML profile takes to read, of 1,048,576 bytes or of as many as are given: jobs with
# maps in blocks and in brackets, quotes and comments; and one map of as many bytes. Beside them the reader of PyYAML (its loader in
# C, where there is one), if python3 has it. Three rounds; prints the best of each.
set -eu
cd "$(dirname "$0")/.."
limit=${1:-1048576}

# The program without a word prints how it is used, with status 2, and is proved and built first.
(cd crates/bench && rt run >/dev/null 2>&1) || [ $? = 2 ]
program=$PWD/crates/bench/out/bench
text=$(mktemp)
trap 'rm -f "$text"' EXIT

make_jobs() {
    awk -v limit="$limit" 'BEGIN {
        for (n = 0; ; n++) {
            job = sprintf("- name: job_%06d   # one of many\n  type: push\n", n)
            job = job "  connect: {type: local, listener_name: l, client_identity: \"c\"}\n  filesystems: {\n"
            for (k = 0; k < 8; k++) job = job sprintf("    \"tank/home/%06d/%d<\": %s,\n", n, k, k % 2 ? "true" : "false")
            job = job "  }\n  snapshotting:\n    type: periodic\n    prefix: '"'"'zrepl_'"'"'\n    interval: 10m\n"
            job = job "  pruning:\n    keep_sender:\n    - type: last_n\n      count: 10\n    keep_receiver: []\n"
            size += length(job)
            if (size > limit) exit
            printf "%s", job
        }
    }' >"$text"
    wanted="$(grep -c '^- ' "$text") parts"
}
make_map() {
    awk -v limit="$limit" 'BEGIN { for (n = 0; 11 * (n + 1) <= limit; n++) printf "k%06d: 1\n", n }' >"$text"
    wanted="$(wc -l <"$text") parts"
}

read_() { "$program" yaml <"$text"; }
python_() {
    python3 -c 'import sys, yaml
print(len(yaml.load(sys.stdin, Loader=getattr(yaml, "CSafeLoader", yaml.SafeLoader))), "parts")' <"$text"
}
ways=(read_)
if python3 -c 'import yaml' 2>/dev/null; then ways+=(python_); fi

for what in jobs map; do
    "make_$what"
    answer=$(read_)
    if [ "$answer" != "$wanted" ]; then echo "wanted $wanted: $answer" >&2 && exit 1; fi
    declare -A best=()
    for _ in 1 2 3; do
        for way in "${ways[@]}"; do
            from=$(date +%s%N)
            "$way" >/dev/null
            took=$((($(date +%s%N) - from) / 1000000))
            if [ "${best[$way]:-$took}" -ge "$took" ]; then best[$way]=$took; fi
        done
    done
    printf '%-5s %8d bytes %6d lines   read_yaml %5d ms' "$what" "$(wc -c <"$text")" "$(wc -l <"$text")" "${best[read_]}"
    if [ -n "${best[python_]:-}" ]; then printf '   PyYAML %5d ms' "${best[python_]}"; fi
    echo
done
uptime | sed 's/.*load/load/'
