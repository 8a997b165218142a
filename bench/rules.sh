#!/usr/bin/env bash
# bench/rules.sh [ROWS..]: how long `kept` takes over 1,000 to 1,000,000 snapshots, or over so many as are given, in an order in which
# no two stand as they should: a grid of 4 intervals, `last_n` with 100, a regular expression, and all three as one list of rules.
# Beside it sort(1) by creation and transaction group of the same rows, on one processor. For few rows `kept` is called many times
# and the time of a run that only reads them is taken off; sort(1) reads and writes them. Three rounds; prints the best of each, and
# behind the last column how the time grew from the line above, over n log n: 1.00 is the growth of a sort.
set -eu
cd "$(dirname "$0")/.."
if [ $# = 0 ]; then set -- 1000 10000 100000 1000000; fi

# The program without a word prints how it is used, with status 2, and is proved and built first.
(cd crates/bench && rt run >/dev/null 2>&1) || [ $? = 2 ]
program=$PWD/crates/bench/out/bench
rows=$(mktemp)
trap 'rm -f "$rows"' EXIT

# Every third snapshot was made by hand; two and two have one creation.
make_rows() {
    awk -v count="$1" 'BEGIN {
        for (n = 0; n < count; n++) {
            i = (n * 7919) % count
            printf "%s_%07d %d %d\n", i % 3 ? "zrepl" : "manual", i, 1600000000 + 600 * int(i / 2), 1000 + 7 * i
        }
    }' >"$rows"
}

# Microseconds of a run.
run() {
    local from
    from=$(date +%s%N)
    "$@" >/dev/null
    echo $((($(date +%s%N) - from) / 1000))
}
ask() { { echo "$1"; cat "$rows"; } | "$program" rules; }
sorted() { LC_ALL=C sort --parallel=1 -k 2,2n -k 3,3n "$rows"; }

ways=("grid" "last_n" "regex" "grid last_n regex")
printf '%9s %12s %12s %12s %12s %12s %9s %8s\n' rows grid last_n regex "all, ms" "sort(1), ms" "all/sort" growth
before=
for count in "$@"; do
    make_rows "$count"
    newest=$(ask "1 last_n")
    if [ "$newest" != "100 of $count" ]; then echo "wanted 100 of $count: $newest" >&2 && exit 1; fi
    times=$((200000 / count))
    if [ "$times" = 0 ]; then times=1; fi
    declare -A best=()
    least=
    for _ in 1 2 3; do
        took=$(run ask "0 regex")
        if [ "${least:-$took}" -ge "$took" ]; then least=$took; fi
        for way in "${ways[@]}"; do
            took=$(run ask "$times $way")
            if [ "${best[$way]:-$took}" -ge "$took" ]; then best[$way]=$took; fi
        done
        took=$(run sorted)
        if [ "${best[sort]:-$took}" -ge "$took" ]; then best[sort]=$took; fi
    done
    line=$(awk -v count="$count" -v times="$times" -v least="$least" -v grid="${best[grid]}" -v last="${best[last_n]}" \
        -v regex="${best[regex]}" -v all="${best[grid last_n regex]}" -v sort="${best[sort]}" -v before="$before" '
        function ms(took) { return (took - least) / times / 1000 }
        BEGIN {
            printf "%9d %12.3f %12.3f %12.3f %12.3f %12.3f %9.2f", count, ms(grid), ms(last), ms(regex), ms(all), sort / 1000, ms(all) / (sort / 1000)
            each = ms(all) / (count * log(count))
            if (before != "") printf " %8.2f", each / before
            printf "|%.12g", each
        }')
    echo "${line%|*}"
    before=${line#*|}
done
uptime | sed 's/.*load/load/'
