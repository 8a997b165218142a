#!/usr/bin/env bash
# What `zrepl once` adds to the time of its children when it replicates one dataset with 5,000 snapshots: one increment to a target
# that has the others, a first replication, and 200 increments. Run it as bench/replicate.sh; it needs `rt`, which builds the program.
# The `zfs` here answers from files alone, so each child is short, and the ratio is at its worst. Compared are the program's time and
# that of the same children run by a shell loop, which reads nothing; both count from the first child on, since the program
# first waits for the next whole second. Five rounds; prints the best of each, and fails where the totals or the children are not
# those of the case.
set -eu
cd "$(dirname "$0")/.."
job=$PWD/examples/quickstart/push_local.toml
snapshots=5000

# The word `once` alone prints how the program is used, with status 2, and builds it first.
./zrepl once >/dev/null || [ $? = 2 ]
program=$PWD/crates/zrepl_main/out/zrepl_main
scratch=$(mktemp -d)
trap 'rm -rf "$scratch"' EXIT

cat >"$scratch/zfs" <<'ZFS'
#!/bin/sh
cd "$POOL"
[ -e begun ] || date +%s%N >begun
echo "$*" >>calls
case "$*" in
*",receive_resume_token") exec cat sets ;;
*" tank/a") exec cat source ;;
*",userrefs b/c/tank/a") exec cat target ;;
"holds "*) exec cat holds ;;
"send "*) echo stream ;;
"receive "*) read -r _ ;;
esac
ZFS
chmod +x "$scratch/zfs"
export PATH=$scratch:$PATH

# Rows of a listing: the snapshots of $1 up to number $2, the last with $3 references.
snaps() {
    awk -v path="$1" -v last="$2" -v refs="$3" 'BEGIN {
        for (n = 1; n <= last; n++) printf "%s@s%04d\t%d\t%d\t%d\t%d\n", path, n, n, n, 1600000000 + 600 * n, n == last ? refs : 0
    }'
}

# A pool whose target has the snapshots up to number $2, with the marks of the last replication, or is not there where that is 0.
make_pool() {
    mkdir "$scratch/$1"
    cd "$scratch/$1"
    printf '%s\t%s\t-\n' b - b/c on b/c/tank on tank - tank/a - >sets
    snaps tank/a "$snapshots" 0 >source
    if [ "$2" != 0 ]; then
        printf 'b/c/tank/a\t-\t-\n' >>sets
        printf 'tank/a#zrepl_CURSOR_G_%016x_J_p\t%d\t%d\t%d\t-\n' "$2" "$2" "$2" $((1600000000 + 600 * $2)) >>source
        snaps b/c/tank/a "$2" 1 >target
        printf 'b/c/tank/a@s%04d\tzrepl_last_received_J_p\tTue Dec  1 07:00 2026\n' "$2" >holds
    fi
    cd "$OLDPWD"
}

# Microseconds from the first child of a command to its end; what it prints is in `said`.
took() {
    local end
    rm -f "$POOL/begun" "$POOL/calls"
    "$@" >"$POOL/said" || { cat "$POOL/said" >&2 && exit 1; }
    end=$(date +%s%N)
    echo $(((end - $(cat "$POOL/begun")) / 1000))
}

# The calls of the program, as they were logged, as lines of a shell; both ends of a pipe log themselves, in either order.
loop_of() {
    awk '/^receive / { ends[++received] = $0; next } { calls[++count] = $0 }
        END { for (n = 1; n <= count; n++) print "zfs " calls[n] (calls[n] ~ /^send / ? " | zfs " ends[++sent] : " >/dev/null") }' "$1"
}

# A case: its name, what the target has, the steps, and the children.
bench() {
    local name=$1 steps=$3 children=$4 ours theirs best alone
    make_pool "$name" "$2"
    export POOL=$scratch/$name
    for _ in 1 2 3 4 5; do
        ours=$(took "$program" once "$job")
        grep -q "^due=2 done=2 .* steps=$steps .* faults=0 garbled=0 nomemory=0$" "$POOL/said" || { cat "$POOL/said" >&2 && exit 1; }
        [ "$(wc -l <"$POOL/calls")" = "$children" ] || { echo "wanted $children children" >&2 && cat "$POOL/calls" >&2 && exit 1; }
        loop_of "$POOL/calls" >"$POOL/loop"
        theirs=$(took sh "$POOL/loop")
        if [ "${best:-$ours}" -ge "$ours" ]; then best=$ours; fi
        if [ "${alone:-$theirs}" -ge "$theirs" ]; then alone=$theirs; fi
    done
    awk -v name="$name" -v children="$children" -v ours="$best" -v theirs="$alone" 'BEGIN {
        printf "%-15s %4d children  zrepl %8.1f ms  ", name, children, ours / 1000
        printf "a shell loop %8.1f ms  %5.2f times its time\n", theirs / 1000, ours / theirs
    }'
}

bench one-increment $((snapshots - 1)) 1 13
bench first 0 1 9
bench 200-increments $((snapshots - 200)) 200 1605
uptime | sed 's/.*load/load/'
