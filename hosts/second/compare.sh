#!/usr/bin/env bash
# Holds the proved code against the second solver: both answer the stored trials and freshly generated networks, and each reading, each
# verdict and plan, and each price with where it breaks is compared, frame by frame. The exit status is 1 if one differed.
#
#   hosts/second/compare.sh [SEED [COUNT]]     COUNT generated networks (5,000) from the seeds SEED (1), SEED + 1, …
#
# TRIALS is the command that answers frames; by default crates/trials/out/trials, which `hosts/make.sh trials` makes.
set -eu
export LC_ALL=C
root=$(cd "$(dirname "$0")/../.." && pwd)
seed=${1:-1}
count=${2:-5000}
trials=${TRIALS:-$root/crates/trials/out/trials}
stored=$root/crates/trials/stdin

if ! command -v "${trials%% *}" >/dev/null; then
    echo "no program ${trials%% *}: make it with 'hosts/make.sh trials', or name another in TRIALS"
    exit 2
fi

dir=$(mktemp -d)
trap 'rm -rf "$dir"' EXIT
rustc -O -o "$dir/second" "$root/hosts/second/second.rs"
status=0

# compare NAME COMMAND…: on the frames that the command writes. It runs once for each side, so that nothing large is kept.
compare() {
    local name=$1
    shift
    # TRIALS may be several words
    # shellcheck disable=SC2086
    paste -d '\t' <("$@" | $trials) <("$@" | "$dir/second" frames) | awk -F '\t' -v name="$name" -v differing="$dir/differing" '
        BEGIN { printf "" > differing }
        {
            said = $1
            # a search and a price say `unread` of a text that is refused
            sub(/^unread /, "refused ", said)
            # what the second solver does not know: the nodes, and the buffers after a search or a refused read
            sub(/ nodes .*/, "", said)
            if (said ~ /^refused [0-9]+ at [0-9]+ table/) sub(/ table.*/, "", said)
        }
        # a side that ended early has no line
        said == "" || $2 == ""               { differ(); next }
        $2 == "-" || said == "bad frame"     { silent++; next }
        said ~ /^refused 1[12] at 0 work/    { stopped++; next }
        said == $2                           { agreed++; next }
                                             { differ() }
        function differ() {
            if (++differed <= 3) printf "%d\t%.300s\t%.300s\n", NR, said == "" ? "no line" : said, $2 == "" ? "no line" : $2 > differing
        }
        END {
            printf "%s: %d frames, %d agreed, %d differed; no verdict: %d searches refused 11 or 12, ", name, NR, agreed, differed, stopped
            printf "%d of other calls, lent numbers or too many plans\n", silent
            exit differed > 0 || NR == 0
        }' || status=1
    while IFS=$'\t' read -r number said known; do
        printf -- '-- frame %s\n-- trials: %s\n-- second: %s\n' "$number" "$said" "$known"
        "$@" 2>"$dir/ended" | "$dir/second" frame "$number" | head -c 1000 | cat -v
    done <"$dir/differing"
}

if [ -f "$stored" ]; then
    compare "stored trials" cat "$stored"
else
    echo "stored trials: none at crates/trials/stdin"
fi
compare "generated from seed $seed" "$dir/second" make "$seed" "$count"
exit $status
