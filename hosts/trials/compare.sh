#!/usr/bin/env bash
# Holds the proved program `trials` against the model in Python: both answer freshly made frames, every line of a call and every
# run of a buffer alike, and then the inputs that end in a bad frame. The exit status is 1 if one line differed.
#
#   hosts/trials/compare.sh [SEED…]      frames of these seeds (2 3 4); the stored trials are those of seed 1
#
# TRIALS is the command that answers frames; by default crates/trials/out/trials, which `hosts/make.sh trials` makes.
set -eu
root=$(cd "$(dirname "$0")/../.." && pwd)
trials=${TRIALS:-$root/crates/trials/out/trials}
dir=$(mktemp -d)
trap 'rm -rf "$dir"' EXIT
status=0
model() { python3 "$root/hosts/trials/model.py"; }
make() { python3 "$root/hosts/trials/make.py" "$@"; }

model_says() { model < "$1" > "$dir/model"; $trials < "$1" > "$dir/trials"; cmp -s "$dir/model" "$dir/trials"; }

[ $# -gt 0 ] || set -- 2 3 4
for seed in "$@"; do
    make "$seed" > "$dir/frames"
    if model_says "$dir/frames"; then
        echo "seed $seed: $(wc -l < "$dir/model") lines, no difference"
    else
        echo "seed $seed: different lines"
        diff "$dir/model" "$dir/trials" | head -6
        status=1
    fi
done

make bad "$dir/bad"
differing=0
for frames in "$dir"/bad/*; do
    model_says "$frames" || { echo "bad frames ${frames##*/}: different lines"; differing=$((differing + 1)); status=1; }
done
echo "$(find "$dir/bad" -type f | wc -l) inputs that end in a bad frame, $differing different"
exit $status
