#!/usr/bin/env bash
# Times the proved search beside an ordinary one on the same networks: `hosts/search_speed/compare.sh [RUNS]`, 11 alternating runs of
# each by default. It builds both optimised and stops if they print different lines. docs/SPEED.md has figures and what they mean.
set -eu
runs=${1:-11}
cd "$(dirname "$0")/../.."

dir=$(mktemp -d)
trap 'rm -rf "$dir"' EXIT
hosts/make.sh search_speed
for name in ordinary measure; do
    rustc -O -o "$dir/$name" "hosts/search_speed/$name.rs"
done

# a load above 0 before the runs tells that the machine was busy with something else
echo "load before the runs: $(cut -d ' ' -f 1 /proc/loadavg) on $(nproc) processors"
"$dir/measure" "$runs" crates/search_speed/out/search_speed "$dir/ordinary"
echo "buffers cleared inside the timing: by the proved program yes, for each network: both cost tables and the record buffer when it makes"
echo "  them, the working table and the record buffer again at the search's end, as document 01 demands; by the ordinary program none"
