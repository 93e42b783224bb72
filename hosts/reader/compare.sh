#!/usr/bin/env bash
# Holds the proved reader against an ordinary one, and times both. The exit status is not 0 if they differ.
set -eu
root=$(cd "$(dirname "$0")/../.." && pwd)
cd "$root"
hosts/make.sh trials
(cd crates/reader_host && rt lib > /dev/null)
dir=$(mktemp -d)
trap 'rm -rf "$dir"' EXIT
rustc -O -o "$dir/compare" -L crates/reader_host/out -l static=reader_host hosts/reader/compare.rs
"$dir/compare" crates/trials/out/trials
