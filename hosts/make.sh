#!/usr/bin/env bash
# Makes programs, `hosts/make.sh PROGRAM..`: each is proved, built and, since the toolchain builds a program only to run it, run once on an
# empty input. It then stands in crates/PROGRAM/out/PROGRAM.
set -eu
cd "$(dirname "$0")/.."
for program in "$@"; do
    rm -f "crates/$program/out/$program"
    (cd "crates/$program" && rt run < /dev/null > /dev/null 2> /dev/null) || true
    if [ ! -x "crates/$program/out/$program" ]; then
        echo "$program was not made: rt check in crates/$program tells why" >&2
        exit 1
    fi
done
