#!/bin/sh
# Builds the control programs against the static library, runs them on the samples and compares
# what they print.
#
#     run.sh [ARCHIVE...]
#
# Where no archive is named, tools/archive.sh makes the library.
set -eu
top=$(cd "$(dirname "$0")/../.." && pwd)
scratch=$(mktemp -d)
trap 'rm -rf "$scratch"' EXIT
if [ $# -eq 0 ]; then
    "$top/tools/archive.sh" rondvysti "$scratch"
    set -- "$scratch/librondvysti.a"
fi

for program in control tmcc_control; do
    ${CC:-cc} -std=c11 -O2 -Wall -Wextra -I"$top/include" -o "$scratch/$program" "$top/examples/c/$program.c" "$@"
done

# compare PROGRAM EXPECTED ARGUMENT..: one of the samples at least is refused, so it ends with status 1.
compare() {
    program=$1 expected=$2
    shift 2
    status=0
    "$scratch/$program" "$@" > "$scratch/printed" || status=$?
    diff "examples/c/$expected" "$scratch/printed"
    [ "$status" -eq 1 ] || { echo "$program: status $status instead of 1"; exit 1; }
    echo "$program: as expected"
}

cd "$top"
compare control expected.txt samples/four_slots.slp samples/on_air.slp samples/bad_order.slp
compare tmcc_control tmcc_expected.txt 6 \
    samples/on_air.tmcc samples/six_errors.tmcc samples/seven_errors.tmcc samples/short.tmcc
