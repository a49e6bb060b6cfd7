#!/bin/sh
# Times the outer code and whole super-frames beside libfec and prints a table for each;
# see outer_code.c and super_frame.c.
# Needs a C compiler and libfec with its header (Debian: libfec-dev). Run it on an idle machine.
#
#     run.sh [ARCHIVE...]
#
# Where no archive is named, tools/archive.sh makes the library.
set -eu
top=$(cd "$(dirname "$0")/.." && pwd)
scratch=$(mktemp -d)
trap 'rm -rf "$scratch"' EXIT
if [ $# -eq 0 ]; then
    "$top/tools/archive.sh" rondvysti_bench "$scratch"
    set -- "$scratch/librondvysti_bench.a"
fi

for name in outer_code super_frame; do
    ${CC:-cc} -std=c11 -O2 -Wall -Wextra -o "$scratch/$name" "$top/bench/$name.c" "$@" -lfec
    echo "$name"
    "$scratch/$name"
done
