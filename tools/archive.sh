#!/bin/sh
# Proves and builds a library for C.
#
#     archive.sh NAME FOLDER
#
# makes FOLDER/libNAME.a of the crate NAME_c, which exports the calls of the crate NAME.
set -eu
top=$(cd "$(dirname "$0")/.." && pwd)
(cd "$top/crates/$1_c" && rt lib)
cp "$top/crates/$1_c/out/lib$1_c.a" "$2/lib$1.a"
