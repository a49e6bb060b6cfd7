#!/bin/sh
# Holds the programs to the stored cases.
#
#     run.sh [FOLDER]
#
# Where no folder with the programs is named, `rt run` proves and builds each in the out/ of its crate.
set -eu
here=$(cd "$(dirname "$0")" && pwd)
export PYTHONDONTWRITEBYTECODE=1
folder=${1:-}

# program NAME: where it is.
program() {
    if [ -n "$folder" ]; then
        echo "$folder/$1"
        return
    fi
    crate=$here/../../crates/$1
    rm -f "$crate/out/$1"
    # Run once, with whatever arguments and input, it is built.
    (cd "$crate" && rt run < /dev/null > /dev/null 2>&1) || true
    echo "$crate/out/$1"
}

"$(program codeword)" < "$here/codeword.in" | cmp - "$here/codeword.out"
echo "codeword: all $(wc -l < "$here/codeword.in") answers as they must be"
python3 "$here/check_planlist.py" "$(program planlist)"
python3 "$here/check_tmcc.py" "$(program tmcc)"
python3 "$here/check_modulate.py" "$(program modulate)"
