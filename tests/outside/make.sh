#!/bin/sh
# Makes the stored cases and the samples anew: plans, super-frames and runs by the models, code vectors by libfec.
# Needs python3, a C compiler and libfec with its header (Debian: libfec-dev).
set -eu
cd "$(dirname "$0")"
export PYTHONDONTWRITEBYTECODE=1
scratch=$(mktemp -d)
trap 'rm -rf "$scratch"' EXIT

python3 -m doctest plan_model.py super_frame_model.py
python3 plans.py --cases --random 20 > plans.txt
python3 plans.py --tmcc --random 20 > tmcc_data.txt
python3 plans.py --tmcc-read --random 20 > tmcc_read.txt
python3 samples.py ../../samples

python3 super_frames.py --cases > super_frames.txt
python3 super_frames.py --heads > tmcc_heads.txt
cp ../../samples/on_air.slp tmcc.stdin
python3 super_frames.py --tmcc < tmcc.stdin > tmcc.stdout
mkdir -p modulate
python3 modulate_cases.py modulate
cp modulate/*.slp modulate/*.pkt modulate/runs.txt ../../crates/modulate_cases/data

${CC:-cc} -std=c11 -O2 -Wall -Wextra -o "$scratch/rs_vectors" rs_vectors.c -lfec
"$scratch/rs_vectors" codeword.in codeword.out

# A second decoder, of another kind, has to give the same answers.
python3 codeword_model.py < codeword.in | cmp - codeword.out
wc -l plans.txt tmcc_data.txt tmcc_read.txt super_frames.txt tmcc_heads.txt modulate/cases.txt codeword.in
