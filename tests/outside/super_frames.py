#!/usr/bin/env python3
"""Super-frames and frame heads of chosen plans, as the model makes them.

    super_frames.py --cases                    PLANHEX ORDER START CRC32 FNV1A FIRST LAST, a line for each super-frame
    super_frames.py --heads                    'P' and a plan file ('-' if empty), then what tmcc prints for it
    super_frames.py --tmcc                     what tmcc prints for the plan file on standard input
    super_frames.py --bytes PLAN ORDER START   all bytes of one super-frame, for a plan file

The active slots count from 0, ordered by frame, then slot; slot j of them carries the pattern feed's
packet of number (START + j) mod 65,536 of its stream. The output is the same in every run.
"""

import argparse
import pathlib
import sys

from plan_model import Plan, Refused, from_file, layout, to_file, to_tmcc
from plans import TS_IDS, expect, files, good_plans, plan_of, spread
from samples import ON_AIR
from super_frame_model import FRAMES, coded, digests, heads, pattern_packet, super_frame

SHOWN = 32  # how many bytes of either end a case shows

# Used lines of WORD and COUNT, the numbers that go round on active slots, order of change, START.
CHOSEN = [
    ([(7, 1)], [0], 0, 0),
    ([(7, 1)], [5], 31, 250),
    ([(7, 2)], [0], 0, 0),
    ([(7, 2)], [3, 6], 1, 4095),
    ([(2, 2)], [0], 16, 0),
    ([(2, 2)], [7], 30, 65530),
    ([(7, 7)], [0, 1, 2, 3, 4, 5, 6], 0, 0),
    ([(7, 3), (2, 4)], [1, 4], 2, 77),
    ([(4, 4), (3, 3)], [2, 2, 0], 7, 0),
    ([(7, 1), (5, 6)], [6], 21, 40000),
    ([(3, 3), (1, 4)], [0, 7], 31, 65500),
    ([(7, 1), (2, 2), (1, 4)], [5, 1, 3], 9, 512),
    ([(7, 48)], [0], 0, 0),
    ([(7, 48)], [0, 1, 2, 3, 4, 5, 6, 7], 5, 65300),
    ([(1, 48)], [7, 0, 3], 10, 1),
    ([(6, 48)], [2], 19, 123),
    ([(5, 48)], [1, 6], 27, 60000),
    ([(7, 31), (6, 8), (5, 6), (3, 3)], [4, 4, 5], 31, 2),
    ([(7, 22), (6, 16), (5, 6), (1, 4)], [0, 3, 1, 2, 7, 6, 5, 4], 31, 32768),
    ([(4, 24), (3, 12), (2, 8), (1, 4)], [7, 6], 12, 9999),
]


def chosen_plans():
    """Plan, order of change and START of each case."""
    yield ON_AIR, 0, 0
    yield ON_AIR, 8, 65400
    for used, numbers, order, start in CHOSEN:
        yield plan_of(*used, streams=spread(used, numbers)), order, start
    # The bits that are carried unread, all ones and mixed.
    yield Plan([(7, 1)] + [(15, 0)] * 3, [2], [0xFFFF] * 8, 31, (1 << 62) - 1), 17, 3
    yield plan_of((7, 3), (4, 4), ts_ids=TS_IDS[::-1], control=21, expanded=0x0123456789ABCDEF), 4, 600


def packets(plan, start):
    """The packets of the active slots by the rule of the cases."""
    streams = [stream for stream, (_, active) in zip(plan.streams, layout(plan.lines)) if active]
    return [pattern_packet(stream, (start + j) % 65536) for j, stream in enumerate(FRAMES * streams)]


def case(plan, order, start):
    """One line of the case file."""
    made = super_frame(plan, order, packets(plan, start))
    ends = f"{made[:SHOWN].hex().upper()} {made[-SHOWN:].hex().upper()}"
    return f"{to_file(plan).hex().upper()} {order} {start} {digests(made)} {ends}"


def tmcc_lines(data):
    """What the program tmcc prints for a plan file."""
    try:
        plan = from_file(data)
    except Refused as refused:
        return f"REFUSED {refused.number}\n"
    tmcc = to_tmcc(plan, 0)
    lines = [f"D {tmcc.hex().upper()}", f"W {coded(tmcc).hex().upper()}"]
    lines += [f"H {frame} {head.hex().upper()}" for frame, head in enumerate(heads(plan, 0), 1)]
    return "\n".join(lines) + "\n"


def head_files():
    """Plan files for tmcc: the one on air, every second good one, and the first that each refusal meets."""
    refused = {}
    for data in files(0):
        answer = expect(from_file, data)
        if answer != "ok":
            refused.setdefault(answer.split()[1], data)
    return [to_file(ON_AIR)] + [to_file(plan) for plan in good_plans()][::2] + list(refused.values())


def main():
    parser = argparse.ArgumentParser(description=__doc__, formatter_class=argparse.RawDescriptionHelpFormatter)
    mode = parser.add_mutually_exclusive_group(required=True)
    mode.add_argument("--cases", action="store_true")
    mode.add_argument("--heads", action="store_true")
    mode.add_argument("--tmcc", action="store_true")
    mode.add_argument("--bytes", nargs=3, metavar=("PLAN", "ORDER", "START"))
    asked = parser.parse_args()
    if asked.cases:
        for chosen in chosen_plans():
            print(case(*chosen))
    elif asked.heads:
        for data in head_files():
            print("P", data.hex().upper() or "-")
            print(tmcc_lines(data), end="")
    elif asked.tmcc:
        print(tmcc_lines(sys.stdin.buffer.read()), end="")
    else:
        plan = from_file(pathlib.Path(asked.bytes[0]).read_bytes())
        order, start = int(asked.bytes[1]), int(asked.bytes[2])
        sys.stdout.buffer.write(super_frame(plan, order, packets(plan, start)))


if __name__ == "__main__":
    main()
