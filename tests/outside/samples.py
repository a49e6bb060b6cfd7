#!/usr/bin/env python3
"""Writes the sample plan files and TMCC words into the folder named on the command line."""

import pathlib
import random
import sys

from codeword_model import coded
from plan_model import Plan, to_file, to_tmcc

TS_IDS = [0x40F1, 0x40F2] + [0xFFFF] * 6
FOUR_SLOTS = Plan([(7, 2), (2, 2), (15, 0), (15, 0)], [0, 0, 1, 1], TS_IDS)
BAD_ORDER = FOUR_SLOTS._replace(lines=[(2, 2), (7, 2), (15, 0), (15, 0)])
ON_AIR = Plan([(7, 46), (2, 2), (15, 0), (15, 0)], [0] * 24 + [1] * 24, TS_IDS)


def damaged(word, errors):
    """The word with this many bytes wrong, at places spread over it."""
    dice = random.Random(errors)
    found = bytearray(word)
    for place in dice.sample(range(len(word)), errors):
        found[place] ^= dice.randint(1, 255)
    return bytes(found)


def main():
    folder = pathlib.Path(sys.argv[1])
    word = coded(to_tmcc(ON_AIR, 0))
    for name, data in {
        "four_slots.slp": to_file(FOUR_SLOTS),
        "on_air.slp": to_file(ON_AIR),
        "bad_order.slp": to_file(BAD_ORDER),
        "on_air.tmcc": word,
        "six_errors.tmcc": damaged(word, 6),
        "seven_errors.tmcc": damaged(word, 7),
        "short.tmcc": word[:-1],
    }.items():
        (folder / name).write_bytes(data)


if __name__ == "__main__":
    main()
