#!/usr/bin/env python3
"""Plan files and TMCC data, good and broken, each with the answer that the rules give it.

    plans.py --cases          HEX EXPECT: a plan file ('-' if empty), then 'ok' or 'refused NUMBER PLACE'
    plans.py --listings       what planlist prints for each of these files, a line '---' after each
    plans.py --tmcc           HEX ORDER DATAHEX: each good plan file with the TMCC data it gives
    plans.py --tmcc-read      DATAHEX SLOTS EXPECT: TMCC data, then 'ok ORDER' or 'refused NUMBER PLACE'
    --random COUNT            how many random cases follow the chosen ones (default 300)

PLACE is the first line or slot that breaks the rule, 0 for counts with a wrong sum,
and '-' where the refusal has none. The output is the same in every run.
"""

import argparse
import itertools
import random

from plan_model import UNITS, UNUSED, Plan, Refused, from_file, from_tmcc, layout, listing, to_file, to_tmcc

SEED = 20408
TS_IDS = [0x40F1, 0x40F2, 0x40F3, 0x40F4, 0x40F5, 0x40F6, 0x40F7, 0x40F8]
FOUR = Plan([(7, 2), (2, 2), (15, 0), (15, 0)], [0, 0, 1, 1], TS_IDS[:2] + [0xFFFF] * 6)

# Lines as WORDxCOUNT that break a rule in a plan of four slots; some sums are right in a byte or in six bits only.
WRONG_ORDERS = [
    "2x2 7x2 15x0 15x0", "7x2 7x2 15x0 15x0", "15x0 7x4 15x0 15x0", "7x2 15x0 2x2 15x0", "15x0 15x0 15x0 1x4",
    "7x2 2x2 2x2 15x0", "7x2 2x2 15x0 1x4", "7x1 5x6 6x8 4x4", "7x1 5x6 3x3 3x3", "1x4 2x2 3x3 4x4",
    "7x4 15x0 0x0 2x2", "6x8 9x1 7x1 0x0", "7x2 15x0 15x0 7x2",
]
WRONG_FOR_FOUR = [
    "7x4 2x0", "7x0 2x4", "7x2 2x2 1x0", "7x2 2x3 1x5", "7x2 2x254", "7x5", "7x3", "7x255", "7x68", "4x6",
    "7x4 2x64", "7x68 4x64 2x64 1x64", "7x64 4x64 2x64 1x64", "7x100 4x60 3x60 2x40", "",
]
WRONG_FOR_FOUR_IN_TMCC = [
    "7x4 2x63", "7x4 2x62 1x4", "7x63 2x2 1x3", "7x62 2x6", "7x4 2x0", "7x2 2x2 15x63", "15x4", "2x2 7x2",
    "7x2 7x2", "7x2 15x0 2x2", "",
]


def parsed(text):
    """Pairs of word and count out of 'WORDxCOUNT ..'."""
    return [tuple(int(number) for number in line.split("x")) for line in text.split()]


def lines_of(*used):
    """Four lines: the used ones, then unused ones."""
    return list(used) + [(UNUSED, 0)] * (4 - len(used))


def plan_of(*used, slots=None, streams=None, ts_ids=None, **rest):
    """A plan with these used lines; left open, every slot has stream 0 and TS_IDs all differ."""
    slots = sum(count for _, count in used) if slots is None else slots
    return Plan(lines_of(*used), streams or [0] * slots, ts_ids or TS_IDS, **rest)


def spread(lines, numbers):
    """Stream numbers that go round `numbers` on active slots; dummy slots repeat the last."""
    streams, next_number = [], itertools.cycle(numbers)
    for _, is_active in layout(lines):
        streams.append(next(next_number) if is_active else streams[-1])
    return streams


def changed(data, place, *values):
    """The bytes with `values` written from `place` on."""
    return data[:place] + bytes(values) + data[place + len(values) :]


def good_plans():
    """Plans that keep every rule: each mode, the least and most slots, four lines, eight streams."""
    yield FOUR
    yield plan_of((7, 1))
    yield plan_of((7, 48), streams=[slot % 8 for slot in range(48)])
    yield plan_of((7, 46), (2, 2), streams=[0] * 24 + [1] * 24)
    for word, (unit, _) in UNITS.items():
        yield plan_of((word, unit))
        most = plan_of((word, 48 // unit * unit))
        yield most._replace(streams=spread(most.lines, [7, 0, 3]))
    for words in ((7, 6, 5, 4), (4, 3, 2, 1), (7, 5, 3, 1), (6, 4, 2, 1)):
        four = plan_of(*((word, UNITS[word][0] * 2) for word in words))
        yield four._replace(streams=spread(four.lines, list(range(8))))
    four = [(7, 20), (6, 16), (5, 6), (1, 4)]
    yield plan_of(*four, slots=46, streams=spread(four, [5, 2]), control=31, expanded=(1 << 62) - 1)
    # Equal TS_IDs are fine on streams of which at most one is used.
    yield plan_of((7, 3), streams=[2, 2, 2], ts_ids=[9] * 8)
    yield plan_of((7, 3), streams=[2, 4, 2], ts_ids=[9, 9, 1, 9, 2, 9, 9, 9])
    yield plan_of((2, 4), streams=[3, 3, 6, 6], ts_ids=[0, 0, 0, 1, 0, 0, 0, 0])
    for control, expanded in ((1, 0), (31, 1), (0, 1 << 61), (16, 0x0123456789ABCDEF)):
        yield plan_of((3, 3), control=control, expanded=expanded)


def broken_heads():
    """Files refused before their rules are looked at: mark, version, N and length."""
    good = to_file(FOUR)
    yield from (good[:length] for length in range(8))
    yield from (good[:-1], good + b"\0", good[:39], good + bytes(256), good + good, good + bytes(1000))
    for place, value in ((0, 0x73), (1, 0), (2, 0x51), (0, 0)):
        yield changed(good, place, value)
    yield changed(good, 0, *b"slp")
    yield changed(good, 0, *b"PLS", 9, 9, 0)
    yield changed(good[:5], 0, 0)
    for version in ((0, 0), (0, 2), (1, 0), (1, 1), (255, 255)):
        yield changed(good, 3, *version)
    yield from (changed(good, 3, 0, 2, 0), changed(good[:6], 4, 2), changed(good, 3, 2, 1, 4, 9)[:-1])
    for slots in (0, 3, 5, 48, 49, 128, 255):
        yield changed(good, 5, slots)
    for slots in (0, 49, 50, 217, 255):
        yield to_file(FOUR._replace(streams=[0] * slots))
    yield changed(good[:6], 5, 0)
    yield changed(good[:-1], 6, 2, 2, 7, 2)


def broken_words():
    """Files whose mode words break their rule, some with later faults beside it."""
    good = to_file(FOUR)
    for word in (0, 8, 9, 10, 11, 12, 13, 14, 23, 255):
        yield changed(good, 6, word)
    yield from (changed(good, 6 + 2 * line, word) for line in (1, 2, 3) for word in (0, 8, 16))
    for text in WRONG_ORDERS:
        yield to_file(FOUR._replace(lines=parsed(text)))
    yield to_file(Plan([(7, 0), (4, 6), (4, 99), (15, 7)], [9] * 4, [1] * 8, 255, 1 << 63))
    yield to_file(Plan([(15, 4), (7, 4), (15, 0), (15, 0)], [0] * 4, TS_IDS))


def broken_counts():
    """Files whose slot counts break their rule: units, zeros, sums that wrap in a byte or in six bits."""
    for word, (unit, _) in UNITS.items():
        yield from (to_file(plan_of((word, count))) for count in (unit - 1, unit + 1) if count % unit != 0)
        yield to_file(plan_of((word, 0), slots=unit))
    for text in WRONG_FOR_FOUR:
        yield to_file(plan_of(*parsed(text), slots=4))
    yield to_file(plan_of((7, 255), (3, 49), slots=48))
    yield to_file(plan_of((7, 250), (2, 54), slots=48))
    for line in (2, 3, 4):
        for count in (1, 255):
            yield changed(to_file(plan_of((7, 4))), 5 + 2 * line, count)
    yield to_file(Plan([(7, 3), (15, 1), (15, 0), (15, 0)], [0] * 4, TS_IDS))
    yield to_file(Plan([(7, 3), (2, 2), (15, 0), (15, 9)], [8] * 4, [1] * 8, 32))
    yield to_file(plan_of((7, 2), slots=4, streams=[8, 8, 8, 8], control=40))


def broken_streams():
    """Files whose stream numbers or TS_IDs break their rule, and the slot that is charged."""
    good = to_file(FOUR)
    yield from (changed(good, 13 + slot, stream) for slot in (1, 2, 3, 4) for stream in (8, 255))
    yield from (changed(good, 17, 0), changed(good, 17, 2), changed(good, 16, 9, 9), changed(good, 16, 2))
    long = to_file(plan_of((7, 46), (2, 2), streams=[1] * 48))
    yield from (changed(long, 13 + slot, 0) for slot in (48, 47))
    yield from (changed(long, 13 + slot, 8) for slot in (1, 46, 48))
    one_in_four = plan_of((1, 8), streams=[3] * 4 + [5] * 4)
    for slot, stream in ((2, 5), (3, 0), (4, 5), (6, 3), (8, 3), (4, 11), (1, 5), (5, 3)):
        yield changed(to_file(one_in_four), 13 + slot, stream)
    two_units = plan_of((3, 6), streams=[1, 2, 2, 4, 1, 1])
    for slot, stream in ((3, 1), (6, 4), (2, 1), (6, 2)):
        yield changed(to_file(two_units), 13 + slot, stream)
    for pair in ((0, 1), (0, 7), (6, 7)):
        shared = [0x1111 if stream in pair else ts_id for stream, ts_id in enumerate(TS_IDS)]
        yield to_file(plan_of((7, 8), streams=list(range(8)), ts_ids=shared))
        yield to_file(plan_of((7, 8), streams=list(range(7, -1, -1)), ts_ids=shared))
        yield to_file(plan_of((2, 8), streams=spread([(2, 8)], pair), ts_ids=shared))
    twice = [1, 2, 1, 2, 5, 6, 7, 8]
    yield to_file(plan_of((7, 5), streams=[0, 1, 3, 2, 8], ts_ids=twice))
    yield to_file(plan_of((7, 5), streams=[0, 1, 8, 2, 3], ts_ids=twice))
    # A dummy slot with another stream of the same TS_ID, and one before a shared TS_ID.
    yield to_file(plan_of((2, 4), streams=[0, 2, 1, 1], ts_ids=twice))
    yield to_file(plan_of((2, 4), streams=[0, 1, 2, 2], ts_ids=twice))
    yield to_file(plan_of((7, 4), streams=[4, 4, 5, 4], ts_ids=[0] * 8, control=32))
    yield changed(good, 17, 7, *bytes(16), 255)


def broken_tails():
    """Files that break nothing but the limits of the control and expanded bits."""
    good = to_file(FOUR)
    yield from (changed(good, 34, control) for control in (32, 33, 64, 128, 255))
    yield from (changed(good, 35, high) for high in (0x40, 0x80, 0xC0, 0x7F))
    yield from (changed(good, 34, 31, *[255] * 8), changed(good, 34, 32, 0x40), changed(good, 42, 255))


def random_plan(dice):
    """A plan that keeps every rule."""
    while True:
        words = sorted(dice.sample(range(1, 8), dice.randint(1, 4)), reverse=True)
        used = [(word, UNITS[word][0] * dice.randint(1, 12)) for word in words]
        if sum(count for _, count in used) <= 48:
            numbers = [dice.randrange(8) for _ in range(dice.randint(1, 12))]
            ts_ids = dice.sample(range(1 << 16), 8)
            tail = {"control": dice.randrange(1 << 5), "expanded": dice.randrange(1 << 62)}
            return plan_of(*used, streams=spread(used, numbers), ts_ids=ts_ids, **tail)


def random_file(dice):
    """A good plan file, with up to three bytes changed at telling places and at times another length."""
    data = to_file(random_plan(dice))
    size = len(data)
    head, lines, streams, tail = range(6), range(6, 14), range(14, size - 25), range(size - 9, size - 7)
    for _ in range(dice.choice((0, 1, 1, 2, 3))):
        place = dice.choice(dice.choice((range(size), head, lines, lines, streams, streams, tail)))
        data = changed(data, place, dice.choice((0, 1, 2, 4, 7, 8, 15, data[place] ^ 1, dice.randrange(256))))
    return dice.choice((data,) * 18 + (data[:-1], data + b"\0"))


def files(count):
    """The chosen files, each once, then `count` random ones."""
    dice = random.Random(SEED)
    chosen = [to_file(plan) for plan in good_plans()]
    for group in (broken_heads, broken_words, broken_counts, broken_streams, broken_tails):
        chosen += group()
    return list(dict.fromkeys(chosen)) + [random_file(dice) for _ in range(count)]


def good_files(count):
    """Those of the files that are accepted."""
    return [data for data in files(count) if expect(from_file, data) == "ok"]


def tmcc_cases(count):
    """TMCC data with a number of slots: right, of another N, with changed fields, with bits flipped."""
    dice = random.Random(SEED + 1)
    for order, data in enumerate(good_files(count)):
        plan = from_file(data)
        slots = len(plan.streams)
        sent = to_tmcc(plan, order % 32)
        for other in sorted({slots, max(1, slots - 1), min(48, slots + 1)}):
            yield sent, other
        for slot in sorted({min(48, slots + 1), dice.randint(slots, 48), 48} - {slots}):
            padded = plan.streams + [0] * (slot - 1 - slots) + [dice.randint(1, 7)]
            yield to_tmcc(plan._replace(streams=padded), order % 32), slots
        for width, first in ((10, 5), (144, 45), (384, 0)):
            flipped = int.from_bytes(sent, "big") ^ 1 << 383 - first - dice.randrange(width)
            yield flipped.to_bytes(48, "big"), slots
    for word in (0, 8, 9, 10, 11, 12, 13, 14):
        yield to_tmcc(FOUR._replace(lines=[(7, 2), (word, 2), (15, 0), (15, 0)]), word), 4
    for text in WRONG_FOR_FOUR_IN_TMCC:
        yield to_tmcc(FOUR._replace(lines=lines_of(*parsed(text))), 17), 4
    yield to_tmcc(plan_of((7, 2), (2, 2), streams=[0, 0, 1, 2, 5]), 3), 4
    for streams in ([0, 1, 2], [2, 1, 0, 7], [0, 2, 1]):
        yield to_tmcc(plan_of((7, 3), streams=streams, ts_ids=[5, 6, 5, 7, 8, 9, 10, 11]), 30), 3
    for _ in range(20):
        yield dice.randbytes(48), dice.randint(1, 48)
    yield from ((bytes(48), 1), (b"\xff" * 48, 48))


def expect(read, *given):
    """The answer in the words of the case files."""
    try:
        found = read(*given)
    except Refused as refused:
        return f"refused {refused.number} {refused.place}"
    return "ok" if isinstance(found, Plan) else f"ok {found[0]}"


def main():
    parser = argparse.ArgumentParser(description=__doc__, formatter_class=argparse.RawDescriptionHelpFormatter)
    mode = parser.add_mutually_exclusive_group(required=True)
    for name in ("--cases", "--listings", "--tmcc", "--tmcc-read"):
        mode.add_argument(name, action="store_true")
    parser.add_argument("--random", type=int, default=300)
    asked = parser.parse_args()
    if asked.cases:
        for data in files(asked.random):
            print(data.hex() or "-", expect(from_file, data))
    elif asked.listings:
        for data in files(asked.random):
            print(listing(data), end="---\n")
    elif asked.tmcc:
        for order, data in enumerate(good_files(asked.random)):
            print(data.hex(), order % 32, to_tmcc(from_file(data), order % 32).hex())
    else:
        for data, slots in tmcc_cases(asked.random):
            print(data.hex(), slots, expect(from_tmcc, data, slots))


if __name__ == "__main__":
    main()
