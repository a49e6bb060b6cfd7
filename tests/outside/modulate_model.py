#!/usr/bin/env python3
"""Makes super-frames out of plan and packets a second way, with the arguments of the program modulate.

    modulate_model.py PLAN PACKETS COUNT OUT [AT PLAN2]...

PACKETS is a packet file, or `pattern:` and eight counts with commas. What it prints and writes is
what modulate has to print and write; --progress it does not know. All of it is held in memory.
"""

import pathlib
import sys
from typing import NamedTuple

from plan_model import Refused, from_file, layout
from super_frame_model import FRAMES, PACKET_BYTES, null_packet, pattern_packet, super_frame

STREAMS = 8
RECORD_BYTES = 1 + PACKET_BYTES
MOST_PACKETS = 65535
MOST_NUMBER = 2**32 - 1  # of super-frames
PATTERN = "pattern:"
USAGE = "modulate PLAN PACKETS COUNT OUT [AT PLAN2]..."


class BadArgument(Exception):
    """An argument that cannot be read, in words."""


class Orders(NamedTuple):
    """What the arguments ask for: a plan file, lists of packets or a packet file, and installs in their order."""

    plan: bytes
    packets: object
    count: int
    out: str
    installs: list  # pairs of a super-frame's number and a plan file


def stored_lists(data):
    """The eight lists of a packet file, or Refused."""
    records = [data[i : i + RECORD_BYTES] for i in range(0, len(data), RECORD_BYTES)]
    if len(data) % RECORD_BYTES or len(records) > MOST_PACKETS:
        raise Refused(17)
    if any(record[0] >= STREAMS or record[1] != 0x47 for record in records):
        raise Refused(18)
    return [[record[1:] for record in records if record[0] == stream] for stream in range(STREAMS)]


def pattern_lists(counts):
    """The eight lists of the pattern feed with these counts."""
    return [[pattern_packet(stream, n) for n in range(count)] for stream, count in enumerate(counts)]


def carried(plan, lists):
    """The packets of the active slots, ordered by frame, then slot, and how many of them each stream placed."""
    places = [stream for stream, (_, active) in zip(plan.streams, layout(plan.lines)) if active] * FRAMES
    taken = [0] * STREAMS
    packets = []
    for stream in places:
        waits = taken[stream] < len(lists[stream])
        packets.append(lists[stream][taken[stream]] if waits else null_packet())
        taken[stream] += waits
    return packets, taken


def installed(plan, order, data):
    """Plan and order of change after the plan of this file is installed, or Refused."""
    found = from_file(data)
    if len(found.streams) != len(plan.streams):
        raise Refused(10)
    return found, (order + 1) % 32


def run(plan, lists, count, installs):
    """The bytes of `count` super-frames, and the lines printed for them."""
    order, made, lines = 0, [], []
    placed = [0] * STREAMS
    for number in range(1, count + 1):
        for data in [data for at, data in installs if at == number]:
            try:
                plan, order = installed(plan, order, data)
                lines.append(f"I {number} {order}")
            except Refused as refused:
                lines.append(f"I {number} REFUSED {refused.number}")
        packets, taken = carried(plan, lists)
        made.append(super_frame(plan, order, packets))
        lines.append(f"F {number} {order} {sum(taken)} {len(packets) - sum(taken)}")
        lists = [waiting[n:] for waiting, n in zip(lists, taken)]
        placed = [a + b for a, b in zip(placed, taken)]
    lines += [f"T {stream} {placed[stream]} {len(lists[stream])}" for stream in range(STREAMS)]
    return b"".join(made), lines


def modulated(orders):
    """What is written, None for nothing, and the lines that are printed."""
    try:
        plan = from_file(orders.plan)
    except Refused as refused:
        return None, [f"PLAN REFUSED {refused.number}"]
    try:
        lists = stored_lists(orders.packets) if isinstance(orders.packets, bytes) else orders.packets
    except Refused as refused:
        return None, [f"PACKETS REFUSED {refused.number}"]
    return run(plan, lists, orders.count, orders.installs)


def number(text, least, most):
    """The number written in decimal digits."""
    if not (text.isascii() and text.isdigit() and least <= int(text) <= most):
        raise BadArgument(f"no number from {least} to {most}: {text}")
    return int(text)


def parsed(words, folder):
    """The orders in the arguments, with files looked up from this folder."""
    if len(words) < 4 or len(words) % 2:
        raise BadArgument("wrong number of arguments")

    def read(name):
        try:
            return (folder / name).read_bytes()
        except OSError as error:
            raise BadArgument(f"{name}: {error.strerror}") from error

    plan, packets, count, out, *pairs = words
    if packets.startswith(PATTERN):
        counts = [number(part, 0, MOST_PACKETS) for part in packets.removeprefix(PATTERN).split(",")]
        if len(counts) != STREAMS:
            raise BadArgument(f"not eight counts: {packets}")
        packets = pattern_lists(counts)
    else:
        packets = read(packets)
    installs = [(number(at, 1, MOST_NUMBER), read(name)) for at, name in zip(pairs[::2], pairs[1::2])]
    return Orders(read(plan), packets, number(count, 0, MOST_NUMBER), out, installs)


def main():
    try:
        orders = parsed(sys.argv[1:], pathlib.Path())
    except BadArgument as wrong:
        print(f"modulate_model: {wrong}\nusage: {USAGE}", file=sys.stderr)
        return 1
    made, lines = modulated(orders)
    if made is not None:
        pathlib.Path(orders.out).write_bytes(made)
    print("\n".join(lines))
    return 0


if __name__ == "__main__":
    sys.exit(main())
