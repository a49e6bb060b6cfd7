#!/usr/bin/env python3
"""Writes the cases of the program modulate into the folder named on the command line.

Plan files and packet files, NAME.stdout with what is printed for case NAME, cases.txt with a line
`NAME CRC32 FNV1A LENGTH ARGUMENT...` for each: digests and length of the file OUT, or '-' where
modulate must not write one; and runs.txt, with a call, what is told of it and the digests of each
super-frame. The output is the same in every run.
"""

import pathlib
import random
import sys

from modulate_model import BadArgument, modulated, parsed
from plan_model import to_file
from plans import FOUR, lines_of, plan_of, spread
from samples import ON_AIR
from super_frame_model import PACKET_BYTES, digests, null_packet

SEED = 20408

# Used lines, and the stream numbers that go round on active slots.
PLANS = {
    "one": ([(7, 1)], [0]),
    "one_other": ([(7, 1)], [5]),
    "two_half": ([(2, 2)], [3]),
    "four_quarter": ([(1, 4)], [6]),
    "seven": ([(7, 7)], [0, 1, 2, 3, 4, 5, 6]),
    "seven_halves": ([(7, 3), (2, 4)], [1, 4]),
    "seven_quarter": ([(3, 3), (1, 4)], [1, 0]),
    "seven_one_stream": ([(7, 1), (5, 6)], [2]),
    "seven_back_to_front": ([(7, 3), (4, 4)], [7, 1, 6, 0, 4, 2]),
}

CASES = {
    "one_slot_runs_dry": "one.slp pattern:20,9,0,0,0,0,0,0 4 OUT",
    "nothing_waits": "two_half.slp empty.pkt 2 OUT",
    "one_in_four": "four_quarter.slp pattern:0,0,0,0,0,0,13,0 2 OUT",
    "streams_run_dry": "seven_halves.slp mixed.pkt 3 OUT",
    "order_of_frames_then_slots": "seven_back_to_front.slp mixed.pkt 2 OUT",
    "null_packets_in_the_file": "one_other.slp nulls.pkt 3 OUT",
    "most_patterns": "seven_one_stream.slp pattern:0,0,65535,0,0,0,0,65535 7 OUT",
    "on_air": "on_air.slp mixed.pkt 1 OUT",
    "on_air_again": "on_air.slp pattern:400,300,0,0,0,0,0,0 2 OUT 2 on_air.slp",
    "no_super_frame": "two_half.slp pattern:0,0,0,7,0,0,0,1 0 OUT 1 two_half.slp",
    "installs": "seven.slp mixed.pkt 6 OUT 2 seven_quarter.slp 3 seven_halves.slp 5 seven_back_to_front.slp",
    "installs_before_the_first": "one.slp pattern:9,0,0,0,0,9,0,0 3 OUT 1 one_other.slp 3 one.slp",
    "installs_at_one_place": "one.slp pattern:9,0,0,0,0,9,0,0 4 OUT"
    " 3 one_other.slp 3 one.slp 3 one_other.slp 4 one.slp",
    "installs_out_of_order": "one.slp pattern:9,0,0,0,0,9,0,0 4 OUT 4 one.slp 2 one_other.slp",
    "installs_refused": "four.slp pattern:150,60,0,0,0,0,0,0 9 OUT"
    " 1 one.slp 2 bad_mark.slp 3 bad_version.slp 4 bad_length.slp 5 bad_order.slp 6 bad_count.slp 7 bad_stream.slp"
    " 8 bad_control.slp 8 four.slp 9 on_air.slp",
    "order_past_31": "one.slp pattern:200,0,0,0,0,77,0,0 40 OUT"
    + "".join(f" {at} {'one' if at % 3 else 'one_other'}.slp" for at in range(2, 41)),
    "order_past_31_of_seven": "seven.slp mixed.pkt 34 OUT"
    + "".join(f" {at} seven{('', '_halves', '_quarter', '_one_stream')[at % 4]}.slp" for at in range(2, 35)),
    "plan_refused_2": "bad_version.slp mixed.pkt 2 OUT",
    "plan_refused_4": "bad_order.slp mixed.pkt 2 OUT",
    "plan_refused_6": "bad_stream.slp mixed.pkt 2 OUT 1 four.slp",
    "packets_refused_17": "one.slp bad_length.pkt 2 OUT",
    "packets_refused_17_first": "one.slp bad_length_and_stream.pkt 2 OUT",
    "packets_refused_18": "one.slp bad_stream.pkt 2 OUT",
    "packets_refused_18_sync": "one.slp bad_sync.pkt 2 OUT",
}

# Arguments that cannot be read, and files that are not there: nothing is printed or written, and the status is 1.
BAD = [
    "",
    "one.slp",
    "one.slp empty.pkt 1",
    "one.slp empty.pkt 1 OUT 1",
    "one.slp empty.pkt 1 OUT 1 one.slp 2",
    "not_there.slp empty.pkt 1 OUT",
    "one.slp not_there.pkt 1 OUT",
    "one.slp empty.pkt 1 OUT 1 not_there.slp",
    "bad_order.slp not_there.pkt 1 OUT",
    "one.slp bad_stream.pkt 1 OUT 1 not_there.slp",
    "one.slp empty.pkt x OUT",
    "one.slp empty.pkt -1 OUT",
    "one.slp empty.pkt 4294967296 OUT",
    "one.slp empty.pkt 1 OUT x one.slp",
    "one.slp empty.pkt 1 OUT 0 one.slp",
    "one.slp pattern:1,2,3,4,5,6,7 1 OUT",
    "one.slp pattern:1,2,3,4,5,6,7,8,9 1 OUT",
    "one.slp pattern:1,2,3,4,5,6,7,65536 1 OUT",
    "one.slp pattern:1,2,3,4,,6,7,8 1 OUT",
    "one.slp pattern: 1 OUT",
]


def plan_files():
    """The plan files by name: good ones, and one for each refusal."""
    four = to_file(FOUR)
    found = {name: to_file(plan_of(*used, streams=spread(used, numbers))) for name, (used, numbers) in PLANS.items()}
    found |= {
        "four": four,
        "on_air": to_file(ON_AIR),
        "bad_mark": b"slp" + four[3:],
        "bad_version": four.replace(b"\x00\x01\x04", b"\x00\x02\x04", 1),
        "bad_length": four + b"\0",
        "bad_order": to_file(FOUR._replace(lines=lines_of((2, 2), (7, 2)))),
        "bad_count": to_file(FOUR._replace(lines=lines_of((7, 1), (2, 3)))),
        "bad_stream": to_file(FOUR._replace(streams=[0, 0, 1, 0])),
        "bad_control": to_file(FOUR._replace(control=32)),
    }
    return {f"{name}.slp": data for name, data in found.items()}


def record(stream, packet):
    """One record of a packet file."""
    return bytes([stream]) + packet


def packet_files():
    """The packet files by name."""
    dice = random.Random(SEED)

    def packet():
        return b"\x47" + dice.randbytes(PACKET_BYTES - 1)

    # Many of streams 1 and 2, few of 3 and 7, in no order.
    streams = [0] * 9 + [1] * 25 + [2] * 17 + [3] * 2 + [4] * 12 + [5] * 8 + [6] * 9 + [7] * 3
    dice.shuffle(streams)
    mixed = b"".join(record(stream, packet()) for stream in streams)
    few = [record(0, packet()) for _ in range(3)]
    twice = packet()
    nulls = [null_packet(), twice, null_packet(), null_packet(), twice, twice] * 2
    return {
        "empty.pkt": b"",
        "mixed.pkt": mixed,
        "nulls.pkt": b"".join(record(5, one) for one in nulls) + few[0],
        "bad_length.pkt": b"".join(few)[:-1],
        "bad_length_and_stream.pkt": record(9, packet()) + b"\0",
        "bad_stream.pkt": b"".join(few) + record(8, packet()),
        "bad_sync.pkt": b"".join(few) + record(1, b"\x46" + packet()[1:]),
    }


def told(made, printed):
    """What is told of a run: the printed lines, each super-frame's with the digests of its bytes."""
    count = sum(line.startswith("F ") for line in printed)
    frames = iter([])
    if count:
        size = len(made) // count
        frames = (made[at : at + size] for at in range(0, len(made), size))
    return [f"{line} {digests(next(frames))}" if line.startswith("F ") else line for line in printed]


def misused(arguments, folder):
    """What is told of arguments that cannot be read."""
    try:
        parsed(arguments.split(), folder)
    except BadArgument:
        return "STATUS 1"
    raise AssertionError(f"these can be read: {arguments}")


def main():
    folder = pathlib.Path(sys.argv[1])
    for name, data in (plan_files() | packet_files()).items():
        (folder / name).write_bytes(data)
    lines, runs = [], []
    for name, arguments in CASES.items():
        made, printed = modulated(parsed(arguments.split(), folder))
        (folder / f"{name}.stdout").write_text("\n".join(printed) + "\n")
        outcome = "- - -" if made is None else f"{digests(made)} {len(made)}"
        lines.append(f"{name} {outcome} {arguments}\n")
        runs.append("\n".join([f"modulate {arguments}", *told(made, printed)]))
    runs += [f"modulate {arguments}".rstrip() + f"\n{misused(arguments, folder)}" for arguments in BAD]
    (folder / "cases.txt").write_text("".join(lines))
    (folder / "runs.txt").write_text("\n\n".join(runs) + "\n")


if __name__ == "__main__":
    main()
