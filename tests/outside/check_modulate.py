#!/usr/bin/env python3
"""Runs the program modulate over the stored cases: what it prints, what it writes, how it ends.

    check_modulate.py PROGRAM
"""

import pathlib
import subprocess
import sys
import tempfile

from modulate_cases import BAD
from modulate_model import MOST_PACKETS, modulated, parsed
from super_frame_model import digests, null_packet

FOLDER = pathlib.Path(__file__).with_name("modulate")

def ran(program, arguments, out):
    """Status, what is printed, whether anything was said, and the outcome in OUT, '- - -' for no file."""
    out.unlink(missing_ok=True)
    words = [str(out) if word == "OUT" else word for word in arguments.split()]
    ended = subprocess.run([program, *words], cwd=FOLDER, capture_output=True)
    made = out.read_bytes() if out.exists() else None
    outcome = "- - -" if made is None else f"{digests(made)} {len(made)}"
    return ended.returncode, ended.stdout.decode(errors="replace"), bool(ended.stderr), outcome


def stored():
    """Arguments of each stored case, what is printed, and the outcome in OUT."""
    for line in (FOLDER / "cases.txt").read_text().splitlines():
        name, crc, fnv, length, arguments = line.split(" ", 4)
        yield arguments, (FOLDER / f"{name}.stdout").read_text(), f"{crc} {fnv} {length}"


def long_files(scratch):
    """A case with the most records that a packet file may have, and one with a record more."""
    for records in (MOST_PACKETS, MOST_PACKETS + 1):
        name = scratch / f"{records}.pkt"
        name.write_bytes((b"\0" + null_packet()) * records)
        arguments = f"one.slp {name} 1 OUT"
        made, printed = modulated(parsed(arguments.split(), FOLDER))
        outcome = "- - -" if made is None else f"{digests(made)} {len(made)}"
        yield arguments, "\n".join(printed) + "\n", outcome


def main():
    program, wrong, count = str(pathlib.Path(sys.argv[1]).resolve()), 0, 0
    with tempfile.TemporaryDirectory() as name:
        scratch = pathlib.Path(name)
        cases = [(given, (0, printed, False, made)) for given, printed, made in [*stored(), *long_files(scratch)]]
        cases += [(arguments, (1, "", True, "- - -")) for arguments in BAD]
        for count, (arguments, wanted) in enumerate(cases, 1):
            found = ran(program, arguments, scratch / "out")
            if found != wanted:
                wrong += 1
                print(f"modulate {arguments}\n  did    {found}\n  wanted {wanted}")
    print(f"modulate: {count - wrong} of {count} cases as they must be")
    return 1 if wrong else 0


if __name__ == "__main__":
    sys.exit(main())
