#!/usr/bin/env python3
"""Runs the program tmcc over the stored plan files and holds what it prints to the model.

    check_tmcc.py PROGRAM
"""

import pathlib
import subprocess
import sys

CASES = pathlib.Path(__file__).with_name("tmcc_heads.txt")


def cases():
    """Each plan file in hexadecimal, with what has to be printed for it."""
    for part in ("\n" + CASES.read_text()).split("\nP ")[1:]:
        digits, _, wanted = part.partition("\n")
        yield digits, wanted.removesuffix("\n") + "\n"


def main():
    program, wrong, count = sys.argv[1], 0, 0
    for count, (digits, wanted) in enumerate(cases(), 1):
        data = b"" if digits == "-" else bytes.fromhex(digits)
        printed = subprocess.run([program], input=data, capture_output=True, check=True).stdout
        if printed != wanted.encode():
            wrong += 1
            print(f"case {count} ({digits}): printed\n{printed.decode(errors='replace')}wanted\n{wanted}")
    print(f"tmcc: {count - wrong} of {count} cases as they must be")
    return 1 if wrong else 0


if __name__ == "__main__":
    sys.exit(main())
