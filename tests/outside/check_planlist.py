#!/usr/bin/env python3
"""Runs the program planlist over the stored plan files and holds what it prints to the rules.

    check_planlist.py PROGRAM
"""

import pathlib
import subprocess
import sys

from plan_model import listing

CASES = pathlib.Path(__file__).with_name("plans.txt")


def main():
    program, wrong, cases = sys.argv[1], 0, CASES.read_text().splitlines()
    for number, case in enumerate(cases, 1):
        digits = case.split()[0]
        data = b"" if digits == "-" else bytes.fromhex(digits)
        printed = subprocess.run([program], input=data, capture_output=True, check=True).stdout
        if printed != listing(data).encode():
            wrong += 1
            print(f"case {number} ({case}): printed\n{printed.decode(errors='replace')}wanted\n{listing(data)}")
    print(f"planlist: {len(cases) - wrong} of {len(cases)} cases as they must be")
    return 1 if wrong else 0


if __name__ == "__main__":
    sys.exit(main())
