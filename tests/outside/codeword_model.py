#!/usr/bin/env python3
"""Answers the requests of the program codeword a second way, by linear algebra over the field.

    codeword_model.py < REQUESTS > ANSWERS

Peterson's decoder: the number of errors is the size of the largest nonsingular matrix of
syndromes, one system of equations gives the locator, a second one the error values. It shares
nothing with libfec, whose decoder is Berlekamp's and Forney's; the two must agree on every line.
"""

import re
import sys

CHECK_BYTES = 16
MOST_ERRORS = CHECK_BYTES // 2
LENGTHS = {"slot": 204, "tmcc": 64}
REFUSALS = {"slot": 16, "tmcc": 14}
SYNC = 0x47

HEX = "((?:[0-9A-Fa-f]{2})*)"
CODE = re.compile(f"E (slot|tmcc) {HEX}")
CORRECT = re.compile(f"C (slot|tmcc) ([0-9]+) {HEX}")


def powers_of_two():
    """The 255 powers of 02h; the field's polynomial has the powers 8, 4, 3, 2 and 0."""
    powers = [1]
    while len(powers) < 255:
        doubled = powers[-1] << 1
        powers.append(doubled ^ 0x11D if doubled > 255 else doubled)
    return powers


POWERS = powers_of_two()
LOGS = {power: exponent for exponent, power in enumerate(POWERS)}


def times(a, b):
    return POWERS[(LOGS[a] + LOGS[b]) % 255] if a and b else 0


def over(a, b):
    return POWERS[(LOGS[a] - LOGS[b]) % 255] if a else 0


def value(coefficients, at):
    """The polynomial with these coefficients, highest first."""
    found = 0
    for coefficient in coefficients:
        found = times(found, at) ^ coefficient
    return found


def syndromes(word):
    return [value(word, power) for power in POWERS[:CHECK_BYTES]]


def solve(rows):
    """The solution of a square system, each row with its right side last; None if it is singular."""
    rows = [row[:] for row in rows]
    for column in range(len(rows)):
        pivot = next((i for i in range(column, len(rows)) if rows[i][column]), None)
        if pivot is None:
            return None
        rows[column], rows[pivot] = rows[pivot], rows[column]
        rows[column] = [over(entry, rows[column][column]) for entry in rows[column]]
        for i, row in enumerate(rows):
            if i != column and row[column]:
                rows[i] = [entry ^ times(row[column], unit) for entry, unit in zip(row, rows[column])]
    return [row[-1] for row in rows]


def coded(data):
    """Data and check bytes: the sixteen values that make all syndromes zero."""
    wanted = syndromes(data + bytes(CHECK_BYTES))
    rows = [[POWERS[j * i % 255] for i in reversed(range(CHECK_BYTES))] + [wanted[j]] for j in range(CHECK_BYTES)]
    return data + bytes(solve(rows))


def error_places(syndrome, length):
    """Where the word must be wrong if it has at most eight errors; None if no places fit."""
    for errors in range(MOST_ERRORS, 0, -1):
        locator = solve([syndrome[i : i + errors] + [syndrome[i + errors]] for i in range(errors)])
        if locator is not None:
            polynomial = [1] + locator[::-1]
            places = [i for i in range(length) if value(polynomial, POWERS[length - 1 - i]) == 0]
            return places if len(places) == errors else None
    return []


def nearest(word):
    """The codeword that differs from the word in at most eight bytes, or None."""
    syndrome = syndromes(word)
    places = error_places(syndrome, len(word))
    if places is None:
        return None
    bases = [len(word) - 1 - place for place in places]
    errors = solve([[POWERS[base * j % 255] for base in bases] + [syndrome[j]] for j in range(len(bases))])
    found = bytearray(word)
    for place, error in zip(places, errors):
        found[place] ^= error
    return None if any(syndromes(found)) else bytes(found)


def corrected(kind, bound, word):
    """The answer to a request to correct a word."""
    if len(word) != LENGTHS[kind]:
        return "REFUSED 8"
    if bound > MOST_ERRORS:
        return "REFUSED 9"
    found = nearest(word)
    near = found is not None and sum(a != b for a, b in zip(found, word)) <= bound
    if near and (kind != "slot" or found[0] == SYNC):
        return found.hex().upper()
    return f"REFUSED {REFUSALS[kind]}"


def answer(line):
    """The answer to one line."""
    if asked := CODE.fullmatch(line):
        kind, data = asked[1], bytes.fromhex(asked[2])
        right = len(data) == LENGTHS[kind] - CHECK_BYTES
        return coded(data).hex().upper() if right else "REFUSED 8"
    if asked := CORRECT.fullmatch(line):
        return corrected(asked[1], int(asked[2]), bytes.fromhex(asked[3]))
    return "?"


def main():
    for line in sys.stdin:
        print(answer(line.removesuffix("\n")))


if __name__ == "__main__":
    main()
