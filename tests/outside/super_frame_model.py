"""Super-frames by their rules alone: sequence, outer code, TMCC, energy dispersal, interleaving, frame heads.

Written apart from the product, as the measure that its bytes are held to. Frames, slots and the
bytes of a slot count from 1. Each step works on whole frames, as a sender with room for all of
them would. Speed is of no concern here.
"""

import functools
import zlib

from codeword_model import POWERS, times
from plan_model import layout, to_tmcc

FRAMES = 8
CHECK_BYTES = 16
PACKET_BYTES = 188
SLOT_BYTES = PACKET_BYTES + CHECK_BYTES
ROW_BYTES = SLOT_BYTES - 1  # the first byte of a slot is not sent
HEAD_BYTES = 12
W1, W2, W3 = b"\x1b\x95", b"\xa3\x40", b"\x5c\xbf"
LONGEST_RUN = FRAMES * 48 * SLOT_BYTES  # of the sequence, in one super-frame


def frame_length(slots):
    """How many bytes a frame has."""
    return HEAD_BYTES + ROW_BYTES * slots


def super_frame_length(slots):
    """How many bytes a super-frame has.

    >>> super_frame_length(1), super_frame_length(48)
    (1720, 78048)
    """
    return FRAMES * frame_length(slots)


@functools.cache
def sequence():
    """The sequence, from its byte 0, as far as a super-frame of 48 slots has need of it.

    >>> sequence()[:4].hex(" ")
    '03 f6 08 34'
    >>> sequence()[:1000] == sequence()[32767 : 32767 + 1000]
    True
    """
    stages = [int(bit) for bit in "100101010000000"]
    bits = []
    for _ in range(8 * LONGEST_RUN):
        bit = stages[13] ^ stages[14]
        stages = [bit] + stages[:14]
        bits.append("01"[bit])
    return int("".join(bits), 2).to_bytes(LONGEST_RUN, "big")


def dispersed(data, place):
    """The bytes with the sequence from this place on added; done twice, it gives back what was there.

    >>> dispersed(dispersed(b"twice", 4711), 4711)
    b'twice'
    """
    return bytes(a ^ b for a, b in zip(data, sequence()[place : place + len(data)], strict=True))


@functools.cache
def generator():
    """The code's generator, highest power first and without its leading 1: (x + 1)(x + 02h) .. (x + 02h ** 15)."""
    found = [1]
    for root in POWERS[:CHECK_BYTES]:
        found = [a ^ times(b, root) for a, b in zip(found + [0], [0] + found)]
    return found[1:]


@functools.cache
def multiple(factor):
    """The generator times the factor, its coefficients as the bytes of one number."""
    return int.from_bytes(bytes(times(factor, coefficient) for coefficient in generator()), "big")


@functools.cache
def coded(data):
    """The data and their check bytes: the remainder of the data, moved up by 16 powers, by the generator.

    >>> import codeword_model
    >>> words = [bytes(188), bytes(range(188)), b"\\x47" + bytes(187), b"\\xff" * 48, bytes(range(100, 148))]
    >>> all(coded(data) == codeword_model.coded(data) for data in words)
    True
    >>> any(codeword_model.syndromes(coded(null_packet())))
    False
    """
    remainder = 0
    for byte in data:
        leading = remainder >> 120 ^ byte
        remainder = remainder << 8 & (1 << 128) - 1 ^ multiple(leading)
    return data + remainder.to_bytes(CHECK_BYTES, "big")


def heads(plan, order):
    """The twelve bytes that begin each frame: a sync word, eight bytes of the TMCC word, a sync word."""
    word = coded(to_tmcc(plan, order))
    parts = [dispersed(word[8 * f : 8 * f + 8], HEAD_BYTES * f) for f in range(FRAMES)]
    return [W1 + part + (W3 if f else W2) for f, part in enumerate(parts)]


def slot_words(plan, packets):
    """For each frame the words of its slots, where each active slot carries the next packet."""
    given = iter(packets)
    dummy = bytes(SLOT_BYTES)
    words = [[coded(next(given)) if active else dummy for _, active in layout(plan.lines)] for _ in range(FRAMES)]
    assert next(given, None) is None, "more packets than active slots"
    return words


def dispersed_rows(words):
    """For each frame the rows of its slots: their bytes 2 to 204, dispersed.

    The sequence begins at byte 2 of the first slot and runs on beneath the first bytes of all others.
    """
    rows, place = [], 0
    for frame in words:
        rows.append([])
        for word in frame:
            rows[-1].append(dispersed(word[1:], place))
            place += SLOT_BYTES
    return rows


def interleaved(rows):
    """The eight rows of one slot, read column by column and put back into rows.

    Where the first two elements and the last of each row come from, as row and column:

    >>> places = interleaved([[f"{row}-{column}" for column in range(1, 204)] for row in range(1, 9)])
    >>> for row in places:
    ...     print(row[0], row[1], row[-1])
    1-1 2-1 3-26
    4-26 5-26 6-51
    7-51 8-51 1-77
    2-77 3-77 4-102
    5-102 6-102 7-127
    8-127 1-128 2-153
    3-153 4-153 5-178
    6-178 7-178 8-203
    >>> joined = sum(places, [])
    >>> joined[202], joined[203], joined[811]
    ('3-26', '4-26', '4-102')
    """
    elements = [element for column in zip(*rows, strict=True) for element in column]
    return [elements[ROW_BYTES * f : ROW_BYTES * (f + 1)] for f in range(FRAMES)]


def super_frame(plan, order, packets):
    """The bytes of a super-frame with the packets of its active slots, ordered by frame, then slot.

    >>> from plan_model import Plan
    >>> plan = Plan([(7, 46), (2, 2), (15, 0), (15, 0)], [0] * 48, list(range(8)))
    >>> [slot for slot, (_, active) in enumerate(layout(plan.lines), 1) if not active]
    [48]
    >>> made = super_frame(plan, 0, [null_packet()] * 376)
    >>> made[:6].hex(" "), len(made)
    ('1b 95 00 2a 49 4c', 78048)
    """
    rows = dispersed_rows(slot_words(plan, packets))
    by_slot = [interleaved(slot) for slot in zip(*rows, strict=True)]
    frames = [head + b"".join(bytes(slot[f]) for slot in by_slot) for f, head in enumerate(heads(plan, order))]
    return b"".join(frames)


def words_in(data, slots):
    """The TMCC word, and for each frame the slot words, that a super-frame of this many slots carries.

    Found by place: byte b of slot s in frame f is looked up where the interleaver put it.

    >>> from plan_model import Plan
    >>> plan = Plan([(7, 1), (3, 3), (15, 0), (15, 0)], [4, 2, 7, 7], list(range(8)))
    >>> packets = [pattern_packet(n % 8, n) for n in range(24)]
    >>> tmcc, words = words_in(super_frame(plan, 9, packets), 4)
    >>> tmcc == coded(to_tmcc(plan, 9))
    True
    >>> [word[0] for word in words[0]], words[7][3] == b"\\x47" + bytes(203)
    ([71, 71, 71, 71], True)
    >>> [word for frame in words for word in frame[:3]] == [coded(packet) for packet in packets]
    True
    """
    long = frame_length(slots)
    tmcc = b"".join(dispersed(data[long * f + 2 : long * f + 10], HEAD_BYTES * f) for f in range(FRAMES))

    def word(f, s):
        """The slot word of frame f and slot s, both from 0."""
        found = bytearray(b"\x47")
        for column in range(ROW_BYTES):
            frame, byte = divmod(FRAMES * column + f, ROW_BYTES)
            sent = data[long * frame + HEAD_BYTES + ROW_BYTES * s + byte]
            found.append(sent ^ sequence()[(f * slots + s) * SLOT_BYTES + column])
        return bytes(found)

    return tmcc, [[word(f, s) for s in range(slots)] for f in range(FRAMES)]


def null_packet():
    """What an active slot carries where no packet waits."""
    return b"\x47\x1f\xff\x10" + b"\xff" * 184


def pattern_packet(stream, number):
    """The packet of this number, below 65,536, in the pattern feed's list of the stream.

    >>> pattern_packet(5, 0x1234)[:8].hex(" ")
    '47 01 05 14 12 34 34 34'
    """
    return bytes([0x47, 1, stream, 0x10 + number % 16]) + number.to_bytes(2, "big") + bytes([number % 256]) * 182


def fnv_1a(data):
    """The 64-bit FNV-1a digest.

    >>> f"{fnv_1a(b''):016X} {fnv_1a(b'a'):016X} {fnv_1a(b'foobar'):016X}"
    'CBF29CE484222325 AF63DC4C8601EC8C 85944171F73967E8'
    """
    found = 0xCBF29CE484222325
    for byte in data:
        found = (found ^ byte) * 0x100000001B3 & 0xFFFFFFFFFFFFFFFF
    return found


def digests(data):
    """CRC-32 (IEEE 802.3, the one of zip files) and 64-bit FNV-1a, in capitals.

    >>> digests(b"123456789")[:8]
    'CBF43926'
    """
    return f"{zlib.crc32(data):08X} {fnv_1a(data):016X}"
