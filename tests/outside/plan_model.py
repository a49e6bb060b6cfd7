"""Slot plans by their rules alone: plan file, listing and TMCC data.

Written apart from the product, as the measure that its answers are held to.
Lines and slots count from 1. Speed is of no concern here.
"""

from typing import NamedTuple

# For each mode word: the slots of a unit, and how many of them are active.
UNITS = {1: (4, 1), 2: (2, 1), 3: (3, 2), 4: (4, 3), 5: (6, 5), 6: (8, 7), 7: (1, 1)}
UNUSED = 15
MOST_SLOTS = 48


class Plan(NamedTuple):
    """The fields of a plan as they are written, whether or not they keep the rules."""

    lines: list  # four pairs of mode word and slot count
    streams: list  # a stream number for each slot
    ts_ids: list  # eight, for streams 0 to 7
    control: int = 0
    expanded: int = 0


class Refused(Exception):
    """A refusal's number, and the first line or slot that breaks the rule where it has one."""

    def __init__(self, number, place="-"):
        super().__init__(number, place)
        self.number = number
        self.place = place


def faulty_word(lines):
    """The words of used lines are 1 to 7 and fall strictly; only unused lines follow an unused one."""
    words = [word for word, _ in lines]
    for i, word in enumerate(words):
        before = words[:i]
        if word != UNUSED and (word not in UNITS or UNUSED in before or any(w <= word for w in before)):
            return i + 1
    return None


def faulty_count(lines, slots):
    """A used line's count is a positive multiple of its unit, an unused one's is 0; 0 for a wrong sum."""
    for i, (word, count) in enumerate(lines):
        if word == UNUSED:
            kept = count == 0
        else:
            kept = count > 0 and count % UNITS[word][0] == 0
        if not kept:
            return i + 1
    return None if sum(count for _, count in lines) == slots else 0


def layout(lines):
    """Mode word and activity of every slot, for lines that keep their rules."""
    found = []
    for word, count in lines:
        if word != UNUSED:
            unit, active = UNITS[word]
            found += [(word, i % unit < active) for i in range(count)]
    return found


def faulty_stream(plan):
    """Numbers are 0 to 7, a dummy slot repeats the last active slot, no two active streams share a TS_ID."""
    active = []
    for slot, (stream, (_, is_active)) in enumerate(zip(plan.streams, layout(plan.lines)), 1):
        if stream > 7:
            return slot
        if not is_active and stream != active[-1]:
            return slot
        if is_active and any(r != stream and plan.ts_ids[r] == plan.ts_ids[stream] for r in active):
            return slot
        if is_active:
            active.append(stream)
    return None


def keep_rules(plan):
    """Raise the first fault among the rules on words, counts and streams, in this order."""
    for number, fault in (
        (4, lambda: faulty_word(plan.lines)),
        (5, lambda: faulty_count(plan.lines, len(plan.streams))),
        (6, lambda: faulty_stream(plan)),
    ):
        place = fault()
        if place is not None:
            raise Refused(number, place)


def to_file(plan):
    """The plan file with these fields."""
    lines = bytes(part for line in plan.lines for part in line)
    ts_ids = b"".join(ts_id.to_bytes(2, "big") for ts_id in plan.ts_ids)
    rest = bytes([plan.control]) + plan.expanded.to_bytes(8, "big")
    return b"SLP\x00\x01" + bytes([len(plan.streams)]) + lines + bytes(plan.streams) + ts_ids + rest


def from_file(data):
    """The plan in a plan file, or Refused with the first check that fails."""
    if len(data) < 6 or data[:3] != b"SLP":
        raise Refused(1)
    if data[3:5] != b"\x00\x01":
        raise Refused(2)
    slots = data[5]
    if not 1 <= slots <= MOST_SLOTS or len(data) != 39 + slots:
        raise Refused(3)
    lines = [(data[i], data[i + 1]) for i in range(6, 14, 2)]
    streams, rest = list(data[14 : 14 + slots]), data[14 + slots :]
    ts_ids = [int.from_bytes(rest[i : i + 2], "big") for i in range(0, 16, 2)]
    plan = Plan(lines, streams, ts_ids, rest[16], int.from_bytes(rest[17:], "big"))
    keep_rules(plan)
    if plan.control >= 1 << 5 or plan.expanded >= 1 << 62:
        raise Refused(7)
    return plan


def listing(data):
    """What the program planlist prints for a plan file.

    >>> lines = [(7, 2), (2, 2), (15, 0), (15, 0)]
    >>> print(listing(to_file(Plan(lines, [0, 0, 1, 1], [0x40F1, 0x40F2] + [0xFFFF] * 6))), end="")
    SLP 1 4
    M 7 2 2
    M 2 2 1
    S 1 7 0 A
    S 2 7 0 A
    S 3 2 1 A
    S 4 2 1 D
    """
    try:
        plan = from_file(data)
    except Refused as refused:
        return f"REFUSED {refused.number}\n"
    out = [f"SLP 1 {len(plan.streams)}"]
    for word, count in plan.lines:
        if word != UNUSED:
            unit, active = UNITS[word]
            out.append(f"M {word} {count} {count // unit * active}")
    for slot, (stream, (word, is_active)) in enumerate(zip(plan.streams, layout(plan.lines)), 1):
        out.append(f"S {slot} {word} {stream} {'A' if is_active else 'D'}")
    return "\n".join(out) + "\n"


def to_tmcc(plan, order):
    """The 48 bytes of TMCC data; stream numbers beyond the plan's slots are 0 where it names none.

    >>> lines = [(7, 46), (2, 2), (15, 0), (15, 0)]
    >>> to_tmcc(Plan(lines, [0] * 48, list(range(8))), 0)[:6].hex(" ")
    '03 dc 41 78 1e 00'
    """
    streams = plan.streams + [0] * (MOST_SLOTS - len(plan.streams))
    fields = [(order, 5)]
    fields += [field for word, count in plan.lines for field in ((word, 4), (count, 6))]
    fields += [(stream, 3) for stream in streams]
    fields += [(ts_id, 16) for ts_id in plan.ts_ids]
    fields += [(plan.control, 5), (plan.expanded, 62)]
    bits = "".join(f"{value:0{width}b}" for value, width in fields)
    assert len(bits) == 384, "a field does not fit"
    return int(bits, 2).to_bytes(48, "big")


def from_tmcc(data, slots):
    """Order of change and plan in 48 bytes of TMCC data, or Refused with the first rule that is broken."""
    bits = f"{int.from_bytes(data, 'big'):0384b}"
    place = 0

    def field(width):
        nonlocal place
        place += width
        return int(bits[place - width : place], 2)

    order = field(5)
    lines = [(field(4), field(6)) for _ in range(4)]
    streams = [field(3) for _ in range(MOST_SLOTS)]
    plan = Plan(lines, streams[:slots], [field(16) for _ in range(8)], field(5), field(62))
    keep_rules(plan)
    for slot in range(slots, MOST_SLOTS):
        if streams[slot] != 0:
            raise Refused(6, slot + 1)
    return order, plan
