"""The inputs of the slot printer (01, 'Slot printer'), split into their parts and made of them. The table is only cut out, not judged."""
from __future__ import annotations

import struct
from dataclasses import dataclass

import words

INPUT_LIMIT = 65_536
SLOT_LIMIT = 4_096


@dataclass(frozen=True)
class Asked:
    """The parts of an input."""

    table: bytes
    slots: int
    listed: bytes

    def free(self, slot: int, cores: int) -> int:
        """The k of a slot, where the table has so many cores."""
        return self.listed[slot] if slot < len(self.listed) else held_back(cores)

    def input(self) -> bytes:
        """The bytes for the printer, of parts that are within its limits."""
        return struct.pack("<H", len(self.table)) + self.table + struct.pack("<HH", self.slots, len(self.listed)) + self.listed


def held_back(cores: int) -> int:
    """How many of so many cores are free past the list: 'Slots past the k list now use M - 1, and 1 if M is 1' (02, Nine)."""
    return max(1, cores - 1)


def split(input: bytes) -> Asked | None:
    """The parts, or none if bytes are missing or left over, or a number is above its limit."""
    slots_at = 2 + half(input, 0)
    slots, count = half(input, slots_at), half(input, slots_at + 2)
    list_at = slots_at + 4
    # A number past the end was read as 0, or cut; but then the input ends before the list begins, and its length tells.
    if len(input) != list_at + count or len(input) > INPUT_LIMIT or slots > SLOT_LIMIT or count > slots:
        return None
    return Asked(input[2:slots_at], slots, input[list_at:])


def half(raw: bytes, at: int) -> int:
    return int.from_bytes(raw[at : at + 2], "little")


def fault(input: bytes) -> str:
    """What makes an input none, by its lengths alone."""
    if len(input) > INPUT_LIMIT:
        return f"it has more than {INPUT_LIMIT:,} bytes"
    if len(input) < 2:
        return "it is empty" if not input else "it has 1 byte, and the table's length alone takes 2"
    length = half(input, 0)
    there = len(input) >= length + 6
    slots, count = (half(input, length + 2), half(input, length + 4)) if there else (0, 0)
    must = length + 6 + count
    faults = [
        (len(input) != must, f"the table's length says {length}, so the input must have {must} bytes with {words.counted(count, 'k value')}, and has {len(input)}"),
        (slots > SLOT_LIMIT, f"it asks for {slots} slots, and {SLOT_LIMIT:,} are the most"),
        (count > slots, f"it has {words.counted(count, 'k value')} for {words.counted(slots, 'slot')}"),
    ]
    return "; ".join(said for holds, said in faults if holds)
