"""A trace (01, 'The trace, in bytes'), read record by record and no further than is asked. What it holds is counted, not judged; but a row that the
table has not cannot be counted.
"""
from __future__ import annotations

from dataclasses import dataclass
from typing import IO

import endings
from probe import ROWS
from words import NOT_OURS, counted

COUNT, LONGEST_RECORD = 4, 2 + 0xFF  # bytes of the count, and of a record with as many rows as its field for them can say
TRACE_LIMIT = 1_000_000_000  # the most slots of a trace; the dispatcher itself runs on, to a time that no trace comes near


class NoAnswer(Exception):
    """The files were read, and the question has no answer for them; the sentence says why."""


@dataclass(frozen=True)
class Past:
    """What a trace says up to a slot: how many slots it has by its own count, how many bytes the records before the slot have, how many of them name each
    row, the rows that the last of them names, and the slot's own record.
    """

    slots: int
    length: int
    quanta: tuple[int, ...]
    last: bytes
    record: bytes


def read(file: IO[bytes], slot: int, rows: int) -> Past:
    """The past of a slot, over a table with so many rows."""
    slots = read_count(file)
    if slot >= slots:
        raise NoAnswer(f"Slot {slot} is not in the trace, which has {slots_named(slots)}.")
    if slot >= TRACE_LIMIT:
        raise NoAnswer(f"Slot {slot} is in no trace: the last one that a trace can have is {TRACE_LIMIT - 1}.")
    length, quanta, last = 0, ROWS * [0], b""
    for earlier in endings.watched(range(slot), "reading the trace", slot):
        record = read_record(file, earlier, rows)
        count(record, quanta)
        length += len(record)
        last = record[2:]
    return Past(slots, length, tuple(quanta), last, read_record(file, slot, rows))


def count(record: bytes, quanta: list[int]) -> None:
    """A quantum is a record that names the row, however often it does."""
    for row in set(record[2:]):
        quanta[row] += 1


def read_count(file: IO[bytes]) -> int:
    return int.from_bytes(read_part(file, COUNT, "its count of slots"), "little")


def slots_named(slots: int) -> str:
    if slots < 2:
        return "slot 0 alone" if slots == 1 else "no slots"
    return f"slots 0 to {slots - 1}"


def read_record(file: IO[bytes], slot: int, rows: int) -> bytes:
    """The next record, which is that of this slot."""
    record = read_any_record(file, slot)
    named = record[2:]
    if named and max(named) >= rows:
        whose = f"the record of slot {slot}"
        raise NoAnswer(f"{NOT_OURS}{whose} names row {max(named)}, counted from 0, and the table has {counted(rows, 'row')}.")
    return record


def read_any_record(file: IO[bytes], slot: int) -> bytes:
    """The same, whatever rows it names."""
    whose = f"the record of slot {slot}"
    head = read_part(file, 2, whose)
    return head + read_part(file, head[1], whose)


def read_rest(file: IO[bytes]) -> bytes:
    """The next record, or what is left of it where the trace is cut."""
    head = file.read(2)
    return head + file.read(head[1]) if len(head) == 2 else head


def read_part(file: IO[bytes], length: int, what: str) -> bytes:
    part = file.read(length)
    if len(part) < length:
        raise NoAnswer(f"The trace is cut short: {what} is not wholly there.")
    return part


class Stretch:
    """The start of a trace as a trace of its own: so many slots, whose records have so many bytes. It is read from the file as far as it is asked for."""

    def __init__(self, file: IO[bytes], slots: int, length: int) -> None:
        self.file, self.head, self.left = file, slots.to_bytes(COUNT, "little"), length
        file.seek(COUNT)

    def read(self, most: int) -> bytes:
        """The next part; none at the end."""
        if self.head:
            head, self.head = self.head, b""
            return head
        part = self.file.read(min(most, self.left))
        self.left -= len(part)
        return part

    def whole(self) -> bytes:
        return b"".join(iter(lambda: self.read(1 << 20), b""))
