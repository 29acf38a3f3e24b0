"""What the trace check answers, in words: with the slot, the row, the tank and the time. The proved check decides: the probe's where it reads as
much, else the archive's. Where the check names no slot, it is found by asking for single records.
"""
from __future__ import annotations

from dataclasses import dataclass
from typing import IO, Iterator

import endings
import tables
import traces
import words
from archive import Archive
from probe import REQUEST_LIMIT, ROWS, Check, Probe, Table
from traces import COUNT, LONGEST_RECORD, NoAnswer, Stretch

ASKED_AT_ONCE = 4096  # records


@dataclass(frozen=True)
class Verdict:
    """The answer of the check, where and what it is in a sentence, and how many slots from the front nothing speaks against: a slot with a quantum that
    came too early is the first that is not among them. `refused` is the slot whose record is no record.
    """

    checked: Check
    sentence: str
    sound: int
    refused: int | None = None

    @property
    def number(self) -> int:
        return self.checked.number


def check(table: bytes, trace: IO[bytes], probe: Probe, archive: Archive) -> Check:
    """The answer for a trace, of which the file is read from its front to its end."""
    count = trace.read(COUNT)
    if len(count) < COUNT:
        return probe.checks([(table, count)])[0]
    slots = int.from_bytes(count, "little")
    # One byte more than its records can have tells that there are too many, so that a stream need not end.
    return check_start(table, trace, slots, LONGEST_RECORD * slots + 1, probe, archive)


def check_start(table: bytes, trace: IO[bytes], slots: int, length: int, probe: Probe, archive: Archive) -> Check:
    """The same for the start of a trace, so many slots whose records have at most so many bytes, as if it had no others."""
    start = Stretch(trace, slots, min(length, REQUEST_LIMIT)).whole()
    checked = probe.check(table, start)
    return checked if checked is not None else archive.check(table, Stretch(trace, slots, length))


def of(table: bytes, taken: Table, trace: IO[bytes], probe: Probe, archive: Archive) -> Verdict:
    """The verdict on a trace, for a table that is taken."""
    checked = check(table, trace, probe, archive)
    trace.seek(0)
    if checked.number == 44:
        return Verdict(checked, early(checked, taken, trace, probe), checked.time)
    if checked.number == 45:
        return Verdict(checked, late(checked, taken, trace, probe), checked.time)
    if checked.number in (41, 42, 43):
        return misshapen(checked, table, taken, trace, probe)
    return whole(checked, trace)


def whole(checked: Check, trace: IO[bytes]) -> Verdict:
    """The verdict on a trace in whose records nothing was found: where it ends, and what stands behind it."""
    slot = slots = 0
    refused: int | None = None
    try:
        slots = traces.read_count(trace)
        if checked.number == 0:
            return Verdict(checked, f"{words.counted(slots, 'slot')}: every quantum ran in its allowed slots, and no tank was late", slots)
        if checked.number == 47:
            return Verdict(checked, f"its count says {slots} slots", 0)
        for slot in endings.watched(range(slots), "looking for the end", slots):
            refused = slot
            traces.read_any_record(trace, slot)
    except NoAnswer as cut:
        return Verdict(checked, lowered(str(cut)), slot, refused)
    return Verdict(checked, f"bytes stand behind {f'the record of slot {slots - 1}, the last' if slots else 'its count, which is 0'}", slots)


def lowered(sentence: str) -> str:
    """A sentence as a part of another."""
    return sentence[0].lower() + sentence[1:].rstrip(".")


def misshapen(checked: Check, table: bytes, taken: Table, trace: IO[bytes], probe: Probe) -> Verdict:
    """The first record that gives cause for a number, if it stands alone in a trace of one slot. Records that are alike are asked for once."""
    for records in first_slots(trace):
        answers = probe.checks((table, b"\1\0\0\0" + record) for record in records)
        for (record, slot), answer in zip(records.items(), answers):
            if answer.number == checked.number:
                return Verdict(checked, f"the record of slot {slot} {record_words(checked.number, record, taken)}", slot, slot)
    return Verdict(checked, "which slot it is was not found", 0)


def first_slots(trace: IO[bytes]) -> Iterator[dict[bytes, int]]:
    """Each record that the trace has, with the first slot that has it, some at a time."""
    slots = traces.read_count(trace)
    seen: set[bytes] = set()
    some: dict[bytes, int] = {}
    for slot in endings.watched(range(slots), "looking for the record", slots):
        record = traces.read_rest(trace)  # one that is cut in its rows may still say too much in its head
        if record in seen:
            continue
        seen.add(record)
        some[record] = slot
        if len(some) == ASKED_AT_ONCE or len(record) < 2 or len(record) < 2 + record[1]:
            yield some
            some = {}
    yield some


def record_words(number: int, record: bytes, taken: Table) -> str:
    """What a record says that is refused."""
    k, rows = record[0], record[2:]
    if number == 41:
        return f"says that {words.counted(k, 'core')} were free, and the table has {taken.cores}"
    if number == 42:
        return f"names {words.counted(record[1], 'row')}, and {words.counted(k, 'core')} {'was' if k == 1 else 'were'} free"
    return f"names the rows {', '.join(map(str, rows))}: they must rise, and the table has {words.counted(len(taken.tanks), 'row')}, counted from 0"


def quanta_at(time: int, trace: IO[bytes]) -> tuple[list[int], bytes]:
    """How many quanta each row has had by a time, and the rows of the slot before it, by a trace whose records up to there are well formed."""
    traces.read_count(trace)
    quanta, last = ROWS * [0], b""
    for slot in endings.watched(range(time), "counting quanta", time):
        record = traces.read_record(trace, slot, ROWS)
        traces.count(record, quanta)
        last = record[2:]
    return quanta, last


def early(checked: Check, taken: Table, trace: IO[bytes], probe: Probe) -> str:
    """44: 'quantum before its row was ready (row, slot)'."""
    quanta, last = quanta_at(checked.time, trace)
    why = probe.why(taken.at(checked.time, quanta, last), 0, checked.row)
    ready = f", and it was not ready before slot {why.first_slot}" if why.number == 0 and why.reason == 2 else ""
    return f"tank {taken.tank(checked.row)} (row {checked.row}) had its quantum {quanta[checked.row] + 1} in slot {checked.time}{ready}"


def late(checked: Check, taken: Table, trace: IO[bytes], probe: Probe) -> str:
    """45: 'row late (row, time)'."""
    quanta, _ = quanta_at(checked.time, trace)
    subtask = quanta[checked.row] + 1
    row = tables.plan_of(taken.value).rows[checked.row]
    [window] = probe.windows([(row.cost, row.period, row.phase, subtask)])
    window_words = f": its window is slots {window.start} to {window.deadline - 1}" if window.number == 0 else ""
    return f"tank {row.tank} (row {checked.row}) is late at time {checked.time}: its quantum {subtask} was due and had not run{window_words}"
