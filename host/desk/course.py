"""What ran, slot after slot from slot 0 on: slots of our own, run by the archive, or those of a trace as far as nothing speaks against it."""
from __future__ import annotations

from dataclasses import dataclass
from typing import IO

import endings
import traces
import verdict
import words
from archive import Archive
from picture import Late
from probe import LATE, Probe, Table

MOST = 1_000_000  # slots that are kept in memory, and compared with our own


@dataclass(frozen=True)
class Course:
    """The record of each slot, and the core of each of its rows, if they are known. `number` is how it ended: 0, or the number of lateness or of a refusal.
    `late` is the row that was late at the end, `refused` the slot that was refused there, if it is one. The notes say how it ended, and what is not known.
    """

    records: tuple[bytes, ...]
    cores: tuple[dict[int, int], ...] | None
    number: int = 0
    late: Late | None = None
    refused: int | None = None
    notes: tuple[str, ...] = ()

    @property
    def fine(self) -> bool:
        """Nobody was late, and nothing was refused."""
        return self.number == 0


def ours(table: bytes, taken: Table, listed: bytes, archive: Archive) -> Course:
    """Slots of our own, with the first listed[i] cores free in slot i."""
    ran = list(endings.watched(archive.run(table, listed), "running slots", len(listed)))
    done = [slot for slot in ran if slot.number <= LATE]
    number = ran[-1].number if ran else 0
    late = Late(ran[-1].row, len(ran)) if number == LATE else None
    refused = len(done) if number > LATE else None
    notes = (f"Tank {taken.tank(late.row)} is late at time {late.time}: there the dispatcher stops.",) if late else ()
    notes += (f"Slot {refused} is refused: {words.of_number(number)}.",) if refused is not None else ()
    return Course(tuple(slot.record for slot in done), tuple(slot.cores for slot in done), number, late, refused, notes)


def of_trace(table: bytes, taken: Table, trace: IO[bytes], probe: Probe, archive: Archive) -> Course:
    """The slots of a trace, up to the first that something speaks against, and with it if it is a quantum that came too early."""
    judged = verdict.of(table, taken, trace, probe, archive)
    slots = judged.sound + (judged.number == 44)
    trace.seek(0)
    records = read_records(trace, min(slots, MOST))
    late = Late(judged.checked.row, judged.checked.time) if judged.number == 45 else None
    cores, unknown = known_cores(table, taken, records, slots, judged.number, archive)
    notes = (f"The trace check answers {words.of_number(judged.number)}: {judged.sentence}.",) if judged.number else ()
    cut = (f"Only the first {MOST:,} of {slots:,} slots are looked at.",) if slots > MOST else ()
    refused = judged.refused if slots <= MOST else None
    return Course(records, cores, judged.number, late, refused, notes + cut + unknown)


def read_records(trace: IO[bytes], slots: int) -> tuple[bytes, ...]:
    if slots == 0:
        return ()
    traces.read_count(trace)
    return tuple(traces.read_any_record(trace, slot) for slot in endings.watched(range(slots), "reading the trace", slots))


def known_cores(
    table: bytes, taken: Table, records: tuple[bytes, ...], slots: int, number: int, archive: Archive
) -> tuple[tuple[dict[int, int], ...] | None, tuple[str, ...]]:
    """The cores of each slot, by what our slots do with the first k cores free: only if every record is the one that our slot writes. Else why not."""
    if slots > len(records):
        return None, (f"Cores and moves are unknown: the trace has more than {MOST:,} slots.",)
    if number not in (0, 45):
        return None, ("Cores and moves are unknown: the trace does not pass.",)
    run = list(endings.watched(archive.run(table, bytes(record[0] for record in records)), "running slots", len(records)))
    for slot, record in enumerate(records):
        if slot >= len(run) or run[slot].record != record:
            return None, (f"Cores and moves are unknown: the record of slot {slot} is not the one that this dispatcher writes.",)
    note = "Cores are those of this dispatcher if in each slot the first ones were free: a trace does not say which were."
    return tuple(slot.cores for slot in run), (note,) if records else ()
