"""A trace as people read it: one line a slot, with the tanks and which quantum of each it was. What is shown is not judged."""
from __future__ import annotations

from typing import IO, Iterator

import traces
from probe import ROWS, Table

HEADER = "slot free tanks, each with the number of its quantum"


def shown(trace: IO[bytes], taken: Table, first: int, end: int | None) -> Iterator[str]:
    """The lines of the slots from `first` up to `end`, as far as the trace goes. A row that the table has not is shown as a row."""
    slots = traces.read_count(trace)
    quanta, rows = ROWS * [0], len(taken.tanks)
    yield HEADER
    for slot in range(slots if end is None else min(slots, end)):
        record = traces.read_any_record(trace, slot)
        known = [row for row in record[2:] if row < rows]
        traces.count(bytes(2) + bytes(known), quanta)
        if slot >= first:
            yield " ".join([str(slot), str(record[0]), *(f"{taken.tank(row)}#{quanta[row]}" if row < rows else f"row-{row}?" for row in record[2:])])
