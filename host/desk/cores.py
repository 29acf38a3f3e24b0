"""The second listing: who runs in each slot, on which core, and how many rows moved (02, One). The slot printer's own text is that of listing.py. The
slots are run by the archive, with the first k cores free.
"""
from __future__ import annotations

from typing import Iterable, Iterator, Mapping

import inputs
from archive import Archive, Ran
from probe import LATE, Table

HEADER = "slot free moves tanks on cores"


def listing(asked: inputs.Asked, table: Table, archive: Archive) -> Iterator[str]:
    """The lines for an input whose table is taken, without their newlines."""
    yield HEADER
    total = 0
    last: dict[int, int] = {}
    listed = bytes(asked.free(slot, table.cores) for slot in range(asked.slots))
    for slot, ran in enumerate(archive.run(asked.table, listed)):
        if ran.number > LATE:
            yield f"refused {ran.number}"
            return
        moved = moves(last, ran.pairs)
        total += moved
        yield " ".join([str(slot), str(listed[slot]), str(moved), *(f"{table.tank(row)}@{core}" for row, core in ran.pairs)])
        if ran.number == LATE:
            yield f"late {slot + 1} {table.tank(ran.row)}"
            break
        last = ran.cores
    else:
        yield f"end {asked.slots}"
    yield f"moves {total}"


def moves(last: Mapping[int, int], now: Iterable[tuple[int, int]]) -> int:
    """How many rows moved. `last` has the core of each row in the slot before."""
    return sum(has_moved(last, row, core) for row, core in now)


def has_moved(last: Mapping[int, int], row: int, core: int) -> bool:
    """'a row picked in this slot and the one before, on another core'"""
    return last.get(row, core) != core
