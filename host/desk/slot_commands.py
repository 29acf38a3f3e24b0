"""zb slots: the listing of a table or of an input, by the slot printer, or with cores by the archive."""
from __future__ import annotations

from typing import Iterator

import cores
import files
import inputs
import listing
import tables
from desk import Desk, Words, note_held_back, plan
from endings import ANSWERED_NO, FINE, show, tell
from probe import LONGEST_TABLE
from table_text import Fault

NO_TABLE = 11  # 'format is neither 1 nor 2'
FORMATS = (b"\1", b"\2")  # of the tables that there are


def slots(asked: Words, desk: Desk) -> int:
    try:
        wanted = wanted_slots(asked, desk)
    except Fault as fault:  # of a typed table, which has no bytes that the printer could refuse
        if fault.number is None:
            raise
        show(f"refused {fault.number}", "listing")
        tell(f"{files.shown(asked.file)}: {fault}")
        return ANSWERED_NO
    if isinstance(wanted, str):
        show("input", "listing")
        tell(f"zb: input: {wanted}")
        return ANSWERED_NO
    lines = list_slots(wanted, asked.cores, desk)
    last = ""
    for line in lines:
        show(line, "listing")
        last = line if not line.startswith("moves") else last
    ended = listing.ending(last)
    if ended is None:
        return FINE
    tell(f"zb: {ended}")
    if last.startswith("late"):
        note_held_back(wanted, int(last.split()[1]))
    return ANSWERED_NO


def wanted_slots(asked: Words, desk: Desk) -> inputs.Asked | str:
    """What the printer is to print: the file's own, if it is an input, else of a table a cycle, in which one core is held back; and what the command
    line says in place of it.
    """
    source = tables.source(asked.file, desk.probe)
    listed = listing.free_list(asked.free) if asked.free is not None else None
    if source.asked is not None:
        count, own = source.asked.slots, source.asked.listed
    else:
        read = desk.probe.read_table(source.table)
        if read.number == NO_TABLE and source.table[2:3] in FORMATS or not source.table:  # it has a table's format where an input has it
            return inputs.fault(source.table)
        cycle = plan(read).cycle if read.number == 0 else 0
        count, own = min(cycle, listing.DEFAULT_SLOTS), b""
        if asked.slots is None and count < cycle and listed is None:
            tell(f"zb: {count} of the cycle's {cycle} slots; --slots N prints others")
    listed = own if listed is None else listed
    count = asked.slots if asked.slots is not None else max(count, len(listed))
    if len(listed) > count:
        tell(f"zb: of the {len(listed)} slots of the list the first {count} are printed")
    if count > inputs.SLOT_LIMIT:
        return f"the slot printer prints {inputs.SLOT_LIMIT} slots at most, and not {count}"
    return inputs.Asked(source.table[: LONGEST_TABLE + 1], count, listed[:count])  # a longer one is refused alike


def list_slots(wanted: inputs.Asked, with_cores: bool, desk: Desk) -> Iterator[str]:
    if not with_cores:
        yield from listing.printed(wanted).splitlines()
        return
    table = desk.probe.read_table(wanted.table)
    if table.number != 0:
        yield f"refused {table.number}"
    else:
        yield from cores.listing(wanted, table, desk.archive)
