"""Why a tank waited in a slot, or that it was picked, in one sentence (02, 'Why did tank 14 wait?'). docs/WHY.md is the page for support staff.

The state before the slot is the table, with the slot as its time, the quanta that the trace's records before the slot give to each row, and the rows of
the last of them; the slot's own record says how many cores were free. The reason is the probe's answer: no rule of the order stands here. What speaks
against the trace is said first, a sentence a line, each beginning with the same words.
"""
from __future__ import annotations

from dataclasses import dataclass
from typing import IO

import traces
import verdict
import words
from archive import Archive
from probe import CORES, LATE, Check, Probe, State, Table, Why, first_cores
from traces import TRACE_LIMIT, NoAnswer, Past
from trouble import Trouble

PICKED, NOT_READY, NO_CORE_FREE, PASSED_OVER = 1, 2, 3, 4
RULES = {
    1: "its earlier deadline",
    2: "its bit (the deadlines are the same, but only tank {tank} has a window that overlaps its own next one)",
    3: "its later group deadline (the deadlines are the same, and both have the bit)",
    4: "its earlier place in the table (nothing else decides between the two)",
    5: "having run in the slot before (nothing else but the place in the table decides between the two, and the table is of format 2)",
}


@dataclass(frozen=True)
class Case:
    """A question, with the row of its tank and what the trace says up to its slot."""

    table: Table
    tank: int
    row: int
    slot: int
    past: Past

    @property
    def k(self) -> int:
        """How many cores were free in the slot."""
        return self.past.record[0]

    @property
    def state(self) -> State:
        """The state before the slot."""
        return self.table.at(self.slot, self.past.quanta, self.past.last)


@dataclass(frozen=True)
class Said:
    """What is printed, a sentence a line, and the exit status."""

    sentences: tuple[str, ...]
    status: int


def said(table: bytes, taken: Table, trace: IO[bytes], tank: int, slot: int, probe: Probe, archive: Archive) -> Said:
    """What is said of a tank in a slot, over a table that is taken. Of the trace no more is read than is needed."""
    try:
        case = read_case(taken, trace, tank, slot)
    except NoAnswer as none:
        return Said((str(none),), 1)
    checked = verdict.check_start(table, trace, slot, case.past.length, probe, archive)
    too_long, foreign = count_faults(case), check_faults(checked, case)
    why = probe.why(case.state, case.k, case.row)
    if why.number != 0:
        return Said((*too_long, *not_ours(foreign), refused(why.number, foreign, case)), 1)
    picked = dispatched(case, probe)
    against = too_long + not_ours(foreign + record_faults(picked, case))
    return Said((*against, answer(why, picked, case)), 1 if against else 0)


def read_case(taken: Table, trace: IO[bytes], tank: int, slot: int) -> Case:
    if tank not in taken.tanks:
        raise NoAnswer(f"Tank {tank} is not in the table, which has {words.listed(taken.tanks)}.")
    past = traces.read(trace, slot, len(taken.tanks))
    return Case(taken, tank, taken.tanks.index(tank), slot, past)


def not_ours(faults: list[str]) -> list[str]:
    return [f"{words.NOT_OURS}{fault}." for fault in faults]


def count_faults(case: Case) -> list[str]:
    """What is wrong with the trace's own count, which the check is not shown: it sees a trace that ends before the slot. The records may still be the
    dispatcher's, which runs on where a trace ends.
    """
    if case.past.slots <= TRACE_LIMIT:
        return []
    return [f"By its count this is no trace: it has {case.past.slots} slots, and {TRACE_LIMIT} is the most, of a longer run too."]


def check_faults(checked: Check, case: Case) -> list[str]:
    """What the trace check found in the records before the slot."""
    if checked.number == 0:
        return []
    record, tank = f"a record before slot {case.slot}", f"tank {case.table.tank(checked.row)}"
    found = {
        41: f"{record} says that more cores were free than the table has",
        42: f"{record} names more tanks than cores were free",
        43: f"{record} names a tank twice, or tanks out of order",  # of a row that the table has not, the reading has told
        44: f"{tank} was picked in slot {checked.time}, though it was not ready",
        45: f"{tank} was late at the start of slot {checked.time}, and there the dispatcher stops",
    }
    return [found.get(checked.number, f"{record} does not pass the trace check ({words.of_number(checked.number)})")]


def refused(number: int, against: list[str], case: Case) -> str:
    """Why there is no answer for the state before the slot and its k. A broken state has been told of, if what broke it has: where the record before the
    slot names rows that no state can remember, the trace check has found that record, or one before it.
    """
    has = words.counted(case.table.cores, "core")
    causes = {
        30: f"before slot {case.slot} a tank had been picked more often, or less often, than its share allows",
        33: f"the record of slot {case.slot} says that {words.counted(case.k, 'core')} were free, and the table has {has}",
    }
    if number not in causes:
        raise Trouble(f"the probe is of another version: it refuses with number {number}")
    if number == 30 and against:
        return f"So there is no answer for slot {case.slot}."
    return f"{words.NOT_OURS}{causes[number]}; so there is no answer."


def dispatched(case: Case, probe: Probe) -> bytes:
    """The record that the dispatcher writes for the slot. Which cores were free, and on which somebody ran before, no trace says; no pick hangs on it."""
    slot = probe.run_slot(case.state, first_cores(case.k))
    if slot.number > LATE:
        raise Trouble(f"the probe contradicts itself: it answers for slot {case.slot}, and refuses to run it with number {slot.number}")
    return slot.record


def record_faults(picked: bytes, case: Case) -> list[str]:
    """How the slot's record differs from the one that the dispatcher writes."""
    if case.past.record == picked:
        return []
    theirs, ours = (tanks_of(record, case) for record in (case.past.record, picked))
    return [f"the record of slot {case.slot} names {theirs}, and the dispatcher picks {ours}"]


def tanks_of(record: bytes, case: Case) -> str:
    """The tanks that a record names; of more than there can be cores, only how many."""
    named = [case.table.tank(row) for row in record[2:]]
    return words.listed(named) if len(named) <= CORES else words.counted(len(named), "tank")


def answer(why: Why, picked: bytes, case: Case) -> str:
    """The one sentence. Where the record is not the dispatcher's, 'was picked' would say of the box what it did not do."""
    subject = "Tank" if case.past.record == picked else "By the dispatcher's rules tank"
    return f"{subject} {case.tank} {reason(why, case.table, case.slot, case.k)}."


def reason(why: Why, table: Table, slot: int, k: int) -> str:
    """What is said of a row in a slot with k cores free."""
    if why.reason == PICKED:
        return f"was picked in slot {slot}"
    if why.reason == NOT_READY:
        return f"was not ready in slot {slot}: the first slot in which it is ready is {why.first_slot}"
    if why.reason == NO_CORE_FREE:
        return f"was ready in slot {slot}, but no core was free"
    if why.reason == PASSED_OVER and why.rule in RULES:
        return f"was ready in slot {slot}, but passed over: {ahead(why, table, k)}"
    raise Trouble(f"the probe is of another version: it gives reason {why.reason} with rule {why.rule}")


def ahead(why: Why, table: Table, k: int) -> str:
    """'the lowest-ranked picked row and the rule that put it ahead'. Whoever is passed over finds all free cores taken."""
    last = "the one picked" if k == 1 else "the last in line to be picked"
    tank = table.tank(why.row)
    return f"with {words.counted(k, 'core')} free {last} was tank {tank}, which goes ahead by {RULES[why.rule].format(tank=tank)}"
