"""zb trace, zb why and zb stats: what is said of a trace over its table."""
from __future__ import annotations

import contextlib
from typing import IO, Callable

import course
import files
import stats
import tables
import trace_lines
import traces
import verdict
import why
import words
from desk import Desk, Words, answer_fault, explain
from endings import ANSWERED_NO, FINE, show_all, tell
from probe import Table
from table_text import Fault
from tables import Source
from traces import NoAnswer
from trouble import Trouble


def trace_check(asked: Words, desk: Desk) -> int:
    try:
        return over_trace(asked, desk, judge)
    except Fault as fault:  # the table's refusal is the check's
        return answer_fault(fault)


def judge(source: Source, table: Table, trace: IO[bytes], asked: Words, desk: Desk) -> int:
    judged = verdict.of(source.table, table, trace, desk.probe, desk.archive)
    show_all([words.answer(judged.number), judged.sentence], "answer")
    if judged.number == 0:
        return FINE
    explain(judged.number)
    return ANSWERED_NO


def trace_show(asked: Words, desk: Desk) -> int:
    return over_trace(asked, desk, show_trace)


def show_trace(source: Source, table: Table, trace: IO[bytes], asked: Words, desk: Desk) -> int:
    first, end = asked.slots or (0, None)
    cut: NoAnswer | None = None
    slots = int.from_bytes(trace.read(traces.COUNT), "little")
    trace.seek(0)
    if first >= slots:
        tell(f"zb: the trace has {traces.slots_named(slots)}")
    try:
        show_all(trace_lines.shown(trace, table, first, end), "trace")
    except NoAnswer as none:  # the verdict says so too, with its number
        cut = none
    trace.seek(0)
    judged = verdict.of(source.table, table, trace, desk.probe, desk.archive)
    tell(f"zb: the trace check answers {words.of_number(judged.number)}: {judged.sentence}")
    return ANSWERED_NO if judged.number or cut else FINE


def why_waited(asked: Words, desk: Desk) -> int:
    return over_trace(asked, desk, say_why)


def say_why(source: Source, table: Table, trace: IO[bytes], asked: Words, desk: Desk) -> int:
    said = why.said(source.table, table, trace, asked.tank, asked.slot, desk.probe, desk.archive)
    show_all(said.sentences, "answer")
    return said.status


def show_stats(asked: Words, desk: Desk) -> int:
    return over_trace(asked, desk, count)


def count(source: Source, table: Table, trace: IO[bytes], asked: Words, desk: Desk) -> int:
    ran = course.of_trace(source.table, table, trace, desk.probe, desk.archive)
    found = stats.counted(table, ran, desk.probe)
    show_all(stats.job_lines(found) if asked.jobs else stats.lines(found, ran), "numbers")
    for note in ran.notes:
        tell(f"zb: {note}")
    return FINE if ran.fine else ANSWERED_NO


OverTrace = Callable[[Source, Table, IO[bytes], Words, Desk], int]


def over_trace(asked: Words, desk: Desk, work: OverTrace) -> int:
    """What is done with a table that is taken and a trace, either of which may be standard input."""
    if asked.table == asked.trace == "-":
        raise Trouble("only one of the two files can be standard input")
    with contextlib.ExitStack() as closed:
        # What cannot be read is told of before anything is asked, or built for it; but nobody should type a trace for a table that is not there.
        early = None if asked.trace == "-" else closed.enter_context(files.opened(asked.trace))
        source = tables.source(asked.table, desk.probe)
        table = tables.taken(source.table, desk.probe)
        status = work(source, table, early or closed.enter_context(files.opened(asked.trace)), asked, desk)
    return status
