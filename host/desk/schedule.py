"""A picture of some slots of a course: each row's windows and quanta, and why it waited. The windows, who was ready and what each waited for are the
probe's answers.
"""
from __future__ import annotations

from typing import Iterator, Sequence

import endings
import tables
import why
import words
from cores import has_moved
from course import Course
from picture import Line, Picture, Quantum, Window
from probe import ROWS, Probe, State, Table
from table_text import Row

MOST_SLOTS = 2_000  # in one picture
PICKED, NOT_READY = why.PICKED, why.NOT_READY


def drawn(title: str, taken: Table, course: Course, first: int, end: int, probe: Probe) -> Picture:
    """The picture of the slots from `first` up to `end`."""
    rows = tables.plan_of(taken.value).rows
    given, last, shown = split(course.records, first, end)
    windows = windows_of(rows, given, shown, first, end, probe)
    waits = waits_of(taken, first, shown, given, last, probe)
    lines = tuple(
        Line(row.tank, row.cost, row.period, row.phase, row.kind == 1, overlapping(windows[at], first, end), quanta_of(at, given[at], windows[at], first, shown, course), waits[at])
        for at, row in enumerate(rows)
    )
    return Picture(
        title,
        taken.cores,
        first,
        end,
        tuple(record[0] for record in shown),
        lines,
        course.cores is not None,
        course.late if course.late and course.late.time <= end else None,
        (course.refused, words.of_number(course.number)) if course.refused is not None and first <= course.refused < end else None,
        course.notes,
    )


def split(records: Sequence[bytes], first: int, end: int) -> tuple[list[int], bytes, Sequence[bytes]]:
    """How many quanta each row has had before the first slot, the rows of the slot before it, and the records of the slots that are shown."""
    given, last = ROWS * [0], b""
    for record in records[:first]:
        last = record[2:]
        for row in last:
            given[row] += 1
    return given, last, records[first:end]


def windows_of(rows: Sequence[Row], given: Sequence[int], shown: Sequence[bytes], first: int, end: int, probe: Probe) -> list[dict[int, Window]]:
    """The windows of each row, by subtask: those of its quanta, and those that may overlap the slots. Which may is a guess by the row's weight, wide by two
    on both sides; which do is told by the answers.
    """
    subtasks = [
        {*range(max(1, (first - row.phase) * row.cost // row.period - 1), (end - row.phase) * row.cost // row.period + 4)}
        | {*range(given[at] + 1, given[at] + 2 + sum(at in record[2:] for record in shown))}
        for at, row in enumerate(rows)
    ]
    questions = [(at, subtask) for at, asked in enumerate(subtasks) for subtask in sorted(asked)]
    answers = probe.windows((rows[at].cost, rows[at].period, rows[at].phase, subtask) for at, subtask in questions)
    windows: list[dict[int, Window]] = [{} for _ in rows]
    for (at, subtask), answer in zip(questions, answers):
        if answer.number == 0:  # past the last subtask that can be asked for there is none
            windows[at][subtask] = Window(subtask, answer.start, answer.deadline, answer.bit, answer.group)
    return windows


def overlapping(windows: dict[int, Window], first: int, end: int) -> tuple[Window, ...]:
    return tuple(window for window in windows.values() if window.start < end and window.deadline > first)


def quanta_of(row: int, given: int, windows: dict[int, Window], first: int, shown: Sequence[bytes], course: Course) -> tuple[Quantum, ...]:
    """The quanta of a row, which had so many before."""
    quanta: list[Quantum] = []
    for slot, record in enumerate(shown, first):
        if row in record[2:]:
            given += 1
            core = course.cores[slot].get(row) if course.cores else None
            moved = core is not None and course.cores is not None and slot > 0 and has_moved(course.cores[slot - 1], row, core)
            quanta.append(Quantum(windows[given], slot, core, moved))
    return tuple(quanta)


def waits_of(taken: Table, first: int, shown: Sequence[bytes], given: Sequence[int], last: bytes, probe: Probe) -> list[dict[int, str]]:
    """For each row the slots in which it was ready and did not run, with the reason."""
    asked = [(slot, record, row) for slot, record in enumerate(shown, first) for row in range(len(taken.tanks)) if row not in record[2:]]
    states = list(each_state(taken, first, shown, list(given), last))
    questions = ((states[slot - first], record[0], row) for slot, record, row in asked)
    waits: list[dict[int, str]] = [{} for _ in taken.tanks]
    answers = endings.watched(probe.whys(questions), "asking why tanks waited", len(asked))
    for (slot, record, row), answer in zip(asked, answers):
        if answer.number == 0 and answer.reason != NOT_READY:
            said = why.reason(answer, taken, slot, record[0])
            waits[row][slot] = f"was ready in slot {slot}, and by the dispatcher's rules it would have run" if answer.reason == PICKED else said
    return waits


def each_state(taken: Table, first: int, shown: Sequence[bytes], quanta: list[int], last: bytes) -> Iterator[State]:
    """The state before each slot that is shown, by the quanta before the first and the rows of the slot before it."""
    for slot, record in enumerate(shown, first):
        yield taken.at(slot, quanta, last)
        last = record[2:]
        for row in last:
            quanta[row] += 1
