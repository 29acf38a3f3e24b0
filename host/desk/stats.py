"""Numbers of a trace, by tank: quanta, waits, starts after a pause, the response of each job, and moves where the cores are known. They are counts of what
the trace says; when a row was ready, and when its jobs were released, are the probe's answers.
"""
from __future__ import annotations

import itertools
from dataclasses import dataclass, field
from typing import Iterator, NamedTuple, Sequence

import endings
import tables
import words
from cores import has_moved
from course import Course
from probe import ROWS, Probe, State, Table
from table_text import Row
from why import NOT_READY


class Job(NamedTuple):
    """A job that is done: when it was released, and the time at which its last quantum had run."""

    number: int
    released: int
    done: int

    @property
    def response(self) -> int:
        return self.done - self.released


@dataclass
class Tank:
    """What is counted of a row. It waits in a slot in which it is ready and does not run; a wait is a run of such slots. It starts in a slot in which it
    runs, and did not run in the slot before. It moves as request One of 02 has it.
    """

    row: Row
    slots: list[int] = field(default_factory=list)  # in which it ran
    waited: int = 0
    longest: int = 0
    jobs: list[Job] = field(default_factory=list)
    moves: int = 0

    @property
    def starts(self) -> int:
        return sum(slot - 1 != before for before, slot in zip([-2, *self.slots], self.slots))


class Turn(NamedTuple):
    """A time at which a row's next quantum became the next: the row, the time, and the state there."""

    row: int
    time: int
    state: State


def counted(taken: Table, course: Course, probe: Probe) -> list[Tank]:
    """The numbers of each row."""
    found = [Tank(row) for row in tables.plan_of(taken.value).rows]
    for slot, record in enumerate(course.records):
        for row in record[2:]:
            found[row].slots.append(slot)
    count_waits(found, taken, course, probe)
    count_jobs(found, probe)
    before: dict[int, int] = {}
    for now in course.cores or ():
        for row, core in now.items():
            found[row].moves += has_moved(before, row, core)
        before = now
    return found


def count_waits(found: Sequence[Tank], taken: Table, course: Course, probe: Probe) -> None:
    """Once a row has had a quantum it is asked when the next can run at the earliest: with no core free it is either not ready, with the first slot in
    which it is, or it is ready.
    """
    turns, asked = itertools.tee(each_turn(taken, course))  # no more of them are kept than the probe is asked at once: a state has 585 bytes
    answers = probe.whys((turn.state, 0, turn.row) for turn in asked)
    total = len(found) + sum(len(tank.slots) for tank in found)
    ran = [iter([*tank.slots, len(course.records)]) for tank in found]
    for turn, answer in endings.watched(zip(turns, answers), "asking when tanks were ready", total):
        until = next(ran[turn.row])
        if answer.number != 0:
            continue  # a state that is late has no answer, and nothing runs after it
        ready = answer.first_slot if answer.reason == NOT_READY else turn.time
        tank = found[turn.row]
        tank.waited += max(0, until - ready)
        tank.longest = max(tank.longest, until - ready)


def each_turn(taken: Table, course: Course) -> Iterator[Turn]:
    """The start, and the time after each quantum, in the order of time."""
    quanta = ROWS * [0]
    state = taken.fresh()
    yield from (Turn(row, 0, state) for row in range(len(taken.tanks)))
    for slot, record in enumerate(course.records):
        for row in record[2:]:
            quanta[row] += 1
        state = taken.at(slot + 1, quanta, record[2:])
        yield from (Turn(row, slot + 1, state) for row in record[2:])


def count_jobs(found: Sequence[Tank], probe: Probe) -> None:
    """A job is 'e quanta in a row'. It is released where the window of its first quantum begins."""
    done = [(tank, job) for tank in found for job in range(1, 1 + len(tank.slots) // tank.row.cost)]
    firsts = probe.windows((tank.row.cost, tank.row.period, tank.row.phase, 1 + (job - 1) * tank.row.cost) for tank, job in done)
    for (tank, job), window in endings.watched(zip(done, firsts), "asking when jobs were released", len(done)):
        tank.jobs.append(Job(job, window.start, tank.slots[job * tank.row.cost - 1] + 1))


COLUMNS = ("tank", "weight", "quanta", "waited", "longest", "starts", "jobs", "least", "mean", "most", "moves")


def lines(found: Sequence[Tank], course: Course) -> Iterator[str]:
    """The table of numbers, and what its columns are."""
    rows = [COLUMNS, *(cells(tank, course.cores is not None) for tank in found)]
    widths = [max(len(row[column]) for row in rows) for column in range(len(COLUMNS))]
    free, used = sum(record[0] for record in course.records), sum(len(record) - 2 for record in course.records)
    starts = words.counted(sum(tank.starts for tank in found), "start")
    yield f"{words.counted(len(course.records), 'slot')}; {used} of {free} free core slots used; {starts}"
    for row in rows:
        yield "  ".join(cell.rjust(width) for cell, width in zip(row, widths)).rstrip()
    yield "waited: slots in which the tank was ready and did not run, longest: most of them one after another; starts: slots in which it ran and had not run in"
    yield "the slot before; least, mean, most: slots from the release of a job to its end, of the jobs that were done"


def cells(tank: Tank, cores_known: bool) -> tuple[str, ...]:
    responses = [job.response for job in tank.jobs]
    shown = (str(min(responses)), f"{sum(responses) / len(responses):.1f}", str(max(responses))) if responses else ("-", "-", "-")
    numbers = (len(tank.slots), tank.waited, tank.longest, tank.starts, len(tank.jobs))
    weight = f"{tank.row.cost}/{tank.row.period}"
    return (str(tank.row.tank), weight, *map(str, numbers), *shown, str(tank.moves) if cores_known else "unknown")


def job_lines(found: Sequence[Tank]) -> Iterator[str]:
    for tank in found:
        for job in tank.jobs:
            yield f"tank {tank.row.tank} job {job.number}: released {job.released}, done {job.done}, response {job.response}"
