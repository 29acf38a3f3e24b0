"""A client of the probe (crates/probe, docs/PROBE.md): it builds requests and takes answers apart. It judges nothing: whether a table is taken, who
runs and on which core, who waits and why, who is late and what is refused is what the probe answers.

Numbers are little-endian. A table value is its format (1), L (4), M (1), 8 board numbers, n (1) and 32 rows of 9 bytes; a placement a count (1), 8 rows
and 8 cores; a state a table value, the time (8), a stopped mark (1), 32 quanta (8 each), and the placement of the last slot.
"""
from __future__ import annotations

import struct
import subprocess
from dataclasses import dataclass
from typing import Any, Iterable, Iterator, Sequence

import building
from trouble import Trouble

CORES, ROWS, ROW = 8, 32, 9  # places for cores and for rows, and the bytes of a row
CORE_COUNT_AT = 1 + 4
ROW_COUNT_AT = CORE_COUNT_AT + 1 + CORES
ROWS_AT = ROW_COUNT_AT + 1
TABLE_VALUE = ROWS_AT + ROWS * ROW
TIME_AT = TABLE_VALUE
MEMORY_AT = TIME_AT + 8 + 1 + ROWS * 8
PLACEMENT = 1 + CORES + CORES
STATE = MEMORY_AT + PLACEMENT
RECORD = 2 + CORES  # the longest record of a slot: each slot is lent a buffer of this length, with place 0
LONGEST_TABLE = 1 + 4 + 1 + CORES + 1 + ROWS * ROW  # bytes: each table that is written is lent a buffer of this length
REQUEST_LIMIT = 1 << 20  # the most bytes that the probe reads

TABLE_HEAD = struct.Struct(f"<BIB{CORES}sB")  # of a table value: format, cycle, cores, board numbers, row count; the rows follow
ROW_PARTS = struct.Struct("<HHHHB")  # tank, cost, period, phase, kind
STATE_PARTS = struct.Struct(f"<{TABLE_VALUE}sQB{ROWS}Q{PLACEMENT}s")  # table value, time, stopped, quanta, memory
TABLE_REQUEST = struct.Struct("<cI")  # T, length; the table's bytes follow
TABLE_ANSWER = struct.Struct(f"<B{TABLE_VALUE}s")  # number, table value
SLOT_REQUEST = struct.Struct(f"<c{STATE}sIQI{RECORD}s")  # K, state, set of free cores, place, length, buffer
SLOT_ANSWER = struct.Struct(f"<BBQ{PLACEMENT}s{STATE}s{RECORD}s")  # number, row, time, placement, state, buffer
WHY_REQUEST = struct.Struct(f"<c{STATE}sBB")  # Y, state, number of free cores, row
WHY_ANSWER = struct.Struct("<BBQBB")  # number, reason, first slot, row, rule
CHECK_REQUEST = struct.Struct("<cI")  # C, length; the table's bytes follow, and behind them
CHECK_TRACE = struct.Struct("<I")  # length; the trace's bytes follow
CHECK_ANSWER = struct.Struct("<BBQ")  # number, row, time
WINDOW_REQUEST = struct.Struct("<cHHHQ")  # W, cost, period, phase, subtask
WINDOW_ANSWER = struct.Struct("<BQQBQ")  # number, start, deadline, bit, group deadline
WRITE_REQUEST = struct.Struct(f"<c{TABLE_VALUE}sI{LONGEST_TABLE}s")  # P, table value, length, buffer
WRITE_ANSWER = struct.Struct(f"<BQ{LONGEST_TABLE}s")  # number, bytes written, buffer

LATE = 1  # the answer of a slot after which a row is late; 0 is done, and any number above is a refusal

RUN = (str(building.HOST / "run"), "probe")


@dataclass(frozen=True)
class Placement:
    """The rows of a slot, each with its core, as pairs in the order in which the probe names them."""

    pairs: tuple[tuple[int, int], ...]

    @classmethod
    def of(cls, raw: bytes) -> Placement:
        count = raw[0]
        if count > CORES:
            raise Trouble(f"the probe names {count} rows in one slot, and there are {CORES} cores at most")
        return cls(tuple(zip(raw[1 : 1 + count], raw[1 + CORES : 1 + CORES + count])))


def remembered(rows: Sequence[int]) -> bytes:
    """The memory of a slot of which only the rows are known, as a trace has them: they are given the cores 0, 1, .., on which no pick hangs. Of more rows
    than there are places for, the first stand there: their count alone makes the state broken.
    """
    placed = bytes(rows[:CORES])
    return bytes([len(rows)]) + placed.ljust(CORES, b"\0") + bytes(range(len(placed))).ljust(CORES, b"\0")


@dataclass(frozen=True)
class State:
    """A state as the probe gave it, handed back to it unread; only what a listing shows is looked at."""

    raw: bytes

    @property
    def time(self) -> int:
        return int.from_bytes(self.raw[TIME_AT : TIME_AT + 8], "little")

    @property
    def memory(self) -> Placement:
        """Which row ran on which core in the last slot."""
        return Placement.of(self.raw[MEMORY_AT:])


@dataclass(frozen=True)
class Table:
    """What the probe answered about a table: 0 and its value, or why it is refused and a value that is all 0."""

    number: int
    value: bytes

    @property
    def cores(self) -> int:
        return self.value[CORE_COUNT_AT]

    @property
    def tanks(self) -> tuple[int, ...]:
        """The tank of each row."""
        return tuple(self.tank(row) for row in range(self.value[ROW_COUNT_AT]))

    def tank(self, row: int) -> int:
        if row >= ROWS:
            raise Trouble(f"the probe names row {row}, and a table has {ROWS} rows at most")
        at = ROWS_AT + ROW * row
        return int.from_bytes(self.value[at : at + 2], "little")

    def fresh(self) -> State:
        """Time 0, no quanta given, nobody remembered."""
        return self.at(0, ROWS * (0,), ())

    def at(self, time: int, quanta: Sequence[int], last: Sequence[int]) -> State:
        """Not stopped; of the quanta there are 32, one number for each place for a row. `last` has the rows of the slot before, on which the picks of a
        table of format 2 hang.
        """
        return State(STATE_PARTS.pack(self.value, time, 0, *quanta, remembered(last)))


@dataclass(frozen=True)
class Slot:
    """What the probe answered for one slot. `row` and `time` name the late row, if the number is 1. The record is the one that was written, if it
    was not refused.
    """

    number: int
    row: int
    time: int
    placement: Placement
    state: State
    record: bytes


@dataclass(frozen=True)
class Why:
    """Why a row waits in the slot about to run (02, Two): 0, the reason and what belongs to it, or the number of a refusal."""

    number: int
    reason: int
    first_slot: int
    row: int
    rule: int


@dataclass(frozen=True)
class Check:
    """What the trace check answered. `row` and `time` belong to 44 and 45."""

    number: int
    row: int
    time: int


@dataclass(frozen=True)
class Window:
    """What the probe answered about a window (01, 'Windows'): 0 and r, d, b and D, or why it is refused and zeros."""

    number: int
    start: int
    deadline: int
    bit: int
    group: int


@dataclass(frozen=True)
class Written:
    """What the probe answered about a table value that it was to write: 0 and the table's bytes, or why it is refused and none."""

    number: int
    table: bytes


def first_cores(k: int) -> int:
    """A number k of free cores as a set: the first k. A set has 32 bits; one that names a core which the table has not is the probe's to refuse."""
    return (1 << min(k, 32)) - 1


class Probe:
    """The program, and the requests that it is asked here."""

    def __init__(self, command: Sequence[str] = RUN) -> None:
        self.command = command

    def read_table(self, table: bytes) -> Table:
        return self.read_tables([table])[0]

    def read_tables(self, tables: Iterable[bytes]) -> list[Table]:
        requests = (TABLE_REQUEST.pack(b"T", len(table)) + table for table in tables)
        return [Table(*answer) for answer in self.ask_all(requests, TABLE_ANSWER)]

    def windows(self, questions: Iterable[tuple[int, int, int, int]]) -> list[Window]:
        """The windows of subtasks, each asked for by cost, period, phase and its number."""
        return [Window(*answer) for answer in self.ask_all((WINDOW_REQUEST.pack(b"W", *question) for question in questions), WINDOW_ANSWER)]

    def run_slot(self, state: State, free: int) -> Slot:
        """One slot; bit c of `free` says that core c is free."""
        request = SLOT_REQUEST.pack(b"K", state.raw, free, 0, RECORD, bytes(RECORD))
        answer = self.ask(request, SLOT_ANSWER.size)
        number, row, time, placement, after, buffer = SLOT_ANSWER.unpack(answer)
        return Slot(number, row, time, Placement.of(placement), State(after), buffer[: 2 + buffer[1]])

    def why(self, state: State, k: int, row: int) -> Why:
        """Why a row waits in the slot about to run, with k cores free."""
        return next(self.whys([(state, k, row)]))

    def whys(self, questions: Iterable[tuple[State, int, int]]) -> Iterator[Why]:
        """The same for many, each asked for by a state, k and a row; answered as they come."""
        requests = (WHY_REQUEST.pack(b"Y", state.raw, k, row) for state, k, row in questions)
        return (Why(*answer) for answer in self.ask_all(requests, WHY_ANSWER))

    def check(self, table: bytes, trace: bytes) -> Check | None:
        """The trace check, or none if the two are longer than the probe reads."""
        if CHECK_REQUEST.size + len(table) + CHECK_TRACE.size + len(trace) > REQUEST_LIMIT:
            return None
        return self.checks([(table, trace)])[0]

    def checks(self, questions: Iterable[tuple[bytes, bytes]]) -> list[Check]:
        """The trace check of tables with short traces."""
        requests = (CHECK_REQUEST.pack(b"C", len(table)) + table + CHECK_TRACE.pack(len(trace)) + trace for table, trace in questions)
        return [Check(*answer) for answer in self.ask_all(requests, CHECK_ANSWER)]

    def write_tables(self, values: Sequence[bytes]) -> list[Written]:
        """The bytes of each of some table values, asked for in one run."""
        requests = (WRITE_REQUEST.pack(b"P", value, LONGEST_TABLE, bytes(LONGEST_TABLE)) for value in values)
        return [Written(number, buffer[:length]) for number, length, buffer in self.ask_all(requests, WRITE_ANSWER)]

    def ask_all(self, requests: Iterable[bytes], answer: struct.Struct) -> Iterator[tuple[Any, ...]]:
        """The answers to requests of one kind, as many of them in a run as the probe reads."""
        run: list[bytes] = []
        size = 0
        for request in requests:
            if run and size + len(request) > REQUEST_LIMIT:
                yield from answer.iter_unpack(self.ask(b"".join(run), answer.size * len(run)))
                run, size = [], 0
            run.append(request)
            size += len(request)
        if run:
            yield from answer.iter_unpack(self.ask(b"".join(run), answer.size * len(run)))

    def ask(self, request: bytes, length: int) -> bytes:
        """The answer to one request, or to several one behind the other, which has `length` bytes.

        The probe reads all its requests before it answers, and a slot needs the state that the one before gave back: so what goes slot by slot is
        asked of the archive (archive.py), and not of one process for each slot.
        """
        if self.command is RUN:
            building.need("probe")
        try:
            run = subprocess.run(self.command, input=request, capture_output=True)
        except OSError as error:
            raise Trouble(f"the probe does not start: {error}") from None
        if run.returncode != 0:
            said = " ".join(run.stderr.decode(errors="replace").split())
            raise Trouble(said or f"the probe ended with status {run.returncode}")
        if len(run.stdout) != length:
            letter = request[:1].decode()
            raise Trouble(f"the probe is of another version, or was cut short: {len(run.stdout)} bytes answer {letter}, not {length}")
        return run.stdout
