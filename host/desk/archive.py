"""A client of the archive (crates/desk_run) behind host/desk/run.c: many slots in one call, each with its own number of free cores, and the trace
check of a trace of any length. Like probe.py it judges nothing.
"""
from __future__ import annotations

import contextlib
import struct
import subprocess
import tempfile
from dataclasses import dataclass
from typing import IO, Iterator, Protocol, Sequence

import building
import endings
from probe import CORES, LATE, RECORD, Check
from trouble import Trouble

ENTRY = struct.Struct(f"<{RECORD}s{CORES}sBB")  # of each slot: its record, the core of each picked row, the number and the row of its answer
DOES = {"run": "running slots", "judge": "checking the trace"}
PLACE = struct.Struct("<BBQ")  # number, row, time
COMMAND = (str(building.HOST / "run"), "desk")


@dataclass(frozen=True)
class Ran:
    """What a slot answered: its number, the row that is late after it, its record, and its rows with the core of each."""

    number: int
    row: int
    record: bytes
    pairs: tuple[tuple[int, int], ...]

    @property
    def cores(self) -> dict[int, int]:
        """The core of each row."""
        return dict(self.pairs)


def entry_of(entry: bytes) -> Ran:
    """What stands in an entry. With a refusal no record was written."""
    if len(entry) != ENTRY.size:
        raise Trouble("the archive was cut short")
    record, cores, number, row = ENTRY.unpack(entry)
    if number > LATE:
        return Ran(number, row, b"", ())
    if record[1] > CORES:
        raise Trouble(f"the archive names {record[1]} rows in one slot, and there are {CORES} cores at most")
    whole = record[: 2 + record[1]]
    return Ran(number, row, whole, tuple(zip(whole[2:], cores)))


class Readable(Protocol):
    """What can be read part by part: a file, or the start of a trace."""

    def read(self, most: int) -> bytes: ...


class Archive:
    """The program, and what it is asked here."""

    def __init__(self, command: Sequence[str] = COMMAND) -> None:
        self.command = command

    def run(self, table: bytes, listed: bytes) -> Iterator[Ran]:
        """Slot after slot from a fresh state, with the first listed[i] cores free in slot i; up to the first that is not answered with 0, and with it."""
        with self.answered("run", table, [listed]) as answers:
            for _ in listed:
                ran = entry_of(answers.read(ENTRY.size))
                yield ran
                if ran.number != 0:
                    return

    def check(self, table: bytes, trace: Readable) -> Check:
        """The trace check, of what is left to read of a trace."""
        with self.answered("judge", table, iter(lambda: trace.read(1 << 20), b"")) as answers:
            answer = answers.read()
        if len(answer) != PLACE.size:
            raise Trouble("the archive was cut short")
        return Check(*PLACE.unpack(answer))

    @contextlib.contextmanager
    def answered(self, word: str, table: bytes, parts: Iterator[bytes] | Sequence[bytes]) -> Iterator[IO[bytes]]:
        """What the program writes, from the front on. What it reads is the table and behind it the parts."""
        if self.command is COMMAND:
            building.need("desk")
        # Both go through files that have no name: nobody has to read and write by turns.
        with contextlib.ExitStack() as closed:
            try:
                asked, answers = (closed.enter_context(tempfile.TemporaryFile()) for _ in range(2))
                asked.write(table)
                for part in parts:
                    asked.write(part)
                asked.seek(0)
            except OSError as error:
                raise Trouble(f"there is no room for what the archive is asked: {error.strerror}") from None
            try:
                run = subprocess.Popen([*self.command, word, str(len(table))], stdin=asked, stdout=answers, stderr=subprocess.PIPE)
            except OSError as error:
                raise Trouble(f"the archive does not start: {error}") from None
            said = endings.awaited(run, DOES[word])
            if run.returncode != 0:
                raise Trouble(" ".join(said.split()) or f"the archive ended with status {run.returncode}")
            answers.seek(0)
            yield answers
