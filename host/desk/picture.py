"""What a drawing shows: rows with their windows, the quanta where they ran, who waited and why, and how it ended. Nothing is decided here: all of it
was answered by the proved code (see schedule.py). The drawings themselves are draw_text.py, draw_svg.py and draw_html.py.
"""
from __future__ import annotations

from dataclasses import dataclass, field
from typing import Mapping


@dataclass(frozen=True)
class Window:
    """A subtask's window: from its start r up to its deadline d, with its bit b and its group deadline D (01, 'Windows')."""

    subtask: int
    start: int
    deadline: int
    bit: int
    group: int


@dataclass(frozen=True)
class Quantum:
    """A quantum that was given: the window of its subtask, the slot in which it ran, and the core, if it is known. It moved if its row ran in the
    slot before, on another core.
    """

    window: Window
    slot: int
    core: int | None = None
    moved: bool = False

    @property
    def early(self) -> bool:
        """It ran before its own window: only an early-release row may."""
        return self.slot < self.window.start


@dataclass(frozen=True)
class Line:
    """A row of the table. The windows are those that overlap the slots that are shown, rising; the quanta are those that ran in these slots, each with
    its own window, which may lie elsewhere. A wait is a slot in which the row was ready and did not run, with the reason in words.
    """

    tank: int
    cost: int
    period: int
    phase: int
    early_release: bool
    windows: tuple[Window, ...]
    quanta: tuple[Quantum, ...]
    waits: Mapping[int, str] = field(default_factory=dict)


@dataclass(frozen=True)
class Late:
    """A row that is late at a time: the deadline of its next subtask is there, and the subtask has not run."""

    row: int
    time: int


@dataclass(frozen=True)
class Picture:
    """The slots from `first` up to, not including, `end`, with the number of free cores of each that has run (there are fewer than the slots if the run
    ended before). `title` says what is drawn; `notes` are sentences that stand below it: how it ended, and what is not known. `late` is the row that was
    late, if its time is at most `end`; `refused` the slot that was refused, with its words, if it lies among those shown.
    """

    title: str
    cores: int
    first: int
    end: int
    free: tuple[int, ...]
    lines: tuple[Line, ...]
    cores_known: bool
    late: Late | None = None
    refused: tuple[int, str] | None = None
    notes: tuple[str, ...] = ()
