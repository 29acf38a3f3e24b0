"""A picture as text, for a terminal and for README.

    slot            0   1   2
    free            2   2   2
    tank 10    2/3  ├██────┤
                        ├██────┤

A slot has four columns, behind the labels. `free` has the k of each slot that has run, and -- at one that was refused. A tank has two lines, on
which the windows of its subtasks stand in turn, ├───┤, each with ██ in the slot in which it ran. A quantum that ran outside its own window stands on
a line below them: ▒▒ before it, ▓▓ past it. ! in place of ┤ is the deadline at which the run stopped as late, and ^ below points to it. With cores,
a quantum shows its core's number, █3, and →3 if it moved there.

Too many slots for one line are folded into bands. A window that goes on in another band has no end at that side.
"""
from __future__ import annotations

import re
from dataclasses import dataclass
from typing import Iterable, Iterator, Sequence

from picture import Line, Picture, Quantum

SLOT = 4  # columns
LABEL = 16  # columns, or as many more as the longest label needs

RAN, EARLY, PAST, MOVED = "█", "▒", "▓", "→"

# What neither a line of text nor an XML document may hold: control characters, halves of characters, and numbers that are no characters.
UNFIT = re.compile("[^ -~\u00a0-\ud7ff\ue000-\ufffd\U00010000-\U0010ffff]")


@dataclass(frozen=True)
class Strip:
    """A line over all slots of a picture: its label, and a cell of four columns for each slot. One that is sparse is left out where it is blank."""

    label: str
    cells: Sequence[str]
    sparse: bool = False

    @property
    def needed(self) -> bool:
        return not self.sparse or not blank(self.cells)


def text(picture: Picture, columns: int, cores: bool = False) -> Iterator[str]:
    """The lines of a drawing that is so many columns wide, without newlines and trailing blanks. With `cores` the quanta show theirs, if they are
    known. A slot is not cut, so that lines are longer where not even one fits behind the labels; and a note is one line, however long.
    """
    strips = [strip for strip in all_strips(picture, cores and picture.cores_known) if strip.needed]
    width = max(LABEL, 1 + max(len(strip.label) for strip in strips))
    step = max(1, (columns - width) // SLOT)
    slots = range(picture.first, picture.end)
    for at in range(0, max(1, len(slots)), step):
        if at > 0:
            yield ""
        yield numbers(slots[at : at + step], width, columns)
        yield from band(strips, slice(at, at + step), width)
    if picture.notes:
        yield ""
        yield from map(plain, picture.notes)


def plain(words: str) -> str:
    """Words from outside as one line that can stand in a text and in a document."""
    return UNFIT.sub("\ufffd", " ".join(words.split()))


def numbers(slots: range, width: int, columns: int) -> str:
    """The line of slot numbers: of each slot, or of each second, fourth, .. if they are so long that they would touch. The first is always there."""
    step = 1
    while slots and step * SLOT <= len(str(slots[-1])):
        step *= 2
    line = f"{'slot':<{width}}"
    for slot in slots[::step]:
        if slot != slots[0] and len(line) + len(str(slot)) > columns:
            break
        line += f"{slot:<{step * SLOT}}"
    return line.rstrip()


def band(strips: Iterable[Strip], part: slice, width: int) -> Iterator[str]:
    """The lines below the slot numbers, for a part of the slots."""
    for strip in strips:
        cells = strip.cells[part]
        if not (strip.sparse and blank(cells)):
            yield f"{strip.label:<{width}}{''.join(cells)}".rstrip()


def blank(cells: Sequence[str]) -> bool:
    return all(cell.isspace() for cell in cells)


def all_strips(picture: Picture, cores: bool) -> Iterator[Strip]:
    yield Strip("free", free_cells(picture))
    for row, line in enumerate(picture.lines):
        late = picture.late.time if picture.late and picture.late.row == row else None
        yield from tank_strips(line, range(picture.first, picture.end), late, cores)


def free_cells(picture: Picture) -> list[str]:
    """The k of each slot; nothing where it has not run."""
    cells = empty(range(picture.first, picture.end))
    for at, k in enumerate(picture.free[: len(cells)]):
        cells[at] = f"{k:<{SLOT}}"
    if picture.refused and picture.first <= picture.refused[0] < picture.end:
        cells[picture.refused[0] - picture.first] = "--  "
    return cells


def empty(slots: range) -> list[str]:
    return [SLOT * " "] * len(slots)


def tank_strips(line: Line, slots: range, late: int | None, cores: bool) -> Iterator[Strip]:
    """The lines of a tank: two for its windows, and others below where something is to be shown on them."""
    yield Strip(f"tank {line.tank:<5} {line.cost}/{line.period}", window_cells(line, 1, slots, late, cores))
    words = kind(line)
    yield Strip(f"  {words}" if words else "", window_cells(line, 0, slots, late, cores))
    yield Strip("  before its window", outside_cells((q for q in line.quanta if q.early), slots, EARLY, cores), sparse=True)
    yield Strip("  past its window", outside_cells(filter(past, line.quanta), slots, PAST, cores), sparse=True)
    if late is not None:
        yield Strip(f"  late at {late}", late_cells(slots, late), sparse=True)


def kind(line: Line) -> str:
    """What a label says of a row below its weight; often nothing."""
    return ", ".join(["early release"] * line.early_release + [f"phase {line.phase}"] * (line.phase != 0))


def past(quantum: Quantum) -> bool:
    """It ran at its deadline or later, which only a trace of another dispatcher can say."""
    return quantum.slot >= quantum.window.deadline


def window_cells(line: Line, turn: int, slots: range, late: int | None, cores: bool) -> list[str]:
    """One of the two lines of windows: of the subtasks whose numbers are odd (turn 1) or even (0). Those of one line never overlap."""
    cells = empty(slots)
    for window in line.windows:
        if window.subtask % 2 == turn:
            for slot in range(max(window.start, slots.start), min(window.deadline, slots.stop)):
                last = "─" if slot < window.deadline - 1 else "!" if window.deadline == late else "┤"
                cells[slot - slots.start] = ("├" if slot == window.start else "─") + "──" + last
    for quantum in line.quanta:
        if quantum.window.subtask % 2 == turn and not quantum.early and not past(quantum):
            at = quantum.slot - slots.start
            cells[at] = cells[at][0] + marked(quantum, RAN, cores) + cells[at][-1]
    return cells


def outside_cells(quanta: Iterable[Quantum], slots: range, mark: str, cores: bool) -> list[str]:
    """Quanta without their windows."""
    cells = empty(slots)
    for quantum in quanta:
        cells[quantum.slot - slots.start] = f" {marked(quantum, mark, cores)} "
    return cells


def marked(quantum: Quantum, mark: str, cores: bool) -> str:
    """The two columns of a quantum."""
    if not cores or quantum.core is None:
        return 2 * mark
    return f"{MOVED if quantum.moved else mark}{quantum.core}"


def late_cells(slots: range, late: int) -> list[str]:
    """A sign below the end of the slot before the time of lateness, if it is among those shown."""
    return ["   ^" if slot == late - 1 else SLOT * " " for slot in slots]
