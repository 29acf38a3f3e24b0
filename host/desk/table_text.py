"""The text form of a table: CSV, which every office tool can save. It is read into a plan, with the lines on which the plan's parts stand, and a
plan is written as such a text. Only the form is judged here, and whether a number fits its field in the bytes: whether a table is taken is for
the proved writer to say. docs/TABLES.md tells planners what the form is.
"""
from __future__ import annotations

import codecs
import csv
import io
import itertools
import math
import re
from dataclasses import dataclass
from typing import Callable, Iterable, Iterator, NamedTuple

TEXT_LIMIT = 1 << 20  # bytes; a full table takes about a thousand
FORMAT_MOST, CYCLE_MOST, BOARD_MOST = 0xFF, 0xFFFF_FFFF, 0xFF  # what the fields of a format, a cycle and a board number hold at most
FORMAT_LEFT_OUT = 1  # what a text means that has no line of format
MOST = {"tank": 0xFFFF, "cost": 0xFFFF, "period": 0xFFFF, "phase": 0xFFFF, "kind": 0xFF}  # the columns that are read, and what their fields hold
LEFT_OUT = {"phase": "0", "kind": "plain"}  # what is read where the column is missing or the cell is empty; the others must be there
KINDS = {"plain": 0, "early release": 1, "early-release": 1, "early": 1}
KIND_WORDS = {0: "plain", 1: "early release"}

SEPARATOR = re.compile(r'(?:"[^"]*"|[^",;\t])*([,;\t])')  # the first that stands outside quotes


class Row(NamedTuple):
    """A row, by the names of its columns and in the order of its bytes."""

    tank: int
    cost: int
    period: int
    phase: int
    kind: int


@dataclass(frozen=True)
class Plan:
    """A cycle, a board number for each core, rows, and a format: what a table holds, in any number, whether it would be taken or not."""

    cycle: int
    boards: tuple[int, ...]
    rows: tuple[Row, ...]
    format: int = FORMAT_LEFT_OUT


@dataclass(frozen=True)
class Typed:
    """A plan as it was typed: the line of each of its parts, or none where the cycle, the boards or the format were left out; and the names of the
    columns that are not read.
    """

    plan: Plan
    cycle_line: int | None
    boards_line: int | None
    row_lines: tuple[int, ...]
    not_read: tuple[str, ...] = ()
    format_line: int | None = None


class Fault(Exception):
    """What is wrong with a text, or with the table in it, and where; with 01's number, and what it is about, if it is a refusal."""

    def __init__(self, words: str, line: int | None = None, column: str | None = None, number: int | None = None, detail: str = "") -> None:
        super().__init__(words)
        self.words, self.line, self.column, self.number, self.detail = words, line, column, number, detail

    def __str__(self) -> str:
        return self.placed(self.words)

    def placed(self, words: str) -> str:
        """Words, behind the place."""
        place = ", ".join(([f"line {self.line}"] if self.line else []) + ([self.column] if self.column else []))
        return f"{place}: {words}" if place else words


def read(data: bytes) -> Typed:
    """The plan that a text holds, or the first fault from its front."""
    lines = list(io.StringIO(decoded(data), newline=""))  # cut at CR LF, LF and CR, and kept as they are: a quoted cell may hold some
    above: dict[str, tuple[int, tuple[int, ...]]] = {}
    names: list[str] = []
    rows: list[tuple[int, Row]] = []
    for line, cells in records(lines, separator(lines), strict=True):
        word = cells[0].lower()
        if names and word in ABOVE and names[0] in MOST:  # in a column of names it would be a name
            raise Fault("this line must stand above the line of column names", line, word)
        if names:
            rows.append((line, typed_row(cells, names, line)))
        elif word not in ABOVE or names_columns(cells[1:]):
            names = column_names(cells, line)
        elif word in above:
            raise Fault(f"line {above[word][0]} says this already", line, word)
        else:
            above[word] = line, ABOVE[word](cells[1:], line)
    cycle_line, cycle = above.get("cycle", (None, (least_common_multiple(row.period for _, row in rows),)))
    boards_line, boards = above.get("boards", (None, ()))
    format_line, format = above.get("format", (None, (FORMAT_LEFT_OUT,)))
    plan = Plan(cycle[0], boards, tuple(row for _, row in rows), format[0])
    not_read = tuple(name for name in names if name and name not in MOST)
    return Typed(plan, cycle_line, boards_line, tuple(line for line, _ in rows), not_read, format_line)


def decoded(data: bytes) -> str:
    if len(data) > TEXT_LIMIT:
        raise Fault(f"the text is longer than {TEXT_LIMIT} bytes, and no table needs so many")
    wide = data.startswith((codecs.BOM_UTF16_LE, codecs.BOM_UTF16_BE))
    name, encoding = ("UTF-16", "utf-16") if wide else ("UTF-8", "utf-8-sig")
    try:
        text = data.decode(encoding)
    except UnicodeDecodeError as error:
        before = error.object[: error.start].decode(encoding, "replace")
        raise Fault(f"what stands there is not {name}; save the text as UTF-8", last_line(before)) from None
    before, nul, _ = text.partition("\0")
    if nul:
        raise Fault("a NUL stands there: this is no text in UTF-8, nor in UTF-16 with a byte order mark", last_line(before))
    return text


def last_line(text: str) -> int:
    """The number of a text's last line."""
    return 1 + len(re.findall(r"\r\n|\r|\n", text))


def separator(lines: list[str]) -> str:
    """What separates the cells of this text: office tools choose it by language. It is the first comma, semicolon or tab of the first line that
    has one and is no comment.
    """
    for line, _ in records(lines, ",", strict=False):
        if found := SEPARATOR.match(lines[line - 1]):
            return found[1]
    return ","


def records(lines: list[str], separator: str, strict: bool) -> Iterator[tuple[int, list[str]]]:
    """The lines that have cells, with their numbers: no comments, no empty ones. Of a quoted cell that goes over several lines the first counts."""
    rest, line = iter(lines), 1
    for first in rest:
        if not first.strip() or first.lstrip(" ").startswith("#"):  # before quotes are looked for: in a comment they stand as they please
            line += 1
            continue
        reader = csv.reader(itertools.chain([first], rest), delimiter=separator, strict=strict)
        try:
            cells = [cell.strip() for cell in next(reader)]
        except csv.Error as error:
            raise Fault(f"the line cannot be cut into cells ({error}); is a quote left open?", line) from None
        while cells and not cells[-1]:  # spreadsheets fill lines up with empty cells
            cells.pop()
        if cells and not cells[0].startswith("#"):
            yield line, cells
        line += reader.line_num


def names_columns(cells: list[str]) -> bool:
    """A column of the planner's own may have any name, also that of a line above the rows."""
    return any(cell.lower() in MOST for cell in cells)


def column_names(cells: list[str], line: int) -> list[str]:
    names = [cell.lower() for cell in cells]
    if not names_columns(cells):
        if re.fullmatch("[0-9]+", names[0]):
            raise Fault("a row stands above the line of column names", line)
        raise Fault(f"{quoted(cells[0])} is neither format, cycle nor boards, and this is no line of column names (tank, cost, period)", line)
    for name in MOST:
        if names.count(name) > 1:
            raise Fault("two columns have this name", line, name)
        if name not in names and name not in LEFT_OUT:
            raise Fault("no column has this name", line, name)
    return names


def typed_row(cells: list[str], names: list[str], line: int) -> Row:
    for cell, name in itertools.zip_longest(cells, names, fillvalue=""):
        if cell and not name:
            raise Fault(f"{quoted(cell)} stands under no column name", line)  # of a number such as 1,000 the end may stand there
    under = {name: cell for name, cell in zip(names, cells) if cell}
    return Row(*(field(name, under.get(name, LEFT_OUT.get(name, "")), line) for name in Row._fields))


def field(name: str, cell: str, line: int) -> int:
    """The number in a cell of a row; of a kind also its word."""
    if name == "kind" and not re.fullmatch("[0-9]+", cell):
        if cell.lower() not in KINDS:
            raise Fault(f"{quoted(cell)} is neither plain nor early release, nor a whole number written in digits", line, name)
        return KINDS[cell.lower()]
    return fitting(cell, MOST[name], line, name)


def fitting(cell: str, most: int, line: int, column: str) -> int:
    number = natural(cell, line, column)
    if number > most:
        raise Fault(f"{quoted(cell)} does not fit: the field holds {most} at most", line, column)
    return number


def natural(cell: str, line: int, column: str) -> int:
    """A number written in decimal digits. Of very many digits the first eleven: these show already that it is above what any field holds."""
    if not cell:
        raise Fault("the cell is empty, and a number must be there", line, column)
    if not re.fullmatch("[0-9]+", cell):
        raise Fault(f"{quoted(cell)} is not a whole number written in digits", line, column)
    return int(cell.lstrip("0")[:11] or "0")


def quoted(cell: str) -> str:
    """A cell for a sentence: no longer than one can read, and without what would spoil a line."""
    return repr(cell if len(cell) <= 40 else f"{cell[:40]}..")


def format_number(cells: list[str], line: int) -> tuple[int]:
    return only_number(cells, line, "format")


def cycle_number(cells: list[str], line: int) -> tuple[int]:
    return only_number(cells, line, "cycle")


def only_number(cells: list[str], line: int, word: str) -> tuple[int]:
    """The one number behind a word. If it is above its field, only that it is so need be right: see `natural`."""
    if len(cells) > 1:
        raise Fault(f"one number stands here, and not {quoted(cells[-1])} too", line, word)
    return (natural(cells[0] if cells else "", line, word),)


def board_numbers(cells: list[str], line: int) -> tuple[int, ...]:
    return tuple(fitting(cell, BOARD_MOST, line, "boards") for cell in cells)


# The words above the rows.
ABOVE: dict[str, Callable[[list[str], int], tuple[int, ...]]] = {"format": format_number, "cycle": cycle_number, "boards": board_numbers}


def least_common_multiple(periods: Iterable[int]) -> int:
    """The cycle where none was typed; once above what its field holds, some number above that. A period of 0, which has no multiple but 0, is passed
    by, so that the writer comes to its row and names it.
    """
    least = 1
    for period in periods:
        if period and least <= CYCLE_MOST:
            least = math.lcm(least, period)
    return least


def text(plan: Plan) -> str:
    """The plan in the one spelling that this module writes. A format that would be read without its line has none: so texts of format 1 are as ever."""
    format = [f"format,{plan.format}"] if plan.format != FORMAT_LEFT_OUT else []
    head = [f"cycle,{plan.cycle}", ",".join(["boards", *map(str, plan.boards)]), ",".join(Row._fields)]
    rows = [",".join([*map(str, row[:-1]), KIND_WORDS.get(row.kind, str(row.kind))]) for row in plan.rows]
    return "".join(f"{line}\n" for line in format + head + rows)
