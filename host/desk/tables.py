"""Tables as farm planners type them and as the box reads them: a text (table_text.py) to the table's bytes, and the bytes back to the text (02, 'Writing
tables'); what is wrong with a table, and where; its load, and how many cores it needs. docs/TABLES.md is the planner's page.

Whether a table is taken, and with which number it is refused, is what the proved writer and the proved reader answer through the probe: no rule of
01 stands here, but the sum of the load, which is only shown. They are also asked where a fault lies (`refusal`, `place`), and how many cores are
enough (`cores_needed`).
"""
from __future__ import annotations

import io
from dataclasses import dataclass, replace
from typing import Sequence

import files
import inputs
import table_text
import words
from probe import CORES, LONGEST_TABLE, ROW, ROW_PARTS, ROWS, ROWS_AT, TABLE_HEAD, TABLE_VALUE, Probe, Table
from table_text import CYCLE_MOST, FORMAT_LEFT_OUT, FORMAT_MOST, TEXT_LIMIT, Fault, Plan, Row, Typed
from trouble import Trouble

COUNT_MOST = 0xFF  # what the fields of the two counts hold at most

ROW_COLUMNS = {16: "tank", 17: "cost", 18: "cost", 19: "period", 20: "kind"}  # where in its row a fault with this number lies


def value_of(plan: Plan) -> bytes:
    """The table value of a plan. For a format, a cycle or a count above its field stands the most that the field holds: the writer refuses either alike.
    Boards and rows for which there are no places are only counted.
    """
    cores, rows = (min(len(part), COUNT_MOST) for part in (plan.boards, plan.rows))
    head = TABLE_HEAD.pack(min(plan.format, FORMAT_MOST), min(plan.cycle, CYCLE_MOST), cores, bytes(plan.boards[:CORES]), rows)
    return (head + b"".join(ROW_PARTS.pack(*row) for row in plan.rows[:ROWS])).ljust(TABLE_VALUE, b"\0")


def plan_of(value: bytes) -> Plan:
    """What a table value holds that was taken."""
    format, cycle, cores, boards, count = TABLE_HEAD.unpack_from(value)
    if cores > CORES or count > ROWS:
        raise Trouble(f"the probe takes a table of {cores} cores and {count} rows, and there are {CORES} and {ROWS} at most")
    rows = ROW_PARTS.iter_unpack(value[ROWS_AT : ROWS_AT + ROW_PARTS.size * count])
    return Plan(cycle, tuple(boards[:cores]), tuple(Row(*row) for row in rows), format)


def taken(table: bytes, probe: Probe) -> Table:
    """A table that the reader takes, or the fault with which it refuses the bytes."""
    read = probe.read_table(table)
    if read.number != 0:
        raise fault(read.number, place(table, read.number, probe))
    return read


def written(typed: Typed, probe: Probe) -> bytes:
    """The bytes that the proved writer writes for a plan, or the fault with which it refuses the plan.

    The writer answers no more than a number. So it is asked in the same run for the boards up to each board, without rows, and for the rows up to
    each row.
    """
    plan = typed.plan
    boards = [replace(plan, boards=plan.boards[:end], rows=()) for end in range(1, 1 + min(len(plan.boards), CORES))]
    rows = [replace(plan, rows=plan.rows[:end]) for end in range(1, 1 + min(len(plan.rows), ROWS))]
    whole, *parts = probe.write_tables([value_of(asked) for asked in (plan, *boards, *rows)])
    if whole.number != 0:
        numbers = [part.number for part in parts]
        raise refusal(whole.number, typed, numbers[: len(boards)], numbers[len(boards) :], probe)
    return whole.table


def refusal(number: int, typed: Typed, boards: Sequence[int], rows: Sequence[int], probe: Probe) -> Fault:
    """The fault that a number names, with its place. `boards` and `rows` are the numbers for the plan cut behind each board and each row: the first
    cut with the same number has the fault in its last board or row.
    """
    plan = typed.plan
    if number == 11 and typed.format_line:
        return fault(number, f"format {up_to(plan.format, FORMAT_MOST)}", typed.format_line, "format")
    if number == 12:
        return fault(number, cycle_words(typed), typed.cycle_line, "cycle")
    if number == 13:
        there = words.counted(len(plan.boards), "board")
        return fault(number, there if typed.boards_line else "there is no line of boards", typed.boards_line, "boards")
    if number == 14 and number in boards:
        at = boards.index(number)
        return fault(number, f"board {plan.boards[at]} after board {plan.boards[at - 1]}", typed.boards_line, "boards")
    if number == 15 and len(plan.rows) > ROWS:
        return fault(number, words.counted(len(plan.rows), "row"), typed.row_lines[ROWS])
    if number in ROW_COLUMNS and number in rows:
        at = rows.index(number)
        return fault(number, row_words(number, plan, at), typed.row_lines[at], ROW_COLUMNS[number])
    if number == 22:
        return fault(number, f"{load(plan)}; {would_need(plan, probe)}")
    raise Trouble(f"the probe is of another version, or contradicts itself: it refuses a table with number {number}")


def fault(number: int, detail: str, line: int | None = None, column: str | None = None) -> Fault:
    return Fault(f"{words.of_number(number)} ({detail})", line, column, number, detail)


def up_to(number: int, most: int) -> str:
    """A number that was typed; of one above its field only that it is so is right."""
    return str(number) if number <= most else f"more than {most}"


def cycle_words(typed: Typed) -> str:
    cycle = up_to(typed.plan.cycle, CYCLE_MOST)
    return f"cycle {cycle}" if typed.cycle_line else f"left out, so it is the least common multiple of the periods, {cycle}"


def row_words(number: int, plan: Plan, at: int) -> str:
    """The numbers of a row that a refusal is about."""
    row = plan.rows[at]
    return {
        16: f"tank {row.tank} after tank {plan.rows[at - 1].tank}",
        17: f"cost {row.cost}",
        18: f"cost {row.cost}, period {row.period}",
        19: f"period {row.period}, cycle {plan.cycle}",
        20: f"kind {row.kind}",
    }[number]


def load(plan: Plan) -> str:
    """What the rows take of what the cores give in a cycle, where each period divides the cycle."""
    asked = sum(row.cost * (plan.cycle // row.period) for row in plan.rows)
    given = len(plan.boards) * plan.cycle
    quanta = "quantum" if given == 1 else "quanta"
    cycle, cores = words.counted(plan.cycle, "slot"), words.counted(len(plan.boards), "core")
    return f"load {asked} of {given} {quanta} in a cycle of {cycle} on {cores}: {left(given - asked)}"


def left(quanta: int) -> str:
    if quanta <= 0:
        return f"{-quanta} too many" if quanta else "nothing is left"
    return "1 is left" if quanta == 1 else f"{quanta} are left"


def hex_text(table: bytes, plan: Plan) -> str:
    """The bytes that were written for a plan as hex text, part by part, as examples/tank-14.hex has it."""
    cores, rows = len(plan.boards), len(plan.rows)
    parts = [
        ([1, 4], f"format {table[0]}, cycle {plan.cycle}"),
        ([1] * (1 + cores), "1 core, with its board number" if cores == 1 else f"{cores} cores, with their board numbers"),
        ([1], f"{words.counted(rows, 'row')}: {', '.join(Row._fields)}"),
        *(([2, 2, 2, 2, 1], row_comment(row)) for row in plan.rows),
    ]
    file = io.BytesIO(table)
    return "".join(f"{' '.join(file.read(length).hex().upper() for length in lengths)}   # {comment}\n" for lengths, comment in parts)


def row_comment(row: Row) -> str:
    phase = f", phase {row.phase}" if row.phase else ""
    return f"tank {row.tank}: {row.cost}/{row.period}{phase}{'' if row.kind == 0 else ', early release'}"


@dataclass(frozen=True)
class Source:
    """A table as a file has it: its bytes, which may be refused; the text that was typed, if it is one; and what else is asked for, if the file is an
    input of the slot printer.
    """

    name: str
    table: bytes
    typed: Typed | None = None
    asked: inputs.Asked | None = None


def source(name: str, probe: Probe) -> Source:
    """What a file holds: bytes or hex text of a table or of a printer's input, or a typed table, which is written. What the reader takes as a table is
    one, whatever else it could be.
    """
    content = files.read(name, TEXT_LIMIT)
    if content.is_text:
        typed = table_text.read(content.data)
        return Source(name, written(typed, probe), typed)
    table = content.data[: inputs.INPUT_LIMIT + 1]  # of very many bytes, as many as tell the reader that they are too many
    asked = inputs.split(content.data)
    if asked is not None and probe.read_table(table).number != 0:
        return Source(name, asked.table, asked=asked)
    return Source(name, table)


def cores_needed(table: bytes, probe: Probe) -> int | None:
    """The fewest cores with which the reader takes the same rows, or none if eight are not enough: it is asked of the table with 1, 2, .. cores."""
    rest = table[6 + table[5] :]
    asked = (table[:5] + bytes([cores, *range(cores)]) + rest for cores in range(1, 1 + CORES))
    numbers = [read.number for read in probe.read_tables(asked)]
    return 1 + numbers.index(0) if 0 in numbers else None


def never_late(table: bytes, plan: Plan, probe: Probe) -> str:
    """Whether a table that is taken can ever be late, and whether with one core held back (docs/NEVER-LATE.md)."""
    needed, cores = cores_needed(table, probe), len(plan.boards)
    if needed is None or needed > cores:
        raise Trouble("the probe contradicts itself: it takes a table, and not with fewer cores than it has, nor with as many")
    if cores == 1:
        enough, held_back = "the core is", ""
    elif needed < cores:
        enough, held_back = f"at least {needed} of the {cores} cores {'is' if needed == 1 else 'are'}", ", so also with one held back"
    else:
        enough, held_back = f"all {cores} cores are", "; with one held back it is late sooner or later (proved)"
    fewer = f"; it needs {needed}: with {words.counted(needed - 1, 'core')} the same table is refused ({words.of_number(22)})" if needed > 1 else ""
    return f"never late from a fresh start if {enough} free in every slot (proved){held_back}{fewer}"


def would_need(plan: Plan, probe: Probe) -> str:
    """How many cores a table would need that is refused with 22. It has bytes to be asked for if it is taken with all that a box can have."""
    [most] = probe.write_tables([value_of(replace(plan, boards=tuple(range(CORES))))])
    needed = cores_needed(most.table, probe) if most.number == 0 else None
    return f"it would need {needed} cores" if needed else f"no box has so many cores: {CORES} are the most"


def about(plan: Plan) -> str:
    """In a line; of the format only where it is not the one that a text means which says nothing of it."""
    format = f", in format {plan.format}" if plan.format != FORMAT_LEFT_OUT else ""
    return f"{words.counted(len(plan.rows), 'tank')}{format}; {load(plan)}"


def place(table: bytes, number: int, probe: Probe) -> str:
    """Where the reader met a fault, and what stands there. It reads from the front and tests what is there: so it is asked for the table cut behind each
    byte, and the fault lies at the end of the first cut that has its number.
    """
    plan = laid_out(table)
    if number == 10:
        return f"it ends after {words.counted(len(table), 'byte')}, {inside(table)}"
    if number == 21:
        there = str(len(table)) if len(table) <= inputs.INPUT_LIMIT else f"more than {inputs.INPUT_LIMIT}"
        return f"the last row ends after {7 + len(plan.boards) + ROW * len(plan.rows)} bytes, and there are {there}"
    if number == 22:
        return f"{load(plan)}; {would_need(plan, probe)}"
    cuts = [table[:end] for end in range(1, 1 + min(len(table), LONGEST_TABLE))]
    numbers = [read.number for read in probe.read_tables(cuts)]
    if number not in numbers:
        raise Trouble(f"the probe contradicts itself: it refuses a table with number {number}, and no part of it")
    met = 1 + numbers.index(number)
    if number in ROW_COLUMNS:
        at = (met - 7 - len(plan.boards)) // ROW - 1
        return f"row {at}, tank {plan.rows[at].tank}, bytes {met - ROW} to {met - 1}: {row_words(number, plan, at)}"
    known = {11: f"it is {table[0]}", 12: f"it is {plan.cycle}", 13: f"it is {table[met - 1]}", 15: f"it is {table[met - 1]}"}
    if number == 14:
        return f"byte {met - 1}: board {table[met - 1]} after board {table[met - 2]}"
    return f"byte {met - 1}: {known[number]}" if number in known else f"byte {met - 1}"


def laid_out(table: bytes) -> Plan:
    """The parts of a table's bytes as they lie there, as far as they are there, whatever they say."""
    cores = table[5] if len(table) > 5 else 0
    rows_at = 7 + cores
    count = table[rows_at - 1] if len(table) >= rows_at else 0
    whole = min(count, max(0, len(table) - rows_at) // ROW)
    rows = ROW_PARTS.iter_unpack(table[rows_at : rows_at + ROW * whole])
    format = table[0] if table else FORMAT_LEFT_OUT
    return Plan(int.from_bytes(table[1:5], "little"), tuple(table[6 : 6 + cores]), tuple(Row(*row) for row in rows), format)


def inside(table: bytes) -> str:
    """What a table was cut in."""
    boards_end = 6 + table[5] if len(table) > 5 else 0
    ends = [(1, "before its format"), (5, "inside its cycle"), (6, "before its core count"), (boards_end, "inside its board numbers")]
    for end, part in ends:
        if len(table) < end:
            return part
    if len(table) == boards_end:
        return "before its row count"
    row, there = divmod(len(table) - boards_end - 1, ROW)
    return f"inside row {row}" if there else f"before row {row}"


def in_form(table: bytes, plan: Plan, name: str) -> bytes:
    """A table as the name of a file asks for: hex text, a text to type on, or the bytes."""
    if name.lower().endswith(".hex"):
        return hex_text(table, plan).encode()
    return table_text.text(plan).encode() if name.lower().endswith(files.TEXT_NAMES) else table


def unread(names: Sequence[str]) -> str:
    shown = ", ".join(map(table_text.quoted, names[:8]))
    return f"columns that are not read: {shown}" + (f" and {len(names) - 8} more" if len(names) > 8 else "")
