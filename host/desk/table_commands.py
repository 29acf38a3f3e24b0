"""zb table: a table is checked, shown or written."""
from __future__ import annotations

import files
import table_text
import tables
import words
from desk import Desk, Words, answer_fault, keep_apart, plan
from endings import FINE, show_all, tell
from table_text import Fault
from tables import Source


def table_check(asked: Words, desk: Desk) -> int:
    try:
        source = tables.source(asked.file, desk.probe)
        note_input(source)
        read = plan(tables.taken(source.table, desk.probe))
    except Fault as fault:
        return answer_fault(fault)
    show_all([words.answer(0), tables.about(read), tables.never_late(source.table, read, desk.probe)], "answer")
    note_unread(source)
    return FINE


def table_show(asked: Words, desk: Desk) -> int:
    source = tables.source(asked.file, desk.probe)
    note_input(source)
    show_all(table_text.text(plan(tables.taken(source.table, desk.probe))).splitlines(), "table")
    return FINE


def table_write(asked: Words, desk: Desk) -> int:
    keep_apart(asked.output, asked.file)
    source = tables.source(asked.file, desk.probe)
    note_input(source)
    read = plan(tables.taken(source.table, desk.probe))
    files.save(asked.output, tables.in_form(source.table, read, asked.output), "table")
    tell(f"{words.counted(len(source.table), 'byte')}, {tables.about(read)}")
    note_unread(source)
    return FINE


def note_input(source: Source) -> None:
    if source.asked is not None:
        tell(f"{files.shown(source.name)} is an input of the slot printer: its table is looked at")


def note_unread(source: Source) -> None:
    """A column whose name is misspelled would else go unnoticed."""
    if source.typed is not None and source.typed.not_read:
        tell(tables.unread(source.typed.not_read))
