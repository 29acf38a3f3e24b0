"""What the desk's commands share: the programs that are asked, the words of the command line, and how a refusal is shown. Each command takes these words
and the desk, reads files, asks the proved code behind the probe, the slot printer and the archive, shows what was answered, and returns the exit status.
"""
from __future__ import annotations

import argparse
from pathlib import Path

import files
import inputs
import tables
import words
from archive import Archive
from endings import ANSWERED_NO, show_all, tell
from probe import Probe, Table
from table_text import Fault, Plan
from trouble import Trouble

ROOT = Path(__file__).resolve().parent.parent.parent

Words = argparse.Namespace


class Desk:
    """The programs that are asked."""

    def __init__(self, probe: Probe | None = None, archive: Archive | None = None) -> None:
        self.probe, self.archive = probe or Probe(), archive or Archive()


def plan(table: Table) -> Plan:
    return tables.plan_of(table.value)


def answer_fault(fault: Fault) -> int:
    """Where a number is asked for, a refusal is the answer; what is no table at all has none."""
    if fault.number is None:
        raise fault
    show_all([words.answer(fault.number), fault.placed(fault.detail)], "answer")
    explain(fault.number)
    return ANSWERED_NO


def explain(number: int) -> None:
    known = words.meaning(number)
    if known is not None:
        tell(f"zb: {known.plain}")


def note_held_back(asked: inputs.Asked, late: int) -> None:
    """Of slots of our own that ended late, at this time: that one core was held back in some of them, if it was, and what frees it."""
    cores = len(tables.laid_out(asked.table).boards)
    if cores > 1 and late > len(asked.listed):
        tell(f"zb: from slot {len(asked.listed)} on no list says how many cores are free, so one of the {cores} is held back; --free {asked.slots}x{cores} frees them all")


def keep_apart(output: str, *names: str) -> None:
    for name in names:
        if files.same(name, output):
            raise Trouble(f"{name} and {output} are one file, and what it has would be lost")


def version() -> str:
    try:
        return (ROOT / "VERSION").read_text(encoding="ascii").strip()
    except OSError as error:
        raise Trouble(f"the file VERSION cannot be read: {error.strerror}") from None
