"""zb draw: slots of our own, or those of a trace, as text, SVG or a page."""
from __future__ import annotations

import shutil
import sys
from pathlib import Path
from typing import IO

import course
import draw_html
import draw_svg
import draw_text
import files
import inputs
import listing
import schedule
import tables
import traces
from desk import Desk, Words, keep_apart, note_held_back, plan, version
from endings import ANSWERED_NO, FINE, show_all, tell
from picture import Picture
from probe import Table
from tables import Source
from trace_commands import over_trace
from trouble import Trouble

DRAWN_SLOTS = 48  # where nobody says which slots to draw: no more than so many
TEXT_COLUMNS = 100  # of a drawing that goes to no terminal


def draw(asked: Words, desk: Desk) -> int:
    form = drawing_form(asked.output)
    keep_apart(asked.output or "-", asked.table, asked.trace or "-")
    if asked.trace is not None:
        if asked.free is not None:
            raise Trouble("--free belongs to a table without a trace: a trace says how many cores were free")
        return over_trace(asked, desk, draw_trace)
    source = tables.source(asked.table, desk.probe)
    table = tables.taken(source.table, desk.probe)
    listed = listing.free_list(asked.free, course.MOST) if asked.free is not None else source.asked.listed if source.asked else b""
    there = source.asked.slots if source.asked else plan(table).cycle
    first, end = within(asked.slots, 0, min(there, DRAWN_SLOTS), there)
    if end > course.MOST:
        raise Trouble(f"slots of our own are drawn up to slot {course.MOST - 1}")
    all_slots = inputs.Asked(source.table, end, listed)
    ran = course.ours(source.table, table, bytes(all_slots.free(slot, table.cores) for slot in range(end)), desk.archive)
    status = put_drawing(schedule.drawn(title(source.name, None), table, ran, first, end, desk.probe), ran, form, asked.output)
    if ran.late is not None:
        note_held_back(all_slots, ran.late.time)
    return status


def draw_trace(source: Source, table: Table, trace: IO[bytes], asked: Words, desk: Desk) -> int:
    ran = course.of_trace(source.table, table, trace, desk.probe, desk.archive)
    there = len(ran.records) + (ran.refused is not None)
    # what is wrong must be seen
    first, end = within(asked.slots, 0, min(there, DRAWN_SLOTS), there) if ran.fine else within(asked.slots, max(0, there - DRAWN_SLOTS), there, there)
    if first >= there or end > there:
        tell(f"zb: of the trace {traces.slots_named(there)} can be drawn")
    picture = schedule.drawn(title(source.name, asked.trace), table, ran, first, end, desk.probe)
    return put_drawing(picture, ran, drawing_form(asked.output), asked.output)


def within(wanted: tuple[int, int | None] | None, first: int, end: int, there: int) -> tuple[int, int]:
    """The slots to draw: those that are wanted, or these; no more than a picture has."""
    if wanted is not None:
        first, end = wanted[0], wanted[1] if wanted[1] is not None else max(there, wanted[0])
    elif end - first < there:
        tell(f"zb: slots {first} to {end - 1} of {there}; --slots A-B draws others")
    if end - first > schedule.MOST_SLOTS:
        raise Trouble(f"a picture has {schedule.MOST_SLOTS} slots at most, and not {end - first}: say which with --slots A-B")
    return first, end


def title(table: str, trace: str | None) -> str:
    names = [Path(files.shown(name)).name for name in (table, trace) if name is not None]
    return " with ".join(names)


def drawing_form(output: str | None) -> str:
    suffix = "" if output is None or output == "-" else Path(output).suffix.lower()
    if suffix not in ("", ".svg", ".html", ".htm", ".txt"):
        raise Trouble(f"a drawing is text (.txt), .svg or .html, and not {suffix}")
    return suffix


def put_drawing(picture: Picture, ran: course.Course, form: str, output: str | None) -> int:
    if form == ".svg":
        files.save(output or "-", draw_svg.svg(picture).encode(), "drawing")
    elif form in (".html", ".htm"):
        files.save(output or "-", draw_html.html(picture, version()).encode(), "drawing")
    elif output is not None and output != "-":
        files.save(output, "".join(f"{line}\n" for line in draw_text.text(picture, TEXT_COLUMNS, cores=True)).encode(), "drawing")
    else:
        show_all(draw_text.text(picture, columns(), cores=True), "drawing")
    if form or (output is not None and output != "-"):
        for note in picture.notes:  # they stand in the drawing too
            tell(f"zb: {note}")
    return FINE if ran.fine else ANSWERED_NO


def columns() -> int:
    return shutil.get_terminal_size((TEXT_COLUMNS, 24)).columns if sys.stdout is not None and sys.stdout.isatty() else TEXT_COLUMNS
