"""The desk's command, zb: one word for what is looked at, one for what is done with it. This file is its command line; what it does stands in
table_commands.py, slot_commands.py, trace_commands.py, draw_commands.py and number_commands.py, and what these share in desk.py.

Exit status: 0 fine; 1 the answer is a refusal or lateness; 2 wrong use, or no answer could be had. Answers go to standard output, words about them to
standard error.
"""
from __future__ import annotations

import argparse
import re
import sys
from typing import TYPE_CHECKING, Callable, NoReturn, Sequence

import draw_commands
import endings
import files
import listing
import number_commands
import slot_commands
import table_commands
import trace_commands
from desk import Desk, Words, version
from draw_commands import DRAWN_SLOTS
from endings import ANSWERED_NO, tell
from table_text import Fault
from trouble import Trouble


def span(text: str) -> tuple[int, int | None]:
    """Slots: A-B from A to B, A- from A on, A alone."""
    found = re.fullmatch(r"([0-9]{1,12})(-)?([0-9]{1,12})?", text)
    if found is None or (found[3] and not found[2]) or (found[3] and int(found[3]) < int(found[1])):
        raise argparse.ArgumentTypeError(f"slots are written A-B, such as 0-11, and not {text!r}")
    return int(found[1]), int(found[3]) + 1 if found[3] else None if found[2] else int(found[1]) + 1


def natural(text: str) -> int:
    """A number that is written in digits alone, without a sign."""
    if not re.fullmatch("[0-9]+", text):
        raise argparse.ArgumentTypeError(f"a whole number in digits is needed, and not {text!r}")
    if len(text) > 18:
        raise argparse.ArgumentTypeError(f"a whole number in digits is needed, and not {text[:18] + '..'!r}, which is more than there can be")
    return int(text)


FILE_HELP = "a table: its bytes, hex text, or a text to type on (docs/TABLES.md); or an input of the slot printer; - is standard input"
TRACE_HELP = "a trace: its bytes, or hex text; - is standard input"
FREE_HELP = "how many cores are free in each slot, such as 2,2,0; 3x2 is 2,2,2; past the list one core is held back, unless it is the only one"


class Parser(argparse.ArgumentParser):
    """Wrong use is said in one sentence, with the way to more."""

    def error(self, message: str) -> NoReturn:
        raise Trouble(f"{message} (see: {self.prog} --help)")


def parser() -> Parser:
    top = Parser(
        prog="zb",
        allow_abbrev=False,
        description="Tables and traces of the dispatcher, for people. Everything that decides is proved code; what is missing of it is proved and built first.",
        epilog="Exit status: 0 fine; 1 the answer is a refusal or lateness; 2 wrong use. Answers go to standard output, words about them to standard error.",
    )
    top.add_argument("--version", action="version", version=f"zb {version()}")
    to = top.add_subparsers(metavar="COMMAND", required=True)
    add_tables(to)
    add_traces(to)
    add_slots(to)
    add_drawing(to)
    add_numbers(to)
    return top


if TYPE_CHECKING:
    Commands = argparse._SubParsersAction[Parser]


def add(to: Commands, name: str, work: Callable[[Words, Desk], int], help: str) -> Parser:
    """A command that does this work."""
    added = to.add_parser(name, allow_abbrev=False, help=help, description=help)
    added.set_defaults(work=work)
    return added


def group(to: Commands, name: str, help: str) -> Commands:
    return to.add_parser(name, allow_abbrev=False, help=help, description=help).add_subparsers(metavar="COMMAND", required=True)


def add_tables(to: Commands) -> None:
    table = group(to, "table", "check, show or write a table")
    check = add(table, "check", table_commands.table_check, "the number of a table with its words and place; its load, and whether it can ever be late")
    check.add_argument("file", metavar="FILE", help=FILE_HELP)
    show_it = add(table, "show", table_commands.table_show, "a table as a text")
    show_it.add_argument("file", metavar="FILE", help=FILE_HELP)
    write = add(table, "write", table_commands.table_write, "a table as bytes, or in another form")
    write.add_argument("file", metavar="FILE", help=FILE_HELP)
    write.add_argument("-o", dest="output", metavar="FILE", required=True, help="where to: bytes, or hex text (.hex), or a text (.csv); - is standard output")


def add_traces(to: Commands) -> None:
    trace = group(to, "trace", "check or show a trace")
    two_files(add(trace, "check", trace_commands.trace_check, "the verdict on a trace, with slot, row, tank and time"))
    shown = add(trace, "show", trace_commands.trace_show, "a trace, one line a slot")
    two_files(shown)
    shown.add_argument("--slots", type=span, metavar="A-B", help="only these slots")
    waited = add(to, "why", trace_commands.why_waited, "why a tank waited in a slot, or that it ran")
    two_files(waited)
    waited.add_argument("tank", type=natural, metavar="TANK")
    waited.add_argument("slot", type=natural, metavar="SLOT")
    numbers = add(to, "stats", trace_commands.show_stats, "quanta, waits, starts, responses and moves by tank")
    two_files(numbers)
    numbers.add_argument("--jobs", action="store_true", help="the response of each job in place of the table")


def two_files(command: Parser) -> None:
    command.add_argument("table", metavar="TABLE", help=FILE_HELP)
    command.add_argument("trace", metavar="TRACE", help=TRACE_HELP)


def add_slots(to: Commands) -> None:
    printed = add(to, "slots", slot_commands.slots, "the slot printer's listing of a table, or of an input")
    printed.add_argument("file", metavar="FILE", help=FILE_HELP)
    printed.add_argument("--slots", type=natural, metavar="N", help=f"how many (default: a cycle, {listing.DEFAULT_SLOTS} at most; of an input its own)")
    printed.add_argument("--free", metavar="LIST", help=FREE_HELP)
    printed.add_argument("--cores", action="store_true", help="with the core of each tank, and the moves")


def add_drawing(to: Commands) -> None:
    drawing = add(to, "draw", draw_commands.draw, "windows, and the quanta where they ran, as text, SVG or a page for a browser")
    drawing.add_argument("table", metavar="TABLE", help=FILE_HELP)
    drawing.add_argument("trace", metavar="TRACE", nargs="?", help=f"{TRACE_HELP}; without one the slots are the dispatcher's own")
    drawing.add_argument("--slots", type=span, metavar="A-B", help=f"these slots (default: from 0 on, {DRAWN_SLOTS} at most)")
    drawing.add_argument("--free", metavar="LIST", help=FREE_HELP)
    drawing.add_argument("-o", dest="output", metavar="FILE", help="where to: FILE.svg, FILE.html or FILE.txt; else text on standard output")


def add_numbers(to: Commands) -> None:
    windows = add(to, "window", number_commands.show_window, "r, d, b and D of subtasks, as the maker's bench lines have them")
    windows.add_argument("numbers", metavar="E P [F] I..", nargs="+", help="cost, period, phase (left out where there is one number more alone: 0), subtasks or ranges, 1-6")
    meaning = add(to, "meaning", number_commands.show_meaning, "the maker's words for a number, and what they mean at a desk")
    meaning.add_argument("number", metavar="N", help="a number, or a word of the slot printer such as input")


def main(arguments: Sequence[str], desk: Desk) -> int:
    """Does what the arguments ask for, and returns the exit status."""
    return endings.status("zb", lambda: run(arguments, desk))


def run(arguments: Sequence[str], desk: Desk) -> int:
    if not arguments:
        parser().print_help(sys.stderr)
        return endings.WRONG_USE
    try:
        asked = parser().parse_args(arguments)
    except SystemExit as end:  # after --help and --version
        return int(end.code or 0)
    try:
        return int(asked.work(asked, desk))
    except Fault as found:  # a table that is refused, or a text that is none
        tell(f"{files.shown(asked.file if 'file' in asked else asked.table)}: {found}")
        return ANSWERED_NO


if __name__ == "__main__":
    endings.be_ready()
    sys.exit(main(sys.argv[1:], Desk()))
