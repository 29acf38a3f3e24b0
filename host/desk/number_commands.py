"""zb window and zb meaning: windows by hand, and numbers in words."""
from __future__ import annotations

import window
import words
from desk import Desk, Words, explain
from endings import ANSWERED_NO, FINE, show_all
from trouble import Trouble


def show_window(asked: Words, desk: Desk) -> int:
    cost, period, phase, subtasks = window.asked(asked.numbers)
    answers = window.ask(cost, period, phase, subtasks, desk.probe)
    show_all(window.lines(cost, period, phase, subtasks, answers), "windows")
    if window.refused(answers):
        explain(50)
        return ANSWERED_NO
    return FINE


def show_meaning(asked: Words, desk: Desk) -> int:
    found = words.found(asked.number)
    if found is None:
        raise Trouble(f"no number of the maker's papers is {asked.number!r}: docs/NUMBERS.md lists them")
    show_all([f"{found} {words.meanings()[found].words}", words.meanings()[found].plain], "meaning")
    return FINE
