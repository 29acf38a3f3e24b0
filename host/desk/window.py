"""Windows by hand (01, 'Bench values'): r, d, b and D of a row's subtasks, as the proved window question answers them."""
from __future__ import annotations

import re
from typing import Iterator, Sequence

import words
from probe import Probe, Window
from trouble import Trouble

FIELD_MOST, SUBTASK_MOST = 0xFFFF, 0xFFFF_FFFF_FFFF_FFFF  # what the fields of the question hold
LINES_MOST = 100_000
USE = "zb window E P [F] I.., such as zb window 8 11 3, or zb window 2 3 4 1-6 with phase 4"


def asked(arguments: Sequence[str]) -> tuple[int, int, int, list[int]]:
    """Cost, period, phase and subtasks. E and P may be one word, 8/11; of three numbers the phase is left out; a subtask may be a range, 1-6."""
    parts = [*arguments[0].split("/"), *arguments[1:]] if arguments else []
    if len(parts) < 3:
        raise Trouble(f"a cost, a period and a subtask are needed: {USE}")
    cost, period, *rest = parts
    phase, *subtasks = rest if len(rest) > 1 else ["0", *rest]
    numbers = [natural(text, what, FIELD_MOST) for text, what in [(cost, "the cost"), (period, "the period"), (phase, "the phase")]]
    wanted = [subtask for text in subtasks for subtask in spread(text)]
    if len(wanted) > LINES_MOST:
        raise Trouble(f"at most {LINES_MOST} subtasks are shown at once")
    return numbers[0], numbers[1], numbers[2], wanted


def spread(text: str) -> range:
    """A subtask, or some in a row."""
    low, dash, high = text.partition("-")
    first = natural(low, "a subtask", SUBTASK_MOST)
    last = natural(high, "a subtask", SUBTASK_MOST) if dash else first
    if last < first:
        raise Trouble(f"subtasks rise, and {text} does not: {USE}")
    if last - first >= LINES_MOST:
        raise Trouble(f"at most {LINES_MOST} subtasks are shown at once")
    return range(first, last + 1)


def natural(text: str, what: str, most: int) -> int:
    if not re.fullmatch("[0-9]{1,20}", text):
        raise Trouble(f"{what} is a whole number in digits, and not {text!r}: {USE}")
    if int(text) > most:
        raise Trouble(f"{what} is {most} at most, and not {text}")
    return int(text)


def lines(cost: int, period: int, phase: int, subtasks: Sequence[int], answers: Sequence[Window]) -> Iterator[str]:
    """As 01's bench lines: '8/11, i = 3: 2 to 5, b 1, D 8'."""
    row = f"{cost}/{period}" + (f" with f = {phase}" if phase else "")
    for subtask, answer in zip(subtasks, answers):
        window = f"{answer.start} to {answer.deadline}, b {answer.bit}, D {answer.group}"
        yield f"{row}, i = {subtask}: {words.of_number(answer.number) if answer.number else window}"


def refused(answers: Sequence[Window]) -> bool:
    return any(answer.number for answer in answers)


def ask(cost: int, period: int, phase: int, subtasks: Sequence[int], probe: Probe) -> list[Window]:
    return probe.windows((cost, period, phase, subtask) for subtask in subtasks)
