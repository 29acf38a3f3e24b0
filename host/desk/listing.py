"""The slot printer's text (01, 'Slot printer'), printed by the proved program itself, for a table or an input."""
from __future__ import annotations

import re
import subprocess
from typing import Sequence

import building
import inputs
import words
from trouble import Trouble

COMMAND = (str(building.HOST / "run"), "slot_printer")
DEFAULT_SLOTS = 100  # of a table that says nothing about it a cycle is printed, and no more than so many slots
K_MOST = 0xFF  # what the field of a k holds


def printed(asked: inputs.Asked, command: Sequence[str] = COMMAND) -> str:
    """What the printer prints."""
    if command is COMMAND:
        building.need("slot_printer")
    try:
        run = subprocess.run(command, input=asked.input(), capture_output=True)
    except OSError as error:
        raise Trouble(f"the slot printer does not start: {error}") from None
    if run.returncode != 0:
        said = " ".join(run.stderr.decode(errors="replace").split())
        raise Trouble(said or f"the slot printer ended with status {run.returncode}")
    return run.stdout.decode("ascii")


def free_list(text: str, most: int = inputs.SLOT_LIMIT) -> bytes:
    """The numbers of free cores that a person lists: '2,2,0,1', where '3x0' stands for '0,0,0'; for so many slots at most."""
    numbers = bytearray()
    for part in filter(None, re.split(r"[,\s]+", text)):
        found = re.fullmatch(r"(?:([0-9]{1,9})x)?([0-9]{1,9})", part)
        if found is None:
            raise Trouble(f"--free takes numbers of cores, such as 2,2,0 or 3x2,0, and not {part!r}")
        times, k = int(found[1] or 1), int(found[2])
        if k > K_MOST:
            raise Trouble(f"--free: {k} does not fit: a number of free cores is {K_MOST} at most")
        if len(numbers) + times > most:
            raise Trouble(f"--free lists more than {most} slots")
        numbers += times * bytes([k])
    return bytes(numbers)


def ending(last_line: str) -> str | None:
    """In words how a listing ended, by its last line; none if it ran to its end."""
    word, *numbers = last_line.split()
    if word == "late":
        return f"tank {numbers[1]} is late at time {numbers[0]}: its next quantum was due before that time; there the dispatcher stops"
    if word == "refused":
        known = words.meaning(int(numbers[0]))
        return f"{words.of_number(int(numbers[0]))}{f': {known.plain}' if known else ''}"
    return None if word == "end" else f"the last line is no ending: {last_line}"
