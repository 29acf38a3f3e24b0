"""What the sentences of this folder share, and the words of the maker's numbers."""
from __future__ import annotations

import functools
import re
from pathlib import Path
from typing import NamedTuple, Sequence

from trouble import Trouble

# Said of a trace, always with these words, before what shows it.
NOT_OURS = "This trace is not the dispatcher's for this table: "

# The words for each number, and for the words of the slot printer, in the one page where they are kept.
PAGE = Path(__file__).resolve().parent.parent.parent / "docs" / "NUMBERS.md"


class Meaning(NamedTuple):
    """The maker's words for a number, or for a word of the slot printer, and what they mean at a desk."""

    words: str
    plain: str


def counted(count: int, thing: str) -> str:
    """'1 core', '2 cores'."""
    return f"{count} {thing}" if count == 1 else f"{count} {thing}s"


def listed(tanks: Sequence[int]) -> str:
    """'no tank', 'tank 10', 'tanks 10 and 11', 'tanks 10, 11 and 20'."""
    if not tanks:
        return "no tank"
    if len(tanks) == 1:
        return f"tank {tanks[0]}"
    *others, last = map(str, tanks)
    return f"tanks {', '.join(others)} and {last}"


@functools.cache
def meanings() -> dict[str, Meaning]:
    """All of the page: what is explained, with its two cells."""
    try:
        lines = PAGE.read_text(encoding="utf-8").splitlines()
    except OSError as error:
        raise Trouble(f"docs/NUMBERS.md cannot be read: {error.strerror}") from None
    cells = [re.fullmatch(r"\| (.+?) \| (.+?) \| (.+?) \|", line) for line in lines]
    heads = {at - 1 for at, line in enumerate(lines) if line.startswith("|---")}  # of a table: names of its columns
    return {found[1]: Meaning(found[2], found[3]) for at, found in enumerate(cells) if found and at not in heads}


def found(asked: str) -> str | None:
    """What is explained of the page under a number, or under the first word of a line that the slot printer prints."""
    if asked.isascii() and asked.isdigit():
        asked = asked.lstrip("0") or "0"
    return next((name for name in meanings() if asked in (name, name.split()[0]) and (name == asked or not name[0].isdigit())), None)


def meaning(number: int) -> Meaning | None:
    return meanings().get(str(number))


def of_number(number: int) -> str:
    """A number with the maker's words for it: '18, e above p'. One that is not among them stands alone."""
    known = meaning(number)
    return f"{number}, {known.words}" if known else str(number)


def answer(number: int) -> str:
    """The same as an answer: '18 e above p'."""
    return of_number(number).replace(", ", " ", 1)
