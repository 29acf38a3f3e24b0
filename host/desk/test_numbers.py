"""docs/NUMBERS.md is held to the code: python3 host/desk/test_numbers.py. What stands above 'Not here yet' are the numbers of the definitions, no more and no
fewer, and each of them is answered by the probe for an input made by hand; the words are those that C programs say.
"""
from __future__ import annotations

import re
import subprocess
import unittest
from pathlib import Path

import words
from probe import PLACEMENT, ROWS, RUN, TABLE_VALUE

ROOT = Path(__file__).resolve().parent.parent.parent
PAGE = (ROOT / "docs" / "NUMBERS.md").read_text(encoding="utf-8")
BY_HAND = (ROOT / "host" / "compare" / "by_hand.txt").read_text(encoding="utf-8")

# 01's example as a table value, and states over it: time, stopped, quanta and nobody remembered.
VALUE = bytes.fromhex("01 03000000 02 0001000000000000 03  0A00 0200 0300 0000 00  0B00 0200 0300 0000 00  1400 0200 0300 0000 00").ljust(TABLE_VALUE, b"\0")
NO_ROWS = bytes.fromhex("01 01000000 01").ljust(TABLE_VALUE, b"\0")
TABLE = bytes.fromhex("01 03000000 02 0001 03  0A00 0200 0300 0000 00  0B00 0200 0300 0000 00  1400 0200 0300 0000 00")


def state(value: bytes, time: int, stopped: int = 0) -> bytes:
    return value + time.to_bytes(8, "little") + bytes([stopped]) + bytes(8 * ROWS) + bytes(PLACEMENT)


def slot(state: bytes, free: int, length: int = 10) -> bytes:
    return b"K" + state + free.to_bytes(4, "little") + bytes(8) + length.to_bytes(4, "little") + bytes(length)


# Of each number that no table and no trace has a request that is answered with it. 01's rows are owed 2 of 3 quanta: with none given, and none free in
# slot 1, they are late at time 2. 36 bytes are needed for its table. In 01's order 33 comes before 36.
REQUESTS = {
    0: b"W" + bytes.fromhex("0800 0B00 0000 0300000000000000"),
    1: slot(state(VALUE, 1), 0),
    30: slot(state(VALUE, 1_000_000_000_001), 3),
    31: slot(state(VALUE, 1, stopped=1), 3),
    32: slot(state(NO_ROWS, 1_000_000_000_000), 1),
    33: b"Y" + state(VALUE, 0) + b"\x03\x00",
    34: slot(state(VALUE, 0), 3, length=3),
    35: slot(state(VALUE, 0), 4),
    36: b"Y" + state(VALUE, 0) + b"\x02\x03",
    37: b"P" + VALUE + b"\x23\0\0\0" + bytes(35),
    50: b"W" + bytes.fromhex("0200 0100 0000 0100000000000000"),
}


# States that request Eight of 02 makes broken: over a format that is neither 1 nor 2, and by what they remember: rows that do not rise, and more rows than
# the table has cores. Each differs in one thing from a state that is fine, over 01's table at time 1, where rows 0 and 1 have had a quantum.
def ran(memory: str, value: bytes = VALUE) -> bytes:
    return value + (1).to_bytes(8, "little") + b"\0" + 2 * (b"\1" + bytes(7)) + bytes(8 * (ROWS - 2)) + bytes.fromhex(memory).ljust(PLACEMENT, b"\0")


RAN_0_AND_1 = "02 0001000000000000 0001"
FINE = [ran(RAN_0_AND_1), ran(RAN_0_AND_1, b"\2" + VALUE[1:]), ran("00")]
BROKEN = [
    *(ran(RAN_0_AND_1, bytes([format]) + VALUE[1:]) for format in (0, 3, 255)),
    ran("02 0100000000000000 0001"),
    ran("02 0000000000000000 0001"),
    ran("03 0001020000000000 0001"),
]


def page_numbers(text: str) -> set[int]:
    return {int(number) for number in re.findall(r"^\| ([0-9]+) \|", text, re.MULTILINE)}


class Page(unittest.TestCase):
    here, later = PAGE.split("\n## Not here yet\n")

    def test_numbers_are_those_of_the_definitions(self) -> None:
        # the numbers of summary and keeper are of a later request: no command answers them yet
        others = {"demands", "summary", "keeper"}
        specs = "\n".join(path.read_text(encoding="utf-8") for path in sorted((ROOT / "crates").glob("*/specs/*.antt")) if not others & {*path.parts})
        forms = [r"\bsays ([0-9]+)", r"\b(?:bare|named) ([0-9]+)", r"\b(?:fault|refusal)_number [A-Za-z]+ = ([0-9]+)", r"\bnumber = ([0-9]+)", r"= told ([0-9]+)"]
        defined = {int(number) for form in forms for number in re.findall(form, specs)}
        self.assertEqual(page_numbers(self.here), defined)

    def test_later_numbers_are_not_here(self) -> None:
        self.assertEqual(page_numbers(self.later), {38, 39, *range(60, 72)})

    def test_each_has_its_words(self) -> None:
        for number in page_numbers(PAGE):
            known = words.meaning(number)
            assert known is not None
            self.assertTrue(known.words and known.plain.endswith("."))
        self.assertEqual(sum(line.startswith("| ") for line in PAGE.splitlines()), len(words.meanings()) + PAGE.count("\n|---"))

    def test_words_are_those_of_the_c_programs(self) -> None:
        lines = [line for line in (ROOT / "host" / "c" / "numbers.txt").read_text(encoding="utf-8").splitlines() if not line.startswith("#")]
        for line in lines:
            number, _, said = line.partition(" ")
            self.assertEqual(words.meaning(int(number)), (said, words.meanings()[number].plain))

    def test_words_of_the_printer(self) -> None:
        for word in ["end N", "late T TANK", "refused N", "input"]:
            self.assertIn(word, words.meanings())
        self.assertNotIn("number", words.meanings())

    def test_an_answer(self) -> None:
        self.assertEqual(words.of_number(18), "18, e above p")
        self.assertEqual(words.answer(18), "18 e above p")
        self.assertEqual((words.of_number(99), words.answer(99)), ("99", "99"))


@unittest.skipUnless((ROOT / "target" / "bin" / "probe").exists(), "target/bin/probe is not built: host/build probe")
class AgainstProbe(unittest.TestCase):
    def answered(self, request: bytes) -> int:
        return subprocess.run(RUN, input=request, capture_output=True, check=True).stdout[0]

    def test_broken_states(self) -> None:
        for states, number in [(FINE, 0), (BROKEN, 30)]:
            self.assertEqual([self.answered(slot(state, 3)) for state in states], len(states) * [number])
            self.assertEqual([self.answered(b"Y" + state + b"\2\0") for state in states], len(states) * [number])

    def by_hand(self, number: int) -> bytes:
        """The first table made by hand that has this number, or the first trace of 01's example."""
        if number < 40:
            found = re.search(rf"^{number} [^:\n]*:([ 0-9A-F|]*)$", BY_HAND, re.MULTILINE)
            table = bytes.fromhex(found[1].replace("|", "")) if found else b""
            return b"T" + len(table).to_bytes(4, "little") + table
        found = re.search(rf"^{number} [^:\n]*: A /([ 0-9A-F|]*)$", BY_HAND, re.MULTILINE)
        trace = bytes.fromhex(found[1].replace("|", "")) if found else b""
        return b"C" + len(TABLE).to_bytes(4, "little") + TABLE + len(trace).to_bytes(4, "little") + trace

    def test_each_number_is_answered(self) -> None:
        for number in sorted(page_numbers(Page.here)):
            with self.subTest(number=number):
                self.assertEqual(self.answered(REQUESTS.get(number) or self.by_hand(number)), number)


if __name__ == "__main__":
    unittest.main()
