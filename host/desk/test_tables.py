"""The tests of tables as planners type them, and of zb table: python3 host/desk/test_tables.py. What is expected was worked out by hand, from 01 and
request Five of 02; where a class says AgainstProbe, the probe must be built and know how to write a table.
"""
from __future__ import annotations

import os
import resource
import shlex
import stat
import subprocess
import tempfile
import unittest
from dataclasses import replace
from pathlib import Path

import files
import inputs
import table_text
import tables
import testing
from probe import Probe, Written
from table_text import Fault, Plan, Row, Typed
from testing import COMMAND, HERE, ROOT, TABLE, TAKEN, THREE_SLOTS, VALUE, EndingCase, Fake, Interrupted, needs_probe, refused
from trouble import Trouble

THREE_TANKS, FARM, CAMERA = (str(ROOT / "examples" / name) for name in ("three-tanks.csv", "farm.csv", "camera.csv"))
PAGE = ROOT / "docs" / "TABLES.md"

# 01's example, as testing.py has its bytes.
THREE = Plan(3, (0, 1), (Row(10, 2, 3, 0, 0), Row(11, 2, 3, 0, 0), Row(20, 2, 3, 0, 0)))
THREE_TEXT = "cycle,3\nboards,0,1\ntank,cost,period,phase,kind\n10,2,3,0,plain\n11,2,3,0,plain\n20,2,3,0,plain\n"
THREE_HEX = """\
01 03000000   # format 1, cycle 3
02 00 01   # 2 cores, with their board numbers
03   # 3 rows: tank, cost, period, phase, kind
0A00 0200 0300 0000 00   # tank 10: 2/3
0B00 0200 0300 0000 00   # tank 11: 2/3
1400 0200 0300 0000 00   # tank 20: 2/3
"""
# Each takes 2 · (3/3) = 2 quanta of a cycle, and two cores give 2 · 3.
THREE_SAID = "36 bytes, 3 tanks; load 6 of 6 quanta in a cycle of 3 slots on 2 cores: nothing is left\n"

# examples/farm.csv. Periods 3, 4, 12 and 6: the least number that they all divide is 12.
FARM_BYTES = bytes.fromhex(
    "01 0C000000 02 0001 04  0A00 0200 0300 0000 00  0B00 0100 0400 0000 00  1400 0300 0C00 0000 01  1500 0100 0600 0500 00"
)

# examples/camera.csv. A cost equal to the period (02, Six). Periods 1 and 3.
CAMERA_BYTES = bytes.fromhex("01 03000000 02 0001 02  0700 0100 0100 0000 00  0900 0200 0300 0000 00")

# The same three tanks in format 2: another first byte, a line more, and a word where it is said.
THREE_2 = replace(THREE, format=2)
TABLE_2, THREE_2_TEXT = b"\2" + TABLE[1:], f"format,2\n{THREE_TEXT}"
THREE_2_SAID = "36 bytes, 3 tanks, in format 2; load 6 of 6 quanta in a cycle of 3 slots on 2 cores: nothing is left\n"

NO_NUMBER = "is not a whole number written in digits"
HEAD = "boards,0,1\ntank,cost,period,phase,kind,name\n"  # two lines: the first row stands in line 3


def plan_of(text: str) -> Plan:
    return table_text.read(text.encode()).plan


def typed(text: str) -> Typed:
    return table_text.read(text.encode())


def example(name: str) -> bytes:
    return files.read(str(ROOT / "examples" / name), inputs.INPUT_LIMIT).data


def write_answer(number: int, table: bytes = b"") -> bytes:
    """An answer to P: number, bytes written, and the buffer of 303 bytes."""
    return bytes([number]) + len(table).to_bytes(8, "little") + table.ljust(303, b"\0")


def refusing(*numbers: int) -> Fake:
    """A probe that answers one run of Ps: the whole table, then cut behind each board, then cut behind each row."""
    return Fake(b"".join(write_answer(number) for number in numbers))


def taking(table: bytes, parts: int, value: bytes = VALUE) -> Fake:
    """The same for a table that is taken, and that has so many boards and rows together; with this value it is read again."""
    return Fake(write_answer(0, table) + parts * write_answer(0, b"\1"), b"\0" + value.ljust(303, b"\0"))


def ran(arguments: list[str], probe: Probe) -> tuple[int, str, str]:
    return testing.ran(["table", *arguments], probe)


def as_process(*arguments: str, given: bytes = b"", command: str = COMMAND) -> tuple[int, bytes, str]:
    return testing.as_process("table", *arguments, given=given, command=command)


def read_plan(table: bytes) -> Plan:
    return tables.plan_of(tables.taken(table, Probe()).value)


class FaultCase(unittest.TestCase):
    def assert_faults(self, data: str | bytes, words: str) -> None:
        with self.assertRaises(Fault) as raised:
            table_text.read(data if isinstance(data, bytes) else data.encode())
        self.assertEqual(str(raised.exception), words)
        self.assertIsNone(raised.exception.number)


class Reading(FaultCase):
    def test_example_with_lines(self) -> None:
        text = "# a comment\ncycle,3\n\nboards,0,1\ntank,cost,period,phase,kind,name\n10,2,3,0,plain,x\n11,2,3,0,plain,y\n# one more\n20,2,3,0,plain,z\n"
        self.assertEqual(typed(text), Typed(THREE, 2, 4, (6, 7, 9), ("name",)))
        self.assertEqual(typed(THREE_TEXT), Typed(THREE, 1, 2, (4, 5, 6)))
        self.assertEqual(table_text.read(Path(THREE_TANKS).read_bytes()).plan, THREE)

    def test_formats(self) -> None:
        # In any place above the columns; without its line it is 1, and with `format,1` too.
        self.assertEqual(typed(THREE_2_TEXT), Typed(THREE_2, 2, 3, (5, 6, 7), (), 1))
        self.assertEqual(typed(THREE_TEXT.replace("boards", "Format;2\nboards", 1).replace(",", ";")), Typed(THREE_2, 1, 3, (5, 6, 7), (), 2))
        self.assertEqual(typed(f"format,1\n{THREE_TEXT}"), Typed(THREE, 2, 3, (5, 6, 7), (), 1))
        self.assertEqual((typed(THREE_TEXT).plan.format, typed(THREE_TEXT).format_line), (1, None))
        # Any number is read, for the writer to judge.
        self.assertEqual([plan_of(f"format,{number}\n").format for number in (0, 3, 255, 256)], [0, 3, 255, 256])
        self.assertGreater(plan_of(f"format,{9000 * '2'}\n").format, 255)

    def test_a_column_of_that_name_is_not_read(self) -> None:
        for names, row in [("tank,cost,period,format", "1,1,2,9"), ("Format,tank,cost,period", "9,1,1,2"), ("format,tank,cost,period", "format,1,1,2")]:
            self.assertEqual(typed(f"boards,0\n{names}\n{row}\n"), Typed(Plan(2, (0,), (Row(1, 1, 2, 0, 0),)), None, 1, (3,), ("format",)))

    def test_what_may_be_left_out(self) -> None:
        self.assertEqual(typed(""), Typed(Plan(1, (), ()), None, None, ()))
        self.assertEqual(plan_of("boards,0\n"), Plan(1, (0,), ()))
        self.assertEqual(plan_of("boards\n"), Plan(1, (), ()))
        self.assertEqual(plan_of("boards,0\ntank,cost,period\n"), Plan(1, (0,), ()))
        self.assertEqual(plan_of("boards,0\ntank,cost,period\n7,2,5"), Plan(5, (0,), (Row(7, 2, 5, 0, 0),)))
        self.assertEqual(plan_of(HEAD + "7,2,5,,,a\n8,2,5\n9,2,5,3\n").rows, (Row(7, 2, 5, 0, 0), Row(8, 2, 5, 0, 0), Row(9, 2, 5, 3, 0)))

    def test_cycle_that_is_left_out(self) -> None:
        for periods, cycle in [((3,), 3), ((4, 6), 12), ((3, 4, 12, 6), 12), ((7, 11, 13), 1001), ((0,), 1), ((4, 0, 6), 12), ((65535, 65534), 4294770690)]:
            rows = "".join(f"{tank},1,{period}\n" for tank, period in enumerate(periods))
            self.assertEqual(plan_of(HEAD + rows).cycle, cycle)
        self.assertGreater(plan_of(HEAD + "1,1,65521\n2,1,65519\n3,1,65497\n").cycle, 4_294_967_295)

    def test_separators_and_ends_of_lines(self) -> None:
        for separator in ",;\t":
            for end in ["\n", "\r\n", "\r"]:
                self.assertEqual(typed(THREE_TEXT.replace(",", separator).replace("\n", end)), Typed(THREE, 1, 2, (4, 5, 6)))

    def test_the_first_line_of_cells_tells_the_separator(self) -> None:
        self.assertEqual(plan_of("# a, b\n\"# c, d\n e, f\"\n" + THREE_TEXT.replace(",", ";")), THREE)
        self.assertEqual(plan_of('boards\ncycle;"3"\ntank;cost;period;"a, b"\n1;1;3;"c, d"\n'), Plan(3, (), (Row(1, 1, 3, 0, 0),)))
        self.assertEqual(plan_of('"a, b";tank;cost;period\n;1;1;3\n').rows, (Row(1, 1, 3, 0, 0),))

    def test_encodings(self) -> None:
        text = THREE_TEXT.replace("kind", "kind,Größe").replace(",", "\t").replace("\n", "\r\n")
        for data in [text.encode("utf-8"), text.encode("utf-8-sig"), ("\ufeff" + text).encode("utf-16-le"), ("\ufeff" + text).encode("utf-16-be")]:
            self.assertEqual(table_text.read(data), Typed(THREE, 1, 2, (4, 5, 6), ("größe",)))

    def test_columns_in_any_order(self) -> None:
        text = "boards,0\nName,KIND,Period,tank,remark,Cost,remark,phase\na,early,6,10,b,2,c,4\n"
        self.assertEqual(plan_of(text).rows, (Row(10, 2, 6, 4, 1),))
        self.assertEqual(typed(text).not_read, ("name", "remark", "remark"))

    def test_columns_that_are_not_read(self) -> None:
        # Two names are misspelled: what stands under them is left out, and that is said.
        misspelled = typed("boards,0\ntank,cost,period,phse,,knd\n10,2,3,7,,early release\n")
        self.assertEqual((misspelled.plan.rows, misspelled.not_read), ((Row(10, 2, 3, 0, 0),), ("phse", "knd")))

    def test_words_as_names(self) -> None:
        self.assertEqual(plan_of("name,tank,cost,period\ncycle,1,1,2\nBoards,2,1,2\n").rows, (Row(1, 1, 2, 0, 0), Row(2, 1, 2, 0, 0)))

    def test_kinds(self) -> None:
        for word, kind in [("plain", 0), ("Plain", 0), ("early release", 1), ("EARLY-RELEASE", 1), ("early", 1), ("0", 0), ("1", 1), ("2", 2), ("255", 255)]:
            self.assertEqual(plan_of(f"{HEAD}1,1,2,0,{word}\n").rows[0].kind, kind)

    def test_what_spreadsheets_add(self) -> None:
        text = 'Cycle,3,,,,\n,,,,,\n"Boards", 0 ,"1",,,\n"# a ""comment"", quoted",,,,,\n Tank ,cost,period,,,\n"10",\u00a02,3,,,\n ,\n"11","2","3",,,\n'
        self.assertEqual(typed(text), Typed(Plan(3, (0, 1), (Row(10, 2, 3, 0, 0), Row(11, 2, 3, 0, 0))), 1, 3, (6, 8)))

    def test_quotes(self) -> None:
        self.assertEqual(plan_of('# "a" b,"c\n' + THREE_TEXT + ' # d,"e'), THREE)
        self.assertEqual(plan_of(HEAD + '1,1,2,,,5" pipe\n').rows, (Row(1, 1, 2, 0, 0),))
        # A cell of three lines, the second of which is no comment, nor the third a row: the next row stands in line 6.
        self.assertEqual(typed(HEAD + '1,1,2,,,"a\n# b\n3,1,2"\n2,1,2\n').row_lines, (3, 6))

    def test_the_largest_numbers(self) -> None:
        largest = "cycle,4294967295\nboards,255\ntank,cost,period,phase,kind\n65535,65535,65535,65535,255\n"
        self.assertEqual(plan_of(largest), Plan(4294967295, (255,), (Row(65535, 65535, 65535, 65535, 255),)))
        self.assertEqual(plan_of(f"cycle,{9000 * '0'}3\n{HEAD}007,1,03\n"), Plan(3, (0, 1), (Row(7, 1, 3, 0, 0),)))
        for cycle in ["4294967296", "10000000000", "99999999999", 9000 * "9"]:
            self.assertGreater(plan_of(f"cycle,{cycle}\n").cycle, 4294967295)

    def test_any_number_of_boards_and_rows(self) -> None:
        many = typed("boards" + 300 * ",0" + "\ntank,cost,period\n" + 300 * "1,1,2\n")
        self.assertEqual((len(many.plan.boards), len(many.plan.rows), many.row_lines[32]), (300, 300, 35))


class TextFaults(FaultCase):
    def test_numbers(self) -> None:
        for cell in ["1.5", "-3", "+3", "ten", "0x3", "1_0", "1e3", "\u0663", "\u00b2", "1 000", "3 ms"]:
            self.assert_faults(f"format,{cell}\n", f"line 1, format: {cell!r} {NO_NUMBER}")
            self.assert_faults(f"cycle,{cell}\n", f"line 1, cycle: {cell!r} {NO_NUMBER}")
            self.assert_faults(f"boards,0,{cell}\n", f"line 1, boards: {cell!r} {NO_NUMBER}")
            for place, column in enumerate(["tank", "cost", "period", "phase"]):
                cells = ["1", "1", "2", "0"]
                cells[place] = cell
                self.assert_faults(f"{HEAD}{','.join(cells)}\n", f"line 3, {column}: {cell!r} {NO_NUMBER}")
        self.assert_faults(HEAD + '1,1,"1,000"\n', f"line 3, period: '1,000' {NO_NUMBER}")

    def test_empty_cells(self) -> None:
        empty = "the cell is empty, and a number must be there"
        for text, place in [
            ("format\n", "line 1, format"),
            ("cycle\n", "line 1, cycle"),
            ("cycle,,\n", "line 1, cycle"),
            ("boards,0,,1\n", "line 1, boards"),
            (HEAD + ",1,2\n", "line 3, tank"),
            (HEAD + "1,,2\n", "line 3, cost"),
            (HEAD + "1,1,2\n\n1,1\n", "line 5, period"),
        ]:
            self.assert_faults(text, f"{place}: {empty}")

    def test_what_does_not_fit(self) -> None:
        for place, (column, most) in enumerate([("tank", 65535), ("cost", 65535), ("period", 65535), ("phase", 65535), ("kind", 255)]):
            cells = ["1", "1", "2", "0", "0"]
            cells[place] = str(most + 1)
            self.assert_faults(f"{HEAD}{','.join(cells)}\n", f"line 3, {column}: '{most + 1}' does not fit: the field holds {most} at most")
        self.assert_faults("boards,0,256\n", "line 1, boards: '256' does not fit: the field holds 255 at most")
        long = f"line 3, tank: '{40 * '9'}..' does not fit: the field holds 65535 at most"
        self.assert_faults(f"{HEAD}{9000 * '9'},1,2\n", long)

    def test_kinds(self) -> None:
        for cell in ["early bird", "plane", "-1", "1.0"]:
            self.assert_faults(f"{HEAD}1,1,2,0,{cell}\n", f"line 3, kind: {cell!r} is neither plain nor early release, nor a whole number written in digits")

    def test_lines_above_the_rows(self) -> None:
        for text, words in [
            ("cycle,3\n# x\ncycle,3\n", "line 3, cycle: line 1 says this already"),
            ("boards,0\nboards,1\n", "line 2, boards: line 1 says this already"),
            ("format,2\nformat,2\n", "line 2, format: line 1 says this already"),
            ("format,1,2\n", "line 1, format: one number stands here, and not '2' too"),
            (HEAD + "10,2,3\nformat,2\n", "line 4, format: this line must stand above the line of column names"),
            ("cycle,1,000\n", "line 1, cycle: one number stands here, and not '000' too"),
            ("boards,0\n10,2,3\n", "line 2: a row stands above the line of column names"),
            ("bords,0\n", "line 1: 'bords' is neither format, cycle nor boards, and this is no line of column names (tank, cost, period)"),
            (",boards,0\n", "line 1: '' is neither format, cycle nor boards, and this is no line of column names (tank, cost, period)"),
            ("tank,cost\n", "line 1, period: no column has this name"),
            ("kind\n", "line 1, tank: no column has this name"),
            ("tank,cost,period,Cost\n", "line 1, cost: two columns have this name"),
            ("phase,tank,cost,period,phase\n", "line 1, phase: two columns have this name"),
            (HEAD + "10,2,3\nCycle,3\n", "line 4, cycle: this line must stand above the line of column names"),
            ("kind,tank,cost,period\nboards,0\n", "line 2, boards: this line must stand above the line of column names"),
        ]:
            self.assert_faults(text, words)

    def test_the_first_fault_is_told(self) -> None:
        self.assert_faults("cycle,x\nboards,y\ntank,cost\n", f"line 1, cycle: 'x' {NO_NUMBER}")
        self.assert_faults(HEAD + "1,1,x\ny,1,2\n", f"line 3, period: 'x' {NO_NUMBER}")

    def test_a_number_that_fell_apart(self) -> None:
        # 3,000 without quotes: its end stands where there is no column.
        self.assert_faults("tank,cost,period\n10,2,3,000\n", "line 2: '000' stands under no column name")
        self.assert_faults("tank,cost,period,,phase\n10,2,3,000,7\n", "line 2: '000' stands under no column name")

    def test_quotes(self) -> None:
        cut = "the line cannot be cut into cells"
        self.assert_faults(HEAD + '1,1,2,,,"a\n2,1,2\n', f"line 3: {cut} (unexpected end of data); is a quote left open?")
        self.assert_faults(HEAD + '\n1,1,2,,,"a"b\n', f"line 4: {cut} (',' expected after '\"'); is a quote left open?")
        self.assert_faults(b"x" * (1 << 20), f"line 1: {cut} (field larger than field limit (131072)); is a quote left open?")

    def test_what_is_no_text(self) -> None:
        nul = "a NUL stands there: this is no text in UTF-8, nor in UTF-16 with a byte order mark"
        self.assert_faults(b"boards,0\r\n# S\xfcd\r\n", "line 2: what stands there is not UTF-8; save the text as UTF-8")
        self.assert_faults(b"\xef\xbb\xbfboards,0\n\xfc\n", "line 2: what stands there is not UTF-8; save the text as UTF-8")
        self.assert_faults("\ufeffboards,0\n".encode("utf-16-le") + b"\x0a", "line 2: what stands there is not UTF-16; save the text as UTF-8")
        self.assert_faults(b"boards,0\n\n\0", f"line 3: {nul}")
        self.assert_faults("boards,0\n".encode("utf-16-le"), f"line 1: {nul}")
        self.assert_faults("\ufeffboards,0\n".encode("utf-32-le"), f"line 1: {nul}")
        self.assert_faults(TABLE, f"line 1: {nul}")

    def test_longest_text(self) -> None:
        self.assertEqual(plan_of(THREE_TEXT + (1_048_576 - len(THREE_TEXT)) * "\n"), THREE)
        words = "the text is longer than 1048576 bytes, and no table needs so many"
        self.assert_faults(THREE_TEXT + (1_048_577 - len(THREE_TEXT)) * "\n", words)

    def test_no_cell_spoils_the_sentence(self) -> None:
        self.assert_faults(HEAD + '"\x1b[31m\na",1,2\n', f"line 3, tank: '\\x1b[31m\\na' {NO_NUMBER}")


class Spelling(unittest.TestCase):
    def test_text(self) -> None:
        self.assertEqual(table_text.text(THREE), THREE_TEXT)
        self.assertEqual(table_text.text(THREE_2), THREE_2_TEXT)
        self.assertEqual(table_text.text(Plan(1, (), ())), "cycle,1\nboards\ntank,cost,period,phase,kind\n")
        rows = Row(0, 1, 2, 3, 1), Row(65535, 0, 0, 65535, 2)
        text = "cycle,4294967295\nboards,255,0\ntank,cost,period,phase,kind\n0,1,2,3,early release\n65535,0,0,65535,2\n"
        self.assertEqual(table_text.text(Plan(4294967295, (255, 0), rows)), text)

    def test_text_reads_back(self) -> None:
        for plan in [THREE, THREE_2, Plan(1, (), (), 0), Plan(1, (), ()), Plan(0, (9, 9, 9), 40 * (Row(5, 9, 1, 2, 255),)), Plan(12, (3,), (Row(0, 1, 2, 3, 1), Row(1, 0, 0, 0, 0)))]:
            self.assertEqual(plan_of(table_text.text(plan)), plan)

    def test_hex(self) -> None:
        self.assertEqual(tables.hex_text(TABLE, THREE), THREE_HEX)
        self.assertEqual(files.unhexed(THREE_HEX.encode(), "f"), TABLE)
        self.assertEqual(tables.hex_text(TABLE_2, THREE_2), THREE_HEX.replace("01 03000000   # format 1", "02 03000000   # format 2"))
        raw = bytes.fromhex("01 0C000000 01 05 02  6400 0600 0C00 0300 01  6500 0100 0400 0000 01")
        plan = Plan(12, (5,), (Row(100, 6, 12, 3, 1), Row(101, 1, 4, 0, 1)))
        expected = """\
01 0C000000   # format 1, cycle 12
01 05   # 1 core, with its board number
02   # 2 rows: tank, cost, period, phase, kind
6400 0600 0C00 0300 01   # tank 100: 6/12, phase 3, early release
6500 0100 0400 0000 01   # tank 101: 1/4, early release
"""
        self.assertEqual(tables.hex_text(raw, plan), expected)

    def test_load(self) -> None:
        # A row takes e · (L/p), the cores give M · L.
        for plan, words in [
            (THREE, "load 6 of 6 quanta in a cycle of 3 slots on 2 cores: nothing is left"),
            (Plan(12, (0,), (Row(1, 2, 3, 0, 0), Row(2, 1, 4, 0, 0))), "load 11 of 12 quanta in a cycle of 12 slots on 1 core: 1 is left"),
            (Plan(6, (0, 1), (Row(1, 5, 6, 0, 0),)), "load 5 of 12 quanta in a cycle of 6 slots on 2 cores: 7 are left"),
            (Plan(1, (0,), ()), "load 0 of 1 quantum in a cycle of 1 slot on 1 core: 1 is left"),
            (Plan(3, (0,), (Row(1, 2, 3, 0, 0), Row(2, 2, 3, 0, 0))), "load 4 of 3 quanta in a cycle of 3 slots on 1 core: 1 too many"),
        ]:
            self.assertEqual(tables.load(plan), words)

    def test_about(self) -> None:
        # The format is said where it is 2.
        load = "load 6 of 6 quanta in a cycle of 3 slots on 2 cores: nothing is left"
        self.assertEqual((tables.about(THREE), tables.about(THREE_2)), (f"3 tanks; {load}", f"3 tanks, in format 2; {load}"))


class Requests(unittest.TestCase):
    def test_value(self) -> None:
        self.assertEqual(tables.value_of(THREE), VALUE)
        self.assertEqual(tables.plan_of(VALUE), THREE)
        plan = Plan(0x01020304, (7, 8), (Row(0x0102, 0x0304, 0x0506, 0x0708, 9),))
        raw = bytes.fromhex("01 04030201 02 0708000000000000 01  0201 0403 0605 0807 09") + bytes(31 * 9)
        self.assertEqual(tables.value_of(plan), raw)
        self.assertEqual(tables.plan_of(raw), plan)

    def test_format(self) -> None:
        # In front of the cycle; where a plan says nothing of it, it is 1.
        for format, byte in [(1, "01"), (2, "02"), (0, "00"), (255, "FF")]:
            self.assertEqual(tables.value_of(Plan(3, (7,), (), format)), bytes.fromhex(f"{byte} 03000000 01 0700000000000000 00") + bytes(288))
            self.assertEqual(tables.plan_of(tables.value_of(Plan(3, (7,), (), format))).format, format)
        self.assertEqual(tables.plan_of(VALUE).format, 1)

    def test_what_is_above_its_field(self) -> None:
        row = Row(1, 1, 2, 0, 0)
        for plan, head in [
            (Plan(4_294_967_296, (0,), ()), "01 FFFFFFFF 01 0000000000000000 00"),
            (Plan(3, tuple(range(9)), ()), "01 03000000 09 0001020304050607 00"),
            (Plan(3, 256 * (1,), ()), "01 03000000 FF 0101010101010101 00"),
            (Plan(3, (0,), (), 256), "FF 03000000 01 0000000000000000 00"),
        ]:
            self.assertEqual(tables.value_of(plan), bytes.fromhex(head) + bytes(288))
        for count, byte in [(33, 33), (255, 255), (256, 255), (10_000, 255)]:
            value = tables.value_of(Plan(2, (0,), count * (row,)))
            self.assertEqual(value, bytes.fromhex("01 02000000 01 0000000000000000") + bytes([byte]) + 32 * bytes.fromhex("0100 0100 0200 0000 00"))

    def test_writing(self) -> None:
        fake = Fake(write_answer(0, TABLE) + write_answer(22))
        self.assertEqual(fake.write_tables([VALUE, bytes(303)]), [Written(0, TABLE), Written(22, b"")])
        self.assertEqual(fake.requests, [b"P" + VALUE + b"\x2f\x01\0\0" + bytes(303) + b"P" + bytes(303) + b"\x2f\x01\0\0" + bytes(303)])

    def test_all_in_one_run(self) -> None:
        fake = taking(TABLE, 5)
        self.assertEqual(tables.written(typed(THREE_TEXT), fake), TABLE)
        rows = ["0A00 0200 0300 0000 00", "0B00 0200 0300 0000 00", "1400 0200 0300 0000 00"]
        values = [
            "01 03000000 02 0001000000000000 03" + "".join(rows),
            "01 03000000 01 0000000000000000 00",
            "01 03000000 02 0001000000000000 00",
            "01 03000000 02 0001000000000000 01" + "".join(rows[:1]),
            "01 03000000 02 0001000000000000 02" + "".join(rows[:2]),
            "01 03000000 02 0001000000000000 03" + "".join(rows),
        ]
        asked = b"".join(b"P" + bytes.fromhex(value).ljust(303, b"\0") + b"\x2f\x01\0\0" + bytes(303) for value in values)
        self.assertEqual(fake.requests, [asked])

    def test_a_wild_probe(self) -> None:
        for number in [10, 11, 14, 15, 16, 21, 23, 37, 255]:  # 14 and 16 of the whole, and of no part of it
            with self.assertRaisesRegex(Trouble, f"^the probe is of another version, or contradicts itself: .* {number}$"):
                tables.written(typed(THREE_TEXT), refusing(number, 0, 0, 0, 0, 0))
        for head in ["01 03000000 09 0001000000000000 03", "01 03000000 02 0001000000000000 21"]:
            with self.assertRaisesRegex(Trouble, "^the probe takes a table of "):
                tables.plan_of(tables.taken(b"", Fake(b"\0" + bytes.fromhex(head).ljust(303, b"\0"))).value)


class Places(unittest.TestCase):
    """Where a refusal stands, with a probe that answers as is said here."""

    def assert_refused(self, text: str, answers: list[int], words: str) -> None:
        with self.assertRaises(Fault) as raised:
            tables.written(typed(text), refusing(*answers))
        self.assertEqual((str(raised.exception), raised.exception.number), (words, answers[0]))

    def test_format(self) -> None:
        for number, shown in [("0", "0"), ("3", "3"), ("255", "255"), ("256", "more than 255"), (9000 * "2", "more than 255")]:
            self.assert_refused(f"#\nformat,{number}\nboards,0\n", [11, 11], f"line 2, format: 11, format is neither 1 nor 2 (format {shown})")

    def test_cycle(self) -> None:
        words = "12, L outside 1 to 1,000,000"
        self.assert_refused("#\ncycle,0\nboards,0\n", [12, 12], f"line 2, cycle: {words} (cycle 0)")
        self.assert_refused("cycle,4294967296\nboards,0\n", [12, 12], f"line 1, cycle: {words} (cycle more than 4294967295)")
        left_out = "left out, so it is the least common multiple of the periods"
        self.assert_refused(HEAD + "1,1,1009\n2,1,1013\n", 5 * [12], f"cycle: {words} ({left_out}, 1022117)")
        self.assert_refused(HEAD + "1,1,65521\n2,1,65519\n3,1,65497\n", 6 * [12], f"cycle: {words} ({left_out}, more than 4294967295)")

    def test_boards(self) -> None:
        words = "13, M outside 1 to 8"
        self.assert_refused("cycle,3\n", [13], f"boards: {words} (there is no line of boards)")
        self.assert_refused("cycle,3\nboards\n", [13], f"line 2, boards: {words} (0 boards)")
        self.assert_refused("boards,0,1,2,3,4,5,6,7,8\n", [13, 0, 0, 0, 0, 0, 0, 0, 0], f"line 1, boards: {words} (9 boards)")
        words = "line 1, boards: 14, board numbers not rising"
        self.assert_refused("boards,4,4\n", [14, 0, 14], f"{words} (board 4 after board 4)")
        self.assert_refused("boards,0,3,2,1\n", [14, 0, 0, 14, 14], f"{words} (board 2 after board 3)")

    def test_rows(self) -> None:
        text = "cycle,12\nboards,0,1\ntank,cost,period,phase,kind\n10,1,2\n# a comment\n9,4,5,0,7\n8,1,2\n"
        for number, place, words, detail in [
            (16, "tank", "tanks not rising", "tank 9 after tank 10"),
            (17, "cost", "e = 0", "cost 4"),
            (18, "cost", "e above p", "cost 4, period 5"),
            (19, "period", "p does not divide L", "period 5, cycle 12"),
            (20, "kind", "kind above 1", "kind 7"),
        ]:
            self.assert_refused(text, [number, 0, 0, 0, number, number], f"line 6, {place}: {number}, {words} ({detail})")

    def test_a_load_that_is_too_large_before_the_fault(self) -> None:
        # The reader, and so the writer, comes to the sum only behind the last row: of the shorter tables some answer 22.
        text = "boards,0\ntank,cost,period,kind\n1,2,3\n2,2,3\n3,2,3,9\n4,2,3\n"
        self.assert_refused(text, [20, 0, 0, 22, 20, 20], "line 5, kind: 20, kind above 1 (kind 9)")

    def test_too_many_rows(self) -> None:
        text = HEAD + "".join(f"{tank},1,2\n\n" for tank in range(40))
        self.assert_refused(text, [15] + 34 * [0], "line 67: 15, n above 32 (40 rows)")

    def test_load(self) -> None:
        # 01: three rows 2/3 on two cores take 6 of 6, and a fourth of 1/3 one more.
        words = "22, sum above M*L (load 7 of 6 quanta in a cycle of 3 slots on 2 cores: 1 too many; no box has so many cores: 8 are the most)"
        answers = b"".join(write_answer(number) for number in [22, 0, 0, 0, 0, 0, 22])
        with self.assertRaises(Fault) as raised:
            tables.written(typed(THREE_TEXT + "21,1,3,0,plain\n"), Fake(answers, write_answer(22)))  # which refuses it with eight cores too
        self.assertEqual((str(raised.exception), raised.exception.number), (words, 22))

    def test_a_table_that_is_read(self) -> None:
        # Row 1 ends with byte 26: up to there the cuts are answered with 10.
        cuts = [refused(number) for number in 26 * [10] + 10 * [18]]
        with self.assertRaises(Fault) as raised:
            tables.taken(TABLE, Fake(refused(18), b"".join(cuts)))
        self.assertEqual((str(raised.exception), raised.exception.number), ("18, e above p (row 1, tank 11, bytes 18 to 26: cost 2, period 3)", 18))

    def test_a_number_that_no_part_has(self) -> None:
        with self.assertRaisesRegex(Trouble, "contradicts itself"):
            tables.taken(TABLE, Fake(refused(99), 36 * refused(10)))


class NeverLate(unittest.TestCase):
    """What is said of a table that is taken, with a probe that takes it with so many cores and more."""

    def said(self, cores: int, needed: int) -> str:
        table = TABLE[:5] + bytes([cores, *range(cores)]) + TABLE[8:]
        fake = Fake(b"".join(refused(22) if tried < needed else TAKEN for tried in range(1, 9)))
        said = tables.never_late(table, tables.laid_out(table), fake)
        self.assertEqual(len(fake.requests), 1)
        return said.removeprefix("never late from a fresh start if ")

    def test_all_cores_are_needed(self) -> None:
        # So one less is not enough.
        late = "(proved); with one held back it is late sooner or later (proved)"
        self.assertEqual(self.said(2, 2), f"all 2 cores are free in every slot {late}; it needs 2: with 1 core the same table is refused (22, sum above M*L)")
        self.assertEqual(self.said(8, 8), f"all 8 cores are free in every slot {late}; it needs 8: with 7 cores the same table is refused (22, sum above M*L)")

    def test_fewer_cores_are_needed(self) -> None:
        # So one less is enough.
        for cores, needed in [(3, 2), (4, 2)]:
            fewer = "it needs 2: with 1 core the same table is refused (22, sum above M*L)"
            self.assertEqual(self.said(cores, needed), f"at least 2 of the {cores} cores are free in every slot (proved), so also with one held back; {fewer}")
        for cores in (2, 4, 8):
            self.assertEqual(self.said(cores, 1), f"at least 1 of the {cores} cores is free in every slot (proved), so also with one held back")

    def test_the_only_core_is_not_held_back(self) -> None:
        self.assertEqual(self.said(1, 1), "the core is free in every slot (proved)")

    def test_a_probe_that_contradicts_itself(self) -> None:
        for needed in (3, 9):  # it has taken the table with 2
            with self.assertRaisesRegex(Trouble, "^the probe contradicts itself: "):
                self.said(2, needed)


class InFolder(unittest.TestCase):
    def setUp(self) -> None:
        folder = tempfile.TemporaryDirectory()
        self.addCleanup(folder.cleanup)
        self.folder = Path(folder.name)
        self.text, self.file = (str(self.folder / name) for name in ("farm.csv", "table"))
        Path(self.text).write_text(THREE_TEXT)

    def names(self) -> list[str]:
        return sorted(os.listdir(self.folder))


class Files(InFolder):
    def test_bytes_and_hex(self) -> None:
        fake = taking(TABLE, 5)
        self.assertEqual(ran(["write", self.text, "-o", self.file], fake), (0, "", THREE_SAID))
        self.assertEqual((Path(self.file).read_bytes(), fake.requests[1:]), (TABLE, [b"T\x24\0\0\0" + TABLE]))
        for name in ["table.hex", "other.HEX"]:
            self.assertEqual(ran(["write", self.text, "-o", str(self.folder / name)], taking(TABLE, 5)), (0, "", THREE_SAID))
            self.assertEqual((self.folder / name).read_text(), THREE_HEX)
        self.assertEqual(self.names(), ["farm.csv", "other.HEX", "table", "table.hex"])

    def test_from_bytes_to_any_form(self) -> None:
        Path(self.file).write_bytes(TABLE)
        for name, data in [("a", TABLE), ("a.hex", THREE_HEX.encode()), ("a.csv", THREE_TEXT.encode()), ("a.TXT", THREE_TEXT.encode())]:
            fake = Fake(TAKEN)
            self.assertEqual(ran(["write", self.file, "-o", str(self.folder / name)], fake), (0, "", THREE_SAID))
            self.assertEqual(((self.folder / name).read_bytes(), fake.requests), (data, [b"T\x24\0\0\0" + TABLE]))

    def test_format_2(self) -> None:
        # The value that is written and the one that is read have it in front; the other parts are as in format 1.
        Path(self.text).write_text(THREE_2_TEXT)
        fake = taking(TABLE_2, 5, b"\2" + VALUE[1:])
        self.assertEqual(ran(["write", self.text, "-o", self.file], fake), (0, "", THREE_2_SAID))
        self.assertEqual(Path(self.file).read_bytes(), TABLE_2)
        self.assertEqual([fake.requests[0][start : start + 5] for start in range(0, len(fake.requests[0]), 1 + 303 + 4 + 303)], 6 * [b"P\2\3\0\0"])
        self.assertEqual(ran(["show", self.file], Fake(b"\0\2" + VALUE[1:])), (0, THREE_2_TEXT, ""))

    def test_the_table_of_an_input(self) -> None:
        # 11: the input itself is no table, since it begins with a length.
        Path(self.file).write_bytes(THREE_SLOTS)
        note = f"{self.file} is an input of the slot printer: its table is looked at\n"
        self.assertEqual(ran(["show", self.file], Fake(refused(11), TAKEN)), (0, THREE_TEXT, note))
        written = str(self.folder / "written")
        self.assertEqual(ran(["write", self.file, "-o", written], Fake(refused(11), TAKEN)), (0, "", note + THREE_SAID))
        self.assertEqual(Path(written).read_bytes(), TABLE)

    def test_what_is_said(self) -> None:
        # How many tanks there are, since one behind # is none; and which columns were not read.
        Path(self.text).write_text("cycle,2\nboards,0\nname,tank,cost,period,\x1b\n#1,1,1,2\n2,2,1,2\n")
        row = bytes.fromhex("01 02000000 01 00 01  0200 0100 0200 0000 00")
        value = bytes.fromhex("01 02000000 01 0000000000000000 01  0200 0100 0200 0000 00")
        words = "17 bytes, 1 tank; load 1 of 2 quanta in a cycle of 2 slots on 1 core: 1 is left\ncolumns that are not read: 'name', '\\x1b'\n"
        self.assertEqual(ran(["write", self.text, "-o", self.file], taking(row, 2, value)), (0, "", words))
        Path(self.text).write_text("boards,0\ntank,cost,period" + 10 * ",a" + "\n")
        empty, value = bytes.fromhex("01 01000000 01 00 00"), bytes.fromhex("01 01000000 01")
        words = "8 bytes, 0 tanks; load 0 of 1 quantum in a cycle of 1 slot on 1 core: 1 is left\ncolumns that are not read: " + ", ".join(8 * ["'a'"]) + " and 2 more\n"
        self.assertEqual(ran(["write", self.text, "-o", self.file], taking(empty, 1, value)), (0, "", words))

    def test_show(self) -> None:
        # Hex text by its name, and by what stands in it.
        Path(self.file).write_bytes(TABLE)
        for name in ["table.hex", "table.HEX", "hexed"]:
            (self.folder / name).write_text(THREE_HEX)
        # Where 18 is answered for the table cut behind its first row, which is bytes 9 to 17, and so for all that are longer.
        cuts = b"".join(refused(10 if end < 18 else 18) for end in range(1, 37))
        for name in [self.file, f"{self.file}.hex", f"{self.file}.HEX", str(self.folder / "hexed")]:
            fake = Fake(TAKEN)
            self.assertEqual(ran(["show", name], fake), (0, THREE_TEXT, ""))
            self.assertEqual(fake.requests, [b"T\x24\0\0\0" + TABLE])
            fake = Fake(refused(18), cuts)
            words = f"{name}: 18, e above p (row 0, tank 10, bytes 9 to 17: cost 2, period 3)\n"
            self.assertEqual(ran(["show", name], fake), (1, "", words))
            self.assertEqual(fake.requests[1], b"".join(b"T" + bytes([end, 0, 0, 0]) + TABLE[:end] for end in range(1, 37)))

    def test_a_text_is_shown_as_it_would_be_read(self) -> None:
        Path(self.text).write_text("boards,0,1\ntank,cost,period\n10,2,3\n11,2,3\n20,2,3\n")
        self.assertEqual(ran(["show", self.text], taking(TABLE, 5)), (0, THREE_TEXT, ""))

    def test_nothing_is_written_if_it_is_refused(self) -> None:
        for old in [None, b"old"]:
            if old:
                Path(self.file).write_bytes(old)
            words = f"{self.text}: line 4, period: 19, p does not divide L (period 3, cycle 3)\n"
            self.assertEqual(ran(["write", self.text, "-o", self.file], refusing(19, 0, 0, 19, 19, 19)), (1, "", words))
            self.assertEqual(self.names(), ["farm.csv", "table"] if old else ["farm.csv"])
        self.assertEqual(Path(self.file).read_bytes(), b"old")

    def test_an_old_file_is_kept_where_there_is_no_room(self) -> None:
        # No file may grow past 10 bytes: the first ten of the table can be written, and no more.
        Path(self.file).write_bytes(b"old")
        soft, hard = resource.getrlimit(resource.RLIMIT_FSIZE)
        resource.setrlimit(resource.RLIMIT_FSIZE, (10, hard))
        try:
            status, out, error = ran(["write", self.text, "-o", self.file], taking(TABLE, 5))
        finally:
            resource.setrlimit(resource.RLIMIT_FSIZE, (soft, hard))
        self.assertEqual((status, out), (2, ""))
        self.assertRegex(error, f"^zb: {self.file} cannot be written: .+\n$")
        self.assertEqual((Path(self.file).read_bytes(), self.names()), (b"old", ["farm.csv", "table"]))

    def test_a_new_file_in_place_of_the_old(self) -> None:
        os.symlink("table", self.folder / "link")
        Path(self.file).write_bytes(b"old")
        os.chmod(self.file, 0o640)
        with open(self.file, "rb") as old:
            self.assertEqual(ran(["write", self.text, "-o", str(self.folder / "link")], taking(TABLE, 5))[0], 0)
            self.assertEqual(old.read(), b"old")
        self.assertEqual((Path(self.file).read_bytes(), stat.S_IMODE(os.stat(self.file).st_mode)), (TABLE, 0o640))
        self.assertTrue(os.path.islink(self.folder / "link"))

    def test_what_is_no_file_stays_what_it_is(self) -> None:
        os.mkfifo(self.file)
        reading = os.open(self.file, os.O_RDONLY | os.O_NONBLOCK)
        self.assertEqual(ran(["write", self.text, "-o", self.file], taking(TABLE, 5))[0], 0)
        self.assertEqual((os.read(reading, 1000), stat.S_ISFIFO(os.stat(self.file).st_mode)), (TABLE, True))
        os.close(reading)
        words = "zb: /dev/full cannot be written: No space left on device\n"
        self.assertEqual(ran(["write", self.text, "-o", "/dev/full"], taking(TABLE, 5)), (2, "", words))

    def test_the_text_is_not_lost(self) -> None:
        os.symlink("farm.csv", self.folder / "link")
        for name in [self.text, str(self.folder / "link")]:
            words = f"zb: {self.text} and {name} are one file, and what it has would be lost\n"
            self.assertEqual(ran(["write", self.text, "-o", name], Fake()), (2, "", words))
        self.assertEqual(Path(self.text).read_text(), THREE_TEXT)

    def test_long_files(self) -> None:
        long = str(self.folder / "long")
        with open(long, "wb") as file:
            file.truncate(300_000_000)
        # Of a table, 65,537 bytes are enough to tell that it is too long; of its place, the 303 that the longest table has.
        for arguments in [["show", long], ["write", long, "-o", self.file]]:
            fake = Fake(refused(11), 303 * refused(11))
            self.assertEqual(ran(arguments, fake), (1, "", f"{long}: 11, format is neither 1 nor 2 (byte 0: it is 0)\n"))
            self.assertEqual(fake.requests[0], b"T\x01\0\x01\0" + bytes(65_537))
        for name, status, words in [
            ("long.csv", 1, "{}: the text is longer than 1048576 bytes, and no table needs so many\n"),
            ("long.hex", 2, "zb: {} is hex text of more than 16777216 bytes: name the bytes themselves\n"),
        ]:
            long = str(Path(long).rename(self.folder / name))
            self.assertEqual(ran(["write", long, "-o", self.file], Fake()), (status, "", words.format(long)))
            self.assertEqual(ran(["show", long], Fake()), (status, "", words.format(long)))
        self.assertEqual(self.names(), ["farm.csv", "long.hex"])


class Endings(InFolder, EndingCase):
    def assert_not_done(self, arguments: list[str], probe: Probe, text: str) -> None:
        self.assert_trouble(["table", *arguments], probe, text)

    def test_wrong_use(self) -> None:
        for arguments, words in [
            ([], "required: COMMAND .see: zb table --help."),
            (["write"], "required: FILE, -o .see: zb table write --help."),
            (["write", "a"], "required: -o .see: zb table write --help."),
            (["write", "-o", "a"], "required: FILE .see: zb table write --help."),
            (["write", "a", "b"], "required: -o .see: zb table write --help."),
            (["write", "a", "-o", "b", "c"], "unrecognized arguments: c"),
            (["write", "a", "-o"], "argument -o: expected one argument"),
            (["show"], "required: FILE .see: zb table show --help."),
            (["show", "a", "b"], "unrecognized arguments: b"),
            (["read", "a"], "invalid choice: 'read'"),
            (["show", "-x"], "required: FILE .see: zb table show --help."),
            (["show", "a", "-x"], "unrecognized arguments: -x"),
        ]:
            self.assert_not_done(arguments, Fake(), words)
        for word in ["check", "show", "write"]:
            self.assert_help(["table", word], f"zb table {word}")
        self.assert_help(["table"], "zb table")

    def test_files_that_cannot_be_read_or_written(self) -> None:
        none, folder = str(self.folder / "none"), str(self.folder)
        for wrong in [none, folder]:
            self.assert_not_done(["write", wrong, "-o", self.file], Fake(), f"{wrong} cannot be read")
            self.assert_not_done(["show", wrong], Fake(), f"{wrong} cannot be read")
        for wrong in [f"{none}/table", folder]:
            self.assert_not_done(["write", self.text, "-o", wrong], taking(TABLE, 5), f"{wrong} cannot be written")
        self.assertEqual(self.names(), ["farm.csv"])

    def test_bad_hex(self) -> None:
        for name, text, words in [
            ("a.hex", "zz", ", line 1, has something else than hex digits"),
            ("a.HEX", "# zz\n\n01 # zz\n0g", ", line 4, has something else than hex digits"),
            ("a.hex", "012", " has half a byte"),
            ("a", "012", " has half a byte"),
        ]:
            (self.folder / name).write_text(text)
            self.assert_not_done(["show", str(self.folder / name)], Fake(), f"{name}{words}")

    def test_a_probe_that_does_not_answer(self) -> None:
        Path(self.file).write_bytes(TABLE)
        written = str(self.folder / "written")
        for arguments in [["write", self.text, "-o", written], ["write", self.file, "-o", written], ["show", self.text], ["show", self.file]]:
            self.assert_not_done(arguments, Probe([str(HERE / "none")]), "does not start")
            self.assert_not_done(arguments, Probe(["/bin/sh", "-c", "echo it is not built >&2; exit 2"]), "it is not built")
        # One that does not know P, and one that answers only the first of the six: 1 + 8 + 303 bytes each.
        self.assert_not_done(["write", self.text, "-o", written], Probe(["/bin/sh", "-c", "printf '\\377'"]), "1 bytes answer P, not 1872")
        self.assert_not_done(["write", self.text, "-o", written], Probe(["head", "-c", "312"]), "312 bytes answer P, not 1872")
        self.assertEqual(self.names(), ["farm.csv", "table"])

    def test_interrupted(self) -> None:
        self.assertEqual(ran(["write", self.text, "-o", self.file], Interrupted()), (130, "", ""))
        self.assertEqual(self.names(), ["farm.csv"])

    def test_standard_input(self) -> None:
        self.assertEqual(as_process("write", "-", "-o", "-", given=b"cycle,x\n"), (1, b"", f"standard input: line 1, cycle: 'x' {NO_NUMBER}\n"))
        words = "standard input: the text is longer than 1048576 bytes, and no table needs so many\n"
        self.assertEqual(as_process("write", "-", "-o", "-", given=2_000_000 * b"#"), (1, b"", words))

    def test_a_text_that_does_not_end(self) -> None:
        words = b"standard input: the text is longer than 1048576 bytes, and no table needs so many\n"
        command = f"yes boards,0 | {shlex.join([COMMAND, 'table', 'write', '-', '-o', self.file])}"
        run = subprocess.run(["/bin/sh", "-c", command], capture_output=True, timeout=60)
        self.assertEqual((run.returncode, run.stdout, run.stderr), (1, b"", words))
        self.assertEqual(self.names(), ["farm.csv"])


@needs_probe
class AgainstProbe(unittest.TestCase):
    def assert_written(self, text: str, table: bytes) -> None:
        self.assertEqual(tables.written(typed(text), Probe()), table)

    def assert_refused(self, text: str, words: str) -> None:
        with self.assertRaises(Fault) as raised:
            tables.written(typed(text), Probe())
        self.assertEqual(str(raised.exception), words)
        self.assertIn(f"{raised.exception.number}, ", words)

    def test_examples(self) -> None:
        self.assertEqual(example("three-tanks.hex"), TABLE)
        for name, table in [(THREE_TANKS, TABLE), (FARM, FARM_BYTES), (CAMERA, CAMERA_BYTES)]:
            self.assert_written(Path(name).read_text(), table)

    def test_smallest_and_largest(self) -> None:
        self.assert_written("boards,0\n", bytes.fromhex("01 01000000 01 00 00"))
        self.assert_written("cycle,1000000\nboards,255\n", bytes.fromhex("01 40420F00 01 FF 00"))
        # 32 rows of 1 in 4 take 32 of 8 · 4 quanta.
        text = "boards,0,1,2,3,4,5,6,7\ntank,cost,period,phase,kind\n" + "".join(f"{tank},1,4,65535,early\n" for tank in range(32))
        rows = "".join(f"{tank:02X}00 0100 0400 FFFF 01" for tank in range(32))
        self.assert_written(text, bytes.fromhex(f"01 04000000 08 0001020304050607 20 {rows}"))

    def test_text_to_bytes_to_text(self) -> None:
        for text in [Path(FARM).read_text(), Path(THREE_TANKS).read_text(), Path(CAMERA).read_text(), "boards,7\n", "cycle,12\nboards,0,9\ntank,cost,period,phase,kind\n0,3,4,65535,early\n"]:
            plan = plan_of(text)
            table = tables.written(typed(text), Probe())
            self.assertEqual(read_plan(table), plan)
            spelled = table_text.text(plan)
            self.assertEqual(tables.written(typed(spelled), Probe()), table)
            self.assertEqual(table_text.text(plan_of(spelled)), spelled)
            self.assertEqual(files.unhexed(tables.hex_text(table, plan).encode(), "f"), table)

    def test_bytes_to_text_to_bytes(self) -> None:
        full = inputs.split(example("full-box.hex"))
        assert full is not None
        self.assertEqual(len(full.table), 303)
        for table in [full.table, TABLE, example("tank-14.hex")]:
            self.assert_written(table_text.text(read_plan(table)), table)

    def test_hex_is_spelled_as_in_the_examples(self) -> None:
        example = (ROOT / "examples" / "tank-14.hex").read_text()
        table = files.unhexed(example.encode(), "f")
        self.assertEqual(tables.hex_text(table, read_plan(table)), example.split("\n", 1)[1])

    def test_format(self) -> None:
        for text in [THREE_2_TEXT, f"format,2\n{Path(FARM).read_text()}"]:
            table = tables.written(typed(text), Probe())
            self.assertEqual(table, b"\2" + (TABLE if text == THREE_2_TEXT else FARM_BYTES)[1:])
            self.assertEqual(read_plan(table), plan_of(text))
            self.assert_written(table_text.text(read_plan(table)), table)
        self.assert_written(f"format,1\n{THREE_TEXT}", TABLE)
        # 11 comes ahead of 12, and of all that follows.
        for number, said in [("0", "0"), ("3", "3"), ("255", "255"), ("256", "more than 255"), ("257", "more than 255"), ("258", "more than 255")]:
            words = f"11, format is neither 1 nor 2 (format {said})"
            self.assert_refused(f"format,{number}\n{THREE_TEXT}", f"line 1, format: {words}")
            self.assert_refused(f"cycle,0\nformat,{number}\nboards,4,4\n", f"line 2, format: {words}")

    def test_cycle(self) -> None:
        words = "12, L outside 1 to 1,000,000"
        for cycle, said in [("0", "0"), ("1000001", "1000001"), ("4294967295", "4294967295"), ("4294967296", "more than 4294967295")]:
            self.assert_refused(f"cycle,{cycle}\nboards,0\n", f"line 1, cycle: {words} (cycle {said})")
        # 1009 and 1013 are primes, and 1009 · 1013 = 1,022,117.
        left_out = "left out, so it is the least common multiple of the periods"
        self.assert_refused(HEAD + "1,1,1009\n2,1,1013\n", f"cycle: {words} ({left_out}, 1022117)")
        self.assert_refused(HEAD + "1,1,65521\n2,1,65519\n3,1,65497\n", f"cycle: {words} ({left_out}, more than 4294967295)")

    def test_boards(self) -> None:
        words = "13, M outside 1 to 8"
        self.assert_refused("", f"boards: {words} (there is no line of boards)")
        self.assert_refused("boards\n", f"line 1, boards: {words} (0 boards)")
        for many in [9, 255, 256, 257, 264]:  # the last two have 1 and 8 in their last byte
            self.assert_refused(f"boards{many * ',0'}\n", f"line 1, boards: {words} ({many} boards)")
        words = "14, board numbers not rising"
        self.assert_refused("cycle,3\nboards,0,0\n", f"line 2, boards: {words} (board 0 after board 0)")
        self.assert_refused("boards,0,1,2,3,4,5,7,6\n", f"line 1, boards: {words} (board 6 after board 7)")

    def test_rows(self) -> None:
        for rows, words in [
            ("10,1,2\n10,1,2\n", "line 4, tank: 16, tanks not rising (tank 10 after tank 10)"),
            ("0,1,2\n11,1,2\n9,1,2\n", "line 5, tank: 16, tanks not rising (tank 9 after tank 11)"),
            ("10,1,2\n\n11,0,2\n", "line 5, cost: 17, e = 0 (cost 0)"),
            ("10,0,0\n", "line 3, cost: 17, e = 0 (cost 0)"),
            ("10,3,2\n", "line 3, cost: 18, e above p (cost 3, period 2)"),
            ("10,1,4\n11,2,0\n", "line 4, cost: 18, e above p (cost 2, period 0)"),
            ("10,1,2,0,2\n", "line 3, kind: 20, kind above 1 (kind 2)"),
            ("10,1,2,0,255\n", "line 3, kind: 20, kind above 1 (kind 255)"),
            # The order in which a row is tested, and the first of two faulty rows.
            ("10,1,2\n10,0,2\n", "line 4, tank: 16, tanks not rising (tank 10 after tank 10)"),
            ("10,3,2,0,2\n11,0,2\n", "line 3, cost: 18, e above p (cost 3, period 2)"),
        ]:
            self.assert_refused(HEAD + rows, words)
        words = "line 5, period: 19, p does not divide L (period 7, cycle 12)"
        self.assert_refused(f"cycle,12\n{HEAD}10,1,2\n11,2,7\n", words)

    def test_too_many_rows(self) -> None:
        for many in [33, 255, 256, 288, 300]:  # 256 and 288 have 0 and 32 in their last byte
            text = HEAD + "".join(f"{tank},1,1000\n" for tank in range(many))
            self.assert_refused(text, f"line 35: 15, n above 32 ({many} rows)")

    def test_load(self) -> None:
        words = "22, sum above M*L (load 7 of 6 quanta in a cycle of 3 slots on 2 cores: 1 too many; it would need 3 cores)"
        self.assert_refused(THREE_TEXT + "21,1,3,0,plain\n", words)
        # Three rows of 2/3 on one core, 6 of 3, and the last of them has a fault, which comes before the sum.
        self.assert_refused("boards,0\ntank,cost,period,kind\n1,2,3\n2,2,3\n3,2,3,9\n", "line 5, kind: 20, kind above 1 (kind 9)")

    def test_tables_that_are_refused(self) -> None:
        for table, words in [
            (TABLE[:-1], "10, table ends inside a field or row (it ends after 35 bytes, inside row 2)"),
            (TABLE + b"\0", "21, bytes after the last row (the last row ends after 36 bytes, and there are 37)"),
        ]:
            with self.assertRaises(Fault) as raised:
                tables.taken(table, Probe())
            self.assertEqual(str(raised.exception), words)


@needs_probe
class ProgramAgainstProbe(InFolder):
    def test_files(self) -> None:
        for name in [self.file, f"{self.file}.hex"]:
            self.assertEqual(as_process("write", self.text, "-o", name), (0, b"", THREE_SAID))
            self.assertEqual(as_process("show", name), (0, THREE_TEXT.encode(), ""))
        self.assertEqual((Path(self.file).read_bytes(), Path(f"{self.file}.hex").read_text()), (TABLE, THREE_HEX))
        self.assertEqual(self.names(), ["farm.csv", "table", "table.hex"])

    def test_files_of_format_2(self) -> None:
        # To bytes, to hex and back to text: always the same table.
        Path(self.text).write_text(THREE_2_TEXT)
        for name in [self.file, f"{self.file}.hex"]:
            self.assertEqual(as_process("write", self.text, "-o", name), (0, b"", THREE_2_SAID))
            self.assertEqual(as_process("show", name), (0, THREE_2_TEXT.encode(), ""))
        self.assertEqual(Path(self.file).read_bytes(), TABLE_2)
        status, out, error = as_process("check", self.text)
        self.assertEqual((status, out.decode().splitlines()[:2], error), (0, ["0 done", THREE_2_SAID.removeprefix("36 bytes, ").rstrip()], ""))

    def test_a_format_that_is_neither(self) -> None:
        Path(self.text).write_text(THREE_2_TEXT.replace("2", "3", 1))
        words = "line 1, format: 11, format is neither 1 nor 2 (format 3)"
        self.assertEqual(as_process("write", self.text, "-o", self.file), (1, b"", f"{self.text}: {words}\n"))
        status, out, _ = as_process("check", self.text)
        self.assertEqual((status, out), (1, b"11 format is neither 1 nor 2\nline 1, format: format 3\n"))
        self.assertEqual(self.names(), ["farm.csv"])

    def test_standard_input_and_output(self) -> None:
        self.assertEqual(as_process("write", "-", "-o", "-", given=THREE_TEXT.encode()), (0, TABLE, THREE_SAID))
        self.assertEqual(as_process("show", "-", given=TABLE), (0, THREE_TEXT.encode(), ""))
        self.assertEqual(as_process("show", "-", given=THREE_HEX.encode()), (0, THREE_TEXT.encode(), ""))
        # Rows begin at byte 9 and have 9 bytes: 35 bytes end inside the third, which is row 2.
        words = "standard input: 10, table ends inside a field or row (it ends after 35 bytes, inside row 2)\n"
        self.assertEqual(as_process("show", "-", given=TABLE[:-1]), (1, b"", words))

    def test_bytes_that_do_not_end(self) -> None:
        words = "11, format is neither 1 nor 2 (byte 0: it is 0)\n"
        self.assertEqual(as_process("write", "/dev/zero", "-o", self.file), (1, b"", f"/dev/zero: {words}"))
        self.assertEqual(as_process("write", "-", "-o", "-", given=bytes(2_000_000)), (1, b"", f"standard input: {words}"))
        self.assertEqual(self.names(), ["farm.csv"])

    def test_nobody_to_read(self) -> None:
        # A reader that has gone, a full disk, and no standard output; nobody to tell is no reason to fail, nor to say it elsewhere.
        command = shlex.join([COMMAND, "table", "write", self.text, "-o", "-"])
        full = b"zb: standard output cannot be written: No space left on device\n"
        closed = b"zb: the table cannot be written: standard output is closed\n"
        for ends, status, out, error in [(">/dev/full", 2, b"", full), (">&-", 2, b"", closed), ("2>&-", 0, TABLE, b""), ("2>/dev/full", 0, TABLE, b"")]:
            run = subprocess.run(["/bin/sh", "-c", f"{command} {ends}"], capture_output=True)
            self.assertEqual((run.returncode, run.stdout, run.stderr), (status, out, error))
        reading, writing = os.pipe()
        os.close(reading)
        run = subprocess.run([COMMAND, "table", "write", self.text, "-o", "-"], stdout=writing, stderr=subprocess.PIPE)
        os.close(writing)
        self.assertEqual((run.returncode, run.stderr), (141, b""))

    def test_through_a_symlink(self) -> None:
        os.symlink(COMMAND, self.folder / "link")
        self.assertEqual(as_process("write", self.text, "-o", "-", command=str(self.folder / "link")), (0, TABLE, THREE_SAID))


@needs_probe
class ThePage(InFolder):
    """docs/TABLES.md: what it shows is word for word what the program prints, and its example is the file."""

    def blocks(self, start: str) -> list[list[str]]:
        found = [block for block in PAGE.read_text().split("\n\n") if block.startswith(f"    {start}")]
        self.assertTrue(found, start)
        return [[line.removeprefix("    ") for line in block.rstrip("\n").split("\n")] for block in found]

    def test_the_file(self) -> None:
        self.assertEqual(self.blocks("# "), [Path(FARM).read_text().splitlines()])

    def test_commands(self) -> None:
        # In a folder that looks like this one.
        for name in ["zb", "examples"]:
            os.symlink(ROOT / name, self.folder / name)
        os.mkdir(self.folder / "target")
        blocks = self.blocks("$ ")
        self.assertEqual([command.split()[:4] for command, *_ in blocks], [["$", "./zb", "table", "write"], ["$", "./zb", "table", "check"]])
        for command, *expected in blocks:
            self.assertEqual(self.printed(command.removeprefix("$ ")), expected)
        self.assertEqual((self.folder / "target" / "farm.table").read_bytes(), FARM_BYTES)
        show = "./zb table show target/farm.table"
        self.assertIn(f"`{show}`", PAGE.read_text())
        rows = ["10,2,3,0,plain", "11,1,4,0,plain", "20,3,12,0,early release", "21,1,6,5,plain"]
        self.assertEqual(self.printed(show), ["cycle,12", "boards,0,1", "tank,cost,period,phase,kind", *rows])

    def printed(self, command: str) -> list[str]:
        program, word, *arguments = shlex.split(command)
        self.assertEqual((program, word), ("./zb", "table"))
        run = subprocess.run([program, word, *arguments], stdout=subprocess.PIPE, stderr=subprocess.STDOUT, cwd=self.folder)
        self.assertEqual(run.returncode, 0)
        return run.stdout.decode().splitlines()

    def test_the_error(self) -> None:
        # "With a line `cycle,12` above `boards`, and 5 as the period of tank 11": lines 2 and 6.
        os.mkdir(self.folder / "examples")
        text = Path(FARM).read_text().replace("boards,", "cycle,12\nboards,").replace("\n11,1,4,", "\n11,1,5,")
        (self.folder / "examples" / "farm.csv").write_text(text)
        command = [COMMAND, "table", "write", "examples/farm.csv", "-o", "farm.hex"]
        run = subprocess.run(command, stdout=subprocess.PIPE, stderr=subprocess.STDOUT, cwd=self.folder)
        self.assertEqual(([run.stdout.decode().splitlines()], run.returncode), (self.blocks("examples/"), 1))
        self.assertEqual(self.names(), ["examples", "farm.csv"])

    def test_no_command_of_old(self) -> None:
        self.assertNotIn("python3", PAGE.read_text())


if __name__ == "__main__":
    unittest.main()
