"""The tests of the command: python3 host/desk/test_zb.py. What is expected was worked out by hand, from 01, 02 and docs/NUMBERS.md. The programs behind it
must be built: host/build probe slot_printer desk.
"""
from __future__ import annotations

import contextlib
import io
import os
import re
import shutil
import signal
import socket
import subprocess
import sys
import tempfile
import threading
import time
import unittest
from pathlib import Path
from unittest import mock

import building
import endings
import files
import listing
import zb
from trouble import Trouble

ROOT = Path(__file__).resolve().parent.parent.parent
ZB = str(ROOT / "zb")
EXAMPLES = ROOT / "examples"

TABLE = bytes.fromhex("01 03000000 02 0001 03  0A00 0200 0300 0000 00  0B00 0200 0300 0000 00  1400 0200 0300 0000 00")  # 01's example
TRACE = bytes.fromhex("03000000 02020001 02020002 02020102")
LISTING = "slot free tanks\n0 2 10 11\n1 2 10 20\n2 2 11 20\nend 3\n"  # with both cores free
BOTH = ("--free", "3x2")
BUILT = all((ROOT / "target" / name).exists() for name in ("bin/probe", "bin/slot_printer", "desk/run"))


def ran(*arguments: str) -> tuple[int, str, str]:
    """The exit status, and what was written, of the command in this process."""
    out, error = io.StringIO(), io.StringIO()
    with contextlib.redirect_stdout(out), contextlib.redirect_stderr(error):
        try:
            status = zb.main(arguments, zb.Desk())
        except SystemExit as end:  # of --help and --version
            status = int(end.code or 0)
    return status, out.getvalue(), error.getvalue()


def process(*arguments: str, given: bytes = b"", program: str = ZB) -> tuple[int, str, str]:
    run = subprocess.run([program, *arguments], input=given, capture_output=True, cwd="/", timeout=60)
    return run.returncode, run.stdout.decode(), run.stderr.decode()


class WithFiles(unittest.TestCase):
    def setUp(self) -> None:
        self.folder = Path(self.enterContext(tempfile.TemporaryDirectory()))  # type: ignore[attr-defined]

    def file(self, name: str, data: bytes | str) -> str:
        path = self.folder / name
        path.write_bytes(data if isinstance(data, bytes) else data.encode())
        return str(path)


class Words(unittest.TestCase):
    """What needs nothing built."""

    def test_help(self) -> None:
        for command in [[], ["table"], ["table", "check"], ["table", "show"], ["table", "write"], ["slots"], ["trace"], ["trace", "check"], ["trace", "show"],
                        ["why"], ["draw"], ["stats"], ["window"], ["meaning"]]:  # fmt: skip
            status, out, error = ran(*command, "--help")
            self.assertEqual((status, error), (0, ""))
            self.assertTrue(out.startswith("usage: zb"), out)

    def test_version(self) -> None:
        self.assertEqual(ran("--version"), (0, f"zb {(ROOT / 'VERSION').read_text().strip()}\n", ""))

    def test_nothing_asked(self) -> None:
        status, out, error = ran()
        self.assertEqual((status, out), (2, ""))
        self.assertIn("COMMAND", error)

    def test_wrong_use(self) -> None:
        for wrong in [["tabel"], ["table"], ["table", "check"], ["table", "check", "a", "b"], ["table", "write", "a"], ["trace", "check", "a"], ["slots", "a", "--slots", "x"],
                      ["why", "a", "b", "-1", "0"], ["why", "a", "b", "1", "x"], ["draw", "a", "--slots", "5-2"], ["draw", "a", "--slots", "x"], ["meaning"], ["slots", "a", "--slot", "3"],
                      ["trace", "check", "-", "-"], ["draw", "a", "-o", "b.png"], ["draw", "a", "b", "--free", "1"], ["meaning", "99"], ["window", "1", "2"]]:  # fmt: skip
            status, out, error = ran(*wrong)
            self.assertEqual((status, out), (2, ""), wrong)
            self.assertRegex(error, r"\Azb: [^\n]+\n\Z")

    def test_meaning(self) -> None:
        status, out, error = ran("meaning", "22")
        self.assertEqual((status, out.splitlines()[0], error), (0, "22 sum above M*L", ""))
        self.assertEqual(ran("meaning", "11")[1].splitlines()[0], "11 format is neither 1 nor 2")
        self.assertEqual(ran("meaning", "35")[1].splitlines()[0], "35 a set naming a core not below M, or a printer's k above M")
        for word in ("input", "late", "refused", "end", "022"):
            self.assertEqual(ran("meaning", word)[0], 0)
        for word in ("36,", "number", "", "3", "N"):
            self.assertEqual(ran("meaning", word)[0], 2)
        self.assertIn("not answered by this version", ran("meaning", "60")[1])

    def test_files_that_cannot_be_read(self) -> None:
        for name, words in [("/no/such", "No such file or directory"), ("/", "Is a directory")]:
            for command in [["table", "check", name], ["slots", name], ["trace", "check", name, name], ["draw", name]]:
                self.assertEqual(ran(*command), (2, "", f"zb: {name} cannot be read: {words}\n"))

    def test_lists_of_free_cores(self) -> None:
        self.assertEqual(listing.free_list("2,2,0"), b"\2\2\0")
        self.assertEqual(listing.free_list("3x0, 1 255"), b"\0\0\0\1\xff")
        self.assertEqual(listing.free_list(""), b"")
        self.assertEqual([len(listing.free_list("4096x1")), len(listing.free_list("1,4999x1", 5_000))], [4_096, 5_000])
        for wrong in ["a", "2,-1", "256", "x2", "2x", "1.5", "5000x1", "1,4096x1"]:
            with self.assertRaises(Trouble):
                listing.free_list(wrong)

    def test_spans(self) -> None:
        self.assertEqual([zb.span(text) for text in ("0-11", "5", "7-", "3-3")], [(0, 12), (5, 6), (7, None), (3, 4)])


class Forms(WithFiles):
    """Bytes, hex text and texts are told apart by name or content."""

    def content(self, name: str, data: bytes) -> files.Content:
        return files.read(self.file(name, data), 1 << 16)

    def test_bytes(self) -> None:
        self.assertEqual(self.content("t", TABLE), files.Content(TABLE, False))
        self.assertEqual(self.content("t", TRACE), files.Content(TRACE, False))
        self.assertEqual(self.content("t", b""), files.Content(b"", False))

    def test_hex(self) -> None:
        for name in ("t", "t.hex", "t.HEX", "t.bin", "t.txt"):
            self.assertEqual(self.content(name, b"# a comment, \xc3\xa9\r\n01 0a\tFF # more\n"), files.Content(b"\x01\x0a\xff", False))
        self.assertEqual(self.content("t.hex", b""), files.Content(b"", False))
        self.assertEqual(self.content("t", b"0" * 10_000), files.Content(bytes(5_000), False))

    def test_hex_that_is_none(self) -> None:
        for data, words in [(b"01\n0G", "line 2, has something else"), (b"012", "half a byte")]:
            with self.assertRaisesRegex(Trouble, words):
                self.content("t.hex", data)

    def test_texts(self) -> None:
        for name, data in [("t", b"boards,0\n"), ("t.csv", b"boards"), ("t.TXT", b""), ("t", b"# only a comment\n"), ("t", "boards,0\n".encode("utf-16"))]:
            self.assertEqual(self.content(name, data), files.Content(data, True))

    def test_no_more_is_read_than_is_needed(self) -> None:
        with open(self.folder / "large", "wb") as file:
            file.truncate(300_000_000)
        self.assertEqual(len(files.read(str(self.folder / "large"), 1_000).data), 1_001)


@unittest.skipUnless(BUILT, "not built: host/build probe slot_printer desk")
class Tables(WithFiles):
    def test_check(self) -> None:
        status, out, error = ran("table", "check", self.file("t", TABLE))
        self.assertEqual((status, error), (0, ""))
        self.assertEqual(out.splitlines()[:2], ["0 done", "3 tanks; load 6 of 6 quanta in a cycle of 3 slots on 2 cores: nothing is left"])
        late, fewer = "with one held back it is late sooner or later (proved)", "it needs 2: with 1 core the same table is refused (22, sum above M*L)"
        self.assertEqual(out.splitlines()[2:], [f"never late from a fresh start if all 2 cores are free in every slot (proved); {late}; {fewer}"])

    def test_fewer_cores_are_enough(self) -> None:
        # Three rows of 1/3 on four cores: one core is enough. With a fourth row it takes two. So three are enough for both.
        rows = [f"{tank},1,3" for tank in range(4)]
        three = "boards,0,1,2,3\ntank,cost,period\n" + "\n".join(rows[:3]) + "\n"
        self.assertIn("if at least 1 of the 4 cores is free in every slot (proved), so also with one held back\n", ran("table", "check", self.file("t.csv", three))[1])
        four = "if at least 2 of the 4 cores are free in every slot (proved), so also with one held back; it needs 2: with 1 core the same table is refused (22, sum above M*L)\n"
        self.assertIn(four, ran("table", "check", self.file("t.csv", three + rows[3] + "\n"))[1])

    def test_where_a_fault_lies(self) -> None:
        row = TABLE[9:18]
        for table, number, words in [
            (TABLE[:-1], "10 table ends inside a field or row", "it ends after 35 bytes, inside row 2"),
            (TABLE[:7], "10 table ends inside a field or row", "it ends after 7 bytes, inside its board numbers"),
            (TABLE[:8], "10 table ends inside a field or row", "it ends after 8 bytes, before its row count"),
            (TABLE[:18], "10 table ends inside a field or row", "it ends after 18 bytes, before row 1"),
            (b"", "10 table ends inside a field or row", "it ends after 0 bytes, before its format"),
            (b"\x00" + TABLE[1:], "11 format is neither 1 nor 2", "byte 0: it is 0"),
            (b"\x03" + TABLE[1:], "11 format is neither 1 nor 2", "byte 0: it is 3"),
            (b"\x01\0\0\0\0" + TABLE[5:], "12 L outside 1 to 1,000,000", "byte 4: it is 0"),
            (TABLE[:5] + b"\x09" + TABLE[6:], "13 M outside 1 to 8", "byte 5: it is 9"),
            (TABLE[:6] + b"\1\1" + TABLE[8:], "14 board numbers not rising", "byte 7: board 1 after board 1"),
            (TABLE[:8] + b"\x21" + TABLE[9:], "15 n above 32", "byte 8: it is 33"),
            (TABLE[:18] + row + TABLE[27:], "16 tanks not rising", "row 1, tank 10, bytes 18 to 26: tank 10 after tank 10"),
            (TABLE[:11] + b"\0" + TABLE[12:], "17 e = 0", "row 0, tank 10, bytes 9 to 17: cost 0"),
            (TABLE[:29] + b"\4" + TABLE[30:], "18 e above p", "row 2, tank 20, bytes 27 to 35: cost 4, period 3"),
            (TABLE[:22] + b"\4" + TABLE[23:], "19 p does not divide L", "row 1, tank 11, bytes 18 to 26: period 4, cycle 3"),
            (TABLE[:-1] + b"\2", "20 kind above 1", "row 2, tank 20, bytes 27 to 35: kind 2"),
            (TABLE + b"\0\0", "21 bytes after the last row", "the last row ends after 36 bytes, and there are 38"),
            (TABLE[:5] + b"\1\0" + TABLE[8:], "22 sum above M*L", "load 6 of 3 quanta in a cycle of 3 slots on 1 core: 3 too many; it would need 2 cores"),
        ]:
            status, out, error = ran("table", "check", self.file("t", table))
            self.assertEqual((status, out.splitlines()), (1, [number, words]))
            self.assertRegex(error, r"\Azb: [^\n]*\n\Z")

    def test_a_typed_table_that_is_refused(self) -> None:
        name = self.file("t.csv", "cycle,12\nboards,0,1\ntank,cost,period\n10,2,5\n")
        self.assertEqual(ran("table", "check", name)[:2], (1, "19 p does not divide L\nline 4, period: period 5, cycle 12\n"))
        words = f"{name}: line 4, period: 19, p does not divide L (period 5, cycle 12)\n"
        for command in [["table", "show", name], ["table", "write", name, "-o", str(self.folder / "out")], ["draw", name]]:
            self.assertEqual(ran(*command), (1, "", words))
        self.assertEqual(ran("slots", name), (1, "refused 19\n", words))
        self.assertFalse((self.folder / "out").exists())

    def test_what_is_no_table_has_no_number(self) -> None:
        name = self.file("t.csv", "boards,0\ntank,cost,period\n10,ten,5\n")
        self.assertEqual(ran("table", "check", name), (1, "", f"{name}: line 3, cost: 'ten' is not a whole number written in digits\n"))

    def test_how_many_cores_a_typed_table_would_need(self) -> None:
        three = "boards,0\ntank,cost,period\n10,2,3\n11,2,3\n20,2,3\n"
        words = "load 6 of 3 quanta in a cycle of 3 slots on 1 core: 3 too many; it would need 2 cores"
        self.assertEqual(ran("table", "check", self.file("t.csv", three))[:2], (1, f"22 sum above M*L\n{words}\n"))
        many = "boards,0\ntank,cost,period\n" + "".join(f"{tank},2,3\n" for tank in range(13))  # 26 of 3, and 8 cores give 24
        self.assertTrue(ran("table", "check", self.file("t.csv", many))[1].endswith("23 too many; no box has so many cores: 8 are the most\n"))

    def test_to_and_fro(self) -> None:
        source = self.file("t", TABLE)
        for name in ("a.hex", "b.csv", "c.table"):
            out = str(self.folder / name)
            self.assertEqual(ran("table", "write", source, "-o", out)[0], 0)
            source = out
        self.assertEqual(Path(source).read_bytes(), TABLE)
        self.assertEqual(ran("table", "show", source)[1], "cycle,3\nboards,0,1\ntank,cost,period,phase,kind\n10,2,3,0,plain\n11,2,3,0,plain\n20,2,3,0,plain\n")

    def test_both_formats(self) -> None:
        # The same tanks, load and cores; of format 2 it is said.
        load = "load 4 of 4 quanta in a cycle of 2 slots on 2 cores: nothing is left"
        text = "cycle,2\nboards,0,1\ntank,cost,period,phase,kind\n" + "".join(f"{tank},1,2,0,plain\n" for tank in range(10, 14))
        for format, tanks, shown in [(1, "4 tanks", text), (2, "4 tanks, in format 2", f"format,2\n{text}")]:
            name = str(EXAMPLES / f"four-halves-{format}.hex")
            status, out, _ = ran("table", "check", name)
            self.assertEqual((status, out.splitlines()[:2]), (0, ["0 done", f"{tanks}; {load}"]))
            self.assertRegex(out.splitlines()[2], r"\Anever late from a fresh start if all 2 cores are free in every slot \(proved\); with one held back it is late .*; it needs 2: ")
            self.assertEqual(ran("table", "show", name)[:2], (0, shown))

    def test_how_many_cores_a_table_of_format_2_would_need(self) -> None:
        words = "load 6 of 3 quanta in a cycle of 3 slots on 1 core: 3 too many; it would need 2 cores"
        self.assertEqual(ran("table", "check", self.file("t", b"\2" + TABLE[1:5] + b"\1\0" + TABLE[8:]))[:2], (1, f"22 sum above M*L\n{words}\n"))
        three = "format,2\nboards,0\ntank,cost,period\n10,2,3\n11,2,3\n20,2,3\n"
        self.assertEqual(ran("table", "check", self.file("t.csv", three))[:2], (1, f"22 sum above M*L\n{words}\n"))

    def test_an_input_of_the_printer(self) -> None:
        status, out, error = ran("table", "check", str(EXAMPLES / "three-tanks-slots.hex"))
        self.assertEqual((status, out.splitlines()[0]), (0, "0 done"))
        self.assertIn("is an input of the slot printer", error)

    def test_a_large_file(self) -> None:
        with open(self.folder / "large", "wb") as file:
            file.write(TABLE)
            file.truncate(300_000_000)
        status, out, _ = ran("table", "check", str(self.folder / "large"))
        self.assertEqual((status, out.splitlines()[0]), (1, "21 bytes after the last row"))


@unittest.skipUnless(BUILT, "not built: host/build probe slot_printer desk")
class Slots(WithFiles):
    def test_a_table_and_an_input(self) -> None:
        for name in [self.file("t", TABLE), self.file("t.csv", "boards,0,1\ntank,cost,period\n10,2,3\n11,2,3\n20,2,3\n"), str(EXAMPLES / "three-tanks.hex")]:
            self.assertEqual(ran("slots", name, *BOTH), (0, LISTING, ""))
        self.assertEqual(ran("slots", str(EXAMPLES / "three-tanks-slots.hex")), (0, LISTING, ""))

    def test_both_formats(self) -> None:
        # Slot by slot the two pairs take turns; in format 2 a pair that ran in the slot before goes first.
        first, second = "10 11", "12 13"
        for format, picks in [(1, 4 * [first, second]), (2, 2 * [first, second, second, first])]:
            listed = "slot free tanks\n" + "".join(f"{slot} 2 {tanks}\n" for slot, tanks in enumerate(picks)) + "end 8\n"
            self.assertEqual(ran("slots", str(EXAMPLES / f"four-halves-{format}.hex")), (0, listed, ""))
            text = f"format,{format}\nboards,0,1\ntank,cost,period\n" + "".join(f"{tank},1,2\n" for tank in range(10, 14))
            self.assertEqual(ran("slots", self.file("t.csv", text), "--free", "8x2"), (0, listed, ""))

    def test_slots_and_free(self) -> None:
        name = self.file("t", TABLE)
        self.assertEqual(ran("slots", name, "--slots", "1", "--free", "2"), (0, "slot free tanks\n0 2 10 11\nend 1\n", ""))
        self.assertEqual(ran("slots", name, "--slots", "0"), (0, "slot free tanks\nend 0\n", ""))
        status, out, error = ran("slots", name, "--free", "0,0")
        self.assertEqual((status, out), (1, "slot free tanks\n0 0\n1 0\nlate 2 10\n"))
        self.assertIn("tank 10 is late at time 2", error)
        status, out, error = ran("slots", name, "--free", "3")
        self.assertEqual((status, out), (1, "slot free tanks\nrefused 35\n"))
        self.assertIn("35, a set naming a core not below M", error)

    def test_refused(self) -> None:
        status, out, error = ran("slots", self.file("t", TABLE[:-1]))
        self.assertEqual((status, out), (1, "refused 10\n"))
        self.assertIn("10, table ends inside a field or row", error)

    def test_more_than_the_printer_prints(self) -> None:
        status, out, error = ran("slots", self.file("t", TABLE), "--slots", "4097")
        self.assertEqual((status, out), (1, "input\n"))
        self.assertIn("4096 slots at most", error)

    def test_what_is_no_input_and_no_table(self) -> None:
        example = files.read(str(EXAMPLES / "three-tanks-slots.hex"), 1_000).data
        status, out, error = ran("slots", self.file("t", example[:-1]))
        self.assertEqual((status, out, error), (1, "input\n", "zb: input: the table's length says 36, so the input must have 45 bytes with 3 k values, and has 44\n"))
        for data in (b"\3" + TABLE[1:], TRACE):
            self.assertEqual(ran("slots", self.file("t", data))[:2], (1, "refused 11\n"))

    def test_cores_are_listed_for_the_same_slots(self) -> None:
        # Past the list the printer decides how many cores are free: the listing with cores has the same numbers, in both of its columns.
        name = self.file("t", TABLE)
        for arguments in [["--slots", "5"], ["--slots", "5", "--free", "2,1"], ["--free", "2,2,2,2,2,2,2,2"]]:
            plain, with_cores = (ran("slots", name, *arguments, *more)[1].splitlines() for more in ([], ["--cores"]))
            self.assertEqual([line.split()[:2] for line in plain[1:]], [line.split()[:2] for line in with_cores[1:-1]])

    def test_a_list_that_is_too_long(self) -> None:
        self.assertEqual(ran("slots", self.file("t", TABLE), "--slots", "1", "--free", "2,2")[2], "zb: of the 2 slots of the list the first 1 are printed\n")

    def test_a_long_cycle_is_cut(self) -> None:
        name = self.file("t.csv", "cycle,1000000\nboards,0\ntank,cost,period\n1,1,2\n")
        status, out, error = ran("slots", name)
        self.assertEqual((status, out.splitlines()[-1], error), (0, "end 100", "zb: 100 of the cycle's 1000000 slots; --slots N prints others\n"))

    def test_with_cores(self) -> None:
        self.assertEqual(ran("slots", self.file("t", TABLE), "--cores", "--slots", "2", "--free", "2x2")[:2], (0, "slot free moves tanks on cores\n0 2 0 10@0 11@1\n1 2 0 10@0 20@1\nend 2\nmoves 0\n"))
        self.assertEqual(ran("slots", self.file("t", TABLE[:-1]), "--cores")[:2], (1, "refused 10\n"))
        self.assertEqual(ran("slots", str(EXAMPLES / "late.hex"), "--cores")[:2], (1, "slot free moves tanks on cores\n0 0 0\n1 0 0\nlate 2 10\nmoves 0\n"))


@unittest.skipUnless(BUILT, "not built: host/build probe slot_printer desk")
class HeldBack(WithFiles):
    """Slots past the list of free cores use one core less than there are, or the only one (02, Nine): in the listing, with cores, and drawn."""

    SAID = "zb: from slot {} on no list says how many cores are free, so one of the 2 is held back; --free {}x2 frees them all\n"

    # The farm of docs/TABLES.md on three cores, of which two are free. Tank 10, of 2/3, has the windows 0 to 2, 1 to 3, 3 to 5, 4 to 6, and so on; tank 11,
    # of 1/4, has 0 to 4, 4 to 8, 8 to 12, and tank 20, of 3/12, the same, but it is of early release, and ready until it has had its three quanta; tank 21,
    # of 1/6 from slot 5 on, has 5 to 11 and 11 to 17. Three are ready in slot 0 alone: tank 10 is due first, and tanks 11 and 20 tie, so the lower row goes.
    FARM = [
        ["10@0", "11@1"], ["10@0", "20@1"], ["20@1"], ["10@0", "20@1"],  # tank 20 stays on core 1, tank 10 is new in slot 3
        ["10@0", "11@1"], ["21@0"], ["10@0"], ["10@0"], ["11@0"], ["10@0"], ["10@0"], ["21@0"],
    ]  # fmt: skip

    def setUp(self) -> None:
        super().setUp()
        self.table = self.file("t", TABLE)

    def assert_late(self, arguments: list[str], listed: str, said: str) -> None:
        status, out, error = ran("slots", *arguments)
        self.assertEqual((status, out), (1, listed))
        late, more = error.split("\n", 1)
        self.assertRegex(late, r"\Azb: tank [0-9]+ is late at time [0-9]+: ")
        self.assertEqual(more, said)

    def test_without_a_list(self) -> None:
        # Each tank of 01's example has a quantum due at 2, with b = 1 and D = 3, and one due at 3: the lower row goes first, and tank 20 has none at time 2.
        for name in [self.table, str(EXAMPLES / "three-tanks.hex"), str(EXAMPLES / "three-tanks.csv")]:
            self.assert_late([name], "slot free tanks\n0 1 10\n1 1 11\nlate 2 20\n", self.SAID.format(0, 3))
        cores = "slot free moves tanks on cores\n0 1 0 10@0\n1 1 0 11@0\nlate 2 20\nmoves 0\n"
        self.assert_late([self.table, "--cores"], cores, self.SAID.format(0, 3))
        drawn = [
            "slot            0   1   2",
            "free            1   1",
            "tank 10    2/3  ├█0────┤",
            "                    ├──────┤",
            "tank 11    2/3  ├────█0┤",
            "                    ├──────┤",
            "tank 20    2/3  ├──────!",
            "                    ├──────┤",
            "  late at 2            ^",
            "",
            "Tank 20 is late at time 2: there the dispatcher stops.",
        ]
        self.assertEqual(ran("draw", self.table), (1, "\n".join(drawn) + "\n", self.SAID.format(0, 3)))

    def test_past_a_list(self) -> None:
        # Slot 0 has both: tanks 10 and 11. In slot 1 tank 20 is due at 2, and the others at 3. In slot 2 all are due at 3, and at time 3 tanks 11 and 20 are late.
        own = self.file("input", b"\x24\0" + TABLE + b"\3\0" + b"\1\0\2")
        for arguments in [[self.table, "--free", "2"], [own]]:
            self.assert_late(arguments, "slot free tanks\n0 2 10 11\n1 1 20\n2 1 10\nlate 3 11\n", self.SAID.format(1, 3))
            cores = "slot free moves tanks on cores\n0 2 0 10@0 11@1\n1 1 0 20@0\n2 1 0 10@0\nlate 3 11\nmoves 0\n"
            self.assert_late([*arguments, "--cores"], cores, self.SAID.format(1, 3))
            status, out, error = ran("draw", *arguments)
            self.assertEqual((status, out.splitlines()[1].split(), error), (1, ["free", "2", "1", "1"], self.SAID.format(1, 3)))

    def test_a_list_in_full(self) -> None:
        # As before the link stack came; and what is late then has another cause, which needs no line.
        self.assertEqual(ran("slots", self.table, *BOTH), (0, LISTING, ""))
        status, out, error = ran("draw", self.table, *BOTH)
        self.assertEqual((status, out.splitlines()[1].split(), error), (0, ["free", "2", "2", "2"], ""))
        for more in ([], ["--cores"]):
            self.assertRegex(ran("slots", self.table, "--free", "0,0,2", *more)[2], r"\Azb: tank 10 is late at time 2: [^\n]*\n\Z")
        self.assertEqual(ran("draw", self.table, "--free", "3x1")[2], "")

    def test_what_is_said_works(self) -> None:
        # The option that is named, with the same command: nobody is late any more. A drawing may lie past the 4,096 slots of a listing.
        for command in [["slots", self.table], ["slots", self.table, "--cores", "--slots", "4096"], ["draw", self.table], ["draw", self.table, "--slots", "4999-5000"]]:
            status, _, error = ran(*command)
            named = re.findall("; --free ([0-9]+x2) frees them all\n", error)
            self.assertEqual((status, len(named)), (1, 1), error)
            status, _, error = ran(*command, "--free", named[0])
            self.assertEqual((status, error), (0, ""))

    def test_saved_drawings(self) -> None:
        for name in ("a.svg", "a.html", "a.txt"):
            error = ran("draw", self.table, "-o", str(self.folder / name))[2]
            self.assertEqual(error, f"zb: Tank 20 is late at time 2: there the dispatcher stops.\n{self.SAID.format(0, 3)}")

    def test_a_trace_says_itself_how_many_were_free(self) -> None:
        # The same picks in a trace, which ends late at 2.
        status, out, error = ran("draw", self.table, self.file("u", bytes.fromhex("02000000 010100 010101")))
        self.assertEqual((status, error), (1, ""))
        self.assertIn("  late at 2", out)

    def test_one_core_alone(self) -> None:
        # It is not held back. Tanks 7 and 8, of 1/2 each, have it by turns; without it in slot 0 tank 8 is late at 2, and no core was held back.
        name = self.file("t.csv", "boards,5\ntank,cost,period\n7,1,2\n8,1,2\n")
        self.assertEqual(ran("slots", name), (0, "slot free tanks\n0 1 7\n1 1 8\nend 2\n", ""))
        self.assertEqual(ran("slots", name, "--cores"), (0, "slot free moves tanks on cores\n0 1 0 7@0\n1 1 0 8@0\nend 2\nmoves 0\n", ""))
        self.assertEqual(ran("draw", name)[1].splitlines()[1].split(), ["free", "1", "1"])
        self.assert_late([name, "--free", "0"], "slot free tanks\n0 0\n1 1 7\nlate 2 8\n", "")
        status, out, error = ran("draw", name, "--free", "0")
        self.assertEqual((status, out.splitlines()[1].split(), error), (1, ["free", "0", "1"], ""))

    def test_the_farm_on_three_cores(self) -> None:
        text = (EXAMPLES / "farm.csv").read_text(encoding="utf-8").replace("boards,0,1\n", "boards,0,1,2\n")
        plain = [" ".join([str(slot), "2", *(pair.split("@")[0] for pair in pairs)]) for slot, pairs in enumerate(self.FARM)]
        cores = [" ".join([str(slot), "2", "0", *pairs]) for slot, pairs in enumerate(self.FARM)]
        for name in [self.file("t.csv", text), str(EXAMPLES / "held-back.hex")]:
            self.assertEqual(ran("slots", name), (0, "\n".join(["slot free tanks", *plain, "end 12\n"]), ""))
            self.assertEqual(ran("slots", name, "--cores"), (0, "\n".join(["slot free moves tanks on cores", *cores, "end 12", "moves 0\n"]), ""))
            status, out, error = ran("draw", name)
            self.assertEqual((status, out.splitlines()[1].split(), error), (0, ["free", *12 * "2"], ""))
            self.assertEqual(ran("slots", name, "--slots", "4096")[1].splitlines()[-1], "end 4096")


@unittest.skipUnless(BUILT, "not built: host/build probe slot_printer desk")
class Traces(WithFiles):
    def setUp(self) -> None:
        super().setUp()
        self.table, self.trace = self.file("table", TABLE), self.file("trace", TRACE)

    def test_check(self) -> None:
        self.assertEqual(ran("trace", "check", self.table, self.trace), (0, "0 done\n3 slots: every quantum ran in its allowed slots, and no tank was late\n", ""))
        status, out, error = ran("trace", "check", self.table, self.file("late", bytes.fromhex("02000000 0000 0000")))
        self.assertEqual((status, out.splitlines()[0]), (1, "45 row late"))
        self.assertTrue(out.splitlines()[1].startswith("tank 10 (row 0) is late at time 2: "))
        self.assertTrue(error.startswith("zb: A tank missed a deadline."))

    def test_show(self) -> None:
        status, out, error = ran("trace", "show", self.table, self.trace, "--slots", "1-2")
        self.assertEqual((status, out.splitlines()[1:]), (0, ["1 2 10#2 20#1", "2 2 11#2 20#2"]))
        self.assertIn("0, done", error)
        status, out, error = ran("trace", "show", self.table, self.file("cut", TRACE[:-1]))
        self.assertEqual((status, len(out.splitlines())), (1, 3))
        self.assertIn("40, trace ends inside its count or a record: the trace is cut short: the record of slot 2 is not wholly there", error)

    def test_a_refused_table(self) -> None:
        table = self.file("bad", TABLE[:-1])
        self.assertEqual(ran("trace", "check", table, self.trace)[:2], (1, "10 table ends inside a field or row\nit ends after 35 bytes, inside row 2\n"))
        for command in [["trace", "show", table, self.trace], ["stats", table, self.trace], ["draw", table, self.trace], ["why", table, self.trace, "10", "0"]]:
            self.assertEqual(ran(*command), (1, "", f"{table}: 10, table ends inside a field or row (it ends after 35 bytes, inside row 2)\n"))

    def test_stats(self) -> None:
        status, out, _ = ran("stats", self.table, self.trace)
        self.assertEqual((status, out.splitlines()[0]), (0, "3 slots; 6 of 6 free core slots used; 4 starts"))
        self.assertEqual(ran("stats", self.table, self.trace, "--jobs")[1].splitlines()[0], "tank 10 job 1: released 0, done 2, response 2")
        self.assertEqual(ran("stats", self.table, self.file("late", bytes.fromhex("02000000 0000 0000")))[0], 1)

    def test_starts_of_both_formats(self) -> None:
        # Each tank's starts, and all of them: 4 · 4, and 3 + 3 + 2 + 2. No tank moves in either.
        for format, starts in [(1, [4, 4, 4, 4]), (2, [3, 3, 2, 2])]:
            table, trace = (str(EXAMPLES / f"four-halves-{format}{name}.hex") for name in ("", "-trace"))
            self.assertEqual(ran("trace", "check", table, trace)[0], 0)
            status, out, _ = ran("stats", table, trace)
            head, names, *tanks = out.splitlines()[:6]
            self.assertEqual((status, head), (0, f"8 slots; 16 of 16 free core slots used; {sum(starts)} starts"))
            columns = names.split().index("starts"), names.split().index("moves")
            self.assertEqual([[int(line.split()[column]) for line in tanks] for column in columns], [starts, 4 * [0]])

    def test_standard_input(self) -> None:
        self.assertEqual(process("trace", "check", self.table, "-", given=TRACE)[0], 0)
        self.assertEqual(process("trace", "check", "-", self.trace, given=TABLE.hex().encode())[0], 0)
        self.assertEqual(process("slots", "-", *BOTH, given=TABLE), (0, LISTING, ""))


@unittest.skipUnless(BUILT, "not built: host/build probe slot_printer desk")
class Drawings(WithFiles):
    def test_windows_of_one_slot(self) -> None:
        # A cost equal to the period (02, Six): the windows 0 to 1, 1 to 2, 2 to 3 side by side, each with its quantum.
        drawn = [
            "slot            0   1   2",
            "free            2   2   2",
            "tank 7     1/1  ├█0┤    ├█0┤",
            "                    ├█0┤",
            "tank 9     2/3  ├█1────┤",
            "                    ├█1────┤",
        ]
        self.assertEqual(ran("draw", str(EXAMPLES / "camera.csv"), *BOTH)[1].splitlines(), drawn)

    def test_both_formats(self) -> None:
        # Windows 0 to 2, 2 to 4, .. of all four alike. In format 1 tanks 10 and 11 run at the start of each, 12 and 13 at the end; in format 2 the pair
        # that ran at the end of a window runs at the start of the next.
        at_start, at_end = "├█{0}────┤", "├────█{0}┤"
        odd, even = "{}        {}", 8 * " " + "{}        {}"  # the windows that stand on a tank's first line, and on its second
        for format, pairs in [(1, {10: (at_start, at_start), 12: (at_end, at_end)}), (2, {10: (at_start, at_end), 12: (at_end, at_start)})]:
            drawn = ["slot            " + "   ".join("01234567"), "free            " + "   ".join(8 * "2")]
            for tank in range(10, 14):
                first, second = (window.format(tank % 2) for window in pairs[tank - tank % 2])
                drawn += [f"tank {tank}    1/2  {odd.format(first, first)}", 16 * " " + even.format(second, second)]
            name = str(EXAMPLES / f"four-halves-{format}.hex")
            self.assertEqual(ran("draw", name), (0, "\n".join(drawn) + "\n", ""))
            status, out, _ = ran("draw", name, str(EXAMPLES / f"four-halves-{format}-trace.hex"))
            self.assertEqual((status, out.splitlines()[: len(drawn)]), (0, drawn))

    def test_forms(self) -> None:
        table = self.file("t", TABLE)
        for name, start in [("a.svg", "<"), ("a.html", "<!"), ("a.txt", "slot ")]:
            out = self.folder / name
            self.assertEqual(ran("draw", table, *BOTH, "-o", str(out))[:2], (0, ""))
            self.assertTrue(out.read_text(encoding="utf-8").startswith(start))
        self.assertEqual(ran("draw", table, *BOTH)[1], (self.folder / "a.txt").read_text(encoding="utf-8"))

    def test_cut(self) -> None:
        table = self.file("t", TABLE)
        self.assertEqual(ran("draw", table, "--slots", "4-5", "--free", "6x2")[1].split("\n")[0].split(), ["slot", "4", "5"])
        status, _, error = ran("draw", table, "--slots", "0-9999")
        self.assertEqual(status, 2)
        self.assertIn("2000 slots at most", error)

    def test_what_is_cut_is_said(self) -> None:
        name = self.file("t.csv", "cycle,1000\nboards,0\ntank,cost,period\n1,1,2\n")
        self.assertEqual(ran("draw", name)[2], "zb: slots 0 to 47 of 1000; --slots A-B draws others\n")
        table, trace = self.file("t", TABLE), self.file("u", TRACE)
        self.assertIn("zb: of the trace slots 0 to 2 can be drawn\n", ran("draw", table, trace, "--slots", "5-9")[2])
        self.assertIn("zb: the trace has slots 0 to 2\n", ran("trace", "show", table, trace, "--slots", "5-9")[2])
        self.assertIn("zb: of the trace no slots can be drawn\n", ran("draw", table, self.file("v", bytes(4)))[2])

    def test_what_is_late_is_seen(self) -> None:
        # 01's rows for 300 slots, and then no core for two: late at time 302.
        trace = (302).to_bytes(4, "little") + 100 * TRACE[4:] + bytes(4)
        status, out, _ = ran("draw", self.file("t", TABLE), self.file("u", trace))
        self.assertEqual(status, 1)
        self.assertIn("  late at 302", out)

    def test_late_and_refused(self) -> None:
        table = self.file("t", TABLE)
        self.assertEqual(ran("draw", table, "--free", "0,0,2")[0], 1)
        status, out, _ = ran("draw", table, "--free", "2,7")
        self.assertEqual(status, 1)
        self.assertIn("Slot 1 is refused: 35, a set naming a core not below M, or a printer's k above M.", out)


@unittest.skipUnless(BUILT, "not built: host/build probe slot_printer desk")
class Windows(unittest.TestCase):
    def test_bench(self) -> None:
        # 01's bench lines, and that of request Three.
        for arguments, line in [
            (["5", "16", "2"], "5/16, i = 2: 3 to 7, b 1, D 0"),
            (["5/16", "5"], "5/16, i = 5: 12 to 16, b 0, D 0"),
            (["8", "11", "1"], "8/11, i = 1: 0 to 2, b 1, D 4"),
            (["1", "2", "1"], "1/2, i = 1: 0 to 2, b 0, D 2"),
            (["2", "3", "4", "1"], "2/3 with f = 4, i = 1: 4 to 6, b 1, D 7"),
            (["1", "1", "1"], "1/1, i = 1: 0 to 1, b 0, D 1"),  # 02, Six: one slot, b = 0, D = d
            (["5/5", "2", "3"], "5/5 with f = 2, i = 3: 4 to 5, b 0, D 5"),
            # 02, Seven: 125,000,000,000 jobs of 8/11 on, 11 slots each
            (["8", "11", "1000000000001"], "8/11, i = 1000000000001: 1375000000000 to 1375000000002, b 1, D 1375000000004"),
        ]:
            self.assertEqual(ran("window", *arguments), (0, line + "\n", ""))
        self.assertEqual(len(ran("window", "8/11", "1-8")[1].splitlines()), 8)

    def test_refused(self) -> None:
        for arguments in [["2", "1", "1"], ["0", "0", "1"], ["8", "11", "0"], ["8", "11", "1000000000002"]]:
            status, out, _ = ran("window", *arguments)
            self.assertEqual(status, 1)
            self.assertTrue(out.endswith(": 50, window refused\n"))


@unittest.skipUnless(BUILT, "not built: host/build probe slot_printer desk")
class Endings(WithFiles):
    def test_a_full_disk(self) -> None:
        for command in [["slots", self.file("t", TABLE)], ["table", "show", self.file("t", TABLE)], ["window", "8/11", "1"], ["draw", self.file("t", TABLE)], ["meaning", "22"]]:
            with open("/dev/full", "wb") as full:
                run = subprocess.run([ZB, *command], stdout=full, stderr=subprocess.PIPE)
            self.assertEqual(run.returncode, 2)
            self.assertRegex(run.stderr.decode(), r"\Azb: the [a-z]+ cannot be written: No space left on device\n\Z")
        self.assertEqual(ran("draw", self.file("t", TABLE), "-o", "/dev/full")[0], 2)

    def test_a_closed_pipe(self) -> None:
        reading, writing = os.pipe()
        os.close(reading)
        run = subprocess.run([ZB, "slots", self.file("t", TABLE)], stdout=writing, stderr=subprocess.PIPE)
        os.close(writing)
        self.assertEqual((run.returncode, run.stderr), (141, b""))

    def test_no_place_to_write(self) -> None:
        status, out, error = ran("table", "write", self.file("t", TABLE), "-o", "/no/such/folder/t")
        self.assertEqual((status, out, error), (2, "", "zb: /no/such/folder/t cannot be written: No such file or directory\n"))

    def test_from_anywhere_and_through_a_symlink(self) -> None:
        link = self.folder / "link"
        link.symlink_to(ZB)
        self.assertEqual(process("slots", "-", *BOTH, given=TABLE, program=str(link)), (0, LISTING, ""))
        self.assertEqual(os.listdir(self.folder), ["link"])

    def test_a_socket_as_standard_input(self) -> None:
        ours, theirs = socket.socketpair()
        with ours, theirs:
            ours.sendall(TABLE)
            ours.shutdown(socket.SHUT_WR)
            run = subprocess.run([ZB, "slots", "-", *BOTH], stdin=theirs, capture_output=True)
        self.assertEqual((run.returncode, run.stdout.decode()), (0, LISTING))

    def test_ended_from_outside(self) -> None:
        """What it has started ends with it."""
        for number, status in [(signal.SIGTERM, 143), (signal.SIGINT, 130)]:
            os.mkfifo(self.folder / f"never-{status}")
            command = ["env", "--default-signal=INT", ZB, "trace", "check", self.file("t", TABLE), str(self.folder / f"never-{status}")]
            started = subprocess.Popen(command, stderr=subprocess.PIPE)  # a shell's background may ignore Ctrl-C
            with open(self.folder / f"never-{status}", "wb"):  # once it is opened there too
                started.send_signal(number)
                started.wait(timeout=30)
            self.assertEqual((started.returncode, started.communicate()[1]), (status, b""))

    def test_no_python_is_said(self) -> None:
        for name in ("dirname", "readlink"):
            found = shutil.which(name)
            assert found is not None
            (self.folder / name).symlink_to(found)
        run = subprocess.run(["/bin/sh", ZB], env={"PATH": str(self.folder)}, capture_output=True)
        self.assertEqual((run.returncode, run.stderr.decode()), (2, "zb: Python 3 is not here: on Debian it is the package python3\n"))

    def test_letters_that_the_terminal_has_not(self) -> None:
        run = subprocess.run([ZB, "draw", self.file("t", TABLE), *BOTH], capture_output=True, env={**os.environ, "PYTHONIOENCODING": "latin-1"})
        self.assertEqual((run.returncode, run.stderr), (0, b""))

    def test_no_room_for_what_is_kept(self) -> None:
        for command, given in [(["draw", self.file("t", TABLE), *BOTH], b""), (["trace", "check", self.file("t", TABLE), "-"], TRACE)]:
            run = subprocess.run([ZB, *command], input=given, capture_output=True, env={**os.environ, "TMPDIR": "/no/such"}, cwd="/proc")
            self.assertIn(run.returncode, (0, 2))
            self.assertNotIn("Traceback", run.stderr.decode())

    def test_no_file_is_lost(self) -> None:
        table, trace = self.file("t", TABLE), self.file("u", TRACE)
        for command in [["draw", table, "-o", table], ["draw", table, trace, "-o", trace], ["draw", table, trace, "-o", table], ["table", "write", table, "-o", table]]:
            status, out, error = ran(*command)
            self.assertEqual((status, out), (2, ""))
            self.assertIn("are one file, and what it has would be lost", error)
        self.assertEqual((Path(table).read_bytes(), Path(trace).read_bytes()), (TABLE, TRACE))


class Progress(unittest.TestCase):
    def test_what_takes_long_is_said(self) -> None:
        error = io.StringIO()
        with contextlib.redirect_stderr(error), mock.patch.object(endings, "QUIET", -1.0):
            self.assertEqual(list(endings.watched(range(3), "counting", 3)), [0, 1, 2])
        self.assertEqual(error.getvalue(), "counting: 1 of 3\n")

    def test_what_is_quick_is_not(self) -> None:
        error = io.StringIO()
        with contextlib.redirect_stderr(error):
            list(endings.watched(range(3), "counting"))
        self.assertEqual(error.getvalue(), "")

    def test_a_process_that_takes_long(self) -> None:
        error = io.StringIO()
        with contextlib.redirect_stderr(error), mock.patch.object(endings, "QUIET", 0.05):
            process = subprocess.Popen(["/bin/sh", "-c", "sleep 0.3; echo words >&2"], stderr=subprocess.PIPE)
            self.assertEqual(endings.awaited(process, "waiting"), "words\n")
        self.assertTrue(error.getvalue().startswith("waiting: "))

    def test_a_build_ends_with_the_command(self) -> None:
        """host/build is asked to end, and waited for: so it can end what it has started."""
        with tempfile.TemporaryDirectory() as folder:
            script = Path(folder) / "build"
            script.write_text("#!/bin/sh\ntrap 'echo ended >\"$0.said\"; exit 2' TERM\n: >\"$0.begun\"\nwhile :; do sleep 0.05; done\n")
            script.chmod(0o755)

            waited_for = threading.Event()

            class Watched(subprocess.Popen[bytes]):
                """Says when it is waited for: before that, while it is being started, nobody could end it."""

                def wait(self, timeout: float | None = None) -> int:
                    waited_for.set()
                    return super().wait(timeout)

            def interrupt() -> None:
                waited_for.wait()
                while not script.with_name("build.begun").exists():
                    time.sleep(0.01)
                time.sleep(0.2)  # so that it does wait: a signal just before that would be heeded only when the build has ended
                os.kill(os.getpid(), signal.SIGINT)

            heeded = signal.signal(signal.SIGINT, signal.default_int_handler)
            self.addCleanup(signal.signal, signal.SIGINT, heeded)
            patched = mock.patch.object(building, "BUILD", str(script)), mock.patch.object(subprocess, "Popen", Watched)
            with patched[0], patched[1], self.assertRaises(KeyboardInterrupt):
                threading.Thread(target=interrupt).start()
                building.need.__wrapped__("probe")
            self.assertEqual(script.with_name("build.said").read_text(), "ended\n")


class Pages(unittest.TestCase):
    """What the pages show is what is printed."""

    @unittest.skipUnless(BUILT, "not built: host/build probe slot_printer desk")
    def test_the_late_farm(self) -> None:
        page = (ROOT / "docs" / "NEVER-LATE.md").read_text(encoding="utf-8")
        farm = (EXAMPLES / "farm.csv").read_text(encoding="utf-8").replace("boards,0,1\n", "boards,0,1,2\n")
        with tempfile.NamedTemporaryFile(suffix=".csv") as table:
            table.write(farm.encode())
            table.flush()
            status, out, _ = ran("slots", table.name, "--free", "12x1")
            self.assertEqual(ran("slots", table.name, "--slots", "4096", "--free", "7x1,4089x2")[1].splitlines()[-1], "end 4096")
        self.assertEqual(status, 1)
        self.assertIn("".join(f"    {line}\n" for line in out.splitlines()), page)
        # on its own two cores one is held back
        self.assertEqual(ran("slots", str(EXAMPLES / "farm.csv"))[:2], (1, out))

    @unittest.skipUnless(BUILT, "not built: host/build probe slot_printer desk")
    def test_the_late_camera(self) -> None:
        # Tank 7 has a cost equal to its period, so b = 0; tank 9, of 2 in 3, is due with it at 2 and has b = 1.
        page = (ROOT / "docs" / "NEVER-LATE.md").read_text(encoding="utf-8")
        camera = str(EXAMPLES / "camera.csv")
        listing = "slot free tanks\n0 1 7\n1 1 9\nlate 2 7\n"
        self.assertEqual(ran("slots", camera, "--free", "2x1")[:2], (1, listing))
        self.assertIn("".join(f"    {line}\n" for line in listing.splitlines()), page)
        self.assertEqual(ran("slots", camera, "--free", "4096x2")[1].splitlines()[-1], "end 4096")

    @unittest.skipUnless(BUILT, "not built: host/build probe slot_printer desk")
    def test_the_client_of_the_probe(self) -> None:
        page = (ROOT / "docs" / "PROBE.md").read_text(encoding="utf-8")
        [client] = re.findall(r"^```python\n(.*?)^```$", page, re.MULTILINE | re.DOTALL)
        self.assertLessEqual(len([line for line in client.splitlines() if line]), 20)
        with tempfile.NamedTemporaryFile() as table:
            table.write(TABLE)
            table.flush()
            run = subprocess.run([sys.executable, "-c", client, table.name], cwd=ROOT, capture_output=True)
        self.assertEqual(run.stdout.decode(), f"8/11, i = 3: number 0, r 2, d 5, b 1, D 8\n{table.name}: number 0\n")
        self.assertIn("    8/11, i = 3: number 0, r 2, d 5, b 1, D 8\n", page)

    @unittest.skipUnless(BUILT, "not built: host/build probe slot_printer desk")
    def test_readme_commands(self) -> None:
        readme = (ROOT / "README.md").read_text(encoding="utf-8")
        shown = re.findall(r"^    \$ \./zb ((?:slots|draw|why|table check|trace|stats|window|meaning) .*)\n((?:    .*\n)+)", readme, re.MULTILINE)
        self.assertGreaterEqual(len(shown), 5)
        for command, lines in shown:
            arguments = [str(ROOT / word) if word.startswith("examples/") else word for word in command.split("#")[0].split()]
            self.assertEqual(ran(*arguments)[1], re.sub("^    ", "", lines, flags=re.MULTILINE))


if __name__ == "__main__":
    unittest.main()
