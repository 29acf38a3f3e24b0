"""The tests of zb why, the answer to why a tank waited: python3 host/desk/test_why.py. What is expected was worked out by hand, from 01 and 02; where a
class says AgainstProbe or AgainstArchive, these must be built.
"""
from __future__ import annotations

import io
import os
import shlex
import struct
import subprocess
import tempfile
import unittest
from pathlib import Path
from typing import Sequence

import files
import inputs
import testing
import traces
import verdict
import why
import words
from archive import Archive
from probe import REQUEST_LIMIT, Check, Probe, State, Why
from testing import (
    COMMAND,
    HERE,
    ROOT,
    TABLE,
    TAKEN,
    TRACE,
    VALUE,
    EndingCase,
    Fake,
    FakeArchive,
    Interrupted,
    needs_archive,
    needs_probe,
    placement,
    ran,
    refused,
)
from trouble import Trouble

EXAMPLE = [str(ROOT / "examples" / "tank-14.hex"), str(ROOT / "examples" / "tank-14-trace.hex")]
PAGE = ROOT / "docs" / "WHY.md"

NOT_OURS = "This trace is not the dispatcher's for this table: "
BIT = "its bit (the deadlines are the same, but only tank {} has a window that overlaps its own next one)."
GROUP = "its later group deadline (the deadlines are the same, and both have the bit)."
PLACE = "its earlier place in the table (nothing else decides between the two)."
RAN = "having run in the slot before (nothing else but the place in the table decides between the two, and the table is of format 2)."


def table(cycle: int, cores: int, *rows: tuple[int, int, int, int, int], format: int = 1) -> bytes:
    """The bytes of a table. A row is its tank, cost, period, phase and kind."""
    head = struct.pack("<BIB", format, cycle, cores) + bytes(range(cores)) + bytes([len(rows)])
    return head + b"".join(struct.pack("<HHHHB", *row) for row in rows)


def trace(*records: str) -> bytes:
    """The bytes of a trace, of records in hex: cores free, rows picked, and these rows."""
    return struct.pack("<I", len(records)) + bytes.fromhex("".join(records))


def four_halves(format: int) -> bytes:
    """The table of examples/four-halves-1.hex and four-halves-2.hex: tanks 10 to 13, each of 1/2, on two cores."""
    return table(2, 2, *((tank, 1, 2, 0, 0) for tank in range(10, 14)), format=format)


def slot_answer(number: int, record: bytes) -> bytes:
    """An answer to K over 01's table, of which only the number and the record are looked at here."""
    return bytes([number]) + bytes(1 + 8) + placement() + VALUE + bytes(8 + 1 + 256) + placement() + record.ljust(10, b"\0")


def why_answer(number: int = 0, reason: int = 0, first_slot: int = 0, row: int = 0, rule: int = 0) -> bytes:
    return struct.pack("<BBQBB", number, reason, first_slot, row, rule)


def check_answer(number: int = 0, row: int = 0, time: int = 0) -> bytes:
    return struct.pack("<BBQ", number, row, time)


def said(table: bytes, trace: bytes, tank: int, slot: int, probe: Probe, archive: Archive | None = None) -> list[object]:
    """The sentences, and behind them the exit status. Without an archive, one that has no answers."""
    told = why.said(table, probe.read_table(table), io.BytesIO(trace), tank, slot, probe, archive or FakeArchive())
    return [*told.sentences, told.status]


def as_process(*arguments: str, given: bytes = b"", command: str = COMMAND) -> tuple[int, str, str]:
    status, out, error = testing.as_process("why", *arguments, given=given, command=command)
    return status, out.decode(), error


class Requests(unittest.TestCase):
    def test_why(self) -> None:
        fake = Fake(TAKEN, bytes.fromhex("00 04 0102030405060708 02 03"))
        quanta = [3, 0, 258] + 29 * [0]
        answer = fake.why(fake.read_table(TABLE).at(513, quanta, ()), 2, 1)
        state = VALUE + bytes.fromhex("0102000000000000 00  0300000000000000 0000000000000000 0201000000000000") + bytes(29 * 8) + bytes(17)
        self.assertEqual(fake.requests[1], b"Y" + state + b"\x02\x01")
        self.assertEqual(answer, Why(0, 4, 0x0807060504030201, 2, 3))

    def test_a_fresh_state_is_one_of_time_0(self) -> None:
        fresh = Fake(TAKEN).read_table(TABLE).fresh()
        self.assertEqual(fresh, State(VALUE + bytes(8 + 1 + 32 * 8 + 17)))

    def test_who_ran_in_the_slot_before(self) -> None:
        # A count, eight places for rows and eight for their cores, which are 0, 1, ..
        table = Fake(TAKEN).read_table(TABLE)
        for last, memory in [
            ((), "00" + 16 * "00"),
            ((0, 2), "02  0002000000000000  0001000000000000"),
            (range(8), "08  0001020304050607  0001020304050607"),
            ((2, 0, 0), "03  0200000000000000  0001020000000000"),  # as they stand, for the probe to judge
            (range(9), "09  0001020304050607  0001020304050607"),
            (255 * (7,), "FF  0707070707070707  0001020304050607"),
        ]:
            self.assertEqual(table.at(513, 32 * [0], last).raw[568:], bytes.fromhex(memory))

    def test_check(self) -> None:
        fake = Fake(bytes.fromhex("2D 02 0102000000000000"))
        self.assertEqual(fake.check(TABLE, TRACE), Check(45, 2, 513))
        self.assertEqual(fake.requests, [b"C\x24\0\0\0" + TABLE + b"\x10\0\0\0" + TRACE])

    def test_a_check_that_is_too_long(self) -> None:
        room = REQUEST_LIMIT - 1 - 4 - len(TABLE) - 4
        fake = Fake(check_answer())
        self.assertEqual(fake.check(TABLE, bytes(room)), Check(0, 0, 0))
        self.assertIsNone(fake.check(TABLE, bytes(room + 1)))
        self.assertEqual([len(request) for request in fake.requests], [1_048_576])

    def test_record_of_a_slot(self) -> None:
        for record in [b"\0\0", b"\2\2\0\1", bytes([8, 8, *range(8)])]:
            self.assertEqual(Fake(slot_answer(0, record)).run_slot(State(bytes(585)), 0).record, record)

    def test_tanks(self) -> None:
        self.assertEqual(Fake(TAKEN).read_table(TABLE).tanks, (10, 11, 20))


class Words(unittest.TestCase):
    def test_tanks(self) -> None:
        for tanks, text in [((), "no tank"), ((0,), "tank 0"), ((10, 11), "tanks 10 and 11"), ((10, 11, 20), "tanks 10, 11 and 20")]:
            self.assertEqual(words.listed(tanks), text)

    def test_counts(self) -> None:
        self.assertEqual([words.counted(count, "core") for count in (0, 1, 2, 255)], ["0 cores", "1 core", "2 cores", "255 cores"])

    def test_numbers(self) -> None:
        self.assertEqual(words.of_number(18), "18, e above p")
        self.assertEqual(words.of_number(46), "46, bytes after the last record")
        self.assertEqual(words.of_number(99), "99")

    def test_numbers_as_answers(self) -> None:
        self.assertEqual([words.answer(number) for number in (0, 12, 99)], ["0 done", "12 L outside 1 to 1,000,000", "99"])


class Reading(unittest.TestCase):
    def test_counts_and_records(self) -> None:
        # Before slot 2, records 0 and 1 name row 0 twice, row 1 and row 2 once.
        past = traces.read(io.BytesIO(TRACE), 2, 3)
        self.assertEqual(past, traces.Past(3, 8, (2, 1, 1) + 29 * (0,), b"\0\2", TRACE[12:]))
        past = traces.read(io.BytesIO(TRACE), 0, 3)
        self.assertEqual(past, traces.Past(3, 0, 32 * (0,), b"", TRACE[4:8]))

    def test_no_further_than_the_slot(self) -> None:
        file = io.BytesIO(TRACE)
        traces.read(file, 1, 3)
        self.assertEqual(file.tell(), 12)

    def test_a_record_counts_once_for_a_row(self) -> None:
        past = traces.read(io.BytesIO(trace("0303010101", "0101 02", "0000")), 2, 3)
        self.assertEqual(past.quanta[:4], (0, 1, 1, 0))

    def test_records_are_not_judged(self) -> None:
        # More cores than there are, more rows than cores, rows that fall: all are read as they stand.
        past = traces.read(io.BytesIO(trace("FF00", "00020100", "0103020100")), 2, 3)
        self.assertEqual((past.quanta[:3], past.last, past.record), ((1, 1, 0), b"\1\0", bytes.fromhex("0103020100")))

    def test_a_long_past_is_not_kept(self) -> None:
        # 255 times row 0 in each of 8,200 records of 257 bytes: 2,107,400 bytes, of which only the length is kept.
        past = traces.read(io.BytesIO(struct.pack("<I", 8_201) + 8_200 * (b"\xff\xff" + bytes(255)) + b"\0\0"), 8_200, 1)
        self.assertEqual(past, traces.Past(8_201, 2_107_400, (8_200, *31 * (0,)), bytes(255), b"\0\0"))

    def test_the_start_of_a_trace_as_a_trace(self) -> None:
        # Its own count, and the records of so many bytes; read in any parts, from wherever the file stands.
        file = io.BytesIO(TRACE)
        file.seek(9)
        self.assertEqual(traces.Stretch(file, 2, 8).whole(), b"\2\0\0\0" + TRACE[4:12])
        self.assertEqual(file.tell(), 12)
        self.assertEqual(traces.Stretch(file, 0, 0).whole(), bytes(4))
        parts = traces.Stretch(file, 2, 8)
        self.assertEqual([parts.read(5) for _ in range(5)], [b"\2\0\0\0", TRACE[4:9], TRACE[9:12], b"", b""])

    def test_slots_that_are_not_there(self) -> None:
        for slots, slot, text in [
            (0, 0, "Slot 0 is not in the trace, which has no slots."),
            (1, 1, "Slot 1 is not in the trace, which has slot 0 alone."),
            (3, 3, "Slot 3 is not in the trace, which has slots 0 to 2."),
            (3, 10**20, "Slot 100000000000000000000 is not in the trace, which has slots 0 to 2."),
        ]:
            self.assertEqual(said(TABLE, struct.pack("<I", slots), 10, slot, Fake(TAKEN)), [text, 1])

    def test_a_trace_that_is_cut(self) -> None:
        for end in range(len(TRACE)):
            what = "its count of slots" if end < 4 else f"the record of slot {end // 4 - 1}"
            text = f"The trace is cut short: {what} is not wholly there."
            self.assertEqual(said(TABLE, TRACE[:end], 10, 2, Fake(TAKEN)), [text, 1])

    def test_a_row_that_the_table_has_not(self) -> None:
        for slot, record in [(0, "02020003"), (1, "02020300")]:
            records = ["02020001", "02020002"]
            records[slot] = record
            text = f"{NOT_OURS}the record of slot {slot} names row 3, counted from 0, and the table has 3 rows."
            self.assertEqual(said(TABLE, trace(*records), 10, 1, Fake(TAKEN)), [text, 1])
        alone = VALUE[:14] + b"\1" + VALUE[15:24] + bytes(31 * 9)
        text = f"{NOT_OURS}the record of slot 0 names row 255, counted from 0, and the table has 1 row."
        self.assertEqual(said(b"", trace("0101FF"), 10, 0, Fake(b"\0" + alone)), [text, 1])


class WithoutAnswer(unittest.TestCase):
    def test_a_tank_that_is_not_there(self) -> None:
        for tank in [0, 12, 70_000]:
            self.assertEqual(said(TABLE, TRACE, tank, 0, Fake(TAKEN)), [f"Tank {tank} is not in the table, which has tanks 10, 11 and 20.", 1])
        empty = VALUE[:14] + bytes(1 + 32 * 9)
        self.assertEqual(said(b"", TRACE, 0, 0, Fake(b"\0" + empty)), ["Tank 0 is not in the table, which has no tank.", 1])

    def test_refused_states(self) -> None:
        for number, text in [
            (30, "before slot 1 a tank had been picked more often, or less often, than its share allows"),
            (33, "the record of slot 1 says that 2 cores were free, and the table has 2 cores"),
        ]:
            fake = Fake(TAKEN, check_answer(), why_answer(number))
            self.assertEqual(said(TABLE, TRACE, 10, 1, fake), [f"{NOT_OURS}{text}; so there is no answer.", 1])
            self.assertEqual([request[:1] for request in fake.requests], [b"T", b"C", b"Y"])

    def test_a_state_whose_fault_was_told(self) -> None:
        fake = Fake(TAKEN, check_answer(45, 1, 1), why_answer(30))
        late = f"{NOT_OURS}tank 11 was late at the start of slot 1, and there the dispatcher stops."
        self.assertEqual(said(TABLE, TRACE, 10, 1, fake), [late, "So there is no answer for slot 1.", 1])

    def test_what_only_another_probe_says(self) -> None:
        for answers in [
            [why_answer(31)],  # no state is asked about that is stopped,
            [why_answer(32)],  # and none whose time a trace cannot have
            [why_answer(36)],
            [why_answer(0, 0), slot_answer(0, b"\2\2\0\2")],
            [why_answer(0, 5), slot_answer(0, b"\2\2\0\2")],
            [why_answer(0, 4, row=1, rule=0), slot_answer(0, b"\2\2\0\2")],
            [why_answer(0, 4, row=1, rule=6), slot_answer(0, b"\2\2\0\2")],
            [why_answer(0, 4, row=32, rule=1), slot_answer(0, b"\2\2\0\2")],
            [why_answer(0, 1), slot_answer(30, b"\0\0")],
        ]:
            with self.assertRaisesRegex(Trouble, "^the probe "):
                said(TABLE, TRACE, 10, 1, Fake(TAKEN, check_answer(), *answers))


class Asking(unittest.TestCase):
    def test_requests(self) -> None:
        # Slot 2 of 01's trace, row 1: the records before it give row 0 two quanta and rows 1 and 2 one each, and the last of them names rows 0 and 2. Two
        # cores are free: bits 0 and 1.
        fake = Fake(TAKEN, check_answer(), why_answer(0, 1), slot_answer(0, b"\2\2\1\2"))
        self.assertEqual(said(TABLE, TRACE, 11, 2, fake), ["Tank 11 was picked in slot 2.", 0])
        state = VALUE + struct.pack("<QB32Q", 2, 0, 2, 1, 1, *29 * [0]) + placement((0, 0), (2, 1))
        self.assertEqual(
            fake.requests,
            [
                b"T\x24\0\0\0" + TABLE,
                b"C\x24\0\0\0" + TABLE + b"\x0c\0\0\0" + b"\2\0\0\0" + TRACE[4:12],
                b"Y" + state + b"\2\1",
                b"K" + state + b"\3\0\0\0" + bytes(8) + b"\x0a\0\0\0" + bytes(10),
            ],
        )

    def test_who_ran_before_slot_0(self) -> None:
        fake = Fake(TAKEN, check_answer(), why_answer(0, 1), slot_answer(0, b"\2\2\0\1"))
        said(TABLE, TRACE, 10, 0, fake)
        fresh = VALUE + bytes(8 + 1 + 32 * 8 + 17)
        self.assertEqual([request[1:586] for request in fake.requests[2:]], [fresh, fresh])

    def test_rules(self) -> None:
        passed = "Tank 20 was ready in slot 0, but passed over: with 2 cores free the last in line to be picked was tank 11, which goes ahead by"
        for rule, text in [(1, "its earlier deadline."), (2, BIT.format(11)), (3, GROUP), (4, PLACE), (5, RAN)]:
            fake = Fake(TAKEN, check_answer(), why_answer(0, 4, row=1, rule=rule), slot_answer(0, b"\2\2\0\1"))
            self.assertEqual(said(TABLE, TRACE, 20, 0, fake), [f"{passed} {text}", 0])

    def test_a_slot_after_which_a_row_is_late_is_a_slot(self) -> None:
        fake = Fake(TAKEN, check_answer(), why_answer(0, 3), slot_answer(1, b"\0\0"))
        self.assertEqual(said(TABLE, trace("0000"), 20, 0, fake), ["Tank 20 was ready in slot 0, but no core was free.", 0])

    def test_what_the_check_found(self) -> None:
        for number, text in [
            (41, "a record before slot 1 says that more cores were free than the table has"),
            (42, "a record before slot 1 names more tanks than cores were free"),
            (43, "a record before slot 1 names a tank twice, or tanks out of order"),
            (44, "tank 20 was picked in slot 7, though it was not ready"),
            (45, "tank 20 was late at the start of slot 7, and there the dispatcher stops"),
            (46, "a record before slot 1 does not pass the trace check (46, bytes after the last record)"),
        ]:
            fake = Fake(TAKEN, check_answer(number, 2, 7), why_answer(0, 1), slot_answer(0, b"\2\2\0\2"))
            self.assertEqual(said(TABLE, TRACE, 10, 1, fake), [f"{NOT_OURS}{text}.", "Tank 10 was picked in slot 1.", 1])

    def test_all_that_speaks_against_it(self) -> None:
        # A count that no trace has, a late tank before slot 1, and a record that is not the dispatcher's.
        given = b"\xff\xff\xff\xff" + TRACE[4:8] + b"\1\1\1"
        fake = Fake(TAKEN, check_answer(45, 1, 1), why_answer(0, 2, 4_294_967_296), slot_answer(0, b"\1\1\2"))
        self.assertEqual(
            said(TABLE, given, 10, 1, fake),
            [
                "By its count this is no trace: it has 4294967295 slots, and 1000000000 is the most, of a longer run too.",
                f"{NOT_OURS}tank 11 was late at the start of slot 1, and there the dispatcher stops.",
                f"{NOT_OURS}the record of slot 1 names tank 11, and the dispatcher picks tank 20.",
                "By the dispatcher's rules tank 10 was not ready in slot 1: the first slot in which it is ready is 4294967296.",
                1,
            ],
        )

    def test_a_slot_past_the_end_of_any_trace(self) -> None:
        # The last slot of a trace has the number 999,999,999; the box runs on, and its slot is said like any other.
        for first in [999_999_999, 1_000_000_000, 4_294_967_296, 999_999_999_999]:
            fake = Fake(TAKEN, check_answer(), why_answer(0, 2, first), slot_answer(0, b"\2\2\0\2"))
            self.assertEqual(said(TABLE, TRACE, 10, 1, fake), [f"Tank 10 was not ready in slot 1: the first slot in which it is ready is {first}.", 0])

    def test_a_record_with_more_tanks_than_cores(self) -> None:
        for many, names in [(8, "tanks 10, 10, 10, 10, 10, 10, 10 and 10"), (9, "9 tanks")]:
            given = TRACE[:8] + bytes([2, many]) + bytes(many)
            fake = Fake(TAKEN, check_answer(), why_answer(0, 1), slot_answer(0, b"\2\2\0\2"))
            foreign = f"{NOT_OURS}the record of slot 1 names {names}, and the dispatcher picks tanks 10 and 20."
            self.assertEqual(said(TABLE, given, 10, 1, fake), [foreign, "By the dispatcher's rules tank 10 was picked in slot 1.", 1])

    def test_a_past_that_is_too_long_for_the_probe(self) -> None:
        # Then the archive checks it. 4,081 records of 257 bytes are 1,048,817 bytes, and 1 MiB is 1,048,576.
        records = 4_081 * (b"\xff\xff" + bytes(255))
        given = struct.pack("<I", 4_082) + records + b"\2\2\0\2"
        late = f"{NOT_OURS}tank 20 was late at the start of slot 7, and there the dispatcher stops."
        for found, against in [(Check(0, 0, 0), []), (Check(45, 2, 7), [late])]:
            fake, archive = Fake(TAKEN, why_answer(0, 1), slot_answer(0, b"\2\2\0\2")), FakeArchive(checks=[found])
            self.assertEqual(said(TABLE, given, 10, 4_081, fake, archive), [*against, "Tank 10 was picked in slot 4081.", len(against)])
            self.assertEqual([request[:1] for request in fake.requests], [b"T", b"Y", b"K"])
            self.assertEqual(archive.asked, [(TABLE, struct.pack("<I", 4_081) + records)])

    def test_the_longest_past_for_the_probe(self) -> None:
        # Beside the records a request has C, two lengths, the table and the count: 1 + 4 + 36 + 4 + 4 = 49 bytes. 1,048,576 - 49 = 1,048,527 are left,
        # which are 4,079 records of 257 bytes and one of 224; with one of 225 it is the archive's.
        for rows, asked in [(222, b"C"), (223, b"")]:
            records = 4_079 * (b"\xff\xff" + bytes(255)) + bytes([255, rows]) + bytes(rows)
            answers = [check_answer()] if asked else []
            fake = Fake(TAKEN, *answers, why_answer(0, 1), slot_answer(0, b"\2\2\0\2"))
            archive = FakeArchive(checks=[] if asked else [Check(0, 0, 0)])
            given = struct.pack("<I", 4_081) + records + b"\2\2\0\2"
            self.assertEqual(said(TABLE, given, 10, 4_080, fake, archive), ["Tank 10 was picked in slot 4080.", 0])
            self.assertEqual(b"".join(request[:1] for request in fake.requests), b"T" + asked + b"YK")
            self.assertEqual([table for table, _ in archive.asked], [] if asked else [TABLE])
            if asked:
                self.assertEqual(len(fake.requests[1]), REQUEST_LIMIT)

    def test_no_more_is_read_than_is_needed(self) -> None:
        # Of 01's trace the records of slots 0 and 1, which end at byte 12.
        for slot, end in [(0, 8), (1, 12)]:
            file = Guarded(TRACE, end)
            fake = Fake(TAKEN, check_answer(), why_answer(0, 1), slot_answer(0, TRACE[4 + 4 * slot :][:4]))
            told = why.said(TABLE, fake.read_table(TABLE), file, 10, slot, fake, FakeArchive())
            self.assertEqual(told, why.Said((f"Tank 10 was picked in slot {slot}.",), 0))


class Guarded(io.BytesIO):
    """A file that may be read up to a place."""

    def __init__(self, data: bytes, end: int) -> None:
        super().__init__(data)
        self.end = end

    def read(self, length: int | None = -1, /) -> bytes:
        part = super().read(length)
        if self.tell() > self.end:
            raise AssertionError("more was read than is needed")
        return part


class Endings(EndingCase):
    def assert_no_answer(self, arguments: Sequence[str], probe: Probe, text: str) -> None:
        self.assert_trouble(["why", *arguments], probe, text)

    def test_wrong_use(self) -> None:
        for arguments, missing in [
            ([], "TABLE, TRACE, TANK, SLOT"),
            (EXAMPLE, "TANK, SLOT"),
            ([*EXAMPLE, "14"], "SLOT"),
            (["-x", EXAMPLE[1], "14", "0"], "SLOT"),
        ]:
            self.assert_no_answer(arguments, Fake(), f"required: {missing} .see: zb why --help.")
        self.assert_no_answer([*EXAMPLE, "14", "0", "0"], Fake(), "unrecognized arguments: 0")
        self.assert_no_answer([*EXAMPLE, "14", "0", "-x"], Fake(), "unrecognized arguments: -x")
        self.assert_no_answer(["-", "-", "14", "0"], Fake(), "only one of the two files can be standard input")
        self.assert_help(["why"], "zb why")

    def test_what_is_no_number(self) -> None:
        for wrong in ["", "-3", "+3", "3.0", "0x3", "1_0", " 3", "3\n", "three", "\u0663", 19 * "1", 100 * "1"]:
            self.assert_no_answer([*EXAMPLE, wrong, "0"], Fake(), "argument TANK: a whole number in digits is needed, and not '")
            self.assert_no_answer([*EXAMPLE, "14", wrong], Fake(), "argument SLOT: a whole number in digits is needed, and not '")

    def test_files_that_cannot_be_read(self) -> None:
        for wrong in [str(HERE / "none"), str(HERE)]:
            self.assert_no_answer([wrong, EXAMPLE[1], "14", "0"], Fake(), f"{wrong} cannot be read")
            self.assert_no_answer([EXAMPLE[0], wrong, "14", "0"], Fake(), f"{wrong} cannot be read")

    def test_bad_hex(self) -> None:
        for text, suffix, words_said in [
            (b"zz", ".hex", ", line 1, has something else than hex digits"),
            (b"# a\n01\nzz", ".HEX", ", line 3, has something else than hex digits"),
            (b"012", ".hex", " has half a byte"),
            (b"012", "", " has half a byte"),
        ]:
            with tempfile.NamedTemporaryFile(suffix=suffix) as file:
                file.write(text)
                file.flush()
                self.assert_no_answer([file.name, EXAMPLE[1], "14", "0"], Fake(), f"{file.name}{words_said}")
                self.assert_no_answer([EXAMPLE[0], file.name, "14", "0"], Fake(), f"{file.name}{words_said}")

    def test_a_probe_that_does_not_answer(self) -> None:
        asked = [*EXAMPLE, "14", "0"]
        self.assert_no_answer(asked, Probe([str(HERE / "none")]), "does not start")
        self.assert_no_answer(asked, Probe(["/bin/sh", "-c", "echo it is not built >&2; exit 2"]), "it is not built")
        self.assert_no_answer(asked, Probe(["/bin/sh", "-c", "printf '\\377'"]), "of another version.* 1 bytes answer T, not 304")

    def test_interrupted(self) -> None:
        self.assertEqual(ran(["why", *EXAMPLE, "14", "0"], Interrupted()), (130, "", ""))

    def test_a_refused_table(self) -> None:
        # The reader answers 18. Of the table cut behind each byte, that is so from behind row 1 on: rows begin at byte 9 and have 9 bytes.
        cuts = [refused(10 if end < 27 else 18) for end in range(1, 37)]
        words_said = f"{EXAMPLE[0]}: 18, e above p (row 1, tank 12, bytes 18 to 26: cost 5, period 6)\n"
        self.assertEqual(ran(["why", *EXAMPLE, "14", "0"], Fake(refused(18), b"".join(cuts))), (1, "", words_said))


@needs_probe
class EndingsAgainstProbe(unittest.TestCase):
    """Slot 9 is not in the example's trace: of the probe no more is asked than to read the table."""

    def test_closed_pipe_and_full_disk(self) -> None:
        reading, writing = os.pipe()
        os.close(reading)
        with os.fdopen(writing, "wb") as closed, open("/dev/full", "wb") as full:
            for out, status, text in [(closed, 141, b""), (full, 2, b"zb: the answer cannot be written: No space left on device\n")]:
                run = subprocess.run([COMMAND, "why", *EXAMPLE, "14", "9"], stdout=out, stderr=subprocess.PIPE)
                self.assertEqual((run.returncode, run.stderr), (status, text))

    def test_nobody_to_tell(self) -> None:
        # No standard output, and no room for what is said of it.
        words_said = b"zb: the answer cannot be written: standard output is closed\n"
        for errors, text in [("", words_said), ("2>/dev/full", b"")]:
            command = f"{shlex.join([COMMAND, 'why', *EXAMPLE, '14', '9'])} >&- {errors}"
            run = subprocess.run(["/bin/sh", "-c", command], stderr=subprocess.PIPE)
            self.assertEqual((run.returncode, run.stderr), (2, text))


@needs_probe
class AgainstProbe(unittest.TestCase):
    """The examples, and what 01 says of its own bench. What is passed over meets the last of the picked by 01's order: smaller d; b = 1 before
    b = 0; if both have b = 1, larger D; lower row.
    """

    def assert_said(self, table: bytes, trace: bytes, tank: int, slot: int, *expected: object) -> None:
        self.assertEqual(said(table, trace, tank, slot, Probe()), list(expected))

    # examples/tank-14.hex and its trace. Subtasks as r to d, with b:
    #   tank 11 (row 0), 3/6: 0-2, 2-4, 4-6, 6-8, 8-10, all b 0, so D is d.
    #   tank 12 (row 1), 5/6: i·6/5 is 1.2, 2.4, 3.6, 4.8, 6, 7.2, 8.4: 0-2 b1, 1-3 b1, 2-4 b1, 3-5 b1, 4-6 b0, 6-8 b1, 7-9 b1. All windows
    #     are of two slots, so D is the next deadline with b = 0: 6 for the first five.
    #   tank 14 (row 2), 2/5: i·5/2 is 2.5, 5, 7.5, 10: 0-3 b1, 2-5 b0, 5-8 b1, 7-10 b0. It is light: D 0.
    # Slot by slot, with the next d (and b) of tanks 11, 12, 14:
    #   0, k = 1: 2 b0, 2 b1, 3: tank 12 first. Tank 14 has the later deadline.
    #   1, k = 2: 2, 3 b1, 3 b1: tank 11, then tank 12, whose D of 6 is above 0.
    #   2, k = 2: 4 b0, 4 b1, 3: tank 14, then 12.
    #   3, k = 2: 4, 5 b1, 5 b0: tank 11, then 12 by its bit.
    #   4, k = 2: 6 b0, 6 b0, 5: tank 14, then 11, which stands before 12: D, 6 in both, is not asked with b = 0.
    #   5, k = 2: tank 11 has had three quanta and starts again at 6; 6 and 8: tanks 12 and 14.
    #   6, k = 2: 8 b0, 8 b1; tank 14 has had three quanta and starts again at 7.
    #   7, k = 0: tank 11 has had four and starts again at 8; tanks 12 and 14 are ready. The next d are 10, 9, 10: nobody is late at 8.
    #   8, k = 2: 10 b0, 9, 10 b0: tank 12, then 11, which stands before 14.
    def test_example(self) -> None:
        table, trace = (files.read(name, REQUEST_LIMIT).data for name in EXAMPLE)
        one = "but passed over: with 1 core free the one picked was tank"
        passed = "but passed over: with 2 cores free the last in line to be picked was tank"
        for tank, slot, text in [
            (14, 0, f"Tank 14 was ready in slot 0, {one} 12, which goes ahead by its earlier deadline."),
            (14, 1, f"Tank 14 was ready in slot 1, {passed} 12, which goes ahead by {GROUP}"),
            (14, 2, "Tank 14 was picked in slot 2."),
            (14, 3, f"Tank 14 was ready in slot 3, {passed} 12, which goes ahead by {BIT.format(12)}"),
            (12, 4, f"Tank 12 was ready in slot 4, {passed} 11, which goes ahead by {PLACE}"),
            (11, 5, "Tank 11 was not ready in slot 5: the first slot in which it is ready is 6."),
            (14, 6, "Tank 14 was not ready in slot 6: the first slot in which it is ready is 7."),
            (14, 7, "Tank 14 was ready in slot 7, but no core was free."),
            (11, 7, "Tank 11 was not ready in slot 7: the first slot in which it is ready is 8."),
            (14, 8, f"Tank 14 was ready in slot 8, {passed} 11, which goes ahead by {PLACE}"),
        ]:
            self.assert_said(table, trace, tank, slot, text, 0)

    def test_01s_trace(self) -> None:
        # Three rows 2/3: 0-2 b1, 1-3 b0, 3-5. In slot 0 all are alike, D 3 too, and the third has the highest row number. Before slot 2 row 0 has had
        # its two quanta: it is ready again at 3.
        passed = "but passed over: with 2 cores free the last in line to be picked was tank 11, which goes ahead by"
        self.assert_said(TABLE, TRACE, 20, 0, f"Tank 20 was ready in slot 0, {passed} {PLACE}", 0)
        self.assert_said(TABLE, TRACE, 10, 2, "Tank 10 was not ready in slot 2: the first slot in which it is ready is 3.", 0)

    def test_bench_with_the_bit(self) -> None:
        # "Plain rows 1/2, 1/2, 2/3, two cores: slot 0 picks rows 0 and 2." All have d 2; only 2/3 has b 1. So the order is row 2, 0, 1.
        box = table(6, 2, (10, 1, 2, 0, 0), (11, 1, 2, 0, 0), (20, 2, 3, 0, 0))
        two = "Tank 11 was ready in slot 0, but passed over: with 2 cores free the last in line to be picked was tank 10, which goes ahead by"
        one = "Tank 10 was ready in slot 0, but passed over: with 1 core free the one picked was tank 20, which goes ahead by"
        self.assert_said(box, trace("02020002"), 11, 0, f"{two} {PLACE}", 0)
        self.assert_said(box, trace("010102"), 10, 0, f"{one} {BIT.format(20)}", 0)

    def test_bench_with_the_group_deadline(self) -> None:
        # "Plain rows 2/3, 2/3, 3/4, three cores, k = 1: slot 0 picks row 2." All have d 2 and b 1; D is 3 for 2/3 (its window 1-3 has b 0) and 4
        # for 3/4 (windows 0-2 b1, 1-3 b1, 2-4 b0).
        box = table(12, 3, (10, 2, 3, 0, 0), (11, 2, 3, 0, 0), (12, 3, 4, 0, 0))
        one = "Tank 11 was ready in slot 0, but passed over: with 1 core free the one picked was tank 12, which goes ahead by"
        self.assert_said(box, trace("010102"), 11, 0, f"{one} {GROUP}", 0)

    def test_early_release(self) -> None:
        # "One core, early release 2/6: slots 0, 1, 6". A plain row of 2/6 has its second window from 3 on.
        records = ["010100", "010100", "0100"]
        self.assert_said(table(6, 1, (14, 2, 6, 0, 1)), trace(*records), 14, 1, "Tank 14 was picked in slot 1.", 0)
        text = "Tank 14 was not ready in slot 2: the first slot in which it is ready is 6."
        self.assert_said(table(6, 1, (14, 2, 6, 0, 1)), trace(*records), 14, 2, text, 0)
        text = "Tank 14 was not ready in slot 1: the first slot in which it is ready is 3."
        self.assert_said(table(6, 1, (14, 2, 6, 0, 0)), trace("010100", "0100"), 14, 1, text, 0)

    def test_phase(self) -> None:
        # "2/3 with f = 4, i = 1: 4 to 6". Until then nobody is picked.
        box, given = table(3, 1, (14, 2, 3, 4, 0)), trace("0100", "0000", "0100", "0100", "010100")
        for slot in [0, 1, 3]:
            self.assert_said(box, given, 14, slot, f"Tank 14 was not ready in slot {slot}: the first slot in which it is ready is 4.", 0)
        self.assert_said(box, given, 14, 4, "Tank 14 was picked in slot 4.", 0)

    def test_late_before_the_slot(self) -> None:
        # One row 1/2: its windows are 0-2, 2-4. With no core in slots 0 and 1 it is late at 2, and owed 1·2 - 2·0 = 2, which is not below p.
        # Had it run on, and been picked in slot 2, it would be owed 1·3 - 2·1 = 1 before slot 3, and its second window has begun.
        box, given = table(2, 1, (14, 1, 2, 0, 0)), trace("0000", "0000", "010100", "010100")
        late = f"{NOT_OURS}tank 14 was late at the start of slot 2, and there the dispatcher stops."
        broken = "So there is no answer for slot 2."
        self.assert_said(box, given, 14, 1, "Tank 14 was ready in slot 1, but no core was free.", 0)
        self.assert_said(box, given, 14, 2, late, broken, 1)
        self.assert_said(box, given, 14, 3, late, "Tank 14 was picked in slot 3.", 1)

    def test_early_before_the_slot(self) -> None:
        # The same row, picked in slots 0 and 1; its second window begins at 2. Before slot 2 it is owed 2 - 2·2 = -2, which is not above -p; before
        # slot 3 3 - 4 = -1, and its third window begins at 4.
        box, given = table(2, 1, (14, 1, 2, 0, 0)), trace("010100", "010100", "0100", "0100")
        early = f"{NOT_OURS}tank 14 was picked in slot 1, though it was not ready."
        broken = "So there is no answer for slot 2."
        self.assert_said(box, given, 14, 2, early, broken, 1)
        self.assert_said(box, given, 14, 3, early, "Tank 14 was not ready in slot 3: the first slot in which it is ready is 4.", 1)

    def test_a_record_of_another(self) -> None:
        # Before slot 1 of 01's example rows 0 and 1 have had a quantum each. Next d: 3, 3, 2: the dispatcher picks row 2, then row 0.
        for record, names in [("02020001", "tanks 10 and 11"), ("02020200", "tanks 20 and 10"), ("02010000", "tank 10"), ("0200", "no tank")]:
            given = trace("02020001", record)
            foreign = f"{NOT_OURS}the record of slot 1 names {names}, and the dispatcher picks tanks 10 and 20."
            self.assert_said(TABLE, given, 20, 1, foreign, "By the dispatcher's rules tank 20 was picked in slot 1.", 1)
        passed = "but passed over: with 2 cores free the last in line to be picked was tank 10, which goes ahead by"
        self.assert_said(TABLE, given, 11, 1, foreign, f"By the dispatcher's rules tank 11 was ready in slot 1, {passed} {PLACE}", 1)

    def test_more_cores_than_there_are(self) -> None:
        text = f"{NOT_OURS}the record of slot 0 says that 3 cores were free, and the table has 2 cores; so there is no answer."
        self.assert_said(TABLE, trace("03020001"), 10, 0, text, 1)
        text = f"{NOT_OURS}the record of slot 0 says that 255 cores were free, and the table has 1 core; so there is no answer."
        self.assert_said(table(2, 1, (14, 1, 2, 0, 0)), trace("FF0100"), 14, 0, text, 1)

    def test_records_that_are_not_well_formed(self) -> None:
        # Whatever is wrong with slot 0, it names rows 0 and 1, and slot 1 is as above.
        picked = "Tank 10 was picked in slot 1."
        for record, text in [
            ("03020001", "a record before slot 1 says that more cores were free than the table has"),
            ("01020001", "a record before slot 1 names more tanks than cores were free"),
        ]:
            self.assert_said(TABLE, trace(record, "02020002"), 10, 1, f"{NOT_OURS}{text}.", picked, 1)

    def test_a_record_that_no_state_can_remember(self) -> None:
        # 02, Eight: a state is broken by remembered rows that do not rise, and by more of them than there are cores, here 2; in either format.
        unordered = f"{NOT_OURS}a record before slot {{}} names a tank twice, or tanks out of order."
        for box in [TABLE, b"\2" + TABLE[1:]]:
            for record, text in [
                ("02020100", unordered.format(1)),
                ("02020000", unordered.format(1)),
                ("03030001 02", f"{NOT_OURS}a record before slot 1 says that more cores were free than the table has."),
                ("02030001 02", f"{NOT_OURS}a record before slot 1 names more tanks than cores were free."),
                ("FFFF" + 255 * "00", f"{NOT_OURS}a record before slot 1 says that more cores were free than the table has."),
            ]:
                self.assert_said(box, trace(record, "02020002"), 10, 1, text, "So there is no answer for slot 1.", 1)
            # A slot later it is forgotten. Rows 0 and 1 had a quantum in slot 0, rows 0 and 2 in slot 1: slot 2 is that of 01's trace.
            text, given = unordered.format(2), trace("02020100", "02020002", "02020102")
            self.assert_said(box, given, 11, 2, text, "Tank 11 was picked in slot 2.", 1)

    # The windows of 1/2 are 0-2, 2-4, 4-6, .. with b 0, for all four alike: nothing decides in slots 0, 2, 4, .. but who ran before and the place; in
    # slots 1, 3, 5, .. the two that have not run in their window are the only ones that are ready.
    #   0: nobody ran before: rows 0 and 1.
    #   1: rows 2 and 3. 2: they ran in slot 1 and go first. 3: rows 0 and 1. 4: they ran in slot 3. 5: rows 2 and 3. 6: they ran in slot 5. 7: rows 0 and 1.
    def test_format_2(self) -> None:
        box, given = (files.read(str(ROOT / "examples" / f"four-halves-2{name}.hex"), REQUEST_LIMIT).data for name in ("", "-trace"))
        self.assertEqual(inputs.split(box), inputs.Asked(four_halves(2), 8, 8 * b"\2"))
        passed = "but passed over: with 2 cores free the last in line to be picked was tank"
        for tank, slot, text in [
            (10, 0, "Tank 10 was picked in slot 0."),
            (12, 0, f"Tank 12 was ready in slot 0, {passed} 11, which goes ahead by {PLACE}"),
            (11, 1, "Tank 11 was not ready in slot 1: the first slot in which it is ready is 2."),
            (13, 1, "Tank 13 was picked in slot 1."),
            (10, 2, f"Tank 10 was ready in slot 2, {passed} 13, which goes ahead by {RAN}"),
            (12, 2, "Tank 12 was picked in slot 2."),
            (12, 3, "Tank 12 was not ready in slot 3: the first slot in which it is ready is 4."),
            (13, 4, f"Tank 13 was ready in slot 4, {passed} 11, which goes ahead by {RAN}"),
            (11, 4, "Tank 11 was picked in slot 4."),
            (12, 5, "Tank 12 was picked in slot 5."),
            (11, 6, f"Tank 11 was ready in slot 6, {passed} 13, which goes ahead by {RAN}"),
            (10, 7, "Tank 10 was picked in slot 7."),
        ]:
            self.assert_said(four_halves(2), given, tank, slot, text, 0)

    def test_two_that_ran_before(self) -> None:
        # In slot 2 one core is left, and rows 2 and 3 both ran in slot 1: between these the place decides.
        given = trace("02020001", "02020203", "010102")
        one = "but passed over: with 1 core free the one picked was tank 12, which goes ahead by"
        self.assert_said(four_halves(2), given, 13, 2, f"Tank 13 was ready in slot 2, {one} {PLACE}", 0)
        self.assert_said(four_halves(2), given, 10, 2, f"Tank 10 was ready in slot 2, {one} {RAN}", 0)

    def test_who_ran_before_is_not_who_ran_earlier(self) -> None:
        # Only the slot before counts. Nobody ran in slot 2: in slot 3 the place decides, though rows 2 and 3 ran in slot 1.
        given = trace("02020001", "02020203", "0000", "010100")
        one = "but passed over: with 1 core free the one picked was tank 10, which goes ahead by"
        self.assert_said(four_halves(2), given, 12, 3, f"Tank 12 was ready in slot 3, {one} {PLACE}", 0)

    def test_a_trace_of_the_other_format(self) -> None:
        # Both pass the trace check, which leaves open who of the ready is picked.
        of_1, of_2 = (trace(*(2 * records)) for records in (["02020001", "02020203", "02020001", "02020203"], ["02020001", "02020203", "02020203", "02020001"]))
        foreign = f"{NOT_OURS}the record of slot 2 names tanks {{}}, and the dispatcher picks tanks {{}}."
        by_rules = "By the dispatcher's rules tank 12 was"
        passed = "but passed over: with 2 cores free the last in line to be picked was tank 11, which goes ahead by"
        self.assert_said(four_halves(1), of_2, 12, 2, foreign.format("12 and 13", "10 and 11"), f"{by_rules} ready in slot 2, {passed} {PLACE}", 1)
        self.assert_said(four_halves(2), of_1, 12, 2, foreign.format("10 and 11", "12 and 13"), f"{by_rules} picked in slot 2.", 1)

    def test_a_count_that_no_trace_has(self) -> None:
        text = "By its count this is no trace: it has 1000000001 slots, and 1000000000 is the most, of a longer run too."
        for count, expected in [(1_000_000_000, []), (1_000_000_001, [text])]:
            given = struct.pack("<I", count) + TRACE[4:8]
            self.assert_said(TABLE, given, 10, 0, *expected, "Tank 10 was picked in slot 0.", len(expected))
        past = "Slot 1000000000 is in no trace: the last one that a trace can have is 999999999."
        self.assert_said(TABLE, struct.pack("<I", 1_000_000_001), 10, 1_000_000_000, past, 1)

    def test_what_is_not_there(self) -> None:
        self.assert_said(TABLE, TRACE, 14, 0, "Tank 14 is not in the table, which has tanks 10, 11 and 20.", 1)
        self.assert_said(TABLE, TRACE, 10, 3, "Slot 3 is not in the trace, which has slots 0 to 2.", 1)
        self.assert_said(TABLE, TRACE[:-1], 10, 2, "The trace is cut short: the record of slot 2 is not wholly there.", 1)
        text = f"{NOT_OURS}the record of slot 0 names row 3, counted from 0, and the table has 3 rows."
        self.assert_said(TABLE, trace("02020003"), 10, 0, text, 1)

    def test_the_longest_check(self) -> None:
        # A trace of no slots, with bytes behind its count (46), in a request of exactly 1 MiB.
        self.assertEqual(Probe().check(TABLE, bytes(REQUEST_LIMIT - 1 - 4 - len(TABLE) - 4)), Check(46, 0, 0))


@needs_archive
class AgainstArchive(unittest.TestCase):
    """The archive answers as the probe does, and also for more than the probe reads."""

    def test_as_the_probe(self) -> None:
        late, early = trace("0000", "0000", "010100"), trace("010100", "010100", "0100")
        for box, given in [
            *((TABLE, TRACE[:end]) for end in (0, 3, 5, 7, 16)),
            (TABLE[:-1], TRACE),
            (TABLE, TRACE + b"\0"),
            (TABLE, trace("03020001")),
            (TABLE, trace("01020001")),
            (TABLE, trace("02020100")),
            (TABLE, struct.pack("<I", 1_000_000_001)),
            (table(2, 1, (14, 1, 2, 0, 0)), late),
            (table(2, 1, (14, 1, 2, 0, 0)), early),
        ]:
            self.assertEqual(Archive().check(box, io.BytesIO(given)), Probe().check(box, given))

    def test_a_past_that_is_too_long_for_the_probe(self) -> None:
        # One row 1/2 on one core, picked in each even slot, early in its window, which is 2i to 2i + 2: five bytes for two slots. 420,000 slots are
        # 1,050,000 bytes, and 1 MiB is 1,048,576. In the second trace the last pick is left out: the row is late at 420,000.
        box = table(2, 1, (14, 1, 2, 0, 0))
        two = bytes.fromhex("010100 0100")
        head = struct.pack("<I", 420_001)
        self.assertEqual(said(box, head + 210_000 * two + b"\1\1\0", 14, 420_000, Probe(), Archive()), ["Tank 14 was picked in slot 420000.", 0])
        late = f"{NOT_OURS}tank 14 was late at the start of slot 420000, and there the dispatcher stops."
        given = head + 209_999 * two + bytes.fromhex("0100 0100 0100")
        self.assertEqual(said(box, given, 14, 420_000, Probe(), Archive()), [late, "So there is no answer for slot 420000.", 1])

    def test_the_whole_of_a_long_trace(self) -> None:
        box, given = table(2, 1, (14, 1, 2, 0, 0)), struct.pack("<I", 420_000) + 210_000 * bytes.fromhex("010100 0100")
        self.assertEqual(verdict.check(box, io.BytesIO(given), Probe(), Archive()), Check(0, 0, 0))


@needs_probe
class ProgramAgainstProbe(unittest.TestCase):
    def setUp(self) -> None:
        folder = tempfile.TemporaryDirectory()
        self.addCleanup(folder.cleanup)
        self.table, self.trace, self.link = (os.path.join(folder.name, name) for name in ("table", "trace", "link"))
        Path(self.table).write_bytes(TABLE)
        Path(self.trace).write_bytes(TRACE)
        os.symlink(COMMAND, self.link)

    def test_files(self) -> None:
        self.assertEqual(as_process(self.table, self.trace, "10", "1"), (0, "Tank 10 was picked in slot 1.\n", ""))
        text = "Slot 3 is not in the trace, which has slots 0 to 2.\n"
        self.assertEqual(as_process(self.table, self.trace, "10", "3", command=self.link), (1, text, ""))

    def test_other_forms_of_the_files(self) -> None:
        # A typed table, an input of the slot printer, and hex text that no name tells.
        picked = (0, "Tank 10 was picked in slot 1.\n", "")
        for name in ["three-tanks.csv", "three-tanks-slots.hex"]:
            self.assertEqual(as_process(str(ROOT / "examples" / name), self.trace, "10", "1"), picked)
        Path(self.table).write_text(f"# 01's table\n{TABLE.hex(' ')}\n")
        Path(self.trace).write_text(f"{TRACE.hex()} # and its trace")
        self.assertEqual(as_process(self.table, self.trace, "10", "1"), picked)

    def test_standard_input(self) -> None:
        self.assertEqual(as_process("-", self.trace, "10", "1", given=TABLE), (0, "Tank 10 was picked in slot 1.\n", ""))
        # A record of another: see above.
        text = f"{NOT_OURS}the record of slot 0 names no tank, and the dispatcher picks tanks 10 and 11.\n"
        text += "By the dispatcher's rules tank 10 was picked in slot 0.\n"
        self.assertEqual(as_process(self.table, "-", "10", "0", given=trace("0200")), (1, text, ""))

    def test_a_trace_that_ends_behind_the_slot(self) -> None:
        # Its count says 3 slots, and two records are there: what follows the slot is not looked at, in a file or from a pipe.
        picked = (0, "Tank 10 was picked in slot 1.\n", "")
        Path(self.trace).write_bytes(TRACE[:12])
        self.assertEqual(as_process(self.table, self.trace, "10", "1"), picked)
        self.assertEqual(as_process(self.table, "-", "10", "1", given=TRACE[:12]), picked)
        self.assertEqual(as_process(self.table, "-", "10", "1", given=TRACE[:12] + b"\xff"), picked)

    def test_a_refused_table(self) -> None:
        # Rows begin at byte 9 and have 9 bytes: 35 bytes end inside the third, which is row 2.
        Path(self.table).write_bytes(TABLE[:-1])
        text = f"{self.table}: 10, table ends inside a field or row (it ends after 35 bytes, inside row 2)\n"
        self.assertEqual(as_process(self.table, self.trace, "10", "0"), (1, "", text))


@needs_probe
class ThePage(unittest.TestCase):
    """docs/WHY.md: every example is word for word what the program prints."""

    def test_examples(self) -> None:
        examples = [block for block in PAGE.read_text().split("\n\n") if block.startswith("    $ ")]
        reasons = [" was picked in ", " was not ready in ", ", but no core was free.", ", but passed over: ", RAN]
        for reason in reasons:
            self.assertTrue(any(reason in block for block in examples), reason)
        for block in examples:
            command, *expected = [line.removeprefix("    ") for line in block.rstrip("\n").split("\n")]
            program, word, *arguments = shlex.split(command.removeprefix("$ "))
            self.assertEqual((program, word), ("./zb", "why"))
            run = subprocess.run([program, word, *arguments], capture_output=True, cwd=ROOT)
            self.assertEqual((run.stdout.decode().splitlines(), run.stderr), (expected, b""))

    def test_no_command_of_old(self) -> None:
        self.assertNotIn("python3", PAGE.read_text())


if __name__ == "__main__":
    unittest.main()
