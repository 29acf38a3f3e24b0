"""The tests of the second listing, zb slots --cores, of the inputs that it reads and of the archive that runs its slots: python3 host/desk/test_cores.py.
What is expected was worked out by hand, from 01 and requests One and Nine of 02.
"""
from __future__ import annotations

import os
import subprocess
import tempfile
import unittest
from pathlib import Path
from typing import Iterator, Sequence
from unittest import mock

import archive
import cores
import files
import inputs
import listing
import slot_commands
import zb
from archive import Archive, Ran
from probe import RUN, Check, Placement, Probe, State, first_cores
from testing import (
    COMMAND,
    HERE,
    ROOT,
    TABLE,
    TAKEN,
    THREE_SLOTS,
    TRACE,
    VALUE,
    EndingCase,
    Fake,
    FakeArchive,
    Interrupted,
    InterruptedArchive,
    SlotBySlot,
    as_process,
    as_users_have_it,
    needs_archive,
    needs_probe,
    placement,
    ran,
    refused,
    three_slots,
)
from trouble import Trouble

EXAMPLE, MOVES, LATE = (str(ROOT / "examples" / name) for name in ("three-tanks-slots.hex", "moves.hex", "late.hex"))

HALVES = {format: str(ROOT / "examples" / f"four-halves-{format}.hex") for format in (1, 2)}

EXAMPLE_LISTING = """\
slot free moves tanks on cores
0 2 0 10@0 11@1
1 2 0 10@0 20@1
2 2 0 11@0 20@1
end 3
moves 0
"""

# examples/moves.hex. All rows are of early release, with phase 0 and the cycle as period: a row is ready from slot 0 on until its e quanta are
# given, and then not before slot 12. Each e divides 12, so b is always 0: who goes first is the smaller d, and d = i·12/e, which is 6i for row
# 0 (tank 10), 4i for row 1, 3i for row 2 and 2i for row 3. A picked row whose core of the slot before is free stays, or there would be one
# move more than needed; the others take the cores that are left, the lowest to the lowest row, or the cores would not be the smallest.
#
#   slot 0, k = 4: all are picked, all are new: cores 0, 1, 2, 3.
#   slot 1, k = 2: the next d are 12, 8, 6, 4, so rows 3 and 2. Both have lost their cores, 3 and 2: row 2 takes 0, row 3 takes 1. 2 moves.
#   slot 2, k = 1: 12, 8, 9, 6, so row 3. Core 1 is not free: it takes 0. 1 move.
#   slot 3, k = 4: all are picked. Row 3 stays on 0, though row 0 comes first. The others did not run in slot 2, so they are new and take 1, 2
#     and 3; that row 2 ran on core 0 in slot 1 is no move. Row 0 has had its 2 quanta.
#   slot 4, k = 3: rows 1, 2, 3 are ready. Row 1 stays on 2, row 3 on 0; row 2 has lost core 3 and takes 1. 1 move. Row 1 has had its 3 quanta,
#     row 2 its 4.
#   slot 5, k = 0: nobody. The next d of row 3 is 12 and those of the others lie past 12: nobody is late.
#   slot 6, k = 4: row 3 alone is ready, with its last quantum. It is new, since it did not run in slot 5, and takes 0.
#   slot 7, k = 4: nobody is ready.
MOVES_LISTING = """\
slot free moves tanks on cores
0 4 0 10@0 11@1 12@2 13@3
1 2 2 12@0 13@1
2 1 1 13@0
3 4 0 10@1 11@2 12@3 13@0
4 3 1 11@2 12@1 13@0
5 0 0
6 4 0 13@0
7 4 0
end 8
moves 4
"""


# examples/four-halves-1.hex and four-halves-2.hex, whose picks test_why.py works out. Tanks that run again stay where they ran; others take the cores
# that are left, the lower to the lower row: so there is no move in either.
HALVES_LISTINGS = {
    1: """\
slot free moves tanks on cores
0 2 0 10@0 11@1
1 2 0 12@0 13@1
2 2 0 10@0 11@1
3 2 0 12@0 13@1
4 2 0 10@0 11@1
5 2 0 12@0 13@1
6 2 0 10@0 11@1
7 2 0 12@0 13@1
end 8
moves 0
""",
    2: """\
slot free moves tanks on cores
0 2 0 10@0 11@1
1 2 0 12@0 13@1
2 2 0 12@0 13@1
3 2 0 10@0 11@1
4 2 0 10@0 11@1
5 2 0 12@0 13@1
6 2 0 12@0 13@1
7 2 0 10@0 11@1
end 8
moves 0
""",
}


def slot_answer(number: int, time: int, *pairs: tuple[int, int], row: int = 0, late: int = 0) -> bytes:
    """An answer to K over 01's table. The quanta in its state are left 0: nobody looks at them here."""
    state = VALUE + time.to_bytes(8, "little") + bytes(1 + 256) + placement(*pairs)
    return bytes([number, row]) + late.to_bytes(8, "little") + placement(*pairs) + state + bytes(10)


def done(*pairs: tuple[int, int]) -> Ran:
    """A slot that the archive ran, with two cores free."""
    return Ran(0, 0, bytes([2, len(pairs), *(row for row, _ in pairs)]), pairs)


# What two T answer of an input with 01's table: its bytes are no table, since a table's first byte is 1 or 2; the table in it is taken.
INPUT_READ = refused(11), TAKEN
# The three slots of 01's example.
EXAMPLE_RUN = done((0, 0), (1, 1)), done((0, 0), (2, 1)), done((1, 0), (2, 1))


def text(input: bytes, probe: Probe, archive: Archive) -> str:
    asked = inputs.split(input)
    assert asked is not None
    return "".join(line + "\n" for line in slot_commands.list_slots(asked, True, zb.Desk(probe, archive)))


class InFolder(unittest.TestCase):
    def setUp(self) -> None:
        folder = tempfile.TemporaryDirectory()
        self.addCleanup(folder.cleanup)
        self.folder = Path(folder.name)

    def file(self, name: str, data: bytes) -> str:
        (self.folder / name).write_bytes(data)
        return str(self.folder / name)


class Splitting(unittest.TestCase):
    def test_parts(self) -> None:
        self.assertEqual(inputs.split(THREE_SLOTS), inputs.Asked(TABLE, 3, b"\2\2\2"))
        self.assertEqual(inputs.split(bytes.fromhex("0100 AA 0300 0200 07FF")), inputs.Asked(b"\xaa", 3, b"\x07\xff"))

    def test_missing_or_extra_bytes(self) -> None:
        for end in range(len(THREE_SLOTS)):
            self.assertIsNone(inputs.split(THREE_SLOTS[:end]))
        self.assertIsNone(inputs.split(THREE_SLOTS + b"\0"))
        self.assertIsNone(inputs.split(bytes.fromhex("0000 0300 0200 07")))

    def test_limits(self) -> None:
        self.assertEqual(inputs.split(bytes.fromhex("0000 0010 0000")), inputs.Asked(b"", 4096, b""))
        self.assertIsNone(inputs.split(bytes.fromhex("0000 0110 0000")))
        self.assertIsNone(inputs.split(bytes.fromhex("0000 0100 0200 0101")))
        self.assertIsNotNone(inputs.split(b"\xfa\xff" + bytes(65_530) + bytes(4)))
        self.assertIsNone(inputs.split(b"\xfb\xff" + bytes(65_531) + bytes(4)))

    def test_what_makes_an_input_none(self) -> None:
        for given, words in [
            (b"", "it is empty"),
            (b"\x24", "it has 1 byte, and the table's length alone takes 2"),
            (THREE_SLOTS[:-1], "the table's length says 36, so the input must have 45 bytes with 3 k values, and has 44"),
            (bytes.fromhex("0000 0110 0000"), "it asks for 4097 slots, and 4,096 are the most"),
            (bytes.fromhex("0000 0100 0200 0101"), "it has 2 k values for 1 slot"),
            (bytes.fromhex("0000 0110 0100"), "the table's length says 0, so the input must have 7 bytes with 1 k value, and has 6; it asks for 4097 slots, and 4,096 are the most"),
            (bytes(65_537), "it has more than 65,536 bytes"),
        ]:
            self.assertEqual(inputs.fault(given), words)

    def test_free(self) -> None:
        # Past the list M - 1, and 1 if M is 1.
        asked = inputs.Asked(b"", 4, b"\x05\x00")
        for cores, past in [(1, 1), (2, 1), (3, 2), (8, 7)]:
            self.assertEqual([asked.free(slot, cores) for slot in range(4)], [5, 0, past, past])
            self.assertEqual(inputs.held_back(cores), past)

    def test_parts_make_the_input(self) -> None:
        self.assertEqual(inputs.Asked(TABLE, 3, b"\2\2\2").input(), THREE_SLOTS)
        self.assertEqual(inputs.Asked(b"\xaa", 259, b"\x07\xff").input(), bytes.fromhex("0100 AA 0301 0200 07FF"))


class Hex(InFolder):
    def test_digits_white_space_and_comments(self) -> None:
        self.assertEqual(files.unhexed(b"# 11 \xc3\xa9\r\n0aF\t0 # 22\n\n0\n1#33", "f"), b"\x0a\xf0\x01")
        self.assertEqual(files.unhexed(b"", "f"), b"")

    def test_what_is_no_hex(self) -> None:
        for wrong in [b"0G", b"0x01", b"00;", b"\xc3\xa9"]:
            with self.assertRaisesRegex(Trouble, "^f, line 1, has something else than hex digits, white space and comments$"):
                files.unhexed(wrong, "f")
        for wrong in [b"012", b"0"]:
            with self.assertRaisesRegex(Trouble, "^f has half a byte: "):
                files.unhexed(wrong, "f")

    def test_the_line_is_named(self) -> None:
        for wrong, line in [(b"# zz\n01 # zz\n0G\nzz", 3), (b"\r\n\r\n\r\nzz", 4), (b"01\n02\nz", 3)]:
            with self.assertRaisesRegex(Trouble, f"^f, line {line}, has something else than hex digits"):
                files.unhexed(wrong, "f")
        with self.assertRaisesRegex(Trouble, "^standard input, line 1, has "):
            files.unhexed(b"z", "-")

    def test_examples(self) -> None:
        self.assertEqual(files.read(EXAMPLE, inputs.INPUT_LIMIT), files.Content(THREE_SLOTS, False))
        asked = inputs.split(files.read(MOVES, inputs.INPUT_LIMIT).data)
        assert asked is not None
        self.assertEqual((len(asked.table), asked.slots, asked.listed), (47, 8, bytes([4, 2, 1, 4, 3, 0, 4, 4])))

    def test_told_by_the_name(self) -> None:
        for name in ["a.hex", "a.HEX", "a.Hex"]:
            self.assertEqual(files.read(self.file(name, b"# 01\n"), 9), files.Content(b"", False))
            with self.assertRaisesRegex(Trouble, f"{name}, line 1, has something else than hex digits"):
                files.read(self.file(name, b"cycle"), 9)
        for name in ["a.csv", "a.TXT", "a.tsv"]:  # but nothing but hex digits is hex, since a typed table has names of columns
            self.assertEqual(files.read(self.file(name, b"\1"), 9), files.Content(b"\1", True))
            self.assertEqual(files.read(self.file(name, b"01"), 9), files.Content(b"\1", False))

    def test_told_by_what_is_there(self) -> None:
        hexed = Path(EXAMPLE).read_bytes()
        self.assertEqual(files.read(self.file("a", hexed), 99), files.Content(THREE_SLOTS, False))
        self.assertEqual(files.read(self.file("b", b"\n 0\r\n1 # one"), 99), files.Content(b"\1", False))
        with files.opened(self.file("a", hexed)) as file:
            self.assertEqual(file.read(), THREE_SLOTS)
        # Bytes, an empty file, a comment alone, whose digits do not count, and a text that begins as hex would.
        for data, is_text in [(THREE_SLOTS, False), (TABLE, False), (TRACE, False), (b"", False), (b"# 0a\n", True), (b"ab,\n", True)]:
            self.assertEqual(files.read(self.file("c", data), 99), files.Content(data, is_text))
            with files.opened(self.file("c", data)) as file:
                self.assertEqual(file.read(), data)

    def test_no_more_is_read_than_is_asked_for(self) -> None:
        self.assertEqual(files.read(self.file("a", bytes(100)), 9).data, bytes(10))
        self.assertEqual(files.read(self.file("a.hex", 100 * b"00"), 9).data, bytes(10))
        self.assertEqual(files.read("/dev/zero", 9).data, bytes(10))


class Requests(unittest.TestCase):
    def test_table(self) -> None:
        fake = Fake(TAKEN)
        table = fake.read_table(TABLE)
        self.assertEqual(fake.requests, [b"T\x24\0\0\0" + TABLE])
        self.assertEqual((table.number, table.value, table.cores), (0, VALUE, 2))
        self.assertEqual([table.tank(row) for row in range(4)], [10, 11, 20, 0])

    def test_slot(self) -> None:
        zeros = bytes(8 + 1 + 32 * 8 + 17)  # time, mark, quanta and memory of a fresh state
        after = VALUE + bytes.fromhex("0102000000000000 00" + 2 * "0100000000000000") + bytes(30 * 8) + placement((0, 1), (2, 0))
        fake = Fake(TAKEN, b"\x01\x02" + bytes.fromhex("0102000000000000") + placement((0, 1), (2, 0)) + after + bytes(10))
        answer = fake.run_slot(fake.read_table(TABLE).fresh(), 0x80000003)
        self.assertEqual(fake.requests[1], b"K" + VALUE + zeros + bytes.fromhex("03000080" "0000000000000000" "0A000000") + bytes(10))
        self.assertEqual((answer.number, answer.row, answer.time), (1, 2, 513))
        self.assertEqual(answer.placement, Placement(((0, 1), (2, 0))))
        self.assertEqual(answer.state, State(after))
        self.assertEqual((answer.state.time, answer.state.memory), (513, answer.placement))

    def test_slots_one_after_the_other(self) -> None:
        # Each K has the state that the one before gave back: the times are 0, 1 and 2, and in the last the memory is that of slot 1.
        fake = Fake(TAKEN, slot_answer(0, 1, (0, 0), (1, 1)), slot_answer(0, 2, (0, 0), (2, 1)), slot_answer(0, 3, (1, 0), (2, 1)))
        self.assertEqual([slot.pairs for slot in SlotBySlot(fake).run(TABLE, b"\2\2\2")], [slot.pairs for slot in EXAMPLE_RUN])
        self.assertEqual([request[:1] for request in fake.requests], [b"T", b"K", b"K", b"K"])
        self.assertEqual([request[304:312] for request in fake.requests[1:]], [bytes([time]) + bytes(7) for time in range(3)])
        self.assertEqual(fake.requests[3][569:586], placement((0, 0), (2, 1)))

    def test_the_cores_of_each_slot(self) -> None:
        fake = Fake(TAKEN, slot_answer(0, 1), slot_answer(0, 2), slot_answer(1, 3, row=2, late=3))
        self.assertEqual([slot.number for slot in SlotBySlot(fake).run(TABLE, b"\2\1\x28\0")], [0, 0, 1])
        self.assertEqual([request[586:590] for request in fake.requests[1:]], [b"\3\0\0\0", b"\1\0\0\0", b"\xff\xff\xff\xff"])

    def test_set_of_the_first_cores(self) -> None:
        for k, free in [(0, 0), (1, 1), (2, 3), (8, 0xFF), (9, 0x1FF), (31, 0x7FFFFFFF), (32, 0xFFFFFFFF), (33, 0xFFFFFFFF), (255, 0xFFFFFFFF)]:
            self.assertEqual(first_cores(k), free)

    def test_the_programs_stand_beside_this_folder(self) -> None:
        self.assertEqual(RUN, (str(ROOT / "host" / "run"), "probe"))
        self.assertEqual(archive.COMMAND, (str(ROOT / "host" / "run"), "desk"))

    def test_a_probe_that_names_more_rows_than_there_are_cores(self) -> None:
        plain = slot_answer(0, 1)
        with self.assertRaisesRegex(Trouble, "^the probe names 9 rows in one slot"):
            Fake(plain[:10] + b"\x09" + plain[11:]).run_slot(State(bytes(585)), 0)


class Archives(InFolder):
    """What the archive's program is asked, and what is made of its answers."""

    def program(self, answers: bytes) -> Archive:
        """A program that keeps its words and what it is given, and that answers this."""
        self.file("answers", answers)
        return Archive(["/bin/sh", "-c", 'cat >"$0/given"; echo "$@" >"$0/words"; cat "$0/answers"', str(self.folder)])

    def asked(self) -> tuple[str, bytes]:
        return (self.folder / "words").read_text(), (self.folder / "given").read_bytes()

    # An entry has the record (10 bytes), the core of each of its rows (8), the number and the row.
    FIRST = bytes.fromhex("02 02 00 01 000000000000  00 01 000000000000  00 00")
    SECOND = bytes.fromhex("01 01 02 00000000000000  01 00000000000000  00 00")

    def test_slots(self) -> None:
        answered = list(self.program(self.FIRST + self.SECOND).run(TABLE, b"\2\1"))
        self.assertEqual(answered, [Ran(0, 0, b"\2\2\0\1", ((0, 0), (1, 1))), Ran(0, 0, b"\1\1\2", ((2, 1),))])
        self.assertEqual([slot.cores for slot in answered], [{0: 0, 1: 1}, {2: 1}])
        self.assertEqual(self.asked(), ("run 36\n", TABLE + b"\2\1"))

    def test_eight_rows_and_none(self) -> None:
        full = bytes([8, 8, *range(8)]) + bytes(range(7, -1, -1)) + b"\0\0"
        pairs = tuple((row, 7 - row) for row in range(8))
        self.assertEqual(list(self.program(full + bytes(20)).run(b"", b"\x08\0")), [Ran(0, 0, bytes([8, 8, *range(8)]), pairs), Ran(0, 0, b"\0\0", ())])
        self.assertEqual(self.asked(), ("run 0\n", b"\x08\0"))
        self.assertEqual(list(self.program(b"").run(TABLE, b"")), [])

    def test_a_slot_after_which_a_row_is_late_is_the_last(self) -> None:
        late = self.SECOND[:-2] + b"\1\2"
        answered = list(self.program(self.FIRST + late + self.FIRST).run(TABLE, b"\2\1\2"))
        self.assertEqual(answered[1:], [Ran(1, 2, b"\1\1\2", ((2, 1),))])

    def test_a_refused_slot_has_no_record(self) -> None:
        # Its bytes stay as they were, whatever they were.
        answered = list(self.program(self.FIRST[:-2] + b"\x23\0" + self.FIRST).run(TABLE, b"\x28\2"))
        self.assertEqual(answered, [Ran(35, 0, b"", ())])

    def test_check(self) -> None:
        with open(self.file("trace", TRACE), "rb") as trace:
            self.assertEqual(self.program(bytes.fromhex("2D 02 0102000000000000")).check(TABLE, trace), Check(45, 2, 513))
        self.assertEqual(self.asked(), ("judge 36\n", TABLE + TRACE))

    def test_a_check_of_what_is_left_of_a_trace(self) -> None:
        # Longer than what is read at once, 1 MiB.
        long = TRACE + bytes(3_000_000)
        with open(self.file("trace", long), "rb") as trace:
            trace.seek(3)
            self.assertEqual(self.program(bytes(10)).check(b"\7", trace), Check(0, 0, 0))
        self.assertEqual(self.asked(), ("judge 1\n", b"\7" + long[3:]))

    def test_answers_that_are_cut(self) -> None:
        for answers in [b"\0", self.FIRST[:-1], self.FIRST + self.SECOND[:-1]]:
            with self.assertRaisesRegex(Trouble, "^the archive was cut short$"):
                list(self.program(answers).run(TABLE, b"\2\2"))
        for answers in [b"", bytes(9), bytes(11)]:
            with self.assertRaisesRegex(Trouble, "^the archive was cut short$"), open(self.file("trace", TRACE), "rb") as trace:
                self.program(answers).check(TABLE, trace)

    def test_an_archive_that_does_not_answer(self) -> None:
        for command, words in [
            ([str(HERE / "none")], "^the archive does not start: "),
            (["/bin/sh", "-c", "echo it is >&2; echo not built >&2; exit 2"], "^it is not built$"),
            (["/bin/sh", "-c", "exit 3"], "^the archive ended with status 3$"),
        ]:
            with as_users_have_it(), self.assertRaisesRegex(Trouble, words):
                list(Archive(command).run(TABLE, b"\2"))
            with as_users_have_it(), self.assertRaisesRegex(Trouble, words), open(EXAMPLE, "rb") as trace:
                Archive(command).check(TABLE, trace)


class Moves(unittest.TestCase):
    def count(self, before: dict[int, int], now: dict[int, int]) -> int:
        return cores.moves(before, now.items())

    def test_none(self) -> None:
        self.assertEqual(self.count({}, {0: 0, 1: 1}), 0)
        self.assertEqual(self.count({0: 0, 1: 1}, {}), 0)
        self.assertEqual(self.count({0: 0, 5: 3}, {0: 0, 5: 3}), 0)
        self.assertEqual(self.count({1: 0}, {0: 0}), 0)

    def test_some(self) -> None:
        self.assertEqual(self.count({0: 2}, {0: 0}), 1)
        self.assertEqual(self.count({0: 0, 1: 1}, {0: 1, 1: 0}), 2)
        self.assertEqual(self.count({1: 1, 2: 2, 3: 3}, {0: 3, 2: 0, 3: 1}), 2)


class OneByOne(FakeArchive):
    """Has no second slot yet."""

    def run(self, table: bytes, listed: bytes) -> Iterator[Ran]:
        yield done((0, 0), (1, 1))
        raise AssertionError("the second slot was asked for")


class Listings(InFolder):
    def test_example(self) -> None:
        fake, ours = Fake(TAKEN), FakeArchive(EXAMPLE_RUN)
        self.assertEqual(text(THREE_SLOTS, fake, ours), EXAMPLE_LISTING)
        self.assertEqual(fake.requests, [b"T\x24\0\0\0" + TABLE])
        self.assertEqual(ours.asked, [(TABLE, b"\2\2\2")])

    def test_lines_come_one_by_one(self) -> None:
        asked = inputs.split(THREE_SLOTS)
        assert asked is not None
        lines = slot_commands.list_slots(asked, True, zb.Desk(Fake(TAKEN), OneByOne()))
        self.assertEqual([next(lines), next(lines)], [cores.HEADER, "0 2 0 10@0 11@1"])

    def test_late_with_a_move(self) -> None:
        ours = FakeArchive([done((0, 0), (1, 1)), Ran(1, 2, b"\1\1\1", ((1, 0),))])
        said = "0 2 0 10@0 11@1\n1 1 1 11@0\nlate 2 20\nmoves 1\n"
        self.assertEqual(text(three_slots(b"\2\1\2"), Fake(TAKEN), ours), cores.HEADER + "\n" + said)
        self.assertEqual(ours.asked, [(TABLE, b"\2\1\2")])

    def test_refused_slot(self) -> None:
        ours = FakeArchive([Ran(0, 0, b"\0\0", ()), Ran(35, 0, b"", ())])
        self.assertEqual(text(three_slots(b"\0\x28\2"), Fake(TAKEN), ours), cores.HEADER + "\n0 0 0\nrefused 35\n")
        self.assertEqual(ours.asked, [(TABLE, b"\0\x28\2")])

    def test_refused_table(self) -> None:
        ours = FakeArchive()
        self.assertEqual(text(THREE_SLOTS, Fake(refused(22)), ours), "refused 22\n")
        self.assertEqual(ours.asked, [])

    def test_no_slots(self) -> None:
        self.assertEqual(text(b"\x24\0" + TABLE + bytes(4), Fake(TAKEN), FakeArchive()), cores.HEADER + "\nend 0\nmoves 0\n")

    def test_a_row_that_moves_back(self) -> None:
        # Row 0 goes from core 0 to core 1 and back: two moves. Row 1, which did not run in slot 1, has none.
        ours = FakeArchive([done((0, 0), (1, 1)), done((0, 1)), done((0, 0), (1, 1))])
        said = "0 2 0 10@0 11@1\n1 2 1 10@1\n2 2 1 10@0 11@1\nend 3\nmoves 2\n"
        self.assertEqual(text(THREE_SLOTS, Fake(TAKEN), ours), cores.HEADER + "\n" + said)


class Command(InFolder):
    """zb slots FILE --cores: the listing, words on how it ended, and the exit status."""

    def printed(self, input: bytes, probe: Probe, archive: Archive, *options: str) -> tuple[int, str, str]:
        return ran(["slots", self.file("input", input), "--cores", *options], probe, archive)

    def test_end(self) -> None:
        fake, ours = Fake(*INPUT_READ), FakeArchive(EXAMPLE_RUN)
        self.assertEqual(self.printed(THREE_SLOTS, fake, ours), (0, EXAMPLE_LISTING, ""))
        self.assertEqual(fake.requests, [b"T\x2d\0\0\0" + THREE_SLOTS, b"T\x24\0\0\0" + TABLE])
        self.assertEqual(ours.asked, [(TABLE, b"\2\2\2")])

    def test_late(self) -> None:
        ours = FakeArchive([done((0, 0), (1, 1)), Ran(1, 2, b"\1\1\1", ((1, 0),))])
        status, out, error = self.printed(three_slots(b"\2\1\2"), Fake(*INPUT_READ), ours)
        self.assertEqual((status, out), (1, cores.HEADER + "\n0 2 0 10@0 11@1\n1 1 1 11@0\nlate 2 20\nmoves 1\n"))
        self.assertRegex(error, "^zb: tank 20 is late at time 2: .*\n$")

    def test_refused_slot(self) -> None:
        status, out, error = self.printed(three_slots(b"\x28\2\2"), Fake(*INPUT_READ), FakeArchive([Ran(35, 0, b"", ())]))
        self.assertEqual((status, out), (1, cores.HEADER + "\nrefused 35\n"))
        self.assertRegex(error, "^zb: 35, a set naming a core not below M, or a printer's k above M: .*\n$")

    def test_refused_table(self) -> None:
        ours = FakeArchive()
        status, out, error = self.printed(THREE_SLOTS, Fake(refused(11), refused(22)), ours)
        self.assertEqual((status, out, ours.asked), (1, "refused 22\n", []))
        self.assertRegex(error, "^zb: 22, sum above M\\*L: .*\n$")

    def test_input_runs_nothing(self) -> None:
        fake, ours = Fake(refused(11)), FakeArchive()
        words = "zb: input: the slot printer prints 4096 slots at most, and not 4097\n"
        self.assertEqual(self.printed(THREE_SLOTS, fake, ours, "--slots", "4097"), (1, "input\n", words))
        self.assertEqual(([request[:1] for request in fake.requests], ours.asked), ([b"T"], []))

    def test_what_was_to_be_an_input_with_a_table_of_format_2(self) -> None:
        # As below, with a 2 where the table begins.
        cut = b"\x24\0\2" + THREE_SLOTS[3:-1]
        words = "zb: input: the table's length says 36, so the input must have 45 bytes with 3 k values, and has 44\n"
        self.assertEqual(self.printed(cut, Fake(refused(11)), FakeArchive()), (1, "input\n", words))

    def test_what_is_neither_input_nor_table(self) -> None:
        # One byte too many: no input. The first byte is its length's, 0x24, and a table's is 1 or 2, so it was to be an input.
        fake, ours = Fake(refused(11)), FakeArchive()
        words = "zb: input: the table's length says 36, so the input must have 45 bytes with 3 k values, and has 46\n"
        self.assertEqual(self.printed(THREE_SLOTS + b"\0", fake, ours), (1, "input\n", words))
        self.assertEqual((fake.requests, ours.asked), ([b"T\x2e\0\0\0" + THREE_SLOTS + b"\0"], []))

    def test_a_cut_table_is_a_table(self) -> None:
        fake, ours = Fake(refused(10), refused(10)), FakeArchive()
        status, out, error = self.printed(TABLE[:-1], fake, ours)
        self.assertEqual((status, out, ours.asked), (1, "refused 10\n", []))
        self.assertRegex(error, "^zb: 10, table ends inside a field or row: .*\n$")

    def test_a_table(self) -> None:
        # Its cycle has 3 slots; with 2 cores free in each these are the slots of 01's example.
        for data in [TABLE, TABLE.hex().encode()]:
            fake, ours = Fake(TAKEN, TAKEN), FakeArchive(EXAMPLE_RUN)
            self.assertEqual(self.printed(data, fake, ours, "--free", "3x2"), (0, EXAMPLE_LISTING, ""))
            self.assertEqual(fake.requests, 2 * [b"T\x24\0\0\0" + TABLE])
            self.assertEqual(ours.asked, [(TABLE, b"\2\2\2")])

    def test_other_slots_than_the_file_has(self) -> None:
        ours = FakeArchive([done(), done((0, 1))])
        said = cores.HEADER + "\n0 0 0\n1 1 0 10@1\nend 2\nmoves 0\n"
        self.assertEqual(self.printed(THREE_SLOTS, Fake(*INPUT_READ), ours, "--slots", "2", "--free", "0,1,2"), (0, said, "zb: of the 3 slots of the list the first 2 are printed\n"))
        self.assertEqual(ours.asked, [(TABLE, b"\0\1")])


class Asking(FakeArchive):
    """Remembers what it was asked, and is interrupted."""

    def run(self, table: bytes, listed: bytes) -> Iterator[Ran]:
        self.asked.append((table, listed))
        raise KeyboardInterrupt


class HeldBack(InFolder):
    """Past the list one core less is free than there are, or the only one (02, Nine); where that ends late, a line says so. No program runs here: what
    they pick is in test_zb.py.
    """

    ONE_CORE = TABLE[:5] + b"\1\0" + b"\1" + TABLE[9:18]  # tank 10 alone
    ONE_TAKEN = b"\0" + (VALUE[:5] + b"\1" + bytes(8) + b"\1" + VALUE[15:24]).ljust(303, b"\0")
    LATE = Ran(0, 0, b"\0\0", ()), Ran(1, 0, b"\1\0", ())  # nobody is picked, and row 0 is late at 2
    SAID = "zb: from slot {} on no list says how many cores are free, so one of the 2 is held back; --free 3x2 frees them all\n"

    def test_the_listing_with_cores_and_the_drawing_ask_for_the_same(self) -> None:
        for data, read, options, listed in [
            (TABLE, [TAKEN], [], b"\1\1\1"),
            (TABLE, [TAKEN], ["--free", "2"], b"\2\1\1"),
            (TABLE, [TAKEN], ["--free", "0,2"], b"\0\2\1"),
            (TABLE, [TAKEN], ["--free", "3x2"], b"\2\2\2"),
            (three_slots(b""), INPUT_READ, [], b"\1\1\1"),
            (three_slots(b"\2\2"), INPUT_READ, [], b"\2\2\1"),
            (three_slots(b"\2\2"), INPUT_READ, ["--free", "2"], b"\2\1\1"),
            (THREE_SLOTS, INPUT_READ, [], b"\2\2\2"),
            (self.ONE_CORE, [self.ONE_TAKEN], [], b"\1\1\1"),
            (self.ONE_CORE, [self.ONE_TAKEN], ["--free", "0"], b"\0\1\1"),
        ]:
            table = self.ONE_CORE if data is self.ONE_CORE else TABLE
            for command in [["slots", "--cores"], ["draw"]]:
                ours = Asking()
                again = read[-1:] if data is table and command[0] == "slots" else []  # the cycle of a table, before its slots
                self.assertEqual(ran([*command, self.file("input", data), *options], Fake(*read, *again), ours)[0], 130)
                self.assertEqual(ours.asked, [(table, listed)])

    def test_a_drawing_past_the_slots_of_a_listing(self) -> None:
        # All cores can be listed there too, or they could not be drawn any more.
        table, ours = self.file("t", TABLE), Asking()
        self.assertEqual(ran(["draw", table, "--slots", "4999-5000", "--free", "5001x2"], Fake(TAKEN), ours)[0], 130)
        self.assertEqual(ours.asked, [(TABLE, 5_001 * b"\2")])
        self.assertEqual(ran(["draw", table, "--free", "1000001x2"], Fake(TAKEN), ours), (2, "", "zb: --free lists more than 1000000 slots\n"))
        self.assertEqual(ran(["slots", table, "--free", "4097x2"], Fake(TAKEN), ours), (2, "", "zb: --free lists more than 4096 slots\n"))

    def noted(self, data: bytes, read: Sequence[bytes], *options: str) -> str:
        """What is said behind the lateness."""
        status, _, error = ran(["slots", self.file("input", data), "--cores", *options], Fake(*read), FakeArchive(self.LATE))
        self.assertEqual(status, 1)
        late, *more = error.splitlines(keepends=True)
        self.assertTrue(late.startswith("zb: tank 10 is late at time 2: "), late)
        return "".join(more)

    def test_late_past_the_list(self) -> None:
        # Slots 0 and 1 ran.
        self.assertEqual(self.noted(TABLE, [TAKEN, TAKEN]), self.SAID.format(0))
        self.assertEqual(self.noted(TABLE, [TAKEN, TAKEN], "--free", "0"), self.SAID.format(1))
        self.assertEqual(self.noted(three_slots(b"\0"), INPUT_READ), self.SAID.format(1))
        self.assertEqual(self.noted(THREE_SLOTS, INPUT_READ, "--free", ""), self.SAID.format(0))
        self.assertEqual(self.noted(TABLE, [TAKEN, TAKEN], "--slots", "4096"), self.SAID.format(0).replace("3x2", "4096x2"))

    def test_late_within_the_list(self) -> None:
        for listed in ["0,1", "0,1,2"]:
            self.assertEqual(self.noted(TABLE, [TAKEN, TAKEN], "--free", listed), "")
        self.assertEqual(self.noted(three_slots(b"\0\1"), INPUT_READ), "")

    def test_late_on_one_core(self) -> None:
        self.assertEqual(self.noted(self.ONE_CORE, 2 * [self.ONE_TAKEN]), "")

    def test_not_late(self) -> None:
        ours = FakeArchive([Ran(0, 0, b"\1\0", ()), Ran(0, 0, b"\1\0", ()), Ran(0, 0, b"\1\0", ())])
        self.assertEqual(ran(["slots", self.file("t", TABLE), "--cores"], Fake(TAKEN, TAKEN), ours), (0, cores.HEADER + "\n0 1 0\n1 1 0\n2 1 0\nend 3\nmoves 0\n", ""))

    def test_a_refused_slot(self) -> None:
        status, out, error = ran(["slots", self.file("t", TABLE), "--cores", "--free", "2"], Fake(TAKEN, TAKEN), FakeArchive([done(), Ran(35, 0, b"", ())]))
        self.assertEqual((status, out), (1, cores.HEADER + "\n0 2 0\nrefused 35\n"))
        self.assertRegex(error, "^zb: 35, .*\n$")

    def test_the_listing_without_cores(self) -> None:
        with mock.patch.object(listing, "printed", return_value="slot free tanks\n0 1 10\n1 1 11\nlate 2 20\n") as printed:
            status, out, error = ran(["slots", self.file("t", TABLE)], Fake(TAKEN, TAKEN))
        self.assertEqual((status, out, printed.call_args.args), (1, printed.return_value, (inputs.Asked(TABLE, 3, b""),)))
        self.assertRegex(error, "^zb: tank 20 is late at time 2: .*\n" + self.SAID.format(0) + "$")

    def test_a_drawing(self) -> None:
        # Of the three rows subtasks 1 to 5 are asked for, and why each waited in two slots: refusals, of which nothing is drawn.
        for options, said in [([], self.SAID.format(0)), (["--free", "0"], self.SAID.format(1)), (["--free", "0,1"], ""), (["--free", "3x1"], "")]:
            fake = Fake(TAKEN, 15 * (b"\x32" + bytes(25)), 6 * (b"\x1e" + bytes(11)))
            status, out, error = ran(["draw", self.file("t", TABLE), *options], fake, FakeArchive(self.LATE))
            self.assertEqual((status, out.splitlines()[-1], error), (1, "Tank 10 is late at time 2: there the dispatcher stops.", said))


class Endings(EndingCase):
    def test_wrong_use(self) -> None:
        self.assert_trouble(["slots", "--cores"], Fake(), "FILE .see: zb slots --help.")
        self.assert_trouble(["slots", "--cores", "a", "b"], Fake(), "unrecognized arguments: b")
        self.assert_trouble(["slots", "--cores", "-x"], Fake(), "FILE .see: zb slots --help.")
        self.assert_trouble(["slots", "--cores", "a", "-x"], Fake(), "unrecognized arguments: -x")
        status, out, error = ran([], Fake())
        self.assertEqual((status, out), (2, ""))
        self.assertRegex(error, "^usage: zb ")
        self.assert_help(["slots"], "zb slots")

    def test_a_file_that_cannot_be_read(self) -> None:
        for wrong in [str(HERE / "none"), str(HERE)]:
            self.assert_trouble(["slots", "--cores", wrong], Fake(), f"{wrong} cannot be read")

    def test_bad_hex(self) -> None:
        for suffix in [".hex", ".HEX"]:
            with tempfile.NamedTemporaryFile(suffix=suffix) as file:
                file.write(b"# an input\n2400 zz")
                file.flush()
                self.assert_trouble(["slots", "--cores", file.name], Fake(), f"{file.name}, line 2, has something else than hex digits")

    def test_a_probe_that_does_not_answer(self) -> None:
        asked = ["slots", "--cores", EXAMPLE]
        self.assert_trouble(asked, Probe([str(HERE / "none")]), "does not start")
        self.assert_trouble(asked, Probe(["/bin/sh", "-c", "echo it is not built >&2; exit 2"]), "it is not built")
        self.assert_trouble(asked, Probe(["/bin/sh", "-c", "exit 3"]), "status 3")
        self.assert_trouble(asked, Probe(["/bin/sh", "-c", "printf '\\377'"]), "1 bytes answer T, not 304")

    def test_an_archive_that_does_not_answer(self) -> None:
        for command, words in [
            ([str(HERE / "none")], "the archive does not start"),
            (["/bin/sh", "-c", "echo it is not built >&2; exit 2"], "it is not built"),
            (["/bin/sh", "-c", "exit 3"], "status 3"),
            (["/bin/sh", "-c", "printf '\\377'"], "cut short"),
        ]:
            self.assert_trouble(["slots", "--cores", EXAMPLE], Fake(*INPUT_READ), words, Archive(command), cores.HEADER + "\n")

    def test_an_archive_that_names_what_is_not_there(self) -> None:
        for wild in [done((32, 0)), Ran(1, 32, b"\2\0", ())]:
            status, _, error = ran(["slots", "--cores", EXAMPLE], Fake(*INPUT_READ), FakeArchive([wild]))
            self.assertEqual(status, 2)
            self.assertRegex(error, "^zb: the probe names row 32.*\n$")

    def test_interrupted(self) -> None:
        self.assertEqual(ran(["slots", "--cores", EXAMPLE], Interrupted()), (130, "", ""))
        self.assertEqual(ran(["slots", "--cores", EXAMPLE], Fake(*INPUT_READ), InterruptedArchive()), (130, cores.HEADER + "\n", ""))


@needs_probe
class AgainstProbe(unittest.TestCase):
    """Slots that the probe runs, one after the other."""

    def setUp(self) -> None:
        self.archive: Archive = SlotBySlot(Probe())

    def assert_listed(self, input: bytes, expected: str) -> None:
        self.assertEqual(text(input, Probe(), self.archive), expected)

    def test_example(self) -> None:
        self.assert_listed(THREE_SLOTS, EXAMPLE_LISTING)

    def test_moves(self) -> None:
        self.assert_listed(files.read(MOVES, inputs.INPUT_LIMIT).data, MOVES_LISTING)

    def test_formats(self) -> None:
        for format, listed in HALVES_LISTINGS.items():
            self.assert_listed(files.read(HALVES[format], inputs.INPUT_LIMIT).data, listed)

    def test_k_above_the_cores(self) -> None:
        for k in [3, 9, 32, 255]:
            self.assert_listed(three_slots(bytes([2, k, 2])), cores.HEADER + "\n0 2 0 10@0 11@1\nrefused 35\n")

    def test_late(self) -> None:
        self.assert_listed(files.read(LATE, inputs.INPUT_LIMIT).data, cores.HEADER + "\n0 0 0\n1 0 0\nlate 2 10\nmoves 0\n")

    def test_no_slots(self) -> None:
        self.assert_listed(b"\x24\0" + TABLE + bytes(4), cores.HEADER + "\nend 0\nmoves 0\n")

    def test_refused_table(self) -> None:
        self.assert_listed(b"\x23\0" + TABLE[:-1] + b"\3\0\0\0", "refused 10\n")


@needs_archive
class AgainstArchive(AgainstProbe):
    """The same slots, and others, run by the archive."""

    def setUp(self) -> None:
        self.archive = Archive()

    def test_as_the_probe(self) -> None:
        for name in ["three-tanks-slots.hex", "four-cores.hex", "full-box.hex", "moves.hex", "late.hex", "four-halves-1.hex", "four-halves-2.hex", "held-back.hex"]:
            asked = inputs.split(files.read(str(ROOT / "examples" / name), inputs.INPUT_LIMIT).data)
            assert asked is not None
            table = Probe().read_table(asked.table)
            listed = bytes(asked.free(slot, table.cores) for slot in range(asked.slots))
            self.assertEqual(list(self.archive.run(asked.table, listed)), list(SlotBySlot(Probe()).run(asked.table, listed)), name)

    def test_command(self) -> None:
        self.assertEqual(as_process("slots", EXAMPLE, "--cores"), (0, EXAMPLE_LISTING.encode(), ""))
        self.assertEqual(as_process("slots", str(ROOT / "examples" / "three-tanks.csv"), "--cores", "--free", "3x2"), (0, EXAMPLE_LISTING.encode(), ""))
        status, out, error = as_process("slots", LATE, "--cores")
        self.assertEqual((status, out.splitlines()[-2:]), (1, [b"late 2 10", b"moves 0"]))
        self.assertRegex(error, "^zb: tank 10 is late at time 2: .*\n$")


@needs_probe
class ProgramAgainstProbe(unittest.TestCase):
    """The command itself, where the table is refused and no slot runs."""

    def assert_refused(self, number: int, words: str, given: bytes, command: str = COMMAND) -> None:
        status, out, error = as_process("slots", "-", "--cores", given=given, command=command)
        self.assertEqual((status, out.decode()), (1, f"refused {number}\n"))
        self.assertRegex(error, f"^zb: {number}, {words}: .*\n$")

    def assert_input(self, words: str, given: bytes, command: str = COMMAND) -> None:
        self.assertEqual(as_process("slots", "-", "--cores", given=given, command=command), (1, b"input\n", f"zb: input: {words}\n"))

    def test_standard_input(self) -> None:
        self.assert_input("the table's length says 36, so the input must have 45 bytes with 3 k values, and has 46", THREE_SLOTS + b"\0")
        self.assert_input("it has more than 65,536 bytes", b"\0\0\1" + bytes(70_000))
        self.assert_refused(11, "format is neither 1 nor 2", bytes(70_000))
        self.assert_input("it is empty", b"")

    def test_input(self) -> None:
        words = "zb: input: the slot printer prints 4096 slots at most, and not 5000\n"
        self.assertEqual(as_process("slots", "-", "--cores", "--slots", "5000", given=THREE_SLOTS), (1, b"input\n", words))

    def test_cut_table(self) -> None:
        self.assert_refused(10, "table ends inside a field or row", b"\x23\0" + TABLE[:-1] + bytes(4))

    def test_through_a_symlink(self) -> None:
        with tempfile.TemporaryDirectory() as folder:
            link = os.path.join(folder, "link")
            os.symlink(COMMAND, link)
            self.assert_input("it is empty", b"", link)

    def test_closed_pipe(self) -> None:
        reading, writing = os.pipe()
        os.close(reading)
        run = subprocess.run([COMMAND, "slots", "-", "--cores"], input=b"", stdout=writing, stderr=subprocess.PIPE)
        os.close(writing)
        self.assertEqual((run.returncode, run.stderr), (141, b""))


if __name__ == "__main__":
    unittest.main()
