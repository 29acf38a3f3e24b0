"""The tests of what is said of a trace: python3 host/desk/test_traces.py. What is expected was worked out by hand, from 01 and 02."""
from __future__ import annotations

import io
import random
import struct
import unittest
from pathlib import Path

import course
import schedule
import stats
import tables
import trace_lines
import traces
import verdict
import window
from archive import Archive
from picture import Late, Window
from probe import LATE, Probe, Table, first_cores
from traces import NoAnswer
from trouble import Trouble

ROOT = Path(__file__).resolve().parent.parent.parent

# 01's example: three plain rows of 2/3 on two cores, tanks 10, 11 and 20, and its trace. Windows of 2/3: 0 to 2, 1 to 3, then the same three slots on.
TABLE = bytes.fromhex("01 03000000 02 0001 03  0A00 0200 0300 0000 00  0B00 0200 0300 0000 00  1400 0200 0300 0000 00")
TRACE = bytes.fromhex("03000000 02020001 02020002 02020102")
NO_ROWS = bytes.fromhex("01 01000000 02 0001 00")
HALVES = bytes.fromhex("02000000 02 0001 04" + "".join(f"{tank:02X}00 0100 0200 0000 00" for tank in range(10, 14)))  # behind a format: four of 1/2, two cores
HALVES_TRACES = {  # in formats 1 and 2; test_why.py works them out
    1: bytes.fromhex("08000000" + 4 * "02020001 02020203"),
    2: bytes.fromhex("08000000" + 2 * "02020001 02020203 02020203 02020001"),
}
EARLY = bytes.fromhex("01 06000000 01 00 01  0500 0200 0600 0000 01")  # one core, early release 2/6, tank 5

BUILT = all((ROOT / "target" / name).exists() for name in ("bin/probe", "desk/run"))


class Window01(unittest.TestCase):
    """zb window: which numbers are which."""

    def test_words(self) -> None:
        self.assertEqual(window.asked(["8", "11", "3"]), (8, 11, 0, [3]))
        self.assertEqual(window.asked(["8/11", "3"]), (8, 11, 0, [3]))
        self.assertEqual(window.asked(["2", "3", "4", "1"]), (2, 3, 4, [1]))
        self.assertEqual(window.asked(["2/3", "4", "1-3", "9"]), (2, 3, 4, [1, 2, 3, 9]))
        self.assertEqual(window.asked(["1/2/3"]), (1, 2, 0, [3]))

    def test_wrong_words(self) -> None:
        for wrong in [[], ["8"], ["8", "11"], ["8/11"], ["a", "11", "3"], ["8", "65536", "3"], ["8", "11", "-3"], ["8", "11", "1-1000000"], ["2", "3", "5-4"]]:
            with self.assertRaises(Trouble):
                window.asked(wrong)


@unittest.skipUnless(BUILT, "target/bin/probe or target/desk/run is not built: host/build probe desk")
class OverTrace(unittest.TestCase):
    probe, archive = Probe(), Archive()

    def taken(self, table: bytes) -> Table:
        taken = self.probe.read_table(table)
        self.assertEqual(taken.number, 0)
        return taken

    def verdict(self, trace: bytes, table: bytes = TABLE) -> tuple[int, str, int]:
        judged = verdict.of(table, self.taken(table), io.BytesIO(trace), self.probe, self.archive)
        return judged.number, judged.sentence, judged.sound

    def course(self, trace: bytes, table: bytes = TABLE) -> course.Course:
        return course.of_trace(table, self.taken(table), io.BytesIO(trace), self.probe, self.archive)


class Verdicts(OverTrace):
    def test_passes(self) -> None:
        self.assertEqual(self.verdict(TRACE), (0, "3 slots: every quantum ran in its allowed slots, and no tank was late", 3))
        self.assertEqual(self.verdict(bytes(4)), (0, "0 slots: every quantum ran in its allowed slots, and no tank was late", 0))

    def test_cut(self) -> None:
        self.assertEqual(self.verdict(TRACE[:-1]), (40, "the trace is cut short: the record of slot 2 is not wholly there", 2))
        self.assertEqual(self.verdict(TRACE[:3]), (40, "the trace is cut short: its count of slots is not wholly there", 0))
        self.assertEqual(self.verdict(b""), (40, "the trace is cut short: its count of slots is not wholly there", 0))

    def test_records(self) -> None:
        for slot_1, number, words in [
            ("03020002", 41, "says that 3 cores were free, and the table has 2"),
            ("01020002", 42, "names 2 rows, and 1 core was free"),
            ("02020200", 43, "names the rows 2, 0: they must rise, and the table has 3 rows, counted from 0"),
            ("02020003", 43, "names the rows 0, 3: they must rise, and the table has 3 rows, counted from 0"),
        ]:
            trace = bytes.fromhex("02000000 02020001" + slot_1)
            self.assertEqual(self.verdict(trace), (number, f"the record of slot 1 {words}", 1))

    def test_a_record_that_says_too_much_and_is_cut(self) -> None:
        # 41 and 42 are tested before the rows are looked for.
        self.assertEqual(self.verdict(bytes.fromhex("02000000 02020001 FFFF")), (41, "the record of slot 1 says that 255 cores were free, and the table has 2", 1))
        self.assertEqual(self.verdict(bytes.fromhex("02000000 02020001 02FF00")), (42, "the record of slot 1 names 255 rows, and 2 cores were free", 1))
        self.assertEqual(self.verdict(bytes.fromhex("02000000 02020001 02")), (40, "the trace is cut short: the record of slot 1 is not wholly there", 1))

    def test_what_does_not_end(self) -> None:
        with open("/dev/zero", "rb") as endless:
            judged = verdict.of(TABLE, self.taken(TABLE), endless, self.probe, self.archive)
        self.assertEqual((judged.number, judged.sentence), (46, "bytes stand behind its count, which is 0"))

    def test_early(self) -> None:
        # Tank 10 runs in slots 0, 1 and 2, and its third window begins at 3. The others have one quantum each by time 2, and two are due by 3.
        trace = bytes.fromhex("03000000 02020002 02020001 02020001")
        self.assertEqual(self.verdict(trace), (44, "tank 10 (row 0) had its quantum 3 in slot 2, and it was not ready before slot 3", 2))

    def test_late(self) -> None:
        words = "tank 10 (row 0) is late at time 2: its quantum 1 was due and had not run: its window is slots 0 to 1"
        self.assertEqual(self.verdict(bytes.fromhex("02000000 0000 0000")), (45, words, 2))

    def test_behind_the_last(self) -> None:
        self.assertEqual(self.verdict(TRACE + b"\0"), (46, "bytes stand behind the record of slot 2, the last", 3))
        self.assertEqual(self.verdict(bytes(6)), (46, "bytes stand behind its count, which is 0", 0))

    def test_count(self) -> None:
        self.assertEqual(self.verdict(bytes.fromhex("01CA9A3B")), (47, "its count says 1000000001 slots", 0))

    def test_longer_than_the_probe_reads(self) -> None:
        slots = 600_000
        trace = slots.to_bytes(4, "little") + slots * b"\2\0"
        self.assertEqual(self.verdict(trace, NO_ROWS)[::2], (0, slots))
        self.assertEqual(self.verdict(trace[:-1], NO_ROWS), (40, "the trace is cut short: the record of slot 599999 is not wholly there", slots - 1))
        damaged = trace[:-2] + b"\3\0"
        self.assertEqual(self.verdict(damaged, NO_ROWS), (41, "the record of slot 599999 says that 3 cores were free, and the table has 2", slots - 1))
        self.assertEqual(self.verdict(trace)[::2], (45, 2))

    def test_a_part_that_is_read_again(self) -> None:
        part = traces.Stretch(io.BytesIO(TRACE), 2, 8)
        self.assertEqual(part.whole(), bytes.fromhex("02000000 02020001 02020002"))


class Shown(OverTrace):
    def lines(self, trace: bytes, first: int = 0, end: int | None = None) -> list[str]:
        return list(trace_lines.shown(io.BytesIO(trace), self.taken(TABLE), first, end))

    def test_example(self) -> None:
        self.assertEqual(self.lines(TRACE)[1:], ["0 2 10#1 11#1", "1 2 10#2 20#1", "2 2 11#2 20#2"])
        self.assertEqual(self.lines(TRACE, 1, 2)[1:], ["1 2 10#2 20#1"])
        self.assertEqual(self.lines(TRACE, 7)[1:], [])

    def test_what_is_wrong_is_shown_as_it_is(self) -> None:
        self.assertEqual(self.lines(bytes.fromhex("02000000 FF03 00 07 01 0000"))[1:], ["0 255 10#1 row-7? 11#1", "1 0"])
        lines = trace_lines.shown(io.BytesIO(TRACE[:-1]), self.taken(TABLE), 0, None)
        self.assertEqual([next(lines) for _ in range(3)][1:], ["0 2 10#1 11#1", "1 2 10#2 20#1"])
        with self.assertRaisesRegex(NoAnswer, "slot 2 is not wholly there"):
            next(lines)


class Courses(OverTrace):
    def test_the_archive_runs_slots_as_the_probe_does(self) -> None:
        # Tables of any kind, in either format, and any number of free cores, slot by slot: record, cores, number and row.
        draw = random.Random(24)
        for format in 5 * (1, 2):
            cores = draw.randint(1, 4)
            rows = [(10 * tank, draw.randint(1, 5), draw.choice([6, 12]), draw.randint(0, 4), draw.randint(0, 1)) for tank in range(draw.randint(1, 5))]
            table = struct.pack("<BIB", format, 12, cores) + bytes(range(cores)) + bytes([len(rows)]) + b"".join(struct.pack("<HHHHB", *row) for row in rows)
            taken = self.probe.read_table(table)
            if taken.number != 0:
                continue
            listed = bytes(draw.choice([cores, cores, draw.randint(0, cores)]) for _ in range(15)) + bytes([cores + 1])
            state = taken.fresh()
            for slot, ran in enumerate(self.archive.run(table, listed)):
                asked = self.probe.run_slot(state, first_cores(listed[slot]))
                self.assertEqual((ran.number, ran.row, ran.pairs), (asked.number, asked.row, asked.placement.pairs))
                if ran.number <= LATE:
                    self.assertEqual(ran.record, asked.record)
                state = asked.state

    def test_both_formats(self) -> None:
        # The slots are those of the traces, and the traces are ours: their cores are known. Of the other format's trace they are not, from slot 2 on.
        for format, trace in HALVES_TRACES.items():
            table = bytes([format]) + HALVES
            ran = course.ours(table, self.taken(table), 8 * b"\2", self.archive)
            self.assertEqual(b"".join(ran.records), trace[4:])
            self.assertEqual(self.course(trace, table).cores, ran.cores)
            other = self.course(HALVES_TRACES[3 - format], table)
            self.assertEqual((other.cores, other.fine), (None, True))
            self.assertEqual(other.notes, ("Cores and moves are unknown: the record of slot 2 is not the one that this dispatcher writes.",))

    def test_ours(self) -> None:
        ran = course.ours(TABLE, self.taken(TABLE), b"\2\2\2", self.archive)
        self.assertEqual(b"".join(ran.records), TRACE[4:])
        self.assertEqual(ran.cores, ({0: 0, 1: 1}, {0: 0, 2: 1}, {1: 0, 2: 1}))
        self.assertEqual((ran.late, ran.refused, ran.notes, ran.fine), (None, None, (), True))

    def test_ours_late_and_refused(self) -> None:
        ran = course.ours(TABLE, self.taken(TABLE), b"\0\0\2", self.archive)
        self.assertEqual((ran.records, ran.late, ran.fine), ((b"\0\0", b"\0\0"), Late(0, 2), False))
        self.assertEqual(ran.notes, ("Tank 10 is late at time 2: there the dispatcher stops.",))
        ran = course.ours(TABLE, self.taken(TABLE), b"\2\3\2", self.archive)
        self.assertEqual((len(ran.records), ran.late, ran.refused, ran.number, ran.fine), (1, None, 1, 35, False))

    def test_a_trace_of_ours(self) -> None:
        ran = self.course(TRACE)
        self.assertEqual(ran.cores, ({0: 0, 1: 1}, {0: 0, 2: 1}, {1: 0, 2: 1}))
        self.assertTrue(ran.fine)

    def test_a_trace_that_is_not_ours(self) -> None:
        # Row 2 in the place of row 1 in slot 0: it passes, but by the row number rows 0 and 1 go first.
        ran = self.course(bytes.fromhex("03000000 02020002 02020001 02020102"))
        self.assertIsNone(ran.cores)
        self.assertEqual(ran.notes, ("Cores and moves are unknown: the record of slot 0 is not the one that this dispatcher writes.",))
        self.assertTrue(ran.fine)

    def test_traces_with_a_fault(self) -> None:
        ran = self.course(TRACE[:-1])
        self.assertEqual((len(ran.records), ran.cores, ran.refused, ran.number, ran.fine), (2, None, 2, 40, False))
        ran = self.course(bytes.fromhex("03000000 02020002 02020001 02020001"))
        self.assertEqual((len(ran.records), ran.refused, ran.number), (3, None, 44))
        ran = self.course(TRACE + b"\0")  # there is no slot behind the last
        self.assertEqual((len(ran.records), ran.refused, ran.number, ran.fine), (3, None, 46, False))
        ran = self.course(b"\1")
        self.assertEqual((ran.records, ran.refused, ran.number), ((), None, 40))
        ran = self.course(bytes.fromhex("02000000 0000 0000"))
        self.assertEqual((len(ran.records), ran.late, ran.cores), (2, Late(0, 2), ({}, {})))


class Numbers(OverTrace):
    def test_example(self) -> None:
        # Tank 10 runs in 0 and 1, each when it is ready. Tank 11 runs in 0 and 2: its second quantum is ready in slot 1 and waits one. Tank 20 is ready in
        # slot 0 and waits one; its second window begins at 1, so it is ready in slot 2. Each has one job, released at 0.
        found = stats.counted(self.taken(TABLE), self.course(TRACE), self.probe)
        self.assertEqual([(tank.row.tank, tank.slots, tank.waited, tank.longest, tank.starts, tank.moves) for tank in found],
                         [(10, [0, 1], 0, 0, 1, 0), (11, [0, 2], 1, 1, 2, 0), (20, [1, 2], 1, 1, 1, 0)])  # fmt: skip
        self.assertEqual([tank.jobs for tank in found], [[(1, 0, 2)], [(1, 0, 3)], [(1, 0, 3)]])
        self.assertEqual([job.response for tank in found for job in tank.jobs], [2, 3, 3])
        lines = list(stats.lines(found, self.course(TRACE)))
        self.assertEqual(lines[0], "3 slots; 6 of 6 free core slots used; 4 starts")
        self.assertEqual(lines[2].split(), ["10", "2/3", "2", "0", "0", "1", "1", "2", "2.0", "2", "0"])
        self.assertEqual(list(stats.job_lines(found))[1], "tank 11 job 1: released 0, done 3, response 3")

    def test_starts_of_both_formats(self) -> None:
        # In format 1 each tank runs in every second slot: four starts each. In format 2 tanks 10 and 11 run in slots 0, 3, 4 and 7, and start in 0, 3 and 7;
        # tanks 12 and 13 run in 1, 2, 5 and 6, and start in 1 and 5. Nobody moves. Who runs in the second slot of a window has waited in the first.
        for format, slots, starts, waited in [
            (1, [[0, 2, 4, 6], [0, 2, 4, 6], [1, 3, 5, 7], [1, 3, 5, 7]], [4, 4, 4, 4], [0, 0, 4, 4]),
            (2, [[0, 3, 4, 7], [0, 3, 4, 7], [1, 2, 5, 6], [1, 2, 5, 6]], [3, 3, 2, 2], [2, 2, 2, 2]),
        ]:
            table = bytes([format]) + HALVES
            ran = self.course(HALVES_TRACES[format], table)
            found = stats.counted(self.taken(table), ran, self.probe)
            self.assertEqual([tank.slots for tank in found], slots)
            self.assertEqual(([tank.starts for tank in found], [tank.waited for tank in found], [tank.moves for tank in found]), (starts, waited, 4 * [0]))
            self.assertEqual(next(stats.lines(found, ran)), f"8 slots; 16 of 16 free core slots used; {16 if format == 1 else 10} starts")

    def test_early_release(self) -> None:
        # 01's bench: slots 0, 1, 6 of the first seven. In slots 2 to 5 it is not ready, so it does not wait.
        trace = bytes.fromhex("07000000 010100 010100 0100 0100 0100 0100 010100")
        [tank] = stats.counted(self.taken(EARLY), self.course(trace, EARLY), self.probe)
        self.assertEqual((tank.slots, tank.waited, tank.starts, tank.jobs), ([0, 1, 6], 0, 2, [(1, 0, 2)]))

    def test_a_wait_at_the_end_counts(self) -> None:
        # No core is free in slot 0: all three are ready and wait, and the trace ends there, which is not late yet.
        found = stats.counted(self.taken(TABLE), self.course(bytes.fromhex("01000000 0000")), self.probe)
        self.assertEqual([(tank.waited, tank.longest) for tank in found], [(1, 1), (1, 1), (1, 1)])

    def test_moves(self) -> None:
        # examples/moves.hex, whose moves test_cores.py has slot by slot: tank 12 moves in slots 1 and 4, tank 13 in 1 and 2.
        source = tables.source(str(ROOT / "examples" / "moves.hex"), self.probe)
        assert source.asked is not None
        taken = self.taken(source.table)
        ran = course.ours(source.table, taken, source.asked.listed, self.archive)
        found = stats.counted(taken, ran, self.probe)
        self.assertEqual([(tank.row.tank, tank.moves) for tank in found], [(10, 0), (11, 0), (12, 2), (13, 2)])
        lines = schedule.drawn("t", taken, ran, 0, 8, self.probe).lines
        self.assertEqual([[quantum.slot for quantum in line.quanta if quantum.moved] for line in lines], [[], [], [1, 4], [1, 2]])

    def test_unknown_cores(self) -> None:
        trace = bytes.fromhex("03000000 02020002 02020001 02020102")
        ran = self.course(trace)
        lines = list(stats.lines(stats.counted(self.taken(TABLE), ran, self.probe), ran))
        self.assertEqual(lines[2].split()[-1], "unknown")


class Pictures(OverTrace):
    def test_example(self) -> None:
        picture = schedule.drawn("t", self.taken(TABLE), self.course(TRACE), 0, 3, self.probe)
        self.assertEqual((picture.first, picture.end, picture.free, picture.cores_known), (0, 3, (2, 2, 2), True))
        first = picture.lines[0]
        self.assertEqual(first.windows, (Window(1, 0, 2, 1, 3), Window(2, 1, 3, 0, 3)))
        self.assertEqual([(quantum.window.subtask, quantum.slot, quantum.core) for quantum in first.quanta], [(1, 0, 0), (2, 1, 0)])
        self.assertEqual([line.waits.keys() for line in picture.lines], [{}.keys(), {1: ""}.keys(), {0: ""}.keys()])
        self.assertIn("no core", str(schedule.drawn("t", self.taken(TABLE), self.course(bytes.fromhex("01000000 0000")), 0, 1, self.probe).lines[0].waits[0]))

    def test_waits_of_both_formats(self) -> None:
        # Of the slots from 2 on: who waits in slots 2 and 4, whom they wait for, and by which rule. The state before slot 2 remembers slot 1.
        place, ran = "its earlier place in the table", "having run in the slot before"
        for format, expected in [
            (1, [{}, {}, {2: (11, place), 4: (11, place)}, {2: (11, place), 4: (11, place)}]),
            (2, [{2: (13, ran)}, {2: (13, ran)}, {4: (11, ran)}, {4: (11, ran)}]),
        ]:
            table = bytes([format]) + HALVES
            for shown in [self.course(HALVES_TRACES[format], table), course.ours(table, self.taken(table), 8 * b"\2", self.archive)]:
                lines = schedule.drawn("t", self.taken(table), shown, 2, 6, self.probe).lines
                self.assertEqual([line.waits.keys() for line in lines], [waits.keys() for waits in expected])
                for line, waits in zip(lines, expected):
                    for slot, (tank, rule) in waits.items():
                        self.assertIn(f"the last in line to be picked was tank {tank}, which goes ahead by {rule} (", line.waits[slot])

    def test_waits_over_the_trace_of_the_other_format(self) -> None:
        # Tanks 10 and 11 ran in slots 0 and 2, and by format 2 tanks 12 and 13 would have run in slot 2: they ran in slot 1.
        table = b"\2" + HALVES
        lines = schedule.drawn("t", self.taken(table), self.course(HALVES_TRACES[1], table), 2, 3, self.probe).lines
        said = {2: "was ready in slot 2, and by the dispatcher's rules it would have run"}
        self.assertEqual([line.waits for line in lines], [{}, {}, said, said])

    def test_some_slots(self) -> None:
        picture = schedule.drawn("t", self.taken(TABLE), self.course(TRACE), 2, 3, self.probe)
        self.assertEqual([[quantum.window.subtask for quantum in line.quanta] for line in picture.lines], [[], [2], [2]])
        self.assertEqual([window.subtask for window in picture.lines[0].windows], [2])

    def test_early_release(self) -> None:
        ran = course.ours(EARLY, self.taken(EARLY), bytes(7 * [1]), self.archive)
        [line] = schedule.drawn("t", self.taken(EARLY), ran, 0, 7, self.probe).lines
        # Windows of 2/6: 0 to 3, 3 to 6, 6 to 9.
        self.assertEqual([(quantum.slot, quantum.window.start, quantum.early) for quantum in line.quanta], [(0, 0, False), (1, 3, True), (6, 6, False)])
        self.assertEqual(line.waits, {})

    def test_windows_of_a_late_and_of_a_far_slot(self) -> None:
        taken = self.taken(TABLE)
        picture = schedule.drawn("t", taken, course.ours(TABLE, taken, b"\0\0\2", self.archive), 0, 3, self.probe)
        self.assertEqual((picture.late, picture.free), (Late(0, 2), (0, 0)))
        ran = course.ours(TABLE, taken, 30_000 * b"\2", self.archive)
        picture = schedule.drawn("t", taken, ran, 29_997, 30_000, self.probe)
        self.assertEqual([len(line.quanta) for line in picture.lines], [2, 2, 2])
        self.assertEqual([(window.start, window.deadline) for window in picture.lines[0].windows], [(29_997, 29_999), (29_998, 30_000)])


if __name__ == "__main__":
    unittest.main()
