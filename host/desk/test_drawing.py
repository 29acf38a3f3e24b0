"""The tests of the drawings: python3 -B host/desk/test_drawing.py. The pictures are made by hand here, and what is expected was worked out from 01's
windows and the forms that draw_text.py, draw_svg.py and draw_html.py describe.

    python3 -B host/desk/test_drawing.py --pages FOLDER

writes pages of such pictures to FOLDER, for host/browse.
"""
from __future__ import annotations

import base64
import dataclasses
import hashlib
import re
import sys
import unittest
import xml.etree.ElementTree as ElementTree
from collections import Counter
from pathlib import Path
from typing import Iterator, Mapping, Sequence

import draw_html
import draw_svg
import draw_text
from picture import Late, Line, Picture, Quantum, Window

SVG = "{http://www.w3.org/2000/svg}"
NASTY = "a <b> & \"c\" 'd' ]]> é"

# Windows by hand: subtask, r, d, b, D.
TWO_THIRDS = [(1, 0, 2, 1, 3), (2, 1, 3, 0, 3), (3, 3, 5, 1, 6), (4, 4, 6, 0, 6)]
THREE_QUARTERS = [(1, 0, 2, 1, 4), (2, 1, 3, 1, 4), (3, 2, 4, 0, 4), (4, 4, 6, 1, 8)]
EIGHT_ELEVENTHS = [  # walk-8-11.md has them up to 8
    (1, 0, 2, 1, 4), (2, 1, 3, 1, 4), (3, 2, 5, 1, 8), (4, 4, 6, 1, 8), (5, 5, 7, 1, 8), (6, 6, 9, 1, 11), (7, 8, 10, 1, 11), (8, 9, 11, 0, 11),
    (9, 11, 13, 1, 15),
]
TWO_SIXTHS = [(1, 0, 3, 0, 0), (2, 3, 6, 0, 0), (3, 6, 9, 0, 0)]


def row(
    tank: int, weight: str, windows: Sequence[tuple[int, ...]], ran: Mapping[int, int], cores: Sequence[int] = (), moved: Sequence[int] = (),
    phase: int = 0, early: bool = False, waits: Mapping[int, str] = {},
) -> Line:
    """A line: `ran` has the slot of each subtask that ran, `cores` their cores in that order, `moved` the subtasks that moved."""
    cost, period = map(int, weight.split("/"))
    by_subtask = {numbers[0]: Window(*numbers) for numbers in windows}
    quanta = (Quantum(by_subtask[i], slot, cores[at] if cores else None, i in moved) for at, (i, slot) in enumerate(ran.items()))
    return Line(tank, cost, period, phase, early, tuple(by_subtask.values()), tuple(quanta), waits)


def picture(
    lines: Sequence[Line], free: Sequence[int], first: int = 0, end: int | None = None, cores: int = 2, title: str = "a title", known: bool = False,
    late: Late | None = None, refused: tuple[int, str] | None = None, notes: Sequence[str] = (),
) -> Picture:
    """A picture that ends where its slots have run, if nothing else is said. Windows that it does not show are left out, but for those of quanta."""
    end = first + len(free) if end is None else end
    cut = []
    for line in lines:
        shown = tuple(w for w in line.windows if (w.start < end and w.deadline > first) or any(q.window == w for q in line.quanta))
        cut.append(dataclasses.replace(line, windows=shown))
    return Picture(title, cores, first, end, tuple(free), tuple(cut), known, late, refused, tuple(notes))


def example() -> Picture:
    """01's example."""
    ran = {10: {1: 0, 2: 1}, 11: {1: 0, 2: 2}, 20: {1: 1, 2: 2}}
    return picture([row(tank, "2/3", TWO_THIRDS[:2], slots) for tank, slots in ran.items()], (2, 2, 2))


def eight_elevenths() -> Picture:
    return picture([row(1, "8/11", EIGHT_ELEVENTHS, {1: 0, 2: 1, 3: 2, 4: 4, 5: 5, 6: 6, 7: 8, 8: 9, 9: 11})], 12 * [1], cores=1)


def early() -> Picture:
    """01's bench: 'One core, early release 2/6: slots 0, 1, 6 of the first seven.'"""
    return picture([row(7, "2/6", TWO_SIXTHS, {1: 0, 2: 1, 3: 6}, early=True)], 7 * [1], cores=1)


def late() -> Picture:
    """01's bench: three rows on three cores, k = 0 twice."""
    none = {0: "was ready in slot 0, but no core was free", 1: "was ready in slot 1, but no core was free"}
    lines = [row(10, "2/3", TWO_THIRDS, {}, waits=none), row(11, "2/3", TWO_THIRDS, {}, waits=none), row(12, "3/4", THREE_QUARTERS, {}, waits=none)]
    return picture(lines, (0, 0), end=4, cores=3, known=True, late=Late(0, 2), notes=["Tank 10 is late at time 2: there the dispatcher stops."])


def moves() -> Picture:
    """examples/moves.hex, whose cores test_cores.py works out."""
    def even(count: int) -> list[tuple[int, ...]]:
        """The windows of count/12, which divide the 12 slots evenly; a half is heavy, and D is d."""
        long = 12 // count
        return [(i, (i - 1) * long, i * long, 0, i * long if long == 2 else 0) for i in range(1, count + 1)]

    def passed_over(*slots: int) -> dict[int, str]:
        return {slot: f"was ready in slot {slot}, but passed over" for slot in slots}

    no_core = {5: "was ready in slot 5, but no core was free"}
    lines = [
        row(10, "2/12", even(2), {1: 0, 2: 3}, [0, 1], early=True, waits=passed_over(1, 2)),
        row(11, "3/12", even(3), {1: 0, 2: 3, 3: 4}, [1, 2, 2], early=True, waits=passed_over(1, 2)),
        row(12, "4/12", even(4), {1: 0, 2: 1, 3: 3, 4: 4}, [2, 0, 3, 1], moved=[2, 4], early=True, waits=passed_over(2)),
        row(13, "6/12", even(6), {1: 0, 2: 1, 3: 2, 4: 3, 5: 4, 6: 6}, [3, 1, 0, 0, 0, 0], moved=[2, 3], early=True, waits=no_core),
    ]
    return picture(lines, (4, 2, 1, 4, 3, 0, 4, 4), cores=4, known=True)


def odd() -> Picture:
    """What a trace of another dispatcher may say: a quantum before the window of a plain row, one past its window; a refused slot; and odd words."""
    lines = [row(3, "2/3", TWO_THIRDS, {1: 2, 2: 1, 3: 3}, phase=0, waits={0: NASTY}), row(4, "2/3", TWO_THIRDS, {1: 0, 2: 2, 3: 1}, phase=0)]
    return picture(lines, (2, 2, 2, 2), end=6, title=NASTY, refused=(4, NASTY), notes=[NASTY, "a\nb\x1b[31m\udc80"])


def many(rows: int, slots: int, first: int = 0, free: int = 8) -> Picture:
    """Rows of 1/4, of which each runs in the slot of its turn. Every third row is of early release, and each of its quanta runs two slots early."""
    lines = []
    for at in range(rows):
        too_early = at % 3 == 0
        windows = [(i, (i - 1) * 4, i * 4, 0, 0) for i in range(first // 4 + 1, (first + slots) // 4 + 2)]
        turns = {i: r - 2 if too_early else r + at % 4 for i, r, *_ in windows if i > 1}
        ran = {i: slot for i, slot in turns.items() if first <= slot < first + slots}
        lines.append(row(100 + at, "1/4", windows, ran, [at % 8] * len(ran), early=too_early))
    return picture(lines, slots * [free], first=first, cores=8, known=True)


def big() -> Picture:
    """The widest labels, and the highest slots that a trace can have."""
    edge = 999_999_995
    windows = [(999_999_990 + i, edge + i, edge + i + 2, 1, edge + 60_000) for i in range(8)]
    line = row(65535, "65534/65535", windows, {999_999_990 + i: edge + i for i in range(5)}, phase=65535, early=True)
    refused = (1_000_000_000, "35, a set naming a core not below M, or a printer's k above M")
    return picture([line, row(0, "1/2", [], {})], 5 * [1], first=edge, end=edge + 8, cores=1, refused=refused)


ALL = {
    "example": example(), "eight-elevenths": eight_elevenths(), "early": early(), "late": late(), "moves": moves(), "odd": odd(),
    "many": many(32, 48), "folded": many(5, 150), "big": big(),
    "no-rows": picture([], (1, 1), cores=1), "no-slots": picture([row(5, "2/3", [], {})], ()), "nothing": picture([], ()),
}


def all_quanta(drawn: Picture) -> Counter[tuple[int, int, int]]:
    """How often each quantum (tank, subtask, slot) is in a picture: once."""
    return Counter((line.tank, quantum.window.subtask, quantum.slot) for line in drawn.lines for quantum in line.quanta)


class Text(unittest.TestCase):
    maxDiff = None

    def expect(self, drawn: Picture, expected: str, columns: int = 100, cores: bool = False) -> None:
        self.assertEqual("\n".join(draw_text.text(drawn, columns, cores)) + "\n", expected)

    def test_example(self) -> None:
        self.expect(example(), """\
slot            0   1   2
free            2   2   2
tank 10    2/3  ├██────┤
                    ├██────┤
tank 11    2/3  ├██────┤
                    ├────██┤
tank 20    2/3  ├────██┤
                    ├────██┤
""")

    def test_window_that_goes_on_is_open(self) -> None:
        self.expect(eight_elevenths(), """\
slot            0   1   2   3   4   5   6   7   8   9   10  11
free            1   1   1   1   1   1   1   1   1   1   1   1
tank 1     8/11 ├██────┤├██────────┤├██────┤    ├██────┤    ├██─
                    ├██────┤    ├██────┤├██────────┤├██────┤
""")

    def test_bands(self) -> None:
        """Five slots in 36 columns, and also in 39, since a slot is not cut."""
        for columns in (36, 39):
            self.expect(eight_elevenths(), """\
slot            0   1   2   3   4
free            1   1   1   1   1
tank 1     8/11 ├██────┤├██────────┤
                    ├██────┤    ├██─

slot            5   6   7   8   9
free            1   1   1   1   1
tank 1     8/11 ├██────┤    ├██────┤
                ───┤├██────────┤├██─

slot            10  11
free            1   1
tank 1     8/11     ├██─
                ───┤
""", columns)

    def test_part_of_the_slots(self) -> None:
        """A picture that does not begin at slot 0: windows are open at its first slot too."""
        windows = EIGHT_ELEVENTHS
        self.expect(picture([row(1, "8/11", windows, {4: 4, 5: 5})], (1, 1, 1), first=3, cores=1), """\
slot            3   4   5
free            1   1   1
tank 1     8/11 ───────┤├██─
                    ├██────┤
""")

    def test_early(self) -> None:
        self.expect(early(), """\
slot                0   1   2   3   4   5   6
free                1   1   1   1   1   1   1
tank 7     2/6      ├██────────┤            ├██─
  early release                 ├──────────┤
  before its window      ▒▒
""")

    def test_early_line_only_where_it_has_something(self) -> None:
        self.expect(early(), """\
slot                0   1   2   3
free                1   1   1   1
tank 7     2/6      ├██────────┤
  early release                 ├───
  before its window      ▒▒

slot                4   5   6
free                1   1   1
tank 7     2/6              ├██─
  early release     ───────┤
""", 36)

    def test_late(self) -> None:
        self.expect(late(), """\
slot            0   1   2   3
free            0   0
tank 10    2/3  ├──────!    ├───
                    ├──────┤
  late at 2            ^
tank 11    2/3  ├──────┤    ├───
                    ├──────┤
tank 12    3/4  ├──────┤├──────┤
                    ├──────┤

Tank 10 is late at time 2: there the dispatcher stops.
""")

    def test_late_at_the_first_slot_or_before(self) -> None:
        """The window that ended is not shown, and only the note speaks of it."""
        drawn = dataclasses.replace(late(), first=2, free=())
        self.assertNotIn("!", "".join(draw_text.text(drawn, 100)))
        self.assertNotIn("  late", "\n".join(draw_text.text(drawn, 100)))

    def test_cores_and_moves(self) -> None:
        self.expect(moves(), """\
slot                0   1   2   3   4   5   6   7
free                4   2   1   4   3   0   4   4
tank 10    2/12     ├█0────────────────────┤
  early release                             ├───────
  before its window              ▒1
tank 11    3/12     ├█1────────────┤
  early release                     ├──────────────┤
  before its window              ▒2  ▒2
tank 12    4/12     ├█2────────┤            ├───────
  early release                 ├──────────┤
  before its window      →0      ▒3  →1
tank 13    6/12     ├█3────┤        ├──────┤
  early release             ├──────┤        ├──────┤
  before its window      →1  →0  ▒0  ▒0      ▒0
""", cores=True)

    def test_cores_that_are_not_known(self) -> None:
        self.assertEqual(list(draw_text.text(example(), 100, True)), list(draw_text.text(example(), 100)))
        drawn = dataclasses.replace(moves(), cores_known=False)
        self.assertEqual(list(draw_text.text(drawn, 100, True)), list(draw_text.text(moves(), 100)))

    def test_refused_and_outside_windows(self) -> None:
        self.expect(odd(), """\
slot                0   1   2   3   4   5
free                2   2   2   2   --
tank 3     2/3      ├──────┤    ├██────┤
                        ├██────┤    ├──────┤
  past its window            ▓▓
tank 4     2/3      ├██────┤    ├──────┤
                        ├────██┤    ├──────┤
  before its window      ▒▒

a <b> & "c" 'd' ]]> é
a b\ufffd[31m\ufffd
""")

    def test_big_numbers(self) -> None:
        """Nine digits and more do not fit into eight columns: each fourth slot has its number. The longest label has 28 letters. The first
        subtask has an even number, and so the second line.
        """
        self.expect(big(), """\
slot                         999999995       999999999
free                         1   1   1   1   1   --
tank 65535 65534/65535           ├██────┤├██────┤├──────┤├───
  early release, phase 65535 ├██────┤├██────┤├██────┤├──────┤
tank 0     1/2

""")

    def test_numbers_of_four_digits(self) -> None:
        drawn = picture([], 5 * [1], first=998, cores=1)
        self.expect(drawn, """\
slot            998     1000    1002
free            1   1   1   1   1
""")
        self.expect(drawn, """\
slot            998 999
free            1   1

slot            1000
free            1   1

slot            1002
free            1
""", 24)

    def test_phase(self) -> None:
        windows = [(1, 4, 6, 1, 7), (2, 5, 7, 0, 7)]
        self.expect(picture([row(8, "2/3", windows, {}, phase=4)], (), first=3, end=6), """\
slot            3   4   5
free
tank 8     2/3      ├──────┤
  phase 4               ├───
""")

    def test_nothing(self) -> None:
        self.expect(ALL["nothing"], "slot\nfree\n")
        self.expect(ALL["no-slots"], "slot\nfree\ntank 5     2/3\n\n")
        self.expect(ALL["no-rows"], "slot            0   1\nfree            1   1\n")

    def test_columns(self) -> None:
        """No line is longer than asked, if a slot and its number fit; none ends in a blank or has a newline."""
        for name, drawn in ALL.items():
            without_notes = dataclasses.replace(drawn, notes=())
            for columns in (*range(39, 140), 1000):
                for line in draw_text.text(without_notes, columns, cores=True):
                    self.assertLessEqual(len(line), columns, (name, line))
                    self.assertEqual(line, line.rstrip(), name)
                    self.assertNotIn("\n", line, name)

    def test_too_few_columns(self) -> None:
        for columns in (-5, 0, 1, 19):
            self.assertEqual(len(list(draw_text.text(example(), columns))), 3 * 8 + 2, "three bands of one slot")

    def test_numbers_never_touch(self) -> None:
        for first in (0, 97, 995, 9_998, 99_990, 9_999_990, 999_999_970):
            for line in draw_text.text(picture([], 30 * [1], first=first, cores=1), 90):
                if line.startswith("slot"):
                    for number in line.split()[1:]:
                        self.assertIn(int(number), range(first, first + 30))

    def test_every_quantum_once(self) -> None:
        """Each is found again, by its tank and the slot above it."""
        for name, drawn in ALL.items():
            expected = Counter((tank, slot) for tank, _, slot in all_quanta(drawn).elements())
            for columns in (41, 80, 100, 500):
                for cores in (False, True):
                    self.assertEqual(Counter(quanta_in(list(draw_text.text(drawn, columns, cores)), drawn)), expected, (name, columns))
        why = "each in all windows but the first; the early ones also in that past the end"
        self.assertEqual(sum(all_quanta(ALL["many"]).values()), 21 * 11 + 11 * 12, why)


def quanta_in(lines: Sequence[str], drawn: Picture) -> Iterator[tuple[int, int]]:
    """The quanta that a text shows, as tank and slot."""
    first, tank = drawn.first, -1
    width = next((line.index(str(first)) for line in lines if line.startswith("slot ")), 0)
    for line in lines:
        if line.startswith("slot "):
            first = int(line.split()[1])
        elif line.startswith("tank "):
            tank = int(line.split()[1])
        for found in re.finditer("[█▒▓→][█▒▓0-7]", line):
            yield tank, first + (found.start() - width) // 4


def classes(element: ElementTree.Element) -> list[str]:
    return element.get("class", "").split()


def of_class(root: ElementTree.Element, name: str) -> list[ElementTree.Element]:
    return [element for element in root.iter() if name in classes(element)]


def said(element: ElementTree.Element) -> str:
    """The title of a thing, which is its first part."""
    title = element[0]
    assert title.tag == SVG + "title"
    return title.text or ""


def percent(text: str | None) -> float:
    assert text is not None and text.endswith("%")
    return float(text[:-1]) / 100


def only(found: Sequence[ElementTree.Element]) -> ElementTree.Element:
    assert len(found) == 1, f"{len(found)} of one"
    return found[0]


class Drawing(unittest.TestCase):
    """What the SVG document and the page have in common. A root is made of each."""

    def roots(self, drawn: Picture) -> Iterator[ElementTree.Element]:
        yield ElementTree.fromstring(draw_svg.svg(drawn).encode())
        yield ElementTree.fromstring(draw_html.html(drawn, "1.2.3").encode())

    def test_every_quantum_once(self) -> None:
        for name, drawn in ALL.items():
            for root in self.roots(drawn):
                found = Counter(tuple(int(q.get(f"data-{part}", "")) for part in ("tank", "subtask", "slot")) for q in of_class(root, "quantum"))
                self.assertEqual(found, all_quanta(drawn), name)

    def test_places(self) -> None:
        """A quantum lies in its slot, a window from its start to its deadline, both within a tenth of a slot; a window is cut at the plot's edges."""
        for name, drawn in ALL.items():
            starts = {(line.tank, w.subtask): (w.start, w.deadline) for line in drawn.lines for w in line.windows}
            for root in self.roots(drawn):
                first = drawn.first
                for plot in of_class(root, "plot"):
                    count = len(of_class(plot, "slot"))
                    for quantum in of_class(plot, "quantum"):
                        bar = quantum.find(SVG + "rect")
                        assert bar is not None
                        self.assertAlmostEqual(first + percent(bar.get("x")) * count, int(quantum.get("data-slot", "")), delta=0.1, msg=name)
                        self.assertAlmostEqual(percent(bar.get("width")) * count, 1, delta=0.2, msg=name)
                    for window in of_class(plot, "window"):
                        start, deadline = starts[int(window.get("data-tank", "")), int(window.get("data-subtask", ""))]
                        left = first + percent(window.get("x")) * count
                        right = left + percent(window.get("width")) * count
                        self.assertAlmostEqual(left, max(start, first - 1), delta=0.1, msg=name)
                        self.assertAlmostEqual(right, min(deadline, first + count + 1), delta=0.1, msg=name)
                    first += count
                self.assertEqual(first, drawn.end, name)

    def test_windows_once_in_each_band(self) -> None:
        """Each window that has a slot in a band, and no other."""
        for name, drawn in ALL.items():
            for root in self.roots(drawn):
                for plot in of_class(root, "plot"):
                    slots = [int(slot.get("data-slot", "")) for slot in of_class(plot, "slot")]
                    shown = Counter((int(w.get("data-tank", "")), int(w.get("data-subtask", ""))) for w in of_class(plot, "window"))
                    windows = ((line.tank, window) for line in drawn.lines for window in line.windows)
                    expected = Counter((tank, w.subtask) for tank, w in windows if slots and w.start <= slots[-1] and w.deadline > slots[0])
                    self.assertEqual(shown, expected, name)

    def test_two_heights(self) -> None:
        """Subtasks in turn; a quantum on the height of its window, or below both if it ran outside."""
        for root in self.roots(moves()):
            lane = next(lane for lane in of_class(root, "lane") if lane.get("data-tank") == "13")
            heights = {int(w.get("data-subtask", "")): float(w.get("y", "")) for w in of_class(lane, "window")}
            self.assertEqual(heights[1], heights[3])
            self.assertEqual(heights[2], heights[4])
            self.assertGreaterEqual(heights[2], heights[1] + 10)
            for quantum in of_class(lane, "quantum"):
                y = float(quantum[1].get("y", ""))
                if "early" in classes(quantum):
                    self.assertGreaterEqual(y, heights[2] + 10)
                else:
                    self.assertEqual(y, heights[int(quantum.get("data-subtask", ""))])

    def test_words(self) -> None:
        for root in self.roots(moves()):
            self.assertIn("tank 13, subtask 1: r 0, d 2, b 0, D 2", [said(w) for w in of_class(root, "window")])
            words = [said(q) for q in of_class(root, "quantum")]
            self.assertIn("tank 10, subtask 1: r 0, d 6, b 0, D 0; ran in slot 0 on core 0", words)
            self.assertIn("tank 12, subtask 2: r 3, d 6, b 0, D 0; ran in slot 1 on core 0 (moved), before its window", words)
            self.assertIn("tank 13, subtask 4: r 6, d 8, b 0, D 8; ran in slot 3 on core 0, before its window", words)
            waited = only([wait for wait in of_class(root, "wait") if wait.get("data-tank") == "13"])
            self.assertEqual(said(waited), "tank 13: was ready in slot 5, but no core was free")
            self.assertEqual([said(slot) for slot in of_class(root, "slot")][:2], ["slot 0: 4 of 4 cores free", "slot 1: 2 of 4 cores free"])
        for root in self.roots(example()):
            self.assertIn("tank 20, subtask 2: r 1, d 3, b 0, D 3; ran in slot 2", [said(q) for q in of_class(root, "quantum")])
            self.assertEqual([q.get("data-core") for q in of_class(root, "quantum")], 6 * [None])

    def test_kinds(self) -> None:
        """Early, past and moved quanta are told apart, each of the first two with a line to its window; a legend does not count."""
        for drawn, early_count, past_count, moved in ((moves(), 1 + 2 + 3 + 5, 0, 4), (odd(), 1, 1, 0), (example(), 0, 0, 0)):
            for root in self.roots(drawn):
                self.assertEqual(len(of_class(root, "early")), early_count)
                self.assertEqual(len(of_class(root, "past")), past_count)
                self.assertEqual(len(of_class(root, "moved")), moved)
                self.assertEqual(len(of_class(root, "link")), early_count + past_count)
                self.assertEqual(len([path for quantum in of_class(root, "moved") for path in of_class(quantum, "move")]), moved)

    def test_free(self) -> None:
        """The number in each slot that has run; the fewer the darker, in a slot with none the darkest."""
        for root in self.roots(moves()):
            slots = of_class(root, "slot")
            self.assertEqual([slot.get("data-free") for slot in slots], ["4", "2", "1", "4", "3", "0", "4", "4"])
            self.assertEqual([slot[2].text for slot in slots], ["4", "2", "1", "4", "3", "0", "4", "4"])
            self.assertEqual([classes(slot)[1] for slot in slots], ["k0", "k2", "k3", "k0", "k1", "k4", "k0", "k0"])
        for root in self.roots(late()):
            self.assertEqual([slot.get("data-free") for slot in of_class(root, "slot")], ["0", "0", None, None])
            self.assertEqual([said(slot) for slot in of_class(root, "idle")], ["slot 2 has not run", "slot 3 has not run"])

    def test_late(self) -> None:
        for root in self.roots(late()):
            mark = only([element for element in of_class(root, "late") if element.get("data-slot")])
            self.assertEqual((mark.get("data-tank"), mark.get("data-slot")), ("10", "1"))
            self.assertEqual(said(mark), "tank 10, subtask 1: r 0, d 2, b 1, D 3; late at time 2: it has not run")
            self.assertEqual(percent(mark[1].get("x1")), 0.5, "at time 2 of the four slots")
            self.assertEqual([label.get("data-tank") for label in of_class(root, "label") if "late" in classes(label)], ["10"])
            self.assertEqual(len(of_class(root, "wait")), 6)
        for root in self.roots(example()):
            self.assertEqual(of_class(root, "late"), [])

    def test_refused(self) -> None:
        for root in self.roots(odd()):
            slot = only(of_class(root, "refused"))
            self.assertEqual((slot.get("data-slot"), said(slot)), ("4", f"slot 4: refused: {NASTY}"))

    def test_words_from_outside(self) -> None:
        """They come out as they went in, but for what no document may hold; and no sign of them is taken for one of the document's own."""
        for root in self.roots(odd()):
            everything = "".join(root.itertext())
            self.assertGreaterEqual(everything.count(NASTY), 4, "the title, a note, a wait and the refused slot")
            self.assertIn("a b\ufffd[31m\ufffd", everything)
            self.assertEqual([element for element in root.iter() if element.tag.endswith("}b") or element.tag == "b"], [])

    def test_no_network(self) -> None:
        for drawn in (draw_svg.svg(odd()), draw_html.html(odd(), "1")):
            self.assertEqual(set(re.findall(r"[a-z]+://[^\"' ]*", drawn)), {"http://www.w3.org/2000/svg"})
            self.assertEqual(set(re.findall(r"url\(.", drawn)), {"url(#"})
            self.assertIsNone(re.search(r"\b(href|src|on[a-z]+|style)=", drawn))

    def test_numbers_do_not_touch(self) -> None:
        """A digit has six pixels and more; nor do they run over the band's end."""
        for name, drawn in ALL.items():
            laid = draw_svg.sheet(drawn)
            for slots in laid.bands:
                grid = ElementTree.fromstring(f'<svg xmlns="{SVG[1:-1]}">' + "".join(draw_svg.grid(laid, slots)) + "</svg>")
                shown = [(percent(text.get("x")) * laid.plot_width(slots), text.text or "") for text in grid.iter(SVG + "text")]
                ends = [x for x, _ in shown[1:]] + [max(laid.plot_width(slots), 70)]
                for (x, text), end in zip(shown, ends):
                    self.assertLess(x + 6 * len(text), end, (name, text))

    def test_bands(self) -> None:
        """As few as may be, in which slots are 14 to 28 pixels wide and the whole is at most 1,400."""
        for count, bands in ((1, 1), (48, 1), (80, 1), (150, 2), (2000, 23)):
            laid = draw_svg.sheet(picture([row(10, "2/3", [], {})], count * [2]))
            self.assertEqual(len(laid.bands), bands, count)
            self.assertEqual([slot for band in laid.bands for slot in band], list(range(count)))
            self.assertTrue(14 <= laid.slot_width <= 28, laid.slot_width)
            self.assertLessEqual(laid.label_width + laid.plot_width(laid.bands[0]) + 32, 1400)

    def test_many(self) -> None:
        """32 rows and 2,000 slots, at the highest slot numbers."""
        drawn = many(32, 2000, 999_998_000)
        self.assertEqual(draw_svg.svg(drawn).count('<g class="quantum'), sum(len(line.quanta) for line in drawn.lines))


class Document(unittest.TestCase):
    """What only the SVG document has."""

    def test_document(self) -> None:
        for drawn in ALL.values():
            document = draw_svg.svg(drawn)
            self.assertTrue(document.startswith('<?xml version="1.0" encoding="UTF-8"?>\n<svg xmlns="http://www.w3.org/2000/svg" width="'))
            root = ElementTree.fromstring(document.encode())
            self.assertEqual(root.tag, SVG + "svg")
            self.assertEqual(list(root.iter(SVG + "script")), [])
            self.assertLessEqual(int(root.get("width", "")), 1400)
            self.assertEqual(root.get("viewBox"), f"0 0 {root.get('width')} {root.get('height')}")

    def test_everything_is_inside(self) -> None:
        for name, drawn in ALL.items():
            root = ElementTree.fromstring(draw_svg.svg(drawn).encode())
            for part in root:
                if part.tag in (SVG + "svg", SVG + "text"):
                    self.assertLessEqual(float(part.get("y", "0")) + float(part.get("height", "0")), float(root.get("height", "")), name)
                    self.assertLessEqual(float(part.get("x", "0")) + float(part.get("width", "0")), float(root.get("width", "")), name)

    def test_long_notes_are_broken(self) -> None:
        long = "word " * 200
        root = ElementTree.fromstring(draw_svg.svg(picture([], (1,), cores=1, notes=[long])).encode())
        notes = [note.text or "" for note in of_class(root, "note")]
        self.assertEqual(" ".join(notes), long.strip())
        self.assertLess(max(map(len, notes)), 110)


class Page(unittest.TestCase):
    """What only the page has. How it behaves is looked at by host/browse."""

    def page(self, drawn: Picture) -> ElementTree.Element:
        return ElementTree.fromstring(draw_html.html(drawn, "1.2.3 <beta>").encode())

    def by_id(self, root: ElementTree.Element, name: str) -> ElementTree.Element:
        return only([element for element in root.iter() if element.get("id") == name])

    def test_policy(self) -> None:
        """Nothing may be fetched, and only the page's own script and style count, by their sums."""
        root = self.page(odd())
        policy = only([meta for meta in root.iter("meta") if meta.get("http-equiv") == "Content-Security-Policy"]).get("content", "")
        rules = dict(rule.strip().split(" ", 1) for rule in policy.split(";"))
        self.assertEqual(rules["default-src"], "'none'")
        self.assertEqual(set(rules), {"default-src", "script-src", "style-src", "base-uri", "form-action"})
        text = draw_html.html(odd(), "1")
        for name in ("script", "style"):
            content = re.findall(rf"<{name}>(.*?)</{name}>", text, re.DOTALL)
            self.assertEqual(len(content), 1)
            digest = base64.b64encode(hashlib.sha256(content[0].encode()).digest()).decode()
            self.assertEqual(rules[f"{name}-src"], f"'sha256-{digest}'")

    def test_counts(self) -> None:
        for name, drawn in ALL.items():
            root = self.page(drawn)
            main = self.by_id(root, "drawing")
            self.assertEqual(int(main.get("data-quanta", "")), len(of_class(root, "quantum")), name)
            self.assertEqual(int(main.get("data-waits", "")), len(of_class(root, "wait")), name)
            self.assertEqual(int(main.get("data-slots", "")), len(of_class(root, "slot")), name)
            self.assertEqual(int(main.get("data-rows", "")), len(drawn.lines), name)
            self.assertEqual(sum(int(band.get("data-slots", "")) for band in of_class(root, "band")), drawn.end - drawn.first, name)

    def test_parts(self) -> None:
        root = self.page(odd())
        self.assertEqual(self.by_id(root, "as-text")[1].text, "\n".join(draw_text.text(odd(), draw_html.TEXT_COLUMNS, cores=True)))
        self.assertEqual([note.text for note in self.by_id(root, "notes")], [NASTY, "a b\ufffd[31m\ufffd"])
        self.assertEqual(only(list(root.iter("h1"))).text, NASTY)
        self.assertEqual(root.findtext("body/header/p"), "Zbrojomir 1.2.3 <beta>")
        self.assertEqual(self.by_id(root, "tools").get("hidden"), "hidden", "without the script the buttons would do nothing")
        self.assertEqual(self.by_id(root, "tip").get("hidden"), "hidden")

    def test_styles(self) -> None:
        style = self.page(many(32, 48)).findtext("head/style") or ""
        for rule in ("@media (prefers-color-scheme: dark)", "@media print", "break-inside: avoid", "size: A4 portrait"):
            self.assertIn(rule, style)
        self.assertIn("size: A4 landscape", self.page(example()).findtext("head/style") or "")


def write_pages(folder: Path) -> None:
    for name, drawn in ALL.items():
        (folder / f"by-hand-{name}.html").write_text(draw_html.html(drawn, "by hand"), encoding="utf-8")
        (folder / f"by-hand-{name}.svg").write_text(draw_svg.svg(drawn), encoding="utf-8")


if __name__ == "__main__":
    if sys.argv[1:2] == ["--pages"]:
        write_pages(Path(sys.argv[2]))
    else:
        unittest.main()
