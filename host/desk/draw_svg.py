"""A picture as SVG: one document that stands alone, without script and network. The HTML page is made of the same parts.

Slots are folded into bands. In a band each row has a lane with two tracks, on which the windows of its subtasks stand in turn, and a third track
below if quanta of it ran outside their windows. Everything along the slots is placed in percent of the band's plot, an inner <svg>, so that a plot
can be made wider or narrower by its width alone, and no text is stretched. A window that goes on in another band runs over the plot's edge and is
cut there.

What can be looked for, each with a <title> that says all there is to say of it:

    .slot                  data-slot, data-free; also .refused, or .idle if it has not run
    .window                data-tank, data-subtask; once in each band that it touches
    .quantum               data-tank, data-subtask, data-slot, data-core if it is known; also .early, .past (of its window) and .moved
    .wait                  data-tank, data-slot
    .late                  data-tank, data-slot (the last slot before the deadline): the mark; a .label.late is the row's label
    .lane                  data-tank: the group of all that belongs to a row in a band
"""
from __future__ import annotations

import math
import textwrap
from dataclasses import dataclass
from typing import Iterable, Iterator, Mapping
from xml.sax.saxutils import escape

from draw_text import kind, past, plain
from picture import Line, Picture, Quantum, Window

NAMESPACE = "http://www.w3.org/2000/svg"

# All lengths are pixels.
WIDTH = 1400  # of a whole document, about
NARROWEST_PAGE = 640
NARROWEST_SLOT, WIDEST_SLOT = 14, 28
MARGIN = 16
TRACK, THIRD, GAP = 10, 10, 2  # the height of a track with windows, of the one for quanta outside them, and between two
HEAD, FREE = 16, 15  # the height of the line of slot numbers, and of that of free cores
DIGIT = 6.2  # the width of a digit in the line of slot numbers
LETTER = 6.4  # the width of a letter in a sentence, about
INSET = 0.04  # of a slot: how far a bar stays from the slot's edges, so that two beside each other are seen as two

ARROW = "M0 0L4.5 5L0 10Z"  # at the left edge of a quantum that moved
LEVELS = 5  # how dark a slot is by its free cores: from 0, all are free, up to the highest, none is

Palette = Mapping[str, str]

LIGHT: Palette = {
    "paper": "#ffffff", "text": "#17212b", "quiet": "#556575", "stripe": "#f3f6f9", "grid": "#dde4ea", "strong": "#b4c0cb",
    "bar": "#d6e6f5", "edge": "#35699f", "ran": "#1d5a97", "on": "#ffffff", "wait": "#e2bd84", "late": "#c01f1f", "moved": "#ffc23d",
    "k0": "#ffffff", "k1": "#dbe2e9", "k2": "#b3c0cc", "k3": "#65788a", "k4": "#28384a", "dim": "#17212b", "dark": "#ffffff",
}
DARK: Palette = {
    "paper": "#11171d", "text": "#e4ebf2", "quiet": "#9aabba", "stripe": "#171f27", "grid": "#25303a", "strong": "#42515f",
    "bar": "#1e3850", "edge": "#7eb0e0", "ran": "#8cc4fa", "on": "#0a1520", "wait": "#7d6238", "late": "#ff7b72", "moved": "#d98200",
    "k0": "#11171d", "k1": "#26323d", "k2": "#40505f", "k3": "#9fb0c0", "k4": "#dbe5ee", "dim": "#e4ebf2", "dark": "#0a1520",
}

SHAPES = """\
text { font: 12px system-ui, "DejaVu Sans", sans-serif; }
.title { font-size: 17px; font-weight: 600; }
.number, .slot text { font-size: 10px; }
.slot text, .core { text-anchor: middle; }
.label { font-weight: 600; }
.weight { font-weight: 400; }
.small { font-size: 9.5px; }
.core { font-size: 9px; font-weight: 700; }
.ahead { stroke-dasharray: 2 1; }
.link { stroke-width: 0.8; }
.move { stroke-width: 0.7; }
.late line { stroke-width: 3; }
.late text { font-size: 15px; font-weight: 900; text-anchor: end; paint-order: stroke; stroke-width: 3px; }
.early .core, .past .core { paint-order: stroke; stroke-width: 3.5px; }
.waiting { stroke-width: 1.2; }
"""

COLOURS = """\
text { fill: %(text)s; }
.paper { fill: %(paper)s; }
.small, .number { fill: %(quiet)s; }
.stripe { fill: %(stripe)s; }
.grid { stroke: %(grid)s; }
.grid.strong { stroke: %(strong)s; }
.free { stroke: %(strong)s; }
.k0 .free { fill: %(k0)s; } .k1 .free { fill: %(k1)s; } .k2 .free { fill: %(k2)s; } .k3 .free { fill: %(k3)s; } .k4 .free { fill: %(k4)s; }
.k0 text, .k1 text, .k2 text { fill: %(dim)s; } .k3 text, .k4 text { fill: %(dark)s; }
.idle .free { fill: none; stroke: %(grid)s; pointer-events: all; }
.no { fill: %(paper)s; stroke: %(late)s; } .cross { fill: %(late)s; font-weight: 700; }
.hatch { fill: url(#waits); }
.waiting { stroke: %(wait)s; }
.bar { fill: %(bar)s; fill-opacity: 0.7; stroke: %(edge)s; }
.ran { fill: %(ran)s; stroke: %(ran)s; } .core { fill: %(on)s; }
.ahead { fill: url(#early); } .behind { fill: url(#past); stroke: %(late)s; }
.early .core, .past .core { fill: %(text)s; stroke: %(paper)s; }
.ink { fill: %(ran)s; } .red { stroke: %(late)s; }
.move { fill: %(moved)s; stroke: %(text)s; }
.link { stroke: %(edge)s; }
.late line { stroke: %(late)s; } .late text { fill: %(late)s; stroke: %(paper)s; }
.label.late, .late-words { fill: %(late)s; }
"""

# Patterns, so that nothing hangs on colours alone.
PATTERNS = """\
<defs>
<pattern id="early" width="4" height="4" patternUnits="userSpaceOnUse" patternTransform="rotate(45)">
<rect class="paper" width="4" height="4"/><rect class="ink" width="1.3" height="4"/>
</pattern>
<pattern id="past" width="5" height="5" patternUnits="userSpaceOnUse">
<rect class="paper" width="5" height="5"/><path class="red" d="M0 0L5 5M5 0L0 5"/>
</pattern>
<pattern id="waits" width="6" height="6" patternUnits="userSpaceOnUse" patternTransform="rotate(-45)">
<line class="waiting" x1="0.7" x2="0.7" y2="6"/>
</pattern>
</defs>"""


@dataclass(frozen=True)
class Lane:
    """A row's place in each band; `late` is the time at which it was late."""

    line: Line
    top: float
    height: float
    late: int | None

    def track(self, window: Window) -> float:
        """The top of the track on which a window stands."""
        return self.top + GAP + (0 if window.subtask % 2 == 1 else TRACK + GAP)

    @property
    def third(self) -> float:
        return self.top + GAP + 2 * (TRACK + GAP)


@dataclass(frozen=True)
class Sheet:
    """How a picture is laid out."""

    picture: Picture
    lanes: tuple[Lane, ...]
    bands: tuple[range, ...]
    slot_width: float
    label_width: int

    @property
    def height(self) -> float:
        """Of a band."""
        return HEAD + FREE + GAP + sum(lane.height for lane in self.lanes) + GAP

    def plot_width(self, slots: range) -> float:
        return self.slot_width * max(1, len(slots))

    def every(self, slot_width: float) -> int:
        """Each so manieth slot has room for its number, where a slot is so wide."""
        step, needed = 1, DIGIT * len(str(max(0, self.picture.end - 1))) + 5
        while step * slot_width < needed:
            step *= 2
        return step


def sheet(picture: Picture, narrowest: float = NARROWEST_SLOT) -> Sheet:
    """The layout in which a slot has at least this width: as few bands as can be, and all but the last of the same length."""
    labels = max([36, *(label_width(line) for line in picture.lines), late_width(picture)])
    room = WIDTH - 2 * MARGIN - labels
    count = picture.end - picture.first
    bands = max(1, math.ceil(count * narrowest / room))
    length = max(1, math.ceil(count / bands))
    slots = range(picture.first, picture.end)
    folded = tuple(slots[at : at + length] for at in range(0, max(1, count), length))
    return Sheet(picture, tuple(lanes(picture)), folded, min(WIDEST_SLOT, math.floor(10 * room / length) / 10), labels)


def lanes(picture: Picture) -> Iterator[Lane]:
    top = HEAD + FREE + GAP
    for row, line in enumerate(picture.lines):
        outside = any(quantum.early or past(quantum) for quantum in line.quanta)
        height = GAP + 2 * (TRACK + GAP) + (THIRD + GAP if outside else 0)
        yield Lane(line, top, height, picture.late.time if picture.late and picture.late.row == row else None)
        top += height


def label_width(line: Line) -> int:
    return math.ceil(max(7.4 * len(f"tank {line.tank}  {line.cost}/{line.period}"), 5.4 * len(kind(line))) + 8)


def late_width(picture: Picture) -> int:
    return math.ceil(5.4 * len(late_words(picture.late.time)) + 8) if picture.late else 0


def late_words(time: int) -> str:
    return f"! late at time {time}"


def svg(picture: Picture) -> str:
    """The whole document."""
    laid = sheet(picture)
    width = max(NARROWEST_PAGE, 2 * MARGIN + laid.label_width + math.ceil(max(map(laid.plot_width, laid.bands))))
    parts: list[str] = []
    y = float(MARGIN)
    for words in wrapped(picture.title, (width - 2 * MARGIN) / LETTER * 0.7):
        parts.append(f'<text class="title" x="{MARGIN}" y="{number(y + 14)}">{escape(words)}</text>')
        y += 22
    samples, height = legend(laid, width - 2 * MARGIN)
    parts.append(f'<g class="legend" transform="translate({MARGIN} {number(y + 4)})">{samples}</g>')
    y += height + 16
    for slots in laid.bands:
        parts += [f'<svg x="{MARGIN}" y="{number(y)}" width="{laid.label_width}" height="{number(laid.height)}">', *labels(laid), "</svg>"]
        parts += [f'<svg class="plot" x="{MARGIN + laid.label_width}" y="{number(y)}" {size(laid, slots)}>', *plot(laid, slots), "</svg>"]
        y += laid.height + 18
    for note in picture.notes:
        for words in wrapped(note, (width - 2 * MARGIN) / LETTER):
            parts.append(f'<text class="note" x="{MARGIN}" y="{number(y + 10)}">{escape(words)}</text>')
            y += 17
        y += 3
    height = math.ceil(y + MARGIN - 4)
    head = f'<svg xmlns="{NAMESPACE}" width="{width}" height="{height}" viewBox="0 0 {width} {height}">'
    style = f"<style>\n{SHAPES}{COLOURS % LIGHT}</style>"
    paper = f'<rect class="paper" width="{width}" height="{height}"/>'
    return "\n".join(['<?xml version="1.0" encoding="UTF-8"?>', head, titled(picture.title), style, PATTERNS, paper, *parts, "</svg>", ""])


def size(laid: Sheet, slots: range) -> str:
    return f'width="{number(laid.plot_width(slots))}" height="{number(laid.height)}"'


def wrapped(words: str, letters: float) -> list[str]:
    return textwrap.wrap(plain(words), max(20, int(letters)))


def number(value: float) -> str:
    """A number as short as can be."""
    return f"{value:.4f}".rstrip("0").rstrip(".")


def place(slots: range, at: float) -> str:
    """Where a time is along the plot; one between two slots is a part of a slot."""
    return number(100 * (at - slots.start) / max(1, len(slots))) + "%"


def length(slots: range, count: float) -> str:
    return number(100 * count / max(1, len(slots))) + "%"


def labels(laid: Sheet) -> Iterator[str]:
    """What stands before each band."""
    yield f'<text class="number" x="0" y="{HEAD - 5}">slot</text><text class="number" x="0" y="{HEAD + FREE - 4}">free</text>'
    for lane in laid.lanes:
        yield label(lane)


def label(lane: Lane) -> str:
    line, y = lane.line, lane.top
    late = "" if lane.late is None else " late"
    weight = f'<tspan class="weight" dx="5">{line.cost}/{line.period}</tspan>'
    first = f'<text class="label{late}" data-tank="{line.tank}" x="0" y="{number(y + 12)}">tank {line.tank}{weight}</text>'
    if lane.late is not None:
        return first + f'<text class="small late-words" x="0" y="{number(y + 22.5)}">{late_words(lane.late)}</text>'
    second = kind(line)
    return first + (f'<text class="small" x="0" y="{number(y + 22.5)}">{second}</text>' if second else "")


def plot(laid: Sheet, slots: range) -> Iterator[str]:
    """The drawing of some slots, from back to front."""
    for at, lane in enumerate(laid.lanes):
        if at % 2 == 0:
            yield f'<rect class="stripe" y="{number(lane.top)}" width="100%" height="{number(lane.height)}"/>'
    yield from grid(laid, slots)
    for lane in laid.lanes:
        yield f'<line class="grid strong" y1="{number(lane.top)}" x2="100%" y2="{number(lane.top)}"/>'
    yield '<g class="lane slots">'
    for slot in slots:
        yield slot_cell(laid.picture, slots, slot)
    yield "</g>"
    for lane in laid.lanes:
        yield f'<g class="lane" data-tank="{lane.line.tank}">'
        yield from waits(lane, slots)
        yield from windows(lane, slots)
        yield from quanta(lane, slots)
        if lane.late is not None and lane.late - 1 in slots:
            yield late_mark(lane, slots)
        yield "</g>"


def grid(laid: Sheet, slots: range) -> Iterator[str]:
    """A line at the start of each slot, and the numbers. Those that have no room where slots are half as wide are marked, to be left out there."""
    every, coarse = laid.every(laid.slot_width), laid.every(laid.slot_width / 2)
    bottom = number(laid.height)
    for at, slot in enumerate(slots):
        x = place(slots, slot)
        strong = " strong" if at % coarse == 0 else ""
        yield f'<line class="grid{strong}" x1="{x}" y1="{HEAD if at % every else HEAD - 13}" x2="{x}" y2="{bottom}"/>'
        if at % every == 0 and (at == 0 or room_for_number(laid, slots, slot)):
            fine = " fine" if at % coarse != 0 else ""
            yield f'<text class="number{fine}" x="{x}" dx="2" y="{HEAD - 5}">{slot}</text>'
    yield f'<line class="grid strong" x1="100%" y1="{HEAD}" x2="100%" y2="{bottom}"/>'


def room_for_number(laid: Sheet, slots: range, slot: int) -> bool:
    """The number does not run over the band's end."""
    return (slots.stop - slot) * laid.slot_width >= DIGIT * len(str(slot)) + 2


def slot_cell(picture: Picture, slots: range, slot: int) -> str:
    """A slot's free cores."""
    at = slot - picture.first
    k = picture.free[at] if at < len(picture.free) else None
    if picture.refused and picture.refused[0] == slot:
        shade, sign, words = "refused", "×", f"slot {slot}: refused: {picture.refused[1]}"
    elif k is None:
        shade, sign, words = "idle", "", f"slot {slot} has not run"
    else:
        shade, sign, words = f"k{darkness(k, picture.cores)}", str(k), f"slot {slot}: {k} of {picture.cores} cores free"
    box, ink = ("free no", "cross") if shade == "refused" else ("free", "k")
    bar = f'<rect class="{box}" x="{place(slots, slot)}" y="{HEAD}" width="{length(slots, 1)}" height="{FREE}"/>'
    middle = f'<text class="{ink}" x="{place(slots, slot + 0.5)}" y="{HEAD + FREE - 4}">{sign}</text>' if sign else ""
    data = f'data-slot="{slot}"' + ("" if k is None else f' data-free="{k}"')
    return f'<g class="slot {shade}" {data}>{titled(words)}{bar}{middle}</g>'


def darkness(k: int, cores: int) -> int:
    """The fewer cores are free the darker; the lightest and the darkest are kept for all and none."""
    if k >= cores:
        return 0
    return LEVELS - 1 if k == 0 else max(1, min(LEVELS - 2, round((LEVELS - 1) * (cores - k) / cores)))


def titled(words: str) -> str:
    return f"<title>{escape(plain(words))}</title>"


def waits(lane: Lane, slots: range) -> Iterator[str]:
    for slot, reason in sorted(lane.line.waits.items()):
        if slot in slots:
            bar = f'<rect class="hatch" x="{place(slots, slot)}" y="{number(lane.top)}" width="{length(slots, 1)}" height="{number(lane.height)}"/>'
            yield f'<g class="wait" data-tank="{lane.line.tank}" data-slot="{slot}">{titled(f"tank {lane.line.tank}: {reason}")}{bar}</g>'


def windows(lane: Lane, slots: range) -> Iterator[str]:
    """Each window that has a slot here. One that goes on outside is drawn a slot further, over the plot's edge."""
    for window in lane.line.windows:
        if window.start < slots.stop and window.deadline > slots.start:
            start, end = max(window.start, slots.start - 1), min(window.deadline, slots.stop + 1)
            across = f'x="{place(slots, start + INSET)}" width="{length(slots, end - start - 2 * INSET)}"'
            data = f'data-tank="{lane.line.tank}" data-subtask="{window.subtask}"'
            words = window_words(lane.line, window)
            yield f'<rect class="window bar" {data} {across} y="{number(lane.track(window))}" height="{TRACK}">{titled(words)}</rect>'


def window_words(line: Line, window: Window) -> str:
    return f"tank {line.tank}, subtask {window.subtask}: r {window.start}, d {window.deadline}, b {window.bit}, D {window.group}"


def quanta(lane: Lane, slots: range) -> Iterator[str]:
    """The quanta that ran here; a thin line leads from one outside its window to the window."""
    here = [quantum for quantum in lane.line.quanta if quantum.slot in slots]
    for quantum in here:
        if quantum.early or past(quantum):
            yield link(lane, slots, quantum)
    for quantum in here:
        yield quantum_bar(lane, slots, quantum)


def link(lane: Lane, slots: range, quantum: Quantum) -> str:
    """From the quantum's side to the nearer end of its window."""
    near, far = (quantum.slot + 0.7, quantum.window.start + INSET) if quantum.early else (quantum.slot + 0.3, quantum.window.deadline - INSET)
    from_ = f'x1="{place(slots, near)}" y1="{number(lane.third + 1)}"'
    to = f'x2="{place(slots, far)}" y2="{number(lane.track(quantum.window) + TRACK / 2)}"'
    return f'<line class="link" {from_} {to}/>'


def quantum_bar(lane: Lane, slots: range, quantum: Quantum) -> str:
    outside = quantum.early or past(quantum)
    y, height = (lane.third, THIRD) if outside else (lane.track(quantum.window), TRACK)
    kinds = ["quantum"] + ["early"] * quantum.early + ["past"] * past(quantum) + ["moved"] * quantum.moved
    data = f'data-tank="{lane.line.tank}" data-subtask="{quantum.window.subtask}" data-slot="{quantum.slot}"'
    look = "ran ahead" if quantum.early else "ran behind" if past(quantum) else "ran"
    corner = f'x="{place(slots, quantum.slot + 2 * INSET)}" y="{number(y)}"'
    inside = f'<rect class="{look}" {corner} width="{length(slots, 1 - 4 * INSET)}" height="{height}"/>'
    if quantum.moved:
        inside += f'<svg {corner} width="6" height="{height}"><path class="move" d="{ARROW}"/></svg>'
    if quantum.core is not None:
        data += f' data-core="{quantum.core}"'
        inside += f'<text class="core" x="{place(slots, quantum.slot + 0.5)}" y="{number(y + height / 2 + 3.2)}">{quantum.core}</text>'
    return f'<g class="{" ".join(kinds)}" {data}>{titled(quantum_words(lane.line, quantum))}{inside}</g>'


def quantum_words(line: Line, quantum: Quantum) -> str:
    core = "" if quantum.core is None else f" on core {quantum.core}"
    moved = " (moved)" if quantum.moved else ""
    outside = ", before its window" if quantum.early else ", past its window" if past(quantum) else ""
    return f"{window_words(line, quantum.window)}; ran in slot {quantum.slot}{core}{moved}{outside}"


def late_mark(lane: Lane, slots: range) -> str:
    """A thick line at the deadline, which is the end of a slot that is shown here, with a sign."""
    assert lane.late is not None
    whose = next((window_words(lane.line, window) for window in lane.line.windows if window.deadline == lane.late), f"tank {lane.line.tank}")
    x = place(slots, lane.late)
    line = f'<line x1="{x}" y1="{number(lane.top)}" x2="{x}" y2="{number(lane.top + lane.height)}" transform="translate(-1.5 0)"/>'
    sign = f'<text x="{x}" dx="-4" y="{number(lane.top + 18)}">!</text>'
    words = f"{whose}; late at time {lane.late}: it has not run"
    return f'<g class="late" data-tank="{lane.line.tank}" data-slot="{lane.late - 1}">{titled(words)}{line}{sign}</g>'


def legend(laid: Sheet, width: float) -> tuple[str, float]:
    """What the signs mean, as lines of samples that are so wide, and their height. Signs that this picture does not have are left out."""
    parts: list[str] = []
    x, y = 0.0, 0.0
    for sample, wide, words in samples(laid.picture):
        needed = wide + 6 + 5.35 * len(words) + 16
        if x > 0 and x + needed > width:
            x, y = 0.0, y + 20
        parts.append(f'<g transform="translate({number(x)} {number(y)})">{sample}<text class="small" x="{wide + 6}" y="10.5">{words}</text></g>')
        x += needed
    return "".join(parts), y + 16


def samples(picture: Picture) -> Iterable[tuple[str, int, str]]:
    """Each sign with its width and its meaning."""
    every = [quantum for line in picture.lines for quantum in line.quanta]
    bar = '<rect class="bar" x="0.5" y="2" width="39" height="10"/>'
    box = '<rect class="ran" x="0.5" y="2" width="14" height="10"/>'
    yield bar, 40, "window of a subtask, from its start to its deadline"
    yield f'{bar}<rect class="ran" x="14" y="2" width="12" height="10"/>', 40, "the slot in which it ran"
    if any(quantum.early for quantum in every):
        yield '<rect class="ran ahead" x="0.5" y="3" width="14" height="8"/>', 15, "ran before its window, to which the line leads"
    if any(map(past, every)):
        yield '<rect class="ran behind" x="0.5" y="3" width="14" height="8"/>', 15, "ran past its window, to which the line leads"
    if any(quantum.core is not None for quantum in every):
        yield f'{box}<text class="core" x="7.5" y="10.2">3</text>', 15, "the core it ran on"
    if any(quantum.moved for quantum in every):
        yield f'{box}<path class="move" transform="translate(0.5 2)" d="{ARROW}"/>', 15, "moved there from another core"
    if any(line.waits for line in picture.lines):
        yield '<rect class="hatch" width="18" height="14"/>', 18, "ready, but did not run"
    if picture.late:
        yield '<text class="late-words" x="2" y="12" font-weight="900">!</text>', 8, "late: its deadline is here, and it has not run"
    if picture.refused:
        yield '<rect class="free no" x="0.5" y="1" width="14" height="13"/><text class="cross" x="4" y="11.5">×</text>', 15, "slot that was refused"
    if picture.free:
        dark = (f'<g class="k{level}"><rect class="free" x="{0.5 + 7 * level}" y="2" width="7" height="10"/></g>' for level in range(LEVELS))
        yield "".join(dark), 36, "free cores: the fewer, the stronger the shade"
