"""A picture as an HTML page, which a browser opens without a network: the same drawing as SVG (draw_svg.py says what its parts are called), with a
script for the width of the slots and for tips. Without the script everything is there, and the tips are the browser's own.

The page forbids itself every access to a network, and every script and style but its own, which it names by their sums. It is also well-formed XML.

What can be looked for:

    main#drawing     data-rows, data-slots, data-quanta, data-waits, data-windows: how many the picture has; data-slot-width: a slot's pixels at first
    .band            one for each band, with data-slots; in it svg.labels, and svg.plot with the drawing
    #tools           the buttons #narrower, #wider, #fit and #first, which only the script shows; #width says the pixels of a slot
    #tip             the tip, hidden where nothing is pointed at; a line for each thing under the pointer
    #notes, #as-text the notes, and the same drawing as text
"""
from __future__ import annotations

import base64
import hashlib
from typing import Iterator
from xml.sax.saxutils import escape

import draw_svg
import draw_text
from draw_svg import COLOURS, DARK, LIGHT, NAMESPACE, PATTERNS, SHAPES, Palette, Sheet, number
from draw_text import plain
from picture import Picture

NARROWEST_SLOT = 20  # pixels: bands are shorter than those of the SVG document, so that they can be printed on paper
TEXT_COLUMNS = 150

# A sheet of A4 has about so many pixels inside its margins.
PAPER_SHORT, PAPER_LONG = 700, 1030
BESIDE = 180  # pixels of title, legend and notes, which should not need a page of their own

STYLE = """\
body { margin: 0; padding: 16px; font: 14px/1.45 system-ui, "DejaVu Sans", sans-serif; }
h1 { font-size: 19px; margin: 0 0 4px; }
header p { margin: 0 0 8px; font-size: 12px; }
#tools { position: sticky; top: 0; z-index: 1; padding: 6px 0; }
#tools button { font: inherit; min-width: 34px; padding: 2px 10px; margin-right: 4px; border-radius: 4px; border: 1px solid; cursor: pointer; }
#tools span { font-size: 12px; margin-left: 8px; }
[hidden] { display: none !important; }
svg { display: block; }
#legend { display: flex; flex-wrap: wrap; gap: 2px 20px; margin: 4px 0; padding: 0; list-style: none; font-size: 12px; }
#legend li { display: flex; align-items: center; gap: 6px; }
.band { display: flex; margin: 14px 0 20px; }
.labels { flex: none; }
.scroll { flex: 0 1 auto; min-width: 0; overflow-x: auto; padding-bottom: 2px; }
.tight .fine, .tiny .core { display: none; }
.quantum, .window, .wait, .slot, .late[data-slot] { outline-offset: 1px; }
#notes p { margin: 0 0 4px; }
pre { overflow-x: auto; line-height: 1.15; font: 12px "DejaVu Sans Mono", monospace; }
summary { cursor: pointer; }
#tip { position: fixed; z-index: 2; left: 0; top: 0; max-width: 460px; padding: 6px 9px; pointer-events: none; }
#tip { border-radius: 4px; border: 1px solid; font-size: 12.5px; }
#tip p { margin: 0; }
#tip p + p { margin-top: 3px; }
"""

PAGE_COLOURS = """\
body, #tools { background: %(paper)s; color: %(text)s; }
header p, #tools span, #legend { color: %(quiet)s; }
#tools button { background: %(stripe)s; color: %(text)s; border-color: %(strong)s; }
#tip { background: %(text)s; color: %(paper)s; border-color: %(quiet)s; }
.quantum:focus, .window:focus, .wait:focus, .slot:focus, .late:focus { outline: 2px solid %(late)s; }
"""

# On paper a band takes the page's width whatever its width on the screen. The last is as much narrower as it has fewer slots.
PRINT = """\
@page {{ size: A4 {turn}; margin: 12mm; }}
@media print {{
{colours}body {{ padding: 0; }}
#tools, #tip, #as-text {{ display: none !important; }}
.band {{ break-inside: avoid; margin: 8px 0 12px; zoom: {zoom}; }}
.scroll {{ flex: 1; overflow: visible; }}
.plot {{ width: 100%; max-width: {widest}px; }}
.last .plot {{ width: {last}%; max-width: {last_widest}px; }}
.fine {{ display: none; }}
#legend, header, #notes {{ break-inside: avoid; }}
}}
"""

# Well-formed as XML too, by the comments around it.
SCRIPT = """\
/*<![CDATA[*/
"use strict";
(() => {
  const THINGS = ".quantum, .wait, .window, .slot, .late[data-slot]";
  const main = document.getElementById("drawing"), tip = document.getElementById("tip");
  const bands = [...document.querySelectorAll(".band")];
  const first = Number(main.dataset.slotWidth);
  let width = first;

  // The width of a slot. What is at `keep`, a place on the screen in a band, stays there.
  const resize = (wanted, keep) => {
    const before = width;
    width = Math.min(160, Math.max(4, wanted));
    for (const band of bands) {
      const scroll = band.querySelector(".scroll"), left = scroll.getBoundingClientRect().left;
      const inside = keep === undefined ? scroll.clientWidth / 2 : keep - left;
      const at = (scroll.scrollLeft + inside) / before;
      band.querySelector(".plot").setAttribute("width", Math.max(1, Number(band.dataset.slots)) * width);
      scroll.scrollLeft = at * width - inside;
    }
    main.classList.toggle("tight", width < first * 0.75);
    main.classList.toggle("tiny", width < 9);
    const now = "a slot is " + Math.round(width) + " pixels wide";
    document.getElementById("width").textContent = now + "; keys: + and -, 0 as at first; Ctrl and the wheel";
    hide();
  };
  const wider = keep => resize(width * 1.25, keep), narrower = keep => resize(width / 1.25, keep);
  const fit = () => {
    const room = main.clientWidth - document.querySelector(".labels").getBoundingClientRect().width - 2;
    resize(room / Math.max(1, ...bands.map(band => Number(band.dataset.slots))));
  };

  // What is said of a thing. Its title goes, or the browser would show a second tip.
  const words = thing => {
    const title = [...thing.children].find(child => child.localName === "title");
    if (title) {
      thing.setAttribute("aria-label", title.textContent);
      thing.setAttribute("role", "img");
      title.remove();
    }
    return thing.getAttribute("aria-label");
  };
  const hide = () => { tip.hidden = true; };
  const show = (things, x, y, below) => {
    const lines = [...new Set(things.map(words))];
    // a quantum says its window too
    const said = lines.filter(line => !lines.some(other => other !== line && other.startsWith(line)));
    tip.replaceChildren(...said.map(line => {
      const part = document.createElement("p");
      part.textContent = line;
      return part;
    }));
    tip.hidden = false;
    const box = tip.getBoundingClientRect();
    tip.style.left = Math.max(2, Math.min(x, innerWidth - box.width - 4)) + "px";
    tip.style.top = (y + below + box.height < innerHeight ? y + below : Math.max(2, y - box.height - 8)) + "px";
  };
  const point = event => {
    const under = document.elementsFromPoint(event.clientX, event.clientY).map(element => element.closest(THINGS)).filter(Boolean);
    if (under.length) show(under, event.clientX + 12, event.clientY, 18); else hide();
  };

  // The keyboard: one thing of each band can be reached by Tab, the others from there by the arrows.
  const boxed = thing => ({thing, box: thing.getBoundingClientRect()});
  const inLane = lane => [...lane.querySelectorAll(THINGS)].map(boxed).sort((a, b) => a.box.left - b.box.left);
  const middle = box => (box.left + box.right) / 2;
  const go = thing => {
    thing.closest(".band").querySelectorAll("[tabindex]").forEach(other => other.setAttribute("tabindex", "-1"));
    thing.setAttribute("tabindex", "0");
    thing.focus();
  };
  const beside = (from, step) => {
    const all = inLane(from.closest(".lane"));
    return all[all.findIndex(one => one.thing === from) + step]?.thing;
  };
  const above = (from, step) => {
    const lanes = [...from.closest(".plot").querySelectorAll(".lane")], here = middle(from.getBoundingClientRect());
    for (let at = lanes.indexOf(from.closest(".lane")) + step; lanes[at]; at += step) {
      const near = inLane(lanes[at]).sort((a, b) => Math.abs(middle(a.box) - here) - Math.abs(middle(b.box) - here));
      if (near.length) return near[0].thing;
    }
  };
  const arrows = {
    ArrowLeft: from => beside(from, -1),
    ArrowRight: from => beside(from, 1),
    ArrowUp: from => above(from, -1),
    ArrowDown: from => above(from, 1),
  };
  const keys = {"+": wider, "=": wider, "-": narrower, "0": () => resize(first)};

  document.addEventListener("keydown", event => {
    if (event.ctrlKey || event.metaKey || event.altKey) return;
    const from = event.target.closest?.(THINGS);
    if (event.key === "Escape") hide();
    else if (keys[event.key]) keys[event.key]();
    else if (from && arrows[event.key]) {
      const to = arrows[event.key](from);
      if (to) go(to);
      event.preventDefault();
    }
  });
  main.addEventListener("focusin", event => {
    const thing = event.target.closest(THINGS);
    if (!thing) return;
    thing.scrollIntoView({block: "nearest", inline: "nearest"});
    const box = thing.getBoundingClientRect();
    show([thing], box.left, box.bottom, 6);
  });
  main.addEventListener("focusout", hide);
  main.addEventListener("pointermove", point);
  main.addEventListener("pointerleave", hide);
  main.addEventListener("wheel", event => {
    if (!event.ctrlKey) return;
    event.preventDefault();
    if (event.deltaY < 0) wider(event.clientX); else narrower(event.clientX);
  }, {passive: false});
  document.getElementById("wider").addEventListener("click", () => wider());
  document.getElementById("narrower").addEventListener("click", () => narrower());
  document.getElementById("fit").addEventListener("click", fit);
  document.getElementById("first").addEventListener("click", () => resize(first));
  for (const band of bands) band.querySelector(THINGS)?.setAttribute("tabindex", "0");
  document.getElementById("tools").hidden = false;
  resize(first);
})();
/*]]>*/
"""

TOOLS = """\
<div id="tools" hidden="hidden">
<button id="narrower" type="button" aria-label="narrower slots">−</button>
<button id="wider" type="button" aria-label="wider slots">+</button>
<button id="fit" type="button">fit the window</button>
<button id="first" type="button">as at first</button>
<span id="width"></span>
</div>"""


def html(picture: Picture, version: str) -> str:
    """The whole page."""
    laid = draw_svg.sheet(picture, NARROWEST_SLOT)
    style = "\n" + STYLE + SHAPES + colours(LIGHT) + "@media (prefers-color-scheme: dark) {\n" + colours(DARK) + "}\n" + print_style(laid)
    script = "\n" + SCRIPT
    title = escape(plain(picture.title))
    policy = f"default-src 'none'; style-src '{checksum(style)}'; script-src '{checksum(script)}'; base-uri 'none'; form-action 'none'"
    return "\n".join([
        "<!DOCTYPE html>",
        '<html lang="en">',
        "<head>",
        '<meta charset="utf-8"/>',
        f'<meta http-equiv="Content-Security-Policy" content="{policy}"/>',
        '<meta name="viewport" content="width=device-width, initial-scale=1"/>',
        '<meta name="color-scheme" content="light dark"/>',
        f"<title>{title}</title>",
        f"<style>{style}</style>",
        "</head>",
        "<body>",
        f"<header><h1>{title}</h1><p>Zbrojomir {escape(plain(version))}</p></header>",
        TOOLS,
        f'<main id="drawing" {counts(laid)}>',
        *drawing(laid),
        "</main>",
        f'<section id="notes">{"".join(f"<p>{escape(plain(note))}</p>" for note in picture.notes)}</section>',
        *as_text(picture),
        '<div id="tip" role="status" hidden="hidden"></div>',
        f"<script>{script}</script>",
        "</body>",
        "</html>",
        "",
    ])


def checksum(content: str) -> str:
    """The sum by which the page's policy knows a script or a style."""
    return "sha256-" + base64.b64encode(hashlib.sha256(content.encode()).digest()).decode()


def colours(palette: Palette) -> str:
    return COLOURS % palette + PAGE_COLOURS % palette


def print_style(laid: Sheet) -> str:
    """The style on paper: landscape where a band is low enough, and otherwise upright, and smaller if it is higher than a page."""
    upright = laid.height > PAPER_SHORT - BESIDE
    longest, last = len(laid.bands[0]), len(laid.bands[-1])
    return PRINT.format(
        turn="portrait" if upright else "landscape",
        colours=colours(LIGHT),
        zoom=number(min(1, (PAPER_LONG - BESIDE) / laid.height)) if upright else "1",
        widest=number(draw_svg.WIDEST_SLOT * max(1, longest)),
        last=number(100 * last / max(1, longest)) if longest else "100",
        last_widest=number(draw_svg.WIDEST_SLOT * max(1, last)),
    )


def counts(laid: Sheet) -> str:
    """What the picture has, counted, for whoever checks what the page shows."""
    lines = laid.picture.lines
    numbers = {
        "rows": len(lines),
        "slots": laid.picture.end - laid.picture.first,
        "quanta": sum(len(line.quanta) for line in lines),
        "waits": sum(len(line.waits) for line in lines),
        "windows": sum(len(line.windows) for line in lines),
    }
    return " ".join(f'data-{name}="{count}"' for name, count in numbers.items()) + f' data-slot-width="{number(laid.slot_width)}"'


def drawing(laid: Sheet) -> Iterator[str]:
    """The legend and the bands. The patterns stand in an image of their own, which the others refer to."""
    yield f'<svg xmlns="{NAMESPACE}" width="0" height="0" aria-hidden="true">{PATTERNS}</svg>'
    yield '<ul id="legend">' + "".join(map(legend_line, draw_svg.samples(laid.picture))) + "</ul>"
    for slots in laid.bands:
        last = " last" if slots == laid.bands[-1] else ""
        yield f'<div class="band{last}" data-slots="{len(slots)}">'
        yield f'<svg xmlns="{NAMESPACE}" class="labels" width="{laid.label_width}" height="{number(laid.height)}">'
        yield from draw_svg.labels(laid)
        yield f'</svg><div class="scroll"><svg xmlns="{NAMESPACE}" class="plot" {draw_svg.size(laid, slots)}>'
        yield from draw_svg.plot(laid, slots)
        yield "</svg></div></div>"


def legend_line(sample: tuple[str, int, str]) -> str:
    drawn, width, words = sample
    return f'<li><svg xmlns="{NAMESPACE}" width="{width}" height="14" aria-hidden="true">{drawn}</svg>{words}</li>'


def as_text(picture: Picture) -> Iterator[str]:
    yield '<details id="as-text"><summary>The same as text</summary>'
    yield "<pre>" + "\n".join(map(escape, draw_text.text(picture, TEXT_COLUMNS, cores=True))) + "</pre></details>"
