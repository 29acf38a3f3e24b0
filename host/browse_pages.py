"""Checks pages of draw_html.py in Chromium: python3 host/browse_pages.py FOLDER PAGE.html ..; host/browse is the command for people.

The browser runs without a window and without a network, and is spoken to by its DevTools protocol over two pipes: JSON messages, each with a NUL
behind it. A picture of each page goes to FOLDER. A line for each page says that it is right, or what is wrong.
"""
from __future__ import annotations

import base64
import contextlib
import ctypes
import fcntl
import json
import os
import re
import select
import signal
import subprocess
import sys
import tempfile
import time
from pathlib import Path
from typing import Any, Iterator, Sequence

PATIENCE = 120  # seconds for an answer, on a machine that has much else to do
VIEW = {"width": 1440, "height": 900, "deviceScaleFactor": 1, "mobile": False}
HIGHEST_PICTURE = 6_000  # pixels
PR_SET_CHILD_SUBREAPER = 36  # of <linux/prctl.h>
CTRL = 2  # the protocol's number for this key
FLAGS = (
    "--headless=new --remote-debugging-pipe --no-first-run --no-default-browser-check --disable-gpu --disable-background-networking "
    "--disable-component-update --disable-sync --disable-default-apps --disable-extensions --disable-breakpad --disable-crash-reporter "
    "--disable-dev-shm-usage --hide-scrollbars --mute-audio"
).split()
NO_NETWORK = "--host-resolver-rules=MAP * ~NOTFOUND"

WINDOW = r"tank \d+, subtask \d+: r \d+, d \d+, b [01], D \d+"
SAID = {
    ".quantum:not(.early):not(.past)": rf"^{WINDOW}; ran in slot \d+",
    ".quantum.early": rf"^{WINDOW}; ran in slot \d+.*, before its window",
    ".quantum.past": rf"^{WINDOW}; ran in slot \d+.*, past its window",
    ".quantum.moved": r"on core \d+ \(moved\)",
    ".window": rf"(?m)^{WINDOW}",
    ".wait": r"(?m)^tank \d+: .+",
    ".late[data-slot]": r"(?m)late at time \d+",
    ".slot": r"^slot \d+",
}


class Trouble(Exception):
    """The browser cannot be asked; the sentence says why."""


class Unfit(Exception):
    """A page does not even have what it is asked for."""


class Browser:
    """A Chromium of our own. All that it starts is in its process group, which ends with it."""

    def __init__(self, profile: str) -> None:
        ends = os.pipe() + os.pipe()
        # none of which may be the third or the fourth, which the browser reads from and writes to; a shell puts its ends there
        their_in, self.out, self.into, their_out = (fcntl.fcntl(end, fcntl.F_DUPFD_CLOEXEC, 10) for end in ends)
        for end in ends:
            os.close(end)
        sandbox = ["--no-sandbox"] if os.geteuid() == 0 else []
        command = ["chromium", *FLAGS, *sandbox, NO_NETWORK, f"--user-data-dir={profile}", "about:blank"]
        shell = ["bash", "-c", f'exec "$@" 3<&{their_in} 4>&{their_out} {their_in}<&- {their_out}>&-', "bash", *command]
        nowhere = subprocess.DEVNULL
        self.process = subprocess.Popen(shell, pass_fds=(their_in, their_out), stdin=nowhere, stdout=nowhere, stderr=nowhere, start_new_session=True)
        os.close(their_in)
        os.close(their_out)
        self.read = b""
        self.asked = 0
        self.events: list[dict[str, Any]] = []

    def ask(self, method: str, session: str | None = None, **parameters: Any) -> dict[str, Any]:
        """The answer to a message. Events that come meanwhile are kept."""
        self.asked += 1
        message = {"id": self.asked, "method": method, "params": parameters, **({"sessionId": session} if session else {})}
        self.send(json.dumps(message).encode() + b"\0")
        until = time.monotonic() + PATIENCE
        while True:
            came = self.receive(until)
            if came.get("id") == self.asked:
                if "error" in came:
                    raise Trouble(f"the browser refuses {method}: {came['error'].get('message')}")
                return came["result"]
            self.events.append(came)

    def send(self, message: bytes) -> None:
        try:
            while message:
                message = message[os.write(self.out, message) :]
        except BrokenPipeError:
            raise Trouble("the browser has ended") from None

    def receive(self, until: float) -> dict[str, Any]:
        while b"\0" not in self.read:
            ready, _, _ = select.select([self.into], [], [], max(0, until - time.monotonic()))
            part = os.read(self.into, 1 << 20) if ready else b""
            if not part:
                raise Trouble(f"the browser does not answer within {PATIENCE} seconds" if not ready else "the browser has ended")
            self.read += part
        message, _, self.read = self.read.partition(b"\0")
        return json.loads(message)

    def wait(self, session: str, method: str) -> None:
        """Until an event has come, which is taken."""
        until = time.monotonic() + PATIENCE
        while True:
            for event in self.events:
                if event.get("sessionId") == session and event.get("method") == method:
                    self.events.remove(event)
                    return
            self.events.append(self.receive(until))

    def end(self) -> None:
        """Ends the browser and whatever it has started."""
        with contextlib.suppress(Trouble):
            self.ask("Browser.close")
        with contextlib.suppress(subprocess.TimeoutExpired):
            self.process.wait(15)
        with contextlib.suppress(ProcessLookupError):
            os.killpg(self.process.pid, signal.SIGKILL)
        self.process.wait()
        reap()
        os.close(self.out)
        os.close(self.into)


class Page:
    """A page that is open, in a tab of its own."""

    def __init__(self, browser: Browser, path: Path) -> None:
        self.browser, self.path = browser, path
        self.target = browser.ask("Target.createTarget", url="about:blank")["targetId"]
        self.session = browser.ask("Target.attachToTarget", targetId=self.target, flatten=True)["sessionId"]
        for domain in ("Page", "Runtime", "Log", "Network", "DOM"):
            self.ask(f"{domain}.enable")
        self.ask("Network.emulateNetworkConditions", offline=True, latency=0, downloadThroughput=-1, uploadThroughput=-1)
        self.ask("Emulation.setDeviceMetricsOverride", **VIEW)
        self.ask("Page.navigate", url=path.resolve().as_uri())
        browser.wait(self.session, "Page.loadEventFired")

    def ask(self, method: str, **parameters: Any) -> dict[str, Any]:
        return self.browser.ask(method, self.session, **parameters)

    def value(self, script: str) -> Any:
        """What an expression in the page gives."""
        result = self.ask("Runtime.evaluate", expression=script, returnByValue=True, awaitPromise=True)
        if "exceptionDetails" in result:
            why = result["exceptionDetails"].get("exception", {}).get("description", "").partition("\n")[0]
            raise Unfit(f"a question to it fails: {script}: {why}")
        return result["result"].get("value")

    def mouse(self, kind: str, x: float, y: float, **more: Any) -> None:
        self.ask("Input.dispatchMouseEvent", type=kind, x=x, y=y, **more)

    def click(self, selector: str) -> None:
        x, y = self.middle(selector)
        for kind in ("mousePressed", "mouseReleased"):
            self.mouse(kind, x, y, button="left", clickCount=1)

    def key(self, key: str) -> None:
        """A key that is pressed and let go; one that writes has its letter as its name."""
        text = {"text": key} if len(key) == 1 else {}
        self.ask("Input.dispatchKeyEvent", type="keyDown", key=key, **text)
        self.ask("Input.dispatchKeyEvent", type="keyUp", key=key)

    def middle(self, selector: str) -> tuple[float, float]:
        """Where the middle of the first such element is, scrolled into view."""
        script = (
            f"(() => {{ const found = document.querySelector({json.dumps(selector)}); found.scrollIntoView({{block: 'center', inline: 'center'}}); "
            "const box = found.getBoundingClientRect(); return [(box.left + box.right) / 2, (box.top + box.bottom) / 2]; })()"
        )
        x, y = self.value(script)
        return x, y

    def count(self, selector: str) -> int:
        return self.value(f"document.querySelectorAll({json.dumps(selector)}).length")

    def events(self, *methods: str) -> list[dict[str, Any]]:
        return [event for event in self.browser.events if event.get("sessionId") == self.session and event.get("method") in methods]

    def close(self) -> None:
        self.browser.ask("Target.closeTarget", targetId=self.target)


def faults(page: Page, folder: Path) -> Iterator[str]:
    """What is wrong with a page, a few words for each fault."""
    if page.value("document.getElementById('drawing') === null"):
        yield "it has no drawing"
        return
    yield from count_faults(page)
    save_picture(page, folder)
    yield from tip_faults(page)
    yield from key_faults(page)
    yield from zoom_faults(page)
    yield from media_faults(page)
    yield from quiet_faults(page)
    yield from policy_faults(page)
    yield from script_faults(page)


def told(page: Page) -> dict[str, int]:
    """The page's own numbers."""
    return {name: int(page.value(f"document.getElementById('drawing').dataset.{name}")) for name in ("rows", "slots", "quanta", "waits", "windows")}


def count_faults(page: Page) -> Iterator[str]:
    """What is drawn is what the page says that it has; each quantum once, and where it can be seen."""
    numbers = told(page)
    for selector, name in ((".quantum", "quanta"), (".wait", "waits"), (".slot", "slots")):
        if page.count(selector) != numbers[name]:
            yield f"{page.count(selector)} {name} are drawn, and it has {numbers[name]}"
    different = page.value("new Set([...document.querySelectorAll('.quantum')].map(q => q.dataset.tank + ' ' + q.dataset.slot)).size")
    if different != numbers["quanta"]:
        yield f"only {different} of {numbers['quanta']} quanta are of different tanks and slots"
    labels = page.value("document.querySelectorAll('.band:first-of-type .label').length")
    if labels != numbers["rows"]:
        yield f"{labels} rows have labels, and it has {numbers['rows']}"
    unseen = page.value(
        "[...document.querySelectorAll('.quantum rect')].map(bar => bar.getBoundingClientRect())"
        ".filter(box => Math.min(box.width, box.height) < 3).length"
    )
    if unseen:
        yield f"{unseen} quanta are too small to be seen"
    in_text = len(re.findall("[█▒▓→][█▒▓0-9]", page.value("document.querySelector('#as-text pre').textContent")))
    if in_text != numbers["quanta"]:
        yield f"the text shows {in_text} quanta, and it has {numbers['quanta']}"


def tip_faults(page: Page) -> Iterator[str]:
    """The pointer on a thing of each kind brings a tip that says what it is, inside the window."""
    for selector, pattern in SAID.items():
        if page.count(selector):
            x, y = page.middle(selector)
            page.mouse("mouseMoved", x, y)
            yield from tip_is(page, pattern, f"pointing at {selector}")
    page.mouse("mouseMoved", 2, 2)
    if not page.value("document.getElementById('tip').hidden"):
        yield "the tip stays where nothing is pointed at"


def tip_is(page: Page, pattern: str, when: str) -> Iterator[str]:
    hidden, words, box = page.value(
        "(() => { const tip = document.getElementById('tip'), box = tip.getBoundingClientRect(); "
        "const words = [...tip.children].map(line => line.textContent).join('\\n'); "
        "return [tip.hidden, words, [box.left, box.top, innerWidth - box.right, innerHeight - box.bottom]]; })()"
    )
    if hidden:
        yield f"{when} shows no tip"
    elif not re.search(pattern, words):
        yield f"{when} shows the tip {words!r}"
    elif min(box) < 0:
        yield f"{when} shows a tip that is not wholly in the window"


def key_faults(page: Page) -> Iterator[str]:
    """The tab key leads into each band, and the arrows from thing to thing, with a tip for each."""
    if not page.count(".slot"):
        return
    page.value("document.querySelector('.band [tabindex=\"0\"]').focus()")
    yield from tip_is(page, SAID[".slot"], "the focus")
    where = "(() => { const at = document.activeElement; return at.dataset.tank + ' ' + at.dataset.slot + ' ' + at.dataset.subtask; })()"
    for key in ("ArrowRight", "ArrowDown", "ArrowUp"):
        before = page.value(where)
        page.key(key)
        more = page.value("Number(document.querySelector('.band').dataset.slots)") > 1 if key == "ArrowRight" else page.count(".lane .window") > 0
        if more and page.value(where) == before:
            yield f"the key {key} leads nowhere"
        yield from tip_is(page, r"\S", f"the key {key}")
    page.key("Escape")
    if not page.value("document.getElementById('tip').hidden"):
        yield "the key Escape does not hide the tip"


def zoom_faults(page: Page) -> Iterator[str]:
    """Each way to make slots wider or narrower does, and letters keep their size."""
    if not page.count(".slot"):
        return
    first, letters = slot_width(page), letter_height(page)
    ways = (
        ("the button +", lambda: page.click("#wider"), 1),
        ("the button −", lambda: page.click("#narrower"), -1),
        ("the key +", lambda: page.key("+"), 1),
        ("the key -", lambda: page.key("-"), -1),
        ("Ctrl and the wheel", lambda: page.mouse("mouseWheel", *page.middle(".slot"), deltaX=0, deltaY=-100, modifiers=CTRL), 1),
    )
    for name, work, wanted in ways:
        before = slot_width(page)
        work()
        if (slot_width(page) - before) * wanted <= 0:
            yield f"{name} makes a slot of {before:g} pixels one of {slot_width(page):g}"
        if letter_height(page) != letters:
            yield f"{name} changes the size of letters"
    page.click("#first")
    if abs(slot_width(page) - first) > 0.01:
        yield "the slots do not become again what they were at first"
    page.click("#fit")
    if page.value("Math.max(...[...document.querySelectorAll('.scroll')].map(s => s.scrollWidth - s.clientWidth))") > 1:
        yield "a band that is fitted to the window does not fit"
    page.key("0")


def slot_width(page: Page) -> float:
    return page.value("document.querySelector('.slot rect').getBoundingClientRect().width")


def letter_height(page: Page) -> float:
    return page.value("document.querySelector('.plot .number').getBoundingClientRect().height")


def media_faults(page: Page) -> Iterator[str]:
    """On paper: white, without buttons, no band cut and none wider than the page. In the dark: dark."""
    light = background(page)
    page.ask("Emulation.setEmulatedMedia", media="", features=[{"name": "prefers-color-scheme", "value": "dark"}])
    if background(page) == light:
        yield "it is not dark where dark is preferred"
    page.ask("Emulation.setEmulatedMedia", media="print", features=[{"name": "prefers-color-scheme", "value": "dark"}])
    if background(page) != "rgb(255, 255, 255)":
        yield "it is not white on paper"
    shown = page.value("['#tools', '#as-text'].filter(name => getComputedStyle(document.querySelector(name)).display !== 'none')")
    if shown:
        yield f"on paper it has {' and '.join(shown)}"
    if page.value("[...document.querySelectorAll('.band')].some(band => getComputedStyle(band).breakInside !== 'avoid')"):
        yield "bands may be cut across pages"
    page.ask("Emulation.setDeviceMetricsOverride", **{**VIEW, "width": 700})
    if page.value("document.documentElement.scrollWidth > innerWidth + 1"):
        yield "on paper it is wider than a page"
    page.ask("Emulation.setDeviceMetricsOverride", **VIEW)
    page.ask("Emulation.setEmulatedMedia", media="", features=[])


def background(page: Page) -> str:
    return page.value("getComputedStyle(document.body).backgroundColor")


def quiet_faults(page: Page) -> Iterator[str]:
    """Nothing was complained of, and nothing was fetched but the page."""
    for event in page.events("Runtime.exceptionThrown", "Log.entryAdded", "Runtime.consoleAPICalled"):
        yield f"the browser complains: {json.dumps(event['params'])[:300]}"
    for event in page.events("Network.requestWillBeSent"):
        if event["params"]["request"]["url"] != page.path.resolve().as_uri():
            yield f"it asks for {event['params']['request']['url']}"


def policy_faults(page: Page) -> Iterator[str]:
    """Its policy stops whatever would ask a network, or bring a script of its own. This makes complaints: it comes after they were looked at."""
    blocked = page.value(
        "new Promise(done => { const seen = []; document.addEventListener('securitypolicyviolation', event => seen.push(event.effectiveDirective)); "
        "fetch('http://127.0.0.1:9/').catch(() => 0); new Image().src = 'http://127.0.0.1:9/'; "
        "const script = document.createElement('script'); script.textContent = 'window.broken = true'; document.body.append(script); "
        "setTimeout(() => done([seen.map(name => name.split('-')[0]).sort().join(' '), window.broken === true]), 300); })"
    )
    if blocked != ["connect img script", False]:
        yield f"its policy blocks only: {blocked[0]}"


def script_faults(page: Page) -> Iterator[str]:
    """Without its script everything is still there, but for the buttons, which would do nothing."""
    numbers = told(page)
    page.ask("Emulation.setScriptExecutionDisabled", value=True)
    page.browser.events = [event for event in page.browser.events if event.get("method") != "Page.loadEventFired"]
    page.ask("Page.reload")
    page.browser.wait(page.session, "Page.loadEventFired")
    root = page.ask("DOM.getDocument", depth=1)["root"]["nodeId"]
    drawn = page.ask("DOM.querySelectorAll", nodeId=root, selector=".quantum > title + rect")["nodeIds"]
    if len(drawn) != numbers["quanta"]:
        yield f"without its script {len(drawn)} of {numbers['quanta']} quanta are drawn"
    if drawn and not has_box(page, drawn[0]):
        yield "without its script nothing is seen"
    tools = page.ask("DOM.querySelector", nodeId=root, selector="#tools[hidden]")["nodeId"]
    if not tools:
        yield "without its script it has buttons"


def has_box(page: Page, node: int) -> bool:
    """It takes room on the screen; for what takes none the browser refuses to say how much."""
    try:
        return page.ask("DOM.getBoxModel", nodeId=node)["model"]["width"] > 0
    except Trouble:
        return False


def save_picture(page: Page, folder: Path) -> None:
    bottom = page.value("document.body.getBoundingClientRect().bottom")
    clip = {"x": 0, "y": 0, "width": VIEW["width"], "height": min(HIGHEST_PICTURE, bottom), "scale": 1}
    picture = page.ask("Page.captureScreenshot", format="png", captureBeyondViewport=True, clip=clip)["data"]
    (folder / f"{page.path.stem}.png").write_bytes(base64.b64decode(picture))


def looked_at(browser: Browser, path: Path, folder: Path) -> bool:
    """Says what is found of a page; whether it is right."""
    if not path.is_file():
        print(f"browse: {path} is not a file", flush=True)
        return False
    page = Page(browser, path)
    found: list[str] = []
    try:
        for fault in faults(page, folder):
            found.append(fault)
    except Unfit as unfit:
        found += [str(unfit), *quiet_faults(page)]
    numbers = told(page) if not found else {}
    page.close()
    for fault in found:
        print(f"browse: {path.name}: {fault}", flush=True)
    if not found:
        print(f"browse: {path.name} is right: " + ", ".join(f"{name} {count}" for name, count in numbers.items()), flush=True)
    return not found


def adopt_orphans() -> None:
    """Makes processes whose parent has ended ours, so that we see them end too: not every machine's first process does."""
    ctypes.CDLL(None).prctl(PR_SET_CHILD_SUBREAPER, 1, 0, 0, 0)


def reap() -> None:
    """Waits for the processes that the browser has left to us, and ends those that do not end by themselves."""
    until = time.monotonic() + 10
    with contextlib.suppress(ChildProcessError):
        while True:
            if os.waitpid(-1, os.WNOHANG) == (0, 0):
                time.sleep(0.05)
                if time.monotonic() > until:
                    for child in Path(f"/proc/self/task/{os.getpid()}/children").read_text(encoding="ascii").split():
                        os.kill(int(child), signal.SIGKILL)


def main(arguments: Sequence[str]) -> int:
    folder, *pages = map(Path, arguments)
    adopt_orphans()
    with tempfile.TemporaryDirectory(prefix="browse", ignore_cleanup_errors=True) as profile:
        browser = Browser(profile)
        try:
            right = [looked_at(browser, page, folder) for page in pages]
        finally:
            browser.end()
    if not all(right):
        print(f"browse: {right.count(False)} of {len(right)} pages are wrong")
        return 1
    print(f"browse: {len(right)} pages are right")
    return 0


if __name__ == "__main__":
    signal.signal(signal.SIGTERM, lambda *_: sys.exit(143))
    try:
        sys.exit(main(sys.argv[1:]))
    except Trouble as trouble:
        print(f"browse: {trouble}", file=sys.stderr)
        sys.exit(2)
    except KeyboardInterrupt:
        sys.exit(130)
