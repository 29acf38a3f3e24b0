"""How the command prints, says what it is doing, and ends when something stops it."""
from __future__ import annotations

import contextlib
import io
import os
import signal
import subprocess
import sys
import time
from types import FrameType
from typing import Callable, Iterable, Iterator, TextIO, TypeVar

from trouble import Trouble

FINE, ANSWERED_NO, WRONG_USE = 0, 1, 2  # the exit statuses: fine; the answer is a refusal or lateness; wrong use, or no answer could be had
QUIET, PAUSE = 2.0, 5.0  # seconds that something may take before it is said how far it is, and from then on between two lines
began = time.monotonic()  # of the command, which may do one thing after another
Item = TypeVar("Item")


def status(name: str, work: Callable[[], int]) -> int:
    """The exit status of the program that has this name: that of its work, or of what has stopped it."""
    global began
    began = time.monotonic()
    try:
        done = work()
        put("", "text")  # what argparse prints is not written before
        return done
    except Trouble as trouble:
        tell(f"{name}: {trouble}")
        return WRONG_USE
    except BrokenPipeError:
        return 141  # as a shell says it of a program whose reader has gone
    except OSError as error:
        tell(f"{name}: {f'{error.filename}: ' if error.filename else ''}{error.strerror or error}")
        return WRONG_USE
    except MemoryError:
        tell(f"{name}: there is not enough memory for this")
        return WRONG_USE
    except KeyboardInterrupt:
        return 130  # and of one that Ctrl-C has ended
    except Terminated:
        return 143


class Terminated(BaseException):
    """The program was told to end: what it has started is ended on the way out, as after Ctrl-C."""


def be_ready() -> None:
    """What cannot be spelled in the characters of the terminal is replaced, and to be told to end is heeded."""
    for stream in (sys.stdout, sys.stderr):
        if isinstance(stream, io.TextIOWrapper):
            stream.reconfigure(errors="replace")
    heed_termination()


def heed_termination() -> None:
    def end(number: int, frame: FrameType | None) -> None:
        raise Terminated

    signal.signal(signal.SIGTERM, end)
    with contextlib.suppress(AttributeError):
        signal.signal(signal.SIGHUP, end)


def show(line: str, whole: str) -> None:
    """Prints a line of a whole, such as a listing, at once, so that a long run shows as it goes."""
    if sys.stdout is None:
        raise Trouble(f"the {whole} cannot be written: standard output is closed")
    put(f"{line}\n", whole)


def put(text: str, whole: str) -> None:
    """Prints, and writes all that was printed."""
    if sys.stdout is None:
        return
    try:
        print(text, end="", flush=True)
    except OSError as error:
        forget(sys.stdout)
        if isinstance(error, BrokenPipeError):
            raise
        raise Trouble(f"the {whole} cannot be written: {error.strerror}") from None


def forget(stream: TextIO) -> None:
    """What is left of a line goes nowhere, or Python would try to write it again at its end, and complain."""
    with contextlib.suppress(OSError):
        os.dup2(os.open(os.devnull, os.O_WRONLY), stream.fileno())


def show_all(lines: Iterable[str], whole: str) -> None:
    """Prints many lines, those that come within a tenth of a second together."""
    waiting: list[str] = []
    told = time.monotonic()
    try:
        for line in lines:
            waiting.append(line)
            if time.monotonic() - told > 0.1:
                ready, waiting, told = waiting, [], time.monotonic()
                show("\n".join(ready), whole)
    finally:  # what came before something stopped the rest is shown too
        if waiting:
            show("\n".join(waiting), whole)


def tell(line: str) -> None:
    """A line on standard error, if there is anybody to tell."""
    put_words(f"{line}\n")


def put_words(text: str) -> None:
    if sys.stderr is None:  # or it would go to standard output, behind the answer
        return
    try:
        print(text, end="", file=sys.stderr, flush=True)
    except OSError:
        forget(sys.stderr)


def awaited(process: subprocess.Popen[bytes], what: str) -> str:
    """What a process says on standard error, once it has ended. If that takes longer than a moment it is said for how long it has been at it; and if we are
    ended before, so is it.
    """
    here = time.monotonic()
    try:
        while True:
            try:
                return process.communicate(timeout=QUIET if time.monotonic() - here < QUIET else PAUSE)[1].decode(errors="replace")
            except subprocess.TimeoutExpired:
                tell(f"{what}: {time.monotonic() - here:.0f} s")
    except BaseException:
        process.kill()
        process.wait()
        raise


def watched(items: Iterable[Item], what: str, count: int | None = None) -> Iterator[Item]:
    """The items, one after another; once the command takes longer than a moment it is said how far it is."""
    here = time.monotonic()
    terminal = sys.stderr is not None and sys.stderr.isatty()
    said, wiped = -PAUSE, True
    for done, item in enumerate(items):
        yield item
        now = time.monotonic()
        if now - began > QUIET and now - here > QUIET / 4 and now - said > (PAUSE / 10 if terminal else PAUSE):
            far = f"{done + 1:,} of {count:,}" if count else f"{done + 1:,}"
            put_words(f"\r{what}: {far} \x1b[K" if terminal else f"{what}: {far}\n")
            said, wiped = now, False
    if terminal and not wiped:
        put_words("\r\x1b[K")
