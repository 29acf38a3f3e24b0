"""Files as people name them. What is read may be bytes, hex text, or a text such as a typed table; which of them is told by the name's ending or by
what stands in it. What is written stands there wholly, or the file is as it was.
"""
from __future__ import annotations

import codecs
import contextlib
import io
import os
import re
import secrets
import shutil
import sys
import tempfile
from dataclasses import dataclass
from typing import IO, Any, Iterator

from trouble import Trouble

SNIFFED = 1 << 16  # bytes from the front by which a text is told
TEXT_MOST = 1 << 24  # bytes of a text that is read whole
TEXT_NAMES = (".csv", ".txt", ".tsv")
NOT_TEXT = re.compile(rb"[\x00-\x08\x0e-\x1f]")
HEX_TEXT = re.compile(rb"(?:[0-9A-Fa-f\s]|#[^\n]*(?:\n|\Z))*\Z")
HEX_DIGIT = re.compile(rb"^[^#\n]*[0-9A-Fa-f]", re.MULTILINE)  # one that stands in no comment


@dataclass(frozen=True)
class Content:
    """What a file holds. Of hex text these are the bytes that it names; of a text that is no hex `is_text` is set, and they are the text's own."""

    data: bytes
    is_text: bool


class Kept(io.BufferedReader):
    """What a pipe gives, kept in a file without a name, so that it can be read again. No more is taken from the pipe than is asked for."""

    def __init__(self, pipe: IO[bytes]) -> None:
        super().__init__(Taken(pipe))


class Taken(io.RawIOBase):
    """What was taken from a pipe so far, and behind that the pipe."""

    def __init__(self, pipe: IO[bytes]) -> None:
        self.pipe, self.ended = pipe, False
        try:
            self.kept = tempfile.TemporaryFile()
        except OSError as error:
            raise Trouble(f"there is no place for what comes through a pipe: {error.strerror or error}") from None

    def readable(self) -> bool:
        return True

    def seekable(self) -> bool:
        return True

    def readinto(self, room: Any) -> int:
        got = self.kept.readinto(room)  # type: ignore[attr-defined]
        if got == 0 and not self.ended:  # a terminal would go on behind its end
            part = self.pipe.read1(len(room))  # type: ignore[attr-defined]
            got, self.ended = len(part), not part
            room[:got] = part
            self.keep(part)
        return int(got)

    def keep(self, part: bytes) -> None:
        try:
            self.kept.write(part)
        except OSError as error:
            raise Trouble(f"there is no room for what comes through a pipe: {error.strerror}") from None

    def seek(self, place: int, whence: int = os.SEEK_SET) -> int:
        if whence == os.SEEK_END:
            self.kept.seek(0, os.SEEK_END)
            while not self.ended:
                part = self.pipe.read(1 << 20)
                self.ended = not part
                self.keep(part)
        return self.kept.seek(place, whence)

    def close(self) -> None:
        self.kept.close()
        super().close()


def shown(name: str) -> str:
    """A file's name for a sentence."""
    return "standard input" if name == "-" else name


def read(name: str, most: int) -> Content:
    """A file that is bytes, hex text or a text; of one that is longer than `most`, one byte more than that, so that a stream need not end."""
    with unjudged(name) as (start, file):
        if is_hex(name, start):
            return Content(unhexed(file.read(TEXT_MOST + 1), name)[: most + 1], False)
        return Content(file.read(most + 1), is_text(name, start))


@contextlib.contextmanager
def opened(name: str) -> Iterator[IO[bytes]]:
    """A file of bytes, to be read as far as is needed. If it is hex text, the bytes that it names stand in its place."""
    with unjudged(name) as (start, file):
        yield io.BytesIO(unhexed(file.read(TEXT_MOST + 1), name)) if is_hex(name, start) else file


@contextlib.contextmanager
def unjudged(name: str) -> Iterator[tuple[bytes, IO[bytes]]]:
    """A file, whatever it holds, and how it starts. It can be read from its start on, again and again."""
    if name == "-" and sys.stdin is None:
        raise Trouble("standard input cannot be read: it is closed")
    with contextlib.ExitStack() as closed:
        try:
            file = closed.enter_context(open(0 if name == "-" else name, "rb", closefd=name != "-"))
            again: IO[bytes] = file if file.seekable() else closed.enter_context(Kept(file))
            start = again.read(SNIFFED)
            again.seek(0)
        except OSError as error:
            raise Trouble(f"{shown(name)} cannot be read: {error.strerror}") from None
        yield start, again


def is_hex(name: str, start: bytes) -> bool:
    """Hex text: its name says so, or there is nothing but hex digits, white space and comments, and a digit. (Bytes of a table, a trace or a printer's
    input have others: a format of 1 or 2, a count, a length. A typed table has names of columns.)
    """
    return name.lower().endswith(".hex") or (HEX_TEXT.match(start) is not None and HEX_DIGIT.search(start) is not None)


def is_text(name: str, start: bytes) -> bool:
    if name.lower().endswith(TEXT_NAMES) or start.startswith((codecs.BOM_UTF16_LE, codecs.BOM_UTF16_BE)):
        return True
    return bool(start) and NOT_TEXT.search(start) is None


def unhexed(text: bytes, name: str) -> bytes:
    """The bytes that a text names, as ./slots reads it: hex digits, white space, and comments from '#' to the end of the line."""
    if len(text) > TEXT_MOST:
        raise Trouble(f"{shown(name)} is hex text of more than {TEXT_MOST} bytes: name the bytes themselves")
    plain = re.sub(rb"#[^\n]*", b"", text)
    if wrong := re.search(rb"[^0-9A-Fa-f\s]", plain):
        line = 1 + plain.count(b"\n", 0, wrong.start())
        raise Trouble(f"{shown(name)}, line {line}, has something else than hex digits, white space and comments")
    digits = b"".join(plain.split())
    if len(digits) % 2 != 0:
        raise Trouble(f"{shown(name)} has half a byte: an odd number of hex digits")
    return bytes.fromhex(digits.decode("ascii"))


def save(name: str, data: bytes, what: str) -> None:
    """Writes a file wholly, or leaves what is there as it is; without a buffer of Python's, which would try again at the end what has failed."""
    if name == "-" and sys.stdout is None:
        raise Trouble(f"the {what} cannot be written: standard output is closed")
    try:
        if name != "-" and (os.path.isfile(name) or not os.path.exists(name)):
            supplant(os.path.realpath(name), data)  # a link stays, and leads to the new file
            return
        # A pipe or a device: no file may take its place.
        with open(1 if name == "-" else name, "wb", buffering=0, closefd=name != "-") as file:
            put(data, file)
    except BrokenPipeError:
        raise
    except OSError as error:
        raise Trouble(f"{'standard output' if name == '-' else name} cannot be written: {error.strerror}") from None


def supplant(path: str, data: bytes) -> None:
    """A new file takes the place of the old one in one step, once it is wholly there."""
    beside = os.path.join(os.path.dirname(path), f".zb-{secrets.token_hex(8)}")
    with open(beside, "xb", buffering=0) as file:
        try:
            put(data, file)
            os.fsync(file.fileno())  # that the disk is full may show only here
            if os.path.exists(path):
                open(path, "r+b").close()  # one that is protected from writing stays
                shutil.copymode(path, beside)
            os.replace(beside, path)
        except BaseException:
            with contextlib.suppress(OSError):
                os.unlink(beside)
            raise


def put(data: bytes, file: io.FileIO) -> None:
    while data:
        data = data[file.write(data) :]


def same(first: str, second: str) -> bool:
    """Two names of one file."""
    return "-" not in (first, second) and os.path.realpath(first) == os.path.realpath(second)
