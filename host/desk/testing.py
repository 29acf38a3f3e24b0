"""What the tests of this folder share: 01's example, stand-ins for the programs that are asked, and ways to run the command."""
from __future__ import annotations

import contextlib
import io
import subprocess
import unittest
import warnings
from pathlib import Path
from typing import Iterator, Sequence

import zb
from archive import Archive, Ran, Readable
from probe import LATE, Check, Probe, first_cores

HERE = Path(__file__).resolve().parent
ROOT = HERE.parent.parent
COMMAND = str(ROOT / "zb")

# 01's example: its table, the same as a table value, the whole input, with 'a k list of three 2s' (02, Nine), and its trace: slot 0 picks rows 0 and 1,
# slot 1 rows 0 and 2, slot 2 rows 1 and 2.
TABLE = bytes.fromhex("01 03000000 02 0001 03  0A00 0200 0300 0000 00  0B00 0200 0300 0000 00  1400 0200 0300 0000 00")
VALUE = bytes.fromhex(
    "01 03000000 02 0001000000000000 03  0A00 0200 0300 0000 00  0B00 0200 0300 0000 00  1400 0200 0300 0000 00" + 29 * "000000000000000000"
)
THREE_SLOTS = b"\x24\0" + TABLE + b"\3\0" + b"\3\0" + b"\2\2\2"
TRACE = bytes.fromhex("03000000 02020001 02020002 02020102")

TAKEN = b"\0" + VALUE  # the answer to T for this table

# Where they are missing, the command would first prove and build them, which takes minutes.
needs_probe = unittest.skipUnless((ROOT / "target" / "bin" / "probe").exists(), "target/bin/probe is not built: host/build probe")
needs_archive = unittest.skipUnless((ROOT / "target" / "desk" / "run").exists(), "target/desk/run is not built: host/build desk")


def three_slots(listed: bytes) -> bytes:
    """The input for three slots of 01's table with this k list."""
    return b"\x24\0" + TABLE + b"\3\0" + len(listed).to_bytes(2, "little") + listed


def refused(number: int) -> bytes:
    """The answer to T for a table that is refused."""
    return bytes([number]) + bytes(303)


class Fake(Probe):
    """Answers from a list, and remembers what it was asked."""

    def __init__(self, *answers: bytes) -> None:
        super().__init__()
        self.answers = list(answers)
        self.requests: list[bytes] = []

    def ask(self, request: bytes, length: int) -> bytes:
        self.requests.append(request)
        return self.answers.pop(0)


class Interrupted(Probe):
    def ask(self, request: bytes, length: int) -> bytes:
        raise KeyboardInterrupt


class FakeArchive(Archive):
    """Answers from lists, a slot at a time, and remembers what it was asked: a table with the numbers of free cores, or with all of a trace."""

    def __init__(self, slots: Sequence[Ran] = (), checks: Sequence[Check] = ()) -> None:
        super().__init__()
        self.slots, self.checks = list(slots), list(checks)
        self.asked: list[tuple[bytes, bytes]] = []

    def run(self, table: bytes, listed: bytes) -> Iterator[Ran]:
        self.asked.append((table, listed))
        while self.slots:
            yield self.slots.pop(0)

    def check(self, table: bytes, trace: Readable) -> Check:
        self.asked.append((table, b"".join(iter(lambda: trace.read(100_000), b""))))
        return self.checks.pop(0)


class InterruptedArchive(Archive):
    def run(self, table: bytes, listed: bytes) -> Iterator[Ran]:
        raise KeyboardInterrupt


class SlotBySlot(Archive):
    """What the archive must answer for slots, had from a probe, which is asked for one slot after the other."""

    def __init__(self, probe: Probe) -> None:
        super().__init__()
        self.probe = probe

    def run(self, table: bytes, listed: bytes) -> Iterator[Ran]:
        state = self.probe.read_table(table).fresh()
        for k in listed:
            slot = self.probe.run_slot(state, first_cores(k))
            if slot.number > LATE:
                yield Ran(slot.number, slot.row, b"", ())
                return
            yield Ran(slot.number, slot.row, slot.record, tuple(sorted(slot.placement.pairs)))
            if slot.number == LATE:
                return
            state = slot.state


def placement(*pairs: tuple[int, int]) -> bytes:
    rows, on = bytes(row for row, _ in pairs), bytes(core for _, core in pairs)
    return bytes([len(pairs)]) + rows.ljust(8, b"\0") + on.ljust(8, b"\0")


@contextlib.contextmanager
def as_users_have_it() -> Iterator[None]:
    """Without warnings that Python gives only where tests run, among what is written."""
    with warnings.catch_warnings():
        warnings.simplefilter("ignore", ResourceWarning)
        yield


def ran(arguments: list[str], probe: Probe, archive: Archive | None = None) -> tuple[int, str, str]:
    """The exit status of the command, and what it wrote; without an archive, one that has no answers."""
    out, error = io.StringIO(), io.StringIO()
    with contextlib.redirect_stdout(out), contextlib.redirect_stderr(error), as_users_have_it():
        status = zb.main(arguments, zb.Desk(probe, archive or FakeArchive()))
    return status, out.getvalue(), error.getvalue()


def as_process(*arguments: str, given: bytes = b"", command: str = COMMAND) -> tuple[int, bytes, str]:
    """The same of the command itself, called from another folder."""
    run = subprocess.run([command, *arguments], input=given, capture_output=True, cwd="/")
    return run.returncode, run.stdout, run.stderr.decode()


class EndingCase(unittest.TestCase):
    def assert_trouble(self, arguments: list[str], probe: Probe, text: str, archive: Archive | None = None, shown: str = "") -> None:
        """No answer could be had: one line says why. Up to then so much was shown."""
        status, out, error = ran(arguments, probe, archive)
        self.assertEqual((status, out), (2, shown))
        self.assertRegex(error, f"^zb: .*{text}.*\n$")

    def assert_help(self, arguments: list[str], use: str) -> None:
        """Who asks for help gets it, and with it a good end."""
        status, out, error = ran([*arguments, "--help"], Fake(), FakeArchive())
        self.assertEqual((status, error), (0, ""))
        self.assertRegex(out, f"^usage: {use} ")
