"""What a command needs is proved and built before it is asked: host/build does it, and says how far it is."""
from __future__ import annotations

import functools
import subprocess
from pathlib import Path

from trouble import Trouble

# Found from this file's own place, through symlinks, so that it does not matter where a user stands.
HOST = Path(__file__).resolve().parent.parent
BUILD = str(HOST / "build")


@functools.cache  # once for a run of the command
def need(name: str) -> None:
    """Sees that a program is built: probe, slot_printer, or desk, the program behind archive.py."""
    try:
        build = subprocess.Popen([BUILD, name], stdin=subprocess.DEVNULL)
    except OSError as error:
        raise Trouble(f"host/build does not start: {error.strerror}") from None
    try:
        status = build.wait()
    except BaseException:  # it ends what it has started itself, if it is asked to
        build.terminate()
        build.wait()
        raise
    if status != 0:
        raise Trouble(f"without the program {name} there is no answer")
