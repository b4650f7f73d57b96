"""Reads, verifies and writes the memory of guests in the layouts of QEMU's live migration.

    import zimgasol

    with zimgasol.open("guest.sav") as guest:
        print(guest.blocks["pc.ram"][:16], guest.missing)

`open` loads a saved guest, `verify` reports whether one is complete, `extract` writes its memory
and its machine's state into files, and `save` writes memory as a stream, with a state one that QEMU
resumes. `Table`, `Load` and `Sender` are the library's calls for streams that come and go piece by
piece. What the library for C does with any bytes is proved; what this package does around it is
tested.
"""

from ._library import LibraryError, library_version
from .errors import (
    CallError,
    Error,
    Fault,
    FileFormatError,
    IncompleteError,
    StreamError,
    status_text,
)
from .extracting import extract
from .load import BlockInfo, Frame, Load, RoundEnd, Standing, Table, Verdict
from .reading import Blocks, Guest, Progress, Report, open, verify
from .saving import Saved, Sender, save
from .state import State

__version__ = "0.3.0"

__all__ = [
    "BlockInfo",
    "Blocks",
    "CallError",
    "Error",
    "Fault",
    "FileFormatError",
    "Frame",
    "Guest",
    "IncompleteError",
    "LibraryError",
    "Load",
    "Progress",
    "Report",
    "RoundEnd",
    "Saved",
    "Sender",
    "Standing",
    "State",
    "StreamError",
    "Table",
    "Verdict",
    "extract",
    "library_version",
    "open",
    "save",
    "status_text",
    "verify",
]
