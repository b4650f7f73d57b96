"""Checks what follows RAM in a machine's stream, by the rules of docs/use/ZIMGASOL.md.

Devices' sections don't have their lengths, so they aren't followed. A stream is whole if it ends
with the end byte alone, or exactly with a valid description of the devices.
"""

from __future__ import annotations

import json
from typing import Optional

WHOLE, CUT, UNKNOWN, EXTRA = "whole", "cut", "unknown", "extra"

_HEAD, _HEAD_LEN, _OPENING = b"\0\6", 6, b'{"'
_NEAR = 5
_MOST_KEPT = 1 << 26


class Tail:
    """The bytes after RAM, of which those from just before the last zero byte on are kept."""

    def __init__(self) -> None:
        self.total = 0
        self._first = 0
        self._zeros = 0
        self._kept = bytearray()
        # whether bytes before those that are kept were dropped
        self._is_cut = False

    def take(self, piece: bytes) -> None:
        """Takes the next bytes. Zeros at the end are only counted."""
        if piece and self.total == 0:
            self._first = piece[0]
        self.total += len(piece)
        text = piece.rstrip(b"\0")
        if text:
            if self._zeros > _HEAD_LEN:
                # a description's head has no more zeros, and its JSON has none
                self._drop(len(self._kept))
            self._kept += bytes(min(self._zeros, _HEAD_LEN)) + text
            self._zeros = 0
            last = self._kept.rfind(0)
            self._drop(max(last - _NEAR, len(self._kept) - _MOST_KEPT))
        self._zeros += len(piece) - len(text)

    def _drop(self, count: int) -> None:
        if count > 0:
            del self._kept[:count]
            self._is_cut = True

    def state(self) -> str:
        """Returns what is known at the end of the input."""
        if self.total == 0:
            return CUT
        if self._first == 0:
            return self._after_end_byte()
        return self._after_devices()

    def _end_of(self, at: int) -> Optional[int]:
        """Returns where the description ends whose end byte is kept at `at`; None without one."""
        text = bytes(self._kept[at : at + _HEAD_LEN + 2])
        if not text.startswith(_HEAD) or text[_HEAD_LEN:] != _OPENING:
            return None
        return at + _HEAD_LEN + int.from_bytes(text[2:_HEAD_LEN], "big")

    def _is_valid(self, at: int, end: int) -> bool:
        try:
            return isinstance(json.loads(self._kept[at + _HEAD_LEN : end]), dict)
        except (ValueError, RecursionError):
            return False

    def _after_devices(self) -> str:
        last = self._kept.rfind(0)
        places = [(at, self._end_of(at)) for at in range(max(0, last - _NEAR), last + 1)]
        found = [(at, end) for at, end in places if end is not None]
        for at, end in found:
            if end <= len(self._kept) and self._is_valid(at, end):
                return WHOLE if end == len(self._kept) and not self._zeros else EXTRA
        if self._zeros or any(end == len(self._kept) for _, end in found):
            return UNKNOWN
        return CUT

    def _after_end_byte(self) -> str:
        if self.total == 1:
            return WHOLE
        if self._is_cut:
            return EXTRA
        end = self._end_of(0)
        if end is not None and end <= len(self._kept) and self._is_valid(0, end):
            return WHOLE if end == len(self._kept) and not self._zeros else EXTRA
        if end is not None and end > len(self._kept) and not self._zeros:
            return CUT
        text = bytes(self._kept) + bytes(min(self._zeros, 8))
        in_head = text.startswith(_HEAD) and _OPENING.startswith(text[_HEAD_LEN:])
        return CUT if self.total < 8 and in_head else EXTRA
