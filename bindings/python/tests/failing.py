"""Sources and outputs that fail, and what a signal raises."""

from __future__ import annotations

import io
from array import array
from typing import List


class Breaking(io.RawIOBase):
    """A file that breaks after some lines, in the middle of one."""

    def __init__(self, data: bytes, error: BaseException) -> None:
        self.left, self.error = [data], error

    def read(self, size: int = -1) -> bytes:
        if not self.left:
            raise self.error
        return self.left.pop()


class Grudging(array):  # type: ignore[type-arg]
    """An array that takes all and then fails."""

    def frombytes(self, data: bytes) -> None:  # type: ignore[override]
        super().frombytes(data)
        raise ZeroDivisionError


class Meddling:
    """A file of two lines that changes an output between them."""

    def __init__(self, output: List[int], lines: List[bytes]) -> None:
        self.output, self.left = output, lines

    def read(self, size: int) -> bytes:
        if len(self.left) == 1:
            self.output.append(9)
        return self.left.pop(0) if self.left else b""


class Heard(Exception):
    """A signal was heard."""
