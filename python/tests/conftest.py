"""Small files for the tests, put together from their parts."""

from __future__ import annotations

import io
from typing import List, Tuple

import pytest

from piqwenal import Frame, Header, read_all

# A is +2 along x, B -2 along x, and so on; the last two are a blank and an exclamation mark
SET = "!set_of_bondvectors\n2 0 0:65\n-2 0 0:66\n0 2 0:67\n0 -2 0:68\n2 1 0:32\n-2 -1 0:33\n"


def header(monomers: int, side: int = 16, periodic: Tuple[int, int, int] = (1, 1, 1), more: str = SET) -> str:
    """The seven values, and lists behind them."""
    box = "".join(f"!box_{axis}={side}\n" for axis in "xyz")
    walls = "".join(f"!periodic_{axis}={each}\n" for axis, each in zip("xyz", periodic))
    return f"!number_of_monomers={monomers}\n" + box + walls + more


def read(text: str) -> Tuple[Header, List[Frame]]:
    """The header and the frames of a file with these characters, each a byte."""
    return read_all(io.BytesIO(text.encode("latin-1")))


class Slow(io.BytesIO):
    """A stream that gives one byte at a time."""

    def read1(self, size: int = -1) -> bytes:  # noqa: D102
        return self.read(min(1, size) if size >= 0 else 1)


class Pieces(io.BytesIO):
    """A stream that gives seven bytes at a time."""

    def read1(self, size: int = -1) -> bytes:  # noqa: D102
        return self.read(7)


@pytest.fixture
def straight() -> Tuple[Header, List[Frame]]:
    """A straight chain of four along x, 2 apart, and the same one shifted by (1, 2, 2) ten sweeps later."""
    return read(header(4) + "\n!mcs=0\n0 0 0 AAA\n\n!mcs=10\n1 2 2 AAA\n")
