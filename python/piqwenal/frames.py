"""Reads the lines of a frame, a block at once."""

from __future__ import annotations

from typing import NamedTuple, Optional

import numpy as np

from .errors import FormatError
from .header import Header
from .heads import START_REACH, Heads
from .lines import Block


class Fault(NamedTuple):
    """What is wrong with a line, which is told by its place in its block."""

    at: int
    cause: str
    message: str


class VectorTable:
    """What each identifier byte means."""

    def __init__(self, header: Header) -> None:
        self.vectors = np.zeros((256, 3), dtype=np.int64)
        self.vectors[header.identifiers] = header.vectors
        self.known = np.zeros(256, dtype=bool)
        self.known[header.identifiers] = True


class FrameBuilder:
    """The frame that has begun. It takes blocks of lines until all monomers have a place.

    `bonded` tells for each monomer whether it is bonded to the one before it; in the first frame it is
    absent, and `shown` then collects what the lines show.
    """

    def __init__(self, mcs: int, count: int, table: VectorTable, bonded: Optional[np.ndarray]) -> None:
        self.mcs = mcs
        self.positions = np.empty((count, 3), dtype=np.int64)
        self.placed = 0
        self.shown = np.zeros(count, dtype=bool)
        self._table = table
        self._bonded = bonded

    @property
    def is_whole(self) -> bool:
        """Whether all monomers have a place."""
        return self.placed == len(self.positions)

    def take(self, block: Block) -> int:
        """Takes the lines up to the end of the frame or of the block, and gives their number."""
        heads = block.heads()
        fault = _fault_of(heads)
        usable = len(block) if fault is None else fault.at
        sizes = 1 + np.maximum(block.ends - heads.behind - 1, 0)[:usable]
        totals = np.cumsum(sizes)
        needed = len(self.positions) - self.placed
        stop = int(np.searchsorted(totals, needed))
        if stop < usable:
            fault = None if totals[stop] == needed else Fault(stop, "FrameLong", _LONG)
            usable = stop + 1
        if usable:
            fault = self._place(block, heads, sizes[:usable], totals[:usable], fault) or fault
        if fault is not None:
            raise FormatError(block.number(fault.at), fault.cause, fault.message)
        return usable

    def _place(
        self, block: Block, heads: Heads, sizes: np.ndarray, totals: np.ndarray, fault: Optional[Fault]
    ) -> Optional[Fault]:
        """Places the monomers of some lines, and tells the first fault of their strings."""
        count = int(totals[-1])
        begins = totals - sizes
        lines = len(sizes)
        if count == lines:
            if fault is None:
                self._keep(heads.places[:count])
            return None
        # the byte before each monomer; for the first of a line it is the one behind the numbers
        places = np.repeat(heads.behind[:lines] - begins, sizes)
        places += np.arange(count)
        identifiers = block.data.take(places)
        follows = np.ones(count, dtype=bool)
        follows[begins] = False
        unknown = np.flatnonzero(follows & ~self._table.known.take(identifiers))
        if unknown.size:
            index = int(np.searchsorted(totals, unknown[0], side="right"))
            return _unknown(index, identifiers[unknown[0]])
        if fault is not None and fault.cause == "FrameLong":
            return self._unbonded(follows[: begins[-1]], totals)
        unbonded = self._unbonded(follows, totals)
        if fault is None and unbonded is None:
            self._walk(identifiers, follows, heads.places[:lines], sizes)
        return unbonded

    def _walk(
        self, identifiers: np.ndarray, follows: np.ndarray, places: np.ndarray, sizes: np.ndarray
    ) -> None:
        """Places the monomers of lines that begin at these places and lead on by these identifiers."""
        begins = np.cumsum(sizes) - sizes
        after = self.placed + len(identifiers)
        self.shown[self.placed : after] = follows
        walked = self.positions[self.placed : after]
        np.take(self._table.vectors, identifiers, axis=0, out=walked, mode="clip")
        walked[begins] = 0
        np.cumsum(walked, axis=0, out=walked)
        walked += np.repeat(places - walked[begins], sizes, axis=0)
        self.placed = after

    def _keep(self, places: np.ndarray) -> None:
        self.positions[self.placed : self.placed + len(places)] = places
        self.placed += len(places)

    def _unbonded(self, follows: np.ndarray, totals: np.ndarray) -> Optional[Fault]:
        if self._bonded is None:
            return None
        bonded = self._bonded[self.placed : self.placed + len(follows)]
        wrong = np.flatnonzero(follows & ~bonded)
        if not wrong.size:
            return None
        monomer = self.placed + int(wrong[0])
        index = int(np.searchsorted(totals, wrong[0], side="right"))
        return Fault(index, "BondUnknown", f"the monomers {monomer} and {monomer + 1} are not bonded")


_LONG = "the frame has more places than there are monomers"


def _fault_of(heads: Heads) -> Optional[Fault]:
    """The first line that is no frame line."""
    wrong = heads.bad | heads.far
    if not wrong.any():
        return None
    index = int(wrong.argmax())
    if heads.bad[index]:
        return Fault(
            index, "BadLine", "a frame line is three numbers, and one space and identifiers may follow"
        )
    return Fault(index, "OutOfLimit", f"a coordinate is beyond {START_REACH}")


def judge_surplus(block: Block, table: VectorTable) -> None:
    """Refuses the first line of a block that stands behind a whole frame."""
    line = block.first()
    heads = line.heads()
    fault = _fault_of(heads)
    if fault is None:
        string = block.data[heads.behind[0] + 1 : line.ends[0]]
        unknown = string[~table.known[string]]
        fault = _unknown(0, unknown[0]) if unknown.size else Fault(0, "FrameLong", _LONG)
    raise FormatError(block.number(0), fault.cause, fault.message)


def _unknown(index: int, byte: int) -> Fault:
    return Fault(index, "UnknownId", f"the byte {byte} is no identifier of the set")
