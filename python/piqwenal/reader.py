"""Streams the frames of a file, one by one.

What is judged is the form of each line and its numbers, names and identifiers, the order of commands and
times, and that the bonds that later lines show or that are removed are there. Not judged are overlaps, walls,
whether the vector of a bond is in the set, and how many bonds a monomer has; `bfm_cli check` does that.
A file whose only frame is cut short has no frames here, while the program refuses it.
"""

from __future__ import annotations

import os
from dataclasses import dataclass
from typing import BinaryIO, Iterator, List, Optional, Tuple, Union

import numpy as np

from .bonds import codes_of, pairs_of, successive_of
from .errors import FormatError
from .frames import FrameBuilder, VectorTable, judge_surplus
from .header import LISTS, UNBUILT, VALUES, Header, HeaderReader, bare, bond_of
from .lines import Block, Command, Event, Lines
from .numbers import VALUE, numbers, within

GREATEST_TIME = 1 << 40

Source = Union[str, "os.PathLike[str]", BinaryIO]


@dataclass(frozen=True, eq=False)
class Frame:
    """One frame: its time in sweeps, the places of all monomers (N x 3, absolute), and its bonds as codes."""

    mcs: int
    positions: np.ndarray
    codes: np.ndarray

    @property
    def bonds(self) -> np.ndarray:
        """The pairs i < j of bonded monomers, counted from 0, ascending."""
        return pairs_of(self.codes, len(self.positions))


class Trajectory:
    """The header of a file, and its whole frames in order. It can be gone through once.

    header   what stands before the first frame
    frames   how many whole frames have come
    skipped  how many commands that are not known have come
    kept     the length in bytes of what ends with the last whole frame that came
    """

    def __init__(self, stream: BinaryIO, owned: bool = False) -> None:
        self._stream = stream
        self._owned = owned
        self._lines = Lines(stream)
        self._events: Iterator[Event] = iter(self._lines)
        self._builder: Optional[FrameBuilder] = None
        self._mode = "frame"
        self._last_mcs = 0
        self.frames = 0
        self.kept = 0
        reader = HeaderReader()
        first = self._read_header(reader)
        _time_of(first)
        self.header: Header = reader.finish(first.number)
        self.skipped = reader.skipped
        self._table = VectorTable(self.header)
        self._codes = self.header.listed
        self._bonded: Optional[np.ndarray] = None
        self._begin(first)
        self._run = self._go_on()

    @classmethod
    def open(cls, source: Source) -> "Trajectory":
        """Opens a path, or takes a binary stream, and reads the header."""
        if not isinstance(source, (str, os.PathLike)):
            return cls(source)
        stream = open(source, "rb")
        try:
            return cls(stream, owned=True)
        except BaseException:
            stream.close()
            raise

    def close(self) -> None:
        """Closes the file, where a path was given."""
        if self._owned:
            self._stream.close()

    def __enter__(self) -> "Trajectory":
        return self

    def __exit__(self, *_: object) -> None:
        self.close()

    def __iter__(self) -> Iterator[Frame]:
        return self._run

    def _read_header(self, reader: HeaderReader) -> Command:
        for event in self._events:
            if isinstance(event, Block):
                reader.entries(event)
            elif event.name == "mcs":
                return event
            else:
                reader.command(event)
        raise FormatError(self._lines.finished + 1, "NoFrame", "the file ends before its first !mcs")

    def _go_on(self) -> Iterator[Frame]:
        for event in self._events:
            if isinstance(event, Command):
                self._command(event)
            elif self._mode == "frame":
                yield from self._frame_lines(event)
            elif self._mode != "skip":
                self._change(event)

    def _frame_lines(self, block: Block) -> Iterator[Frame]:
        builder = self._builder
        if builder is not None:
            count = builder.take(block)
            if not builder.is_whole:
                return
            yield self._finish(builder, block.stop(count - 1))
            block = block.behind(count)
        if len(block):
            judge_surplus(block, self._table)

    def _finish(self, builder: FrameBuilder, kept: int) -> Frame:
        monomers = self.header.monomers
        if self._bonded is None:
            seconds = np.flatnonzero(builder.shown)
            shown = (seconds - 1) * monomers + seconds
            self._codes = np.union1d(self._codes, shown)
            self._bonded = successive_of(self._codes, monomers)
        self._builder = None
        self.frames += 1
        self.kept = kept
        return Frame(builder.mcs, builder.positions, self._codes)

    def _begin(self, command: Command) -> None:
        mcs = _time_of(command)
        self._judge_whole(command)
        if mcs < self._last_mcs:
            raise FormatError(command.number, "McsOrder", f"the time {mcs} is before {self._last_mcs}")
        self._last_mcs = mcs
        self._mode = "frame"
        self._builder = FrameBuilder(mcs, self.header.monomers, self._table, self._bonded)

    def _judge_whole(self, command: Command) -> None:
        if self._builder is not None:
            placed, count = self._builder.placed, self.header.monomers
            raise FormatError(command.number, "FrameShort", f"the frame has {placed} of {count} places")

    def _command(self, command: Command) -> None:
        """A command behind the first `!mcs`."""
        name, line = command.name, command.number
        if name == "mcs":
            self._begin(command)
        elif name in ("add_bonds", "remove_bonds"):
            bare(command)
            self._judge_whole(command)
            self._mode = name
        elif name in VALUES or name in LISTS:
            self._judge_misplaced(command)
        elif name in UNBUILT:
            self._judge_whole(command)
            raise FormatError(line, "Unbuilt", f"!{name} is known and not read yet")
        else:
            self._judge_whole(command)
            self._mode = "skip"
            self.skipped += 1

    def _judge_misplaced(self, command: Command) -> None:
        if command.name in VALUES:
            (value,) = numbers(VALUE, command.rest, command.number)
            within(value, *VALUES[command.name], command.name, command.number)
        else:
            bare(command)
        self._judge_whole(command)
        raise FormatError(command.number, "Misplaced", f"!{command.name} stands behind the first !mcs")

    def _change(self, block: Block) -> None:
        """Entries of `!add_bonds` or `!remove_bonds`."""
        entries: List[Tuple[int, int]] = []
        fault: Optional[FormatError] = None
        for index in range(len(block)):
            try:
                entries.append(self._pair(block, index))
            except FormatError as error:
                fault = error
                break
        # what is wrong with an entry before the fault goes before it
        pairs = np.array(entries, dtype=np.int64).reshape(-1, 2)
        codes = codes_of(pairs, self.header.monomers)
        if self._mode == "add_bonds":
            self._codes = np.union1d(self._codes, codes)
        else:
            self._judge_present(block, pairs)
            self._codes = np.setdiff1d(self._codes, codes, assume_unique=True)
        if fault is not None:
            raise fault
        self._bonded = successive_of(self._codes, self.header.monomers)

    def _pair(self, block: Block, index: int) -> Tuple[int, int]:
        line = block.number(index)
        pair = bond_of(block.text(index), line)
        if max(pair) >= self.header.monomers:
            raise FormatError(line, "BadMonomer", f"there is no monomer {max(pair) + 1}")
        return pair

    def _judge_present(self, block: Block, pairs: np.ndarray) -> None:
        """Refuses the first entry that removes a bond which is none, or is removed by an earlier entry."""
        codes = pairs.min(axis=1) * self.header.monomers + pairs.max(axis=1)
        removed = np.zeros(len(codes), dtype=bool)
        removed[np.unique(codes, return_index=True)[1]] = True
        wrong = np.flatnonzero(~removed | ~np.isin(codes, self._codes))
        if wrong.size:
            first, second = pairs[wrong[0]] + 1
            line = block.number(wrong[0])
            raise FormatError(line, "BondUnknown", f"the monomers {first} and {second} are not bonded")


def _time_of(command: Command) -> int:
    (mcs,) = numbers(VALUE, command.rest, command.number)
    return within(mcs, 0, GREATEST_TIME, "a time", command.number)


def read_all(source: Source) -> Tuple[Header, List[Frame]]:
    """The header and all whole frames of a file that is small enough for that."""
    with Trajectory.open(source) as trajectory:
        return trajectory.header, list(trajectory)
