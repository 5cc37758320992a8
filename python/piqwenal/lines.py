"""Cuts a stream of bytes into commands and blocks of entries.

Blank lines and comments are dropped here. What stands behind the last newline is no line.
"""

from __future__ import annotations

import re
from typing import BinaryIO, Iterator, NamedTuple, Optional, Union

import numpy as np

from .errors import FormatError
from .heads import Heads, heads_of

LONGEST_LINE = 524_287
PIECE = 1 << 16

NEWLINE, RETURN, SPACE, TAB, BANG, HASH = 10, 13, 32, 9, 33, 35

_COMMAND = re.compile(rb"#?!([A-Za-z0-9_]*)(.*)", re.DOTALL)


class Command(NamedTuple):
    """A command line: its name, what stands behind the name, and the number of the line."""

    name: str
    rest: bytes
    number: int


class Entries:
    """All entries of a chunk of whole lines.

    Entry k is `data[starts[k]:ends[k]]`, without newline and carriage return. Its line has the number
    `lines[k]` in the chunk, counted from 0, and `numbers[k]` in the file, where it ends before `stops[k]`.
    """

    def __init__(self, chunk: "_Chunk", keep: np.ndarray) -> None:
        self.data = chunk.data
        self.lines = np.flatnonzero(keep)
        self.starts = chunk.starts[self.lines]
        self.ends = chunk.ends[self.lines]
        self.numbers = self.lines + chunk.number
        self.stops = chunk.newlines[self.lines] + (chunk.offset + 1)
        self._heads: Optional[Heads] = None

    def heads(self) -> Heads:
        """The numbers with which the entries begin; they are read when they are first asked for."""
        if self._heads is None:
            self._heads = heads_of(self.data, self.starts, self.ends)
        return self._heads


class Block:
    """Entries of a chunk, from begin to end, between two commands or to the end of the chunk."""

    __slots__ = ("_entries", "_range")

    def __init__(self, entries: Entries, begin: int, end: int) -> None:
        self._entries = entries
        self._range = slice(begin, end)

    def __len__(self) -> int:
        return self._range.stop - self._range.start

    @property
    def data(self) -> np.ndarray:
        """The bytes of the chunk."""
        return self._entries.data

    @property
    def ends(self) -> np.ndarray:
        """Where in the bytes each entry ends."""
        return self._entries.ends[self._range]

    def number(self, index: int) -> int:
        """The number of the line in which an entry stands, counted from 1."""
        return int(self._entries.numbers[self._range.start + index])

    def stop(self, index: int) -> int:
        """The offset in the file behind the line of an entry."""
        return int(self._entries.stops[self._range.start + index])

    def text(self, index: int) -> bytes:
        """The bytes of one entry."""
        at = self._range.start + index
        return self._entries.data[self._entries.starts[at] : self._entries.ends[at]].tobytes()

    def heads(self) -> Heads:
        """The numbers with which the entries begin."""
        return Heads(*(each[self._range] for each in self._entries.heads()))

    def first(self) -> "Block":
        """The first entry alone."""
        return Block(self._entries, self._range.start, self._range.start + 1)

    def behind(self, count: int) -> "Block":
        """The block without its first entries."""
        return Block(self._entries, self._range.start + count, self._range.stop)


Event = Union[Command, Block]


class _Chunk(NamedTuple):
    """Whole lines, all of them: where each starts, where its newline stands and where its text ends."""

    data: np.ndarray
    starts: np.ndarray
    newlines: np.ndarray
    ends: np.ndarray
    number: int
    offset: int


class Lines:
    """The commands and entries of a stream, in order. A piece of it and one unfinished line are kept."""

    def __init__(self, stream: BinaryIO, piece: int = PIECE) -> None:
        self._read = getattr(stream, "read1", stream.read)
        self._piece = piece
        self.finished = 0
        self._offset = 0

    def __iter__(self) -> Iterator[Event]:
        carry = b""
        while True:
            piece = self._read(self._piece)
            if not piece:
                return
            data = carry + piece
            cut = data.rfind(b"\n") + 1
            if cut:
                yield from self._events(np.frombuffer(data, dtype=np.uint8, count=cut))
            # one byte more than a line may have tells already that it is too long
            carry = data[cut : cut + LONGEST_LINE + 1]

    def _events(self, data: np.ndarray) -> Iterator[Event]:
        chunk = _chunk_of(data, self.finished + 1, self._offset)
        lengths = chunk.newlines - chunk.starts
        long = np.flatnonzero(lengths > LONGEST_LINE)
        count = int(long[0]) if long.size else len(lengths)
        commands = _commands(chunk)
        entries = Entries(chunk, _keep(chunk, commands))
        commands = np.append(commands[commands < count], count)
        at = 0
        for index, end in zip(commands.tolist(), np.searchsorted(entries.lines, commands).tolist()):
            if end > at:
                yield Block(entries, at, end)
            if index < count:
                yield _command(chunk, index)
            at = end
        if long.size:
            raise FormatError(chunk.number + count, "OutOfLimit", f"a line has at most {LONGEST_LINE} bytes")
        self.finished += len(lengths)
        self._offset += len(data)


def _chunk_of(data: np.ndarray, number: int, offset: int) -> _Chunk:
    newlines = np.flatnonzero(data == NEWLINE)
    starts = np.zeros_like(newlines)
    starts[1:] = newlines[:-1] + 1
    returned = (newlines > starts) & (data[newlines - 1] == RETURN)
    return _Chunk(data, starts, newlines, newlines - returned, number, offset)


def _commands(chunk: _Chunk) -> np.ndarray:
    """Which lines are commands."""
    first = chunk.data[chunk.starts]
    hashed = np.flatnonzero(first == HASH)
    commands = first == BANG
    commands[hashed] = chunk.data[chunk.starts[hashed] + 1] == BANG
    return np.flatnonzero(commands)


def _command(chunk: _Chunk, index: int) -> Command:
    text = chunk.data[chunk.starts[index] : chunk.ends[index]].tobytes()
    match = _COMMAND.fullmatch(text)
    assert match is not None
    return Command(match.group(1).decode("ascii"), match.group(2), chunk.number + index)


def _keep(chunk: _Chunk, commands: np.ndarray) -> np.ndarray:
    """For each line whether it is an entry: no command, no comment and not blank."""
    data = chunk.data
    first = data[chunk.starts]
    keep = (chunk.ends > chunk.starts) & (first != HASH)
    keep[commands] = False
    leading = np.flatnonzero(keep & ((first == SPACE) | (first == TAB)))
    if leading.size:
        solid = np.cumsum((data != SPACE) & (data != TAB))
        keep[leading] = solid[chunk.ends[leading] - 1] > solid[chunk.starts[leading]]
    return keep
