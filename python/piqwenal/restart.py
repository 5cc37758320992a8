"""Writes a file of a single frame, from which the program goes on."""

from __future__ import annotations

import os
from typing import Iterator, List, Optional, Union

import numpy as np

from .bonds import pairs_of, successive_of
from .header import VALUES, Header
from .reader import Frame, Source, Trajectory


class NoFrame(ValueError):
    """No frame of the file is whole."""


def last_frame(trajectory: Trajectory) -> Frame:
    """The last whole frame of a trajectory, read to its end; one frame is kept at a time."""
    last: Optional[Frame] = None
    for frame in trajectory:
        last = frame
    if last is None:
        raise NoFrame("no frame of the file is whole")
    return last


def write_restart(source: Source, target: Union[str, "os.PathLike[str]"], overwrite: bool = False) -> Frame:
    """Writes the last whole frame of a file with its header and its bonds, and gives that frame."""
    with Trajectory.open(source) as trajectory:
        frame = last_frame(trajectory)
        text = world_bytes(trajectory.header, frame)
    with open(target, "wb" if overwrite else "xb") as file:
        file.write(text)
    return frame


def world_bytes(header: Header, frame: Frame) -> bytes:
    """A file with this header and this one frame, in the form in which the program writes a start."""
    identifiers = _identifiers(header, frame)
    lines = [f"!{name}={value}" for name, value in zip(VALUES, _values(header))]
    lines += _set_lines(header)
    lines += _listed("bonds", _bond_lines(frame, identifiers))
    lines += _listed("attributes", _numbered(header.labels))
    lines += _listed("bfm_valence", _numbered(header.valences))
    lines += _listed("bfm_fixed", [str(monomer + 1) for monomer in np.flatnonzero(header.fixed).tolist()])
    lines += _listed("bfm_contacts", _contact_lines(header))
    lines += _listed("bfm_acceptance", [str(number) for number in header.acceptance.tolist()])
    return ("\n".join(lines) + "\n").encode("ascii") + group_bytes(header, frame)


def group_bytes(header: Header, frame: Frame) -> bytes:
    """A frame as the program writes it: an empty line, `!mcs=T` and its lines."""
    return f"\n!mcs={frame.mcs}\n".encode("ascii") + b"".join(
        _frame_lines(frame, _identifiers(header, frame))
    )


def _identifiers(header: Header, frame: Frame) -> np.ndarray:
    """For each monomer the identifier by which a line goes on to it, and 0 where it begins a line."""
    table = np.zeros((7, 7, 7), dtype=np.uint8)
    table[tuple((header.vectors + 3).T)] = header.identifiers
    identifiers = np.zeros(header.monomers, dtype=np.uint8)
    steps = np.diff(frame.positions, axis=0)
    near = np.flatnonzero((np.abs(steps) <= 3).all(axis=1) & successive_of(frame.codes, header.monomers)[1:])
    identifiers[near + 1] = table[tuple((steps[near] + 3).T)]
    return identifiers


def _frame_lines(frame: Frame, identifiers: np.ndarray) -> Iterator[bytes]:
    begins = np.flatnonzero(identifiers == 0)
    ends = np.append(begins[1:], len(identifiers))
    strings = identifiers.tobytes()
    for begin, end, place in zip(begins.tolist(), ends.tolist(), frame.positions[begins].tolist()):
        string = b" " + strings[begin + 1 : end] if end > begin + 1 else b""
        yield b"%d %d %d" % tuple(place) + string + b"\n"


def _values(header: Header) -> List[int]:
    return [header.monomers, *header.box.tolist(), *map(int, header.periodic.tolist())]


def _set_lines(header: Header) -> List[str]:
    rows = zip(header.vectors.tolist(), header.identifiers.tolist())
    return _listed("set_of_bondvectors", [f"{x} {y} {z}:{identifier}" for (x, y, z), identifier in rows])


def _bond_lines(frame: Frame, identifiers: np.ndarray) -> List[str]:
    """The bonds that the lines of the frame do not show."""
    pairs = pairs_of(frame.codes, len(identifiers))
    shown = (pairs[:, 1] == pairs[:, 0] + 1) & (identifiers[pairs[:, 1]] != 0)
    return [f"{i} {j}" for i, j in (pairs[~shown] + 1).tolist()]


def _contact_lines(header: Header) -> List[str]:
    rows = np.argwhere(np.triu(header.contacts)).tolist()
    return [f"{a} {b}:{header.contacts[a, b]}" for a, b in rows]


def _numbered(values: np.ndarray) -> List[str]:
    return [f"{monomer + 1}:{values[monomer]}" for monomer in np.flatnonzero(values).tolist()]


def _listed(name: str, lines: List[str]) -> List[str]:
    return ["!" + name, *lines] if lines else []
