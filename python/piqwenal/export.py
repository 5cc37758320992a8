"""Writes frames for other programs: extended XYZ, and data files of LAMMPS."""

from __future__ import annotations

import os
from typing import Iterable, Mapping, Optional, TextIO, Union

import numpy as np

from .analysis import wrapped
from .header import Header
from .molecules import molecules_of
from .reader import Frame

Path = Union[str, "os.PathLike[str]"]


def xyz_text(header: Header, frame: Frame, species: Optional[Mapping[int, str]] = None) -> str:
    """One frame as extended XYZ, with absolute coordinates and the label of each monomer.

    The species of a monomer is what the mapping has for its label, and `X` where it has nothing.
    """
    names = species or {}
    x, y, z = header.box.tolist()
    flags = " ".join("T" if each else "F" for each in header.periodic)
    first = (
        f'Lattice="{x} 0 0 0 {y} 0 0 0 {z}" Properties=species:S:1:pos:R:3:label:I:1 '
        f'pbc="{flags}" mcs={frame.mcs}\n'
    )
    labels, which = np.unique(header.labels, return_inverse=True)
    rows = np.empty((header.monomers, 5), dtype=object)
    rows[:, 0] = np.array([names.get(label, "X") for label in labels.tolist()], dtype=object)[which]
    rows[:, 1:4] = frame.positions
    rows[:, 4] = header.labels
    return f"{header.monomers}\n" + first + _lines("%s %d %d %d %d", rows)


def write_xyz(
    header: Header,
    frames: Union[Frame, Iterable[Frame]],
    target: Path,
    species: Optional[Mapping[int, str]] = None,
    overwrite: bool = False,
) -> int:
    """Writes one frame or many as extended XYZ, and gives their number."""
    count = 0
    with opened(target, overwrite) as file:
        for frame in [frames] if isinstance(frames, Frame) else frames:
            file.write(xyz_text(header, frame, species))
            count += 1
    return count


def lammps_text(header: Header, frame: Frame) -> str:
    """One frame as a data file of LAMMPS, of the atom style `bond`.

    Coordinates are folded into the box along periodic axes, and the image flags say how many sides have to be
    added to come to the absolute ones. The types are the labels that occur, in ascending order. All bonds
    have the type 1.
    """
    labels, types = np.unique(header.labels, return_inverse=True)
    bonds = frame.bonds
    lines = [
        f"LAMMPS data file, mcs {frame.mcs}, periodic {' '.join(str(int(p)) for p in header.periodic)}",
        "",
    ]
    lines += [f"{header.monomers} atoms", f"{len(bonds)} bonds"]
    lines += [f"{len(labels)} atom types", f"{int(len(bonds) > 0)} bond types", ""]
    lines += [f"0 {side} {axis}lo {axis}hi" for axis, side in zip("xyz", header.box.tolist())]
    lines += ["", "Masses", ""]
    lines += [f"{index + 1} 1 # label {label}" for index, label in enumerate(labels.tolist())]
    text = "\n".join([*lines, "", "Atoms # bond", "", _atoms(header, frame, types + 1)])
    if len(bonds):
        rows = np.column_stack((np.arange(1, len(bonds) + 1), bonds + 1))
        text += "\nBonds\n\n" + _lines("%d 1 %d %d", rows)
    return text


def _atoms(header: Header, frame: Frame, types: np.ndarray) -> str:
    folded = wrapped(frame.positions, header.box, header.periodic)
    images = (frame.positions - folded) // header.box
    molecules = molecules_of(frame.bonds, header.monomers).of + 1
    numbers = np.arange(1, header.monomers + 1)
    return _lines("%d %d %d %d %d %d %d %d %d", np.column_stack((numbers, molecules, types, folded, images)))


def _lines(form: str, rows: np.ndarray) -> str:
    """A line of this form for each row."""
    return (form + "\n") * len(rows) % tuple(rows.ravel().tolist())


def write_lammps(header: Header, frame: Frame, target: Path, overwrite: bool = False) -> None:
    """Writes one frame as a data file of LAMMPS."""
    with opened(target, overwrite) as file:
        file.write(lammps_text(header, frame))


def opened(target: Path, overwrite: bool) -> TextIO:
    """A file of text to write to. One that is there is refused, unless it may be overwritten."""
    return open(target, "w" if overwrite else "x", encoding="ascii", newline="\n")
