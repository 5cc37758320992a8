"""Calls the jobs that tell of a file, and reads their tables.

The path of the program is found as `run` finds it. Monomers are counted from 0 here, while the tables count from 1.
Fractions are kept exactly; their quotients are arrays of floating point numbers.
"""

from __future__ import annotations

from dataclasses import dataclass
from fractions import Fraction
from typing import Dict, List, Optional, Tuple, Union

import numpy as np

from .run import Crossing, Path, crossing_of, lines_of, output_of


@dataclass(frozen=True, eq=False)
class Radii:
    """For each molecule its least monomer, its size, its squared radius of gyration and the squared distance between
    its least and its greatest monomer, in lattice units squared."""

    first: np.ndarray
    sizes: np.ndarray
    exact: List[Fraction]
    end_squared: List[int]

    @property
    def radius_squared(self) -> np.ndarray:
        """The squared radii of gyration as floating point numbers."""
        return np.array([float(each) for each in self.exact])


@dataclass(frozen=True, eq=False)
class Moves:
    """The mean squared displacement of all monomers since the first frame, and for each molecule its least monomer, its
    size and the squared displacement of its centre of mass, in lattice units squared."""

    monomers: Fraction
    first: np.ndarray
    sizes: np.ndarray
    exact: List[Fraction]

    @property
    def g1(self) -> float:
        """The mean squared displacement of monomers."""
        return float(self.monomers)

    @property
    def g3(self) -> float:
        """The mean over molecules of the squared displacement of the centre of mass."""
        return float(sum(self.exact) / len(self.exact))


@dataclass(frozen=True)
class Trial:
    """What a trial comes to: its number, the moves that were made, and the sum of the numerators of the radii."""

    number: int
    accepted: int
    radius: int


def radii(source: Path, program: Optional[Path] = None, **keys: int) -> Radii:
    """The table of the sizes of the molecules of the last whole frame."""
    rows = [_molecule(line, 5) for line in _rows("radii", source, program, **keys)]
    return Radii(*_numbers(rows), [Fraction(row[3]) for row in rows], [int(row[4]) for row in rows])


def moves(source: Path, program: Optional[Path] = None, **keys: int) -> Moves:
    """The table of how far monomers and molecules went from the first whole frame to the last."""
    first, *others = _rows("moves", source, program, **keys)
    if len(first) != 2 or first[0] != "monomers":
        raise ValueError(f"this is no first line of the table of moves: {' '.join(first)[:200]!r}")
    rows = [_molecule(line, 4) for line in others]
    return Moves(Fraction(first[1]), *_numbers(rows), [Fraction(row[3]) for row in rows])


def contacts(source: Path, program: Optional[Path] = None, **keys: int) -> Dict[Tuple[int, int], int]:
    """How many contacts each two classes a <= b have, where they have any, in the last whole frame."""
    *rows, last = _rows("contacts", source, program, **keys)
    found = {(int(a), int(b)): int(count) for a, b, count in rows}
    if last != ["total", str(sum(found.values()))]:
        raise ValueError(f"the counts of the table do not add up to its last line: {' '.join(last)[:200]!r}")
    return found


def clusters(source: Path, program: Optional[Path] = None, **keys: int) -> Dict[int, int]:
    """How many clusters there are of each size that one has, in the last whole frame."""
    return {int(size): int(count) for size, count in _rows("clusters", source, program, **keys)}


def check(source: Path, program: Optional[Path] = None, **keys: int) -> Optional[Crossing]:
    """The first crossing move of the set of a file; none where the set is free."""
    return crossing_of(lines_of(output_of("check", source, program, **keys)))


def trial(number: int, program: Optional[Path] = None) -> Trial:
    """A run of one melt with the number as its seed."""
    told = lines_of(output_of("trial", None, program, number=number))
    return Trial(told["trial"][0], told["accepted"][0], told["radius"][0])


def _rows(job: str, source: Union[Path, None], program: Optional[Path], **keys: int) -> List[List[str]]:
    return [line.split() for line in output_of(job, source, program, **keys).splitlines()]


def _molecule(fields: List[str], count: int) -> List[str]:
    if len(fields) != count or fields[0] != "molecule":
        raise ValueError(f"this is no line of a molecule: {' '.join(fields)[:200]!r}")
    return fields


def _numbers(rows: List[List[str]]) -> Tuple[np.ndarray, np.ndarray]:
    """The least monomers, counted from 0, and the sizes."""
    columns = np.array([row[1:3] for row in rows], dtype=np.int64).reshape(-1, 2)
    return columns[:, 0] - 1, columns[:, 1]
