"""The header of a file: all that stands before its first frame."""

from __future__ import annotations

from dataclasses import dataclass
from typing import Dict, List, Optional, Tuple

import numpy as np

from .bonds import codes_of
from .errors import FormatError
from .lines import Block, Command
from .numbers import CONTACT, LONE, PAIR, VALUE, VECTOR, numbers, span, valued_span, within

MOST_MONOMERS = 1 << 18
MOST_SITES = 1 << 24
MOST_VECTORS = 200
MOST_ACCEPTANCE = 1024
CLASSES = 16

VALUES: Dict[str, Tuple[int, int]] = {
    "number_of_monomers": (1, MOST_MONOMERS),
    "box_x": (8, 512),
    "box_y": (8, 512),
    "box_z": (8, 512),
    "periodic_x": (0, 1),
    "periodic_y": (0, 1),
    "periodic_z": (0, 1),
}
LISTS = (
    "set_of_bondvectors",
    "bonds",
    "attributes",
    "bfm_valence",
    "bfm_fixed",
    "bfm_contacts",
    "bfm_acceptance",
)
UNBUILT = ("bfm_stream", "bfm_solid")


@dataclass(frozen=True, eq=False)
class Header:
    """What a file says before its first frame. Monomers are counted from 0.

    monomers    how many there are
    box         the three sides, in lattice units
    periodic    for each axis whether it is periodic; else it is walled
    vectors     the bond vectors of the set, V x 3, and their identifiers, V
    listed      the codes of the bonds of `!bonds` (see bonds.py)
    labels      a label for each monomer, and its valence, and whether it is fixed
    contacts    the weight of a contact of the classes a and b, 16 x 16
    acceptance  the acceptance numbers, the first for a delta of 1
    """

    monomers: int
    box: np.ndarray
    periodic: np.ndarray
    vectors: np.ndarray
    identifiers: np.ndarray
    listed: np.ndarray
    labels: np.ndarray
    valences: np.ndarray
    fixed: np.ndarray
    contacts: np.ndarray
    acceptance: np.ndarray

    @property
    def classes(self) -> np.ndarray:
        """The class of each monomer: its label where that is 1 to 15, else 0."""
        return np.where(self.labels < CLASSES, self.labels, 0)


class HeaderReader:
    """Takes the commands and entries of a header, and gives the header at the first `!mcs`."""

    def __init__(self) -> None:
        self._values: Dict[str, int] = {}
        self._lists: Dict[str, bool] = {}
        self._list: Optional[str] = None
        self._skips = False
        self._highest = 0
        self._vectors: Dict[Tuple[int, ...], int] = {}
        self._bonds: List[Tuple[int, int]] = []
        self._labels: List[Tuple[int, int, int]] = []
        self._valences: List[Tuple[int, int, int]] = []
        self._fixed: List[Tuple[int, int, int]] = []
        self._contacts = np.zeros((CLASSES, CLASSES), dtype=np.int64)
        self._acceptance: List[int] = []
        self.skipped = 0

    def command(self, command: Command) -> None:
        """A command that is not `!mcs`."""
        self._list, self._skips = None, False
        name, line = command.name, command.number
        if name in VALUES:
            (value,) = numbers(VALUE, command.rest, line)
            within(value, *VALUES[name], name, line)
            self._once(name in self._values, command)
            self._values[name] = value
        elif name in LISTS:
            bare(command)
            self._once(name in self._lists, command)
            self._lists[name] = True
            self._list = name
        elif name in UNBUILT:
            raise FormatError(line, "Unbuilt", f"!{name} is known and not read yet")
        elif name in ("add_bonds", "remove_bonds"):
            bare(command)
            raise FormatError(line, "Misplaced", f"!{name} stands before the first !mcs")
        else:
            self._skips = True
            self.skipped += 1

    def _once(self, again: bool, command: Command) -> None:
        if again:
            raise FormatError(command.number, "Repeated", f"!{command.name} stands a second time")

    def entries(self, block: Block) -> None:
        """Entries of the last command."""
        if self._skips:
            return
        if self._list is None:
            raise FormatError(block.number(0), "BadLine", "an entry of no command, or of one with a value")
        take = getattr(self, "_take_" + self._list)
        for index in range(len(block)):
            take(block.text(index), block.number(index))

    def _take_set_of_bondvectors(self, text: bytes, line: int) -> None:
        x, y, z, identifier = numbers(VECTOR, text, line)
        vector = (x, y, z)
        if not 1 <= identifier <= 255 or identifier in (9, 10, 13):
            raise FormatError(
                line, "OutOfLimit", f"the identifier {identifier} is none that a vector may have"
            )
        if len(self._vectors) == MOST_VECTORS:
            raise FormatError(line, "OutOfLimit", f"a set has at most {MOST_VECTORS} vectors")
        if max(abs(x), abs(y), abs(z)) not in (2, 3):
            raise FormatError(line, "BadVector", "the greatest component of a vector is 2 or 3")
        if vector in self._vectors or identifier in self._vectors.values():
            raise FormatError(line, "Repeated", "the vector or its identifier is in the set already")
        self._vectors[vector] = identifier

    def _take_bonds(self, text: bytes, line: int) -> None:
        self._bonds.append(bond_of(text, line))
        self._highest = max(self._highest, *self._bonds[-1])

    def _take_attributes(self, text: bytes, line: int) -> None:
        self._labels.append(self._reaching(valued_span(text, 2147483647, line)))

    def _take_bfm_valence(self, text: bytes, line: int) -> None:
        self._valences.append(self._reaching(valued_span(text, 8, line)))

    def _take_bfm_fixed(self, text: bytes, line: int) -> None:
        self._fixed.append(self._reaching((*span(text, MOST_MONOMERS, line), 1)))

    def _reaching(self, stroke: Tuple[int, int, int]) -> Tuple[int, int, int]:
        self._highest = max(self._highest, stroke[1] - 1)
        return stroke

    def _take_bfm_contacts(self, text: bytes, line: int) -> None:
        first, second, weight = numbers(CONTACT, text, line)
        within(first, 1, 15, "a class", line)
        within(second, 1, 15, "a class", line)
        within(weight, -1000, 1000, "a weight", line)
        self._contacts[first, second] = self._contacts[second, first] = weight

    def _take_bfm_acceptance(self, text: bytes, line: int) -> None:
        (number,) = numbers(LONE, text, line)
        within(number, 0, 1 << 32, "an acceptance number", line)
        if len(self._acceptance) == MOST_ACCEPTANCE:
            raise FormatError(line, "OutOfLimit", f"there are at most {MOST_ACCEPTANCE} acceptance numbers")
        self._acceptance.append(number)

    def finish(self, line: int) -> Header:
        """The header, where `!mcs` stands in this line."""
        self._judge(line)
        count = self._values["number_of_monomers"]
        vectors = np.array(list(self._vectors), dtype=np.int64).reshape(-1, 3)
        return Header(
            monomers=count,
            box=np.array([self._values["box_" + axis] for axis in "xyz"], dtype=np.int64),
            periodic=np.array([self._values["periodic_" + axis] == 1 for axis in "xyz"]),
            vectors=vectors,
            identifiers=np.array(list(self._vectors.values()), dtype=np.uint8),
            listed=codes_of(np.array(self._bonds, dtype=np.int64), count),
            labels=_laid(self._labels, count),
            valences=_laid(self._valences, count),
            fixed=_laid(self._fixed, count) == 1,
            contacts=self._contacts,
            acceptance=np.array(self._acceptance, dtype=np.int64),
        )

    def _judge(self, line: int) -> None:
        sides = [self._values.get("box_" + axis, 1) for axis in "xyz"]
        if sides[0] * sides[1] * sides[2] > MOST_SITES:
            raise FormatError(line, "OutOfLimit", f"the box has more than {MOST_SITES} sites")
        for vector in self._vectors:
            if tuple(-each for each in vector) not in self._vectors:
                raise FormatError(line, "NotSymmetric", f"the negative of {vector} is not in the set")
        missing = [name for name in VALUES if name not in self._values]
        if missing:
            raise FormatError(line, "Missing", "the header lacks " + ", ".join(missing))
        if self._highest >= self._values["number_of_monomers"]:
            raise FormatError(line, "BadMonomer", f"the header names the monomer {self._highest + 1}")


def bare(command: Command) -> None:
    """Refuses a command of a list behind whose name something stands."""
    if command.rest.strip(b" \t"):
        raise FormatError(command.number, "BadLine", f"!{command.name} has no value")


def bond_of(text: bytes, line: int) -> Tuple[int, int]:
    """The two monomers of an entry `i j`, counted from 0."""
    first, second = numbers(PAIR, text, line)
    within(first, 1, MOST_MONOMERS, "a monomer", line)
    within(second, 1, MOST_MONOMERS, "a monomer", line)
    if first == second:
        raise FormatError(line, "BadMonomer", "a bond joins two different monomers")
    return first - 1, second - 1


def _laid(strokes: List[Tuple[int, int, int]], count: int) -> np.ndarray:
    """The values of all monomers, where each stroke gives its value to a range of them."""
    values = np.zeros(count, dtype=np.int64)
    for first, last, value in strokes:
        values[first:last] = value
    return values
