"""The text of exported frames, written out by hand."""

import pytest

from conftest import SET, header, read
from piqwenal import lammps_text, write_lammps, write_xyz, xyz_text

TEXT = (
    header(3, 16, (1, 1, 0), SET + "!bonds\n1 3\n!attributes\n2:7\n")
    + "!mcs=4\n-1 16 3 A\n5 -33 3\n!mcs=9\n0 0 0 A\n2 2 0\n"
)

XYZ = (
    "3\n"
    'Lattice="16 0 0 0 16 0 0 0 16" Properties=species:S:1:pos:R:3:label:I:1 pbc="T T F" mcs=4\n'
    "X -1 16 3 0\n"
    "C 1 16 3 7\n"
    "X 5 -33 3 0\n"
)
LAMMPS = """LAMMPS data file, mcs 4, periodic 1 1 0

3 atoms
2 bonds
2 atom types
1 bond types

0 16 xlo xhi
0 16 ylo yhi
0 16 zlo zhi

Masses

1 1 # label 0
2 1 # label 7

Atoms # bond

1 1 1 15 0 3 -1 1 0
2 1 2 1 0 3 0 1 0
3 1 1 5 15 3 0 -3 0

Bonds

1 1 1 2
2 1 1 3
"""


def test_extended_xyz():
    found, frames = read(TEXT)
    assert xyz_text(found, frames[0], {7: "C"}) == XYZ


def test_many_frames_of_xyz(tmp_path):
    found, frames = read(TEXT)
    path = tmp_path / "frames.xyz"
    assert write_xyz(found, iter(frames), path) == 2
    assert path.read_text() == xyz_text(found, frames[0]) + xyz_text(found, frames[1])
    with pytest.raises(FileExistsError):
        write_xyz(found, frames[0], path)
    assert write_xyz(found, frames[0], path, species={7: "C"}, overwrite=True) == 1
    assert path.read_text() == XYZ


def test_lammps_data(tmp_path):
    found, frames = read(TEXT)
    assert lammps_text(found, frames[0]) == LAMMPS
    path = tmp_path / "data"
    write_lammps(found, frames[0], path)
    assert path.read_text() == LAMMPS
    with pytest.raises(FileExistsError):
        write_lammps(found, frames[0], path)


def test_lammps_data_without_bonds():
    found, (frame,) = read(header(1) + "!mcs=0\n0 0 0\n")
    text = lammps_text(found, frame)
    assert "0 bonds\n" in text and "0 bond types\n" in text and "Bonds" not in text
