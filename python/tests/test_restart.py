"""Restart files, written out by hand, and read back."""

import io

import pytest

from conftest import SET, header, read
from piqwenal import NoFrame, group_bytes, write_restart, world_bytes

# monomers 1 to 4 in a line, 4 and 1 bonded too; the second frame has a bond through the boundary (2 and 3),
# lacks that of 3 and 4, and has one of 2 and 4 added
OLD = header(5, 16, (1, 0, 1), "!attributes\n1-2:3\n!bfm_acceptance\n7\n5\n" + "!bonds\n4 1\n" + SET) + (
    "# lost\n!bfm_fixed\n5\n4\n!unknown\n12\n!bfm_contacts\n3 1:-2\n2 2:9\n!bfm_valence\n2-3:2\n"
    "\n!mcs=3\n0 0 0 ACB\n8 8 8\n"
    "!remove_bonds\n3 4\n!add_bonds\n4 2\n\n!mcs=12\r\n0 0 0 A\n-14 2 0\n0 2 0\n8 8 9\n"
)
NEW = header(5, 16, (1, 0, 1), SET) + (
    "!bonds\n1 4\n2 3\n2 4\n!attributes\n1:3\n2:3\n!bfm_valence\n2:2\n3:2\n!bfm_fixed\n4\n5\n"
    "!bfm_contacts\n1 3:-2\n2 2:9\n!bfm_acceptance\n7\n5\n\n!mcs=12\n0 0 0 A\n-14 2 0\n0 2 0\n8 8 9\n"
)


def test_a_restart_file(tmp_path):
    path = tmp_path / "new"
    frame = write_restart(io.BytesIO((OLD + "!add_bonds\n3 4\n!mcs=20\n0 0 0\n").encode()), path)
    assert frame.mcs == 12
    assert path.read_bytes().decode("latin-1") == NEW


def test_a_restart_file_read_back_is_the_same_world():
    found, frames = read(OLD)
    again, (frame,) = read(world_bytes(found, frames[-1]).decode("latin-1"))
    assert frame.mcs == 12
    assert frame.positions.tolist() == frames[-1].positions.tolist()
    assert frame.bonds.tolist() == frames[-1].bonds.tolist() == [[0, 1], [0, 3], [1, 2], [1, 3]]
    for name in (
        "box",
        "periodic",
        "vectors",
        "identifiers",
        "labels",
        "valences",
        "fixed",
        "contacts",
        "acceptance",
    ):
        assert getattr(again, name).tolist() == getattr(found, name).tolist(), name
    assert again.monomers == found.monomers
    assert world_bytes(again, frame) == world_bytes(found, frames[-1])


def test_a_group_shows_raw_bytes():
    found, (frame,) = read(header(3) + "!mcs=1\n5 5 5  !\n")
    assert group_bytes(found, frame) == b"\n!mcs=1\n5 5 5  !\n"


def test_lists_without_entries_are_left_out():
    text = header(1, more="") + "\n!mcs=0\n1 2 3\n"
    found, (frame,) = read(text)
    assert world_bytes(found, frame) == text.encode()


def test_nothing_is_overwritten(tmp_path):
    path = tmp_path / "new"
    path.write_text("old")
    with pytest.raises(FileExistsError):
        write_restart(io.BytesIO(OLD.encode()), path)
    assert path.read_text() == "old"
    write_restart(io.BytesIO(OLD.encode()), path, overwrite=True)
    assert path.read_bytes().decode("latin-1") == NEW


def test_a_file_without_a_whole_frame_has_no_restart(tmp_path):
    with pytest.raises(NoFrame):
        write_restart(io.BytesIO((header(2) + "!mcs=0\n0 0 0\n").encode()), tmp_path / "new")
    assert list(tmp_path.iterdir()) == []
