"""The package beside the program itself. Skipped where the environment variable BFM_CLI does not name it."""

import numpy as np
import pytest

from piqwenal import ProgramError, Trajectory, info, read_all, run, world_bytes, write_restart
from worlds import linking, needs_program, starts

pytestmark = needs_program


def test_frames_agree_with_the_report_and_info(tmp_path):
    for name in starts(tmp_path):
        report = run(tmp_path / name, tmp_path / f"{name}2", seed=42, frames=3, every=20)
        told = info(tmp_path / f"{name}2")
        with Trajectory.open(tmp_path / f"{name}2") as trajectory:
            frames = list(trajectory)
        assert [frame.mcs for frame in frames] == [0, 20, 40, 60]
        assert report.frames == 3 and report.mcs == 60 and report.skipped == trajectory.skipped == 0
        assert report.kept == (tmp_path / name).stat().st_size
        assert told["monomers"] == (trajectory.header.monomers,)
        assert told["box"] == tuple(trajectory.header.box)
        assert told["periodic"] == tuple(trajectory.header.periodic.astype(int))
        assert told["vectors"] == (len(trajectory.header.vectors),)
        assert told["bonds"] == (len(frames[-1].bonds),)
        assert told["frames"] == (4,) and told["mcs"] == (60,) and told["kept"] == (trajectory.kept,)
        moved = sum(int(np.abs(b.positions - a.positions).sum()) for a, b in zip(frames, frames[1:]))
        assert 0 < moved <= report.accepted


def goes_on(folder, name, **words):
    """Goes on from a whole file and from its restart file, and gives the two parts behind them."""
    whole, fresh = folder / f"{name}2", folder / f"{name}3"
    run(folder / name, whole, seed=7, frames=2, every=15, **words)
    write_restart(whole, fresh)
    run(whole, folder / f"{name}4", seed=7, frames=3, every=15, **words)
    run(fresh, folder / f"{name}5", seed=7, frames=3, every=15, **words)
    behind_whole = (folder / f"{name}4").read_bytes()[whole.stat().st_size :]
    behind_fresh = (folder / f"{name}5").read_bytes()[fresh.stat().st_size :]
    return behind_whole, behind_fresh


def test_a_run_goes_on_from_a_restart_file(tmp_path):
    for name in starts(tmp_path):
        behind_whole, behind_fresh = goes_on(tmp_path, name)
        assert behind_whole.count(b"!mcs=") == 3
        assert behind_fresh == behind_whole


def test_links_labels_fixed_monomers_and_bonds_through_the_boundary_go_on(tmp_path):
    name = linking(tmp_path)
    behind_whole, behind_fresh = goes_on(tmp_path, name, link="on")
    assert behind_fresh == behind_whole
    # links were made before the restart file and behind it, and it has all that the header has
    assert b"!add_bonds" in (tmp_path / "linking2").read_bytes() and b"!add_bonds" in behind_fresh
    found, frames = read_all(tmp_path / "linking3")
    old, old_frames = read_all(tmp_path / "linking2")
    assert len(frames) == 1 and frames[0].bonds.tolist() == old_frames[-1].bonds.tolist()
    for each in ("labels", "valences", "fixed", "contacts", "acceptance"):
        assert getattr(found, each).any() and getattr(found, each).tolist() == getattr(old, each).tolist()
    first, second = frames[0].bonds.T
    steps = frames[0].positions[second] - frames[0].positions[first]
    assert (np.abs(steps) > 3).any()


def test_a_file_beyond_the_limit_goes_on_from_its_restart_file(tmp_path):
    starts(tmp_path)
    whole, fresh = tmp_path / "whole", tmp_path / "fresh"
    run(tmp_path / "melt", whole, seed=7, frames=20, every=5)
    limit = whole.stat().st_size - 1
    with pytest.raises(ProgramError) as caught:
        run(whole, tmp_path / "new", seed=7, frames=2, every=5, limit=limit)
    assert caught.value.name == "TooLong"
    write_restart(whole, fresh)
    run(fresh, tmp_path / "new", seed=7, frames=2, every=5, limit=limit)
    run(whole, tmp_path / "longer", seed=7, frames=2, every=5)
    longer = (tmp_path / "longer").read_bytes()[whole.stat().st_size :]
    assert (tmp_path / "new").read_bytes()[fresh.stat().st_size :] == longer


def test_a_start_is_written_again_byte_for_byte(tmp_path):
    for name in starts(tmp_path):
        found, (frame,) = read_all(tmp_path / name)
        assert world_bytes(found, frame) == (tmp_path / name).read_bytes()


def test_a_refused_file_is_told(tmp_path):
    (tmp_path / "wrong").write_text("1 2 3\n")
    with pytest.raises(ProgramError) as caught:
        run(tmp_path / "wrong", tmp_path / "new", seed=1, frames=1, every=1)
    assert (caught.value.status, caught.value.name, caught.value.report) == (
        3,
        "BadFile",
        "line 1 cause 1 BadLine\n",
    )
    assert not (tmp_path / "new").exists()
