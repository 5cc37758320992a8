"""What is exported, read by the real ASE, MDAnalysis and LAMMPS: the same atoms, bonds, frames, box and radius.

Each part is skipped where its program is not there (python3-ase, python3-mdanalysis and lammps of Debian).
"""

import shutil
import subprocess
import warnings

import numpy as np
import pytest

from piqwenal import made_whole, molecules_of, radius_of_gyration_squared, write_lammps, write_xyz
from worlds import needs_program, trajectories

pytestmark = needs_program


@pytest.fixture(scope="module")
def worlds(tmp_path_factory):
    """Runs, and beside each its frames as extended XYZ and its last frame as a data file of LAMMPS."""
    folder = tmp_path_factory.mktemp("worlds")
    found = trajectories(folder)
    for name, (_, header, frames) in found.items():
        write_xyz(header, frames, folder / f"{name}.xyz", species={1: "C", 2: "N"})
        write_lammps(header, frames[-1], folder / f"{name}.data")
    return folder, found


def imported(name):
    """A package, or the test is skipped."""
    with warnings.catch_warnings():
        warnings.simplefilter("ignore")
        return pytest.importorskip(name, reason=f"{name.split('.')[0]} is not installed")


def molecules(header, frame):
    return molecules_of(frame.bonds, header.monomers)


def radius(header, frame):
    """The squared radii of gyration from absolute coordinates."""
    return radius_of_gyration_squared(frame.positions, molecules(header, frame))


def test_links_were_made(worlds):
    _, _, frames = worlds[1]["linking"]
    assert len(frames) == 5 and len(frames[-1].bonds) > len(frames[0].bonds)


def test_ase_reads_the_frames(worlds):
    read = imported("ase.io").read
    folder, found = worlds
    for name, (_, header, frames) in found.items():
        images = read(folder / f"{name}.xyz", index=":")
        assert len(images) == len(frames), name
        for image, frame in zip(images, frames):
            assert len(image) == header.monomers and image.info["mcs"] == frame.mcs
            assert image.cell.tolist() == np.diag(header.box).tolist()
            assert image.pbc.tolist() == header.periodic.tolist()
            assert np.array_equal(image.positions, frame.positions)
            assert np.array_equal(image.arrays["label"], header.labels)
            image.set_masses(np.ones(len(image)))
            for number, wanted in enumerate(radius(header, frame)):
                part = image[molecules(header, frame).of == number]
                found_here = ((part.positions - part.get_center_of_mass()) ** 2).sum(axis=1).mean()
                assert found_here == pytest.approx(wanted, abs=1e-9)


def test_ase_reads_the_lammps_data(worlds):
    read = imported("ase.io").read
    folder, found = worlds
    for name, (_, header, frames) in found.items():
        image = read(folder / f"{name}.data", format="lammps-data", style="bond")
        assert len(image) == header.monomers
        assert image.cell.tolist() == np.diag(header.box).tolist()
        bonds = "".join(image.arrays["bonds"]).count("(")
        assert bonds == len(frames[-1].bonds), name
        unfolded = image.positions + image.arrays["travel"] * header.box
        assert np.array_equal(unfolded[np.argsort(image.arrays["id"])], frames[-1].positions)


@pytest.mark.filterwarnings("ignore")
def test_mdanalysis_reads_bonds_and_frames(worlds):
    universe_of = imported("MDAnalysis").Universe
    folder, found = worlds
    for name, (_, header, frames) in found.items():
        universe = universe_of(
            str(folder / f"{name}.data"), format="DATA", atom_style="id resid type x y z"
        )
        assert len(universe.atoms) == header.monomers and len(universe.bonds) == len(frames[-1].bonds)
        assert universe.dimensions.tolist() == [*header.box.tolist(), 90, 90, 90]
        assert sorted(map(sorted, universe.bonds.indices.tolist())) == frames[-1].bonds.tolist()
        assert len(universe.atoms.fragments) == len(molecules(header, frames[-1]))
        universe.load_new(str(folder / f"{name}.xyz"), format="XYZ")
        assert len(universe.trajectory) == len(frames)
        for _, frame in zip(universe.trajectory, frames):
            assert np.array_equal(universe.atoms.positions, frame.positions)
            squared = [part.radius_of_gyration() ** 2 for part in universe.atoms.fragments]
            wanted = radius_of_gyration_squared(frame.positions, molecules(header, frames[-1]))
            assert squared == pytest.approx(wanted, rel=1e-5), name


@pytest.mark.filterwarnings("ignore")
def test_mdanalysis_unwraps_the_lammps_data(worlds):
    universe_of = imported("MDAnalysis").Universe
    folder, found = worlds
    for name in ("melt", "brush"):
        _, header, frames = found[name]
        universe = universe_of(
            str(folder / f"{name}.data"), format="DATA", atom_style="id resid type x y z"
        )
        universe.atoms.unwrap(compound="fragments")
        squared = [part.radius_of_gyration() ** 2 for part in universe.atoms.fragments]
        last = frames[-1]
        whole = made_whole(last.positions, last.bonds, header.box, header.periodic)
        wanted = radius_of_gyration_squared(whole, molecules(header, last))
        assert squared == pytest.approx(wanted, rel=1e-5), name


LAMMPS = """
units lj
atom_style bond
boundary {boundary}
read_data {data}
pair_style zero 4.0
pair_coeff * *
bond_style zero
bond_coeff *
comm_modify cutoff 24.0
compute parts all chunk/atom molecule
compute radii all gyration/chunk parts
fix kept all ave/time 1 1 1 c_radii mode vector file {radii} format " %.15g"
thermo_style custom atoms bonds lx ly lz xlo ylo zlo
thermo_modify format float %.15g
run 0
"""


def test_lammps_reads_the_data(worlds):
    command = shutil.which("lmp") or shutil.which("lammps")
    if command is None:
        pytest.skip("LAMMPS is not installed")
    folder, found = worlds
    for name, (_, header, frames) in found.items():
        script, radii = folder / f"{name}.in", folder / f"{name}.radii"
        boundary = " ".join("p" if each else "f" for each in header.periodic)
        data = folder / f"{name}.data"
        script.write_text(LAMMPS.format(boundary=boundary, data=data, radii=radii))
        done = subprocess.run(
            [command, "-in", script, "-log", folder / f"{name}.log"], capture_output=True, text=True, check=False
        )
        assert done.returncode == 0, done.stdout + done.stderr
        lines = done.stdout.splitlines()
        values = lines[[line.split()[:1] for line in lines].index(["Atoms"]) + 1].split()
        assert [float(each) for each in values] == [
            header.monomers,
            len(frames[-1].bonds),
            *header.box.tolist(),
            0,
            0,
            0,
        ]
        rows = [line.split() for line in radii.read_text().splitlines() if not line.startswith("#")]
        squared = [float(row[1]) ** 2 for row in rows[1:]]
        assert squared == pytest.approx(radius(header, frames[-1]), rel=1e-9), name
