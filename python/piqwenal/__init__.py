"""Reads, analyses and exports trajectories of the polymer simulator Piqwenal, and runs its program."""

from .analysis import (
    Displacements,
    Mean,
    block_average,
    bond_distribution,
    centres_of_mass,
    displacements,
    displacements_over_origins,
    end_to_end_squared,
    radial_distribution,
    radius_of_gyration_squared,
    structure_factor,
    wrapped,
)
from .errors import FormatError
from .export import lammps_text, write_lammps, write_xyz, xyz_text
from .header import Header
from .molecules import Molecules, made_whole, molecules_of
from .reader import Frame, Trajectory, read_all
from .restart import NoFrame, group_bytes, last_frame, world_bytes, write_restart
from .run import Crossing, ProgramError, Report, build, call, info, run
from .tables import Moves, Radii, Trial, check, clusters, contacts, moves, radii, trial

__all__ = [
    "Crossing",
    "Displacements",
    "FormatError",
    "Frame",
    "Header",
    "Mean",
    "Molecules",
    "Moves",
    "NoFrame",
    "ProgramError",
    "Radii",
    "Report",
    "Trajectory",
    "Trial",
    "block_average",
    "bond_distribution",
    "build",
    "call",
    "centres_of_mass",
    "check",
    "clusters",
    "contacts",
    "displacements",
    "displacements_over_origins",
    "end_to_end_squared",
    "group_bytes",
    "info",
    "lammps_text",
    "last_frame",
    "made_whole",
    "molecules_of",
    "moves",
    "radii",
    "radial_distribution",
    "radius_of_gyration_squared",
    "read_all",
    "run",
    "structure_factor",
    "trial",
    "world_bytes",
    "wrapped",
    "write_lammps",
    "write_restart",
    "write_xyz",
    "xyz_text",
]
