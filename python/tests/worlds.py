"""Files that the program wrote, for tests beside it: a start of each kind, and a network with all that a header knows."""

import os
import pathlib

import pytest

from piqwenal import build, read_all, run

needs_program = pytest.mark.skipif(
    not os.environ.get("BFM_CLI"), reason="BFM_CLI is not set: the program is not tested"
)

# Labels, valences and fixed monomers, weights of contacts and thresholds, for the 80 monomers of a network of 2 nodes.
LISTS = (
    "!attributes\n1-30:1\n31-60:2\n61:77\n!bfm_valence\n1-80:4\n!bfm_fixed\n5\n17-19\n"
    "!bfm_contacts\n1 2:3\n1 1:-1\n!bfm_acceptance\n3000000000\n2000000000\n1000000000\n"
)


def starts(folder: pathlib.Path) -> list:
    """A melt, a brush and a network."""
    build("melt", folder / "melt", x=16, y=16, z=16, chains=8, length=16)
    build("brush", folder / "brush", x=16, y=16, z=32, spacing=4, length=8)
    build("network", folder / "network", nodes=2, strand=3)
    return ["melt", "brush", "network"]


def linking(folder: pathlib.Path) -> str:
    """A network through the boundary whose header has all lists, and whose monomers may be linked."""
    build("network", folder / "bare", nodes=2, strand=3)
    before, after = (folder / "bare").read_bytes().split(b"\n\n!mcs=", 1)
    (folder / "linking").write_bytes(before + b"\n" + LISTS.encode() + b"\n!mcs=" + after)
    return "linking"


def trajectories(folder: pathlib.Path) -> dict:
    """By name: path, header and frames of a short run from each of these files, the last one with links."""
    found = {}
    for name in [*starts(folder), linking(folder)]:
        words = {"link": "on"} if name == "linking" else {}
        path = folder / f"{name}.bfm"
        run(folder / name, path, seed=3, frames=4, every=50, **words)
        found[name] = (path, *read_all(path))
    return found
