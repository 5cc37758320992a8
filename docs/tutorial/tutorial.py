#!/usr/bin/env python3
"""The runs, the figures and the values of docs/tutorial.md.

    python3 docs/tutorial/tutorial.py FOLDER

The folder gets trajectories, three figures and values.txt. The same call goes on where a stopped one was; a folder
with anything else is refused. The program is the path in BFM_CLI, or the one that `rt run` makes in this repository.
It needs numpy and matplotlib.
"""

from __future__ import annotations

import os
import sys
from pathlib import Path
from typing import Callable, Dict, List, NamedTuple, Sequence, Tuple

REPOSITORY = Path(__file__).resolve().parents[2]
sys.path.insert(0, str(REPOSITORY / "python"))

try:
    import numpy as np
    import matplotlib
except ImportError as missing:
    sys.exit(f"tutorial.py: {missing.name} is missing: install python3-numpy and python3-matplotlib")

import piqwenal as pq

SIDE = 32  # of the box, in lattice units
MONOMERS = SIDE**3 // 16  # half of the volume
SEED = 1
BLOCKS = 8  # of frames, of parts and of chains, whose scatter gives the errors
# Between these times slopes are taken, in sweeps.
EARLY = (100, 2_000)
LATE = (60_000, 160_000)


class Plan(NamedTuple):
    """For one length of chains: sweeps of warm-up, sweeps between two frames, frames that count."""

    warm: int
    every: int
    frames: int


PLANS: Dict[int, Plan] = {
    4: Plan(20_000, 250, 400),
    8: Plan(20_000, 500, 400),
    16: Plan(100_000, 2_000, 400),
    32: Plan(400_000, 4_000, 400),
}
LONGEST = max(PLANS)
WARM_FRAMES = 40
# The chains whose way is followed, and their run seen closer: name, sweeps between two frames, frames.
FOLLOWED = 16
CLOSER = (("close.bfm", 1, 200), ("middle.bfm", 20, 500))


def say(text: str) -> None:
    print(f"tutorial: {text}", file=sys.stderr, flush=True)


def find_program() -> None:
    program = os.environ.setdefault("BFM_CLI", str(REPOSITORY / "crates/bfm_cli/out/bfm_cli"))
    if not os.access(program, os.X_OK):
        sys.exit(
            f"tutorial: there is no program {program}: make it by 'cd crates/bfm_cli && rt run', or name it by BFM_CLI"
        )


def open_folder(folder: Path) -> None:
    """Makes the folder, or goes on with one that this script left with the same settings."""
    settings = f"tutorial side={SIDE} seed={SEED} closer={CLOSER} plans={PLANS}\n"
    kept = folder / "settings.txt"
    if kept.is_file():
        if kept.read_text() != settings:
            sys.exit(f"tutorial: {folder} was made with other settings (settings.txt): name another folder")
        say(f"goes on in {folder}")
        return
    if folder.exists() and (not folder.is_dir() or any(folder.iterdir())):
        sys.exit(f"tutorial: {folder} is there and not from this script: name another folder")
    folder.mkdir(parents=True, exist_ok=True)
    kept.write_text(settings)
    say(f"writes into {folder}")


# Runs


def advance(path: Path, until: int, every: int, part: int) -> None:
    """Goes on with a trajectory to a time, so many frames at once; the moves of each part are kept beside it."""
    told = pq.info(path)
    if "mcs" not in told:
        sys.exit(f"tutorial: {os.environ['BFM_CLI']} tells no time of {path}: is it bfm_cli?")
    time = told["mcs"][0]
    while time < until:
        frames = min(part, (until - time) // every)
        report = pq.run(path, path, overwrite=True, seed=SEED, frames=frames, every=every)
        with open(path.with_suffix(".moves"), "a", encoding="ascii") as moves:
            moves.write(f"{time} {report.mcs} {report.accepted}\n")
        time = report.mcs
        say(f"{path.parent.name}/{path.name}: {time} of {until} sweeps")


def beside(path: Path) -> Path:
    """Where a file is written until it is whole."""
    return path.with_suffix(".part")


def simulate(folder: Path, length: int, plan: Plan) -> None:
    """A melt from its start over the warm-up to the frames that count."""
    folder.mkdir(exist_ok=True)
    for stale in folder.glob(".piqwenal-*"):  # what a call that was killed was writing
        stale.unlink()
    warm, main = folder / "warm.bfm", folder / "run.bfm"
    if not warm.exists():
        sides = {"x": SIDE, "y": SIDE, "z": SIDE}
        pq.build("melt", beside(warm), overwrite=True, chains=MONOMERS // length, length=length, **sides)
        beside(warm).replace(warm)
    advance(warm, plan.warm, plan.warm // WARM_FRAMES, WARM_FRAMES // 4)
    runs = [(main, plan.every, plan.frames)]
    if length == FOLLOWED:
        runs += [(folder / name, every, frames) for name, every, frames in CLOSER]
    for path, every, frames in runs:
        if not path.exists():
            pq.write_restart(warm, beside(path), overwrite=True)
            beside(path).replace(path)
        advance(path, plan.warm + frames * every, every, frames // BLOCKS)


# Measures


def frames_of(path: Path) -> Tuple[pq.Header, List[pq.Frame]]:
    header, frames = pq.read_all(path)
    return header, frames


def sizes_of(frame: pq.Frame, molecules: pq.Molecules, side: int = SIDE) -> Tuple[float, float, float, float]:
    """Mean squared bond, end-to-end distance and radius of gyration, and the share in the upper half of the box."""
    first, second = frame.bonds.T
    bond = ((frame.positions[second] - frame.positions[first]) ** 2).sum(axis=1).mean()
    end = pq.end_to_end_squared(frame.positions, molecules).mean()
    radius = pq.radius_of_gyration_squared(frame.positions, molecules).mean()
    upper = (frame.positions[:, 2] % side >= side // 2).mean()
    return float(bond), float(end), float(radius), float(upper)


def error_of(values: Sequence[float]) -> float:
    """The standard error of the mean of independent values."""
    return float(np.std(values, ddof=1) / np.sqrt(len(values)))


def mean_of(values: Sequence[float]) -> Tuple[float, float]:
    return float(np.mean(values)), error_of(values)


def acceptance(path: Path) -> Tuple[float, float]:
    """The share of attempts that made a move: mean and error over the parts of a run."""
    rows = np.loadtxt(path.with_suffix(".moves"), dtype=np.int64).reshape(-1, 3)
    shares = rows[:, 2] / ((rows[:, 1] - rows[:, 0]) * MONOMERS)
    return mean_of(shares)


class Curve(NamedTuple):
    """Displacements against time, for groups of chains: times, and g1 and g3 of each group."""

    times: np.ndarray
    g1: np.ndarray
    g3: np.ndarray


class Sizes(NamedTuple):
    """Of the melt of one length, each with its error: root mean square bond, squared end-to-end distance and radius,
    their ratio, the acceptance, and the diffusion constant of chains."""

    bond: Tuple[float, float]
    end: Tuple[float, float]
    radius: Tuple[float, float]
    ratio: Tuple[float, float]
    accepted: Tuple[float, float]
    diffusion: Tuple[float, float]


def measure(path: Path) -> Sizes:
    header, frames = frames_of(path)
    molecules = pq.molecules_of(frames[0].bonds, header.monomers)
    # the first frame is the last one of the warm-up
    rows = np.array([sizes_of(frame, molecules)[:3] for frame in frames[1:]])
    blocks = rows.reshape(BLOCKS, -1, 3).mean(axis=1)
    bonds, ends, radii = blocks.T
    return Sizes(
        bond=mean_of(np.sqrt(bonds)),
        end=mean_of(ends),
        radius=mean_of(radii),
        ratio=mean_of(ends / radii),
        accepted=acceptance(path),
        diffusion=diffusion(displacements(path)),
    )


def diffusion(curve: Curve) -> Tuple[float, float]:
    """The constant D of g3 = 6 D t at the last time of a curve."""
    return mean_of(curve.g3[:, -1] / (6 * curve.times[-1]))


def displacements(path: Path) -> Curve:
    """Averages over all first frames, for lags of up to a fifth of the run, each group of chains by itself."""
    header, frames = frames_of(path)
    lags = np.unique(np.round(np.geomspace(1, len(frames) // 5, 24)).astype(int))
    group = header.monomers // BLOCKS
    g1, g3 = [], []
    for begin in range(0, header.monomers, group):
        inside = (frames[0].bonds // group == begin // group).all(axis=1)
        molecules = pq.molecules_of(frames[0].bonds[inside] - begin, group)
        cut = [pq.Frame(frame.mcs, frame.positions[begin : begin + group], frame.codes) for frame in frames]
        found = pq.displacements_over_origins(cut, molecules, lags)
        g1.append(found.g1)
        g3.append(found.g3)
    return Curve(found.times, np.array(g1), np.array(g3))


def joined(curves: Sequence[Curve]) -> Curve:
    """One curve of several, where each begins behind the last time of the one before."""
    kept = [curves[0]]
    for curve in curves[1:]:
        later = curve.times > kept[-1].times[-1]
        kept.append(Curve(curve.times[later], curve.g1[:, later], curve.g3[:, later]))
    return Curve(*(np.concatenate(parts, axis=-1) for parts in zip(*kept)))


def slope(times: np.ndarray, groups: np.ndarray, first: float, last: float) -> Tuple[float, float]:
    """The slope of log g against log t between two times: mean and error over the groups of chains."""
    inside = (times >= first) & (times <= last)
    slopes = [np.polyfit(np.log(times[inside]), np.log(each[inside]), 1)[0] for each in groups]
    return mean_of(slopes)


# Values


def relaxation_lines(path: Path) -> List[str]:
    header, frames = frames_of(path)
    molecules = pq.molecules_of(frames[0].bonds, header.monomers)
    lines = [f"{'mcs':>8} {'bond^2':>8} {'end^2':>8} {'radius^2':>9} {'upper':>7}"]
    for index in (0, 1, 2, 4, 8, 16, 24, 32, WARM_FRAMES):
        bond, end, radius, upper = sizes_of(frames[index], molecules)
        lines.append(f"{frames[index].mcs:>8} {bond:8.3f} {end:8.1f} {radius:9.2f} {upper:7.3f}")
    return lines


def size_lines(sizes: Dict[int, Sizes]) -> List[str]:
    lines = [
        f"{'N':>3} {'rms bond':>16} {'acceptance':>18} {'end^2':>14} {'radius^2':>16} "
        f"{'ratio':>14} {'6N/(N+1)':>9} {'end^2/(N-1)':>14}"
    ]
    below = [f"{'N':>3} {'D':>21} {'N D':>17} {'end^2/(3 pi^2 D)':>17}"]
    for length, found in sizes.items():
        end, error = found.end
        lines.append(
            f"{length:>3} {found.bond[0]:8.4f} {found.bond[1]:7.4f} {found.accepted[0]:10.5f} {found.accepted[1]:7.5f} "
            f"{end:8.2f} {error:5.2f} {found.radius[0]:9.3f} {found.radius[1]:6.3f} "
            f"{found.ratio[0]:8.3f} {found.ratio[1]:5.3f} {6 * length / (length + 1):9.3f} "
            f"{end / (length - 1):8.3f} {error / (length - 1):5.3f}"
        )
        constant, error = found.diffusion
        below.append(
            f"{length:>3} {constant:12.3e} {error:8.1e} {length * constant:9.5f} {length * error:7.5f} "
            f"{end / (3 * np.pi**2 * constant):17.0f}"
        )
    return [*lines, "", *below]


def motion_lines(curve: Curve) -> List[str]:
    lines = [f"{'time':>8} {'g1':>16} {'g3':>18}"]
    for index, time in enumerate(curve.times):
        g1, g3 = curve.g1[:, index], curve.g3[:, index]
        lines.append(f"{time:8.0f} {g1.mean():9.3f} {error_of(g1):6.3f} {g3.mean():10.4f} {error_of(g3):7.4f}")
    for name, groups in (("g1", curve.g1), ("g3", curve.g3)):
        for first, last in (EARLY, LATE):
            found, error = slope(curve.times, groups, first, last)
            lines.append(f"slope of {name} from {first} to {last} sweeps: {found:.3f} {error:.3f}")
    inner, error = mean_of(curve.g1[:, -1] - curve.g3[:, -1])
    lines.append(f"g1 - g3 at {curve.times[-1]:.0f} sweeps: {inner:.2f} {error:.2f}")
    return lines


# Figures


def save(figure: "matplotlib.figure.Figure", path: Path) -> None:
    figure.savefig(path, metadata={"Date": None})
    say(f"wrote {path}")


def draw_melt(path: Path, before: pq.Frame, after: pq.Frame) -> None:
    """Both frames with absolute coordinates, a line for each chain, in the colours of the heights at the start."""
    from matplotlib import pyplot

    chains = MONOMERS // LONGEST
    reach = (after.positions.min(), after.positions.max())
    figure = pyplot.figure(figsize=(7.2, 3.9))
    for index, (frame, title) in enumerate(((before, "start"), (after, "end of the warm-up"))):
        axes = figure.add_subplot(1, 2, index + 1, projection="3d")
        for chain in range(chains):
            places = frame.positions[chain * LONGEST : (chain + 1) * LONGEST]
            axes.plot(*places.T, linewidth=0.9, color=pyplot.cm.viridis(chain / (chains - 1)))
        corners = np.array(np.meshgrid([0, SIDE], [0, SIDE], [0, SIDE])).T.reshape(-1, 3)
        for one in corners:
            for other in corners:
                if (one < other).sum() == 1 and (one == other).sum() == 2:
                    axes.plot(*np.array([one, other]).T, linewidth=0.6, color="grey")
        axes.set(title=f"{title}, {frame.mcs} sweeps", xlim=reach, ylim=reach, zlim=reach)
        axes.set_box_aspect((1, 1, 1))
        axes.tick_params(labelsize=7)
    figure.subplots_adjust(left=0.0, right=0.96, bottom=0.04, top=0.92, wspace=0.05)
    save(figure, path)


def draw_motion(path: Path, curve: Curve) -> None:
    from matplotlib import pyplot

    figure, axes = pyplot.subplots(figsize=(5.6, 4.2))
    for groups, name, sign in ((curve.g1, "monomers, $g_1$", "o"), (curve.g3, "centres of chains, $g_3$", "s")):
        errors = [error_of(each) for each in groups.T]
        axes.errorbar(curve.times, groups.mean(axis=0), errors, fmt=sign, markersize=3.5, label=name)
    early, late = np.array([30.0, 8_000.0]), np.array([10_000.0, 250_000.0])
    rouse = 1.5 * curve_at(curve, curve.g1, 500) * (early / 500) ** 0.5
    free = 0.55 * curve_at(curve, curve.g3, 100_000) * (late / 100_000)
    axes.plot(early, rouse, "k--", linewidth=0.9, label="slope 1/2")
    axes.plot(late, free, "k-", linewidth=0.9, label="slope 1")
    axes.set(xscale="log", yscale="log", xlabel="time / sweeps", ylabel="mean squared displacement / lattice units$^2$")
    axes.legend(frameon=False)
    figure.tight_layout()
    save(figure, path)


def curve_at(curve: Curve, groups: np.ndarray, time: float) -> float:
    """The mean over groups at the time that is nearest."""
    return float(groups[:, np.abs(np.log(curve.times / time)).argmin()].mean())


def draw_lengths(path: Path, sizes: Dict[int, Sizes]) -> None:
    from matplotlib import pyplot

    figure, axes = pyplot.subplots(figsize=(5.6, 4.2))
    bonds = np.array([length - 1 for length in sizes])
    for choose, name, sign in (
        ((lambda each: each.end), "$R_e^2$", "o"),
        ((lambda each: each.radius), "$R_g^2$", "s"),
    ):  # type: Callable[[Sizes], Tuple[float, float]], str, str
        values, errors = np.array([choose(each) for each in sizes.values()]).T
        axes.errorbar(bonds, values, errors, fmt=sign, markersize=4, label=name)
    line = np.array([bonds[0] * 0.8, bonds[-1] * 1.2])
    end = sizes[LONGEST].end[0]
    axes.plot(line, end * line / bonds[-1], "k--", linewidth=0.9, label="slope 1")
    axes.set(xscale="log", yscale="log", xlabel="bonds of a chain, $N-1$", ylabel="mean square / lattice units$^2$")
    axes.legend(frameon=False)
    figure.tight_layout()
    save(figure, path)


def main(words: List[str]) -> None:
    if len(words) != 1 or words[0].startswith("-"):
        sys.exit("tutorial: takes one folder to write into")
    folder = Path(words[0])
    find_program()
    open_folder(folder)
    matplotlib.use("Agg")
    matplotlib.rcParams.update({"svg.hashsalt": "piqwenal", "svg.fonttype": "none"})
    for length, plan in PLANS.items():
        simulate(folder / f"n{length}", length, plan)
    say("measures")
    longest, followed = folder / f"n{LONGEST}", folder / f"n{FOLLOWED}"
    sizes = {length: measure(folder / f"n{length}" / "run.bfm") for length in PLANS}
    names = [name for name, _, _ in CLOSER] + ["run.bfm"]
    curve = joined([displacements(followed / name) for name in names])
    parts = (relaxation_lines(longest / "warm.bfm"), size_lines(sizes), motion_lines(curve))
    text = "\n\n".join("\n".join(lines) for lines in parts) + "\n"
    (folder / "values.txt").write_text(text)
    warm = frames_of(longest / "warm.bfm")[1]
    draw_melt(folder / "melt.svg", warm[0], warm[-1])
    draw_motion(folder / "displacement.svg", curve)
    draw_lengths(folder / "length.svg", sizes)
    print(text, end="")
    stored = Path(__file__).parent / "values.txt"
    if stored.is_file():
        same = "the same as" if stored.read_text() == text else "other than"
        say(f"these values are {same} those in {stored}")


if __name__ == "__main__":
    try:
        main(sys.argv[1:])
    except (pq.ProgramError, pq.FormatError, OSError) as fault:
        sys.exit(f"tutorial: {fault}")
