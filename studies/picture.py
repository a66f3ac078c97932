"""Pictures of a run, from its checkpoints: SVG or PNG by the ending of the file's name, and an animation as GIF or MP4.

  zuldokan roles tierra.hold > roles.csv
  zuldokan picture map tierra.hold map.png --soup ../examples/parasites.toml --roles roles.csv --quantum 1600000

  population   living creatures, and births and deaths between checkpoints on an axis of their own
  sizes        the size of each saved genotype over the quantum that saved it
  abundance    the living over time, stacked in Muller order: each genotype beside its parent; those without a colour of their own are
               stacked by size, and what has no colour even so is at most a quarter
  diversity    richness, and Shannon and Simpson on an axis of their own
  roles        living hosts, parasites and others over time, stacked; needs --roles
  tree         the family tree of what lives at the end: a line from the first birth to the checkpoint from which on none lived, and
               one to its parent, with their names; coloured by role with --roles, and else by size
  lineage      the line from the founder to the commonest genotype at the end, or to the one that --of names: a row for each genotype, and
               what descends from one instruction in one column
  map          the soup at a checkpoint, a whole number of pixels a cell, line by line from the top left
  animation    the map of each checkpoint; the ending is .gif or .mp4 (which needs ffmpeg)

`--soup` gives the title the soup file's name and seed. `--roles`, a table of `zuldokan roles`, colours genotypes by what they do.
The colours are those of Okabe and Ito, which the colour-blind can tell apart.
"""
import argparse
import pathlib
from typing import Any, Callable

import matplotlib

matplotlib.use("Agg")
import matplotlib.colors
import matplotlib.patches
import matplotlib.pyplot as pyplot
import numpy
import pandas
from matplotlib import animation as films
from matplotlib.axes import Axes
from matplotlib.figure import Figure
from matplotlib.image import FigureImage
from matplotlib.text import Text

from . import abundance as abundances
from . import diversity as diversities
from . import files, frames, phylogeny, roles, soup
from . import lineage as lineages
from .refusal import Refused

COLOURS = {"host": "#0072B2", "hyperparasite": "#CC79A7", "self": "#56B4E9", "parasite": "#D55E00", "idle": "#999999"}
OTHERS = {"daughter being copied": "#F0E442", "free, code of the dead": "#D0D0D0", "first cell of a creature": "#000000", "free, nop_0": "#FFFFFF"}
UNSEEN = "not seen at a checkpoint"
# What has no colour of its own in the picture of abundance, by size.
CLASSES = ["#E4E4E4", "#CFCFCF", "#BABABA", "#A5A5A5", "#F2F2F2"]
# The cells of a lineage, in the order of their shades.
LINE = {
    "no instruction": "#FFFFFF", "nop_0": "#E8E8E8", "nop_1": "#C8C8C8", "another instruction": "#9EC5E0", "new in this step": "#E69F00",
    "lost in this step": "#D55E00",
}  # fmt: skip
SERIES = ["#0072B2", "#E69F00", "#009E73", "#CC79A7", "#56B4E9", "#D55E00", "#F0E442", "#999999"]
STYLE = {"font.size": 9, "axes.spines.top": False, "axes.spines.right": False, "svg.hashsalt": "zuldokan", "axes.axisbelow": True}
WIDTH = 300  # cells of a line of the map
Worlds = list[files.World]


def add_arguments(parser: argparse.ArgumentParser) -> None:
    parser.add_argument("kind", choices=KINDS)
    parser.add_argument("hold", help="a file of checkpoints, tierra.hold")
    parser.add_argument("out", type=pathlib.Path, help="the picture: .svg or .png; .gif or .mp4 for an animation")
    parser.add_argument("--soup", help="its soup file, for the title; without it, the file may be of any setup")
    parser.add_argument("--roles", type=pathlib.Path, help="a table of `zuldokan roles`")
    parser.add_argument("--quantum", type=int, help="the checkpoint of a map (default the last one)")
    parser.add_argument("--of", metavar="NAME", help="the genotype of a lineage (default: the commonest at the end)")
    parser.add_argument("--most", type=int, default=12, help="genotypes with a colour of their own in abundance (default 12)")
    parser.add_argument("--pixels", type=int, default=3, help="pixels a cell in a map or animation (default 3)")


def title_of(path: str | pathlib.Path | None) -> str:
    """What the title says of the run: the soup file's name and seed, without the zeros that the seed begins with."""
    if path is None:
        return "a run"
    seed = soup.settings(soup.plain(soup.text_in(path), str(path)))["seed"]
    return f"{pathlib.Path(path).name}, seed {seed.lower().lstrip('0') or '0'}"


def roles_in(path: pathlib.Path | None) -> dict[str, str]:
    """The role of each genotype, from a table of `zuldokan roles`."""
    if path is None:
        return {}
    try:
        table = pandas.read_csv(path)
    except ValueError:
        table = pandas.DataFrame()
    if not {"name", "role"} <= set(table.columns):
        raise Refused(f"{path} is no table of zuldokan roles")
    return dict(zip(table.name, table.role))


def axes(title: str, height: float = 3.8) -> tuple[Figure, Axes]:
    figure, axis = pyplot.subplots(figsize=(9, height), layout="constrained")
    axis.set_title(title, fontsize=10)
    axis.set_xlabel("thousands of quanta")
    axis.grid(color="#DDDDDD", linewidth=0.5)
    return figure, axis


def second_axis(axis: Axes, label: str) -> Axes:
    other = axis.twinx()
    other.spines["right"].set_visible(True)
    other.set_ylabel(label)
    return other


def legend(axis: Axes, other: Axes | None = None) -> None:
    lines = axis.get_legend_handles_labels(), other.get_legend_handles_labels() if other else ([], [])
    place = (1.07 if other else 1.01, 1)
    axis.legend(lines[0][0] + lines[1][0], lines[0][1] + lines[1][1], loc="upper left", bbox_to_anchor=place, frameon=False)


def key_beside(axis: Axes, colours: dict[str, str]) -> None:
    """A key of colours at the right of a picture."""
    edge = {"edgecolor": "#666666", "linewidth": 0.5}
    key = [matplotlib.patches.Patch(facecolor=colour, label=kind, **edge) for kind, colour in colours.items()]
    axis.legend(handles=key, loc="upper left", bbox_to_anchor=(1.01, 1), frameon=False)


def save(figure: Figure, path: pathlib.Path) -> None:
    """Writes a figure and forgets it."""
    figure.savefig(path, dpi=100, metadata={"Date": None} if path.suffix == ".svg" else None)
    pyplot.close(figure)


def step_of(worlds: Worlds) -> str:
    """The quanta between two checkpoints, as a text."""
    steps = numpy.unique(numpy.diff([0, *(world.quanta for world in worlds)]))
    return f"{steps[0]:,} quanta" if len(steps) == 1 else "interval"


def population(worlds: Worlds, title: str, **_: Any) -> Figure:
    table = frames.counts(worlds)
    flows = table[["births", "deaths"]].diff().fillna(table[["births", "deaths"]])
    figure, axis = axes(f"Living, births and deaths: {title}")
    axis.plot(table.quantum / 1000, table.living, color=COLOURS["host"], label="living")
    axis.set_ylabel("living creatures")
    axis.set_ylim(0)
    other = second_axis(axis, f"births, deaths per {step_of(worlds)}")
    other.plot(table.quantum / 1000, flows.births, color="#009E73", linewidth=1, label="births")
    other.plot(table.quantum / 1000, flows.deaths, color="#E69F00", linewidth=1, linestyle="--", label="deaths")
    other.set_ylim(0)
    legend(axis, other)
    return figure


def sizes(worlds: Worlds, title: str, named: dict[str, str] | None = None, **_: Any) -> Figure:
    genotypes = frames.genotypes(worlds[-1]).dropna(subset=["saved"])
    figure, axis = axes(f"Sizes of the saved genotypes: {title}")
    kinds = genotypes.name.map(lambda name: (named or {}).get(name, UNSEEN if named else "saved genotype"))
    for kind in [*roles.ROLES, UNSEEN, "saved genotype"]:
        some = genotypes[kinds == kind]
        if len(some):
            axis.scatter(some.saved.astype(float) / 1000, some["size"], s=10, color=COLOURS.get(kind, "#000000"), label=kind)
    axis.set_ylabel("instructions")
    axis.set_ylim(0)
    axis.set_xlabel("thousands of quanta until the genotype was saved")
    legend(axis)
    return figure


def abundance(worlds: Worlds, title: str, most: int = 12, **_: Any) -> Figure:
    table = abundances.with_size_classes(worlds, most)
    figure, axis = axes(f"Living genotypes in Muller order: {title}")
    hatches, classes = ["", "///", "...", "xxx"], 0
    bands = axis.stackplot(table.index / 1000, table.T.to_numpy(), linewidth=0.3, edgecolor="white")
    for k, (name, band) in enumerate(zip(table.columns, bands)):
        is_class = name.startswith("others")
        band.set_facecolor(CLASSES[classes % len(CLASSES)] if is_class else SERIES[k % len(SERIES)])
        band.set_hatch("" if is_class else hatches[k // len(SERIES) % len(hatches)])
        band.set_label(name)
        classes += is_class
    axis.set_ylabel("living creatures")
    legend(axis)
    return figure


def diversity(worlds: Worlds, title: str, **_: Any) -> Figure:
    table = diversities.diversity(worlds)
    figure, axis = axes(f"Diversity of the living genotypes: {title}")
    axis.plot(table.quantum / 1000, table.richness, color=COLOURS["host"], label="richness")
    axis.set_ylabel("living genotypes")
    axis.set_ylim(0)
    other = second_axis(axis, "Shannon (nats), Simpson")
    other.plot(table.quantum / 1000, table.shannon, color=COLOURS["parasite"], linewidth=1, label="Shannon")
    other.plot(table.quantum / 1000, table.simpson, color="#009E73", linewidth=1, linestyle="--", label="Simpson")
    other.set_ylim(0)
    legend(axis, other)
    return figure


def roles_over_time(worlds: Worlds, title: str, named: dict[str, str] | None = None, **_: Any) -> Figure:
    if not named:
        raise Refused("picture roles needs --roles, a table of zuldokan roles")
    living = frames.living(worlds)
    living["role"] = living.name.map(named)
    if living.role.isna().any():
        raise Refused(f"the table of roles lacks {living.name[living.role.isna()].iloc[0]}")
    table = living.pivot_table(index="quantum", columns="role", values="living", aggfunc="sum", fill_value=0)
    table = table.reindex(columns=roles.ROLES, fill_value=0)
    figure, axis = axes(f"Who runs whose code: {title}")
    axis.stackplot(table.index / 1000, table.T.to_numpy(), labels=table.columns, colors=[COLOURS[role] for role in table.columns])
    axis.set_ylabel("living creatures")
    legend(axis)
    return figure


def kinds_of(table: pandas.DataFrame, named: dict[str, str] | None) -> tuple[dict[str, str], dict[str, str]]:
    """The kind of each genotype of a tree, its role or else its class of size, and the colour of each kind."""
    if named:
        return {name: named.get(name, UNSEEN) for name in table.taxon_label}, {**COLOURS, UNSEEN: "#000000"}
    kinds = dict(zip(table.taxon_label, map(abundances.size_class, table["size"])))
    classes = sorted(set(kinds.values()), key=lambda kind: int(kind.split()[0]))
    return kinds, {kind: SERIES[k % len(SERIES)] for k, kind in enumerate(classes)}


def tree(worlds: Worlds, title: str, named: dict[str, str] | None = None, **_: Any) -> Figure:
    table = phylogeny.of_the_living(phylogeny.of_worlds(worlds))
    parents, end = phylogeny.parents_of(table), worlds[-1].quanta
    numbers = pandas.DataFrame({"genotype": table.id, "parent": pandas.Series([parents[one] for one in table.id], dtype=object)})
    place = {one: k for k, one in enumerate(abundances.muller_order(numbers))}
    figure, axis = axes(f"Ancestors of the living: {title}", height=max(3, min(100, 1.5 + 0.085 * len(table))))
    begun, kinds, colours = dict(zip(table.id, table.origin_time)), *kinds_of(table, named)
    for row in table.itertuples():
        until = end if pandas.isna(row.destruction_time) else row.destruction_time
        colour = colours[kinds[row.taxon_label]]
        axis.plot([row.origin_time / 1000, until / 1000], [place[row.id]] * 2, color=colour, linewidth=1.2)
        if (parent := parents[row.id]) is not None:
            axis.plot([begun[row.id] / 1000] * 2, [place[parent], place[row.id]], color="#BBBBBB", linewidth=0.5, zorder=0)
        axis.annotate(row.taxon_label, (until / 1000, place[row.id]), xytext=(2, 0), textcoords="offset points", fontsize=5, va="center")
    axis.set_yticks([])
    axis.set_ylabel("genotypes, each below its parent")
    axis.invert_yaxis()
    key = [matplotlib.patches.Patch(color=colour, label=kind) for kind, colour in colours.items() if kind in set(kinds.values())]
    axis.legend(handles=key, loc="upper left", bbox_to_anchor=(1.05, 1), frameon=False)
    return figure


def map_of(world: files.World, named: dict[str, str] | None = None, pixels: int = 3) -> numpy.ndarray:
    """The colours of the soup, line by line, so many pixels a cell."""
    colour = {name: numpy.array([int(text[k : k + 2], 16) for k in (1, 3, 5)], "uint8") for name, text in {**COLOURS, **OTHERS}.items()}
    shown = numpy.where((world.cells != 0)[:, None], colour["free, code of the dead"], colour["free, nop_0"])
    names = world.genotypes.name
    for row in world.creatures[["at", "size", "daughter_at", "daughter_size", "genotype"]].itertuples(index=False):
        shown[row.daughter_at : row.daughter_at + row.daughter_size] = colour["daughter being copied"]
        shown[row.at : row.at + row.size] = colour[(named or {}).get(names[row.genotype], "self" if not named else "idle")]
        shown[row.at] = colour["first cell of a creature"]
    lines = -(-len(shown) // WIDTH)
    whole = numpy.full((lines * WIDTH, 3), 255, "uint8")
    whole[: len(shown)] = shown
    return numpy.repeat(numpy.repeat(whole.reshape(lines, WIDTH, 3), pixels, 0), pixels, 1)


def framed(image: numpy.ndarray, title: str, named: dict[str, str] | None = None) -> tuple[Figure, FigureImage, Text]:
    """A figure with an image at its own pixels, a title and a key. Gives the image too, for an animation."""
    (height, width), side, top = image.shape[:2], 190, 40
    figure = pyplot.figure(figsize=((width + side) / 100, (height + top) / 100), dpi=100)
    shown = figure.figimage(image, 0, 0)
    text = figure.text(0.01, 1 - 14 / (height + top), title, va="center", fontsize=9)
    kinds = {role: COLOURS[role] for role in roles.ROLES} if named else {"creature": COLOURS["self"]}
    edge = {"edgecolor": "#666666", "linewidth": 0.5}
    key = [matplotlib.patches.Patch(facecolor=colour, label=kind, **edge) for kind, colour in {**kinds, **OTHERS}.items()]
    place = ((width + 5) / (width + side), 1 - top / (height + top))
    figure.legend(handles=key, loc="upper left", bbox_to_anchor=place, frameon=False, fontsize=8)
    return figure, shown, text


def map_title(world: files.World, title: str) -> str:
    return f"The soup after {world.quanta:,} quanta, {WIDTH} cells a line: {title}"


def soup_map(
    worlds: Worlds, title: str, named: dict[str, str] | None = None, quantum: int | None = None, pixels: int = 3, **_: Any
) -> Figure:
    found = [world for world in worlds if quantum is None or world.quanta == quantum]
    if not found:
        raise Refused(f"there is no checkpoint of quantum {quantum}")
    return framed(map_of(found[-1], named, pixels), map_title(found[-1], title), named)[0]


def animation(worlds: Worlds, title: str, out: pathlib.Path, named: dict[str, str] | None = None, pixels: int = 3) -> None:
    """Writes the animation of the map."""
    writer = "pillow" if out.suffix == ".gif" else "ffmpeg"
    if not films.writers.is_available(writer):
        raise Refused(f"{out} needs ffmpeg, which is not installed")
    figure, shown, text = framed(map_of(worlds[0], named, pixels), map_title(worlds[0], title), named)

    def draw(world: files.World) -> None:
        shown.set_data(map_of(world, named, pixels))
        text.set_text(map_title(world, title))

    film = films.FuncAnimation(figure, draw, frames=worlds, interval=200, cache_frame_data=False)
    film.save(out, writer=writer, dpi=100)
    pyplot.close(figure)


def cells_of(steps: list[lineages.Step]) -> tuple[numpy.ndarray, numpy.ndarray]:
    """What each genotype of a line has in each column (the code, or -1), and which of it is new there, or gone."""
    columns, width = lineages.columns_of(steps)
    cells = numpy.full((len(steps), width), -1)
    for row, (step, places) in enumerate(zip(steps, columns)):
        cells[row, places] = list(step.one.code)
    new = numpy.zeros(cells.shape, bool)
    new[1:] = cells[1:] != cells[:-1]
    return cells, new


def lineage(worlds: Worlds, title: str, of: str | None = None, **_: Any) -> Figure:
    steps = lineages.steps_in(worlds, of)
    cells, new = cells_of(steps)
    shades = numpy.select([cells == -1, new & (cells >= 0), cells == 0, cells == 1], [0, 4, 1, 2], 3)
    shades[new & (cells == -1)] = 5
    figure, axis = axes(f"The line to {steps[-1].one.name}: {title}", height=max(2.5, 1.2 + 0.22 * len(steps)))
    axis.grid(False)
    axis.imshow(shades, cmap=matplotlib.colors.ListedColormap(list(LINE.values())), vmin=0, vmax=5, aspect="auto", interpolation="none")
    axis.set_yticks(range(len(steps)), [f"{step.one.name}  {step.one.quantum:,}" for step in steps], fontsize=7)
    axis.set_xlabel("place in the founder, with what was put in")
    axis.set_ylabel("genotype, quantum of its first birth")
    for row, place in zip(*numpy.nonzero(new & (cells >= 0))):
        axis.text(place, row, soup.INSTRUCTIONS[cells[row, place]], fontsize=5, ha="center", va="center", rotation=45)
    key_beside(axis, LINE)
    return figure


KINDS: dict[str, Callable[..., Any]] = {
    "population": population, "sizes": sizes, "abundance": abundance, "diversity": diversity, "roles": roles_over_time, "tree": tree,
    "lineage": lineage, "map": soup_map, "animation": animation,
}  # fmt: skip


def run(args: argparse.Namespace) -> None:
    endings = [".gif", ".mp4"] if args.kind == "animation" else [".svg", ".png"]
    if args.out.suffix not in endings:
        raise Refused(f"{args.out} ends with neither {endings[0]} nor {endings[1]}")
    if args.pixels < 1 or args.most < 1:
        raise Refused("--pixels and --most are at least 1")
    worlds, title, named = frames.worlds_of(args), title_of(args.soup), roles_in(args.roles)
    with matplotlib.rc_context(STYLE):
        if args.kind == "animation":
            animation(worlds, title, args.out, named, args.pixels)
            return
        figure = KINDS[args.kind](worlds, title, named=named, most=args.most, quantum=args.quantum, pixels=args.pixels, of=args.of)
        save(figure, args.out)
