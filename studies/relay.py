"""A run in legs, for more than 4,000,000 quanta: the living of one leg begin the next.

  zuldokan relay ../examples/parasites.toml --quanta 4000000 --legs 5 --into long

What carries over is what carries over between the epochs of `tierra isles --isles 1` (docs/RULES.md, "Isles"): each living creature's
own block, at its place, in the order of the slicer queue. Registers, errors, daughter blocks and what nobody owns are lost, creatures
and genotypes are numbered anew, and quanta count from 1. The seed of leg E is the SHA-256 of the file's seed, E and 1. So the report of
the last leg is that of `tierra isles --isles 1 --epochs E`.

Each leg has a folder, leg1, leg2 and so on, with soup.toml, tierra.hold (the world at its end), tierra.bank, hold.txt and run.txt. It
is run twice, since one action keeps checkpoints and another one the genebank; --no-genebank leaves the second out. relay.csv joins the
names by code: leg, name (in this leg), saved (quantum of this leg), since (quanta since the beginning), first_leg and first_name (where the
same code was first saved), size, code. A relay that was interrupted goes on when it is started again. A soup file has at most 1 MiB:
a leg whose living need more is refused.
"""
import argparse
import hashlib
import pathlib

import pandas
from tomlkit import TOMLDocument

from . import files, program, soup, sweep
from .progress import Progress
from .refusal import Refused


def add_arguments(parser: argparse.ArgumentParser) -> None:
    parser.add_argument("soup")
    parser.add_argument("--quanta", type=int, required=True, help="quanta of a leg, up to 4,000,000")
    parser.add_argument("--legs", type=int, required=True)
    parser.add_argument("--into", default=".", type=pathlib.Path, help="the folder of the legs (default this one)")
    parser.add_argument("--no-genebank", action="store_true", help="run each leg once, without tierra.bank")
    program.add_argument(parser)


def seed_of(seed: str, leg: int) -> str:
    """The seed of a leg, in 64 hexadecimal digits: that of isle 1 in this epoch."""
    return hashlib.sha256(bytes.fromhex(seed) + leg.to_bytes(8, "big") + (1).to_bytes(8, "big")).hexdigest()


def first_text(document: TOMLDocument, seed: str) -> str:
    """The soup file of leg 1."""
    return sweep.changed(document, {"seed": seed_of(seed, 1)})


def next_text(document: TOMLDocument, seed: str, leg: int, world: files.World) -> str:
    """The soup file of a later leg: the living of the world before it."""
    if not len(world.records):
        raise Refused(f"nobody lived at the end of leg {leg - 1}")
    placed = [(at, bytes(world.cells[at : at + size]), None) for at, size in world.records[["at", "size"]].tolist()]
    settled = soup.with_settings(soup.with_creatures(document, placed), {"seed": seed_of(seed, leg)})
    try:
        text = soup.text_of(settled)
    except Refused as fault:
        raise Refused(f"leg {leg} cannot begin: {fault}") from fault
    said = soup.plain(text)
    if soup.creatures(said) != [(at, code) for at, code, _ in placed]:
        raise Refused(f"leg {leg}: the soup file does not take the living")
    return text


def do(action: str, words: list[object], path: str, text: str, folder: pathlib.Path) -> None:
    """Runs an action of a leg, unless it is done."""
    told = folder / f"{action}.txt"
    if not told.exists():
        sweep.replace(told, program.run(path, [action, *words], text, folder))


def run_leg(folder: pathlib.Path, text: str, quanta: int, path: str, with_genebank: bool) -> files.World:
    """Runs a leg in its folder, and gives the world at its end."""
    folder.mkdir(parents=True, exist_ok=True)
    file = folder / "soup.toml"
    if file.exists() and file.read_text(encoding="utf-8") != text:
        raise Refused(f"{folder} has another soup file: take another folder")
    sweep.replace(file, text)
    do("hold", ["--quanta", quanta, "--every", quanta], path, text, folder)
    if with_genebank:
        do("run", ["--quanta", quanta], path, text, folder)
    world = files.read_hold(folder / "tierra.hold", soup.digest(soup.plain(text)))[-1]
    if world.quanta != quanta:
        raise Refused(f"{folder} has a leg of {world.quanta:,} quanta: take another folder")
    return world


def relay(
    document: TOMLDocument, quanta: int, legs: int, top: pathlib.Path, path: str, with_genebank: bool = True
) -> list[files.World]:
    """Runs the legs, and gives their last worlds."""
    seed = soup.settings(document)["seed"]
    worlds: list[files.World] = []
    program.forecast(path, quanta * legs * (2 if with_genebank else 1))
    with Progress(legs, "leg") as told:
        for leg in range(1, legs + 1):
            text = next_text(document, seed, leg, worlds[-1]) if worlds else first_text(document, seed)
            worlds.append(run_leg(top / f"leg{leg}", text, quanta, path, with_genebank))
            told.step()
    return worlds


def joined(worlds: list[files.World]) -> pandas.DataFrame:
    """The saved genotypes of all legs, with the leg and the name under which each code was first saved."""
    rows = []
    first: dict[bytes, tuple[int, str]] = {}
    for leg, world in enumerate(worlds, 1):
        genotypes = world.genotypes.set_index("genotype")
        for saving in world.savings.itertuples():
            code, name = genotypes.code[saving.genotype], genotypes.name[saving.genotype]
            begun, known = first.setdefault(code, (leg, name))
            since = saving.saved + sum(other.quanta for other in worlds[: leg - 1])
            rows.append((leg, name, saving.saved, since, begun, known, len(code), code.hex()))
    return pandas.DataFrame(rows, columns=["leg", "name", "saved", "since", "first_leg", "first_name", "size", "code"])


def run(args: argparse.Namespace) -> None:
    if not 1 <= args.quanta <= soup.MOST_QUANTA or args.legs < 1:
        raise Refused(f"--quanta is from 1 to {soup.MOST_QUANTA:,}, and --legs at least 1")
    worlds = relay(soup.read(args.soup), args.quanta, args.legs, args.into, program.find(args.program), not args.no_genebank)
    sweep.replace(args.into / "relay.csv", joined(worlds).to_csv(index=False))
