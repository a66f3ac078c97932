"""Makes one table (CSV) of the runs of a sweep, from folders that `zuldokan sweep` finished.

  zuldokan gather genotypes FOLDER..   a row for each saved genotype: name, size (instructions), quantum that saved it, parent,
                                       efforts (instructions run and cells moved for the first and second daughter), code
  zuldokan gather counts FOLDER..      a row for each checkpoint, or for each count of a curve, or for the end of a run:
                                       quantum, living, births, deaths

Each row begins with the folder's name, the seed and every setting in which a folder differs from the defaults.
A folder that is not finished is refused: the table would lack a run.
"""
import argparse
import json
import pathlib
import sys
from typing import Any

import pandas

from . import files, printed, soup
from .refusal import Refused

COUNTS = ["quantum", "living", "births", "deaths"]


def add_arguments(parser: argparse.ArgumentParser) -> None:
    parser.add_argument("what", choices=["genotypes", "counts"])
    parser.add_argument("folders", nargs="+", type=pathlib.Path)


def settings_of(folder: pathlib.Path) -> dict[str, Any]:
    """The settings of a finished run, whose soup file is the one that its notes have the digest of."""
    try:
        notes = json.loads((folder / "notes.json").read_text())
    except (OSError, ValueError) as fault:
        raise Refused(f"{folder} has no finished run") from fault
    document = soup.plain(soup.text_in(folder / "soup.toml"), f"{folder}/soup.toml")
    if soup.digest(document).hex() != notes["setup"]:
        raise Refused(f"{folder}/soup.toml is not the soup file that was run")
    return soup.settings(document)


def genotypes_of(folder: pathlib.Path) -> pandas.DataFrame:
    """The saved genotypes of a run."""
    if not (folder / "tierra.bank").exists():
        raise Refused(f"{folder} has no genebank; frames gives the genotypes of checkpoints")
    rows = [
        {"genotype": one.name, "size": one.size, "quantum": one.quantum, "parent": one.parent, **one.efforts, "code": one.code.hex()}
        for one in files.read_bank(folder / "tierra.bank")
    ]
    table = pandas.DataFrame(rows, columns=["genotype", "size", "quantum", "parent", *files.EFFORTS, "code"])
    return table.astype({column: "Int64" for column in files.EFFORTS})


def counts_of(folder: pathlib.Path) -> pandas.DataFrame:
    """The counts of a run over time."""
    if (folder / "curve.txt").exists():
        return printed.curve_in((folder / "curve.txt").read_text())
    if (folder / "tierra.hold").exists():
        worlds = files.read_hold(folder / "tierra.hold")
        if not worlds:
            raise Refused(f"{folder} holds no checkpoint")
        rows = [(world.quanta, len(world.records), world.births, world.deaths) for world in worlds]
    else:
        counts, _ = printed.report_in((folder / "run.txt").read_text())
        rows = [(counts["quanta"], counts["living"], counts["births"], counts["deaths"])]
    return pandas.DataFrame(rows, columns=COUNTS)


def gathered(what: str, folders: list[pathlib.Path]) -> pandas.DataFrame:
    """The table of all runs."""
    settings = {folder: settings_of(folder) for folder in folders}
    shown = [key for key, default in soup.SETTINGS.items() if key != "seed" and any(row[key] != default for row in settings.values())]
    tables = []
    for folder, row in settings.items():
        table = genotypes_of(folder) if what == "genotypes" else counts_of(folder)
        for place, (column, value) in enumerate([("run", folder.name), ("seed", row["seed"]), *((key, row[key]) for key in shown)]):
            table.insert(place, column, value)
        tables.append(table)
    return pandas.concat(tables, ignore_index=True)


def run(args: argparse.Namespace) -> None:
    gathered(args.what, args.folders).to_csv(sys.stdout, index=False)
