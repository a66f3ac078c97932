"""Diversity of the living genotypes over time (CSV), by scikit-bio: a row for each checkpoint.

  zuldokan diversity tierra.hold > diversity.csv

Columns: quantum; living (creatures); richness (genotypes that live); shannon (natural logarithm, in nats); simpson (1 minus the sum
of squared shares). They are `specnumber`, `diversity(x, "shannon")` and `diversity(x, "simpson")` of R's vegan.
"""
import argparse
import math
import sys

import pandas
from skbio.diversity import alpha

from . import files, frames


def add_arguments(parser: argparse.ArgumentParser) -> None:
    frames.add_hold(parser)


def diversity(worlds: list[files.World]) -> pandas.DataFrame:
    """The table of diversity."""
    rows = []
    for world in worlds:
        living = world.creatures.genotype.value_counts().to_numpy()
        shannon = alpha.shannon(living, base=math.e) + 0.0  # no -0.0 where one genotype lives
        rows.append((world.quanta, int(living.sum()), alpha.observed_otus(living), shannon, alpha.simpson(living)))
    return pandas.DataFrame(rows, columns=["quantum", "living", "richness", "shannon", "simpson"])


def run(args: argparse.Namespace) -> None:
    diversity(frames.worlds_of(args)).to_csv(sys.stdout, index=False)
