"""Makes a soup file of genotypes of one or several runs at given places: an invasion experiment.

  zuldokan soup_from --like ../examples/parasites.toml --put hosts/tierra.bank:0080aaa@0,200,400 \\
      --put parasites/tierra.hold:0044aac@100 > invasion.toml

Each `--put` names a genebank, a file of checkpoints, or a listing (FILE.listing, without a name), and the cells where its
individuals begin. The settings are those of the file `--like`, with `--set` and `--seed` on top. Blocks that overlap or end past the
last cell are refused, and so is a file that would be longer than the program takes.
"""
import argparse
import re
import sys
from typing import Sequence

from tomlkit import TOMLDocument

from . import genotypes, soup, sweep
from .refusal import Refused

PUT = re.compile(r"(?P<file>.+?)(?::(?P<name>\d{4,}[a-z]{3,}))?@(?P<places>\d+(?:,\d+)*)")


def add_arguments(parser: argparse.ArgumentParser) -> None:
    parser.add_argument("--like", required=True, help="the soup file with the settings; its creatures are left out")
    parser.add_argument("--put", action="append", required=True, metavar="FILE:NAME@CELL,..", help="a genotype, and where it begins")
    parser.add_argument("--set", action="append", default=[], metavar="KEY=VALUE", help="another value of a setting")
    parser.add_argument("--seed", type=int, help="another seed, as a number")


def placed_by(word: str) -> list[soup.Placed]:
    """The places, code and comment of the creatures that one `--put` names."""
    found = PUT.fullmatch(word)
    if not found:
        raise Refused(f"--put {word}: FILE:NAME@CELL,.. was expected")
    path, name = found["file"], found["name"]
    if name:
        code = genotypes.chosen(genotypes.all_in(path), [name], path)[0].code
    else:
        code = soup.code_of_listing(soup.text_in(path), path)
    comment = f"{name} of {path}" if name else path
    return [(int(place), code, comment) for place in found["places"].split(",")]


def check_places(placed: Sequence[soup.Placed], size: int) -> None:
    """Refuses blocks that overlap or end past the last cell."""
    end, before = 0, None
    for at, code, comment in sorted(placed, key=lambda one: one[0]):
        if at < end:
            raise Refused(f"the creatures at {before} and {at} overlap")
        end, before = at + len(code), at
    if end > size:
        raise Refused(f"the creature at {before} ends past the last cell of {size}")


def made(document: TOMLDocument, placed: Sequence[soup.Placed]) -> str:
    """The text of a document with these creatures, read back: it says just them."""
    check_places(placed, soup.settings(document)["soup_size"])
    text = soup.text_of(soup.with_creatures(document, placed))
    said = soup.plain(text)
    if soup.creatures(said) != [(at, code) for at, code, _ in placed] or soup.settings(said) != soup.settings(document):
        raise Refused("the soup file does not take these creatures")
    soup.digest(said)  # which refuses a value of another kind
    return text


def run(args: argparse.Namespace) -> None:
    settings = {} if args.seed is None else {"seed": soup.seed_text(args.seed)}
    document = soup.with_settings(soup.read(args.like), sweep.one_value_of(args.set) | settings)
    sys.stdout.write(made(document, [one for word in args.put for one in placed_by(word)]))
