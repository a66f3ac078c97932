"""Which genotypes breed true: runs each alone and tells its fate (CSV).

  zuldokan assay tierra.bank > fates.csv
  zuldokan assay tierra.hold --only 0080aaa 0044aac
  zuldokan assay genotypes.fasta --like ../examples/shrinking.toml --quanta 3000

The genotypes are those of a genebank, of checkpoints, of FASTA or of a listing (FILE.listing). Each is one creature in an empty soup, for
`--quanta`, with the settings of `--like` and `--set` or the defaults, and without mutation, flaws and disturbances. Its first three
daughters are looked at:

  sterile   it has no daughter
  true      it breeds true: one of them has its code
  blanks    it copies blanks: they are nothing but nop_0
  another   else: it breeds another genotype

The daughters of what breeds another are run alone too. If one of them breeds true, that is the end. Else the last of them that breeds
another leads on in the same way, for at most ten steps. `ends` tells where this leads: `true`, to a genotype that breeds true; `cycle`,
to a code that was met before; `sterile` or `blanks`, to daughters of which none breeds; `open`, if the tenth step is none of these: then
each genotype bred another one. A genotype is fertile if its end is `true` or `cycle`.

Columns: name; size (instructions); fate; births (of all, in that time); first_run, first_moved, second_run, second_moved (instructions
run and cells moved for the first and second daughter); daughter, the first step of the way, by its name if the file has it, and
daughter_code; steps of the way; ends; fertile; said, all of this in a line.

Results are kept, and what is known is not run again: see `--kept`. An interrupted call goes on where it was.
"""
import argparse
import pathlib
import sys
from typing import Iterable, NamedTuple, Optional

import pandas

from . import alone, files, genotypes, listing, soup
from .refusal import Refused

STEPS = 10


class Fate(NamedTuple):
    """What becomes of a genotype alone: its kind, the way to its end (codes, its own first), the end, and what was seen of it."""

    kind: str
    way: list[bytes]
    ends: str
    seen: alone.Seen

    @property
    def is_fertile(self) -> bool:
        return self.ends in ("true", "cycle")


def add_arguments(parser: argparse.ArgumentParser) -> None:
    parser.add_argument("file", help="a genebank, a file of checkpoints, FASTA, or a listing")
    parser.add_argument("--only", nargs="+", metavar="NAME", help="these genotypes")
    alone.add_arguments(parser)


def is_blank(code: bytes) -> bool:
    """Whether a code is nothing but nop_0."""
    return not any(code)


def kind_of(code: bytes, seen: alone.Seen) -> str:
    """The fate of a genotype by its own daughters."""
    if not seen.daughters:
        return "sterile"
    if code in seen.daughters:
        return "true"
    return "blanks" if all(map(is_blank, seen.daughters)) else "another"


def step(way: list[bytes], seen: dict[bytes, alone.Seen]) -> Optional[str]:
    """Goes one step on a way whose last genotype breeds another, by what was seen of its daughters. Gives the end, if it is one."""
    daughters = [code for code in seen[way[-1]].daughters if not is_blank(code)]
    kinds = {code: kind_of(code, seen[code]) for code in daughters}
    true = [code for code in daughters if kinds[code] == "true"]
    leading = [code for code in daughters if kinds[code] == "another"]
    way.append((true or leading[::-1] or daughters)[0])
    if kinds[way[-1]] != "another":
        return kinds[way[-1]]
    return "cycle" if way[-1] in way[:-1] else None


def fates(codes: Iterable[bytes], bench: alone.Bench) -> dict[bytes, Fate]:
    """The fate of each code."""
    ways = {code: [code] for code in codes}
    seen = bench.seen(ways)
    kinds = {code: kind_of(code, seen[code]) for code in ways}
    ends = {code: kind for code, kind in kinds.items() if kind != "another"}
    for _ in range(STEPS):
        going = [code for code in ways if code not in ends]
        bred = [daughter for code in going for daughter in seen[ways[code][-1]].daughters]
        seen |= bench.seen(daughter for daughter in dict.fromkeys(bred) if not is_blank(daughter))
        found = {code: step(ways[code], seen) for code in going}
        ends |= {code: end for code, end in found.items() if end}
    return {code: Fate(kinds[code], ways[code], ends.get(code, "open"), seen[code]) for code in ways}


def said_of(fate: Fate, names: dict[bytes, str]) -> str:
    """A fate in words."""
    number, steps = len(fate.seen.daughters), len(fate.way) - 1
    looked_at = f"its first {number} daughters" if number > 1 else "its one daughter"
    true = fate.seen.daughters.count(fate.way[0])
    if fate.kind == "sterile":
        return "no daughter"
    if fate.kind == "true":
        return f"breeds true; {true} of {looked_at} with its code" if number > 1 else f"breeds true; {looked_at} has its code"
    if fate.kind == "blanks":
        return f"copies blanks; {looked_at} nothing but nop_0"
    daughter = fate.way[1]
    bred = f"breeds another of {len(daughter)} instructions" + (f" named {names[daughter]}" if daughter in names else "")
    after = f"after {steps} steps" if steps > 1 else "and this"
    ends = {
        "true": "breeds true", "cycle": "a code that came before", "sterile": "is sterile", "blanks": "copies blanks",
        "open": "still another",
    }  # fmt: skip
    one = "one that " if steps > 1 and fate.ends in ("true", "sterile", "blanks") else ""
    return f"{bred}; {after} {one}{ends[fate.ends]}"


def table_of(named: dict[str, bytes], bench: alone.Bench) -> pandas.DataFrame:
    """The table of fates of genotypes by name."""
    found, names = fates(named.values(), bench), {code: name for name, code in named.items()}
    rows = []
    for name, code in named.items():
        fate = found[code]
        daughter = fate.way[1] if fate.kind == "another" else None
        row = {"name": name, "size": len(code), "fate": fate.kind, "births": fate.seen.births, **fate.seen.efforts}
        row |= {"daughter": daughter and names.get(daughter), "daughter_code": daughter and daughter.hex(), "steps": len(fate.way) - 1}
        rows.append(row | {"ends": fate.ends, "fertile": fate.is_fertile, "said": f"{bench.said()}: {said_of(fate, names)}"})
    columns = ["name", "size", "fate", "births", *files.EFFORTS, "daughter", "daughter_code", "steps", "ends", "fertile", "said"]
    return pandas.DataFrame(rows, columns=columns).astype({effort: "Int64" for effort in files.EFFORTS})


def codes_of(path: str, only: Optional[list[str]] = None) -> dict[str, bytes]:
    """The codes of a genebank, of checkpoints, of FASTA or of a listing, by name: of all, or of those that are named."""
    with open(path, "rb") as file:
        is_fasta = file.read(1) == b">"
    if is_fasta:
        found = listing.of_fasta(soup.text_in(path))
    elif path.endswith(".listing"):
        found = {pathlib.Path(path).stem: soup.code_of_listing(soup.text_in(path), path)}
    else:
        return {one.name: one.code for one in genotypes.chosen(genotypes.all_in(path), only, path)}
    for name in only or []:
        if name not in found:
            raise Refused(f"{path} has no genotype {name}")
    return {name: found[name] for name in only or found}


def run(args: argparse.Namespace) -> None:
    table_of(codes_of(args.file, args.only), alone.bench_of(args)).to_csv(sys.stdout, index=False)
