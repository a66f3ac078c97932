"""Studies of runs: reads what the program keeps and prints, and runs it.

    import zuldokan
    worlds = zuldokan.read_checkpoints("tierra.hold")
    zuldokan.genotypes_of(worlds[-1])

The functions here are the library's public face. Each verb of the command `zuldokan` is a module, which is loaded when it is first
asked for, as `zuldokan.frames`. In a checkout that is not installed the package has the folder's name: `import studies as zuldokan`.

Times are in quanta, counted from 1; sizes in instructions; places in cells, counted from 0. A code is bytes, one of 0 to 31 for each
instruction. Input that a function cannot take raises `Refused` with one line that says what is wrong with which input, and a file that
cannot be read raises OSError; there is never a table of something else. A path may be text or a pathlib.Path.
"""
from __future__ import annotations

import importlib
from pathlib import Path
from typing import TYPE_CHECKING, Any, Iterable, Mapping, Sequence

from .refusal import Refused as Refused

if TYPE_CHECKING:
    from pandas import DataFrame

    from .files import Saved, World
else:

    def __getattr__(name):
        """A module of the package, loaded when it is first asked for."""
        whole = f"{__name__}.{name}"
        try:
            return importlib.import_module(whole)
        except ModuleNotFoundError as missing:
            if missing.name != whole:
                raise
            raise AttributeError(f"{__name__} has no {name}") from None


def read_checkpoints(path: str | Path, soup: str | Path | None = None) -> list[World]:
    """The worlds of a file of checkpoints, `tierra.hold`, in the order of time; none where nothing was kept yet.

    A world has: quanta, births, deaths (counts since the start); cells (an array of bytes, one for each cell); creatures (a table with
    a row for each of the living, in the order of their turns: number, block and daughter block in cells, registers, instructions run,
    daughters, genotype); genotypes (a table with a row for each that ever lived); savings (those of the genebank); reaper (numbers of
    creatures, the next to die first). Where `soup` names a soup file, the checkpoints must be of its setup.

    Refused: what `tierra hold` refuses as damaged or of another setup.
    Source: the bytes themselves, by the tables of docs/FORMATS.md, "A world's bytes".
    """
    from . import files
    from .soup import digest_of

    return files.read_hold(path, digest_of(soup))


def read_genebank(path: str | Path, soup: str | Path | None = None) -> list[Saved]:
    """The saved genotypes of a genebank, `tierra.bank`, in the order of saving; none where nothing was saved yet.

    Each has: name; size; quantum (that saved it); parent (a name, or None); efforts (instructions run and cells moved for the first and
    the second daughter, None where there was none); code. Where `soup` names a soup file, the genebank must be of its setup.

    Refused: what `tierra bank` refuses as damaged or of another setup.
    Source: the bytes themselves, by docs/FORMATS.md, "The genebank's bytes".
    """
    from . import files
    from .soup import digest_of

    return files.read_bank(path, digest_of(soup))


def read_dump(path: str | Path) -> DataFrame:
    """The creatures of a dump, the text that `tierra dump` prints: a row for each, in the order of their turns.

    Columns: id (number of birth); at, size, daughter_at, daughter_size (cells; a size of 0 where there is no daughter block); moved
    (cells copied into it); ip, ax, bx, cx, dx, sp, flag, errors; name (of the genotype).

    Refused: a text without a line `creature ..`, and one that is not UTF-8.
    Source: the text of the program; a file of checkpoints has the same creatures, and more of each.
    """
    from . import printed
    from .soup import text_in

    return printed.creatures_in(text_in(path))


def read_codes(path: str | Path, names: Sequence[str] | None = None) -> dict[str, bytes]:
    """The codes of the genotypes of a file by name: of a genebank, of checkpoints (all that ever lived), of FASTA, or of a listing
    (`NAME.listing`); or of those that are named.

    Refused: a file of another kind, and a name that the file lacks.
    Source: FASTA has the letters that `zuldokan genotypes --help` tells, a listing the names of docs/RULES.md, "Instructions".
    """
    from . import assay

    return assay.codes_of(str(path), None if names is None else list(names))


def genotypes_of(world: "World") -> DataFrame:
    """Every genotype that ever lived in a world, a row for each in the order of first birth.

    Columns: genotype (number, from 0); name; size; parent (name); first_quantum; total (individuals that ever lived); first_run,
    first_moved, second_run, second_moved (instructions run and cells moved for the first and second daughter); code (two hexadecimal
    digits an instruction); saved (the quantum that saved it). What there is not is missing (NA).

    Refused: a damaged world that is not the last one of its file, whose genotypes are read only now.
    Source: the checkpoint. The table is `genotypes.csv` of `zuldokan frames`.
    """
    from . import frames

    return frames.genotypes(world)


def phylogeny_of(path: str | Path, soup: str | Path | None = None) -> DataFrame:
    """The tree of the genotypes of checkpoints or of a genebank, as the table of the ALife data standard, a row for each genotype.

    Columns: those of the standard (id, ancestor_list, origin_time, destruction_time, taxon_label, sequence), size, efforts; then of
    checkpoints last_seen, abundance and living, and of a genebank missing_parent. `zuldokan phylogeny --help` tells each.
    `zuldokan.phylogeny.newick` makes Newick of the table.

    Refused: what is neither, and checkpoints without a world.
    Source: a genotype's parent is the genotype of its first individual's mother. A genebank lacks those that were never saved.
    """
    from . import phylogeny
    from .soup import digest_of

    return phylogeny.table_of(path, digest_of(soup))


def lineage_to(path: str | Path, name: str | None = None, soup: str | Path | None = None) -> DataFrame:
    """The line from the founder to a genotype, a row for each step; of checkpoints to the commonest at the end, where none is named.

    Columns: step (0 is the founder); name; size; parent; quantum (of its first individual, or of its saving in a genebank); changed,
    inserted, lost (how many instructions); changes (which, at the mother's places). `zuldokan lineage --help` tells each.

    Refused: a name that the file lacks, and a genebank where none is named. A genebank's line begins where a parent is missing, with a
    line on standard error.
    Source: each daughter is aligned to her mother by Biopython, and of several best alignments the first is taken.
    """
    from . import lineage
    from .soup import digest_of

    return lineage.table_of(lineage.steps_of(str(path), name, digest_of(soup)))


def find_program(named: str | None = None) -> str:
    """The path of the program: the one that is named, or that ZULDOKAN_PROGRAM or TIERRA names, or that the checkout of these tools
    has built, or `tierra` on the PATH.

    Refused: where there is none, and where the one that is named is no program.
    """
    from . import program

    return program.find(named)


def run_soup(soup: str | Path, quanta: int, every: int, folder: str | Path = ".", program: str | None = None) -> list[World]:
    """Runs a soup file with checkpoints, by `tierra hold` in a folder, and gives all worlds of that folder's `tierra.hold`.

    `quanta` is the end, up to 4,000,000, and `every` the quanta between two checkpoints. A run goes on from the last checkpoint in the
    folder; what is there already is not run again.

    Refused: with its own line what the program refuses, such as a soup file with a fault or a folder with another run.
    Source: the run is repeatable: its seed stands in the soup file.
    """
    from . import files
    from . import program as programs
    from . import soup as soups

    text = soups.text_in(soup)
    Path(folder).mkdir(parents=True, exist_ok=True)
    programs.run(programs.find(program), ["hold", "--quanta", quanta, "--every", every], text, folder)
    return files.read_hold(Path(folder) / "tierra.hold", soups.digest(soups.plain(text, str(soup))))


def assay_codes(
    codes: Mapping[str, bytes],
    quanta: int = 1000,
    soup: str | Path | None = None,
    settings: Mapping[str, Any] | None = None,
    jobs: int | None = None,
    kept: str | Path | None = None,
    program: str | None = None,
) -> DataFrame:
    """What becomes of genotypes, by name, each alone in an empty soup for so many quanta: a row for each.

    The settings are those of the soup file, or the defaults, with `settings` on top, and without mutation, flaws and disturbances. As
    many as `jobs` run at once, or as there are processors. Results are kept in the file `kept`, if one is named, and are not run again.
    Columns: name, size, fate (`sterile`, `true`, `blanks`, `another`), births, efforts, daughter, daughter_code, steps, ends, fertile,
    said. `zuldokan assay --help` tells each.

    Refused: a setting of another name or kind, `jobs` below 1, and what the program refuses.
    Source: nothing is left to chance, so the same code, settings, quanta and program give the same row.
    """
    from . import alone, assay
    from . import program as programs
    from . import soup as soups

    words = [f"{key}={str(value).lower()}" for key, value in (settings or {}).items()]
    known = alone.settings_of(None if soup is None else str(soup), words)
    soups.check_quanta(quanta)
    bench = alone.Bench(known, quanta, programs.find(program), alone.jobs_of(jobs), None if kept is None else Path(kept))
    return assay.table_of(dict(codes), bench)


def run_sweep(
    soup: str | Path,
    quanta: int,
    seeds: Iterable[int] | None = None,
    values: Mapping[str, Iterable[Any]] | None = None,
    action: str = "run",
    every: int | None = None,
    into: str | Path = ".",
    jobs: int | None = None,
    program: str | None = None,
) -> list[Path]:
    """Runs one soup file with many seeds and settings, each in a folder of its own below `into`, and gives the folders.

    `values` has the values that settings take, as {"copy_rate": [500, 1000]}; each goes with each seed, or with the file's own where none
    is given. `action` is `run` (keeps a genebank), `hold` (checkpoints) or `curve` (counts), the last two each `every` quanta. As many
    as `jobs` run at once, or as there are processors. A finished folder is left alone. `gather_runs` makes one table of the folders.

    Refused: before anything runs, a setting of another name or kind, two folders of one setup, and a folder with another run; then
    what the program refuses.
    Source: `notes.json` in each folder has what was asked, seed, program, times and the digests of all files.
    """
    from . import alone, sweep
    from . import program as programs

    words = [f"{key}={','.join(str(value).lower() for value in some)}" for key, some in (values or {}).items()]
    texts, asked = sweep.planned(soup, words, [None] if seeds is None else list(seeds))
    runs = {name: (text, asked[name]) for name, text in texts.items()}
    sweep.run_all(Path(into), runs, sweep.command_of(action, quanta, every), programs.find(program), alone.jobs_of(jobs))
    return [Path(into) / name for name in runs]


def gather_runs(folders: Iterable[str | Path], what: str = "counts") -> DataFrame:
    """One table of the finished runs of a sweep: `counts` over time, or the saved `genotypes`.

    Columns: run (folder), seed, and each setting in which a run differs from the defaults; then quantum, living, births, deaths; or
    genotype, size, quantum, parent, efforts, code. `zuldokan gather --help` tells each.

    Refused: a folder that is not finished, or whose soup file was changed since.
    Source: what the program kept or printed in each folder.
    """
    from . import gather

    return gather.gathered(what, [Path(folder) for folder in folders])
