"""The command `zuldokan VERB ..`: one module a verb, loaded only when it is asked for."""
import argparse
import importlib
import sys
import types
from typing import NoReturn

from .refusal import Refused

VERBS = {
    "sweep": "runs one soup file with many seeds and settings, a folder each",
    "gather": "makes one table of the runs of a sweep",
    "frames": "tables of what the checkpoints of a run hold",
    "abundance": "how many of each genotype live, over time",
    "diversity": "richness, Shannon and Simpson over time",
    "activity": "evolutionary activity with neutral shadows, and what persists",
    "phylogeny": "the tree of genotypes, as a table of the ALife data standard or as Newick",
    "lineage": "the line from the founders to a genotype, with the mutations of each step",
    "assay": "which genotypes breed true when they are alone",
    "landscape": "what each one-mutant of a genotype does alone",
    "knockout": "which instructions a genotype needs",
    "compete": "genotypes in equal numbers against each other, several times",
    "invade": "a genotype put into the soup of a checkpoint, several times",
    "roles": "who runs whose code: hosts, parasites and hyperparasites",
    "genotypes": "genotypes as FASTA, as .tie or as listings",
    "listing": "the listing of a .tie or FASTA file",
    "soup_from": "a soup file of genotypes of several runs at given places",
    "trace": "a table of single instructions: registers, stack and what was written",
    "relay": "a run in legs, for more than 4,000,000 quanta",
    "events": "a run with events: genotypes put in, settings changed, creatures killed",
    "picture": "pictures and an animation of a run",
    "live": "follows a run: a page for a browser, or text",
}


class Parser(argparse.ArgumentParser):
    """A parser whose refusals are one line."""

    def error(self, message: str) -> NoReturn:
        raise Refused(message)


def parser_of(verb: str, module: types.ModuleType) -> Parser:
    """The parser of a verb's words; its help is the module's docstring."""
    parser = Parser(
        prog=f"zuldokan {verb}", description=module.__doc__, formatter_class=argparse.RawDescriptionHelpFormatter
    )
    module.add_arguments(parser)
    return parser


def usage() -> str:
    width = max(map(len, VERBS))
    lines = [f"  {verb:{width}}  {what}" for verb, what in VERBS.items()]
    return "usage: zuldokan VERB ..\n\n" + "\n".join(lines) + "\n\nzuldokan VERB --help tells the rest."


def main(words: list[str] | None = None) -> int:
    """Does what the words ask for, and gives the exit status: 0, or 2 with one line where they or an input are refused."""
    words = sys.argv[1:] if words is None else words
    verb, *rest = words or ["--help"]
    try:
        if verb in ("-h", "--help"):
            print(usage(), flush=True)
            return 0 if words else 2
        if verb not in VERBS:
            raise Refused(f"no verb {verb}; zuldokan --help names them")
        module = importlib.import_module(f".{verb}", __package__)
        module.run(parser_of(verb, module).parse_args(rest))
        sys.stdout.flush()
    except BrokenPipeError:
        sys.stderr.close()
        return 141
    except ModuleNotFoundError as missing:
        print(f"zuldokan {verb}: needs the Python package {missing.name}; docs/STUDIES.md has the line that installs it", file=sys.stderr)
        return 2
    except KeyboardInterrupt:
        print(f"zuldokan {verb}: interrupted", file=sys.stderr)
        return 130
    except UnicodeDecodeError:
        print(f"zuldokan {verb}: the input is not UTF-8", file=sys.stderr)
        return 2
    except (Refused, OSError) as fault:
        print(f"zuldokan {verb}: {fault}", file=sys.stderr)
        return 2
    return 0
