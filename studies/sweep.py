"""Runs one soup file with many seeds and settings, each run in a folder of its own.

  zuldokan sweep ../examples/parasites.toml --set copy_rate=500,1000 --seeds 0-63 --quanta 1000000

A folder gets its soup file `soup.toml`, what the program prints (`run.txt`, `hold.txt` or `curve.txt`), the file that the
program keeps, and `notes.json`: version, commit, program and kit, whether it is proved, host, times, words, seed and digests. Each soup
file is read back before anything runs, and no two may be one setup. A comment of a value that was changed is left out, and so are lines
of comment alone. A folder with `notes.json` is finished and is left alone. A sweep that was interrupted goes on when it is started again.
Each quantum is run once: `run` keeps a genebank, `hold` checkpoints, and `curve` prints births and deaths.
"""
import argparse
import concurrent.futures
import itertools
import json
import os
import pathlib
import re
from typing import Any, Sequence

from tomlkit import TOMLDocument

from . import files, notes, program, soup
from .progress import Progress
from .refusal import Refused

Asked = dict[str, dict[str, Any]]  # the settings that each run asks for, by the name of its folder
KEPT = {"run": "tierra.bank", "hold": "tierra.hold", "curve": None}


def add_arguments(parser: argparse.ArgumentParser) -> None:
    parser.add_argument("soup", help="the soup file that the runs share")
    parser.add_argument("--quanta", type=int, required=True, help="quanta of each run, up to 4,000,000")
    parser.add_argument("--seeds", help="numbers and ranges, as 0-63,100; without it the file's own seed")
    parser.add_argument("--set", action="append", default=[], metavar="KEY=VALUE,..", help="a setting with the values that it takes")
    parser.add_argument("--action", choices=KEPT, default="run", help="what each run does (default run)")
    parser.add_argument("--every", type=int, help="quanta between two checkpoints of hold, or two counts of curve")
    parser.add_argument("--into", default=".", help="the folder of the folders (default this one)")
    parser.add_argument("--jobs", type=int, default=1, help="how many runs at once (default 1)")
    parser.add_argument("--list", action="store_true", help="print the names of the folders and run nothing")
    parser.add_argument("--one", metavar="NAME", help="do the run of this folder alone, or of this number, counted from 0")
    program.add_argument(parser)


def seeds_of(text: str) -> list[int]:
    """The seeds that a text such as `0-63,100` names."""
    seeds: list[int] = []
    for part in text.split(","):
        found = re.fullmatch(r"(\d+)(?:-(\d+))?", part)
        if not found or found[2] and int(found[2]) < int(found[1]):
            raise Refused(f"--seeds: {part} is neither a number nor a range")
        seeds += range(int(found[1]), int(found[2] or found[1]) + 1)
    return seeds


def values_of(words: list[str]) -> dict[str, list[int | bool]]:
    """The values that the words of `--set` give to each key."""
    values = {}
    for word in words:
        key, equals, texts = word.partition("=")
        if not equals or key in values:
            raise Refused(f"--set {word}: " + ("each key comes once" if equals else "KEY=VALUE,.. was expected"))
        values[key] = [soup.value_of(key, text) for text in texts.split(",")]
    return values


def one_value_of(words: list[str]) -> dict:
    """The value that the words of `--set` give to each key."""
    values = values_of(words)
    for key, some in values.items():
        if len(some) != 1:
            raise Refused(f"--set {key}: one value was expected")
    return {key: some[0] for key, some in values.items()}


def asked_for(values: dict[str, list[int | bool]], seeds: Sequence[int | None]) -> Asked:
    """What each run asks for, by the name of its folder: the settings to put into the soup file."""
    asked = {}
    for seed, chosen in itertools.product(seeds, itertools.product(*values.values())):
        settings = dict(zip(values, chosen))
        parts = [f"{key}{str(value).lower()}" for key, value in settings.items()]
        if seed is not None:
            settings["seed"] = soup.seed_text(seed)
            parts.insert(0, f"seed{seed}")
        name = "_".join(parts) or "run"
        if name in asked:
            raise Refused(f"{name} was asked for twice")
        asked[name] = settings
    return asked


def changed(document: TOMLDocument, settings: dict[str, Any]) -> str:
    """The text of a document with these settings, read back by another reader of TOML: it says what was asked and no more."""
    text = soup.text_of(soup.with_settings(document, settings))
    said, before = soup.plain(text), document.unwrap()
    if said != before | settings:
        raise Refused(f"the soup file does not take {', '.join(settings)}: it would say something else")
    return text


def texts_of(document: TOMLDocument, asked: Asked) -> dict[str, str]:
    """The soup file of each run, by name. No two are the same setup."""
    texts: dict[str, str] = {}
    names: dict[bytes, str] = {}
    for name, settings in asked.items():
        texts[name] = changed(document, settings)
        other = names.setdefault(soup.digest(soup.plain(texts[name])), name)
        if other != name:
            raise Refused(f"{other} and {name} would be the same run")
    return texts


def planned(path: str | pathlib.Path, words: list[str], seeds: Sequence[int | None]) -> tuple[dict[str, str], Asked]:
    """The soup file of each run by name, and what each asks for; the seed None is the file's own."""
    asked = asked_for(values_of(words), seeds)
    return texts_of(soup.read(path), asked), asked


def replace(path: pathlib.Path, text: str) -> None:
    """Writes a file so that it is there whole or not at all."""
    part = path.with_name(path.name + ".part")
    with open(part, "w", encoding="utf-8") as file:
        file.write(text)
        file.flush()
        os.fsync(file.fileno())
    os.replace(part, path)


def is_finished(folder: pathlib.Path, known: dict[str, Any]) -> bool:
    """Whether a folder has this run already. A folder with another run is refused."""
    path = folder / "notes.json"
    if not path.exists():
        return False
    try:
        kept = json.loads(path.read_text())
    except ValueError as fault:
        raise Refused(f"{path} is damaged") from fault
    for key, what in (("setup", "setup"), ("words", "command"), ("program", "program")):
        if kept.get(key) != known[key]:
            raise Refused(f"{folder} has a run of another {what}: take another folder")
    return True


def do_run(folder: pathlib.Path, text: str, known: dict[str, Any], named: str) -> bool:
    """Does one run in its folder, unless it is finished. Gives whether it ran. What is known of it beforehand is noted at its end."""
    if is_finished(folder, known):
        return False
    folder.mkdir(parents=True, exist_ok=True)
    path, begun = folder / "soup.toml", notes.now()
    if path.exists() and path.read_text(encoding="utf-8") != text:
        raise Refused(f"{folder} has another soup file: take another folder")
    replace(path, text)
    words = known["words"].split()
    part = folder / f"{words[0]}.txt.part"
    try:
        with open(part, "wb") as out:
            program.run(named, words, text, folder, out)
            os.fsync(out.fileno())
    except Refused as fault:
        raise Refused(f"{folder.name}: {fault}") from fault
    kept = KEPT[words[0]]
    if kept and files.setup_of(folder / kept).hex() != known["setup"]:
        raise Refused(f"{folder.name}: the program read another setup than the soup file says")
    os.replace(part, part.with_suffix(""))
    made = notes.of_files(folder, [path.name, f"{words[0]}.txt", *filter(None, [kept])])
    replace(folder / "notes.json", json.dumps({**known, **notes.of_times(begun), **made}, indent=1) + "\n")
    return True


def command_of(action: str, quanta: int, every: int | None) -> str:
    """The words for the program."""
    soup.check_quanta(quanta)
    if action == "run" and every is not None:
        raise Refused("--every goes with --action hold or curve")
    if action == "hold" and (every or soup.USUAL_EVERY) > quanta:
        raise Refused(f"--quanta {quanta} is below --every {every or soup.USUAL_EVERY}: the runs would keep no checkpoint")
    return f"{action} --quanta {quanta}" + (f" --every {every}" if every is not None else "")


def chosen(texts: dict[str, str], one: str | None) -> list[str]:
    """The runs to do: all, or the one that a name or a number names."""
    if one is None:
        return list(texts)
    if one in texts:
        return [one]
    if one.isdecimal() and int(one) < len(texts):
        return [list(texts)[int(one)]]
    raise Refused(f"--one: there is no run {one} among {len(texts)}")


def run_all(top: pathlib.Path, runs: dict[str, tuple[str, dict]], command: str, named: str, jobs: int) -> None:
    """Does runs side by side, each in its folder: its soup file and what was asked for, by the folder's name."""
    shared, waiting = notes.of_program(named), []
    for name, (text, asked) in runs.items():
        known = {**shared, **notes.of_setup(text, command), "asked": asked}
        if not is_finished(top / name, known):
            waiting.append((top / name, text, known, named))
    program.forecast(named, int(command.split()[2]) * len(waiting) / jobs)
    with Progress(len(waiting), "run") as told, concurrent.futures.ThreadPoolExecutor(jobs) as pool:
        running = [pool.submit(do_run, *job) for job in waiting]
        try:
            for done in concurrent.futures.as_completed(running):
                done.result()
                told.step()
        except BaseException:
            pool.shutdown(wait=False, cancel_futures=True)
            raise


def run(args: argparse.Namespace) -> None:
    seeds: list[int | None] = [*seeds_of(args.seeds)] if args.seeds else [None]
    texts, asked = planned(args.soup, args.set, seeds)
    command, names = command_of(args.action, args.quanta, args.every), chosen(texts, args.one)
    if args.list:
        print("\n".join(texts))
        return
    if args.jobs < 1:
        raise Refused("--jobs is at least 1")
    named, top = program.find(args.program), pathlib.Path(args.into)
    run_all(top, {name: (texts[name], asked[name]) for name in names}, command, named, args.jobs)
