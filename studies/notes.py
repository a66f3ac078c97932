"""What is noted of a run, in the file notes.json of its folder.

version; commit of the repository, with `+` where its files were changed since; program (SHA-256); proved (true for the program that
`./tierra` built, false for the one of `./tierra --unproved`, null for another file); kit, the identity of what proved it; host; begun and
ended (UTC), seconds; words, those that the program got; asked (what was asked for); seed; setup, the digest in the header of the file that
the program kept; and files, the SHA-256 of each file of the folder.
"""
import datetime
import hashlib
import importlib.metadata
import pathlib
import platform
from typing import Optional

from . import program, soup

TIMES = ("begun", "ended", "seconds")


def now() -> datetime.datetime:
    return datetime.datetime.now(datetime.timezone.utc)


def is_proved(path: str) -> Optional[bool]:
    """Whether a program is the proved one of this repository; None where nothing says it."""
    built = {program.TOP / "crates/tierra/out/tierra": True, program.TOP / "crates/tierra/out/unproved": False}
    return built.get(pathlib.Path(path).resolve())


def version() -> str | None:
    """The version of this repository, or of the package where it was installed elsewhere."""
    path = program.TOP / "VERSION"
    if path.exists():
        return path.read_text().strip()
    try:
        return importlib.metadata.version("zuldokan")
    except importlib.metadata.PackageNotFoundError:
        return None


def of_program(path: str) -> dict:
    """What is noted of the program."""
    kit, proved = program.TOP / "crates/tierra/out/kit", is_proved(path)
    return {
        "version": version(), "commit": program.commit(), "program": program.digest(path),
        "proved": proved, "kit": kit.read_text().strip() if proved and kit.exists() else None, "host": platform.node(),
    }  # fmt: skip


def of_setup(text: str, words: str) -> dict:
    """What is noted of a soup file's text and the words for the program."""
    document = soup.plain(text)
    return {"words": words, "seed": soup.settings(document)["seed"], "setup": soup.digest(document).hex()}


def of_times(begun: datetime.datetime) -> dict:
    """What is noted of a run that ends now."""
    ended = now()
    return dict(zip(TIMES, (begun.isoformat(), ended.isoformat(), round((ended - begun).total_seconds(), 3))))


def of_files(folder: pathlib.Path, names: list[str]) -> dict:
    """The digests of these files of a folder, of those that are there."""
    there = [name for name in names if (folder / name).exists()]
    return {"files": {name: hashlib.sha256((folder / name).read_bytes()).hexdigest() for name in there}}
