"""Soup files and listings: "Instructions" of docs/RULES.md, "Soup files" of docs/FORMATS.md, and tomlkit, which keeps comments."""
import copy
import hashlib
import pathlib
import re
import tomllib
from typing import Any, Iterable, Mapping

import tomlkit
import tomlkit.exceptions
import tomlkit.items
from tomlkit import TOMLDocument

from .refusal import Refused

INSTRUCTIONS = (
    # instructions: made by docs/make_tables
    "nop_0 nop_1 or1 shl zero if_cz sub_ab sub_ac inc_a inc_b dec_c inc_c push_ax push_bx push_cx push_dx "
    "pop_ax pop_bx pop_cx pop_dx jmp jmpb call ret mov_cd mov_ab mov_iab adr adrb adrf mal divide"
    # end of instructions
).split()
CODE_OF = {name: code for code, name in enumerate(INSTRUCTIONS)}
# Each setting with its default, in the order in which the digest of a setup has them; the two of the disturbance come last.
SETTINGS: dict[str, int | str] = {
    # settings: made by docs/make_tables
    "soup_size": 60000,
    "slice_size": 25,
    "slice_by_size": False,
    "slice_num": 1,
    "slice_den": 4,
    "search_limit": 400,
    "min_template": 1,
    "min_cell": 12,
    "max_cell": 20000,
    "mal_mult": 3,
    "fill_percent": 80,
    "move_percent": 70,
    "save_at": 2,
    "back_rate": 0,
    "copy_rate": 0,
    "flaw_rate": 0,
    "seed": "0" * 64,
    "dist_every": 0,
    "dist_percent": 10,
    # end of settings
}
MOST_BYTES = 1048576
MOST_QUANTA, USUAL_EVERY = 4000000, 1000
Placed = tuple[int, bytes, str | None]  # a creature's place, code and comment


def code_of_listing(text: str, what: str = "listing") -> bytes:
    """The code of a listing, as bytes."""
    code = bytearray()
    for number, line in enumerate(text.split("\n"), 1):
        for word in line.partition(";")[0].split():
            if word not in CODE_OF:
                raise Refused(f"{what}: line {number}: unknown instruction {word}")
            code.append(CODE_OF[word])
    if not code:
        raise Refused(f"{what}: listing is empty")
    return bytes(code)


def listing_of_code(code: bytes, words: int = 16) -> str:
    """The listing of a code, so many instructions a line."""
    names = [INSTRUCTIONS[op] for op in code]
    return "".join(" ".join(names[k : k + words]) + "\n" for k in range(0, len(names), words))


def parse(text: str, what: str = "soup file") -> TOMLDocument:
    """The document of a soup file's text."""
    try:
        return tomlkit.parse(text)
    except (tomlkit.exceptions.TOMLKitError, ValueError) as fault:
        raise Refused(f"{what} is not TOML: {str(fault).splitlines()[0]}") from fault


def plain(text: str, what: str = "soup file") -> dict[str, Any]:
    """What a soup file's text says, in plain Python values."""
    try:
        return tomllib.loads(text)
    except ValueError as fault:
        raise Refused(f"{what} is not TOML: {fault}") from fault


def text_in(path: str | pathlib.Path) -> str:
    """The text of a file in UTF-8."""
    try:
        return pathlib.Path(path).read_text(encoding="utf-8")
    except UnicodeDecodeError as fault:
        raise Refused(f"{path} is not UTF-8") from fault


def read(path: str | pathlib.Path) -> TOMLDocument:
    """The document of a soup file, with its comments."""
    return parse(text_in(path), str(path))


def text_of(document: TOMLDocument) -> str:
    """The text of a document. One that the program would refuse for its length is refused here."""
    text = tomlkit.dumps(document)
    if (length := len(text.encode())) > MOST_BYTES:
        raise Refused(f"the soup file would have {length:,} bytes, and the program takes at most {MOST_BYTES:,}")
    return text


def settings(document: Mapping[str, Any]) -> dict[str, Any]:
    """Every setting of a soup file, in plain Python values, with the defaults of the keys that it leaves out."""
    return {key: document.get(key, default) for key, default in SETTINGS.items()}


def creatures(document: Mapping[str, Any]) -> list[tuple[int, bytes]]:
    """Each creature's place and code."""
    try:
        return [(int(creature["at"]), code_of_listing(creature["code"])) for creature in document["creature"]]
    except (KeyError, TypeError, AttributeError, ValueError) as fault:
        raise Refused("the soup file lacks a creature with `at` and `code`") from fault


def without_lines_of_comment(document: TOMLDocument) -> TOMLDocument:
    """Takes out the comments that have a line of their own: they tell of the file as it was. Gives the document."""
    for _, item in document.body:
        if isinstance(item, tomlkit.items.Comment):
            item.trivia.comment = item.trivia.indent = item.trivia.trail = ""
    return document


def with_settings(document: TOMLDocument, settings: Mapping[str, Any]) -> TOMLDocument:
    """A copy of a document with these settings. No comment stays that was said of another value, or of the file as it was."""
    changing = copy.deepcopy(document)
    others = {key: value for key, value in settings.items() if document.unwrap().get(key) != value}
    for key, value in others.items():
        changing[key] = value
        changing.item(key).trivia.comment = changing.item(key).trivia.comment_ws = ""
    return without_lines_of_comment(changing) if others else changing


def with_creatures(document: TOMLDocument, placed: Iterable[Placed]) -> TOMLDocument:
    """A copy of a document with these creatures, each a place, a code and a comment, in place of its own."""
    changing = without_lines_of_comment(copy.deepcopy(document))
    changing.pop("creature", None)
    tables = tomlkit.aot()
    for at, code, comment in placed:
        table = tomlkit.table()
        if comment:
            table.add(tomlkit.comment(comment))
        table["at"] = int(at)
        table["code"] = tomlkit.string("\n" + listing_of_code(code), multiline=True, escape=False)
        tables.append(table)
    changing["creature"] = tables
    return changing


def value_of(key: str, text: str) -> int | bool:
    """The value that a word of `--set` gives to a key: a number, true or false."""
    if key not in SETTINGS or key == "seed":
        raise Refused("--set takes no seed: --seeds does" if key == "seed" else f"--set: unknown key {key}")
    if SETTINGS[key] is False:
        if text not in ("true", "false"):
            raise Refused(f"--set {key}: {text} is neither true nor false")
        return text == "true"
    if not re.fullmatch(r"0|[1-9][0-9]{0,9}", text):
        raise Refused(f"--set {key}: {text} is not a number")
    return int(text)


def check_quanta(quanta: int) -> None:
    """Refuses quanta that no run has."""
    if not 1 <= quanta <= MOST_QUANTA:
        raise Refused(f"--quanta is from 1 to {MOST_QUANTA:,}")


def seed_text(number: int) -> str:
    """The text of a seed that is given as a number."""
    if not 0 <= number < 16**64:
        raise Refused(f"seed {number} is not a number of at most 64 hexadecimal digits")
    return f"{number:064x}"


def setup_bytes(document: Mapping[str, Any]) -> bytes:
    """The bytes of which the digest of a setup is made ("A setup's bytes" in docs/FORMATS.md)."""
    values = settings(document)
    parts = []
    try:
        for key, value in values.items():
            kind = type(SETTINGS[key])
            if not isinstance(value, kind) or kind is int and isinstance(value, bool):
                raise ValueError(f"{key} is no {kind.__name__}")
            if key == "seed":
                parts.append(bytes.fromhex(value))
            elif not key.startswith("dist_"):
                parts.append(bytes([value]) if SETTINGS[key] is False else int(value).to_bytes(4, "big"))
        placed = creatures(document)
        parts.append(len(placed).to_bytes(4, "big"))
        parts += [at.to_bytes(4, "big") + len(code).to_bytes(4, "big") + code for at, code in placed]
        if values["dist_every"]:
            parts += [int(values[key]).to_bytes(4, "big") for key in ("dist_every", "dist_percent")]
    except (ValueError, TypeError, OverflowError, AttributeError) as fault:
        raise Refused(f"the soup file has a value of another kind or range: {fault}") from fault
    return b"".join(parts)


def digest(document: Mapping[str, Any]) -> bytes:
    """The digest of the setup, which stands in the header of both files that the program keeps."""
    return hashlib.sha256(setup_bytes(document)).digest()


def digest_of(path: str | pathlib.Path | None) -> bytes | None:
    """The digest of the setup of a soup file, or None where no file is named."""
    return None if path is None else digest(plain(text_in(path), str(path)))
