"""What the manual page says of an input, worked out apart from the program: the line of its refusal, or None.

What it says of soup files is what examples/check_soup says. An answer "" stands where these rules do not tell, since the reader of
TOML there is another one.
"""

import hashlib
import importlib.machinery
import importlib.util
import pathlib
import re

LONG = 100000  # what takes much time to read, and comes again
answers = {}  # those of long files, by their digests
PART = re.compile("\n+|;[^\n]*|[^ \t\r\n;]+")
TWO_DIGITS = re.compile("[0-9a-fA-F]{2}")
ACTIONS = {
    # actions: made by docs/make_tables
    "grow": {"quanta": (1, 4000000), "workers": (1, 64)},
    "run": {"quanta": (1, 4000000), "workers": (1, 64)},
    "bank": {},
    "probe": {"quanta": (1, 4000000), "workers": (1, 64)},
    "dump": {"quanta": (1, 4000000)},
    "curve": {"quanta": (1, 4000000), "every": (1, 4000000)},
    "hold": {"quanta": (1, 4000000), "every": (1, 4000000)},
    "watch": {"quanta": (1, 4000000), "workers": (1, 63), "looks": (1, 1000)},
    "isles": {"quanta": (1, 4000000), "workers": (1, 64), "isles": (1, 64), "epochs": (1, 1000)},
    "drill": {"quanta": (1, 4000000), "number": (0, 18446744073709551615)},
    "asm": {},
    "dis": {},
    # end of actions
}
OPTIONS = {option for row in ACTIONS.values() for option in row}


def load(path):
    """A script of the repository as a module."""
    loader = importlib.machinery.SourceFileLoader(path.name, str(path))
    module = importlib.util.module_from_spec(importlib.util.spec_from_loader(path.name, loader))
    loader.exec_module(module)
    return module


check_soup = load(pathlib.Path(__file__).resolve().parent.parent / "examples/check_soup")
NAMES, MOST_BYTES, MOST_CODE = check_soup.NAMES, check_soup.MOST_BYTES, check_soup.MOST_CODE
CODES = {name: code for code, name in enumerate(NAMES)}
# Each key of a soup file with its range and default, in the order of the checks.
KEYS = {key: (row["minimum"], row["maximum"], row["default"]) if row["type"] == "integer" else None
        for key, row in check_soup.KEYS.items() if key in check_soup.SETTINGS}


def order(words):
    """Gives the action and the options that the words ask for, or None where they are refused."""
    action, options, rest = None, {}, iter(words)
    for word in rest:
        if word == b"--":
            others = list(rest)
            if len(others) > 1 or others and action:
                return None
            action = others[0] if others else action
        elif word.startswith(b"--"):
            name, equals, value = word[2:].partition(b"=")
            value = value if equals else next(rest, b"")
            if name.decode("latin1") not in OPTIONS or name in options or not re.fullmatch(rb"0|[1-9][0-9]{0,19}", value):
                return None
            options[name] = int(value)
        elif action is not None or word.startswith(b"-"):
            return None
        else:
            action = word
    row = ACTIONS.get((action or b"").decode("latin1"))
    options = {name.decode(): value for name, value in options.items()}
    if row is None or any(name not in row or not row[name][0] <= value <= row[name][1] for name, value in options.items()):
        return None
    return action.decode(), options


def words_in(text):
    """Gives each word outside comments with the number of its line."""
    line = 1
    for found in PART.finditer(text):
        part = found[0]
        if part[0] == "\n":
            line += len(part)
        elif part[0] != ";":
            yield line, part


def text_fault(source):
    if len(source) > MOST_BYTES:
        return "source is longer than 1048576 bytes"
    try:
        source.decode()
    except UnicodeDecodeError:
        return "source is not UTF-8"
    return None


def listing_fault(text):
    """Gives the fault of a listing, or its code."""
    code = []
    for line, word in words_in(text):
        if len(code) == MOST_CODE:
            return f"line {line}: more than 20000 instructions"
        if word not in CODES:
            return f"line {line}: unknown instruction"
        code.append(CODES[word])
    return code or "listing is empty"


def hex_fault(text):
    """Gives the fault of a hex text, or its code."""
    code = []
    for place, (_, word) in enumerate(words_in(text), 1):
        if place > MOST_CODE:
            return "more than 20000 instructions"
        if not TWO_DIGITS.fullmatch(word):
            return f"word {place}: not two hexadecimal digits"
        code.append(int(word, 16))
    if not code:
        return "no instructions"
    for place, op in enumerate(code, 1):
        if op > 31:
            return f"word {place}: not an instruction"
    return code


def soup_file(source):
    """Gives the fault of a soup file, or its settings; "" where these rules do not tell."""
    if len(source) <= LONG:
        return read_file(source)
    digest = hashlib.sha256(source).digest()
    if digest not in answers:
        answers[digest] = read_file(source)
    return answers[digest]


def read_file(source):
    """Gives what a soup file says. Where examples/check_soup cannot tell, these rules do not either."""
    try:
        return check_soup.check(source)
    except check_soup.Fault as fault:
        return fault.said
    except check_soup.CannotTell:
        return ""


def saved_ends(payload, place, two):
    """Gives where the saved genotype at a place of a payload ends, or None where none stands there."""
    head = 24 + (32 if two else 0)
    if place + head > len(payload):
        return None
    number = [int.from_bytes(payload[place + at : place + end], "big") for at, end in ((0, 4), (4, 12), (12, 16), (16, 24))]
    size, rank, parent, parent_rank = number
    if not 1 <= size <= MOST_CODE or rank >= 2**60 or parent > MOST_CODE or parent_rank >= (2**60 if parent else 1):
        return None
    efforts = [int.from_bytes(payload[place + 24 + 8 * k : place + 32 + 8 * k], "big") for k in range(4 if two else 0)]
    if any(not efforts[k] and efforts[k + 1] for k in range(0, len(efforts), 2)):
        return None
    code = payload[place + head : place + head + size]
    return place + head + size if len(code) == size and max(code) < 32 else None


def group_ends(image, place):
    """Gives where the group at a place of a bank ends, or None where none stands there."""
    length = int.from_bytes(image[place : place + 4], "big")
    two, length = length >= 2**31, length % 2**31
    payload, digest = image[place + 4 : place + 4 + length], image[place + 4 + length : place + 36 + length]
    if place + 4 > len(image) or len(payload) < length or hashlib.sha256(payload).digest() != digest:
        return None
    end, left = 12, int.from_bytes(payload[8:12], "big")
    if length < 12 or left == 0:
        return None
    while left and end is not None:
        end, left = saved_ends(payload, end, two), left - 1
    return place + 36 + length if end == length else None


def bank_fault(image):
    """Gives the fault of a bank's file for the action `bank`, or None."""
    if len(image) < 45 or image[0] == 0 or image[0] != 0x54 and image[1:12] == b"ierra bank1":
        return None
    if image[:12] != b"Tierra bank1":
        return "tierra.bank is not a genebank"
    gate, number = 44, 0
    while image[gate] == 1:
        gate = group_ends(image, gate + 1)
        if gate is None or gate >= len(image):
            return f"tierra.bank: group {number} is damaged"
        number += 1
    return None


def states_in(image, every):
    """Gives the states of a whole file of checkpoints, with their quanta."""
    states, gate = {}, 44
    while image[gate] == 1:
        end = gate + 5 + int.from_bytes(image[gate + 1 : gate + 5], "big")
        states[image[gate + 5 : end]] = every * (len(states) + 1)
        gate = end + 32
    return states


def held(image, digest, states):
    """Gives the fault of a file of checkpoints for a setup with this digest, or else the quantum that it holds, 0 for none.

    An answer "" stands where only the last state could tell, and it is none of these states, which have their quanta."""
    if len(image) < 45 or image[0] == 0 or image[0] != 0x54 and image[1:12] == b"ierra hold1":
        return 0
    if image[:12] != b"Tierra hold1":
        return "tierra.hold is not a checkpoint"
    if image[12:44] != digest:
        return "tierra.hold belongs to another setup"
    gate, number, state = 44, 0, None
    while image[gate] == 1:
        begin = gate + 5
        end = begin + int.from_bytes(image[gate + 1 : begin], "big")
        state, gate = image[begin:end], end + 32
        if gate >= len(image) or hashlib.sha256(state).digest() != image[end:gate]:
            return f"tierra.hold: frame {number} is damaged"
        number += 1
    return 0 if state is None else states.get(state, "")
