"""Hostile inputs of each kind: valid, nearly valid, and random ones, all made from a seed."""

import bisect
import hashlib
import itertools
import random

import hostile_rules as rules

MOST = rules.MOST_BYTES
MOST_WORDS = 1500000  # Linux starts a program with two million bytes of words at most
ODD = [b"\x00", b"\x7f", b"\x80", b"\xff", b"\xc2\x85", b"\xe2\x80\xa8", b"\xef\xbb\xbf", b"\xc3\xa9", b"\xf0\x9f\x90\x9b", b"\n", b"\r",
       b"\r\n", b"\t", b"\x0b", b"\x0c", b" ", b'"', b"'", b'"""', b"'''", b"\\", b"\\u0000", b"\\n", b"\\U0010ffff", b"\\ud800", b"=", b".",
       b",", b"[", b"]", b"[[", b"]]", b"{", b"}", b"#", b";", b"-", b"+", b"_", b"e", b"0", b"9", b"0x", b"nan", b"inf", b"true"]
NUMBERS = ["0", "-0", "+1", "-1", "1", "99", "100", "101", "007", "1_000", "1__0", "_1", "0x10", "0o7", "0b1", "1.0", "1e400", "nan", "-inf",
           "4294967295", "4294967296", "9223372036854775807", "9223372036854775808", "-9223372036854775809", "1" + "0" * 100,
           "1" * 5000, "1979-05-27T07:32:00Z", "07:32:00", "true", '"60000"', "'5'", "[1]", "{}", "{a = 1}", "[]", '"\\n"', "[[1], 2]"]
STRANGE_KEYS = ['"a\\nb"', '"\\u0085"', '"\\u0000"', '""', "''", "slices", "soup-size", "1", "é", '"é\\t"', "soup_size.a", '"tab\tkey"', "creature.x",
                '"\\u007f\\u009f"', "a.b.c", '"[31m"', "'\\n'", '"\\U0001f41b"', "Seed", '"soup_size"', "'seed'"]


def changed(dice, data):
    """Changes a few bytes or stretches of an input."""
    data = bytearray(data)
    for _ in range(dice.choice((1, 1, 1, 2, 5))):
        place = dice.randrange(len(data) + 1)
        match dice.randrange(6):
            case 0:
                del data[place : place + dice.choice((1, 1, 2, 30))]
            case 1:
                data[place:place] = dice.choice(ODD)
            case 2:
                data[place : place + 1] = dice.choice(ODD)
            case 3:
                data[place:place] = data[place : place + dice.randrange(60)]
            case 4:
                del data[place:]
            case _:
                if place < len(data):
                    data[place] ^= 1 << dice.randrange(8)
    return bytes(data)


def noise(dice):
    length = dice.choice((0, 1, 5, 44, 45, 46, 300))
    return dice.choice((dice.randbytes(length), b"".join(dice.choices(ODD, k=length))))


def size_of(dice):
    return dice.choice((1, 2, 5, 20, 80, 80)) if dice.randrange(300) else dice.choice((19999, 20000, 20001))


def separated(dice, words):
    gap = dice.choice((" ", "\n", "\t", "\r\n", " ; comment\n", ";\n", "  \r "))
    return dice.choice(("", gap)) + gap.join(words) + dice.choice(("", gap, ";", "; end"))


def listing(dice):
    """A listing as text."""
    return separated(dice, dice.choices(rules.NAMES, k=size_of(dice)))


def hexes(dice):
    most = dice.choice((31, 31, 31, 255))
    return separated(dice, [dice.choice(("%02x", "%02X")) % dice.randint(0, most) for _ in range(size_of(dice))])


def filled(dice, pieces):
    """The greatest source, or one byte more or less, of one piece over and over."""
    piece = dice.choice(pieces)
    return (piece * (MOST // len(piece) + 2))[: MOST + dice.choice((-1, 0, 0, 1, 1))]


def text_source(dice, valid, pieces):
    """A listing or a hex text as bytes."""
    shape = dice.randrange(1000)
    if shape < 3:
        return filled(dice, pieces)
    if shape < 300:
        return valid(dice).encode()
    return noise(dice) if shape < 450 else changed(dice, valid(dice).encode())


def listing_source(dice):
    return text_source(dice, listing, (b"zero ", b" ", b"\n", b";", b";\n", b"x", b"zero\n;", b"\xc3\xa9", b"\xff", b"\x00", b"zero;zero\r"))


def hex_source(dice):
    return text_source(dice, hexes, (b"00 ", b" ", b"\n", b";", b"1", b"1f\n", b"\xc3\xa9", b"\xff"))


def setting(dice, key):
    row = rules.KEYS[key]
    if key == "seed":
        return '"' + "".join(dice.choices("0123456789abcdefABCDEF", k=dice.choice((64, 64, 64, 64, 63, 65)))) + '"'
    if not row:
        return dice.choice(("true", "false"))
    low, high, usual = row
    most = {"slice_size": 2000, "search_limit": 2000}.get(key, high)  # what takes time has its greatest values in benches/load
    return str(dice.choice((low, most, usual, dice.randint(low, most), low - 1 if dice.randrange(9) == 0 else low)))


def creature(dice, at, code):
    quote = dice.choice(('"""', "'''", '"', "'"))
    code = code.replace("\n", " ").replace("\r", " ").replace(";", " ").replace("comment", "").replace("end", "") if len(quote) == 1 else code
    rows = [f"at = {at}", f"code = {quote}{code}{quote}"]
    dice.shuffle(rows)
    return rows


def soup(dice):
    """A soup file that is mostly valid, as text."""
    keys = [key for key in rules.KEYS if dice.randrange(4) == 0]
    dice.shuffle(keys)
    rows = [f"{key}{dice.choice((' = ', '=', ' =	'))}{setting(dice, key)}{dice.choice(('', ' # note'))}" for key in keys]
    bodies, at = [], 0
    for _ in range(dice.choice((1, 1, 2, 3, 10))):
        code = listing(dice)
        bodies.append(creature(dice, dice.choice((at, at, at, dice.randrange(70000))), code))
        at += len(code.split()) + dice.choice((0, 0, 1, 100, -1))
    if dice.randrange(4) == 0:
        rows.append("creature = [" + ", ".join("{" + ", ".join(body) + "}" for body in bodies) + "]")
    else:
        rows += [row for body in bodies for row in ("[[creature]]", *body)]
    return dice.choice(("\n", "\n", "\r\n")).join(rows) + "\n"


def misfit(dice):
    """A soup file with one odd row."""
    rows = soup(dice).split("\n")
    place = dice.randrange(len(rows) + 1)
    odd = dice.randrange(4)
    if odd == 0:
        rows.insert(place, f"{dice.choice(STRANGE_KEYS)} = {dice.choice(NUMBERS)}")
    elif odd == 1:
        rows.insert(place, f"{dice.choice([*rules.KEYS, 'creature', 'at', 'code'])} = {dice.choice(NUMBERS)}")
    elif odd == 2 and place < len(rows) and "=" in rows[place]:
        rows[place] = rows[place].partition("=")[0] + "= " + dice.choice(NUMBERS)
    else:
        rows.insert(place, dice.choice(("[a]", "[creature]", "[[creature]]", "[creature.code]", "[[a.b]]", "[soup_size]", "creature = []", "creature = [1]",
                                        f"[{dice.choice(STRANGE_KEYS)}]", dice.choice(rows))))
    return "\n".join(rows)


def deep(dice):
    """A document that goes deep, or that has very many of something."""
    depth = dice.choice((50, 127, 128, 129, 1000, 5000)) if dice.randrange(30) else 100000
    open_, close = dice.choice((("a = " + "[" * depth, "]" * depth), ("a = " + "{b = " * depth, "1" + "}" * depth), ("a" + ".b" * depth, " = 1"), ("[a" + ".b" * depth, "]"),
                                ("[[a" + ".b" * depth, "]]"), ("a = " + "[" * depth, ""), ("creature = " + "[" * depth, "]" * depth), ("creature = " + "[{a = " * depth, "1" + "}]" * depth),
                                ("[a" + '."b"' * depth, "]"), ("a = " + "[[]," * depth, "]" * depth)))
    return (open_ + close + "\n").encode()


def numbered(row, room):
    """A row over and over with rising numbers, as often as there is room."""
    rows = [row.format(number) for number in range(room // len(row.format("")) + 1)]
    ends = list(itertools.accumulate(map(len, rows)))
    return "".join(rows[: bisect.bisect_right(ends, room)])


def broad(dice):
    """A document near the greatest length, with very many of one thing."""
    row = dice.choice(("k{0} = {0}\n", "[t{0}]\n", "[[t]]\n", "[[creature]]\n", "[[creature]]\nat={0}\ncode='zero'\n", "a.b{0} = 1\n", "a{0}.b = 1\n", "# {0}\n", "\n",
                       "[a.b{0}.c]\n", "[[a{0}.b]]\n", "'k{0}' = ''\n", "[t.t{0}]\nx=1\n", "creature.k{0} = 1\n"))
    if dice.randrange(6) == 0:
        return filled(dice, (b"a = 1\n", b'a = "', b"a", b"'", b"[", b"#", b"\n", b"\xff", b"1 = [1,", b'"\\u0000" = "'))
    text = numbered(row, MOST - dice.choice((0, 10, 500000)))
    return ("soup_size = 1048576\n"[: 20 * dice.randrange(2)] + text).encode()[:MOST]


def soup_source(dice):
    shape = dice.randrange(1000)
    if shape < 2:
        return broad(dice)
    if shape < 25:
        return deep(dice)
    if shape < 300:
        return soup(dice).encode()
    if shape < 550:
        return misfit(dice).encode()
    return noise(dice) if shape < 620 else changed(dice, soup(dice).encode())


def words(dice):
    """Words of a command line."""
    number = lambda: dice.choice(("0", "1", "2", "34", "64", "65", "1000", "1001", "4000000", "4000001", "18446744073709551615", "18446744073709551616", "007", "-1", "+1", "1.0", "",
                                  " 1", "1 ", "0x1", "1e3", "٣", "9" * 30, "9" * 3000))
    option = lambda: "--" + dice.choice([*rules.OPTIONS, *rules.OPTIONS, "quant", "Quanta", "help", "version", "quanta ", ""])
    parts = []
    for _ in range(dice.choice((0, 1, 1, 2, 2, 3, 4)) if dice.randrange(2) else 0):
        match dice.randrange(7):
            case 0 | 1:
                parts += [option(), number()]
            case 2:
                parts.append(f"{option()}={number()}")
            case 3:
                parts.append(dice.choice([*rules.ACTIONS, "hold", "watch", "help", "Grow", "", "-", "--", "-q", "-h", "-V", "--help", "gro", "grow ", "\n", "zero", "x" * 100000]))
            case 4:
                parts.append(number())
            case _:
                action = dice.choice(list(rules.ACTIONS))
                parts.append(action)
                for name, (low, high) in rules.ACTIONS[action].items():
                    if dice.randrange(2):
                        parts += [f"--{name}", str(dice.choice((low, high, low - 1, high + 1, dice.randint(low, high))))]
    if not parts:
        action = dice.choice(list(rules.ACTIONS))
        pairs = [(f"--{name}", str(dice.choice(span))) for name, span in rules.ACTIONS[action].items() if dice.randrange(3)]
        pairs = [dice.choice((pair, ("=".join(pair),))) for pair in pairs] + [(action,)]
        dice.shuffle(pairs)
        parts = [part for pair in pairs for part in pair]
        if dice.randrange(5) == 0:
            parts.insert(dice.randrange(len(parts) + 1), "--")
    if dice.randrange(200) == 0:
        parts *= min(500, MOST_WORDS // (len("".join(parts)) + 1))
    parts = [part.encode() for part in parts]
    if dice.randrange(20) == 0:
        parts.insert(dice.randrange(len(parts) + 1), dice.choice((b"\xff", b"--quanta=\xff", b"--\xff", b"grow\xff", b"\xc3")))
    return parts


def saved(dice, two):
    odd = lambda usual, *others: usual if dice.randrange(12) else dice.choice(others)
    size = dice.choice((1, 3, 80))
    code = bytes(dice.randrange(32) for _ in range(size))
    if dice.randrange(15) == 0:
        code = code[:-1] + dice.choice((b"\x20", b"\xff", b"", b"\x00\x00"))
    numbers = [(odd(size, 0, 20000, 20001, 2**31, 2**32 - 1), 4), (odd(dice.randrange(100), 2**60 - 1, 2**60, 2**64 - 1), 8)]
    numbers += [(odd(0, 0, 80, 20000, 20001, 2**32 - 1), 4), (odd(0, 1, 2**60 - 1, 2**60), 8)]
    if two:
        numbers += [(odd(0, 1, 839, 2**60, 2**64 - 1), 8) for _ in range(4)]
    return b"".join(number.to_bytes(length, "big") for number, length in numbers) + code


def group(dice):
    """A group with a right digest, whose content may be out of its ranges."""
    two, count = dice.randrange(2), dice.choice((1, 1, 2, 5))
    number = count if dice.randrange(10) else dice.choice((0, count + 1, 2**32 - 1))
    payload = dice.choice((34, 0, 2**60, 2**64 - 1)).to_bytes(8, "big") + number.to_bytes(4, "big")
    payload += b"".join(saved(dice, two) for _ in range(count)) + (b"" if dice.randrange(15) else b"\x00")
    length = len(payload) if dice.randrange(20) else dice.choice((0, 11, 12, len(payload) + 1, 2**31 - 1))
    return (length | two << 31).to_bytes(4, "big") + payload + hashlib.sha256(payload).digest()


def image(dice, base, record):
    """The bytes of a file that begins as this one, with records that a function makes."""
    match dice.randrange(6):
        case 0:
            return noise(dice)
        case 1:
            return base[: dice.randrange(len(base) + 1)] + dice.randbytes(dice.choice((0, 0, 1, 100)))
        case 2:
            return base[:45] + dice.randbytes(dice.choice((0, 1, 100, 5000)))
        case 3:
            return changed(dice, base)
        case _:
            parts = b"".join(b"\x01" + record(dice) for _ in range(dice.choice((1, 1, 2, 5))))
            return base[:44] + parts + dice.choice((b"\x00", b"\x00", b"\x00", b"\x02", b"\x01", b""))


def frame(dice, states):
    """A frame with a right digest, whose state may be none of a sound world."""
    state = dice.choice(states)
    state = dice.choice((state, changed(dice, state), changed(dice, state), noise(dice)))
    length = len(state) if dice.randrange(20) else dice.choice((0, len(state) - 1, len(state) + 1, 2**31 - 1, 2**31, 2**32 - 1)) % 2**32
    return length.to_bytes(4, "big") + state + hashlib.sha256(state).digest()


def dice_for(seed, number):
    return random.Random(f"{seed} {number}")
