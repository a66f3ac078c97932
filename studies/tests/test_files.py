"""The reader of the program's files: against the program's own texts, and on damaged files."""
import functools
import hashlib
import sys

import pytest

from studies import files, printed, soup
from studies.refusal import Refused

from .conftest import DATA, TOP

sys.path.append(str(TOP / "benches"))
import hostile_rules as rules  # noqa: E402
import hostile_shapes as shapes  # noqa: E402


@pytest.mark.parametrize(
    "size, rank, name",
    [(80, 0, "0080aaa"), (80, 1, "0080aab"), (80, 26, "0080aba"), (80, 17575, "0080zzz"), (80, 17576, "0080aaaa"), (20000, 27, "20000abb")],
)
def test_names(size, rank, name):
    assert files.name_of(size, rank) == name


def test_last_frame_is_the_dump():
    world = files.read_hold(DATA / "mixed.hold", soup.digest(soup.read(DATA / "mixed.toml")))[-1]
    text = (DATA / "mixed_dump.txt").read_text()
    counts, living = printed.report_in(text)
    assert (world.quanta, world.births, world.deaths) == (counts["quanta"], counts["births"], counts["deaths"])
    assert len(world.genotypes) == counts["genotypes"] and len(world.savings) == counts["kept"]
    assert (world.owners != -1).sum() == counts["filled"]
    alive = world.creatures.genotype.value_counts()
    named = world.genotypes.set_index("genotype")
    assert {named.name[g]: (alive[g], named.total[g]) for g in alive.index} == living
    dumped = printed.creatures_in(text)
    for column in dumped.columns.drop("name"):
        assert world.creatures[column].tolist() == dumped[column].tolist(), column
    assert [named.name[g] for g in world.creatures.genotype] == dumped.name.tolist()
    assert " ".join(map(str, world.reaper)) in text
    rows = {int(line[:7]): bytes.fromhex(line[8:]) for line in text.splitlines() if line[7:8] == ":"}
    assert all(bytes(world.cells[at : at + 32]) == rows.get(at, bytes(32)) for at in range(0, len(world.cells), 32))


def test_bank_is_its_text():
    def effort(one, which):
        return "none" if one.efforts[which + "_run"] is None else f"{one.efforts[which + '_run']} {one.efforts[which + '_moved']}"

    lines = []
    for one in files.read_bank(DATA / "mixed.bank", soup.digest(soup.read(DATA / "mixed.toml"))):
        lines += [f"saved {one.name} {one.quantum}", f"parent {one.parent or 'none'}"]
        lines += [f"first {effort(one, 'first')}", f"second {effort(one, 'second')}", f"code {one.code.hex()}"]
    assert lines == (DATA / "mixed_bank.txt").read_text().splitlines()


def test_bank_and_frames_agree():
    world = files.read_hold(DATA / "mixed.hold")[-1]
    named = world.genotypes.set_index("genotype")
    saved = files.read_bank(DATA / "mixed.bank")
    assert [(one.name, one.quantum, one.code) for one in saved] == [
        (named.name[row.genotype], row.saved, named.code[row.genotype]) for row in world.savings.itertuples()
    ]


def verdict(read, image, *digest):
    """The line of a refusal, or what the image holds."""
    try:
        return read(image, *digest)
    except Refused as fault:
        return f"tierra: {fault}".removeprefix("tierra: ")


def damaged(image):
    """An image at every length, and with every bit flipped: what benches/cut_and_flipped_banks does."""
    for length in range(len(image)):
        yield image[:length]
    for place in range(len(image)):
        for bit in range(8):
            yield image[:place] + bytes([image[place] ^ 1 << bit]) + image[place + 1 :]


def test_damaged_checkpoints_are_refused_as_by_hold():
    image = (DATA / "small.hold").read_bytes()
    digest = soup.digest(soup.read(DATA / "small.toml"))
    states = rules.states_in(image, 5)
    for other in damaged(image):
        said = verdict(files.worlds_in, other, digest)
        if not isinstance(said, str):
            said = said[-1].quanta if said else 0
        assert said == rules.held(other, digest, states)


def test_damaged_genebanks_are_refused_as_by_bank():
    image = (DATA / "small.bank").read_bytes()
    for other in damaged(image):
        said = verdict(files.saved_in, other)
        assert (said if isinstance(said, str) else None) == rules.bank_fault(other)


def test_hostile_genebanks_are_refused_as_by_bank():
    """Groups with right digests, whose numbers may be out of their ranges."""
    base = (DATA / "small.bank").read_bytes()
    for number in range(1000):
        image = shapes.image(shapes.dice_for(1, number), base, shapes.group)
        said = verdict(files.saved_in, image)
        assert (said if isinstance(said, str) else None) == rules.bank_fault(image), number


def test_hostile_checkpoints():
    """Frames with right digests, whose state may be that of no world. What `hold` refuses is refused with its line; a frame before
    the last one, which `hold` does not look into, may be refused too."""
    base, digest = (DATA / "small.hold").read_bytes(), soup.digest(soup.read(DATA / "small.toml"))
    states = rules.states_in(base, 5)
    for number in range(1000):
        image = shapes.image(shapes.dice_for(1, number), base, functools.partial(shapes.frame, states=list(states)))
        said, wanted = verdict(files.worlds_in, image, digest), rules.held(image, digest, states)
        said = said if isinstance(said, str) else said[-1].quanta if said else 0
        assert said == wanted or wanted == "" or isinstance(wanted, int) and "frame" in said, number


def frame_of(state):
    """A file of checkpoints of one state, with its digest."""
    return (DATA / "small.hold").read_bytes()[:44] + b"\x01" + len(state).to_bytes(4, "big") + state + hashlib.sha256(state).digest() + b"\x00"


# Places in the state of small.hold after 15 quanta: 100 cells, two creatures, two genotypes and no saved one. `hold` refuses each.
@pytest.mark.parametrize(
    "place, value, what",
    [
        (50, b"\x20", "a cell"),
        (104, b"\x00\x00\x00\x00\x00\x3d\x09\x01", "quanta"),
        (127, b"\x02", "deaths"),
        (139, b"\x00", "living"),
        (147, b"\x03", "a birth number"),
        (151, b"\x01", "overlapping blocks"),
        (151, b"\x63", "a block past the last cell"),
        (159, b"\x01", "a daughter block without cells"),
        (191, b"\x64", "ip"),
        (235, b"\x0a", "the stack's pointer"),
        (252, b"\x02", "a creature's genotype"),
        (413, b"\x02", "the reaper queue"),
        (414, b"\x7f", "genotypes without end"),
        (426, b"\x20", "an instruction"),
        (435, b"\x01", "a parent"),
        (467, b"\x01", "an effort without instructions"),
        (549, b"\x7f", "saved genotypes without end"),
    ],
)
def test_a_state_of_no_world_is_refused(place, value, what):
    state = next(state for state, quantum in rules.states_in((DATA / "small.hold").read_bytes(), 5).items() if quantum == 15)
    assert not isinstance(verdict(files.worlds_in, frame_of(state)), str)
    state = state[:place] + value + state[place + len(value) :]
    assert verdict(files.worlds_in, frame_of(state)) == "tierra.hold: frame 0 is damaged"


def test_an_earlier_state_of_no_world_is_refused_when_it_is_read():
    states = list(rules.states_in((DATA / "small.hold").read_bytes(), 5))
    wrong = states[0][:426] + b"\x20" + states[0][427:]
    image = frame_of(wrong)[:-1] + frame_of(states[1])[44:]
    worlds = files.worlds_in(image)
    assert len(worlds[1].genotypes) == 2
    assert verdict(lambda world: world.genotypes, worlds[0]) == "tierra.hold: frame 0 is damaged"


def test_another_setup_is_refused():
    digest = soup.digest(soup.read(DATA / "mixed.toml"))
    assert "belongs to another setup" in verdict(files.worlds_in, (DATA / "small.hold").read_bytes(), digest)
    assert "belongs to another setup" in verdict(files.saved_in, (DATA / "small.bank").read_bytes(), digest)
