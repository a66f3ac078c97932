"""docs/make_tables, and what docs/check_pages tells of docs/tables.toml."""

import tomllib

import pytest
from conftest import TOP, faults, load, run

make_tables = load(TOP / "docs/make_tables")
PARTS = [(name, part) for name, parts in make_tables.PARTS.items() for part in parts]
SCHEMA = "examples/soup.schema.json"


@pytest.fixture(scope="module")
def checks(repository):
    """docs/check_pages of the copy as a module."""
    return load(repository / "docs/check_pages")


def faults_of(checks, tables):
    """What docs/check_pages finds in these tables beside the program's."""
    checks.faults.clear()
    program = checks.read_program()
    checks.check_actions_of(tables, program)
    checks.check_settings_of(tables, program)
    return checks.faults


def made_faults(repository):
    return list(make_tables.faults(make_tables.read_tables(repository), repository))


def test_the_tables_have_no_fault(repository, checks):
    assert made_faults(repository) == [] and faults_of(checks, make_tables.read_tables(repository)) == []


@pytest.mark.parametrize(("name", "part"), PARTS)
def test_another_line_of_a_table_is_named(repository, change, name, part):
    text = (repository / name).read_text()
    found = next(found for found in make_tables.PART.finditer(text) if found["name"] == part)
    end, number, last = found.end("made") - 1, text[: found.end("made")].count("\n"), found["made"].splitlines()[-1]
    change(name, text[end:], "x" + text[end:])
    (fault,) = made_faults(repository)
    told = f"{name}:{number} has {last.strip() + 'x'!r}, where docs/make_tables writes {last.strip()!r}"
    assert fault.startswith(told)


def test_a_table_without_its_comment_is_named(repository, change):
    change("docs/RULES.md", "<!-- end of instructions -->", "")
    fault = "docs/RULES.md has the comments of docs/make_tables for [], not ['instructions']"
    assert made_faults(repository) == [fault]
    assert run(repository / "docs/make_tables") == (1, "", f"make_tables: {fault}\n")


def test_another_schema_is_named(repository, change):
    change(SCHEMA, '"maximum": 10000,', '"maximum": 10001,')
    status, told, said = run(repository / "docs/make_tables", "--check")
    fault = f"{SCHEMA}:20 has '\"maximum\": 10001,', where docs/make_tables writes '\"maximum\": 10000,'"
    assert (status, told, said) == (1, f"make_tables: {fault}\n", "") and faults(repository) == [fault]


def test_tables_are_written(repository, change):
    changed = ["docs/tierra.1", "docs/FORMATS.md", SCHEMA]
    for name in changed:
        change(name, (repository / name).read_text(), (repository / name).read_text())  # so that it is put back
    change("docs/tables.toml", "greatest = 10000\ndefault = 25", "greatest = 9999\ndefault = 25")
    told = "".join(f"make_tables: {name} is changed\n" for name in changed)
    assert run(repository / "docs/make_tables") == (0, told, "") and made_faults(repository) == []
    assert "| `slice_size` | integer | 25 | 1 to 9999 |" in (repository / "docs/FORMATS.md").read_text()


def test_make_tables_refuses_other_words():
    assert run(TOP / "docs/make_tables", "-x") == (1, "", "usage: docs/make_tables [--check]\n")


@pytest.mark.parametrize(
    ("old", "new", "fault"),
    [
        ('name = "dis"', 'name = "undo"', "has other actions in 'usage' than in its rows: ['dis', 'undo']"),
        ('["quanta", "every"]\nsource', '["every", "all"]\nsource', "has no row for the option all of curve"),
    ],
)
def test_tables_that_do_not_fit_each_other(repository, change, old, new, fault):
    text = (repository / "docs/tables.toml").read_text()
    change("docs/tables.toml", text, text.replace(old, new, 1))
    assert run(repository / "docs/make_tables") == (1, "", f"make_tables: docs/tables.toml {fault}\n")


@pytest.mark.parametrize(
    ("old", "new", "fault"),
    [
        ('["quanta", "workers", "looks"]', '["workers", "looks"]', "options or ranges than crates/soup_words: ['watch']"),
        ("most = { workers = 63 }", "most = { workers = 62 }", "options or ranges than crates/soup_words: ['watch']"),
        ("64\ndefault = 2\n", "64\ndefault = 3\n", "options or defaults than crates/soup_words: ['isles']"),
        ('letter = "K"', 'letter = "X"', "usage line than crates/soup_top"),
        ('usage = ["grow", "run"', 'usage = ["run", "grow"', "usage line than crates/soup_top"),
        ('name = "save_at"', 'name = "keep_at"', "keys than crates/soup_file, or another order"),
        ("default = false", "default = true", "default or range than crates/tierra_model: ['slice_by_size']"),
        ('default = "00', 'default = "10', "default or range than crates/tierra_model: ['seed']"),
        ('"sub_ab sub_ac"', '"sub_ac sub_ab"', "instructions than crates/soup_ops, or other codes"),
    ],
)
def test_a_fault_of_the_one_file_is_named(repository, checks, old, new, fault):
    text = (repository / "docs/tables.toml").read_text()
    assert text.count(old) == 1
    found = faults_of(checks, tomllib.loads(text.replace(old, new)))
    assert any(line.startswith("docs/tables.toml has ") and line.endswith(fault) for line in found)


@pytest.mark.parametrize(
    ("name", "old", "new", "fault"),
    [
        ("soup_words/src/table.rt", "Action::Dump => timed(", "Action::Dump => plain(", "crates/soup_words: ['dump']"),
        ("soup_words/src/order.rt", "split.looks, 10)", "split.looks, 11)", "crates/soup_words: ['looks']"),
        ("soup_file/src/key.rt", '=> "min_cell"', '=> "least_cell"', "crates/soup_file, or another order"),
        ("soup_ops/src/lib.rt", '=> "jmpb",', '=> "jumpb",', "crates/soup_ops, or other codes"),
        ("soup_top/src/status.rt", "grow|run|asm", "grow|asm|run", "usage line than crates/soup_top"),
        ("tierra_model/src/keys.rt", "default: 60_000,", "default: 6_000,", "crates/tierra_model: ['soup_size']"),
        ("tierra_model/src/limits.rt", "SLICE: u32 = 10_000", "SLICE: u32 = 9_000", "tierra_model: ['slice_size']"),
        ("tierra_model/src/setups.rt", "mal_mult: MAL_MULT", "mal_mult: MIN_CELL", "crates/tierra_model: ['mal_mult']"),
    ],
)
def test_another_table_of_the_program_is_named(repository, change, checks, name, old, new, fault):
    change(f"crates/{name}", old, new)
    found = faults_of(checks, make_tables.read_tables(repository))
    assert any(line.startswith("docs/tables.toml has ") and line.endswith(fault) for line in found)
