"""docs/check_pages and docs/run_pages, and benches/built."""

import os
import shutil

from conftest import TOP, faults, load, run


def test_the_pages_have_no_fault(repository):
    assert faults(repository) == []


FAULTS = [
    ("tierra", "'dump|quanta|", "'dump|quanta every|", "tierra:21 has \"'dump|quanta every|"),
    ("tierra", 'echo "usage: tierra', 'echo "use: tierra', "the script tierra has another usage line"),
    ("docs/tierra.1", ".It Cm curve\n", ".It Cm curves\n", "docs/tierra.1 describes ['curve', 'curves'] otherwise"),
    ("docs/tierra.1", "1000, default 10.", "1000, default 9.", "docs/tierra.1 lacks 'from 1 to 1000, default 10'"),
    ("docs/tierra.1", ".Cm code ,", ".Cm codes ,", "docs/tierra.1 lacks code"),
    ("docs/tierra.1", "\n.It 7\n", "\n.It 9\n", "docs/tierra.1 lacks exit status 7"),
    ("docs/ACTIONS.md", "from 1 to 64, default 1;", "from 1 to 63, default 1;", "docs/ACTIONS.md lacks 'from 1 to 64,"),
    ("docs/ACTIONS.md", "$ ../tierra probe --quanta 100", "$ ../tierra", "docs/ACTIONS.md has no example of probe"),
    ("docs/FROM_TIERRA.md", "| SavMinNum | `save_at` |", "| SavMinNum | save |", "docs/FROM_TIERRA.md lacks save_at"),
    ("examples/soup.toml", "\nmal_mult = 3 ", "\nmal_mult = 4 ", "examples/soup.toml lacks mal_mult"),
    ("README.md", "[LOG](docs/LOG.md): what", "what", "README.md does not name docs/LOG.md"),
    ("CITATION.cff", "\nversion: ", "\nversion: 9.", "CITATION.cff is not of version"),
    ("studies/pyproject.toml", '\nversion = "', '\nversion = "9.', "studies/pyproject.toml is not of version"),
    ("build/costs.tsv", "\ncrew\t", "\nquads\t", "build/costs.tsv and crates.txt differ in ['crew', 'quads']"),
    ("docs/DECISIONS.md", "| `genotyper` | `parse_name`", "| `genotyper` | `parse`", "docs/DECISIONS.md lacks parse"),
]


def test_each_fault_of_the_pages_is_named(repository, change):
    for name, old, new, _ in FAULTS:
        change(name, old, new)
    found = faults(repository)
    assert [fault for *_, fault in FAULTS if not any(line.startswith(fault) for line in found)] == []


def test_what_fits_a_page():
    pages = load(TOP / "docs/run_pages")
    assert pages.fits(["a", "b"], ["a", "b"]) and not pages.fits(["a", "b"], ["a"])
    assert pages.fits(["a", "..", "z"], ["a", "z"]) and pages.fits(["a", "..", "z"], ["a", "b", "c", "z"])
    assert pages.fits(["1.5"], ["1.5"]) and not pages.fits(["1.5"], ["125"])


def test_the_commands_of_a_page(tmp_path):
    pages = load(TOP / "docs/run_pages")
    page = tmp_path / "page.md"
    run_block, others = "text\n```sh\n$ one\nsaid\n$ two\n```\n", "```sh\n$ three\n```\n"
    page.write_text(f"{run_block}<!-- shown -->\n{others}<!-- long -->\n{others}```sh\nno command\n```\n")
    assert list(pages.blocks(page)) == [[(3, "one", ["said"]), (5, "two", [])]]


def test_the_program_that_is_measured(tmp_path, checkout):
    program = tmp_path / "program"
    program.write_text("")
    asked = {**os.environ, "TIERRA": "program"}
    assert run(TOP / "benches/built", cwd=tmp_path, env=asked) == (0, f"{program}\n", "")
    (checkout.top / "benches").mkdir()
    shutil.copy(TOP / "benches/built", checkout.top / "benches")
    checkout.environment.pop("TIERRA", None)
    status, told, _ = checkout.run("benches/built")
    assert (status, told) == (0, f"{checkout.top}/crates/tierra/out/tierra\n") and checkout.is_built()
