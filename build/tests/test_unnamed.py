"""docs/unnamed, over a small tree."""

import pytest
from conftest import TOP, run

FILES = {
    "crates/low/specs/Table.antt": """-- What a row is.
use Rattle.std.specs.Prelude.{◌≡◌, ℕ}

pub record Row : Type 0 where
  pub first : ℕ

abbrev pub row_of : ℕ → Row
row_of n = record { first = n }

abbrev pub told : ℕ → ℕ
told n = n

pub ◌<+>◌ : ℕ → ℕ → ℕ
a <+> b = a
""",
    "crates/low/proofs/Rows.antt": "-- Worked.\npub example : 1 ≡ 1\nexample = refl\n",
    "crates/low/proofs/Lemmas.antt": """use Rattle.low.specs.Table.{row_of}

-- here is the lemma lonely, which only this comment names
lonely : (n : ℕ) → row_of n ≡ row_of n
lonely zero = refl
lonely (suc n) = go n
  where
    go : (n : ℕ) → row_of n ≡ row_of n
    go n = inner n

inner : (n : ℕ) → row_of n ≡ row_of n
inner n = refl

module _ (n : ℕ) where
  pub used : row_of n ≡ row_of n
  used = helper

  helper : row_of n ≡ row_of n
  helper = refl

pub listed : 2 ≡ 2
listed = refl

pub ruleset rules_of = (listed)

pub renamed : 3 ≡ 3
renamed = refl

pub imported : 4 ≡ 4
imported = refl

pub edited : 5 ≡ 5
edited = refl

pub paged : 6 ≡ 6
paged = refl
""",
    "crates/high/proofs/code/call/Answers.antt": """use Rattle.low.proofs.Lemmas.{used, rules_of, renamed as other, imported}
use Rattle.low.proofs.Lemmas as lemmas
use Rattle.high.proofs.code.call.Goals as goal

spare : 7 ≡ 7
spare = refl

pub returns-clause : goal.returns-clause
returns-clause c = search (rules_of, used c, other)
""",
    "crates/high/src/code.rt": """ghost use Rattle.low.specs.Table.{
    Row, row_of,
};

pub trait Ground {
    ghost machine: { Self → ℕ };

    ghost unread: { Self → ℕ };
}

impl Ground for Call {
    ghost machine = { λ c. 0 };

    ghost unread = { λ c. 1 };
}

#[tactic(auto, unfolding(crate::specs::Table::row_of))]
pub fn call(row: u8) -> u8
    // told is named in a comment alone
    ensures { (row_of row).first ≡ Ground.machine self }
""",
    "crates/high/must-fail/a.edit": "file: src/code.rt\nold: row\nnew: edited\n",
    "docs/RULES.md": "What `Lemmas.paged` says.\n",
}
LISTED = {
    "crates/low/specs/Table.antt:10 told",
    "crates/low/specs/Table.antt:13 ◌<+>◌",
    "crates/low/proofs/Lemmas.antt:4 lonely",
    "crates/low/proofs/Lemmas.antt:11 inner (only lonely, of the same list, names it)",
    "crates/low/proofs/Lemmas.antt:29 imported",
    "crates/high/proofs/code/call/Answers.antt:5 spare",
    "crates/high/src/code.rt:8 unread",
}


@pytest.fixture
def tree(tmp_path):
    for name, text in FILES.items():
        (tmp_path / name).parent.mkdir(parents=True, exist_ok=True)
        (tmp_path / name).write_text(text)
    return tmp_path


def listed(tree):
    status, told, said = run(TOP / "docs/unnamed", tree)
    *lines, last = told.splitlines()
    assert (status, said, last) == (1 if lines else 0, "", f"unnamed: {len(lines)}")
    return set(lines)


def test_what_nothing_names_is_listed(tree):
    assert listed(tree) == LISTED


def change(tree, name, old, new):
    text = (tree / name).read_text()
    assert text.count(old) == 1
    (tree / name).write_text(text.replace(old, new))


def test_a_name_after_the_name_of_a_module(tree):
    change(tree, "crates/high/proofs/code/call/Answers.antt", "used c, other", "lemmas.imported, other")
    less = {"crates/low/proofs/Lemmas.antt:29 imported"}
    more = {
        "crates/low/proofs/Lemmas.antt:15 used",
        "crates/low/proofs/Lemmas.antt:18 helper (only used, of the same list, names it)",
    }
    assert listed(tree) == LISTED - less | more


def test_a_name_in_a_contract(tree):
    change(tree, "crates/high/src/code.rt", "Row, row_of,", "Row, row_of, told, ◌<+>◌,")
    change(tree, "crates/high/src/code.rt", "(row_of row).first ≡", "told row <+> 2 ≡")
    assert listed(tree) == LISTED - {"crates/low/specs/Table.antt:10 told", "crates/low/specs/Table.antt:13 ◌<+>◌"}


def test_a_tree_where_all_is_named(tree):
    for name in ("low/proofs/Lemmas", "low/specs/Table", "high/proofs/code/call/Answers"):
        (tree / f"crates/{name}.antt").unlink()
    code = tree / "crates/high/src/code.rt"
    code.write_text(code.read_text().replace("Ground.machine self", "Ground.machine self + Ground.unread self"))
    assert listed(tree) == set()


def test_unnamed_refuses_other_words():
    assert run(TOP / "docs/unnamed", "-x") == (2, "", "usage: docs/unnamed [FOLDER]\n")
