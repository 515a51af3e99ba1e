"""The definitions of specs/ run: they say what the program puts, and a changed word of one is noticed."""
import json
import subprocess
import sys

import pytest
from conftest import TOP

sys.path.append(str(TOP / "tests"))

from definitions.running import Definitions  # noqa: E402
from definitions.values import Made, Undecided, record  # noqa: E402

NO_LIBRARY = 2
SPECS = """
use Rattle.std.specs.Prelude.{ℕ, List, Result, Ok, Err}

-- each number is at most the next one
pub data Rises : List ℕ → Type 0 where
  none : Rises []
  one : {x : ℕ} → Rises (x ∷ [])
  more : {x y : ℕ} {rest : List ℕ} → x ≤ y → Rises (y ∷ rest) → Rises (x ∷ (y ∷ rest))

-- a list has a number twice in a row
pub data Repeats : List ℕ → Type 0 where
  here : {x : ℕ} {rest : List ℕ} → Repeats (x ∷ (x ∷ rest))

module _ (most : ℕ) where
  pub record IsIn (x : ℕ) : Type 0 where
    pub bound : x ≤ most

  abbrev pub AreIn : List ℕ → Type 0
  AreIn xs = All IsIn xs

pub record HasRoot (x : ℕ) : Type 0 where
  pub root : ℕ
  pub is : root * root ≡ x

pub record IsFourthPower (x : ℕ) : Type 0 where
  pub outer : HasRoot x
  pub inner : HasRoot outer.root

◌>>=◌ : Result ℕ ℕ → (ℕ → Result ℕ ℕ) → Result ℕ ℕ
Ok x >>= f = f x
Err e >>= f = Err e

half : ℕ → Result ℕ ℕ
half n = if n % 2 == 0 then Ok (n / 2) else Err n

quarter : ℕ → Result ℕ ℕ
quarter n = do
  once ← half n
  half once
"""


@pytest.fixture
def definitions(tmp_path):
    specs = tmp_path / "crates" / "numbers" / "specs"
    specs.mkdir(parents=True)
    (specs / "Numbers.antt").write_text(SPECS, encoding="utf-8")
    return Definitions(str(tmp_path), str(tmp_path))


def named(definitions, name):
    return definitions.get("numbers", "Numbers", name)


def test_a_relation_holds_where_one_of_its_constructors_fits(definitions):
    rises, repeats = named(definitions, "Rises"), named(definitions, "Repeats")
    assert [rises(each) for each in ((), (4,), (1, 1, 3), (1, 3, 2))] == [True, True, True, False]
    assert [repeats(each) for each in ((), (4, 4, 1), (4, 1, 4))] == [False, True, False]


def test_a_parameter_of_a_module_is_given_once_outside_and_never_inside(definitions):
    assert named(definitions, "AreIn")(3, (1, 3)) is True
    assert named(definitions, "AreIn")(3, (1, 4)) is False


def test_a_field_that_is_data_needs_a_sample(definitions):
    has_root = named(definitions, "HasRoot")
    with pytest.raises(Undecided, match="HasRoot.root"):
        has_root(9)
    definitions.samples["HasRoot.root"] = 3
    assert [has_root(9), has_root(8)] == [True, False]


def test_a_later_field_reads_data_of_a_proof_and_a_false_field_is_named(definitions):
    is_fourth = named(definitions, "IsFourthPower")
    definitions.samples["HasRoot.root"] = lambda x: {16: 4, 4: 2, 9: 3}[x]
    definitions.samples["IsFourthPower.outer"] = lambda x: record(root={16: 4, 9: 3}[x])
    assert is_fourth(16) is True
    definitions.samples["HasRoot.root"] = lambda x: {9: 3, 3: 1}[x]
    assert is_fourth(9) is False
    assert definitions.refuted == ["HasRoot.is", "IsFourthPower.inner"]


def test_a_do_block_ends_with_the_first_error(definitions):
    found = [named(definitions, "quarter")(n) for n in (12, 7, 6)]
    assert [(each.name, each.arguments) for each in found] == [("Ok", (3,)), ("Err", (7,)), ("Err", (3,))]
    assert isinstance(found[0], Made)


def run(*words):
    done = subprocess.run([TOP / "tests" / "run_definitions", *words], capture_output=True, text=True)
    if done.returncode == NO_LIBRARY and "library" in done.stderr:
        pytest.skip("the toolchain's definitions of the library aren't here")
    return done


@pytest.mark.program
def test_forty_random_decks_are_as_the_definitions_say():
    done = run("40")
    assert done.returncode == 0, done.stdout + done.stderr
    assert "40 random decks, 0 differences" in done.stdout


# A definition, a word of it, and another one.
CHANGES = {
    "a river is held by its stage below its bottom": ("cell_balance", "Balance", "river_flow", "bottom", "stage"),
    "constant heads flow as their number says": ("cell_balance", "Balance", "fixed_flow", "minus", "plus"),
    "a column's cells lie side by side along it": ("model_types", "Layers", "column_conductance", "b", "a"),
    "a head lies above its lower bound": ("step_chain", "Enclosing", "LiesWithin", "lower_at", "upper_at"),
}


@pytest.mark.program
@pytest.mark.parametrize("change", CHANGES.values(), ids=CHANGES.keys())
def test_a_changed_word_of_a_definition_is_noticed(change):
    *place, old, new = change
    body = Definitions(str(TOP), "").definition(*place).bodies()[0]
    at = next(at for at, token in enumerate(body) if token.word == old)
    assert run("6", "--change", json.dumps([*place, 0, at, old, new])).returncode == 1
