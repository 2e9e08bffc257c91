#!/usr/bin/env python3
"""Writes the crate `season_phases` from the Rust's tables.rs: the phase of each place of the season, and the proof that the arms are the definition's.

`season.py [FOLDER]` writes the files; FOLDER holds the Rust (default: ../shared/docs/src beside the repository).
`season.py --check [FOLDER]` compares the files with what it would write."""
import sys
from pathlib import Path

from tables import ROOT, bits, read

CRATE = ROOT / "crates/season_phases"
GLOBE7 = [("PT", 0)] + [("PD", k) for k in range(9)] + [("PS", 0)]
GLOB7S = [("PTL", k) for k in range(4)] + [("PMA", k) for k in (8, 0, 1, 2, 9, 3, 4, 5, 6, 7)]
DAY, LONGITUDE = (31, 17, 13, 38), (81, 86, 84, 88)
# The places that take another place's cosine: PD[3]'s and PS's p[13] is PD[2]'s, PD[8]'s is PT's.
COPIED = {18: 14, 38: 2, 42: 14}


def phases(tables):
    rows = [tables[name][0][k] for name, k in GLOBE7]
    lower = [tables[name][0][k] for name, k in GLOB7S]
    found = [row[i] for row in rows for i in DAY] + [row[i] for row in lower for i in DAY] + [row[i] for row in lower for i in LONGITUDE]
    for place, other in COPIED.items():
        assert bits(found[place]) == bits(found[other]), place
        found[place] = "0.0"
    return found


def code(found):
    arms = "".join(f"        {i} => {x},\n" for i, x in enumerate(found[:-1]))
    return f"""// The phases of the season's cosines, as one function that matches on the place: a constant array that is indexed by a variable is built on the stack
// at each use, and a match becomes a table in read-only memory.

#![tactic(auto)]

ghost use Rattle.std.specs.Prelude.{{◌≡◌, ◌<◌}};
ghost use Rattle.numbers.specs.Arithmetic.{{◌‼◌}};
ghost use Rattle.season_phases.specs.Phases.{{place_phases}};

// The phase of a place, in days. Made by scripts/season.py.
pub fn season_phase(i: usize) -> f64
    requires {{ i < {len(found)} }}
    ensures {{ result ≡ place_phases ‼ i }}
{{
    match i {{
{arms}        _ => {found[-1]},
    }}
}}
"""


def answers(found):
    sets = ["pt_t", "ps_t"] + [f"pd_t{k}" for k in range(9)] + [f"ptl_t{k}" for k in range(4)] + [f"pma_t{k}" for k in range(10)]
    unfolding = f"unfolding place_phases season_phases phases_of globe7_sets glob7s_sets {' '.join(sets)} neg of_bits"
    last = len(found) - 1
    arms = "".join(f"pub returns-in-{i} : goal.returns-in-{i}\n{unfolding}\nreturns-in-{i} c = phase_at c.in-{i}.is refl\n\n" for i in range(last))
    return f"""-- `season_phase` meets its contract. Made by scripts/season.py.
use Prim.Native.Nat.{{ℕ}}
use mathlib.Core.Path.{{◌≡◌, refl, sym, ap, ◌∙◌}}
use native.Mathlib.Omega.{{arith}}
use lib.Ieee.{{Float, neg, of_bits}}
use Rattle.numbers.specs.Arithmetic.{{◌‼◌}}
use Rattle.tables.specs.Tables.{{{", ".join(sets)}}}
use Rattle.needed_sets.specs.Sets.{{globe7_sets, glob7s_sets}}
use Rattle.fixed_point.proofs.Arms.{{rest_above}}
use Rattle.season_phases.specs.Phases.{{place_phases, season_phases, phases_of}}
use Rattle.season_phases.proofs.season_phase.Goals as goal

-- the arm of the key k gives the phase at k
phase_at : {{i k : ℕ}} {{x : Float}} → i ≡ k → x ≡ place_phases ‼ k → x ≡ place_phases ‼ i
phase_at e f = f ∙ sym (ap (λ (j : ℕ). place_phases ‼ j) e)

{arms}-- past the last key one place is left
pub returns-in_default : goal.returns-in_default
{unfolding}
returns-in_default c = let e : c.args.i ≡ {last} = omega (arith, rest_above {last} c.args.i c.in_default.in_default-own.rest, c.requires) in phase_at e refl
"""


def main(words):
    check = words[:1] == ["--check"]
    folder = Path((words[check:] or [ROOT.parent / "shared/docs/src"])[0])
    found = phases(read(folder))
    assert len(found) == 156
    wrong = 0
    for path, text in ((CRATE / "src/lib.rt", code(found)), (CRATE / "proofs/season_phase/Answers.antt", answers(found))):
        if check:
            wrong += path.read_text() != text
        else:
            path.parent.mkdir(parents=True, exist_ok=True)
            path.write_text(text)
    if wrong:
        sys.exit(f"{wrong} files of crate season_phases differ from what scripts/season.py writes")


if __name__ == "__main__":
    main(sys.argv[1:])
