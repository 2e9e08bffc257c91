#!/usr/bin/env python3
"""generate.py [--check]: the tables and the coefficients of the series of the elementary functions, and the proofs of the functions that are tables.

Writes each into the files that hold it, in place of what stands there; --check only compares, and fails where they differ.
Tables are cut down to whole numbers, at 400 bits by mpmath. Coefficients are whole numbers and exact.
"""
import re
import sys
from math import comb, factorial, lcm
from pathlib import Path

from mpmath import cos, exp, floor, log, mp, mpf, sin

mp.prec = 400
ROOT = Path(__file__).resolve().parents[2] / "crates"


def table(count, f):
    return [int(floor(f(mpf(i)))) for i in range(count)]


# ---- tables

COARSE = table(65, lambda i: exp(i / 32 - 1) * 2**60)
FINE = table(32, lambda i: exp(i / 1024) * 2**62)
SINES = table(257, lambda i: sin(i / 256) * 2**58)
COSINES = table(257, lambda i: cos(i / 256) * 2**58)
RECIPROCALS = [131072 // (129 + i) for i in range(128)]
LOGARITHMS = [int(floor(log(mpf(1024) / r) * 2**58)) for r in RECIPROCALS]

# ---- series through the 20th power, in units of 1 / 20!

FACTORS = [factorial(20) // factorial(k) for k in range(21)]


def every(period, place):
    return [c if k % period == place else 0 for k, c in enumerate(FACTORS)]


# about -1: the coefficients of the same polynomial in x + 1
LOWER = [sum(FACTORS[n] * comb(n, k) * (-1) ** (n - k) for n in range(k, 21)) for k in range(21)]

# ---- log's series through the 39th power, times the least common multiple of the odd numbers up to 39

MULTIPLE = lcm(*range(1, 40, 2))
LOG_FACTORS = [2 * MULTIPLE // k for k in range(1, 40, 2)]


def product(p, q):
    out = [0] * (len(p) + len(q) - 1)
    for i, a in enumerate(p):
        for j, b in enumerate(q):
            out[i + j] += a * b
    return out


def power(p, n):
    out = [1]
    for _ in range(n):
        out = product(out, p)
    return out


def log_series(a, b):
    """The sum of 2 / k a^k b^(39-k), k odd, as a polynomial."""
    out = [0] * 40
    for c, k in zip(LOG_FACTORS, range(1, 40, 2)):
        for j, v in enumerate(product(power(a, k), power(b, 39 - k))):
            out[j] += c * v
    return out


UPPER = log_series([0, 1], [1, 1])  # y = 1 + 2 u: z = u / (1 + u)
BELOW = log_series([1, -1], [3, 1])  # y = (1 + u) / 2: -z = (1 - u) / (3 + u)

# ---- where each stands: arms of a `match`, or a list


def pairs(name, first, second):
    return [f"{name}({a}, {b})" for a, b in zip(first, second)]


# crate, function, arms, the lists that the arms hold
ARMS = [
    ("exponential_tables", "coarse_at", COARSE, ["coarse"]),
    ("exponential_tables", "fine_at", FINE, ["fine"]),
    ("circular_tables", "sine_cosine_at", pairs("SineCosine", SINES, COSINES), ["sines", "cosines"]),
    ("logarithm_tables", "piece_at", pairs("Piece", RECIPROCALS, LOGARITHMS), ["reciprocals", "logarithms"]),
]
SERIES = "elementary_bounds/specs/Series.antt"
LISTS = [
    ("exponential_tables/specs/Tables.antt", "coarse =", COARSE, 5),
    ("exponential_tables/specs/Tables.antt", "fine =", FINE, 5),
    ("circular_tables/specs/Tables.antt", "sines =", SINES, 5),
    ("circular_tables/specs/Tables.antt", "cosines =", COSINES, 5),
    ("logarithm_tables/specs/Tables.antt", "reciprocals =", RECIPROCALS, 16),
    ("logarithm_tables/specs/Tables.antt", "logarithms =", LOGARITHMS, 5),
    (SERIES, "factors =", FACTORS, 0),
    (SERIES, "exp_adding true =", every(2, 0), 0),
    (SERIES, "exp_taking true =", every(2, 1), 0),
    (SERIES, "sin_adding =", every(4, 1), 0),
    (SERIES, "sin_taking =", every(4, 3), 0),
    (SERIES, "cos_adding =", every(4, 0), 0),
    (SERIES, "cos_taking =", every(4, 2), 0),
    (SERIES, "log_factors =", LOG_FACTORS, 0),
    ("elementary_bounds/proofs/ExpSeries.antt", "lower = homogeneous (2 ^ 58)", LOWER, 0),
    ("elementary_bounds/proofs/LogSeries.antt", "upper =", UPPER, 0),
    ("elementary_bounds/proofs/LogSeries.antt", "lower_adding =", [max(v, 0) for v in BELOW], 0),
    ("elementary_bounds/proofs/LogSeries.antt", "lower_taking =", [max(-v, 0) for v in BELOW], 0),
]

check = sys.argv[1:] == ["--check"]
if sys.argv[1:] and not check:
    sys.exit(__doc__)
failed = 0


def numbers(block):
    """The numbers of a block, without the indices of its arms."""
    return [int(v) for v in re.findall(r"\d+", re.sub(r"\d+ =>", "", block))]


def settle(path, name, text, start, end, same, block):
    """Replace text[start:end] by block, unless they are the same already."""
    global failed
    if same:
        return
    if check:
        print(f"{path}: {name} differs from what generate.py makes")
        failed = 1
        return
    (ROOT / path).parent.mkdir(parents=True, exist_ok=True)
    (ROOT / path).write_text(text[:start] + block + text[end:])
    print(f"{path}: {name} written")


def answers(crate, name, count, lists):
    """The answers to the goals of a table's function: an arm gives the entries at its key, and no index is left past the last."""

    def arm(k):
        entries = [f"entry_at {table} c.in-{k}.is refl" for table in lists]
        given = entries[0] if len(entries) == 1 else "(" + ", ".join(entries) + ")"
        return f"pub returns-in-{k} : goal.returns-in-{k}\nunfolding {' '.join(lists)}\nreturns-in-{k} c = {given}\n"

    return f"""-- `{crate}::{name}` meets its contract. Made by scripts/elementary/generate.py. Assumes nothing.
use mathlib.Core.Path.{{refl}}
use native.Mathlib.Omega.{{arith}}
use Rattle.{crate}.specs.Tables.{{{", ".join(lists)}}}
use Rattle.fixed_point.proofs.Arms.{{entry_at, rest_above}}
use Rattle.{crate}.proofs.{name}.Goals as goal

{chr(10).join(map(arm, range(count)))}
-- past the last key: no index is left
pub returns-in_default : goal.returns-in_default
returns-in_default c = omega (arith, rest_above {count} c.args.i c.in_default.in_default-own.rest)
"""


for crate, name, values, lists in ARMS:
    path = f"{crate}/proofs/{name}/Answers.antt"
    text = answers(crate, name, len(values), lists)
    there = (ROOT / path).read_text() if (ROOT / path).exists() else ""
    settle(path, name, there, 0, len(there), there == text, text)

for crate, name, values, _ in ARMS:
    path = f"{crate}/src/lib.rt"
    text = (ROOT / path).read_text()
    start = text.index("    match i {\n", text.index(f"pub fn {name}(")) + len("    match i {\n")
    end = text.index("        _ => ", start)
    block = "".join(f"        {i} => {v},\n" for i, v in enumerate(values))
    settle(path, name, text, start, end, numbers(text[start:end]) == numbers(block), block)

for path, name, values, row in LISTS:
    text = (ROOT / path).read_text()
    start = re.search(rf"^{re.escape(name)}", text, re.M).end()
    end = text.find("\n\n", start)
    end = len(text.rstrip("\n")) if end < 0 else min(end, text.find("\n" + name.split()[0] + " ", start) % (len(text) + 1))
    rows = [values[k : k + row] for k in range(0, len(values), row)] if row else [values]
    body = " ∷\n    ".join(" ∷ ".join(map(str, r)) for r in rows) + " ∷ []"
    block = ("\n    " if row else " ") + (f"({body})" if "homogeneous" in name else body)
    settle(path, name, text, start, end, numbers(text[start:end]) == values, block)

print("generate.py: all as generated" if check and not failed else "generate.py: done" if not check else "generate.py: differences")
sys.exit(failed)
