#!/usr/bin/env python3
"""Writes crates/numbers/specs/Literals.antt: every literal of the model under a name that reads as the number.

`0·5` is the f64 that Rust reads from 0.5; the lemma `is-0·5` says that it is 5 / 10, rounded once.
`literals.py` writes the file, `literals.py --check` compares it with what stands there."""
import re
import struct
import sys
from fractions import Fraction
from pathlib import Path

# The literals of atmosphere.rs, then the ends of the accepted ranges, then the numbers of later requests.
LITERALS = """
0.0 1.66E-24 2.27E-9 3.085462E-6 1.0E-5 7.2722E-5 1.0E-4 0.0026373 1.72142E-2 1.74533E-2 0.17 0.2618 0.38 0.5
0.99999 1.0 1.5 1.875 2.0 2.5 3.0 4.0 5.0 6.0 7.0 7.5 8.0 9.0 10.0 11.0 12.0 13.0 14.0 15.0 16.0 19.0 20.0 21.0
28.0 28.95 30.0 32.0 32.5 35.0 40.0 45.0 50.0 55.0 62.5 63.0 70.0 72.5 90.0 100.0 105.0 110.0 150.0 160.0 200.0
240.0 250.0 300.0 320.0 450.0 831.4 980.616 1000.0 10800.0 1.0E6 0.99E30
24.0 48.0 400.0 2500.0 86400.0
1.0E9 1.0E15
""".split()

HEAD = """\
-- The literals of the model: 0·5 is the f64 that Rust reads from 0.5, and its lemma gives the decimal. Made by scripts/literals.py.
use Rattle.std.specs.Prelude.{ℕ, ◌*◌, ◌^◌, ◌≡◌, refl, false, Float}
use Rattle.std.specs.Float.{binary64}
use Rattle.std.specs.Float.Ieee.{of_bits, round}

-- n / 10 ^ k, rounded once
unfoldable pub dec : ℕ → ℕ → Float
dec n k = round binary64 false n (10 ^ k)

-- n * 10 ^ k, rounded once
unfoldable pub dec⁺ : ℕ → ℕ → Float
dec⁺ n k = round binary64 false (n * 10 ^ k) 1
"""


def bits(text):
    return struct.unpack("<Q", struct.pack("<d", float(text)))[0]


def decimal(text):
    """The decimal as the definition `dec n k` or `dec⁺ n k`, and its exact value."""
    mantissa, _, exponent = text.partition("E")
    whole, _, tenths = mantissa.partition(".")
    tenths = tenths.rstrip("0")
    n, k = int(whole + tenths), int(exponent or 0) - len(tenths)
    if k <= 0:
        return f"dec {n} {-k}", Fraction(n, 10 ** -k)
    return f"dec⁺ {n} {k}", Fraction(n * 10 ** k)


def main():
    out = [HEAD]
    for text in sorted(LITERALS, key=float):
        name = text.replace(".", "·")
        definition, value = decimal(text)
        assert value == Fraction(text), text
        opened = definition.split()[0]
        out.append(f"abbrev pub {name} : Float\n{name} = of_bits binary64 0x{bits(text):016x}\n")
        out.append(f"pub is-{name} : {name} ≡ {definition}\nunfolding of_bits {opened} round\nis-{name} = refl\n")
    text = "\n".join(out)
    path = Path(__file__).resolve().parent.parent / "crates/numbers/specs/Literals.antt"
    if "--check" in sys.argv:
        sys.exit(0 if path.read_text() == text else f"{path.name} differs from what the script writes")
    path.write_text(text)


main()
