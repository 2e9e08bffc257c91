#!/usr/bin/env python3
"""compare.py [count] [seed]: the model of docs/ELEMENTARY.md against the built library, bit by bit.

Needs target/staticlib/libpotirehu.a (scripts/staticlib potirehu) and a C compiler. Fails at the first function that differs anywhere.
"""
import math
import random
import sys

import model
from library import function

count = int(sys.argv[1]) if len(sys.argv) > 1 else 100000
rng = random.Random(int(sys.argv[2]) if len(sys.argv) > 2 else 1)

def around(points):
    """Each point, its neighbours, and their negatives."""
    out = []
    for p in points:
        for q in (p, math.nextafter(p, -math.inf), math.nextafter(p, math.inf)):
            out += [q, -q]
    return out


def argument(low, high):
    return model.of_bits(rng.getrandbits(64)) if rng.random() < 0.3 else rng.uniform(low, high)


special = [0.0, -0.0, math.inf, -math.inf, math.nan, 5e-324, 2.0**-1022, 1.0, 2.0, 0.5, 1.7976931348623157e308]
special += [709.0, 708.0, 745.0, 65536.0, math.pi, math.pi / 2] + [i / 256 for i in range(257)] + [i / 32 for i in range(33)] + [1 + i / 128 for i in range(129)]
ranges = {"exp": (-750, 750), "log": (0, 1e6), "sin": (-70000, 70000), "cos": (-70000, 70000), "sqrt": (0, 1e10)}
failed = 0
for name, (low, high) in ranges.items():
    f, g = function(name), getattr(model, name)
    xs = around(special) + [model.of_bits(rng.getrandbits(rng.randrange(1, 53))) for _ in range(count // 10)] + [argument(low, high) for _ in range(count // 2)] + [rng.uniform(-3, 3) for _ in range(count // 2)]
    wrong = [x for x in xs if (f(x) != f(x)) != (g(x) != g(x)) or (f(x) == f(x) and model.bits(f(x)) != model.bits(g(x)))]
    print(f"{name}: {len(xs)} arguments, {len(wrong)} differ", wrong[:3])
    failed |= bool(wrong)
f, g = function("pow"), model.pow
exponents = [0.0, -0.0, 0.5, 1.0, 2.0, 3.0, 19.0, 31.0, 32.0, 33.0, -1.0, 1.5, math.inf, -math.inf, math.nan]
pairs = [(b, e) for b in around([0.0, 1.0, 2.0, math.inf, math.nan, 1e-320, 1e300]) for e in exponents]
pairs += [(argument(0, 100), rng.choice(exponents) if rng.random() < 0.3 else rng.uniform(-40, 40)) for _ in range(count)]
wrong = [(b, e) for b, e in pairs if (f(b, e) != f(b, e)) != (g(b, e) != g(b, e)) or (f(b, e) == f(b, e) and model.bits(f(b, e)) != model.bits(g(b, e)))]
print(f"pow: {len(pairs)} arguments, {len(wrong)} differ", wrong[:3])
sys.exit(failed or bool(wrong))
