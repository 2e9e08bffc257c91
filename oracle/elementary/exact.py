#!/usr/bin/env python3
"""exact.py COUNT SEED: the built elementary functions against mpmath at 200 bits; fails beyond the bounds."""
import math
import random
import sys
from pathlib import Path

sys.path.insert(0, str(Path(__file__).resolve().parents[2] / "scripts/elementary"))
from library import function  # noqa: E402
from mpmath import cos, exp, log, mp, mpf, power, sin, sqrt  # noqa: E402

mp.prec = 200
count, rng = int(sys.argv[1]), random.Random(int(sys.argv[2]))
good = True


def left_out(y):
    return y != y or math.isinf(y) or abs(y) < 2.0**-1022


def report(name, draw, exact, relative, bound):
    global good
    f, worst, at, compared = function(name), mpf(0), None, 0
    for _ in range(count):
        x = draw()
        y = f(*x)
        if left_out(y):
            continue
        compared += 1
        z = exact(*map(mpf, x))
        d = abs(mpf(y) - z)
        if relative:
            d /= abs(z)
        if d > worst:
            worst, at = d, x
    kind = "relative" if relative else "absolute"
    print(f"| {name} | {compared} | 2^{float(mp.log(worst, 2)):.2f} {kind} | {at if len(at) > 1 else at[0]!r} | 2^{bound} |", flush=True)
    good &= worst <= mpf(2) ** bound


def one_of(*ranges):
    return lambda: (rng.uniform(*rng.choice(ranges)),)


def tail(name, draw, exact, bound):
    """Where results may be below 2^-1022: the worst share of 2^bound relatively or 2^-1072, whichever is more."""
    global good
    f, worst, at = function(name), mpf(0), None
    for _ in range(count):
        x = draw()
        z = exact(*map(mpf, x))
        share = abs(mpf(f(*x)) - z) / max(abs(z) * mpf(2) ** bound, mpf(2) ** -1072)
        if share > worst:
            worst, at = share, x
    print(f"| {name}'s tail | {count} | {float(worst):.4f} of what is allowed | {at if len(at) > 1 else at[0]!r} | 2^{bound} relative or 2^-1072 |", flush=True)
    good &= worst <= 1


print("| function | compared with mpmath | worst error | at | allowed |\n|---|---|---|---|---|")
report("exp", one_of((-1, 1), (-60, 10), (-708, 709)), exp, True, -40)
report("log", lambda: (rng.choice([rng.uniform(0.5, 2), math.exp(rng.uniform(-700, 700)), rng.uniform(0, 1000)]),), log, False, -40)
report("sin", one_of((-1, 1), (-10, 10), (-200, 200), (-65536, 65536)), sin, False, -40)
report("cos", one_of((-1, 1), (-10, 10), (-200, 200), (-65536, 65536)), cos, False, -40)
report("pow", lambda: (rng.choice([rng.uniform(0.1, 10), math.exp(rng.uniform(-20, 20))]), rng.choice([rng.uniform(-32, 32), rng.uniform(1, 5), 2.0, 19.0])), power, True, -36)
report("sqrt", one_of((0, 4), (0, 1e10)), sqrt, True, -53)
report("log", lambda: (math.ldexp(rng.randrange(1, 1 << rng.randrange(1, 53)), -1074),), log, False, -40)
tail("exp", one_of((-745.2, -708)), exp, -40)
sys.exit(not good)
