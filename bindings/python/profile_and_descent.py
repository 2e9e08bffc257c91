"""A density profile and a descent as a picture: python3 profile_and_descent.py [FILE]

The profile is one column of altitudes and the air by night beside it; the descent starts at 300 km, and the flaps are set further out as it goes. FILE, a .svg
or a .png, is target/profile_and_descent.svg unless it is given.
"""

import math
import pathlib
import sys

import potirehu
from potirehu.picture import Curve, Panel, PictureError, draw

RECORD = potirehu.Record(doy=172, sec=29000, alt=0, g_lat=60, g_long=-70, lst=16, f107a=150, f107=150, ap=4)
FLAPS = ((500, 1), (200, 2), (9300, 3))
COLOURS = {1: "#1f77b4", 2: "#ff7f0e", 3: "#2ca02c"}


def profile():
    """Two curves over altitude, from 0 to 1,000 km: by day and by night, density in kg/m^3."""
    altitudes = [5.0 * i for i in range(201)]
    curves = []
    for name, colour, lst in (("16 h local time", "#1f77b4", 16), ("4 h", "#d62728", 4)):
        rows = potirehu.column(altitudes, RECORD, lst=lst)
        curves.append(Curve(name, colour, [(row.density, alt) for row, alt in zip(rows, altitudes)]))
    return curves


def descent():
    """A curve for each flap setting: orbit and altitude in km."""
    settings = [setting for count, setting in FLAPS for _ in range(count)]
    start = 300_000_000
    flown = potirehu.descent(start, settings, RECORD)
    altitude, curves = start, {}
    before = (0, start / 1e6)
    for orbit, (loss, setting) in enumerate(zip(flown.losses, settings), 1):
        altitude -= loss
        curve = curves.setdefault(setting, [before])
        before = (orbit, altitude / 1e6)
        curve.append(before)
    print(f"{flown.ending.name.lower()} after {len(flown.losses)} orbits at {flown.altitude / 1e6:.3f} km")
    return [Curve(f"flaps at {setting}", COLOURS[setting], curve) for setting, curve in curves.items()]


def plots():
    left, right = profile(), descent()
    orbits = math.ceil(max(x for curve in right for x, _ in curve.points) / 200) * 200
    up = "altitude (km)"
    return [
        Panel("Density over altitude", "mass density (kg/m^3)", True, (1e-16, 10.0), [10.0**k for k in range(-15, 1, 3)], up, (0, 1000), range(0, 1001, 200), (0.55, 0.06), left),
        Panel("Descent from 300 km", "orbit", False, (0, orbits), range(0, orbits + 1, 200), up, (180, 300), range(180, 301, 20), (0.06, 0.8), right),
    ]


def main():
    path = pathlib.Path(sys.argv[1]) if len(sys.argv) > 1 else pathlib.Path(__file__).resolve().parents[2] / "target/profile_and_descent.svg"
    try:
        draw(path, plots())
    except PictureError as error:
        sys.exit(f"profile_and_descent: {error}")
    print(f"drawn: {path}")


if __name__ == "__main__":
    main()
