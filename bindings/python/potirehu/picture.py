"""Pictures of profiles: panels of curves, as SVG by the lines below, as PNG by gnuplot or matplotlib."""

import math
import pathlib
import shutil
import subprocess
import tempfile
from typing import Any, Iterable, List, NamedTuple, Sequence, Tuple, Union

COLOURS = ("#1f77b4", "#d62728", "#2ca02c", "#ff7f0e", "#9467bd", "#8c564b", "#e377c2", "#17becf")
NAMES = ("doy", "sec", "alt", "lat", "long", "lst", "f107a", "f107", "ap")


class PictureError(Exception):
    """Why a picture cannot be drawn.

    >>> str(PictureError("there is nothing to draw"))
    'there is nothing to draw'
    """


class Curve(NamedTuple):
    """A curve with its name; a point that is NaN breaks it. lined: whether its points are joined.

    >>> Curve("16 h", COLOURS[0], [(1e-9, 150.0), (4e-12, 400.0)]).lined
    True
    """

    name: str
    colour: str
    points: Sequence[Tuple[float, float]]
    lined: bool = True
    dotted: bool = False


class Panel(NamedTuple):
    """Curves over one pair of axes; key says where their names stand, as shares of width and height.

    >>> Panel("T", "K", False, (0, 1000), [0, 500], "altitude (km)", (0, 400), [0, 200], (0.5, 0.1), []).logarithmic
    False
    """

    title: str
    x_label: str
    logarithmic: bool
    x_range: Tuple[float, float]
    x_ticks: Sequence[float]
    y_label: str
    y_range: Tuple[float, float]
    y_ticks: Sequence[float]
    key: Tuple[float, float]
    curves: Sequence[Curve]


def ticks(low: float, high: float, most: int = 7) -> List[float]:
    """Round numbers from at or below low to at or above high.

    >>> ticks(200, 1250)
    [200, 400, 600, 800, 1000, 1200, 1400]
    """
    if not high > low:
        low, high = low - 1, high + 1
    step = 10.0 ** math.floor(math.log10((high - low) / most))
    step *= next(factor for factor in (1, 2, 5, 10, 20) if (high - low) / (step * factor) <= most - 1)
    first = math.floor(low / step + 1e-9)
    count = math.ceil(high / step - 1e-9) - first
    return [_round((first + i) * step) for i in range(count + 1)]


def _round(value):
    value = float(f"{value:.12g}")
    return int(value) if value == int(value) else value


def decades(low: float, high: float) -> List[float]:
    """Powers of ten from at or below low to at or above high, every one or every few.

    >>> decades(3e-12, 2e-9)
    [1e-12, 1e-11, 1e-10, 1e-09, 1e-08]
    """
    first, last = math.floor(math.log10(low) + 1e-9), math.ceil(math.log10(high) - 1e-9)
    last = max(last, first + 1)
    step = max(1, math.ceil((last - first) / 8))
    return [10.0**power if power < 0 else float(10**power) for power in range(first, last + step, step)]


def profile(runs: Iterable[Any]) -> Tuple[List[Panel], int]:
    """Density and temperature over altitude from the program's runs of records: a curve for each set of records that differ in nothing but altitude. Gives
    how many records are left out, as refused or without a number, too."""
    curves: dict = {}
    left_out = 0
    metric = set()
    for run in runs:
        metric.add(run.switches[0] == 1)
        row = tuple(run.switches)
        for words, answer, density, temperature in zip(run.words, run.answers, run.rows[5::11], run.rows[10::11]):
            point = (float(words[2]), density, temperature)
            if answer or not all(map(math.isfinite, point)) or density <= 0:
                left_out += 1
                point = (math.nan,) * 3
            curves.setdefault((*words[:2], *words[3:], row, run.drag), []).append(point)
    curves = {key: points for key, points in curves.items() if any(point[0] == point[0] for point in points)}
    if not curves:
        raise PictureError("there is nothing to draw: no record is accepted with a density above 0")
    if len(metric) > 1:
        raise PictureError("records in kg/m^3 and in g/cm^3 do not go into one picture")
    names, shared = _names(list(curves))
    if len(curves) > len(COLOURS):
        # as of a track: every record a point
        points = [point for each in curves.values() for point in each]
        drawn = [(f"{len(points)} records", COLOURS[0], points, False)]
    else:
        drawn = [(name, colour, points, True) for name, colour, points in zip(names, COLOURS, curves.values())]
    alts = [point[0] for _, _, points, _ in drawn for point in points if point[0] == point[0]]
    y_ticks = ticks(min(alts), max(alts))
    panels = []
    unit = "kg/m^3" if metric == {True} else "g/cm^3"
    drag = " for drag" if all(key[-1] for key in curves) else ""
    for title, label, logarithmic, place in ((f"mass density{drag}", f"mass density{drag} ({unit})", True, 1), ("temperature", "temperature (K)", False, 2)):
        values = [point[place] for _, _, points, _ in drawn for point in points if point[place] == point[place]]
        x_ticks = decades(min(values), max(values)) if logarithmic else ticks(min(values), max(values))
        each = [Curve(name, colour, [(point[place], point[0]) for point in points], lined, True) for name, colour, points, lined in drawn]
        panels.append(Panel(
            "NRLMSISE-00, " + (shared if logarithmic else title), label, logarithmic, (x_ticks[0], x_ticks[-1]), x_ticks,
            "altitude (km)", (y_ticks[0], y_ticks[-1]), y_ticks, (0.3, 0.06),
            each if logarithmic and (len(each) > 1 or not each[0].lined) else [curve._replace(name="") for curve in each],
        ))
    return panels, left_out


def _names(keys):
    # what tells the curves apart, for each; and the switch row where all share it
    from .writing import short

    each: List[List[str]] = [[] for _ in keys]
    fields = [name for name in NAMES if name != "alt"]
    for i, name in enumerate(fields):
        if len({key[i] for key in keys}) > 1:
            for parts, key in zip(each, keys):
                parts.append(f"{name} {key[i]}")
    if len({key[8:-2] for key in keys}) > 1:
        for parts, key in zip(each, keys):
            parts.append("history" if len(key) > 10 else "no history")
    rows = {key[-2] for key in keys}
    shared = f"switches {short(next(iter(rows)))}" if len(rows) == 1 else "switches as named"
    if len(rows) > 1:
        for parts, key in zip(each, keys):
            parts.append(short(key[-2]))
    return [", ".join(parts) for parts in each], shared


def draw(path: Union[str, "pathlib.Path"], panels: Sequence[Panel]) -> None:
    """Draws panels side by side into a file, .svg or .png by its name."""
    path = pathlib.Path(path)
    try:
        if path.suffix.lower() == ".svg":
            path.write_text(svg(panels), encoding="utf-8")
        elif shutil.which("gnuplot"):
            _gnuplot(path, panels)
        else:
            _matplotlib(path, panels)
    except OSError as error:
        raise PictureError(f"{path}: {error.strerror}") from None


def _escaped(text):
    return text.replace("&", "&amp;").replace("<", "&lt;")


def svg(panels: Sequence[Panel], width: int = 1000, height: int = 480) -> str:
    """The panels as the text of an SVG.

    >>> svg([]).splitlines()[-1]
    '</svg>'
    """
    out = [
        f'<svg xmlns="http://www.w3.org/2000/svg" width="{width}" height="{height}" viewBox="0 0 {width} {height}" font-family="sans-serif" font-size="13">',
        f'<rect width="{width}" height="{height}" fill="white"/>',
    ]

    def line(x1, y1, x2, y2, colour, wide=1):
        out.append(f'<line x1="{x1:.1f}" y1="{y1:.1f}" x2="{x2:.1f}" y2="{y2:.1f}" stroke="{colour}" stroke-width="{wide}"/>')

    def text(x, y, words, anchor="middle", more=""):
        out.append(f'<text x="{x:.1f}" y="{y:.1f}" text-anchor="{anchor}"{more}>{words}</text>')

    top, bottom = 45, height - 55
    for number, panel in enumerate(panels):
        left = 70 + number * width / len(panels)
        right = left + width / len(panels) - 95
        (x0, x1), (y0, y1) = panel.x_range, panel.y_range

        def at_x(x):
            share = math.log(x / x0) / math.log(x1 / x0) if panel.logarithmic else (x - x0) / (x1 - x0)
            return left + share * (right - left)

        def at_y(y):
            return bottom - (y - y0) / (y1 - y0) * (bottom - top)

        for x in panel.x_ticks:
            line(at_x(x), top, at_x(x), bottom, "#dddddd")
            power = f'10<tspan dy="-5" font-size="10">{round(math.log10(x))}</tspan>' if panel.logarithmic else f"{x:,}"
            text(at_x(x), bottom + 20, power)
        for y in panel.y_ticks:
            line(left, at_y(y), right, at_y(y), "#dddddd")
            text(left - 8, at_y(y) + 4, f"{y:,}", "end")
        out.append(f'<rect x="{left:.1f}" y="{top}" width="{right - left:.1f}" height="{bottom - top}" fill="none" stroke="black"/>')
        text((left + right) / 2, top - 15, _escaped(panel.title), more=' font-size="15"')
        text((left + right) / 2, bottom + 42, _escaped(panel.x_label))
        text(left - 50, (top + bottom) / 2, panel.y_label, more=f' transform="rotate(-90 {left - 50:.1f} {(top + bottom) / 2:.1f})"')
        for place, curve in enumerate(panel.curves):
            for part in _unbroken(curve.points):
                at = [(at_x(x), at_y(y)) for x, y in part]
                if curve.lined:
                    drawn = " ".join(f"{x:.1f},{y:.1f}" for x, y in at)
                    out.append(f'<polyline points="{drawn}" fill="none" stroke="{curve.colour}" stroke-width="2"/>')
                if curve.dotted:
                    out += [f'<circle cx="{x:.1f}" cy="{y:.1f}" r="2.5" fill="{curve.colour}"/>' for x, y in at]
            if curve.name:
                x, y = left + panel.key[0] * (right - left), top + panel.key[1] * (bottom - top) + 20 * place
                line(x, y, x + 25, y, curve.colour, 2)
                text(x + 32, y + 4, _escaped(curve.name), "start")
    out.append("</svg>")
    return "\n".join(out) + "\n"


def _unbroken(points):
    part: list = []
    for x, y in points:
        if math.isfinite(x) and math.isfinite(y):
            part.append((x, y))
        elif part:
            yield part
            part = []
    if part:
        yield part


def _quoted(text):
    return "'" + str(text).replace("'", "''") + "'"


def _gnuplot(path, panels):
    script = [
        f"set terminal pngcairo size {500 * len(panels)},480 font 'sans,11'", f"set output {_quoted(path)}", f"set multiplot layout 1,{len(panels)}",
        "set grid", "set bmargin 4", "set rmargin 3",
    ]
    with tempfile.TemporaryDirectory() as folder:
        for number, panel in enumerate(panels):
            plots = []
            for place, curve in enumerate(panel.curves):
                data = pathlib.Path(folder) / f"{number}-{place}"
                data.write_text("\n\n".join("\n".join(f"{x!r} {y!r}" for x, y in part) for part in _unbroken(curve.points)) + "\n")
                style = ("linespoints" if curve.dotted else "lines") if curve.lined else "points"
                dots = " pt 7 ps 0.6" if curve.dotted else ""
                title = f"title {_quoted(curve.name)}" if curve.name else "notitle"
                plots.append(f"{_quoted(data)} with {style}{dots} lc rgb '{curve.colour}' lw 2 {title}")
            (x0, x1), (y0, y1) = panel.x_range, panel.y_range
            x_ticks = ", ".join(f"'10^{{{round(math.log10(x))}}}' {x!r}" if panel.logarithmic else f"{x!r}" for x in panel.x_ticks)
            y_ticks = ", ".join(f"{y!r}" for y in panel.y_ticks)
            script += [
                "set logscale x" if panel.logarithmic else "unset logscale x", f"set title {_quoted(panel.title)} noenhanced",
                f"set xlabel {_quoted(panel.x_label)} noenhanced", f"set ylabel {_quoted(panel.y_label)} noenhanced",
                f"set xrange [{x0!r}:{x1!r}]", f"set yrange [{y0!r}:{y1!r}]",
                f"set xtics ({x_ticks})", f"set ytics ({y_ticks})",
                f"set key at graph {panel.key[0]},{1 - panel.key[1]} left top Left reverse noenhanced", f"plot {', '.join(plots)}",
            ]
        script.append("unset multiplot")
        # where it cannot be written gnuplot would write to its standard output
        path.open("wb").close()
        run = subprocess.run(["gnuplot"], input=("\n".join(script) + "\n").encode("utf-8", "surrogateescape"), capture_output=True)
        if run.returncode or path.stat().st_size == 0:
            path.unlink()
            raise PictureError(f"gnuplot did not draw {path}: {' '.join(run.stderr.decode('utf-8', 'replace').split())}")


def _matplotlib(path, panels):
    try:
        import matplotlib  # type: ignore[import]
    except ImportError:
        raise PictureError("a .png wants gnuplot (Debian: gnuplot-nox) or matplotlib (Debian: python3-matplotlib); a .svg wants neither") from None
    matplotlib.use("Agg")
    from matplotlib import pyplot  # type: ignore[import]

    figure, axes = pyplot.subplots(1, len(panels), figsize=(5 * len(panels), 4.8), squeeze=False)
    for axis, panel in zip(axes[0], panels):
        for curve in panel.curves:
            axis.plot(*zip(*curve.points), "-" * curve.lined + "o" * (curve.dotted or not curve.lined), color=curve.colour, label=curve.name, markersize=3)
        if panel.logarithmic:
            axis.set_xscale("log")
        axis.set(
            title=panel.title, xlabel=panel.x_label, ylabel=panel.y_label, xlim=panel.x_range, ylim=panel.y_range,
            xticks=list(panel.x_ticks), yticks=list(panel.y_ticks),
        )
        axis.grid(True)
        if any(curve.name for curve in panel.curves):
            axis.legend()
    figure.tight_layout()
    figure.savefig(path)
