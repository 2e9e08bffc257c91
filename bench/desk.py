"""The measurements of bench/desk: python3 desk.py FOLDER, with the timed Rust in FOLDER/desk. Each is taken in turn with the Rust's, several times: the best
of each."""

import itertools
import math
import os
import pathlib
import random
import resource
import subprocess
import sys
import threading
import time

import numpy
import potirehu

FOLDER = pathlib.Path(sys.argv[1])
ROOT = pathlib.Path(__file__).resolve().parents[1]
TURNS, PASSES = 40, 3
MEMORY = pathlib.Path("/dev/shm") if pathlib.Path("/dev/shm").is_dir() else FOLDER


def orbit(n=8640):
    """A track at 400 km inclined by 51.6 degrees, 10 s apart, for a day."""
    seconds = 10.0 * numpy.arange(n)
    dates = numpy.datetime64("2026-06-21T00:00", "us") + (seconds * 1e6).astype("timedelta64[us]")
    angle = 2 * math.pi * seconds / 5554.0
    inclination = math.radians(51.6)
    lats = numpy.degrees(numpy.arcsin(math.sin(inclination) * numpy.sin(angle)))
    longs = numpy.degrees(numpy.arctan2(math.cos(inclination) * numpy.sin(angle), numpy.cos(angle))) - seconds * 360 / 86164
    return dates, (longs + 180) % 360 - 180, lats, numpy.full(n, 400.0)


def rust_file(name, dates, longs, lats, alts):
    """The same records for the Rust."""
    doy, sec = potirehu.dates.days_and_seconds(potirehu.dates.microseconds(dates))
    fields = numpy.stack([doy, sec, alts, lats, longs, potirehu.local_solar_time(sec, longs), *(numpy.full(len(sec), x) for x in (150.0, 150.0, 4.0))], axis=1)
    path = MEMORY / f"desk-{name}"
    fields.astype(numpy.float64).tofile(path)
    return path, fields


def rust(path, passes=PASSES):
    return float(subprocess.run([FOLDER / "desk", path, str(passes)], capture_output=True, text=True, check=True).stdout.split()[0])


def timed(call, count, clock=time.thread_time):
    # the processor's time, as of the Rust: what runs beside it does not count
    start = clock()
    call()
    return (clock() - start) / count * 1e9


def in_turn(calls, count, path):
    """Nanoseconds a point: of the Rust, and of each call."""
    best = [math.inf] * (1 + len(calls))
    for _ in range(TURNS):
        best[0] = min(best[0], rust(path))
        for i, call in enumerate(calls, 1):
            # as many passes as the Rust has: the first finds its caches cold
            best[i] = min(best[i], *(timed(call, count) for _ in range(PASSES)))
    return best


def threads(call, number):
    all_ = [threading.Thread(target=call) for _ in range(number)]
    for one in all_:
        one.start()
    for one in all_:
        one.join()


def processes(call, number):
    children = []
    for _ in range(number):
        child = os.fork()
        if child == 0:
            call()
            os._exit(0)
        children.append(child)
    for child in children:
        os.waitpid(child, 0)


def main():
    dates, longs, lats, alts = orbit()
    n = len(dates)
    path, fields = rust_file("orbit", dates, longs, lats, alts)
    days, eight = fields[:, 0].astype(numpy.int32), numpy.ascontiguousarray(fields[:, 1:])
    answers, rows = numpy.zeros(n, numpy.uint64), numpy.zeros((n, 11))
    records = [potirehu.Record(int(one[0]), *one[1:]) for one in fields[:2000].tolist()]
    lists = [dates.astype(object).tolist(), longs.tolist(), lats.tolist(), alts.tolist()]

    def track():
        potirehu.calculate(dates, longs, lats, alts, 150, 150, 4)

    print("| what | ns a point | untouched Rust | ratio | points a second |\n|---|---|---|---|---|")

    def shown(what, ours, theirs):
        print(f"| {what} | {ours:,.0f} | {theirs:,.0f} | {ours / theirs:.2f} | {1e9 / ours:,.0f} |", flush=True)

    calls = [
        ("an orbit of 8,640 points: calculate, numpy in", track),
        ("the same with drag", lambda: potirehu.calculate(dates, longs, lats, alts, 150, 150, 4, drag=True)),
        ("the same, lists in", lambda: potirehu.calculate(*lists, 150, 150, 4)),
        ("the same: records_into, the library's call alone", lambda: potirehu.records_into(days, eight, None, answers, rows)),
    ]
    theirs, *ours = in_turn([call for _, call in calls], n, path)
    for (what, _), one in zip(calls, ours):
        shown(what, one, theirs)
    one = min(timed(lambda: [potirehu.gtd7(record) for record in records], len(records)) for _ in range(TURNS))
    shown("the same: gtd7 on one Record after the other", one, theirs)
    one = min(timed(lambda: potirehu.records(records), len(records)) for _ in range(TURNS))
    shown("the same: records on a list of them", one, theirs)

    grid_dates = dates[::432]
    grid = (grid_dates, numpy.array([-70.0, 0.0]), numpy.array([-51.6, 60.0]), numpy.linspace(0, 1000, 100))
    points = [numpy.array(x) for x in zip(*itertools.product(*(axis.tolist() if i else list(axis) for i, axis in enumerate(grid))))]
    path, _ = rust_file("grid", points[0].astype("datetime64[us]"), *points[1:])
    theirs, ours = in_turn([lambda: potirehu.calculate(*grid, 150, 150, 4)], len(points[0]), path)
    shown("a grid of 20 dates, 4 places and 100 altitudes from 0 to 1,000 km: calculate", ours, theirs)
    record = records[0]
    as_array, as_list = grid[3], grid[3].tolist()
    pair = [math.inf, math.inf]
    for _ in range(TURNS):
        for i, altitudes in enumerate((as_array, as_list)):
            pair[i] = min(pair[i], timed(lambda: [potirehu.column(altitudes, record) for _ in range(10)], 10 * 100))
    shown("column of these 100, a numpy array in", pair[0], theirs)
    shown("the same, a list in", pair[1], theirs)

    # what two threads can reach is what two processes reach on this machine as it is: both, in turn
    found = {(how, number): math.inf for how in (threads, processes) for number in (1, 2)}
    for _ in range(TURNS):
        for how, number in found:
            found[how, number] = min(found[how, number], timed(lambda: how(track, number), number * n, time.perf_counter))
    for how, words in ((threads, "threads"), (processes, "processes")):
        print(f"\nTwo {words}, an orbit each by calculate: {found[how, 1] / found[how, 2]:.2f} times the points a second of one.")

    g = random.Random(1)
    file = MEMORY / "desk-records.txt"
    with open(file, "w") as out:
        for one in fields[[g.randrange(n) for _ in range(300000)]].tolist():
            out.write(f"{int(one[0])} {one[1]:.0f} {one[2]:.0f} {one[3]:.4f} {one[4]:.4f} {one[5]:.4f} 150 150 4\n")
    print("\n| ./density, 300,000 records from a file | records a second | ns of the processor a record |\n|---|---|---|")
    for what, more, turns in (("table", [], 7), ("--drag", ["--drag"], 2), ("--species", ["--species"], 2), ("--csv", ["--csv"], 2), ("--json", ["--json"], 2)):
        best = [math.inf, math.inf]
        for _ in range(turns):
            with open("/dev/null", "w") as nowhere:
                before, start = resource.getrusage(resource.RUSAGE_CHILDREN), time.perf_counter()
                subprocess.run([sys.executable, ROOT / "density", file, *more], stdout=nowhere, check=True)
                took, after = time.perf_counter() - start, resource.getrusage(resource.RUSAGE_CHILDREN)
            used = after.ru_utime + after.ru_stime - before.ru_utime - before.ru_stime
            best = [min(best[0], took), min(best[1], used)]
        print(f"| {what} | {300000 / best[0]:,.0f} | {best[1] / 300000 * 1e9:,.0f} |", flush=True)


main()
