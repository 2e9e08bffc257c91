"""Densities of the upper air from a date and a place, or from records in plain decimals: a table with units, the switch row beside each density, and refusals
in words.

  PROGRAM --at 2026-11-17T06:00Z --lat 60 --long -70 --alt 100:1000:50 --weather FILE
  PROGRAM --doy 172 --sec 29000 --alt 400 --lat 60 --long -70 --f107a 150 --f107 150 --ap 4
  PROGRAM examples/afternoon.txt
  PROGRAM < examples/afternoon.txt

A record is one line of 9 numbers, or of 16 with a magnetic history, separated by blanks or commas:
  doy sec alt lat long lst f107a f107 ap [seven values]
A - stands for a field that is not known: it is not looked at, and a row of switches that lets it count is refused and says so. It does not go with --drag.
Empty lines, and what stands behind a #, are passed over. A file that begins with a line of names, as --csv writes it, is read by these names: any of the
fields, at (a date in UTC, in the place of doy, sec and lst), history, switches and drag; other columns are passed over.

  at       date in UTC                 2026-11-17T06:00Z; it gives doy, sec and lst
  doy      day of the year             1 to 366, whole
  sec      seconds of the day, UT      0 to 86400
  alt      altitude                    0 to 2500 km; as an option also FROM:TO:STEP
  lat      latitude, north above 0     -90 to 90 degrees
  long     longitude, east above 0     -1000 to 1000 degrees
  lst      local time                  -24 to 48 hours; sec / 3600 + long / 15, wrapped to a day, where it is not given
  f107a    10.7 cm flux, 81-day mean   0 to 1000
  f107     the same, the day before    0 to 1000
  ap       magnetic index of the day   0 to 400
  seven    magnetic history: daily ap, 3-hour ap now, 3, 6, 9 hours before, means of 12 to 33 and of 36 to 57 hours before

With --weather FILE (docs/WEATHER.md) f107a, f107 and ap need not be given where there is a date; with --history weather, or with -1 in entry 9 of --switches,
the history is taken from it too.

The switches are 24 numbers: 1 on, 0 off, 2 main effect off and cross effect on; entry 0 at 1 gives m and kg; entry 9 takes 1 for ap, -1 for the history, 0 for
neither. All are on unless --switches says otherwise; a record with a history then has -1 in entry 9. docs/RULES.md says what each switches. Beside each density
stand the row and the fields that do not count under it; docs/CHANGING-OVER.md has a row for each field that may be lacking. What looks like a mistake in a
record that is accepted, as a local time other than date and longitude give, is said on standard error.

It ends with 0, with 1 where a record was refused or was none, with 2 where it could not begin, read on or write.
"""

import argparse
import collections
import decimal
import io
import os
import sys
from typing import Any, Iterator, List, Optional, Sequence, Union

from .reading import NAMES, Inputs, NoRecord, Run, Stop, read, runs_of
from .remarks import Remarks
from .writing import Csv, Json, Table

FEW = 100
"""Up to so many records that come together are answered at once, and more in a thread of their own."""
MOST_RECORDS = 1_000_000
"""The most altitudes that FROM:TO:STEP may give."""


def give_up(words: str) -> None:
    """Says a sentence on standard error and ends with 2."""
    try:
        os.write(2, f"density: {words}\n".encode("utf-8", "backslashreplace"))
    except OSError:
        pass  # nobody can be told
    sys.exit(2)


def say(words: str) -> None:
    """Says a line on standard error, behind what was printed."""
    sys.stdout.flush()
    try:
        os.write(2, f"density: {words}\n".encode("utf-8", "backslashreplace"))
    except OSError:
        pass


def altitudes(text: str) -> List[str]:
    """The altitudes of FROM:TO:STEP, TO among them where a step ends there; or the one that is given.

    >>> altitudes("100:200:50"), altitudes("400")
    (['100', '150', '200'], ['400'])
    """
    parts = text.split(":")
    if len(parts) == 1:
        return [text]
    try:
        start, end, step = (decimal.Decimal(part) for part in parts)
        if not (start.is_finite() and end.is_finite() and step.is_finite()) or step == 0:
            raise ValueError
    except (ValueError, decimal.InvalidOperation):
        raise Stop(f"--alt takes a number, or FROM:TO:STEP with a step that is not 0, as 100:1000:50, and not '{text}'.") from None
    count = int((end - start) / step) + 1 if (end - start) / step >= 0 else 0
    if not 0 < count <= MOST_RECORDS:
        raise Stop(f"--alt {text} gives {count} altitudes, and 1 to {MOST_RECORDS} are wanted.")
    return [f"{start + i * step:f}" for i in range(count)]


def arguments(program: str, words: Sequence[str]) -> argparse.Namespace:
    """What the command line says."""
    parser = argparse.ArgumentParser(
        prog="density",
        usage=f"{program} [FILE ..], or {program} --at DATE --alt N --lat N --long N --weather FILE, or {program} --doy N --sec N --alt N --lat N --long N "
        "[--lst N] --f107a N --f107 N --ap N",
        description=(__doc__ or "").replace("PROGRAM", program),
        formatter_class=argparse.RawDescriptionHelpFormatter,
        allow_abbrev=False,
    )
    parser.add_argument("files", nargs="*", metavar="FILE", help="records, a line each; - or none for standard input")
    parser.add_argument("--at", metavar="DATE", help="a date in UTC, as 2026-11-17T06:00Z, in the place of --doy, --sec and --lst")
    for name in NAMES:
        parser.add_argument(f"--{name}", metavar="N", help=argparse.SUPPRESS)
    files = "the CSV of daily and three-hourly indices, or the table of Kp, ap and F10.7 since 1932"
    parser.add_argument("--weather", metavar="FILE", help=f"space weather: {files}")
    parser.add_argument("--predicted", action="store_true", help="take what the file marks as predicted")
    parser.add_argument("--history", metavar='"7 NUMBERS"', help="the magnetic history of a record given by --doy and so on, or the word weather")
    parser.add_argument("--switches", metavar='"24 NUMBERS"', help="the switch row for all records")
    parser.add_argument("--drag", action="store_true", help="count anomalous oxygen in the mass density, as drag does")
    parser.add_argument("--species", action="store_true", help="print the densities of the eight species too")
    parser.add_argument("--csv", action="store_true", help="write comma-separated values, which can be read again")
    parser.add_argument("--json", action="store_true", help="write a line of JSON for each record")
    parser.add_argument("--plot", metavar="FILE", help="draw density and temperature over altitude too, into FILE.svg or FILE.png")
    for one in words:
        # argparse would drop the -- and then miss a value
        if one.startswith("--") and one.endswith("=--"):
            raise Stop(f"{one[:-3]} wants a value, and '--' is none.")
    given = parser.parse_args(_joined(words))
    if given.csv and given.json:
        raise Stop("--csv and --json do not go together.")
    if given.plot is not None and not given.plot.lower().endswith((".svg", ".png")):
        raise Stop(f"--plot takes a file whose name ends with .svg or .png, and not '{given.plot}'.")
    return given


def _joined(words):
    # argparse takes a value such as -70,4 or '-70 4' for an option of its own
    out: List[str] = []
    options = {f"--{name}" for name in (*NAMES, "history", "switches")}
    for one in words:
        if out and out[-1] in options and one[:1] == "-" and one[1:2].isdigit():
            out[-1] += "=" + one
        else:
            out.append(one)
    return out


def records(given: argparse.Namespace, inputs: Inputs) -> Iterator[Union[Run, NoRecord]]:
    """All records that are given, in runs."""
    values = {name: getattr(given, name) for name in (*NAMES, "at", "history")}
    if any(value is not None for value in values.values()):
        if given.files:
            raise Stop("a record is given by its fields or read from files, not both.")
        alts: List[Any] = [None] if values["alt"] is None else list(altitudes(values["alt"]))
        first = inputs.words({**values, "alt": alts[0]}, "--")
        words = [[*first[:2], alt, *first[3:]] for alt in alts]
        yield from runs_of(words, [0] * len(words), "", [" ".join(one) for one in words], inputs)
        return
    if not given.files and sys.stdin is not None and sys.stdin.isatty():
        say("records are read here, a line each, until control-D; --help says what they are")
    for name in given.files or ["-"]:
        empty = True
        for found in read(name, inputs):
            empty = False
            yield found
        if empty:
            inputs.remarks.add(f"empty {name}", f"{'standard input' if name == '-' else name} has no record in it")
            inputs.empty = True


def asked(found: Iterator[Union[Run, NoRecord]]) -> Iterator[Union[Run, NoRecord]]:
    """The runs with their answers, in order. Where there are several, two are asked for in threads while the next is read."""
    from concurrent.futures import Future, ThreadPoolExecutor

    def result(one):
        return one.result() if isinstance(one, Future) else one.ask() if isinstance(one, Run) else one

    waiting: collections.deque = collections.deque()
    with ThreadPoolExecutor(2) as thread:
        for one in found:
            waiting.append(thread.submit(one.ask) if isinstance(one, Run) and len(one.words) > FEW else one)
            # what is small is answered at once, unless something before it is still asked for
            while waiting and (len(waiting) > 3 or not isinstance(waiting[0], Future)):
                yield result(waiting.popleft())
        while waiting:
            yield result(waiting.popleft())


def main(program: str, words: Sequence[str]) -> int:
    """Runs the program; its status."""
    given = arguments(program, words)
    remarks = Remarks()
    inputs = Inputs(given, remarks)
    out: Any = Csv() if given.csv else Json() if given.json else Table(given.species)
    curves: list = []
    failed = without = False
    for found in asked(records(given, inputs)):
        if isinstance(found, NoRecord):
            out.none(found)
            failed = True
            continue
        remarks.look(found)
        without = out.write(found) or without
        failed = failed or any(found.answers)
        if given.plot is not None:
            curves.append(found)
        if len(found.words) <= FEW:
            sys.stdout.flush()
    out.end(without)
    if inputs.weather is not None and not inputs.asked_weather:
        remarks.add("unasked", "--weather is given, and nothing was asked of it: it goes with a date, --at")
    if given.plot is not None:
        from .picture import PictureError, draw, profile

        try:
            panels, left_out = profile(curves)
            draw(given.plot, panels)
        except PictureError as error:
            for line in remarks.lines():
                say(line)
            raise Stop(f"{error}.") from None
        if left_out:
            remarks.add("left out", f"left out of the picture: {left_out} refused or without a number")
        say(f"drawn: {given.plot}")
    sys.stdout.flush()
    for line in remarks.lines():
        say(line)
    return 1 if failed or inputs.empty else 0


def _written(program, words):
    # runs main, also where it ends by itself, and writes out what stands in the buffer; its status
    if sys.stdout is None:
        give_up("standard output is closed.")
    if isinstance(sys.stdout, io.TextIOWrapper):
        sys.stdout.reconfigure(errors="backslashreplace")
    try:
        status = main(program, words)
    except SystemExit as end:
        status = end.code
    sys.stdout.flush()
    return status


def run(program: str = "potirehu", words: Optional[Sequence[str]] = None) -> None:
    """The program as a whole, which ends the interpreter: with a sentence where it cannot go on."""
    try:
        sys.exit(_written(program, sys.argv[1:] if words is None else words))
    except Stop as stop:
        try:
            sys.stdout.flush()
        except OSError:
            os.dup2(os.open(os.devnull, os.O_WRONLY), sys.stdout.fileno())
        give_up(str(stop))
    except OSError as error:
        # what is left in the buffer must not be tried once more at the end of the program
        os.dup2(os.open(os.devnull, os.O_WRONLY), sys.stdout.fileno())
        if isinstance(error, BrokenPipeError):
            sys.exit(0)  # the reader has gone: nothing is left to say
        give_up(f"the table cannot be written: {error.strerror}.")
    except KeyboardInterrupt:
        sys.exit(2)
