"""Records out of text for the program density: lines of numbers, values by name, and what a date and space weather give of them."""

import array
import csv
import itertools
import math
import sys
import warnings
from typing import Any, Dict, Generator, Iterator, List, NamedTuple, Optional, Sequence, Tuple, Union

from . import plain
from . import weather as space_weather
from .arrays import ask_records, for_drag
from .calls import gtd7
from .dates import clock, local_solar_time, moment
from .memory import nearest
from .record import ON, Record
from .refusals import Refusal

NAMES = ("doy", "sec", "alt", "lat", "long", "lst", "f107a", "f107", "ap")
"""The fields as the program has them."""
FIELDS = ("doy", "sec", "alt", "g_lat", "g_long", "lst", "f107a", "f107", "ap")
"""The same as a Record has them."""
BLOCK = 2**18
"""The bytes of a file that are read at a time, some 5,000 records."""


class Stop(Exception):
    """Why the program cannot go on, in a sentence.

    >>> str(Stop("standard input is closed."))
    'standard input is closed.'
    """


class NoRecord(NamedTuple):
    """A line that is no record: where it stands, why it is none, and what it says.

    >>> NoRecord("a.txt:3: ", "9 numbers are wanted", "1 2").where
    'a.txt:3: '
    """

    where: str
    why: str
    text: str


class Run:
    """Records that follow each other, all with a history or all without, under one row of switches. words has 9 or 16 of each; known names the fields of a
    single record that are known, where not all are.

    >>> run = Run([["172", "29000", "400", "60", "-70", "16", "150", "150", "4"]], [1], "a.txt", list(ON), False)
    >>> run.ask().answers[0], f"{run.rows[5]:.6e}"
    (0, '4.074714e-12')
    """

    def __init__(
        self, words: Any, lines: Sequence[int], source: str, switches: List[int], drag: bool, known: Optional[List[str]] = None, read: Optional[Tuple] = None
    ) -> None:
        self.words, self.lines, self.source, self.switches, self.drag, self.known = words, lines, source, switches, drag, known
        self.days: array.array
        self.fields: array.array
        self.histories: Optional[array.array] = None
        self.answers: array.array
        self.rows: array.array
        width = len(words[0])
        self.history = width == 16
        if read is not None:
            self.days, self.fields, self.histories = read
            return
        values = array.array("d", map(float, itertools.chain.from_iterable(words)))
        days = values[0::width]
        if not all(map(float.is_integer, days)):
            raise ValueError
        try:
            self.days = array.array("i", map(int, days))
        except OverflowError:
            self.days = array.array("i", (nearest(int(day), 32) for day in days))
        self.fields = array.array("d", bytes(64 * len(words)))
        for i in range(8):
            self.fields[i::8] = values[i + 1 :: width]
        if self.history:
            self.histories = array.array("d", bytes(56 * len(words)))
            for i in range(7):
                self.histories[i::7] = values[i + 9 :: width]

    def ask(self) -> "Run":
        """Asks the library."""
        if self.known is None:
            self.answers, self.rows = ask_records(self.switches, self.days, self.fields, self.histories)
            if self.drag:
                for_drag(self.rows, self.switches[0] == 1)
            return self
        record = Record(**dict(zip(FIELDS, (self.days[0], *self.fields))), ap_array=self.histories)
        self.answers, self.rows = array.array("Q", [0]), array.array("d", [math.nan] * 11)
        with warnings.catch_warnings():
            warnings.simplefilter("ignore")
            try:
                self.rows = array.array("d", gtd7(record, self.switches, known=self.known))
            except Refusal as refused:
                self.answers[0] = (refused.number << 32) + refused.place
        return self

    def where(self, i: int) -> str:
        """Where a record stands."""
        return f"{self.source}:{self.lines[i]}: " if self.source else ""


def split(text: str) -> List[str]:
    """The words of a text, separated by blanks or commas; between two commas an empty one.

    >>> split("172, 29000,400 60"), split("172,,4")
    (['172', '29000', '400', '60'], ['172', '', '4'])
    """
    if "," not in text:
        return text.split()
    return list(itertools.chain.from_iterable(part.split() or [""] for part in text.strip().split(",")))


def whole_row(text: str, what: str) -> List[int]:
    """24 switches from a text.

    >>> sum(whole_row("1 " * 24, "--switches"))
    24
    """
    words = split(text)
    try:
        row = [int(word) for word in words]
    except ValueError as error:
        raise Stop(f"{what}: {error}.") from None
    if len(row) != 24:
        raise Stop(f"{what} wants 24 numbers, and there are {len(row)}.")
    for i, value in enumerate(row):
        if not -(2**31) <= value < 2**31:
            raise Stop(f"{what}: entry {i} is beyond 32 bits.")
    return row


def word(value: float) -> str:
    """A number as a word that reads as the same number.

    >>> word(21600.0), word(1.5)
    ('21600', '1.5')
    """
    return str(int(value)) if value == int(value) else repr(value)


def is_number(text: str) -> bool:
    """Whether a word is a number.

    >>> is_number("4e2"), is_number("four"), is_number("1_000")
    (True, False, False)
    """
    try:
        float(text)
    except ValueError:
        return False
    return "_" not in text


class Inputs:
    """The program's options, as argparse gives them, and how values by name become the words of a record."""

    def __init__(self, given: Any, remarks: Any) -> None:
        self.remarks, self.empty = remarks, False
        self.switches = list(ON) if given.switches is None else whole_row(given.switches, "--switches")
        self.own_row = given.switches is not None
        self.drag = given.drag
        self.weather: Optional[space_weather.Weather] = None
        self.asked_weather = False
        if given.weather is not None:
            try:
                self.weather = space_weather.read(given.weather, given.predicted)
            except OSError as error:
                raise Stop(f"{given.weather}: {error.strerror}.") from None
            except space_weather.WeatherError as error:
                raise Stop(f"{error}.") from None

    def row(self, history: bool) -> List[int]:
        """The switch row of a record: a history has -1 in entry 9 where no row is given."""
        row = list(self.switches)
        if history and not self.own_row:
            row[9] = -1
        return row

    def words(self, values: Dict[str, Optional[str]], shown: str) -> List[str]:
        """The 9 or 16 words of a record from values by name; shown stands before a name that is asked for, as --."""
        values = dict(values)
        history = values.pop("history", None)
        at = values.pop("at", None)
        for name, count in [*((name, 1) for name in values), ("history", 7)]:
            found = history if name == "history" else values[name]
            # else a value that is empty or has two numbers in it would shift those behind it
            if found is not None and found != "weather" and len(split(found)) != count:
                raise Stop(f"{shown}{name} wants {count} {'number' if count == 1 else 'numbers'}, and there are {len(split(found))}.")
            if found is not None and "#" in found:
                raise Stop("a # begins a comment in a file, and stands in no field.")
        if at is not None:
            self._date(values, at, shown)
            self._conditions(values, at)
            if history == "weather" or (history is None and self.own_row and self.switches[9] == -1 and self.weather is not None):
                history = self._history(at, shown)
        elif history == "weather":
            raise Stop(f"{shown}history weather wants a date, {shown}at.")
        if values["lst"] is None and values["sec"] is not None and values["long"] is not None:
            if "-" in (values["sec"], values["long"]):
                values["lst"] = "-"
            elif is_number(values["sec"]) and is_number(values["long"]):
                lst = local_solar_time(float(values["sec"]), float(values["long"]))
                values["lst"] = word(lst) if math.isfinite(lst) else "0"
            else:
                values["lst"] = "0"
        lacking = [f"{shown}{name}" for name in NAMES if values[name] is None]
        if lacking:
            raise Stop(f"the record lacks {', '.join(lacking)}{'; --help says what each is' if shown else ''}.")
        return [values[name] or "" for name in NAMES] + (split(history) if history else [])

    def _date(self, values, at, shown):
        both = [name for name in ("doy", "sec") if values[name] is not None]
        if both:
            raise Stop(f"{shown}at and {shown}{both[0]} are both given; one of them says the time.")
        try:
            found = clock(at, 0.0)
        except ValueError as error:
            raise Stop(f"{shown}at: {str(error).partition(': ')[2]}.") from None
        values["doy"], values["sec"] = str(found.doy), word(found.sec)

    def _conditions(self, values, at):
        if self.weather is None:
            return
        for name in ("f107a", "f107", "ap"):
            if values[name] is None:
                values[name] = word(self._ask(getattr(self.weather, name), at))

    def _history(self, at, shown):
        if self.weather is None:
            raise Stop(f"{shown}history weather wants a file, --weather FILE.")
        return " ".join(word(value) for value in self._ask(self.weather.history, at))

    def _ask(self, call, at):
        self.asked_weather = True
        with warnings.catch_warnings(record=True) as said:
            warnings.simplefilter("always")
            try:
                found = call(moment(at))
            except space_weather.WeatherError as error:
                raise Stop(f"{str(error).replace('read(.., predicted=True)', '--predicted')}.") from None
        for one in said:
            self.remarks.add("weather " + str(one.message), str(one.message))
        return found


def runs_of(words: List[List[str]], lines: Sequence[int], source: str, texts: Sequence[str], inputs: Inputs) -> Iterator[Union[Run, NoRecord]]:
    """Lines of words as runs of records, and what is no record among them."""
    start = 0
    for width, part in itertools.groupby(map(len, words)):
        end = start + sum(1 for _ in part)
        row = inputs.row(width == 16)
        if width not in (9, 16):
            for i in range(start, end):
                yield NoRecord(f"{source}:{lines[i]}: " if source else "", f"9 numbers are wanted, or 16 with a history, and there are {width}", texts[i])
        else:
            try:
                # float takes 1_000, which is no number elsewhere
                if any("_" in text for text in texts[start:end]):
                    raise ValueError
                yield Run(words[start:end], lines[start:end], source, row, inputs.drag)
            except ValueError:
                for i in range(start, end):
                    yield single(words[i], lines[i], source, texts[i], row, inputs.drag)
        start = end


def single(words: List[str], line: int, source: str, text: str, row: List[int], drag: bool) -> Union[Run, NoRecord]:
    """The record of a line, of which some fields may not be known, or why it is none."""
    known = [name for name, one in zip(FIELDS, words) if one != "-"]
    numbers = ["0" if one == "-" and i < 9 else one for i, one in enumerate(words)]
    why = None
    wrong = next((one for one in numbers if not is_number(one)), None)
    if wrong is not None:
        why = f"'{wrong}' is no number" if wrong else "a number is lacking between two commas"
    elif not float(numbers[0]).is_integer():
        why = f"doy '{words[0]}' is no whole number"
    elif drag and len(known) < len(FIELDS):
        why = "a field that is not known does not go with --drag"
    if why is not None:
        return NoRecord(f"{source}:{line}: " if source else "", why, text)
    run = Run([numbers], [line], source, row, drag, known if len(known) < len(FIELDS) else None)
    run.words = [words]
    return run


def blocks(name: str) -> Iterator[bytes]:
    """The lines of a file, or of standard input, some at a time. What a pipe or a terminal has is given at once."""
    if name == "-" and sys.stdin is None:
        raise Stop("standard input is closed.")
    try:
        opened: Any = sys.stdin.buffer if name == "-" else open(name, "rb")
        with opened as file:
            rest, first = b"", True
            while True:
                data = file.read1(BLOCK)
                text = rest + data
                if first and text.startswith(b"\xef\xbb\xbf"):
                    text = text[3:]
                first = first and len(text) < 3 and bool(data)
                cut = text.rfind(b"\n") + 1 if data else len(text)
                text, rest = text[:cut], text[cut:]
                if text:
                    yield text
                if not data:
                    return
    except OSError as error:
        raise Stop(f"{'standard input' if name == '-' else name}: {error.strerror}.") from None


def lines_of(text: bytes) -> List[str]:
    """The lines of a text, without their ends.

    >>> lines_of(b"one\\ntwo\\n")
    ['one', 'two']
    """
    lines = text.decode("utf-8", "replace").split("\n")
    return lines[:-1] if not lines[-1] else lines


def read(name: str, inputs: Inputs) -> Iterator[Union[Run, NoRecord]]:
    """The records of a file."""
    source = "standard input" if name == "-" else name
    named: Optional[List[str]] = None
    begun, number = False, 1
    for text in blocks(name):
        if not begun:
            names, passed, begun = head(lines_of(text), number, source)
            named = names or None
            for _ in range(passed):
                text = text.partition(b"\n")[2]
            number += passed
        if named is None and plain.CALLS:
            number = yield from read_plain(text, number, source, inputs)
            continue
        lines = lines_of(text)
        if named is not None:
            yield from by_names(named, lines, range(number, number + len(lines)), source, inputs)
        else:
            yield from read_lines(lines, number, source, inputs)
        number += len(lines)


def head(lines: List[str], number: int, source: str) -> Tuple[List[str], int, bool]:
    """Of a file's first lines: the names in the first that says something, how many lines are passed with it, and whether there is such a line."""
    at = next((i for i, line in enumerate(lines) if line.partition("#")[0].strip()), None)
    if at is None:
        return [], 0, False
    first = split(lines[at])
    if first[0].lower() not in ("at", *NAMES):
        return [], 0, True
    names = [one.strip().lower() for one in next(csv.reader([lines[at].strip()]))]
    if {"lat", "long", "alt"} <= set(names):
        return names, at + 1, True
    if tuple(first) != NAMES:
        raise Stop(f"{source}:{number + at}: a line of names that is not understood; names are separated by commas, as --csv writes them.")
    return [], at + 1, True


def read_plain(text: bytes, number: int, source: str, inputs: Inputs) -> Generator[Union[Run, NoRecord], None, int]:
    """The records of a text by text.c, and what is not plain line by line; returns the number of the line behind them."""
    width = 9
    while text:
        words, lines, days, fields, histories, taken, passed = plain.read(text, width)
        if len(words):
            row = inputs.row(width == 16)
            yield Run(words, _numbered(lines, number), source, row, inputs.drag, None, (days, fields, histories))
        text, number = text[taken:], number + passed
        if not text or (len(words) and len(words) == plain.MOST):
            continue
        # the next line is no plain record of this width
        line = text.partition(b"\n")[0]
        if len(split(line.decode("utf-8", "replace").partition("#")[0])) == 25 - width and plain.read(line, 25 - width)[5]:
            width = 25 - width
            continue
        yield from read_lines(lines_of(line), number, source, inputs)
        text, number = text[len(line) + 1 :], number + 1
    return number


def _numbered(lines, number):
    if lines[-1] - lines[0] == len(lines) - 1:
        return range(number + lines[0], number + lines[-1] + 1)
    return [number + line for line in lines]


def read_lines(lines: List[str], number: int, source: str, inputs: Inputs) -> Iterator[Union[Run, NoRecord]]:
    """The records of lines, by Python alone."""
    numbers: Sequence[int] = range(number, number + len(lines))
    bare = [line.partition("#")[0] for line in lines]
    words = [split(line) for line in bare]
    kept = [i for i, one in enumerate(words) if one]
    yield from runs_of([words[i] for i in kept], [numbers[i] for i in kept], source, [bare[i].strip() for i in kept], inputs)


def by_names(names: List[str], lines: List[str], numbers: Sequence[int], source: str, inputs: Inputs) -> Iterator[Union[Run, NoRecord]]:
    """The records of lines whose values are named."""
    for line, number in zip(lines, numbers):
        line = line.partition("#")[0]
        if not line.strip():
            continue
        cells = [cell.strip() for cell in next(csv.reader([line]))]
        where = f"{source}:{number}: "
        if len(cells) != len(names):
            yield NoRecord(where, f"{len(names)} values are wanted, and there are {len(cells)}", line.strip())
            continue
        row = {name: cell for name, cell in zip(names, cells) if cell}
        try:
            words = inputs.words({name: row.get(name) for name in (*NAMES, "at", "history")}, "")
            switches = whole_row(row["switches"], "switches") if "switches" in row and not inputs.own_row else inputs.row(len(words) == 16)
        except Stop as stop:
            yield NoRecord(where, str(stop).rstrip("."), line.strip())
            continue
        yield single(words, number, source, line.strip(), switches, inputs.drag or row.get("drag") == "yes")
