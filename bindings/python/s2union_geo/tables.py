"""Tables of points, as files have them, for `python3 -m s2union_geo join`: CSV, GeoJSON, a line of GeoJSON for each
feature, and parquet, if pyarrow is there."""

from __future__ import annotations

import csv
import io
import json
import re
from collections import deque
from itertools import chain
from types import SimpleNamespace
from typing import Any, BinaryIO, Callable, Iterable, Iterator, NamedTuple

import numpy

from .places import MOST, range_of
from .reading import MOST_BYTES, parsed

COLUMNS = ("longitude", "latitude"), ("lon", "lat"), ("lng", "lat"), ("long", "lat"), ("x", "y")
SEPARATORS = ",;\t|"  # of which one is looked for; without any, columns lie between blanks
AT_ONCE = 100_000  # rows
BLOCK = 2**22  # characters that are read at once
LONGEST = 2**24  # characters of a line
MARK = "\x1e"  # which may begin each line of features


class Options(NamedTuple):
    """What a user says of a table: its columns of degrees, and what separates columns."""

    longitude: str | None = None
    latitude: str | None = None
    separator: str | None = None


class Part(NamedTuple):
    """Some rows as lines of CSV, with the longitudes and the latitudes of their points."""

    lines: list[str]
    x: Any
    y: Any


def lines_of(rows: Iterable[Iterable[Any]]) -> list[str]:
    """Rows as lines of CSV."""
    lines: list[str] = []
    csv.writer(SimpleNamespace(write=lambda line: lines.append(line[:-1])), lineterminator="\n").writerows(rows)
    return lines


def read_points(file: BinaryIO, options: Options, wrong: Callable[[str], None]) -> tuple[list[str], Iterator[Part]]:
    """The names of the columns, or none if the table has no line for them, and the rows in parts. `wrong` gets what is
    said of a row without a point; if it returns, the row is left out."""
    peeked = io.BufferedReader(file) if not hasattr(file, "peek") else file  # type: ignore[type-var, arg-type]
    begin = peeked.peek(4)[:4]  # type: ignore[attr-defined]
    if begin == b"PAR1":
        names, rows = _of_parquet(peeked)
        columns = _columns(names, options)
        return names, _parts(rows, columns, wrong)
    text = io.TextIOWrapper(peeked, "utf-8-sig", "surrogateescape", newline="")  # type: ignore[type-var]
    first = _line(text)
    if first.lstrip()[:1] in ("{", MARK):
        return _of_features(features_of(first, text), wrong)
    return _of_csv(first, text, options, wrong)


def _line(text: Any) -> str:
    """The first line that isn't blank, with those before it."""
    blank = ""
    while True:
        line = text.readline(LONGEST)
        if line.strip(MARK + " \t\r\n") or not line:
            return blank + str(line)
        blank += line


def _lines(first: str, text: Any) -> Iterator[str]:
    """The lines of a text from its first on. They end where those of a file do, so a field may have U+2028, say."""
    return chain(io.StringIO(first, newline=""), iter(lambda: text.readline(LONGEST), ""))


def features_of(first: str, text: Any) -> Iterator[tuple[str, Any]]:
    """The features of GeoJSON, of a collection or one a line, each with where it stands. `text` has what comes after
    the first line."""
    try:
        alone = json.loads(first.strip(MARK + " \t\r\n"))
    except (ValueError, RecursionError):
        alone = None  # the first line of a longer object
    if isinstance(alone, dict) and alone.get("type") == "Feature":
        return _features_by_line(_lines(first, text))
    whole = alone if isinstance(alone, dict) else parsed(first + text.read(MOST_BYTES + 1))
    features = whole.get("features") if isinstance(whole, dict) else None
    if not isinstance(features, list):
        raise ValueError("it is no collection of features")
    return ((f"feature {place}", feature) for place, feature in enumerate(features))


def _features_by_line(lines: Any) -> Iterator[tuple[str, Any]]:
    for number, line in enumerate(lines, 1):
        line = line.strip(MARK + " \t\r\n")
        if line:
            yield f"line {number}", parsed(line, f"line {number}")


# ---- rows


PLAIN = re.compile(r"[-+.0-9eE \n]*").fullmatch  # numbers of ASCII's digits


def _of_csv(first: str, text: Any, options: Options, wrong: Callable[[str], None]) -> Any:
    separator = options.separator or max(SEPARATORS, key=first.count)
    table = _Table(text, separator if separator in first or options.separator else " ")
    rows = table.rows(first)
    begin = next(rows, None)
    while begin is None and (block := table.block()):
        rows = table.rows(block)
        begin = next(rows, None)
    if begin is None:
        return [], iter(())
    head = begin[1]
    is_head = not _is_point(head, options)
    columns = _columns(head, options) if is_head else _numbers(options, len(head))
    whole = rows if is_head else chain([begin], rows)
    return head if is_head else [], table.parts(whole, len(head), columns, wrong)


class Blocks:
    """A text, of which blocks of whole lines are read."""

    def __init__(self, text: Any) -> None:
        self.text, self.rest, self.done = text, "", 0  # what was read of the next block; lines of earlier ones

    def block(self) -> str:
        """The next lines; nothing after the last one. A line that is too long may come in parts."""
        while more := self.text.read(BLOCK):
            self.rest += more
            end = self.rest.rfind("\n") + 1 or self.rest.rfind("\r", 0, -1) + 1
            if not end and len(self.rest) >= LONGEST:
                end = len(self.rest)
            if end:
                block, self.rest = self.rest[:end], self.rest[end:]
                return block
        block, self.rest = self.rest, ""
        return block


class _Table(Blocks):
    """A table of CSV. Most blocks have no quotes: their lines are fields with separators between them, and are written
    again as they are."""

    def __init__(self, text: Any, separator: str) -> None:
        super().__init__(text)
        self.separator = separator

    def rows(self, block: str) -> Iterator[tuple[str, list[str]]]:
        """The rows of a block that aren't blank, each with where it stands; with the next blocks, if a row goes on
        there. Lines end where those of a file do, so a field may have U+2028, say."""
        waiting = deque(io.StringIO(block, newline=""))

        def lines() -> Iterator[str]:
            while waiting or waiting.extend(io.StringIO(self.block(), newline="")) or waiting:
                yield waiting.popleft()

        reader = csv.reader(lines(), delimiter=self.separator, skipinitialspace=self.separator == " ")
        try:
            for row in reader:
                if row:
                    yield f"line {self.done + reader.line_num}", row
                if not waiting:
                    break
        except csv.Error as error:
            raise ValueError(f"it is no CSV: {error}") from None
        self.done += reader.line_num

    def parts(self, rows: Any, count: int, columns: tuple[int, int], wrong: Callable[[str], None]) -> Iterator[Part]:
        """Parts of rows that have this many columns and a point: of those that were read, and of all blocks."""
        yield from _parts(_whole(rows, count, wrong), columns, wrong)
        while block := self.block():
            part = self.plain(block, count, columns)
            if part:
                yield part
            else:
                yield from _parts(_whole(self.rows(block), count, wrong), columns, wrong)

    def plain(self, block: str, count: int, columns: tuple[int, int]) -> Part | None:
        """The rows of a block without quotes, each of which has these columns and a point in plain numbers; else
        None."""
        text = block.replace("\r\n", "\n")
        if any(mark in text for mark in '"\r\0') or self.separator == " " or self.separator != "," and "," in text:
            return None
        given = text.split("\n")
        lines = [line for line in given if line]
        fields = [line.split(self.separator) for line in lines]
        if {*map(len, fields)} - {count} or max(map(len, lines), default=0) > csv.field_size_limit():
            return None
        places = []
        for column, most in zip(columns, MOST.values()):
            words = [row[column] for row in fields]
            try:
                numbers = numpy.array([*map(float, words)] if PLAIN("\n".join(words)) else [numpy.nan])
            except ValueError:
                return None
            if not (numpy.abs(numbers) <= most).all():
                return None
            places.append(numbers)
        self.done += len(given) - (not given[-1])
        return Part(lines if self.separator == "," else [line.replace(self.separator, ",") for line in lines], *places)


def _whole(rows: Any, count: int, wrong: Callable[[str], None]) -> Iterator[tuple[str, list[str]]]:
    """The rows that have this many columns."""
    for where, row in rows:
        if len(row) == count:
            yield where, row
        else:
            wrong(f"{where} has {len(row)} columns, and the first has {count}")


def _numbers(options: Options, count: int) -> tuple[int, int]:
    """The places of the columns of degrees, of a table without names."""
    given = [it or str(k) for k, it in enumerate(options[:2], 1)]
    if not all(it.isdecimal() and 1 <= int(it) <= count for it in given):
        raise ValueError(f"columns without names have numbers from 1 to {count}: not {' and '.join(map(repr, given))}")
    return int(given[0]) - 1, int(given[1]) - 1


def _is_point(row: list[str], options: Options) -> bool:
    """Whether a first row has degrees, and no names of columns."""
    try:
        return all(_number(row[place]) is not None for place in _numbers(options, len(row)))
    except ValueError:
        return False


def _columns(names: list[str], options: Options) -> tuple[int, int]:
    """The places of the columns of degrees."""
    plain = [name.strip().lower() for name in names]
    pair = next((pair for pair in COLUMNS if {*pair} <= {*plain}), (None, None))
    found = []
    for what, given, known in zip(COLUMNS[0], options, pair):
        if given is not None and given in names:
            found.append(names.index(given))
        elif given is not None and given.isdecimal() and 1 <= int(given) <= len(names):
            found.append(int(given) - 1)
        elif given is None and known is not None:
            found.append(plain.index(known))
        else:
            raise ValueError(f"there is no column {given!r}" if given else
                             f"no column is known as {what}, and --{what} names it: {', '.join(names)[:200]}")
    return found[0], found[1]


def number_in(word: str) -> float:
    """A number of a text, which has digits of ASCII alone and nothing between them."""
    word = word.strip()
    if "_" in word or not word.isascii():
        raise ValueError(f"{word!r} is no number")
    return float(word)


def _number(word: str) -> float:
    """The same, which may have a comma for its point."""
    return number_in(word if "," not in word or "." in word else word.replace(",", "."))


def is_text(text: str) -> bool:
    """Whether a text can be written. JSON may have one half of a pair of surrogates, which can't."""
    try:
        return text.encode() is not None
    except UnicodeEncodeError:
        return False


def _parts(rows: Any, columns: tuple[int, int], wrong: Callable[[str], None]) -> Iterator[Part]:
    """Parts of rows that have points."""
    kept: list[list[str]] = []
    places: list[tuple[float, float]] = []
    for where, row in rows:
        try:
            x, y = _number(row[columns[0]]), _number(row[columns[1]])
        except ValueError:
            wrong(f"{where} has no degrees: {row[columns[0]]!r} and {row[columns[1]]!r}")
            continue
        if not (abs(x) <= MOST["longitude"] and abs(y) <= MOST["latitude"]):
            what = "latitude" if abs(x) <= MOST["longitude"] else "longitude"
            wrong(f"{where}: {range_of(what)}: {row[columns[what == 'latitude']]}")
            continue
        kept.append(row)
        places.append((x, y))
        if len(kept) == AT_ONCE:
            yield Part(lines_of(kept), *numpy.array(places).T)
            kept, places = [], []
    if kept:
        yield Part(lines_of(kept), *numpy.array(places).T)


# ---- features and parquet


def _of_features(features: Any, wrong: Callable[[str], None]) -> Any:
    """Points with properties: the columns are the degrees and the properties of the first rows."""
    begin = [next(features, None) for _ in range(AT_ONCE)]
    begin = [it for it in begin if it is not None]
    names = list(dict.fromkeys(name for _, feature in begin for name in _properties(feature)))
    bad = next((name for name in names if not is_text(name)), None)
    if bad is not None:
        where = next(where for where, feature in begin if bad in _properties(feature))
        raise ValueError(f"{where} has half of a pair of surrogates in the name of a property: {bad!r}")
    rows = _rows_of(chain(begin, features), names, wrong)
    return ["longitude", "latitude", *names], _parts(rows, (0, 1), wrong)


def _properties(feature: Any) -> dict[str, Any]:
    properties = feature.get("properties") if isinstance(feature, dict) else None
    return properties if isinstance(properties, dict) else {}


def _rows_of(features: Any, names: list[str], wrong: Callable[[str], None]) -> Iterator[tuple[str, list[str]]]:
    known = {*names}
    for where, feature in features:
        geometry = feature.get("geometry") if isinstance(feature, dict) else None
        place = geometry.get("coordinates") if isinstance(geometry, dict) and geometry.get("type") == "Point" else None
        if not (isinstance(place, list) and len(place) >= 2 and {*map(type, place[:2])} <= {int, float}):
            wrong(f"{where} has no point")
            continue
        properties = _properties(feature)
        if not properties.keys() <= known:
            wrong(f"{where} has a property that no earlier one has: {min(properties.keys() - known)!r}")
            continue
        row = [*map(repr, place[:2]), *(_text(properties.get(name)) for name in names)]
        if not is_text("".join(row)):
            wrong(f"{where} has a property with half of a pair of surrogates")
            continue
        yield where, row


def _text(value: Any) -> str:
    return value if isinstance(value, str) else "" if value is None else json.dumps(value)


def _of_parquet(file: Any) -> tuple[list[str], Iterator[tuple[str, list[str]]]]:
    try:
        from pyarrow.parquet import ParquetFile  # type: ignore[import-not-found]
    except ImportError:
        raise ModuleNotFoundError("a file of parquet needs pyarrow") from None
    table = ParquetFile(file)
    names = list(table.schema_arrow.names)
    return names, _rows_of_parquet(table, names)


def _rows_of_parquet(table: Any, names: list[str]) -> Iterator[tuple[str, list[str]]]:
    done = 0
    for batch in table.iter_batches(AT_ONCE):
        for done, row in enumerate(zip(*(batch.column(name).to_pylist() for name in names)), done + 1):
            yield f"row {done}", [value if isinstance(value, str) else "" if value is None else str(value)
                                  for value in row]
