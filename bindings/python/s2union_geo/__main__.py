"""Points, polygons and maps from the command line.

python3 -m s2union_geo join POINTS ZONES [--name PROPERTY] [--longitude COLUMN]
    [--latitude COLUMN] [--separator C] [--skip] [--all] [--borders]
    [--coverings] [--max-cells N]
        Each row of a table of points with the name of a zone that contains the
        point, as CSV. A point in two zones has two rows; one in none has no
        row, or with --all one with an empty name.
        POINTS  CSV, with or without names of columns; GeoJSON; a feature of
                GeoJSON a line; parquet, if pyarrow is there; - for standard
                input
        ZONES   GeoJSON, a feature a line, or what `index` wrote
        --name  the property with a zone's name; without it, its number from 0
        --longitude, --latitude
                the columns' names, or numbers from 1, if they aren't called
                longitude and latitude, lon and lat, lng and lat, long and lat,
                or x and y, nor are the first two of a table without names
        --skip  leaves out each row without a point, and each zone whose
                polygons are refused, and says which on standard error; without
                it the first one ends the command
        --borders
                a point on the border of a zone is in it, as for PostGIS's
                ST_Covers
        --coverings
                asks coverings alone, not polygons: points near a border may be
                in zones too many
python3 -m s2union_geo index ZONES FILE [--name PROPERTY] [--skip]
    [--max-cells N]
        Makes the coverings of zones once, for `join` and for Index.load of
        Python.
python3 -m s2union_geo leaves <POINTS
        The tokens of the leaves of points: a longitude and a latitude a line,
        in degrees, with a comma or a blank between them; what follows is a
        name.
python3 -m s2union_geo cover FILE FOLDER MAX_CELLS MAX_LEVEL [--name PROPERTY]
        Coverings of each feature of a GeoJSON file, as FOLDER/NAME.outer and
        .inner, by the property 'file' or the one that is named, of which no two
        features may have the same.
python3 -m s2union_geo geojson FILE.. [--dissolve]
        Union files as one collection in GeoJSON: a feature for each cell, or
        with --dissolve one for each file, without the borders between cells.
"""
import argparse
import contextlib
import io
import json
import os
import re
import stat
import sys
import unicodedata
import warnings
from pathlib import Path

import numpy
from s2union import CellUnion, tokens

from . import Index, coverings, leaves, read_geojson, to_geojson
from .places import MOST, range_of
from .tables import Blocks, Options, features_of, is_text, lines_of, number_in, read_points

# Two words with a comma between them and a comma after them, if anything; or with blanks there.
POINT = re.compile(r"\s*([^\s,]+)(?:\s*,\s*([^\s,]+)\s*(?:,|$)|\s+([^\s,]+)(?:\s|$))")
PLAIN = re.compile(r"[-+.0-9eE, \n]*").fullmatch
BETWEEN = numpy.isin(numpy.arange(256), [*b" ,\n"])  # whether a code stands between numbers
NOTHING = {"type": "FeatureCollection", "features": []}


def point_of(line, number):
    """The longitude and the latitude with which a line begins."""
    found = POINT.match(line)
    try:
        longitude, latitude = (number_in(word) for word in found.groups() if word is not None)
    except (AttributeError, ValueError):
        raise ValueError(f"line {number} has no longitude and latitude at its beginning, with a comma or a blank "
                         f"between them: {line.strip()[:99]!r}") from None
    for degrees, (what, most) in zip((longitude, latitude), MOST.items()):
        if not abs(degrees) <= most:
            raise ValueError(f"line {number}: {range_of(what)}: {degrees}")
    return longitude, latitude


def plain_points(block):
    """The longitudes and latitudes of lines that are two numbers with a comma or a blank between them, all in range; of
    others None."""
    text = block if block.endswith("\n") else f"{block}\n"
    if not PLAIN(text):
        return None
    codes = numpy.frombuffer(text.encode(), "uint8")
    ends = codes[BETWEEN[codes]] == ord("\n")
    if len(ends) % 2 or ends[::2].any() or not ends[1::2].all():
        return None
    try:
        with warnings.catch_warnings():
            warnings.simplefilter("error")  # numbers are read as far as they are some
            numbers = numpy.fromstring(text.replace(",", " "), sep=" ")
    except (ValueError, DeprecationWarning):
        return None
    if len(numbers) != len(ends) or (numpy.abs(numbers).reshape(-1, 2) > tuple(MOST.values())).any():
        return None
    return numbers


def show_leaves():
    """The tokens of all points, once the last one is read: a wrong one is an error before any."""
    parts, read, text = [], 0, Blocks(sys.stdin)
    while block := text.block():
        found = plain_points(block)
        if found is None:
            lines = block.split("\n")
            points = [point_of(line, number) for number, line in enumerate(lines, read + 1) if line.strip()]
            found = numpy.array(points, "float64").ravel()
        read += block.count("\n")
        parts.append(leaves(found[::2], found[1::2]))
    for found in parts:
        if found.size:
            print("\n".join(tokens(found)))


def features_in(file):
    shape = read_geojson(file)
    features = shape.get("features") if isinstance(shape, dict) else None
    if not isinstance(features, list):
        raise ValueError(f"{file} is no collection of features")
    return features


def file_name(feature, place, named):
    """The name of a feature's files."""
    properties = feature.get("properties") if isinstance(feature, dict) else None
    if not isinstance(properties, dict) or properties.get(named) is None:
        raise ValueError(f"feature {place} has no property {named!r}")
    name = properties[named]
    if not isinstance(name, (str, int, float)):
        raise ValueError(f"feature {place}: its property {named!r} is a name, not a {type(name).__name__}")
    return str(name)


def files_of(name, folder):
    """The paths of a feature's files; an error if there can be no files of this name in the folder."""
    if name in ("", os.curdir, os.pardir) or os.path.basename(name) != name:
        raise ValueError("it is no name of a file in this folder")
    paths = [Path(folder, f"{name}.{kind}") for kind in ("outer", "inner")]
    for path in paths:
        try:  # the system says whether it takes the name
            if not stat.S_ISREG(path.stat().st_mode):
                raise ValueError(f"{path.name!r} is there, and is no file")
        except FileNotFoundError:
            pass
    return paths


def all_files(features, folder, named):
    """The paths of each feature's files. No two features may share them, also on a disk that doesn't tell upper case
    from lower case."""
    if not Path(folder).is_dir():
        raise NotADirectoryError(f"{folder} is no folder")
    found, places = [], {}
    for place, feature in enumerate(features):
        name = file_name(feature, place, named)
        try:
            found.append(files_of(name, folder))
        except (OSError, ValueError) as error:
            raise ValueError(f"feature {place}: its files can't be called {name[:99]!r}: "
                             f"{getattr(error, 'strerror', None) or error}") from None
        other = places.setdefault(unicodedata.normalize("NFC", name).casefold(), place)
        if other != place:
            raise ValueError(f"features {other} and {place} have the same name of files: {name!r}")
    return found


def counted(features):
    """The features in turn. A terminal shows how many are done."""
    shows = sys.stderr.isatty()
    for place, feature in enumerate(features):
        if shows:
            print(f"\r{place} of {len(features)} features", end="", file=sys.stderr, flush=True)
        yield feature
    if shows:
        print("\r\x1b[K", end="", file=sys.stderr, flush=True)


def cover(file, folder, max_cells, max_level, name):
    limits = int(max_cells), int(max_level)
    coverings(NOTHING, *limits)  # an error if they are out of range
    features = features_in(file)
    cells, left = [0, 0], []
    for feature, paths in counted(list(zip(features, all_files(features, folder, name)))):
        try:
            unions = coverings(feature, *limits)
            for path, union in zip(paths, unions):
                path.write_bytes(union.to_bytes())
        except (OSError, ValueError) as error:
            left.append(f"{paths[0].stem!r}: {error}")
            continue
        cells = [sum(counts) for counts in zip(cells, map(len, unions))]
    print(f"{len(features)} features, {cells[0]} and {cells[1]} cells; left: {len(left) or 'none'}", *left, sep="\n")


def show_geojson(files, dissolve):
    found = [to_geojson(CellUnion.from_bytes(Path(file).read_bytes()), dissolve=dissolve, name=Path(file).name)
             for file in files]
    features = [feature for collection in found for feature in collection["features"]]
    json.dump({"type": "FeatureCollection", "features": features}, sys.stdout)


class Wrong:
    """Takes what is said of wrong rows and zones: the first ends the command, or each is left out, with a message."""

    def __init__(self, skips):
        self.skips, self.count = skips, 0

    def __call__(self, message):
        if not self.skips:
            raise ValueError(f"{message}; --skip leaves it out")
        self.count += 1
        print(f"s2union_geo: left out: {message}", file=sys.stderr)


def opened(path):
    """A file, or standard input, which stays open."""
    return contextlib.nullcontext(sys.stdin.buffer) if path == "-" else open(path, "rb")


def read_zones(path, name, max_cells, wrong):
    """An index of a file of zones, or one that is a file already."""
    with opened(path) as file:
        if file.peek(2)[:2] == b"PK" and path != "-":
            made = Index.load(path)
            bad = next((name for name in made.names if not is_text(str(name))), None)
            if bad is not None:
                raise ValueError(f"{path}: a zone has half of a pair of surrogates in its name: {bad!r}")
            return made
        text = io.TextIOWrapper(file, "utf-8-sig")
        try:
            features = list(features_of(text.readline(), text))
        except (ValueError, RecursionError) as error:
            raise ValueError(f"{path}: {error}") from None
    names = list(range(len(features))) if name is None else [name_of(*it, name) for it in features]
    made = Index(counted([feature for _, feature in features]), names, int(max_cells), leave=wrong.skips)
    for zone, why in made.left:
        wrong(f"zone {made.names[zone]!r}: {why}")
    return made


def name_of(where, feature, name):
    properties = feature.get("properties") if isinstance(feature, dict) else None
    found = properties.get(name) if isinstance(properties, dict) else None
    if not isinstance(found, (str, int, float)):
        raise ValueError(f"{where} of the zones has no property {name!r} that is a text or a number")
    if not is_text(str(found)):
        raise ValueError(f"{where} of the zones has half of a pair of surrogates in its property {name!r}: {found!r}")
    return found


def make_index(zones, file, name, skip, max_cells):
    made = read_zones(zones, name, max_cells, Wrong(skip))
    made.save(file)
    print(f"{len(made)} zones")


def join(points, zones, name, longitude, latitude, separator, skip, max_cells, all, borders, coverings):
    wrong = Wrong(skip)
    if points == zones == "-":
        raise ValueError("points and zones can't both be standard input")
    made = read_zones(zones, name, max_cells, wrong)
    asked = {"exact": not coverings, "predicate": "intersects" if borders else "within"}
    ends = lines_of(["", name] for name in [*made.names, ""])  # of lines, by the zone; -1 has that of none
    with opened(points) as file:
        sys.stdout.reconfigure(errors="surrogateescape")
        columns, parts = read_points(file, Options(longitude, latitude, separator), wrong)
        if columns:
            print(*lines_of([[*columns, name or "zone"]]))
        done, pairs = 0, 0
        for part in parts:
            place, zone = zones_of(made, part, all, asked)
            sys.stdout.write("".join([f"{part.lines[k]}{ends[number]}\n"
                                      for k, number in zip(place.tolist(), zone.tolist())]))
            done, pairs = done + len(part.lines), pairs + int((zone >= 0).sum())
            if sys.stderr.isatty():
                print(f"\r{done} points", end="", file=sys.stderr, flush=True)
    if sys.stderr.isatty():
        print(f"\r\x1b[K{done} points, {pairs} pairs; left out: {wrong.count or 'none'}", file=sys.stderr)


def zones_of(made, part, all, asked):
    """The pairs of a part: places of rows, and numbers of zones; -1 for none, if all rows are wanted."""
    place, zone = made.join(part.x, part.y, **asked)
    if all:
        alone = numpy.setdiff1d(numpy.arange(len(part.lines)), place)
        order = numpy.argsort(numpy.concatenate([place, alone]), kind="stable")
        place = numpy.concatenate([place, alone])[order]
        zone = numpy.concatenate([zone, numpy.full(len(alone), -1)])[order]
    return place, zone


class Parser(argparse.ArgumentParser):
    """One that says what is wrong by an exception."""

    def error(self, message):
        raise ValueError(f"{message}\n\n{__doc__}")

    def format_help(self):
        return __doc__


def words_of(words):
    """The command of a line, and its arguments by name."""
    top = Parser(prog="s2union_geo")
    commands = top.add_subparsers(dest="command", required=True, metavar="COMMAND")
    commands.add_parser("leaves")
    one = commands.add_parser("cover")
    for name in ("file", "folder", "max_cells", "max_level"):
        one.add_argument(name)
    one.add_argument("--name", default="file")
    one = commands.add_parser("geojson")
    one.add_argument("files", nargs="+")
    one.add_argument("--dissolve", action="store_true")
    for command, named in (("join", ("points", "zones")), ("index", ("zones", "file"))):
        one = commands.add_parser(command)
        for name in named:
            one.add_argument(name)
        one.add_argument("--name")
        one.add_argument("--skip", action="store_true")
        one.add_argument("--max-cells", default="50")
        if command == "join":
            for name in ("longitude", "latitude", "separator"):
                one.add_argument(f"--{name}")
            for name in ("all", "borders", "coverings"):
                one.add_argument(f"--{name}", action="store_true")
    found = vars(top.parse_args(words))
    return COMMANDS[found.pop("command")], found


COMMANDS = {"leaves": show_leaves, "cover": cover, "geojson": show_geojson, "join": join, "index": make_index}


def main(words):
    try:
        command, named = words_of(words)
        command(**named)
        sys.stdout.flush()
    except BrokenPipeError:  # the reader of the pipe has ended
        os.dup2(os.open(os.devnull, os.O_WRONLY), sys.stdout.fileno())
        return 141  # as of a program that SIGPIPE ends
    except MemoryError:
        return "s2union_geo: there is no memory"
    except (OSError, ValueError, KeyError, TypeError, ImportError) as error:
        return f"s2union_geo: {error}"


if __name__ == "__main__":
    sys.exit(main(sys.argv[1:]))
