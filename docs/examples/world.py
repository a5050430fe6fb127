"""The world of two Debian packages as GeoJSON: world.py FOLDER

countries.geojson   177 countries of Natural Earth (python3-geopandas), 1 : 110,000,000
cities.txt          243 cities: longitude, latitude, name
land.geojson, lakes.geojson
                    the coastlines of GSHHG (gmt-gshhg-low, python3-netcdf4), in low resolution
A feature's property 'file' is its name as a file of s2calc can have it.
"""
import json
import re
import sys
import unicodedata
from pathlib import Path

import geopandas
import netCDF4
import numpy


def file_name(name):
    """The name in ASCII letters, digits, dots, dashes and underscores: Cote_d_Ivoire for Côte d'Ivoire. With .outer or
    .inner behind it, it is a name for s2calc, of at most 64 bytes."""
    plain = unicodedata.normalize("NFKD", name).encode("ascii", "ignore").decode()
    return re.sub(r"[^A-Za-z0-9.-]+", "_", plain)[:58]


def feature(name, geometry):
    return {"type": "Feature", "properties": {"name": name, "file": file_name(name)}, "geometry": geometry}


def coastlines(levels):
    """The lines of these levels: 1 land, 2 lakes, 5 Antarctica. The file has them in pieces, one square at a time."""
    data = netCDF4.Dataset("/usr/share/gmt-gshhg/binned_GSHHS_l.nc")
    data.set_auto_mask(False)
    values = {name: variable[:].astype("int64") for name, variable in data.variables.items()}
    side = values["Bin_size_in_minutes"][0] / 60  # of a square, in degrees
    across, down = (values[f"N_bins_in_{of}_range"][0] for of in ("360_longitude", "180_degree_latitude"))
    bins = numpy.repeat(numpy.arange(across * down), values["N_segments_in_a_bin"])
    kinds, firsts = values["Embedded_npts_levels_exit_entry_for_a_segment"], values["Id_of_first_point_in_a_segment"]
    east, north = (values[f"Relative_{of}_from_SW_corner_of_bin"] & 65535 for of in ("longitude", "latitude"))
    for place, kind, first in zip(bins, kinds, firsts):
        if kind >> 6 & 7 in levels:
            points = slice(first, first + (kind >> 9))
            x = (place % across * 65535 + east[points]) % (across * 65535) * (side / 65535)
            y = ((down - 1 - place // across) * 65535 + north[points]) * (side / 65535) - 90
            yield numpy.stack([numpy.where(x > 180, x - 360, x), y], axis=1).tolist()


def main(folder):
    folder.mkdir(parents=True, exist_ok=True)
    earth = geopandas.read_file(geopandas.datasets.get_path("naturalearth_lowres"))
    worlds = {"countries": [feature(row.name, row.geometry.__geo_interface__) for row in earth.itertuples(index=False)]}
    for name, levels in (("land", [1, 5]), ("lakes", [2])):
        lines = {"type": "MultiLineString", "coordinates": list(coastlines(levels))}
        worlds[name] = [feature(name, lines)]
    for name, features in worlds.items():
        collection = {"type": "FeatureCollection", "features": features}
        (folder / f"{name}.geojson").write_text(json.dumps(collection))
        print(f"{name}: {len(features)}")
    cities = geopandas.read_file(geopandas.datasets.get_path("naturalearth_cities"))
    lines = [f"{city.geometry.x} {city.geometry.y} {city.name}\n" for city in cities.itertuples(index=False)]
    (folder / "cities.txt").write_text("".join(lines))
    print(f"cities: {len(lines)}")


if __name__ == "__main__":
    main(Path(sys.argv[1]))
