# gdal: DRIVER_NAME = "S2UNION"
# gdal: DRIVER_SUPPORTED_API_VERSION = [1]
# gdal: DRIVER_DCAP_VECTOR = "YES"
# gdal: DRIVER_DMD_LONGNAME = "Union of S2 cells, as S2CellUnion::Encode writes it"
"""Union files for GDAL 3.1 and later, and so for QGIS, ogr2ogr, geopandas and sf: a layer with a polygon for each cell.

GDAL finds this file if GDAL_PYTHON_DRIVER_PATH names its folder. A layer has the fields `token`, `cell`, with a sign,
and `level`, and the polygons of `to_geojson`. It can be read, not written. It is tested, not proved."""
from pathlib import Path

from gdal_python_driver import BaseDataset, BaseDriver, BaseLayer
from s2union import CellUnion, levels, to_signed, tokens
from s2union_geo.geojson import rings

HEADER = 9  # bytes of a file before its cells: a version and their number


class Layer(BaseLayer):
    def __init__(self, path):
        self.cells = list(CellUnion.from_bytes(path.read_bytes()).denormalised(1))  # two faces have a pole inside
        self.name = path.name
        self.fields = [{"name": "token", "type": "String"}, {"name": "cell", "type": "Integer64"},
                       {"name": "level", "type": "Integer"}]
        self.geometry_fields = [{"name": "", "type": "Polygon", "srs": "EPSG:4326"}]

    def feature_count(self, force):
        return len(self.cells)

    def __iter__(self):
        rows = zip(tokens(self.cells), self.cells, levels(self.cells), rings(self.cells))
        for place, (token, cell, level, ring) in enumerate(rows):
            text = ", ".join(f"{x!r} {y!r}" for x, y in ring)
            yield {"type": "OGRFeature", "id": place, "geometry_fields": {"": f"POLYGON (({text}))"},
                   "fields": {"token": token, "cell": to_signed(cell), "level": level}}


class Dataset(BaseDataset):
    def __init__(self, path):
        self.layers = [Layer(path)]


class Driver(BaseDriver):
    def identify(self, filename, first_bytes, open_flags, open_options={}):
        """Whether it begins as a union file does, and has the length that it says there, whatever its name."""
        count = int.from_bytes(first_bytes[1:HEADER], "little")
        path = Path(filename)
        return len(first_bytes) >= HEADER and first_bytes[0] == 1 and path.is_file() and \
            path.stat().st_size == HEADER + 8 * count

    def open(self, filename, first_bytes, open_flags, open_options={}):
        return Dataset(Path(filename)) if self.identify(filename, first_bytes, open_flags) else None
