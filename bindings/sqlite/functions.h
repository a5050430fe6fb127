/* made by tools/calls of bindings/sqlite/README.md */
static const char* const listed[][4] = {
  {"s2_union", "one, other",
   "the leaves of either", "s2union"},
  {"s2_intersection", "one, other",
   "the leaves of both", "s2union"},
  {"s2_difference", "one, other",
   "the leaves of the first that are not in the second", "s2union"},
  {"s2_symmetric_difference", "one, other",
   "the leaves of exactly one", "s2union"},
  {"s2_complement", "region",
   "the leaves of the sphere that a union doesn't have", "s2union"},
  {"s2_normalise", "region",
   "the region as a BLOB in its one form", "s2union"},
  {"s2_union_agg", "region",
   "the union of all rows; NULL without rows", "s2union"},
  {"s2_intersection_agg", "region",
   "the intersection of all rows; NULL without rows", "s2union"},
  {"s2_contains", "whole, part",
   "whether all of the second lies in the first", "s2union"},
  {"s2_within", "part, whole",
   "whether all of the first lies in the second", "s2union"},
  {"s2_intersects", "one, other",
   "whether they share a leaf", "s2union"},
  {"s2_is_union", "bytes",
   "whether bytes are the union file of a union. Never an error; 0 for any other value", "s2union"},
  {"s2_count", "region",
   "how many cells", "s2union"},
  {"s2_leaves", "region",
   "how many leaves", "s2union"},
  {"s2_tokens", "region",
   "the cells as tokens separated by blanks", "s2union"},
  {"s2_outer", "region, level",
   "the cells of a level that share a leaf with a union, as a union. Errors: a level outside 0 to 30, "
   "more than 1,000,000 cells", "s2union"},
  {"s2_outer", "face, i0, i1, j0, j1, level",
   "the cells of a level that share a leaf with a rectangle of leaves on a face, as a union. Errors: a "
   "level outside 0 to 30, a place outside the face, more than 1,000,000 cells", "s2union"},
  {"s2_outer", "region, face, i0, i1, j0, j1, level",
   "the cells of a level that share a leaf with what a union and a rectangle on a face share, as a "
   "union. Errors: a level outside 0 to 30, a place outside the face, more than 1,000,000 cells", "s2union"},
  {"s2_inner", "region, level",
   "the cells of a level that lie in a union, as a union. Errors: a level outside 0 to 30, more than "
   "1,000,000 cells", "s2union"},
  {"s2_inner", "face, i0, i1, j0, j1, level",
   "the cells of a level that lie in a rectangle of leaves on a face, as a union. Errors: a level "
   "outside 0 to 30, a place outside the face, more than 1,000,000 cells", "s2union"},
  {"s2_inner", "region, face, i0, i1, j0, j1, level",
   "the cells of a level that lie in what a union and a rectangle on a face share, as a union. Errors: a"
   " level outside 0 to 30, a place outside the face, more than 1,000,000 cells", "s2union"},
  {"s2_map_outer", "shape, level",
   "a union that contains polygons in WKB or GeoJSON, as they are written, whose edges are straight on "
   "the map: cells of a level, and larger ones for four of them. Proved; since 1.5. Errors: a fault of "
   "the bytes or of the text, a point or a line, a level outside 0 to 30, too many cells", "s2union"},
  {"s2_map_inner", "shape, level",
   "a union that lies in polygons in WKB or GeoJSON, as they are written. Proved; since 1.5. Errors: "
   "those of s2_map_outer", "s2union"},
  {"s2_map_outer", "shape, max_level, max_cells",
   "a union that contains polygons in WKB or GeoJSON, as they are written, by few cells: at most "
   "max_cells, or 6 if that is more, of which 10,000 are the most that count, none deeper than "
   "max_level. Proved; since 1.5. Errors: a fault of the bytes or of the text, a point or a line, a "
   "level outside 0 to 30, a number of cells outside 0 to 1,000,000", "s2union"},
  {"s2_map_inner", "shape, max_level, max_cells",
   "a union that lies in polygons in WKB or GeoJSON, as they are written, by at most max_cells cells, of"
   " which 10,000 are the most that count. Proved; since 1.5. Errors: those of s2_map_outer", "s2union"},
  {"s2_geodesic_outer", "shape, level",
   "a union that contains polygons in WKB or GeoJSON, whose edges are geodesics, the shortest ways on "
   "the sphere: cells of a level, and larger ones for four of them. Proved; since 1.5. Errors: those of "
   "s2_map_outer, an edge of 128 degrees or more, corners that are too far apart", "s2union"},
  {"s2_geodesic_inner", "shape, level",
   "a union that lies in polygons in WKB or GeoJSON, whose edges are geodesics. Proved; since 1.5. "
   "Errors: those of s2_geodesic_outer", "s2union"},
  {"s2_range", "first, last",
   "all leaves from the first of one cell to the last of another. Errors: a last leaf before the first, "
   "an invalid cell", "s2union"},
  {"s2_is_cell", "cell",
   "whether a value is a cell. Never an error; 0 for any other value", "s2union"},
  {"s2_cell", "cell",
   "a cell as a number. Error: an invalid cell", "s2union"},
  {"s2_token", "cell",
   "the token of a cell. Error: an invalid cell", "s2union"},
  {"s2_debug", "cell",
   "the debug text of a cell. Error: an invalid cell", "s2union"},
  {"s2_level", "cell",
   "the level of a cell: 0 (a face) to 30 (a leaf). Error: an invalid cell", "s2union"},
  {"s2_face", "cell",
   "the face of a cell: 0 to 5. Error: an invalid cell", "s2union"},
  {"s2_parent", "cell, level",
   "the cell of a level that contains a cell; NULL for a level deeper than the cell's own. Errors: a "
   "level outside 0 to 30, an invalid cell", "s2union"},
  {"s2_child", "cell, child",
   "a child of a cell: 0 to 3 along the curve; NULL for a leaf. Errors: another number, an invalid cell", "s2union"},
  {"s2_range_min", "cell",
   "the first leaf of a cell. Error: an invalid cell", "s2union"},
  {"s2_range_max", "cell",
   "the last leaf of a cell. Error: an invalid cell", "s2union"},
  {"s2_common_ancestor", "one, other",
   "the smallest cell that contains both; NULL for cells of two faces. Error: an invalid cell", "s2union"},
  {"s2_leaf", "face, i, j",
   "the leaf at a place of a face: face 0 to 5, i and j 0 to 1073741823. Error: another number", "s2union"},
  {"s2_leaf_at", "longitude, latitude",
   "the leaf at a place in degrees, as S2 has it. Errors: a longitude outside -540 to 540, a latitude "
   "outside -90 to 90", "s2union_geo"},
  {"s2_longitude", "cell",
   "the longitude of the middle of a cell, in degrees. Error: an invalid cell", "s2union_geo"},
  {"s2_latitude", "cell",
   "the latitude of the middle of a cell, in degrees. Error: an invalid cell", "s2union_geo"},
  {"s2_covering", "shape",
   "a union that contains polygons, lines and points in WKB, whose edges are straight on the map: at "
   "most 200 cells and of level 30, if no others are named. Errors: no WKB of degrees, a ring that is "
   "open, a number out of range", "s2union_geo"},
  {"s2_covering", "shape, max_cells",
   "a union that contains polygons, lines and points in WKB, whose edges are straight on the map: at "
   "most 200 cells and of level 30, if no others are named. Errors: no WKB of degrees, a ring that is "
   "open, a number out of range", "s2union_geo"},
  {"s2_covering", "shape, max_cells, max_level",
   "a union that contains polygons, lines and points in WKB, whose edges are straight on the map: at "
   "most 200 cells and of level 30, if no others are named. Errors: no WKB of degrees, a ring that is "
   "open, a number out of range", "s2union_geo"},
  {"s2_interior", "shape",
   "a union that lies in polygons in WKB. Errors: those of s2_covering", "s2union_geo"},
  {"s2_interior", "shape, max_cells",
   "a union that lies in polygons in WKB. Errors: those of s2_covering", "s2union_geo"},
  {"s2_interior", "shape, max_cells, max_level",
   "a union that lies in polygons in WKB. Errors: those of s2_covering", "s2union_geo"},
  {"s2_neighbors", "cell",
   "the cells of a level that touch a cell, at an edge or a corner, as a union: of its own level, if "
   "none is named; NULL for a level above its own. Errors: a level outside 0 to 30, an invalid cell, "
   "more than 1,000,000 cells", "s2union_geo"},
  {"s2_neighbors", "cell, level",
   "the cells of a level that touch a cell, at an edge or a corner, as a union: of its own level, if "
   "none is named; NULL for a level above its own. Errors: a level outside 0 to 30, an invalid cell, "
   "more than 1,000,000 cells", "s2union_geo"},
  {"s2_expanded", "region, level",
   "a union with the cells of a level that touch it, at an edge or a corner; cells that are deeper are "
   "replaced by those of the level that have them. Errors: a level outside 0 to 30, more than 4,000,000 "
   "cells around it and nine for each of its own", "s2union_geo"},
  {"s2_bounds", "region",
   "the west, south, east and north of a union in degrees; over the date line the east is less than the "
   "west. NULL without cells. A list of JSON: `s2_bounds(region) ->> 0` is the west", "s2union_geo"},
  {"s2_area", "region",
   "the area of a union in square kilometers, on a sphere with the earth's mean radius; since 1.5. The "
   "earth is flattened, so an area there differs by less than 1 percent", "s2union_geo"},
  {"s2_covers", "shape, longitude, latitude",
   "whether a shape in WKB has a place in degrees, on its border too. Errors: those of s2_covering and "
   "of s2_leaf_at", "s2union_geo"},
  {"s2_clip", "shape, tile",
   "a shape in WKB of fewer corners, for which s2_covers has the same answers in a tile. Errors: those "
   "of s2_covering, an invalid cell", "s2union_geo"},
  {"s2_version", "",
   "the version of the code that is loaded", "s2union"},
  {"s2_cells", "x",
   "rows of cell, range_min, range_max: the cells, with the first and the last leaf of each", "s2union"},
  {"s2_cells", "x, level",
   "rows of cell, range_min, range_max: the cells, cut so that each is of level level, level + modulus, "
   "level + 2 modulus, .. or 30. Errors: a level outside 0 to 30, a modulus outside 1 to 3", "s2union"},
  {"s2_cells", "x, level, modulus",
   "rows of cell, range_min, range_max: the cells, cut so that each is of level level, level + modulus, "
   "level + 2 modulus, .. or 30. Errors: a level outside 0 to 30, a modulus outside 1 to 3", "s2union"},
  {"s2_ancestors", "x",
   "rows of cell, range_min, range_max: the cells and all their ancestors, each once", "s2union"},
  {"s2_tiles", "x, level",
   "rows of tile, part: the cells of a level that share a leaf with a union, and what the union has in "
   "each. Errors: a level outside 0 to 30, too many cells", "s2union"},
  {"s2_join_tiles", "x, level",
   "rows of tile, part, sure, clip: the tiles of a level that a shape in WKB meets, for joins: what its "
   "covering and its interior have in each, and its clip if these differ. Errors: those of s2_covering "
   "and of s2_tiles", "s2union_geo"},
  {"s2_join_tiles", "x, level, max_cells",
   "rows of tile, part, sure, clip: the tiles of a level that a shape in WKB meets, for joins: what its "
   "covering and its interior have in each, and its clip if these differ. Errors: those of s2_covering "
   "and of s2_tiles", "s2union_geo"},
  {"s2_prepared", "x",
   "rows of value: one: the union, ready for many questions", "s2union"},
  {"s2_functions", "",
   "rows of name, arguments, result, extension: each function and table of this page, with the extension"
   " that has it", "s2union"},
};
