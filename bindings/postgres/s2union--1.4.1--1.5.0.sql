-- s2union 1.5.0: coverings of polygons as they are written.

\echo Use "ALTER EXTENSION s2union UPDATE" to load this file. \quit

CREATE FUNCTION s2_map_outer(shape bytea, level integer)
RETURNS s2union
AS 'MODULE_PATHNAME', 's2union_map_outer_of_wkb'
LANGUAGE C IMMUTABLE STRICT PARALLEL SAFE COST 10000;
COMMENT ON FUNCTION s2_map_outer(bytea, integer)
  IS 'a union that contains polygons in WKB or GeoJSON, as they are written, whose edges are straight on the map: '
  'cells of a level, and larger ones for four of them. Proved; since 1.5. Errors: a fault of the bytes or of the '
  'text, a point or a line, a level outside 0 to 30, too many cells';

CREATE FUNCTION s2_map_outer(shape text, level integer)
RETURNS s2union
AS 'MODULE_PATHNAME', 's2union_map_outer_of_geojson'
LANGUAGE C IMMUTABLE STRICT PARALLEL SAFE COST 10000;
COMMENT ON FUNCTION s2_map_outer(text, integer)
  IS 'a union that contains polygons in WKB or GeoJSON, as they are written, whose edges are straight on the map: '
  'cells of a level, and larger ones for four of them. Proved; since 1.5. Errors: a fault of the bytes or of the '
  'text, a point or a line, a level outside 0 to 30, too many cells';

CREATE FUNCTION s2_map_inner(shape bytea, level integer)
RETURNS s2union
AS 'MODULE_PATHNAME', 's2union_map_inner_of_wkb'
LANGUAGE C IMMUTABLE STRICT PARALLEL SAFE COST 10000;
COMMENT ON FUNCTION s2_map_inner(bytea, integer)
  IS 'a union that lies in polygons in WKB or GeoJSON, as they are written. Proved; since 1.5. Errors: those of '
  's2_map_outer';

CREATE FUNCTION s2_map_inner(shape text, level integer)
RETURNS s2union
AS 'MODULE_PATHNAME', 's2union_map_inner_of_geojson'
LANGUAGE C IMMUTABLE STRICT PARALLEL SAFE COST 10000;
COMMENT ON FUNCTION s2_map_inner(text, integer)
  IS 'a union that lies in polygons in WKB or GeoJSON, as they are written. Proved; since 1.5. Errors: those of '
  's2_map_outer';

CREATE FUNCTION s2_map_outer(shape bytea, max_level integer, max_cells integer)
RETURNS s2union
AS 'MODULE_PATHNAME', 's2union_map_outer_of_wkb'
LANGUAGE C IMMUTABLE STRICT PARALLEL SAFE COST 10000;
COMMENT ON FUNCTION s2_map_outer(bytea, integer, integer)
  IS 'a union that contains polygons in WKB or GeoJSON, as they are written, by few cells: at most max_cells, or 6 if '
  'that is more, of which 10,000 are the most that count, none deeper than max_level. Proved; since 1.5. Errors: a '
  'fault of the bytes or of the text, a point or a line, a level outside 0 to 30, a number of cells outside 0 to '
  '1,000,000';

CREATE FUNCTION s2_map_outer(shape text, max_level integer, max_cells integer)
RETURNS s2union
AS 'MODULE_PATHNAME', 's2union_map_outer_of_geojson'
LANGUAGE C IMMUTABLE STRICT PARALLEL SAFE COST 10000;
COMMENT ON FUNCTION s2_map_outer(text, integer, integer)
  IS 'a union that contains polygons in WKB or GeoJSON, as they are written, by few cells: at most max_cells, or 6 if '
  'that is more, of which 10,000 are the most that count, none deeper than max_level. Proved; since 1.5. Errors: a '
  'fault of the bytes or of the text, a point or a line, a level outside 0 to 30, a number of cells outside 0 to '
  '1,000,000';

CREATE FUNCTION s2_map_inner(shape bytea, max_level integer, max_cells integer)
RETURNS s2union
AS 'MODULE_PATHNAME', 's2union_map_inner_of_wkb'
LANGUAGE C IMMUTABLE STRICT PARALLEL SAFE COST 10000;
COMMENT ON FUNCTION s2_map_inner(bytea, integer, integer)
  IS 'a union that lies in polygons in WKB or GeoJSON, as they are written, by at most max_cells cells, of which '
  '10,000 are the most that count. Proved; since 1.5. Errors: those of s2_map_outer';

CREATE FUNCTION s2_map_inner(shape text, max_level integer, max_cells integer)
RETURNS s2union
AS 'MODULE_PATHNAME', 's2union_map_inner_of_geojson'
LANGUAGE C IMMUTABLE STRICT PARALLEL SAFE COST 10000;
COMMENT ON FUNCTION s2_map_inner(text, integer, integer)
  IS 'a union that lies in polygons in WKB or GeoJSON, as they are written, by at most max_cells cells, of which '
  '10,000 are the most that count. Proved; since 1.5. Errors: those of s2_map_outer';

CREATE FUNCTION s2_geodesic_outer(shape bytea, level integer)
RETURNS s2union
AS 'MODULE_PATHNAME', 's2union_geodesic_outer_of_wkb'
LANGUAGE C IMMUTABLE STRICT PARALLEL SAFE COST 10000;
COMMENT ON FUNCTION s2_geodesic_outer(bytea, integer)
  IS 'a union that contains polygons in WKB or GeoJSON, whose edges are geodesics, the shortest ways on the sphere: '
  'cells of a level, and larger ones for four of them. Proved; since 1.5. Errors: those of s2_map_outer, an edge of'
  ' 128 degrees or more, corners that are too far apart';

CREATE FUNCTION s2_geodesic_outer(shape text, level integer)
RETURNS s2union
AS 'MODULE_PATHNAME', 's2union_geodesic_outer_of_geojson'
LANGUAGE C IMMUTABLE STRICT PARALLEL SAFE COST 10000;
COMMENT ON FUNCTION s2_geodesic_outer(text, integer)
  IS 'a union that contains polygons in WKB or GeoJSON, whose edges are geodesics, the shortest ways on the sphere: '
  'cells of a level, and larger ones for four of them. Proved; since 1.5. Errors: those of s2_map_outer, an edge of'
  ' 128 degrees or more, corners that are too far apart';

CREATE FUNCTION s2_geodesic_inner(shape bytea, level integer)
RETURNS s2union
AS 'MODULE_PATHNAME', 's2union_geodesic_inner_of_wkb'
LANGUAGE C IMMUTABLE STRICT PARALLEL SAFE COST 10000;
COMMENT ON FUNCTION s2_geodesic_inner(bytea, integer)
  IS 'a union that lies in polygons in WKB or GeoJSON, whose edges are geodesics. Proved; since 1.5. Errors: those of '
  's2_geodesic_outer';

CREATE FUNCTION s2_geodesic_inner(shape text, level integer)
RETURNS s2union
AS 'MODULE_PATHNAME', 's2union_geodesic_inner_of_geojson'
LANGUAGE C IMMUTABLE STRICT PARALLEL SAFE COST 10000;
COMMENT ON FUNCTION s2_geodesic_inner(text, integer)
  IS 'a union that lies in polygons in WKB or GeoJSON, whose edges are geodesics. Proved; since 1.5. Errors: those of '
  's2_geodesic_outer';
