-- s2union_postgis 1.5.0. docs/GEO.md says what each function does, in the words of its comment. The Makefile makes of
-- it what leads there from 1.3, 1.4 and 1.4.1, so it replaces those functions, which keep the names of their arguments.

\echo Use "CREATE EXTENSION s2union_postgis" to load this file. \quit

-- Geometries without a system of coordinates have degrees.
CREATE OR REPLACE FUNCTION s2_degrees(shape geometry)
RETURNS geometry
LANGUAGE SQL IMMUTABLE PARALLEL SAFE
RETURN CASE WHEN ST_SRID(shape) IN (0, 4326) THEN ST_SetSRID(shape, 4326) ELSE ST_Transform(shape, 4326) END;
COMMENT ON FUNCTION s2_degrees(geometry) IS 'a geometry in degrees (SRID 4326)';

CREATE OR REPLACE FUNCTION s2_covering(polygons geometry, max_cells integer DEFAULT 200, max_level integer DEFAULT 30)
RETURNS s2union
LANGUAGE SQL IMMUTABLE STRICT PARALLEL SAFE
RETURN s2_covering(ST_AsBinary(s2_degrees(polygons)), max_cells, max_level);
COMMENT ON FUNCTION s2_covering(geometry, integer, integer)
  IS 'a union that contains the polygons, lines and points. Errors: an open ring, a number out of range';

CREATE OR REPLACE FUNCTION s2_interior(polygons geometry, max_cells integer DEFAULT 200, max_level integer DEFAULT 30)
RETURNS s2union
LANGUAGE SQL IMMUTABLE STRICT PARALLEL SAFE
RETURN s2_interior(ST_AsBinary(s2_degrees(polygons)), max_cells, max_level);
COMMENT ON FUNCTION s2_interior(geometry, integer, integer)
  IS 'a union that lies in the polygons. Errors: those of s2_covering';

CREATE OR REPLACE FUNCTION s2_coverings(shape geometry, max_cells integer DEFAULT 200, max_level integer DEFAULT 30,
  OUT covering s2union, OUT interior s2union)
LANGUAGE SQL IMMUTABLE STRICT PARALLEL SAFE
BEGIN ATOMIC
  SELECT pair.covering, pair.interior
  FROM s2_coverings(ST_AsBinary(s2_degrees(shape)), max_cells, max_level) AS pair;
END;
COMMENT ON FUNCTION s2_coverings(geometry, integer, integer)
  IS 'both unions at once: s2_covering and s2_interior. Errors: theirs';

-- A text, which PostgreSQL takes an untyped literal for where there are several functions of a name.
CREATE OR REPLACE FUNCTION s2_covering(shape text, max_cells integer DEFAULT 200, max_level integer DEFAULT 30)
RETURNS s2union
LANGUAGE SQL IMMUTABLE STRICT PARALLEL SAFE
RETURN s2_covering(shape::geometry, max_cells, max_level);
COMMENT ON FUNCTION s2_covering(text, integer, integer) IS 's2_covering of a geometry, which is written as a text';

CREATE OR REPLACE FUNCTION s2_interior(shape text, max_cells integer DEFAULT 200, max_level integer DEFAULT 30)
RETURNS s2union
LANGUAGE SQL IMMUTABLE STRICT PARALLEL SAFE
RETURN s2_interior(shape::geometry, max_cells, max_level);
COMMENT ON FUNCTION s2_interior(text, integer, integer) IS 's2_interior of a geometry, which is written as a text';

CREATE OR REPLACE FUNCTION s2_map_outer(shape geometry, level integer)
RETURNS s2union
LANGUAGE SQL IMMUTABLE STRICT PARALLEL SAFE
RETURN s2_map_outer(ST_AsBinary(s2_degrees(shape)), level);
COMMENT ON FUNCTION s2_map_outer(geometry, integer)
  IS 'a union that contains the polygons as they are written, proved from their WKB on. Errors: a point or a line, an '
  'open ring, a level out of range, too many cells';

CREATE OR REPLACE FUNCTION s2_map_inner(shape geometry, level integer)
RETURNS s2union
LANGUAGE SQL IMMUTABLE STRICT PARALLEL SAFE
RETURN s2_map_inner(ST_AsBinary(s2_degrees(shape)), level);
COMMENT ON FUNCTION s2_map_inner(geometry, integer)
  IS 'a union that lies in the polygons as they are written. Errors: those of s2_map_outer';

CREATE OR REPLACE FUNCTION s2_map_outer(shape geometry, max_level integer, max_cells integer)
RETURNS s2union
LANGUAGE SQL IMMUTABLE STRICT PARALLEL SAFE
RETURN s2_map_outer(ST_AsBinary(s2_degrees(shape)), max_level, max_cells);
COMMENT ON FUNCTION s2_map_outer(geometry, integer, integer)
  IS 'a union that contains the polygons as they are written, by few cells, proved from their WKB on. Errors: a point '
  'or a line, an open ring, a level or a number of cells out of range';

CREATE OR REPLACE FUNCTION s2_map_inner(shape geometry, max_level integer, max_cells integer)
RETURNS s2union
LANGUAGE SQL IMMUTABLE STRICT PARALLEL SAFE
RETURN s2_map_inner(ST_AsBinary(s2_degrees(shape)), max_level, max_cells);
COMMENT ON FUNCTION s2_map_inner(geometry, integer, integer)
  IS 'a union that lies in the polygons as they are written, by few cells. Errors: those of s2_map_outer';

CREATE OR REPLACE FUNCTION s2_geodesic_outer(shape geography, level integer)
RETURNS s2union
LANGUAGE SQL IMMUTABLE STRICT PARALLEL SAFE
RETURN s2_geodesic_outer(ST_AsBinary(s2_degrees(shape::geometry)), level);
COMMENT ON FUNCTION s2_geodesic_outer(geography, integer)
  IS 'a union that contains the polygons, proved from their WKB on, whose edges are geodesics. Errors: an edge of 128 '
  'degrees or more, corners that are too far apart, those of s2_map_outer';

CREATE OR REPLACE FUNCTION s2_geodesic_outer(shape geometry, level integer)
RETURNS s2union
LANGUAGE SQL IMMUTABLE STRICT PARALLEL SAFE
RETURN s2_geodesic_outer(ST_AsBinary(s2_degrees(shape)), level);
COMMENT ON FUNCTION s2_geodesic_outer(geometry, integer)
  IS 'a union that contains the polygons, proved from their WKB on, whose edges are geodesics. Errors: an edge of 128 '
  'degrees or more, corners that are too far apart, those of s2_map_outer';

CREATE OR REPLACE FUNCTION s2_geodesic_inner(shape geography, level integer)
RETURNS s2union
LANGUAGE SQL IMMUTABLE STRICT PARALLEL SAFE
RETURN s2_geodesic_inner(ST_AsBinary(s2_degrees(shape::geometry)), level);
COMMENT ON FUNCTION s2_geodesic_inner(geography, integer)
  IS 'a union that lies in the polygons, whose edges are geodesics. Errors: those of s2_geodesic_outer';

CREATE OR REPLACE FUNCTION s2_geodesic_inner(shape geometry, level integer)
RETURNS s2union
LANGUAGE SQL IMMUTABLE STRICT PARALLEL SAFE
RETURN s2_geodesic_inner(ST_AsBinary(s2_degrees(shape)), level);
COMMENT ON FUNCTION s2_geodesic_inner(geometry, integer)
  IS 'a union that lies in the polygons, whose edges are geodesics. Errors: those of s2_geodesic_outer';

CREATE OR REPLACE FUNCTION s2_geometry(region s2union)
RETURNS geometry
LANGUAGE SQL IMMUTABLE STRICT PARALLEL SAFE
RETURN ST_GeomFromWKB(s2_squares(region), 4326);
COMMENT ON FUNCTION s2_geometry(s2union)
  IS 'the cells of a region as a MultiPolygon in degrees (SRID 4326); faces are cut';

CREATE OR REPLACE FUNCTION s2_geometry(region s2union, outline boolean)
RETURNS geometry
LANGUAGE SQL IMMUTABLE STRICT PARALLEL SAFE
RETURN CASE WHEN outline THEN ST_GeomFromWKB(s2_outline(region), 4326) ELSE s2_geometry(region) END;
COMMENT ON FUNCTION s2_geometry(s2union, boolean)
  IS 'with true the outline of a region, without the borders between its cells, cut at the date line';

CREATE OR REPLACE FUNCTION s2_geojson(region s2union)
RETURNS text
LANGUAGE SQL IMMUTABLE STRICT PARALLEL SAFE
RETURN ST_AsGeoJSON(s2_geometry(region), 17, 0);
COMMENT ON FUNCTION s2_geojson(s2union) IS 'the cells of a region as a MultiPolygon of GeoJSON; faces are cut';

CREATE OR REPLACE FUNCTION s2_geojson(region s2union, outline boolean)
RETURNS text
LANGUAGE SQL IMMUTABLE STRICT PARALLEL SAFE
RETURN ST_AsGeoJSON(s2_geometry(region, outline), 17, 0);
COMMENT ON FUNCTION s2_geojson(s2union, boolean) IS 'with true the outline of a region as GeoJSON';

-- ---- exact joins of points with polygons, by tiles: s2_join_table of s2union_geo makes them

CREATE OR REPLACE FUNCTION s2_envelope(cell bigint)
RETURNS geometry
LANGUAGE SQL IMMUTABLE STRICT PARALLEL SAFE
BEGIN ATOMIC
  SELECT ST_MakeEnvelope((box[1])[0], (box[1])[1], (box[0])[0], (box[0])[1], 4326) FROM s2_box(cell) AS box;
END;
COMMENT ON FUNCTION s2_envelope(bigint) IS 'the rectangle of degrees in which a cell lies. Error: an invalid cell';

CREATE OR REPLACE FUNCTION s2_join_tiles(shape geometry, level integer, max_cells integer DEFAULT 50, OUT tile bigint,
  OUT part s2union, OUT sure s2union, OUT clip bytea)
RETURNS SETOF record
LANGUAGE SQL IMMUTABLE STRICT PARALLEL SAFE ROWS 10
BEGIN ATOMIC
  SELECT t.* FROM s2_join_tiles(ST_AsBinary(s2_degrees(shape)), level, max_cells) AS t;
END;
COMMENT ON FUNCTION s2_join_tiles(geometry, integer, integer)
  IS 'those of the shape as WKB in degrees. Errors: those of s2_covering and of s2_tiles';

CREATE OR REPLACE FUNCTION s2_has_degrees(srid integer)
RETURNS boolean
LANGUAGE plpgsql IMMUTABLE STRICT PARALLEL SAFE
SET search_path = pg_catalog, pg_temp
AS $$
BEGIN
  IF srid NOT IN (0, 4326) THEN
    RAISE 's2union: a place has degrees (SRID 4326), not SRID %', srid
      USING ERRCODE = 'invalid_parameter_value', HINT = 'ST_Transform(place, 4326) takes it there.';
  END IF;
  RETURN true;
END
$$;
COMMENT ON FUNCTION s2_has_degrees(integer) IS 'true. Error: an SRID that is neither 0 nor 4326';

CREATE OR REPLACE FUNCTION s2_has_degrees(place geometry)
RETURNS boolean
LANGUAGE SQL IMMUTABLE STRICT PARALLEL SAFE
RETURN s2_has_degrees(ST_SRID(place));
COMMENT ON FUNCTION s2_has_degrees(geometry) IS 'true. Error: an SRID that is neither 0 nor 4326';
