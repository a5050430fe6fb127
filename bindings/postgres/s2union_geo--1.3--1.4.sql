-- s2union_geo 1.4: what came after 1.3. CREATE EXTENSION runs it after s2union_geo--1.3.sql. docs/GEO.md and
-- README.md say what each function does, in the words of its comment.

\echo Use "ALTER EXTENSION s2union_geo UPDATE" to load this file. \quit

CREATE FUNCTION s2_box(cell bigint)
RETURNS box
AS 'MODULE_PATHNAME'
LANGUAGE C IMMUTABLE STRICT PARALLEL SAFE;
COMMENT ON FUNCTION s2_box(bigint)
  IS 'the longitudes and latitudes between which a cell lies, as a box, which may go on beyond 180 or -180 degrees. '
  'Error: an invalid cell';

CREATE FUNCTION s2_box(cell text)
RETURNS box
LANGUAGE SQL IMMUTABLE STRICT PARALLEL SAFE
RETURN s2_box(s2_cell($1));
COMMENT ON FUNCTION s2_box(text)
  IS 'the longitudes and latitudes between which a cell lies, as a box, which may go on beyond 180 or -180 degrees. '
  'Error: an invalid cell';

CREATE FUNCTION s2_covering(shape bytea, max_cells integer DEFAULT 200, max_level integer DEFAULT 30)
RETURNS s2union
AS 'MODULE_PATHNAME'
LANGUAGE C IMMUTABLE STRICT PARALLEL SAFE COST 10000;
COMMENT ON FUNCTION s2_covering(bytea, integer, integer)
  IS 'a union that contains polygons, lines and points in WKB, whose edges are straight on the map: at most 200 '
  'cells and of level 30, if no others are named. Errors: no WKB of degrees, a ring that is open, a number out of '
  'range';

CREATE FUNCTION s2_interior(shape bytea, max_cells integer DEFAULT 200, max_level integer DEFAULT 30)
RETURNS s2union
AS 'MODULE_PATHNAME'
LANGUAGE C IMMUTABLE STRICT PARALLEL SAFE COST 10000;
COMMENT ON FUNCTION s2_interior(bytea, integer, integer)
  IS 'a union that lies in polygons in WKB. Errors: those of s2_covering';

CREATE FUNCTION s2_coverings(shape bytea, max_cells integer DEFAULT 200, max_level integer DEFAULT 30,
  OUT covering s2union, OUT interior s2union)
AS 'MODULE_PATHNAME'
LANGUAGE C IMMUTABLE STRICT PARALLEL SAFE COST 10000;
COMMENT ON FUNCTION s2_coverings(bytea, integer, integer)
  IS 'the columns covering and interior: both unions at once. Errors: those of s2_covering';

CREATE FUNCTION s2_squares(region s2union)
RETURNS bytea
AS 'MODULE_PATHNAME'
LANGUAGE C IMMUTABLE STRICT PARALLEL SAFE COST 1000;
COMMENT ON FUNCTION s2_squares(s2union)
  IS 'the cells of a region as a MultiPolygon in WKB, in degrees; faces are cut';

CREATE FUNCTION s2_outline(region s2union)
RETURNS bytea
AS 'MODULE_PATHNAME'
LANGUAGE C IMMUTABLE STRICT PARALLEL SAFE COST 1000;
COMMENT ON FUNCTION s2_outline(s2union)
  IS 'a region as a MultiPolygon in WKB, in degrees, without the borders between its cells, cut at the date line';

CREATE FUNCTION s2_neighbors(cell bigint)
RETURNS s2union
AS 'MODULE_PATHNAME'
LANGUAGE C IMMUTABLE STRICT PARALLEL SAFE COST 10;
COMMENT ON FUNCTION s2_neighbors(bigint)
  IS 'the cells of a level that touch a cell, at an edge or a corner, as a union: of its own level, if none is '
  'named; NULL for a level above its own. Errors: a level outside 0 to 30, an invalid cell, more than 1,000,000 '
  'cells';

CREATE FUNCTION s2_neighbors(cell text)
RETURNS s2union
LANGUAGE SQL IMMUTABLE STRICT PARALLEL SAFE
RETURN s2_neighbors(s2_cell($1));
COMMENT ON FUNCTION s2_neighbors(text)
  IS 'the cells of a level that touch a cell, at an edge or a corner, as a union: of its own level, if none is '
  'named; NULL for a level above its own. Errors: a level outside 0 to 30, an invalid cell, more than 1,000,000 '
  'cells';

CREATE FUNCTION s2_neighbors(cell bigint, level integer)
RETURNS s2union
AS 'MODULE_PATHNAME'
LANGUAGE C IMMUTABLE STRICT PARALLEL SAFE COST 10;
COMMENT ON FUNCTION s2_neighbors(bigint, integer)
  IS 'the cells of a level that touch a cell, at an edge or a corner, as a union: of its own level, if none is '
  'named; NULL for a level above its own. Errors: a level outside 0 to 30, an invalid cell, more than 1,000,000 '
  'cells';

CREATE FUNCTION s2_neighbors(cell text, level integer)
RETURNS s2union
LANGUAGE SQL IMMUTABLE STRICT PARALLEL SAFE
RETURN s2_neighbors(s2_cell($1), $2);
COMMENT ON FUNCTION s2_neighbors(text, integer)
  IS 'the cells of a level that touch a cell, at an edge or a corner, as a union: of its own level, if none is '
  'named; NULL for a level above its own. Errors: a level outside 0 to 30, an invalid cell, more than 1,000,000 '
  'cells';

CREATE FUNCTION s2_expanded(region s2union, level integer)
RETURNS s2union
AS 'MODULE_PATHNAME'
LANGUAGE C IMMUTABLE STRICT PARALLEL SAFE COST 1000;
COMMENT ON FUNCTION s2_expanded(s2union, integer)
  IS 'a union with the cells of a level that touch it, at an edge or a corner; cells that are deeper are replaced by'
  ' those of the level that have them. Errors: a level outside 0 to 30, more than 4,000,000 cells around it and '
  'nine for each of its own';

CREATE FUNCTION s2_bounds(region s2union)
RETURNS float8[]
AS 'MODULE_PATHNAME'
LANGUAGE C IMMUTABLE STRICT PARALLEL SAFE COST 100;
COMMENT ON FUNCTION s2_bounds(s2union)
  IS 'the west, south, east and north of a union in degrees; over the date line the east is less than the west. NULL'
  ' without cells';

-- ---- exact joins of points with polygons, by tiles

CREATE FUNCTION s2_covers(shape bytea, longitude float8, latitude float8)
RETURNS boolean
AS 'MODULE_PATHNAME'
LANGUAGE C IMMUTABLE STRICT PARALLEL SAFE COST 100;
COMMENT ON FUNCTION s2_covers(bytea, float8, float8)
  IS 'whether a shape in WKB has a place in degrees, on its border too. Errors: those of s2_covering and of s2_leaf_at';

CREATE FUNCTION s2_clip(shape bytea, tile bigint)
RETURNS bytea
AS 'MODULE_PATHNAME'
LANGUAGE C IMMUTABLE STRICT PARALLEL SAFE COST 1000;
COMMENT ON FUNCTION s2_clip(bytea, bigint)
  IS 'a shape in WKB of fewer corners, for which s2_covers has the same answers in a tile. Errors: those of '
  's2_covering, an invalid cell';

CREATE FUNCTION s2_clip(shape bytea, tile text)
RETURNS bytea
LANGUAGE SQL IMMUTABLE STRICT PARALLEL SAFE
RETURN s2_clip($1, s2_cell($2));
COMMENT ON FUNCTION s2_clip(bytea, text)
  IS 'a shape in WKB of fewer corners, for which s2_covers has the same answers in a tile. Errors: those of '
  's2_covering, an invalid cell';

CREATE FUNCTION s2_join_tiles(shape bytea, level integer, max_cells integer DEFAULT 50, OUT tile bigint,
  OUT part s2union, OUT sure s2union, OUT clip bytea)
RETURNS SETOF record
LANGUAGE SQL IMMUTABLE STRICT PARALLEL SAFE ROWS 10
BEGIN ATOMIC
  SELECT t.tile, t.part, t.part & pair.interior, CASE WHEN NOT pair.interior @> t.part THEN s2_clip(shape, t.tile) END
  FROM s2_coverings(shape, max_cells) AS pair, s2_tiles(pair.covering, level) AS t;
END;
COMMENT ON FUNCTION s2_join_tiles(bytea, integer, integer)
  IS 'the tiles of a level that a shape in WKB meets, for joins: what its covering and its interior have in each, '
  'and its clip if these differ. Errors: those of s2_covering and of s2_tiles';

-- All that it makes is the caller's own, so a dump has it.
CREATE FUNCTION s2_join_table(zones regclass, shape name DEFAULT 'geom', level integer DEFAULT NULL,
  max_cells integer DEFAULT 50)
RETURNS regclass
LANGUAGE plpgsql
SET client_min_messages = warning
AS $$
DECLARE
  kind regtype := (SELECT atttypid FROM pg_attribute WHERE attrelid = zones AND attname = shape AND attnum > 0);
  is_wkb bool := kind = 'bytea'::regtype;
  own name := (SELECT nspname FROM pg_depend JOIN pg_extension AS e ON e.oid = refobjid -- whose tiles take the column
    JOIN pg_proc AS p ON p.oid = objid JOIN pg_namespace AS n ON n.oid = pronamespace
    WHERE deptype = 'e' AND refclassid = 'pg_extension'::regclass AND classid = 'pg_proc'::regclass
      AND extname IN ('s2union_geo', 's2union_postgis') AND proname = 's2_join_tiles' AND proargtypes[0] = kind);
  space name := (SELECT nspname FROM pg_class AS c JOIN pg_namespace AS n ON n.oid = relnamespace WHERE c.oid = zones);
  called name := (SELECT relname FROM pg_class WHERE oid = zones);
  tiles text := format('%I.%I', space, called || '_tiles');
  finder text := format('%I.%I', space, called || '_at');
  follower text := format('%I.%I', space, called || '_follow');
  remark text := format('made by s2_join_table of %I.%I', space, called);
  deep integer := level;
  wide numeric; -- how many leaves a zone is wide, on average
  asks text := 'CREATE FUNCTION %s(%s) RETURNS TABLE (%s) LANGUAGE SQL STABLE PARALLEL SAFE ROWS 1 BEGIN ATOMIC '
    'SELECT %s FROM %s AS t WHERE t.tile = s2_parent(s2_leaf_at(%s), %s) AND t.part @> s2_leaf_at(%6$s) '
    'AND (t.clip IS NULL OR t.sure @> s2_leaf_at(%6$s) OR s2_covers(t.clip, %6$s))%8$s; END';
  keys text; typed text; of_new text; of_old text; of_tiles text; of_zones text;
BEGIN
  IF kind IS NULL THEN
    RAISE 's2union: column "%" does not exist in table %', shape, zones USING ERRCODE = 'undefined_column';
  END IF;
  IF own IS NULL THEN
    RAISE 's2union: column "%" of table % is of type %', shape, zones, kind USING ERRCODE = 'datatype_mismatch',
      HINT = 'A shape is WKB of type bytea, or a geometry where the extension s2union_postgis is.';
  END IF;
  SELECT string_agg(format('%I', attname), ', ' ORDER BY place),
    string_agg(format('%I %s', attname, format_type(atttypid, atttypmod)), ', ' ORDER BY place),
    string_agg(format('NEW.%I', attname), ', ' ORDER BY place),
    string_agg(format('OLD.%I', attname), ', ' ORDER BY place),
    string_agg(format('t.%I', attname), ', ' ORDER BY place),
    string_agg(format('z.%I', attname), ', ' ORDER BY place)
    INTO keys, typed, of_new, of_old, of_tiles, of_zones
    FROM pg_index, unnest(indkey) WITH ORDINALITY AS k (number, place)
      JOIN pg_attribute ON attnum = number WHERE indrelid = zones AND indisprimary AND attrelid = zones;
  IF keys IS NULL THEN
    RAISE 's2union: table % has no primary key', zones USING ERRCODE = 'undefined_object';
  END IF;
  IF octet_length(called || '_follow') > 63 THEN
    RAISE 's2union: the name of table % is too long', zones USING ERRCODE = 'name_too_long';
  END IF;
  IF obj_description(to_regclass(tiles), 'pg_class') IS DISTINCT FROM remark AND to_regclass(tiles) IS NOT NULL THEN
    RAISE 's2union: table % is there, and not made by s2_join_table', tiles USING ERRCODE = 'duplicate_table';
  END IF;
  IF deep IS NULL THEN -- one of whose cells a zone is some three wide
    EXECUTE format('SELECT avg(sqrt(nullif(s2_leaves(%I.s2_covering(%I, 8)), 0))) FROM %s', own, shape, zones)
      INTO wide;
    deep := least(greatest(round(30 - log(2, coalesce(wide, 4194304) / 3)), 1), 20);
  END IF;
  EXECUTE format('DROP TRIGGER IF EXISTS s2_join_rows ON %s', zones);
  EXECUTE format('DROP TRIGGER IF EXISTS s2_join_values ON %s', zones);
  EXECUTE format('DROP TRIGGER IF EXISTS s2_join_all ON %s', zones);
  EXECUTE format('DROP FUNCTION IF EXISTS %s(float8, float8), %s()', finder, follower);
  IF NOT is_wkb THEN
    EXECUTE format('DROP FUNCTION IF EXISTS %s(geometry)', finder);
  END IF;
  EXECUTE format('DROP TABLE IF EXISTS %s', tiles);

  EXECUTE format('CREATE TABLE %s (%s, tile bigint NOT NULL, part s2union NOT NULL, sure s2union NOT NULL, '
    'clip bytea)', tiles, typed);
  EXECUTE format('COMMENT ON TABLE %s IS %L', tiles, remark);
  EXECUTE format('INSERT INTO %s SELECT %s, t.* FROM %s AS z, %I.s2_join_tiles(z.%I, %s, %s) AS t', tiles, of_zones,
    zones, own, shape, deep, max_cells);
  EXECUTE format('ALTER TABLE %s ADD PRIMARY KEY (tile, %s)', tiles, keys);
  EXECUTE format('CREATE INDEX ON %s (%s)', tiles, keys);
  EXECUTE format('ANALYZE %s', tiles);

  EXECUTE format(asks, finder, 'longitude float8, latitude float8', typed, of_tiles, tiles, 'longitude, latitude', deep,
    '');
  IF NOT is_wkb THEN
    EXECUTE format(asks, finder, 'place geometry', typed, of_tiles, tiles, 'ST_X(place), ST_Y(place)', deep,
      ' AND (ST_SRID(place) IN (0, 4326) OR s2_has_degrees(place))');
  END IF;

  EXECUTE format('CREATE FUNCTION %s() RETURNS trigger LANGUAGE plpgsql SECURITY DEFINER '
    'SET search_path = pg_catalog, pg_temp AS %L', follower, format(
    'BEGIN IF TG_OP = ''TRUNCATE'' THEN TRUNCATE %s; RETURN NULL; END IF; '
    'IF TG_OP <> ''INSERT'' THEN DELETE FROM %1$s AS t WHERE (%s) = (%s); END IF; '
    'IF TG_OP <> ''DELETE'' THEN INSERT INTO %1$s SELECT %4$s, t.* FROM %I.s2_join_tiles(NEW.%I, %s, %s) AS t; END IF; '
    'RETURN NULL; END', tiles, of_tiles, of_old, of_new, own, shape, deep, max_cells));
  EXECUTE format('CREATE TRIGGER s2_join_rows AFTER INSERT OR DELETE ON %s FOR EACH ROW EXECUTE FUNCTION %s()', zones,
    follower);
  -- by texts: what compares values may be in a schema that a restore doesn't look into
  EXECUTE format('CREATE TRIGGER s2_join_values AFTER UPDATE ON %s FOR EACH ROW '
    'WHEN (ROW(%s, OLD.%I)::text IS DISTINCT FROM ROW(%s, NEW.%3$I)::text) EXECUTE FUNCTION %5$s()',
    zones, of_old, shape, of_new, follower);
  EXECUTE format('CREATE TRIGGER s2_join_all AFTER TRUNCATE ON %s FOR EACH STATEMENT EXECUTE FUNCTION %s()', zones,
    follower);
  RETURN tiles::regclass;
END
$$;
COMMENT ON FUNCTION s2_join_table(regclass, name, integer, integer)
  IS 'for a table ZONES of shapes with a primary key makes the table ZONES_tiles and the function '
  'ZONES_at(longitude, latitude), which returns the keys of the zones that cover a place, exactly; for geometries '
  'ZONES_at(place) too. Triggers keep the tiles in step. Errors: no primary key, a table of this name that it didn''t '
  'make, another type, those of s2_covering';
