-- s2union_geo 1.4.1: exact joins that give no right away and stay exact. CREATE EXTENSION runs it after
-- s2union_geo--1.3--1.4.sql. README.md says what each function does, in the words of its comment. The Makefile puts it
-- into the update from 1.4.1 too, for 1.5 has cured what stands here.

\echo Use "ALTER EXTENSION s2union_geo UPDATE" to load this file. \quit

-- A call here gives all arguments: a function of fewer in the schema, somebody's own, would be taken before a default.
-- It isn't STRICT, so that it becomes part of the query that calls it; what it calls is, so NULL has no tiles.
CREATE OR REPLACE FUNCTION s2_join_tiles(shape bytea, level integer, max_cells integer DEFAULT 50, OUT tile bigint,
  OUT part s2union, OUT sure s2union, OUT clip bytea)
RETURNS SETOF record
LANGUAGE SQL IMMUTABLE PARALLEL SAFE ROWS 10
BEGIN ATOMIC
  SELECT t.tile, t.part, t.part & pair.interior, CASE WHEN NOT pair.interior @> t.part THEN s2_clip(shape, t.tile) END
  FROM s2_coverings(shape, max_cells, 30) AS pair, s2_tiles(pair.covering, level) AS t;
END;

-- ---- what s2_join_table and s2_join_drop share

CREATE OR REPLACE FUNCTION s2union_join_locked(zones regclass, mode text)
RETURNS pg_class
LANGUAGE plpgsql STRICT
SET search_path = pg_catalog, pg_temp
AS $$
DECLARE
  it pg_class;
BEGIN
  EXECUTE format('LOCK TABLE ONLY %s IN %s MODE', zones, mode);
  SELECT * INTO it FROM pg_class WHERE oid = zones;
  IF NOT EXISTS (SELECT FROM pg_locks AS l WHERE l.pid = pg_backend_pid() AND l.relation = zones
      AND l.mode = replace(initcap($2), ' ', '') || 'Lock') THEN
    RAISE 's2union: table % has another name than a moment ago', zones USING ERRCODE = 'object_in_use';
  END IF;
  IF NOT pg_has_role(it.relowner, 'USAGE') THEN
    RAISE 's2union: must be owner of table %', zones USING ERRCODE = 'insufficient_privilege';
  END IF;
  RETURN it;
END
$$;
COMMENT ON FUNCTION s2union_join_locked(regclass, text)
  IS 'a table, which nobody changes until the transaction ends; for those who may act as its owner';

-- The comment tells what is made, if somebody who may have made it has set it. A function of 1.4.0 has none, but asks
-- the tiles or is the triggers'. The triggers know the name that the table had.
CREATE OR REPLACE FUNCTION s2union_join_made(zones regclass, OUT place integer, OUT object text)
RETURNS SETOF record
LANGUAGE SQL STABLE STRICT
SET search_path = pg_catalog, pg_temp
AS $$
  WITH name AS (
    SELECT c.oid, c.relowner, f.oid AS follower, f.proowner AS maker,
      coalesce(f.pronamespace, c.relnamespace) AS space,
      coalesce(left(f.proname, -length('_follow')), c.relname) AS called
    FROM pg_class AS c LEFT JOIN pg_trigger AS g ON g.tgrelid = c.oid AND g.tgname = 's2_join_rows'
      LEFT JOIN pg_proc AS f ON f.oid = g.tgfoid AND right(f.proname, length('_follow')) = '_follow'
    WHERE c.oid = zones
  ), maker AS (
    SELECT r.oid FROM pg_roles AS r, name WHERE r.oid IN (relowner, maker) OR rolsuper OR rolname = current_user
  ), tiles AS (
    SELECT t.oid FROM name JOIN pg_class AS t ON t.relname = called || '_tiles' AND t.relnamespace = space
    WHERE obj_description(t.oid, 'pg_class') LIKE 'made by s2\_join\_table of %'
      AND t.relowner IN (SELECT oid FROM maker)
  )
  SELECT 1, format('TRIGGER %I ON %s', g.tgname, zones) FROM name JOIN pg_trigger AS g ON g.tgrelid = name.oid
  WHERE g.tgfoid = follower AND g.tgname IN ('s2_join_rows', 's2_join_values', 's2_join_all')
  UNION ALL
  SELECT 2, format('FUNCTION %s', f.oid::regprocedure)
  FROM name JOIN pg_proc AS f ON f.pronamespace = space
    AND f.proname IN (called || '_at', called || '_follow', called || '_key', called || '_tiles')
  WHERE f.proowner IN (SELECT oid FROM maker) AND (f.oid = follower
    OR obj_description(f.oid, 'pg_proc') LIKE 'made by s2\_join\_table of %'
    OR EXISTS (SELECT FROM pg_depend AS d, tiles WHERE d.classid = 'pg_proc'::regclass AND d.objid = f.oid
      AND d.refclassid = 'pg_class'::regclass AND d.refobjid = tiles.oid))
  UNION ALL
  SELECT 3, format('TABLE %s', tiles.oid::regclass) FROM tiles
$$;
COMMENT ON FUNCTION s2union_join_made(regclass)
  IS 'what s2_join_table has made for a table, as the words after DROP, in the order in which it goes';

-- ---- the tiles of a table

-- All that it makes is the owner's of the zones, so a dump has it, and the triggers have no rights but his. The caller,
-- perhaps a superuser, runs no code of the owner: no value is cast, tiles with code of their own are refused, and
-- nothing is looked at before it is locked. A type may get another name at any time, so the columns' are compared last.
CREATE OR REPLACE FUNCTION s2_join_table(zones regclass, shape name DEFAULT 'geom', level integer DEFAULT NULL,
  max_cells integer DEFAULT 50)
RETURNS regclass
LANGUAGE plpgsql
SET search_path = pg_catalog, pg_temp
SET client_min_messages = warning
SET row_security = off
AS $$
DECLARE
  base text; geo text; own text; gis text; -- schemas: the extensions', that of the function that takes it, PostGIS's
  it pg_class; -- the zones
  kind regtype; -- of a shape
  wkb text; -- of a zone
  space text; table_name text; tiles text; finder text; follower text; key text; cutter text; remark text; role text;
  made text[]; -- by an earlier call
  keys text; typed text; columns text; of_zones text; of_tiles text; of_row text; old_row text; new_row text;
  same_tiles text; same_zone text; -- have the key of a row
  kinds oid[]; -- of the key
  is_there boolean; -- whether there are tiles
  is_own boolean; -- no key has a type of another role
  deep integer := level;
  wide numeric; -- how many leaves a zone is wide, on average
  other text;
  asks text := 'CREATE OR REPLACE FUNCTION %1$s(%2$s) RETURNS TABLE (%3$s) LANGUAGE SQL STABLE PARALLEL SAFE ROWS 1 '
    'BEGIN ATOMIC SELECT %4$s FROM %5$s AS t WHERE t.tile OPERATOR(pg_catalog.=) %7$s.s2_parent(%8$s.s2_leaf_at(%6$s), '
    '%9$s) AND t.part OPERATOR(%7$s.@>) %8$s.s2_leaf_at(%6$s) AND (t.clip IS NULL OR t.sure OPERATOR(%7$s.@>) '
    '%8$s.s2_leaf_at(%6$s) OR %8$s.s2_covers(t.clip, %6$s))%10$s AND %11$L::regclass IS NOT NULL; END';
BEGIN
  IF zones IS NULL OR shape IS NULL OR max_cells IS NULL THEN
    RAISE 's2union: an argument is NULL' USING ERRCODE = 'null_value_not_allowed';
  END IF;
  IF current_setting('transaction_isolation') NOT LIKE 'read %' THEN
    RAISE 's2union: a transaction of this isolation may not see all rows of table %', zones
      USING ERRCODE = 'active_sql_transaction', HINT = 'Call s2_join_table at the level READ COMMITTED.';
  END IF;

  -- what nobody changes until the transaction ends: names of schemas, which a superuser can lock, zones, and tiles
  IF (SELECT rolsuper FROM pg_roles WHERE rolname = current_user) THEN
    PERFORM FROM pg_namespace FOR SHARE;
  END IF;
  base := (SELECT extnamespace::regnamespace FROM pg_extension WHERE extname = 's2union');
  geo := (SELECT extnamespace::regnamespace FROM pg_extension WHERE extname = 's2union_geo');
  EXECUTE format('SELECT * FROM %s.s2union_join_locked($1, $2)', geo) INTO it USING zones, 'SHARE ROW EXCLUSIVE';
  space := it.relnamespace::regnamespace;
  tiles := format('%s.%I', space, it.relname || '_tiles');
  EXECUTE format('SELECT FROM %s.s2union_join_locked($1, $2)', geo) USING to_regclass(tiles), 'ACCESS EXCLUSIVE';
  is_there := to_regclass(tiles) IS NOT NULL;
  EXECUTE format('SELECT array_agg(object) FROM %s.s2union_join_made($1)', geo) INTO made USING zones;

  -- the zones; whoever made an extension may put functions into it, but a superuser owns what it has itself
  kind := (SELECT atttypid FROM pg_attribute WHERE attrelid = zones AND attname = shape AND attnum > 0);
  own := (SELECT n.oid::regnamespace FROM pg_depend JOIN pg_extension AS e ON e.oid = refobjid
    JOIN pg_proc AS p ON p.oid = objid JOIN pg_namespace AS n ON n.oid = pronamespace
    JOIN pg_roles AS r ON r.oid = proowner AND rolsuper
    WHERE deptype = 'e' AND refclassid = 'pg_extension'::regclass AND classid = 'pg_proc'::regclass
      AND extname IN ('s2union_geo', 's2union_postgis') AND proname = 's2_join_tiles' AND proargtypes[0] = kind);
  gis := (SELECT typnamespace::regnamespace FROM pg_type WHERE oid = kind);
  wkb := format(CASE kind WHEN 'bytea'::regtype THEN 'z.%3$I' ELSE '%s.ST_AsBinary(%s.s2_degrees(z.%3$I))' END,
    gis, own, shape);
  IF it.relkind = 'p' OR EXISTS (SELECT FROM pg_inherits WHERE inhparent = zones) THEN
    RAISE 's2union: table % has rows in other tables', zones USING ERRCODE = 'wrong_object_type',
      HINT = 'Call s2_join_table for each of its partitions, or of the tables that inherit from it.';
  END IF;
  IF it.relrowsecurity AND it.relforcerowsecurity THEN
    RAISE 's2union: table % hides rows from its owner', zones USING ERRCODE = 'wrong_object_type',
      HINT = 'ALTER TABLE .. NO FORCE ROW LEVEL SECURITY shows them.';
  END IF;
  IF kind IS NULL THEN
    RAISE 's2union: column "%" does not exist in table %', shape, zones USING ERRCODE = 'undefined_column';
  END IF;
  IF own IS NULL THEN
    RAISE 's2union: column "%" of table % is of type %', shape, zones, kind USING ERRCODE = 'datatype_mismatch',
      HINT = 'A shape is WKB of type bytea, or a geometry where the extension s2union_postgis is.';
  END IF;
  SELECT string_agg(format('%I', attname), ', ' ORDER BY place),
    string_agg(format('%I %s', attname, format_type(atttypid, atttypmod)), ', ' ORDER BY place),
    string_agg(format('z.%I', attname), ', ' ORDER BY place),
    string_agg(format('t.%I', attname), ', ' ORDER BY place),
    string_agg(format('(zone).%I', attname), ', ' ORDER BY place),
    string_agg(format('OLD.%I', attname), ', ' ORDER BY place),
    string_agg(format('NEW.%I', attname), ', ' ORDER BY place),
    string_agg(format('t.%I OPERATOR(%s.%s) k.%1$I', attname, oprnamespace::regnamespace, oprname), ' AND '),
    string_agg(format('z.%I OPERATOR(%s.%s) (zone).%1$I', attname, oprnamespace::regnamespace, oprname), ' AND '),
    bool_and(typowner = it.relowner OR rolsuper), array_agg(atttypid ORDER BY place)
    INTO keys, typed, of_zones, of_tiles, of_row, old_row, new_row, same_tiles, same_zone, is_own, kinds
    FROM pg_index, unnest(indkey::int2[], indclass::oid[]) WITH ORDINALITY AS k (number, class, place)
      JOIN pg_attribute ON attnum = number JOIN pg_type AS y ON y.oid = atttypid JOIN pg_roles AS r ON r.oid = typowner
      JOIN pg_opclass AS c ON c.oid = class JOIN pg_amop ON amopfamily = opcfamily AND amoplefttype = opcintype
        AND amoprighttype = opcintype AND amopstrategy = 3 JOIN pg_operator AS o ON o.oid = amopopr
    WHERE indrelid = zones AND indisprimary AND attrelid = zones
    HAVING count(*) = max(indnkeyatts) AND max(opcmethod) = 403; -- btree, whose third operator says what is equal
  IF keys IS NULL THEN
    RAISE 's2union: table % has no primary key', zones USING ERRCODE = 'undefined_object';
  END IF;
  IF NOT is_own THEN
    RAISE 's2union: the key of table % is of a type of another role', zones USING ERRCODE = 'insufficient_privilege',
      HINT = 'Its type may be built in, of an extension, or of the owner of the table.';
  END IF;
  EXECUTE format('SELECT count(*) FROM %s.s2_join_tiles($1, coalesce($2, 0), $3)', geo) -- are the numbers in range?
    INTO wide USING '\x010700000000000000'::bytea, level, max_cells;
  IF octet_length(it.relname || '_follow') > 63 THEN
    RAISE 's2union: the name of table % is too long', zones USING ERRCODE = 'name_too_long';
  END IF;

  -- what has the names already
  role := it.relowner::regrole;
  table_name := format('%s.%I', space, it.relname);
  remark := format('made by s2_join_table of %s', table_name);
  finder := format('%s.%I', space, it.relname || '_at');
  follower := format('%s.%I()', space, it.relname || '_follow');
  key := format('%s.%I', space, it.relname || '_key');
  cutter := format('%s.%I', space, it.relname || '_tiles');
  columns := format('%s, tile bigint, part %2$s.s2union, sure %2$s.s2union, clip bytea', typed, base);
  other := (SELECT format('table %s has a trigger that calls function %s', tgrelid::regclass, tgfoid::regprocedure)
    FROM pg_trigger JOIN pg_class AS c ON c.oid = tgrelid
    WHERE CASE tgrelid WHEN zones THEN tgname IN ('s2_join_rows', 's2_join_values', 's2_join_all')
        AND tgfoid IS DISTINCT FROM to_regprocedure(follower)
      ELSE tgfoid = to_regprocedure(follower) AND relowner = it.relowner END LIMIT 1);
  IF other IS NOT NULL THEN -- one of the two was renamed
    RAISE 's2union: %', other USING ERRCODE = 'duplicate_object',
      HINT = 'If it was made under another name of the table, s2_join_drop of this table takes it away.';
  END IF;
  FOREACH other IN ARRAY ARRAY[follower, format('%s(float8,float8)', finder), format('%s(%s)', key, table_name),
      format('%s(%s)', cutter, table_name)] || CASE kind WHEN 'bytea'::regtype THEN '{}'
      ELSE ARRAY[format('%s(%s)', finder, kind)] END LOOP
    IF to_regprocedure(other) IS NOT NULL AND format('FUNCTION %s', to_regprocedure(other)) <> ALL (made) IS NOT FALSE
    THEN
      RAISE 's2union: function % is there, and not made by s2_join_table', other USING ERRCODE = 'duplicate_function',
        HINT = 'Rename it, or drop it.';
    END IF;
  END LOOP;
  IF is_there AND format('TABLE %s', to_regclass(tiles)) <> ALL (made) IS NOT FALSE THEN
    RAISE 's2union: table % is there, and not made by s2_join_table', tiles USING ERRCODE = 'duplicate_table',
      HINT = 'Rename it, or drop it.';
  END IF;
  IF (SELECT string_agg(format('%I %s', attname, format_type(atttypid, atttypmod)), ', ' ORDER BY attnum)
      FROM pg_attribute WHERE attrelid = to_regclass(tiles) AND attnum > 0 AND NOT attisdropped) <> columns
    OR (SELECT relpersistence FROM pg_class WHERE oid = to_regclass(tiles)) <> it.relpersistence THEN
    RAISE 's2union: table % has not the key of table %, or is not logged as it', tiles, zones
      USING ERRCODE = 'object_not_in_prerequisite_state', HINT = format('s2_join_drop(%L) takes it away.', zones);
  END IF;
  IF EXISTS (SELECT FROM pg_class AS c WHERE oid = to_regclass(tiles) AND (relhasrules OR relrowsecurity
      OR relchecks > 0 OR EXISTS (SELECT FROM pg_trigger WHERE tgrelid = c.oid)
      OR EXISTS (SELECT FROM pg_attrdef WHERE adrelid = c.oid)
      OR EXISTS (SELECT FROM pg_index WHERE indrelid = c.oid AND (indexprs IS NOT NULL OR indpred IS NOT NULL)))) THEN
    RAISE 's2union: table % has triggers, rules, policies, checks or expressions that s2_join_table did not make', tiles
      USING ERRCODE = 'object_not_in_prerequisite_state', HINT = 'Drop them, and call s2_join_table again.';
  END IF;

  -- the tiles; ONLY, so that no table that inherits later brings keys twice
  IF deep IS NULL THEN -- one of whose cells a zone is some three wide
    EXECUTE format('SELECT avg(sqrt(nullif(%s.s2_leaves(%s.s2_covering(%I, 8, 30)), 0))) FROM ONLY %s', base, own,
      shape, table_name) INTO wide;
    deep := least(greatest(round(30 - log(2, coalesce(wide, 4194304) / 3)), 1), 20);
  END IF;
  IF NOT is_there THEN
    EXECUTE format('CREATE %s TABLE %s (%s)', CASE it.relpersistence WHEN 'u' THEN 'UNLOGGED' END, tiles, columns);
    EXECUTE format('ALTER TABLE %s ALTER tile SET NOT NULL, ALTER part SET NOT NULL, ALTER sure SET NOT NULL', tiles);
    EXECUTE format('ALTER TABLE %s ADD PRIMARY KEY (tile, %s)', tiles, keys);
    EXECUTE format('CREATE INDEX ON %s (%s)', tiles, keys);
  END IF;
  EXECUTE format('ALTER TABLE %s OWNER TO %s', tiles, role);
  EXECUTE format('COMMENT ON TABLE %s IS %L', tiles, remark);
  IF kinds <> (SELECT (array_agg(atttypid ORDER BY attnum))[:cardinality(kinds)] FROM pg_attribute
      WHERE attrelid = to_regclass(tiles) AND attnum > 0 AND NOT attisdropped) THEN
    RAISE 's2union: the key of table % has another type than a moment ago', zones USING ERRCODE = 'object_in_use';
  END IF;
  EXECUTE format('TRUNCATE %s', tiles);
  EXECUTE format('INSERT INTO %s SELECT %s, t.* FROM ONLY %s AS z, %s.s2_join_tiles(%s, %s, %s) AS t', tiles,
    of_zones, table_name, geo, wkb, deep, max_cells);
  EXECUTE format('ANALYZE %s', tiles);

  -- The functions hold on to columns, tables and operators by number, which no change of a name loses. The condition
  -- that is always true has DROP TABLE of the zones ask for CASCADE.
  EXECUTE format(asks, finder, 'longitude float8, latitude float8', typed, of_tiles, tiles, '$1, $2', base, geo, deep,
    '', table_name);
  IF kind <> 'bytea'::regtype THEN
    EXECUTE format(asks, finder, format('place %s', kind), typed, of_tiles, tiles,
      format('%s.ST_X($1), %1$s.ST_Y($1)', gis), base, geo, deep,
      format(' AND (%s.ST_SRID($1) IN (0, 4326) OR %s.s2_has_degrees($1))', gis, own), table_name);
  END IF;
  EXECUTE format('CREATE OR REPLACE FUNCTION %s(zone %s) RETURNS TABLE (%s, %I %s) LANGUAGE SQL STABLE PARALLEL SAFE '
    'ROWS 1 BEGIN ATOMIC SELECT %s, (zone).%4$I; END', key, table_name, typed, shape, kind, of_row);
  EXECUTE format('CREATE OR REPLACE FUNCTION %s(zone %s) RETURNS TABLE (%s) LANGUAGE SQL STABLE PARALLEL SAFE ROWS 10 '
    'BEGIN ATOMIC SELECT %s, t.* FROM ONLY %s AS z, %s.s2_join_tiles(%s, %s, %s) AS t WHERE %s; END', cutter,
    table_name, columns, of_zones, table_name, geo, wkb, deep, max_cells, same_zone);

  -- What changes the tiles has the rights of the zones' owner, whoever changes a zone. So it is called by nobody, and
  -- looks whether the table and the tiles are still those for which it was made, and his; and, for a transaction of
  -- an older snapshot, whether it sees the tiles. It takes what the zones have now, for another trigger may have
  -- changed a row again before.
  EXECUTE format('CREATE OR REPLACE FUNCTION %s RETURNS trigger LANGUAGE plpgsql SECURITY DEFINER '
    'SET search_path = pg_catalog, pg_temp SET row_security = off AS %L', follower, format($follow$
#variable_conflict use_variable
BEGIN
  IF NOT EXISTS (SELECT FROM pg_class AS z JOIN pg_class AS t ON t.relowner = z.relowner
      JOIN pg_proc AS k ON k.proowner = z.relowner AND k.pronamespace = t.relnamespace
    WHERE z.oid = TG_RELID AND pg_get_userbyid(z.relowner) = current_user
      AND NOT (z.relhassubclass AND EXISTS (SELECT FROM pg_inherits WHERE inhparent = z.oid))
      AND t.oid = to_regclass(%1$L) AND t.relfilenode = pg_relation_filenode(t.oid)
      AND t.relpersistence = z.relpersistence AND k.proname = %2$L AND k.proargtypes[0] = z.reltype) THEN
    RAISE 's2union: table %% and its tiles %% no longer fit', TG_RELID::regclass, %1$L
      USING ERRCODE = 'object_not_in_prerequisite_state', DETAIL = 'One of them, or its schema, has another name or '
      'owner, or is stored otherwise; or a table inherits; or the tiles were made anew since this transaction began.',
      HINT = format('Call s2_join_table(%%L) again, or s2_join_drop(%%1$L), which takes the tiles away.',
        TG_RELID::regclass);
  END IF;
  IF TG_OP = 'TRUNCATE' THEN
    TRUNCATE %1$s;
    RETURN NULL;
  END IF;
  IF TG_OP <> 'INSERT' THEN
    DELETE FROM %1$s AS t USING %3$s(OLD) AS k WHERE %5$s;
  END IF;
  IF TG_OP <> 'DELETE' THEN
    DELETE FROM %1$s AS t USING %3$s(NEW) AS k WHERE %5$s;
    INSERT INTO %1$s SELECT * FROM %4$s(NEW);
  END IF;
  IF TG_OP <> 'INSERT' THEN -- another row may have the key now
    INSERT INTO %1$s SELECT n.* FROM %4$s(OLD) AS n
    WHERE NOT EXISTS (SELECT FROM %1$s AS t, %3$s(OLD) AS k WHERE %5$s);
  END IF;
  RETURN NULL;
END
$follow$, tiles, it.relname || '_key', key, cutter, same_tiles));
  FOR other IN SELECT f.oid::regprocedure FROM pg_proc AS f WHERE f.pronamespace = it.relnamespace
      AND f.oid IN (to_regprocedure(follower), to_regprocedure(format('%s(float8,float8)', finder)),
        to_regprocedure(format('%s(%s)', finder, kind)), to_regprocedure(format('%s(%s)', key, table_name)),
        to_regprocedure(format('%s(%s)', cutter, table_name))) LOOP
    EXECUTE format('ALTER FUNCTION %s OWNER TO %s', other, role);
    EXECUTE format('COMMENT ON FUNCTION %s IS %L', other, remark);
  END LOOP;
  EXECUTE format('REVOKE ALL ON FUNCTION %s FROM PUBLIC', follower);

  -- Values are compared as they are stored: texts may be rounded, and what compares values may be in a schema that a
  -- restore doesn't look into.
  EXECUTE format('CREATE OR REPLACE TRIGGER s2_join_rows AFTER INSERT OR DELETE ON %s FOR EACH ROW '
    'EXECUTE FUNCTION %s', table_name, follower);
  EXECUTE format('CREATE OR REPLACE TRIGGER s2_join_values AFTER UPDATE ON %s FOR EACH ROW '
    'WHEN (NOT pg_catalog.record_image_eq(ROW(%s, OLD.%I), ROW(%s, NEW.%3$I))) EXECUTE FUNCTION %5$s',
    table_name, old_row, shape, new_row, follower);
  EXECUTE format('CREATE OR REPLACE TRIGGER s2_join_all AFTER TRUNCATE ON %s FOR EACH STATEMENT '
    'EXECUTE FUNCTION %s', table_name, follower);
  EXECUTE format('ALTER TABLE %s ENABLE ALWAYS TRIGGER s2_join_rows, ENABLE ALWAYS TRIGGER s2_join_values, '
    'ENABLE ALWAYS TRIGGER s2_join_all', table_name); -- in a subscriber too
  RETURN tiles::regclass;
END
$$;
COMMENT ON FUNCTION s2_join_table(regclass, name, integer, integer)
  IS 'for a table ZONES of shapes with a primary key makes the table ZONES_tiles and the function '
  'ZONES_at(longitude, latitude), which returns the keys of the zones that cover a place, exactly; for geometries '
  'ZONES_at(place) too. Triggers keep the tiles in step. Errors: no primary key, partitions or heirs, a table or '
  'function of such a name that it didn''t make, another type, a number out of range, those of s2_covering';

CREATE OR REPLACE FUNCTION s2_join_drop(zones regclass)
RETURNS void
LANGUAGE plpgsql STRICT
SET search_path = pg_catalog, pg_temp
SET client_min_messages = warning
AS $$
DECLARE
  geo text := (SELECT extnamespace::regnamespace FROM pg_extension WHERE extname = 's2union_geo');
  made text[];
  object text;
BEGIN
  EXECUTE format('SELECT FROM %s.s2union_join_locked($1, $2)', geo) USING zones, 'ACCESS EXCLUSIVE';
  EXECUTE format('SELECT array_agg(object ORDER BY place) FROM %s.s2union_join_made($1)', geo) INTO made USING zones;
  IF made IS NULL THEN
    RAISE 's2union: table % has no tiles', zones USING ERRCODE = 'undefined_object';
  END IF;
  FOREACH object IN ARRAY made LOOP
    EXECUTE 'DROP ' || object;
  END LOOP;
END
$$;
COMMENT ON FUNCTION s2_join_drop(regclass)
  IS 'takes away what s2_join_table made for a table: the table of tiles, the functions and the triggers. Errors: '
  'nothing was made; a view needs it';

-- Whoever may connect could have the triggers' functions of 1.4.0 called with rows of his own, and so as their owner. A
-- new call of s2_join_table replaces them. No function or operator here is looked up in a schema of the caller's path.
SET LOCAL search_path = pg_catalog, pg_temp;
DO $$
DECLARE
  follower regprocedure;
BEGIN
  FOR follower IN SELECT oid FROM pg_proc WHERE right(proname, 7) = '_follow' AND prosecdef
      AND prorettype = 'trigger'::regtype AND starts_with(prosrc, 'BEGIN IF TG_OP = ''TRUNCATE'' THEN TRUNCATE ')
      AND prosrc LIKE '%.s2\_join\_tiles(NEW.%' LOOP
    EXECUTE format('REVOKE ALL ON FUNCTION %s FROM PUBLIC', follower);
  END LOOP;
END
$$;
