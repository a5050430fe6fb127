-- Whether an installed extension answers: make installcheck. bindings/postgres/tests has all that it is tested for.
CREATE EXTENSION s2union;
SELECT extversion FROM pg_extension WHERE extname = 's2union';

-- the type, its casts, and what it refuses
SELECT '0/0, 0c 14 1c'::s2union, s2_cell('1c')::s2union, ARRAY['04', '0c']::s2union, '{1,3}'::bigint[]::s2union;
SELECT '04 1c'::s2union::bytea, ('04 1c'::s2union::bytea)::s2union, '04 1c'::s2union::bigint[];
SELECT 'park'::s2union;
SELECT '\x01'::bytea::s2union;
SELECT 2::bigint::s2union;

-- sets and questions
SELECT '04 0c'::s2union | '14', '1'::s2union & '0401', '1'::s2union - '0c', '04 0c'::s2union # '0c 14';
SELECT '04 0c'::s2union @> '0401', '1'::s2union <@ '04', '1'::s2union && '3', '04'::s2union @> s2_cell('0401');
SELECT s2_contains('04', '0401'), s2_within(s2_cell('0401'), '04'), s2_intersects('04', s2_cell('1c'));
SELECT s2_count('04 0c'), s2_leaves('04'), s2_is_empty(''), s2_tokens('0/0 1c');

-- cells, by numbers and by texts
SELECT s2_level('04'), s2_level(s2_cell('04')), s2_debug('04'), s2_face('b'), s2_token(s2_parent('0401', 1));
SELECT s2_level('-5');
SELECT s2_token(cell) FROM unnest('04 1c'::s2union) AS cell;
SELECT s2_outer(0, 0, 536870912, 0, 0, 1), s2_inner('04 0c14', 1), s2_range('04', '14');
SELECT s2_leaf(0, 0, -1);

-- aggregates, and an index of each kind
CREATE TABLE regions AS SELECT k, s2_outer(0, k * 1000, k * 1000 + 900, 0, 900, 22) AS region
    FROM generate_series(0, 999) AS k;
SELECT s2_count(s2_union_agg(region)), s2_intersection_agg(region) FROM regions WHERE k < 3;
CREATE INDEX regions_gin ON regions USING gin (region);
CREATE INDEX regions_hash ON regions USING hash (region);
CREATE INDEX regions_btree ON regions (region);
ANALYZE regions;
SET enable_seqscan = off;
EXPLAIN (COSTS off) SELECT k FROM regions WHERE region && s2_parent(s2_leaf(0, 5500, 500), 20);
SELECT k FROM regions WHERE region && s2_parent(s2_leaf(0, 5500, 500), 20) ORDER BY k;
SELECT k FROM regions WHERE region @> s2_leaf(0, 7300, 100);
SELECT x.k FROM regions x JOIN regions y ON x.region = y.region WHERE y.k = 77;
CREATE TABLE districts (region s2union, EXCLUDE USING gist (region WITH &&));
INSERT INTO districts VALUES ('04 0c'), ('1c');
INSERT INTO districts VALUES ('0401 14');

DROP TABLE regions, districts;
DROP EXTENSION s2union;
