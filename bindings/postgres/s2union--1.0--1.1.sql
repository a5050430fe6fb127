-- s2union 1.1: what came after 1.0. A text names a cell in each function that takes one. What is here is in
-- s2union--1.5.0.sql too, which has everything.

\echo Use "ALTER EXTENSION s2union UPDATE" to load this file. \quit

-- Casts

CREATE FUNCTION s2union(text)
RETURNS s2union
AS 'MODULE_PATHNAME', 's2union_from_text'
LANGUAGE C IMMUTABLE STRICT PARALLEL SAFE;
COMMENT ON FUNCTION s2union(text) IS 'the union of the cells that a text names';

CREATE FUNCTION s2union(text[])
RETURNS s2union
AS 'MODULE_PATHNAME', 's2union_from_texts'
LANGUAGE C IMMUTABLE STRICT PARALLEL SAFE;
COMMENT ON FUNCTION s2union(text[]) IS 'the union of the cells that texts name, one each';

CREATE CAST (text AS s2union) WITH FUNCTION s2union(text);
CREATE CAST (text[] AS s2union) WITH FUNCTION s2union(text[]);

-- Cells: a bigint, or a text that is a token or a debug text

CREATE FUNCTION s2_is_cell(cell bigint)
RETURNS boolean
AS 'MODULE_PATHNAME'
LANGUAGE C IMMUTABLE STRICT PARALLEL SAFE;
COMMENT ON FUNCTION s2_is_cell(bigint) IS 'whether a value is a cell. Never an error';

CREATE FUNCTION s2_is_cell(cell text)
RETURNS boolean
AS 'MODULE_PATHNAME', 's2_is_cell_of_text'
LANGUAGE C IMMUTABLE STRICT PARALLEL SAFE;
COMMENT ON FUNCTION s2_is_cell(text) IS 'whether a value is a cell. Never an error';

CREATE FUNCTION s2_cell(cell bigint)
RETURNS bigint
AS 'MODULE_PATHNAME', 's2_cell_of_number'
LANGUAGE C IMMUTABLE STRICT PARALLEL SAFE;
COMMENT ON FUNCTION s2_cell(bigint) IS 'a cell as a number. Error: an invalid cell';

CREATE FUNCTION s2_token(cell text)
RETURNS text
LANGUAGE sql IMMUTABLE STRICT PARALLEL SAFE
RETURN s2_token(s2_cell($1));
COMMENT ON FUNCTION s2_token(text) IS 'the token of a cell. Error: an invalid cell';

CREATE FUNCTION s2_debug(cell text)
RETURNS text
LANGUAGE sql IMMUTABLE STRICT PARALLEL SAFE
RETURN s2_debug(s2_cell($1));
COMMENT ON FUNCTION s2_debug(text) IS 'the debug text of a cell. Error: an invalid cell';

CREATE FUNCTION s2_level(cell text)
RETURNS integer
LANGUAGE sql IMMUTABLE STRICT PARALLEL SAFE
RETURN s2_level(s2_cell($1));
COMMENT ON FUNCTION s2_level(text) IS 'the level of a cell: 0 (a face) to 30 (a leaf). Error: an invalid cell';

CREATE FUNCTION s2_face(cell text)
RETURNS integer
LANGUAGE sql IMMUTABLE STRICT PARALLEL SAFE
RETURN s2_face(s2_cell($1));
COMMENT ON FUNCTION s2_face(text) IS 'the face of a cell: 0 to 5. Error: an invalid cell';

CREATE FUNCTION s2_parent(cell text, level integer)
RETURNS bigint
LANGUAGE sql IMMUTABLE STRICT PARALLEL SAFE
RETURN s2_parent(s2_cell($1), $2);
COMMENT ON FUNCTION s2_parent(text, integer)
  IS 'the cell of a level that contains a cell; NULL for a level deeper than the cell''s own. Errors: a level outside '
  '0 to 30, an invalid cell';

CREATE FUNCTION s2_child(cell text, child integer)
RETURNS bigint
LANGUAGE sql IMMUTABLE STRICT PARALLEL SAFE
RETURN s2_child(s2_cell($1), $2);
COMMENT ON FUNCTION s2_child(text, integer)
  IS 'a child of a cell: 0 to 3 along the curve; NULL for a leaf. Errors: another number, an invalid cell';

CREATE FUNCTION s2_range_min(cell text)
RETURNS bigint
LANGUAGE sql IMMUTABLE STRICT PARALLEL SAFE
RETURN s2_range_min(s2_cell($1));
COMMENT ON FUNCTION s2_range_min(text) IS 'the first leaf of a cell. Error: an invalid cell';

CREATE FUNCTION s2_range_max(cell text)
RETURNS bigint
LANGUAGE sql IMMUTABLE STRICT PARALLEL SAFE
RETURN s2_range_max(s2_cell($1));
COMMENT ON FUNCTION s2_range_max(text) IS 'the last leaf of a cell. Error: an invalid cell';

CREATE FUNCTION s2_common_ancestor(one text, other text)
RETURNS bigint
LANGUAGE sql IMMUTABLE STRICT PARALLEL SAFE
RETURN s2_common_ancestor(s2_cell($1), s2_cell($2));
COMMENT ON FUNCTION s2_common_ancestor(text, text)
  IS 'the smallest cell that contains both; NULL for cells of two faces. Error: an invalid cell';

CREATE FUNCTION s2_common_ancestor(one text, other bigint)
RETURNS bigint
LANGUAGE sql IMMUTABLE STRICT PARALLEL SAFE
RETURN s2_common_ancestor(s2_cell($1), $2);
COMMENT ON FUNCTION s2_common_ancestor(text, bigint)
  IS 'the smallest cell that contains both; NULL for cells of two faces. Error: an invalid cell';

CREATE FUNCTION s2_common_ancestor(one bigint, other text)
RETURNS bigint
LANGUAGE sql IMMUTABLE STRICT PARALLEL SAFE
RETURN s2_common_ancestor($1, s2_cell($2));
COMMENT ON FUNCTION s2_common_ancestor(bigint, text)
  IS 'the smallest cell that contains both; NULL for cells of two faces. Error: an invalid cell';

-- Set operations

CREATE FUNCTION s2_complement(region s2union)
RETURNS s2union
AS 'MODULE_PATHNAME', 's2union_complement'
LANGUAGE C IMMUTABLE STRICT PARALLEL SAFE COST 1000 SUPPORT s2union_support;
COMMENT ON FUNCTION s2_complement(s2union) IS 'the leaves of the sphere that a union doesn''t have';

CREATE OPERATOR ~ (
    RIGHTARG = s2union,
    FUNCTION = s2_complement
);
COMMENT ON OPERATOR ~ (NONE, s2union) IS 'the leaves of the sphere that a union doesn''t have';

-- Questions. A text names any number of cells here

CREATE FUNCTION s2_contains(whole bigint, part s2union)
RETURNS boolean
LANGUAGE sql IMMUTABLE STRICT PARALLEL SAFE
RETURN s2_contains(s2union($1), $2);
COMMENT ON FUNCTION s2_contains(bigint, s2union) IS 'whether all of the second lies in the first';

CREATE FUNCTION s2_contains(whole bigint, part bigint)
RETURNS boolean
LANGUAGE sql IMMUTABLE STRICT PARALLEL SAFE
RETURN s2_contains(s2union($1), $2);
COMMENT ON FUNCTION s2_contains(bigint, bigint) IS 'whether all of the second lies in the first';

CREATE FUNCTION s2_contains(whole text, part text)
RETURNS boolean
LANGUAGE sql IMMUTABLE STRICT PARALLEL SAFE
RETURN s2_contains(s2union($1), s2union($2));
COMMENT ON FUNCTION s2_contains(text, text) IS 'whether all of the second lies in the first';

CREATE FUNCTION s2_contains(whole text, part bigint)
RETURNS boolean
LANGUAGE sql IMMUTABLE STRICT PARALLEL SAFE
RETURN s2_contains(s2union($1), $2);
COMMENT ON FUNCTION s2_contains(text, bigint) IS 'whether all of the second lies in the first';

CREATE FUNCTION s2_contains(whole bigint, part text)
RETURNS boolean
LANGUAGE sql IMMUTABLE STRICT PARALLEL SAFE
RETURN s2_contains(s2union($1), s2union($2));
COMMENT ON FUNCTION s2_contains(bigint, text) IS 'whether all of the second lies in the first';

CREATE FUNCTION s2_within(part s2union, whole bigint)
RETURNS boolean
LANGUAGE sql IMMUTABLE STRICT PARALLEL SAFE
RETURN s2_within($1, s2union($2));
COMMENT ON FUNCTION s2_within(s2union, bigint) IS 'whether all of the first lies in the second';

CREATE FUNCTION s2_within(part bigint, whole bigint)
RETURNS boolean
LANGUAGE sql IMMUTABLE STRICT PARALLEL SAFE
RETURN s2_within($1, s2union($2));
COMMENT ON FUNCTION s2_within(bigint, bigint) IS 'whether all of the first lies in the second';

CREATE FUNCTION s2_within(part text, whole text)
RETURNS boolean
LANGUAGE sql IMMUTABLE STRICT PARALLEL SAFE
RETURN s2_within(s2union($1), s2union($2));
COMMENT ON FUNCTION s2_within(text, text) IS 'whether all of the first lies in the second';

CREATE FUNCTION s2_within(part text, whole bigint)
RETURNS boolean
LANGUAGE sql IMMUTABLE STRICT PARALLEL SAFE
RETURN s2_within(s2union($1), s2union($2));
COMMENT ON FUNCTION s2_within(text, bigint) IS 'whether all of the first lies in the second';

CREATE FUNCTION s2_within(part bigint, whole text)
RETURNS boolean
LANGUAGE sql IMMUTABLE STRICT PARALLEL SAFE
RETURN s2_within($1, s2union($2));
COMMENT ON FUNCTION s2_within(bigint, text) IS 'whether all of the first lies in the second';

CREATE FUNCTION s2_intersects(one bigint, other bigint)
RETURNS boolean
LANGUAGE sql IMMUTABLE STRICT PARALLEL SAFE
RETURN s2_intersects(s2union($1), $2);
COMMENT ON FUNCTION s2_intersects(bigint, bigint) IS 'whether they share a leaf';

CREATE FUNCTION s2_intersects(one text, other text)
RETURNS boolean
LANGUAGE sql IMMUTABLE STRICT PARALLEL SAFE
RETURN s2_intersects(s2union($1), s2union($2));
COMMENT ON FUNCTION s2_intersects(text, text) IS 'whether they share a leaf';

CREATE FUNCTION s2_intersects(one text, other bigint)
RETURNS boolean
LANGUAGE sql IMMUTABLE STRICT PARALLEL SAFE
RETURN s2_intersects(s2union($1), $2);
COMMENT ON FUNCTION s2_intersects(text, bigint) IS 'whether they share a leaf';

CREATE FUNCTION s2_intersects(one bigint, other text)
RETURNS boolean
LANGUAGE sql IMMUTABLE STRICT PARALLEL SAFE
RETURN s2_intersects(s2union($1), s2union($2));
COMMENT ON FUNCTION s2_intersects(bigint, text) IS 'whether they share a leaf';

CREATE FUNCTION s2_is_empty(region s2union)
RETURNS boolean
AS 'MODULE_PATHNAME', 's2union_is_empty'
LANGUAGE C IMMUTABLE STRICT PARALLEL SAFE COST 1000 SUPPORT s2union_support;
COMMENT ON FUNCTION s2_is_empty(s2union) IS 'whether a union has no cell';

-- Counts and cells

CREATE FUNCTION unnest(region s2union)
RETURNS SETOF bigint
LANGUAGE sql IMMUTABLE PARALLEL SAFE
BEGIN ATOMIC SELECT pg_catalog.unnest(s2_cells($1)); END;
COMMENT ON FUNCTION unnest(s2union) IS 'the cells as rows';

CREATE FUNCTION s2_tiles(region s2union, level integer, OUT tile bigint, OUT part s2union)
RETURNS SETOF record
AS 'MODULE_PATHNAME'
LANGUAGE C IMMUTABLE STRICT PARALLEL SAFE COST 1000 ROWS 20 SUPPORT s2union_support;
COMMENT ON FUNCTION s2_tiles(s2union, integer)
  IS 'the cells of a level that share a leaf with a union, and what the union has in each. Errors: a level outside 0 '
  'to 30, too many cells';

-- An index of leaves

CREATE FUNCTION s2union_least(s2union)
RETURNS bigint
AS 'MODULE_PATHNAME'
LANGUAGE C IMMUTABLE STRICT PARALLEL SAFE COST 1000 SUPPORT s2union_support;
COMMENT ON FUNCTION s2union_least(s2union) IS 'the least leaf, where an index of leaves begins';

CREATE FUNCTION s2union_greatest(s2union)
RETURNS bigint
AS 'MODULE_PATHNAME'
LANGUAGE C IMMUTABLE STRICT PARALLEL SAFE COST 1000 SUPPORT s2union_support;
COMMENT ON FUNCTION s2union_greatest(s2union) IS 'the greatest leaf, where an index of leaves ends';

-- Coverings and ranges

CREATE FUNCTION s2_range(first text, last text)
RETURNS s2union
LANGUAGE sql IMMUTABLE STRICT PARALLEL SAFE
RETURN s2_range(s2_cell($1), s2_cell($2));
COMMENT ON FUNCTION s2_range(text, text)
  IS 'all leaves from the first of one cell to the last of another. Errors: a last leaf before the first, an invalid '
  'cell';

CREATE FUNCTION s2_range(first text, last bigint)
RETURNS s2union
LANGUAGE sql IMMUTABLE STRICT PARALLEL SAFE
RETURN s2_range(s2_cell($1), $2);
COMMENT ON FUNCTION s2_range(text, bigint)
  IS 'all leaves from the first of one cell to the last of another. Errors: a last leaf before the first, an invalid '
  'cell';

CREATE FUNCTION s2_range(first bigint, last text)
RETURNS s2union
LANGUAGE sql IMMUTABLE STRICT PARALLEL SAFE
RETURN s2_range($1, s2_cell($2));
COMMENT ON FUNCTION s2_range(bigint, text)
  IS 'all leaves from the first of one cell to the last of another. Errors: a last leaf before the first, an invalid '
  'cell';

-- Aggregates

CREATE FUNCTION s2union_agg_step(internal, text)
RETURNS internal
AS 'MODULE_PATHNAME', 's2union_agg_step_text'
LANGUAGE C IMMUTABLE PARALLEL SAFE;
COMMENT ON FUNCTION s2union_agg_step(internal, text) IS 'aggregate transition function';

CREATE AGGREGATE s2_union_agg(text) (
    SFUNC = s2union_agg_step,
    STYPE = internal,
    FINALFUNC = s2union_agg_final,
    COMBINEFUNC = s2union_agg_combine,
    SERIALFUNC = s2union_agg_serialise,
    DESERIALFUNC = s2union_agg_deserialise,
    PARALLEL = SAFE
);
COMMENT ON AGGREGATE s2_union_agg(text) IS 'the union of all rows';

-- Names of first arguments. All else of these functions stays as it is

DO $$
DECLARE
    definition text;
BEGIN
    FOR definition IN
        SELECT pg_catalog.replace(pg_catalog.pg_get_functiondef(p.oid), was, now)
        FROM pg_catalog.pg_proc p
        JOIN pg_catalog.pg_depend d ON d.objid OPERATOR(pg_catalog.=) p.oid AND d.deptype OPERATOR(pg_catalog.=) 'e'
            AND d.classid OPERATOR(pg_catalog.=) 'pg_catalog.pg_proc'::pg_catalog.regclass
        JOIN pg_catalog.pg_extension e ON e.oid OPERATOR(pg_catalog.=) d.refobjid
            AND e.extname OPERATOR(pg_catalog.=) 's2union', (VALUES
            ('s2_union(s2union, s2union', 's2_union(one s2union, other s2union'),
            ('s2_intersection(s2union, s2union', 's2_intersection(one s2union, other s2union'),
            ('s2_difference(s2union, s2union', 's2_difference(one s2union, other s2union'),
            ('s2_contains(s2union, s2union', 's2_contains(whole s2union, part s2union'),
            ('s2_within(s2union, s2union', 's2_within(part s2union, whole s2union'),
            ('s2_intersects(s2union, s2union', 's2_intersects(one s2union, other s2union'),
            ('s2_contains(s2union, bigint', 's2_contains(whole s2union, part bigint'),
            ('s2_count(s2union', 's2_count(region s2union'),
            ('s2_leaves(s2union', 's2_leaves(region s2union'),
            ('s2_cells(s2union', 's2_cells(region s2union'),
            ('s2_ancestors(s2union', 's2_ancestors(region s2union'),
            ('s2_outer(s2union', 's2_outer(region s2union'),
            ('s2_inner(s2union', 's2_inner(region s2union'),
            ('s2_cell(text', 's2_cell(cell text'),
            ('s2_token(bigint', 's2_token(cell bigint'),
            ('s2_level(bigint', 's2_level(cell bigint'),
            ('s2_face(bigint', 's2_face(cell bigint'),
            ('s2_parent(bigint', 's2_parent(cell bigint'),
            ('s2_range_min(bigint', 's2_range_min(cell bigint'),
            ('s2_range_max(bigint', 's2_range_max(cell bigint'),
            ('s2_symmetric_difference(s2union, s2union', 's2_symmetric_difference(one s2union, other s2union'),
            ('s2_within(bigint, s2union', 's2_within(part bigint, whole s2union'),
            ('s2_intersects(s2union, bigint', 's2_intersects(one s2union, other bigint'),
            ('s2_intersects(bigint, s2union', 's2_intersects(one bigint, other s2union'),
            ('s2_is_union(bytea', 's2_is_union(bytes bytea'),
            ('s2_tokens(s2union', 's2_tokens(region s2union'),
            ('s2_debug(bigint', 's2_debug(cell bigint'),
            ('s2_child(bigint', 's2_child(cell bigint'),
            ('s2_common_ancestor(bigint, bigint', 's2_common_ancestor(one bigint, other bigint')
        ) AS names(was, now)
        WHERE p.prokind OPERATOR(pg_catalog.=) 'f' AND pg_catalog.starts_with(
            pg_catalog.format('%s(%s', p.proname, pg_catalog.pg_get_function_arguments(p.oid)), was)
    LOOP
        EXECUTE definition;
    END LOOP;
END $$;

-- Comments: one for each name, and for the operators of a function its own

COMMENT ON FUNCTION s2union(bigint[]) IS 'the union of the cells of an array';
COMMENT ON FUNCTION s2_cell(text) IS 'a cell as a number. Error: an invalid cell';
COMMENT ON FUNCTION s2_contains(s2union, s2union) IS 'whether all of the second lies in the first';
COMMENT ON FUNCTION s2_contains(s2union, bigint) IS 'whether all of the second lies in the first';
COMMENT ON FUNCTION s2_within(s2union, s2union) IS 'whether all of the first lies in the second';
COMMENT ON FUNCTION s2_within(bigint, s2union) IS 'whether all of the first lies in the second';
COMMENT ON FUNCTION s2_intersects(s2union, s2union) IS 'whether they share a leaf';
COMMENT ON FUNCTION s2_intersects(s2union, bigint) IS 'whether they share a leaf';
COMMENT ON FUNCTION s2_intersects(bigint, s2union) IS 'whether they share a leaf';
COMMENT ON OPERATOR @> (s2union, s2union) IS 'whether all of the second lies in the first';
COMMENT ON OPERATOR @> (s2union, bigint) IS 'whether all of the second lies in the first';
COMMENT ON OPERATOR <@ (s2union, s2union) IS 'whether all of the first lies in the second';
COMMENT ON OPERATOR <@ (bigint, s2union) IS 'whether all of the first lies in the second';
COMMENT ON OPERATOR && (s2union, s2union) IS 'whether they share a leaf';
COMMENT ON OPERATOR && (s2union, bigint) IS 'whether they share a leaf';
COMMENT ON OPERATOR && (bigint, s2union) IS 'whether they share a leaf';
COMMENT ON FUNCTION s2_cells(s2union, integer, integer)
  IS 'the cells, cut so that each is of level level, level + modulus, level + 2 modulus, .. or 30. Errors: a level '
  'outside 0 to 30, a modulus outside 1 to 3';
COMMENT ON AGGREGATE s2_union_agg(bigint) IS 'the union of all rows';
COMMENT ON FUNCTION s2_version() IS 'the version of the code that is loaded';
COMMENT ON FUNCTION s2_outer(integer, integer, integer, integer, integer, integer)
  IS 'the cells of a level that share a leaf with a rectangle of leaves on a face, as a union. Errors: a level outside '
  '0 to 30, a place outside the face, more than 1,000,000 cells';
COMMENT ON FUNCTION s2_outer(s2union, integer)
  IS 'the cells of a level that share a leaf with a union, as a union. Errors: a level outside 0 to 30, more than '
  '1,000,000 cells';
COMMENT ON FUNCTION s2_inner(integer, integer, integer, integer, integer, integer)
  IS 'the cells of a level that lie in a rectangle of leaves on a face, as a union. Errors: a level outside 0 to 30, a '
  'place outside the face, more than 1,000,000 cells';
COMMENT ON FUNCTION s2_inner(s2union, integer)
  IS 'the cells of a level that lie in a union, as a union. Errors: a level outside 0 to 30, more than 1,000,000 cells';
COMMENT ON FUNCTION s2_range(bigint, bigint)
  IS 'all leaves from the first of one cell to the last of another. Errors: a last leaf before the first, an invalid '
  'cell';
COMMENT ON FUNCTION s2_leaf(integer, integer, integer)
  IS 'the leaf at a place of a face: face 0 to 5, i and j 0 to 1073741823. Error: another number';
COMMENT ON FUNCTION s2_token(bigint) IS 'the token of a cell. Error: an invalid cell';
COMMENT ON FUNCTION s2_level(bigint) IS 'the level of a cell: 0 (a face) to 30 (a leaf). Error: an invalid cell';
COMMENT ON FUNCTION s2_face(bigint) IS 'the face of a cell: 0 to 5. Error: an invalid cell';
COMMENT ON FUNCTION s2_parent(bigint, integer)
  IS 'the cell of a level that contains a cell; NULL for a level deeper than the cell''s own. Errors: a level outside '
  '0 to 30, an invalid cell';
COMMENT ON FUNCTION s2_range_min(bigint) IS 'the first leaf of a cell. Error: an invalid cell';
COMMENT ON FUNCTION s2_range_max(bigint) IS 'the last leaf of a cell. Error: an invalid cell';
COMMENT ON FUNCTION s2_is_union(bytea) IS 'whether bytes are the union file of a union. Never an error';
COMMENT ON FUNCTION s2_debug(bigint) IS 'the debug text of a cell. Error: an invalid cell';
COMMENT ON FUNCTION s2_child(bigint, integer)
  IS 'a child of a cell: 0 to 3 along the curve; NULL for a leaf. Errors: another number, an invalid cell';
COMMENT ON FUNCTION s2_common_ancestor(bigint, bigint)
  IS 'the smallest cell that contains both; NULL for cells of two faces. Error: an invalid cell';
COMMENT ON FUNCTION s2_outer(s2union, integer, integer, integer, integer, integer, integer)
  IS 'the cells of a level that share a leaf with what a union and a rectangle on a face share, as a union. Errors: a '
  'level outside 0 to 30, a place outside the face, more than 1,000,000 cells';
COMMENT ON FUNCTION s2_inner(s2union, integer, integer, integer, integer, integer, integer)
  IS 'the cells of a level that lie in what a union and a rectangle on a face share, as a union. Errors: a level '
  'outside 0 to 30, a place outside the face, more than 1,000,000 cells';
