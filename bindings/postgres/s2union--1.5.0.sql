-- s2union 1.5.0, whole: what CREATE EXTENSION makes. README.md says what each function does, in the words of its
-- comment. From an earlier version an upgrade leads to the same; bindings/postgres/tests compares them.

\echo Use "CREATE EXTENSION s2union" to load this file. \quit

-- The type

CREATE TYPE s2union;

CREATE FUNCTION s2union_in(cstring)
RETURNS s2union
AS 'MODULE_PATHNAME'
LANGUAGE C IMMUTABLE STRICT PARALLEL SAFE;
COMMENT ON FUNCTION s2union_in(cstring) IS 'I/O';

CREATE FUNCTION s2union_out(s2union)
RETURNS cstring
AS 'MODULE_PATHNAME'
LANGUAGE C IMMUTABLE STRICT PARALLEL SAFE;
COMMENT ON FUNCTION s2union_out(s2union) IS 'I/O';

CREATE FUNCTION s2union_recv(internal)
RETURNS s2union
AS 'MODULE_PATHNAME'
LANGUAGE C IMMUTABLE STRICT PARALLEL SAFE;
COMMENT ON FUNCTION s2union_recv(internal) IS 'I/O';

CREATE FUNCTION s2union_send(s2union)
RETURNS bytea
AS 'MODULE_PATHNAME'
LANGUAGE C IMMUTABLE STRICT PARALLEL SAFE;
COMMENT ON FUNCTION s2union_send(s2union) IS 'I/O';

CREATE FUNCTION s2union_typanalyze(internal)
RETURNS boolean
AS 'MODULE_PATHNAME'
LANGUAGE C STRICT;
COMMENT ON FUNCTION s2union_typanalyze(internal) IS 'what ANALYZE keeps of unions';

CREATE TYPE s2union (
    INPUT = s2union_in,
    OUTPUT = s2union_out,
    RECEIVE = s2union_recv,
    SEND = s2union_send,
    ANALYZE = s2union_typanalyze,
    INTERNALLENGTH = VARIABLE,
    ALIGNMENT = double,
    STORAGE = extended
);
COMMENT ON TYPE s2union IS 'a region of the sphere: a normalized union of S2 cells';

-- For the planner. A cost is that of values of this size; COST counts where the planner asks for no more

CREATE FUNCTION s2union_support(internal)
RETURNS internal
AS 'MODULE_PATHNAME'
LANGUAGE C IMMUTABLE STRICT PARALLEL SAFE;
COMMENT ON FUNCTION s2union_support(internal) IS 'planner support for unions';

CREATE FUNCTION s2union_sel(internal, oid, internal, integer)
RETURNS double precision
AS 'MODULE_PATHNAME'
LANGUAGE C IMMUTABLE STRICT PARALLEL SAFE;
COMMENT ON FUNCTION s2union_sel(internal, oid, internal, integer)
  IS 'restriction selectivity of questions about unions';

CREATE FUNCTION s2union_joinsel(internal, oid, internal, smallint, internal)
RETURNS double precision
AS 'MODULE_PATHNAME'
LANGUAGE C IMMUTABLE STRICT PARALLEL SAFE;
COMMENT ON FUNCTION s2union_joinsel(internal, oid, internal, smallint, internal)
  IS 'join selectivity of questions about unions';

-- Casts

CREATE FUNCTION s2union(bytea)
RETURNS s2union
AS 'MODULE_PATHNAME', 's2union_from_bytea'
LANGUAGE C IMMUTABLE STRICT PARALLEL SAFE;
COMMENT ON FUNCTION s2union(bytea) IS 'the union in a union file';

CREATE FUNCTION bytea(s2union)
RETURNS bytea
AS 'MODULE_PATHNAME', 's2union_send'
LANGUAGE C IMMUTABLE STRICT PARALLEL SAFE;
COMMENT ON FUNCTION bytea(s2union) IS 'the union file of a union';

CREATE FUNCTION s2union(bigint)
RETURNS s2union
AS 'MODULE_PATHNAME', 's2union_from_cell'
LANGUAGE C IMMUTABLE STRICT PARALLEL SAFE;
COMMENT ON FUNCTION s2union(bigint) IS 'a union of one cell';

CREATE FUNCTION s2union(bigint[])
RETURNS s2union
AS 'MODULE_PATHNAME', 's2union_from_cells'
LANGUAGE C IMMUTABLE STRICT PARALLEL SAFE;
COMMENT ON FUNCTION s2union(bigint[]) IS 'the union of the cells of an array';

CREATE FUNCTION s2union(text)
RETURNS s2union
AS 'MODULE_PATHNAME', 's2union_from_text'
LANGUAGE C IMMUTABLE STRICT PARALLEL SAFE;
COMMENT ON FUNCTION s2union(text) IS 'the union of the cells that a text names';

CREATE FUNCTION s2union(text[])
RETURNS s2union
AS 'MODULE_PATHNAME', 's2union_from_texts'
LANGUAGE C IMMUTABLE STRICT PARALLEL SAFE;
COMMENT ON FUNCTION s2union(text[]) IS 'the union of the cells that texts name, one each';

CREATE FUNCTION s2_cells(region s2union)
RETURNS bigint[]
AS 'MODULE_PATHNAME', 's2union_cells'
LANGUAGE C IMMUTABLE STRICT PARALLEL SAFE COST 1000 SUPPORT s2union_support;
COMMENT ON FUNCTION s2_cells(s2union) IS 'the cells';

CREATE CAST (bytea AS s2union) WITH FUNCTION s2union(bytea);
CREATE CAST (s2union AS bytea) WITH FUNCTION bytea(s2union);
CREATE CAST (bigint AS s2union) WITH FUNCTION s2union(bigint);
CREATE CAST (bigint[] AS s2union) WITH FUNCTION s2union(bigint[]);
CREATE CAST (s2union AS bigint[]) WITH FUNCTION s2_cells(s2union);
CREATE CAST (text AS s2union) WITH FUNCTION s2union(text);
CREATE CAST (text[] AS s2union) WITH FUNCTION s2union(text[]);

-- Cells: a bigint, or a text that is a token or a debug text

CREATE FUNCTION s2_is_cell(cell bigint)
RETURNS boolean
AS 'MODULE_PATHNAME'
LANGUAGE C IMMUTABLE STRICT PARALLEL SAFE;
COMMENT ON FUNCTION s2_is_cell(bigint) IS 'whether a value is a cell. Never an error';

CREATE FUNCTION s2_is_cell(cell text)
RETURNS boolean
AS 'MODULE_PATHNAME', 's2_is_cell_of_text'
LANGUAGE C IMMUTABLE STRICT PARALLEL SAFE;
COMMENT ON FUNCTION s2_is_cell(text) IS 'whether a value is a cell. Never an error';

CREATE FUNCTION s2_cell(cell text)
RETURNS bigint
AS 'MODULE_PATHNAME'
LANGUAGE C IMMUTABLE STRICT PARALLEL SAFE;
COMMENT ON FUNCTION s2_cell(text) IS 'a cell as a number. Error: an invalid cell';

CREATE FUNCTION s2_cell(cell bigint)
RETURNS bigint
AS 'MODULE_PATHNAME', 's2_cell_of_number'
LANGUAGE C IMMUTABLE STRICT PARALLEL SAFE;
COMMENT ON FUNCTION s2_cell(bigint) IS 'a cell as a number. Error: an invalid cell';

CREATE FUNCTION s2_token(cell bigint)
RETURNS text
AS 'MODULE_PATHNAME'
LANGUAGE C IMMUTABLE STRICT PARALLEL SAFE;
COMMENT ON FUNCTION s2_token(bigint) IS 'the token of a cell. Error: an invalid cell';

CREATE FUNCTION s2_token(cell text)
RETURNS text
LANGUAGE sql IMMUTABLE STRICT PARALLEL SAFE
RETURN s2_token(s2_cell($1));
COMMENT ON FUNCTION s2_token(text) IS 'the token of a cell. Error: an invalid cell';

CREATE FUNCTION s2_debug(cell bigint)
RETURNS text
AS 'MODULE_PATHNAME'
LANGUAGE C IMMUTABLE STRICT PARALLEL SAFE;
COMMENT ON FUNCTION s2_debug(bigint) IS 'the debug text of a cell. Error: an invalid cell';

CREATE FUNCTION s2_debug(cell text)
RETURNS text
LANGUAGE sql IMMUTABLE STRICT PARALLEL SAFE
RETURN s2_debug(s2_cell($1));
COMMENT ON FUNCTION s2_debug(text) IS 'the debug text of a cell. Error: an invalid cell';

CREATE FUNCTION s2_level(cell bigint)
RETURNS integer
AS 'MODULE_PATHNAME'
LANGUAGE C IMMUTABLE STRICT PARALLEL SAFE;
COMMENT ON FUNCTION s2_level(bigint) IS 'the level of a cell: 0 (a face) to 30 (a leaf). Error: an invalid cell';

CREATE FUNCTION s2_level(cell text)
RETURNS integer
LANGUAGE sql IMMUTABLE STRICT PARALLEL SAFE
RETURN s2_level(s2_cell($1));
COMMENT ON FUNCTION s2_level(text) IS 'the level of a cell: 0 (a face) to 30 (a leaf). Error: an invalid cell';

CREATE FUNCTION s2_face(cell bigint)
RETURNS integer
AS 'MODULE_PATHNAME'
LANGUAGE C IMMUTABLE STRICT PARALLEL SAFE;
COMMENT ON FUNCTION s2_face(bigint) IS 'the face of a cell: 0 to 5. Error: an invalid cell';

CREATE FUNCTION s2_face(cell text)
RETURNS integer
LANGUAGE sql IMMUTABLE STRICT PARALLEL SAFE
RETURN s2_face(s2_cell($1));
COMMENT ON FUNCTION s2_face(text) IS 'the face of a cell: 0 to 5. Error: an invalid cell';

CREATE FUNCTION s2_parent(cell bigint, level integer)
RETURNS bigint
AS 'MODULE_PATHNAME'
LANGUAGE C IMMUTABLE STRICT PARALLEL SAFE;
COMMENT ON FUNCTION s2_parent(bigint, integer)
  IS 'the cell of a level that contains a cell; NULL for a level deeper than the cell''s own. Errors: a level outside '
  '0 to 30, an invalid cell';

CREATE FUNCTION s2_parent(cell text, level integer)
RETURNS bigint
LANGUAGE sql IMMUTABLE STRICT PARALLEL SAFE
RETURN s2_parent(s2_cell($1), $2);
COMMENT ON FUNCTION s2_parent(text, integer)
  IS 'the cell of a level that contains a cell; NULL for a level deeper than the cell''s own. Errors: a level outside '
  '0 to 30, an invalid cell';

CREATE FUNCTION s2_child(cell bigint, child integer)
RETURNS bigint
AS 'MODULE_PATHNAME'
LANGUAGE C IMMUTABLE STRICT PARALLEL SAFE;
COMMENT ON FUNCTION s2_child(bigint, integer)
  IS 'a child of a cell: 0 to 3 along the curve; NULL for a leaf. Errors: another number, an invalid cell';

CREATE FUNCTION s2_child(cell text, child integer)
RETURNS bigint
LANGUAGE sql IMMUTABLE STRICT PARALLEL SAFE
RETURN s2_child(s2_cell($1), $2);
COMMENT ON FUNCTION s2_child(text, integer)
  IS 'a child of a cell: 0 to 3 along the curve; NULL for a leaf. Errors: another number, an invalid cell';

CREATE FUNCTION s2_range_min(cell bigint)
RETURNS bigint
AS 'MODULE_PATHNAME'
LANGUAGE C IMMUTABLE STRICT PARALLEL SAFE;
COMMENT ON FUNCTION s2_range_min(bigint) IS 'the first leaf of a cell. Error: an invalid cell';

CREATE FUNCTION s2_range_min(cell text)
RETURNS bigint
LANGUAGE sql IMMUTABLE STRICT PARALLEL SAFE
RETURN s2_range_min(s2_cell($1));
COMMENT ON FUNCTION s2_range_min(text) IS 'the first leaf of a cell. Error: an invalid cell';

CREATE FUNCTION s2_range_max(cell bigint)
RETURNS bigint
AS 'MODULE_PATHNAME'
LANGUAGE C IMMUTABLE STRICT PARALLEL SAFE;
COMMENT ON FUNCTION s2_range_max(bigint) IS 'the last leaf of a cell. Error: an invalid cell';

CREATE FUNCTION s2_range_max(cell text)
RETURNS bigint
LANGUAGE sql IMMUTABLE STRICT PARALLEL SAFE
RETURN s2_range_max(s2_cell($1));
COMMENT ON FUNCTION s2_range_max(text) IS 'the last leaf of a cell. Error: an invalid cell';

CREATE FUNCTION s2_common_ancestor(one bigint, other bigint)
RETURNS bigint
AS 'MODULE_PATHNAME'
LANGUAGE C IMMUTABLE STRICT PARALLEL SAFE;
COMMENT ON FUNCTION s2_common_ancestor(bigint, bigint)
  IS 'the smallest cell that contains both; NULL for cells of two faces. Error: an invalid cell';

CREATE FUNCTION s2_common_ancestor(one text, other text)
RETURNS bigint
LANGUAGE sql IMMUTABLE STRICT PARALLEL SAFE
RETURN s2_common_ancestor(s2_cell($1), s2_cell($2));
COMMENT ON FUNCTION s2_common_ancestor(text, text)
  IS 'the smallest cell that contains both; NULL for cells of two faces. Error: an invalid cell';

CREATE FUNCTION s2_common_ancestor(one text, other bigint)
RETURNS bigint
LANGUAGE sql IMMUTABLE STRICT PARALLEL SAFE
RETURN s2_common_ancestor(s2_cell($1), $2);
COMMENT ON FUNCTION s2_common_ancestor(text, bigint)
  IS 'the smallest cell that contains both; NULL for cells of two faces. Error: an invalid cell';

CREATE FUNCTION s2_common_ancestor(one bigint, other text)
RETURNS bigint
LANGUAGE sql IMMUTABLE STRICT PARALLEL SAFE
RETURN s2_common_ancestor($1, s2_cell($2));
COMMENT ON FUNCTION s2_common_ancestor(bigint, text)
  IS 'the smallest cell that contains both; NULL for cells of two faces. Error: an invalid cell';

CREATE FUNCTION s2_leaf(face integer, i integer, j integer)
RETURNS bigint
AS 'MODULE_PATHNAME'
LANGUAGE C IMMUTABLE STRICT PARALLEL SAFE;
COMMENT ON FUNCTION s2_leaf(integer, integer, integer)
  IS 'the leaf at a place of a face: face 0 to 5, i and j 0 to 1073741823. Error: another number';

-- Set operations

CREATE FUNCTION s2_union(one s2union, other s2union)
RETURNS s2union
AS 'MODULE_PATHNAME', 's2union_union'
LANGUAGE C IMMUTABLE STRICT PARALLEL SAFE COST 1000 SUPPORT s2union_support;
COMMENT ON FUNCTION s2_union(s2union, s2union) IS 'the leaves of either';

CREATE OPERATOR | (
    LEFTARG = s2union,
    RIGHTARG = s2union,
    FUNCTION = s2_union,
    COMMUTATOR = |
);
COMMENT ON OPERATOR | (s2union, s2union) IS 'the leaves of either';

CREATE FUNCTION s2_intersection(one s2union, other s2union)
RETURNS s2union
AS 'MODULE_PATHNAME', 's2union_intersection'
LANGUAGE C IMMUTABLE STRICT PARALLEL SAFE COST 1000 SUPPORT s2union_support;
COMMENT ON FUNCTION s2_intersection(s2union, s2union) IS 'the leaves of both';

CREATE OPERATOR & (
    LEFTARG = s2union,
    RIGHTARG = s2union,
    FUNCTION = s2_intersection,
    COMMUTATOR = &
);
COMMENT ON OPERATOR & (s2union, s2union) IS 'the leaves of both';

CREATE FUNCTION s2_difference(one s2union, other s2union)
RETURNS s2union
AS 'MODULE_PATHNAME', 's2union_difference'
LANGUAGE C IMMUTABLE STRICT PARALLEL SAFE COST 1000 SUPPORT s2union_support;
COMMENT ON FUNCTION s2_difference(s2union, s2union) IS 'the leaves of the first that are not in the second';

CREATE OPERATOR - (
    LEFTARG = s2union,
    RIGHTARG = s2union,
    FUNCTION = s2_difference
);
COMMENT ON OPERATOR - (s2union, s2union) IS 'the leaves of the first that are not in the second';

CREATE FUNCTION s2_symmetric_difference(one s2union, other s2union)
RETURNS s2union
AS 'MODULE_PATHNAME', 's2union_symmetric_difference'
LANGUAGE C IMMUTABLE STRICT PARALLEL SAFE COST 1000 SUPPORT s2union_support;
COMMENT ON FUNCTION s2_symmetric_difference(s2union, s2union) IS 'the leaves of exactly one';

CREATE OPERATOR # (
    LEFTARG = s2union,
    RIGHTARG = s2union,
    FUNCTION = s2_symmetric_difference,
    COMMUTATOR = #
);
COMMENT ON OPERATOR # (s2union, s2union) IS 'the leaves of exactly one';

CREATE FUNCTION s2_complement(region s2union)
RETURNS s2union
AS 'MODULE_PATHNAME', 's2union_complement'
LANGUAGE C IMMUTABLE STRICT PARALLEL SAFE COST 1000 SUPPORT s2union_support;
COMMENT ON FUNCTION s2_complement(s2union) IS 'the leaves of the sphere that a union doesn''t have';

CREATE OPERATOR ~ (
    RIGHTARG = s2union,
    FUNCTION = s2_complement
);
COMMENT ON OPERATOR ~ (NONE, s2union) IS 'the leaves of the sphere that a union doesn''t have';

-- Questions. A text names any number of cells here

CREATE FUNCTION s2_contains(whole s2union, part s2union)
RETURNS boolean
AS 'MODULE_PATHNAME', 's2union_contains'
LANGUAGE C IMMUTABLE STRICT PARALLEL SAFE COST 1000 SUPPORT s2union_support;
COMMENT ON FUNCTION s2_contains(s2union, s2union) IS 'whether all of the second lies in the first';

CREATE FUNCTION s2_contains(whole s2union, part bigint)
RETURNS boolean
AS 'MODULE_PATHNAME', 's2union_contains_cell'
LANGUAGE C IMMUTABLE STRICT PARALLEL SAFE COST 1000 SUPPORT s2union_support;
COMMENT ON FUNCTION s2_contains(s2union, bigint) IS 'whether all of the second lies in the first';

CREATE FUNCTION s2_contains(whole bigint, part s2union)
RETURNS boolean
LANGUAGE sql IMMUTABLE STRICT PARALLEL SAFE
RETURN s2_contains(s2union($1), $2);
COMMENT ON FUNCTION s2_contains(bigint, s2union) IS 'whether all of the second lies in the first';

CREATE FUNCTION s2_contains(whole bigint, part bigint)
RETURNS boolean
LANGUAGE sql IMMUTABLE STRICT PARALLEL SAFE
RETURN s2_contains(s2union($1), $2);
COMMENT ON FUNCTION s2_contains(bigint, bigint) IS 'whether all of the second lies in the first';

CREATE FUNCTION s2_contains(whole text, part text)
RETURNS boolean
LANGUAGE sql IMMUTABLE STRICT PARALLEL SAFE
RETURN s2_contains(s2union($1), s2union($2));
COMMENT ON FUNCTION s2_contains(text, text) IS 'whether all of the second lies in the first';

CREATE FUNCTION s2_contains(whole text, part bigint)
RETURNS boolean
LANGUAGE sql IMMUTABLE STRICT PARALLEL SAFE
RETURN s2_contains(s2union($1), $2);
COMMENT ON FUNCTION s2_contains(text, bigint) IS 'whether all of the second lies in the first';

CREATE FUNCTION s2_contains(whole bigint, part text)
RETURNS boolean
LANGUAGE sql IMMUTABLE STRICT PARALLEL SAFE
RETURN s2_contains(s2union($1), s2union($2));
COMMENT ON FUNCTION s2_contains(bigint, text) IS 'whether all of the second lies in the first';

CREATE FUNCTION s2_within(part s2union, whole s2union)
RETURNS boolean
AS 'MODULE_PATHNAME', 's2union_within'
LANGUAGE C IMMUTABLE STRICT PARALLEL SAFE COST 1000 SUPPORT s2union_support;
COMMENT ON FUNCTION s2_within(s2union, s2union) IS 'whether all of the first lies in the second';

CREATE FUNCTION s2_within(part bigint, whole s2union)
RETURNS boolean
AS 'MODULE_PATHNAME', 's2union_cell_within'
LANGUAGE C IMMUTABLE STRICT PARALLEL SAFE COST 1000 SUPPORT s2union_support;
COMMENT ON FUNCTION s2_within(bigint, s2union) IS 'whether all of the first lies in the second';

CREATE FUNCTION s2_within(part s2union, whole bigint)
RETURNS boolean
LANGUAGE sql IMMUTABLE STRICT PARALLEL SAFE
RETURN s2_within($1, s2union($2));
COMMENT ON FUNCTION s2_within(s2union, bigint) IS 'whether all of the first lies in the second';

CREATE FUNCTION s2_within(part bigint, whole bigint)
RETURNS boolean
LANGUAGE sql IMMUTABLE STRICT PARALLEL SAFE
RETURN s2_within($1, s2union($2));
COMMENT ON FUNCTION s2_within(bigint, bigint) IS 'whether all of the first lies in the second';

CREATE FUNCTION s2_within(part text, whole text)
RETURNS boolean
LANGUAGE sql IMMUTABLE STRICT PARALLEL SAFE
RETURN s2_within(s2union($1), s2union($2));
COMMENT ON FUNCTION s2_within(text, text) IS 'whether all of the first lies in the second';

CREATE FUNCTION s2_within(part text, whole bigint)
RETURNS boolean
LANGUAGE sql IMMUTABLE STRICT PARALLEL SAFE
RETURN s2_within(s2union($1), s2union($2));
COMMENT ON FUNCTION s2_within(text, bigint) IS 'whether all of the first lies in the second';

CREATE FUNCTION s2_within(part bigint, whole text)
RETURNS boolean
LANGUAGE sql IMMUTABLE STRICT PARALLEL SAFE
RETURN s2_within($1, s2union($2));
COMMENT ON FUNCTION s2_within(bigint, text) IS 'whether all of the first lies in the second';

CREATE FUNCTION s2_intersects(one s2union, other s2union)
RETURNS boolean
AS 'MODULE_PATHNAME', 's2union_intersects'
LANGUAGE C IMMUTABLE STRICT PARALLEL SAFE COST 1000 SUPPORT s2union_support;
COMMENT ON FUNCTION s2_intersects(s2union, s2union) IS 'whether they share a leaf';

CREATE FUNCTION s2_intersects(one s2union, other bigint)
RETURNS boolean
AS 'MODULE_PATHNAME', 's2union_intersects_cell'
LANGUAGE C IMMUTABLE STRICT PARALLEL SAFE COST 1000 SUPPORT s2union_support;
COMMENT ON FUNCTION s2_intersects(s2union, bigint) IS 'whether they share a leaf';

CREATE FUNCTION s2_intersects(one bigint, other s2union)
RETURNS boolean
AS 'MODULE_PATHNAME', 's2union_cell_intersects'
LANGUAGE C IMMUTABLE STRICT PARALLEL SAFE COST 1000 SUPPORT s2union_support;
COMMENT ON FUNCTION s2_intersects(bigint, s2union) IS 'whether they share a leaf';

CREATE FUNCTION s2_intersects(one bigint, other bigint)
RETURNS boolean
LANGUAGE sql IMMUTABLE STRICT PARALLEL SAFE
RETURN s2_intersects(s2union($1), $2);
COMMENT ON FUNCTION s2_intersects(bigint, bigint) IS 'whether they share a leaf';

CREATE FUNCTION s2_intersects(one text, other text)
RETURNS boolean
LANGUAGE sql IMMUTABLE STRICT PARALLEL SAFE
RETURN s2_intersects(s2union($1), s2union($2));
COMMENT ON FUNCTION s2_intersects(text, text) IS 'whether they share a leaf';

CREATE FUNCTION s2_intersects(one text, other bigint)
RETURNS boolean
LANGUAGE sql IMMUTABLE STRICT PARALLEL SAFE
RETURN s2_intersects(s2union($1), $2);
COMMENT ON FUNCTION s2_intersects(text, bigint) IS 'whether they share a leaf';

CREATE FUNCTION s2_intersects(one bigint, other text)
RETURNS boolean
LANGUAGE sql IMMUTABLE STRICT PARALLEL SAFE
RETURN s2_intersects(s2union($1), s2union($2));
COMMENT ON FUNCTION s2_intersects(bigint, text) IS 'whether they share a leaf';

CREATE OPERATOR @> (
    LEFTARG = s2union,
    RIGHTARG = s2union,
    FUNCTION = s2_contains,
    COMMUTATOR = <@,
    RESTRICT = s2union_sel,
    JOIN = s2union_joinsel
);
COMMENT ON OPERATOR @> (s2union, s2union) IS 'whether all of the second lies in the first';

CREATE OPERATOR @> (
    LEFTARG = s2union,
    RIGHTARG = bigint,
    FUNCTION = s2_contains,
    COMMUTATOR = <@,
    RESTRICT = s2union_sel,
    JOIN = s2union_joinsel
);
COMMENT ON OPERATOR @> (s2union, bigint) IS 'whether all of the second lies in the first';

CREATE OPERATOR <@ (
    LEFTARG = s2union,
    RIGHTARG = s2union,
    FUNCTION = s2_within,
    COMMUTATOR = @>,
    RESTRICT = s2union_sel,
    JOIN = s2union_joinsel
);
COMMENT ON OPERATOR <@ (s2union, s2union) IS 'whether all of the first lies in the second';

CREATE OPERATOR <@ (
    LEFTARG = bigint,
    RIGHTARG = s2union,
    FUNCTION = s2_within,
    COMMUTATOR = @>,
    RESTRICT = s2union_sel,
    JOIN = s2union_joinsel
);
COMMENT ON OPERATOR <@ (bigint, s2union) IS 'whether all of the first lies in the second';

CREATE OPERATOR && (
    LEFTARG = s2union,
    RIGHTARG = s2union,
    FUNCTION = s2_intersects,
    COMMUTATOR = &&,
    RESTRICT = s2union_sel,
    JOIN = s2union_joinsel
);
COMMENT ON OPERATOR && (s2union, s2union) IS 'whether they share a leaf';

CREATE OPERATOR && (
    LEFTARG = s2union,
    RIGHTARG = bigint,
    FUNCTION = s2_intersects,
    COMMUTATOR = &&,
    RESTRICT = s2union_sel,
    JOIN = s2union_joinsel
);
COMMENT ON OPERATOR && (s2union, bigint) IS 'whether they share a leaf';

CREATE OPERATOR && (
    LEFTARG = bigint,
    RIGHTARG = s2union,
    FUNCTION = s2_intersects,
    COMMUTATOR = &&,
    RESTRICT = s2union_sel,
    JOIN = s2union_joinsel
);
COMMENT ON OPERATOR && (bigint, s2union) IS 'whether they share a leaf';

CREATE FUNCTION s2_is_union(bytes bytea)
RETURNS boolean
AS 'MODULE_PATHNAME'
LANGUAGE C IMMUTABLE STRICT PARALLEL SAFE;
COMMENT ON FUNCTION s2_is_union(bytea) IS 'whether bytes are the union file of a union. Never an error';

CREATE FUNCTION s2_is_empty(region s2union)
RETURNS boolean
AS 'MODULE_PATHNAME', 's2union_is_empty'
LANGUAGE C IMMUTABLE STRICT PARALLEL SAFE COST 1000 SUPPORT s2union_support;
COMMENT ON FUNCTION s2_is_empty(s2union) IS 'whether a union has no cell';

-- Counts and cells

CREATE FUNCTION s2_count(region s2union)
RETURNS bigint
AS 'MODULE_PATHNAME', 's2union_count'
LANGUAGE C IMMUTABLE STRICT PARALLEL SAFE COST 1000 SUPPORT s2union_support;
COMMENT ON FUNCTION s2_count(s2union) IS 'how many cells';

CREATE FUNCTION s2_leaves(region s2union)
RETURNS bigint
AS 'MODULE_PATHNAME', 's2union_leaves'
LANGUAGE C IMMUTABLE STRICT PARALLEL SAFE COST 1000 SUPPORT s2union_support;
COMMENT ON FUNCTION s2_leaves(s2union) IS 'how many leaves';

CREATE FUNCTION s2_tokens(region s2union)
RETURNS text
AS 'MODULE_PATHNAME', 's2union_tokens'
LANGUAGE C IMMUTABLE STRICT PARALLEL SAFE COST 1000 SUPPORT s2union_support;
COMMENT ON FUNCTION s2_tokens(s2union) IS 'the cells as tokens separated by blanks';

CREATE FUNCTION s2_cells(region s2union, level integer, modulus integer DEFAULT 1)
RETURNS bigint[]
AS 'MODULE_PATHNAME', 's2union_cells_cut'
LANGUAGE C IMMUTABLE STRICT PARALLEL SAFE COST 1000 SUPPORT s2union_support;
COMMENT ON FUNCTION s2_cells(s2union, integer, integer)
  IS 'the cells, cut so that each is of level level, level + modulus, level + 2 modulus, .. or 30. Errors: a level '
  'outside 0 to 30, a modulus outside 1 to 3';

CREATE FUNCTION s2_ancestors(region s2union)
RETURNS bigint[]
AS 'MODULE_PATHNAME', 's2union_ancestors'
LANGUAGE C IMMUTABLE STRICT PARALLEL SAFE COST 1000 SUPPORT s2union_support;
COMMENT ON FUNCTION s2_ancestors(s2union) IS 'the cells and all their ancestors, each once';

CREATE FUNCTION unnest(region s2union)
RETURNS SETOF bigint
LANGUAGE sql IMMUTABLE PARALLEL SAFE
BEGIN ATOMIC SELECT pg_catalog.unnest(s2_cells($1)); END;
COMMENT ON FUNCTION unnest(s2union) IS 'the cells as rows';

CREATE FUNCTION s2_tiles(region s2union, level integer, OUT tile bigint, OUT part s2union)
RETURNS SETOF record
AS 'MODULE_PATHNAME'
LANGUAGE C IMMUTABLE STRICT PARALLEL SAFE COST 1000 ROWS 20 SUPPORT s2union_support;
COMMENT ON FUNCTION s2_tiles(s2union, integer)
  IS 'the cells of a level that share a leaf with a union, and what the union has in each. Errors: a level outside 0 '
  'to 30, too many cells';

-- Coverings and ranges

CREATE FUNCTION s2_outer(region s2union, level integer)
RETURNS s2union
AS 'MODULE_PATHNAME', 's2union_outer_of'
LANGUAGE C IMMUTABLE STRICT PARALLEL SAFE COST 1000 SUPPORT s2union_support;
COMMENT ON FUNCTION s2_outer(s2union, integer)
  IS 'the cells of a level that share a leaf with a union, as a union. Errors: a level outside 0 to 30, more than '
  '1,000,000 cells';

CREATE FUNCTION s2_outer(face integer, i0 integer, i1 integer, j0 integer, j1 integer, level integer)
RETURNS s2union
AS 'MODULE_PATHNAME', 's2union_outer'
LANGUAGE C IMMUTABLE STRICT PARALLEL SAFE COST 100;
COMMENT ON FUNCTION s2_outer(integer, integer, integer, integer, integer, integer)
  IS 'the cells of a level that share a leaf with a rectangle of leaves on a face, as a union. Errors: a level outside '
  '0 to 30, a place outside the face, more than 1,000,000 cells';

CREATE FUNCTION s2_outer(region s2union, face integer, i0 integer, i1 integer, j0 integer, j1 integer, level integer)
RETURNS s2union
AS 'MODULE_PATHNAME', 's2union_outer_in'
LANGUAGE C IMMUTABLE STRICT PARALLEL SAFE COST 100;
COMMENT ON FUNCTION s2_outer(s2union, integer, integer, integer, integer, integer, integer)
  IS 'the cells of a level that share a leaf with what a union and a rectangle on a face share, as a union. Errors: a '
  'level outside 0 to 30, a place outside the face, more than 1,000,000 cells';

CREATE FUNCTION s2_inner(region s2union, level integer)
RETURNS s2union
AS 'MODULE_PATHNAME', 's2union_inner_of'
LANGUAGE C IMMUTABLE STRICT PARALLEL SAFE COST 1000 SUPPORT s2union_support;
COMMENT ON FUNCTION s2_inner(s2union, integer)
  IS 'the cells of a level that lie in a union, as a union. Errors: a level outside 0 to 30, more than 1,000,000 cells';

CREATE FUNCTION s2_inner(face integer, i0 integer, i1 integer, j0 integer, j1 integer, level integer)
RETURNS s2union
AS 'MODULE_PATHNAME', 's2union_inner'
LANGUAGE C IMMUTABLE STRICT PARALLEL SAFE COST 100;
COMMENT ON FUNCTION s2_inner(integer, integer, integer, integer, integer, integer)
  IS 'the cells of a level that lie in a rectangle of leaves on a face, as a union. Errors: a level outside 0 to 30, a '
  'place outside the face, more than 1,000,000 cells';

CREATE FUNCTION s2_inner(region s2union, face integer, i0 integer, i1 integer, j0 integer, j1 integer, level integer)
RETURNS s2union
AS 'MODULE_PATHNAME', 's2union_inner_in'
LANGUAGE C IMMUTABLE STRICT PARALLEL SAFE COST 100;
COMMENT ON FUNCTION s2_inner(s2union, integer, integer, integer, integer, integer, integer)
  IS 'the cells of a level that lie in what a union and a rectangle on a face share, as a union. Errors: a level '
  'outside 0 to 30, a place outside the face, more than 1,000,000 cells';

CREATE FUNCTION s2_map_outer(shape bytea, level integer)
RETURNS s2union
AS 'MODULE_PATHNAME', 's2union_map_outer_of_wkb'
LANGUAGE C IMMUTABLE STRICT PARALLEL SAFE COST 10000;
COMMENT ON FUNCTION s2_map_outer(bytea, integer)
  IS 'a union that contains polygons in WKB or GeoJSON, as they are written, whose edges are straight on the map: '
  'cells of a level, and larger ones for four of them. Proved; since 1.5. Errors: a fault of the bytes or of the '
  'text, a point or a line, a level outside 0 to 30, too many cells';

CREATE FUNCTION s2_map_outer(shape text, level integer)
RETURNS s2union
AS 'MODULE_PATHNAME', 's2union_map_outer_of_geojson'
LANGUAGE C IMMUTABLE STRICT PARALLEL SAFE COST 10000;
COMMENT ON FUNCTION s2_map_outer(text, integer)
  IS 'a union that contains polygons in WKB or GeoJSON, as they are written, whose edges are straight on the map: '
  'cells of a level, and larger ones for four of them. Proved; since 1.5. Errors: a fault of the bytes or of the '
  'text, a point or a line, a level outside 0 to 30, too many cells';

CREATE FUNCTION s2_map_inner(shape bytea, level integer)
RETURNS s2union
AS 'MODULE_PATHNAME', 's2union_map_inner_of_wkb'
LANGUAGE C IMMUTABLE STRICT PARALLEL SAFE COST 10000;
COMMENT ON FUNCTION s2_map_inner(bytea, integer)
  IS 'a union that lies in polygons in WKB or GeoJSON, as they are written. Proved; since 1.5. Errors: those of '
  's2_map_outer';

CREATE FUNCTION s2_map_inner(shape text, level integer)
RETURNS s2union
AS 'MODULE_PATHNAME', 's2union_map_inner_of_geojson'
LANGUAGE C IMMUTABLE STRICT PARALLEL SAFE COST 10000;
COMMENT ON FUNCTION s2_map_inner(text, integer)
  IS 'a union that lies in polygons in WKB or GeoJSON, as they are written. Proved; since 1.5. Errors: those of '
  's2_map_outer';

CREATE FUNCTION s2_map_outer(shape bytea, max_level integer, max_cells integer)
RETURNS s2union
AS 'MODULE_PATHNAME', 's2union_map_outer_of_wkb'
LANGUAGE C IMMUTABLE STRICT PARALLEL SAFE COST 10000;
COMMENT ON FUNCTION s2_map_outer(bytea, integer, integer)
  IS 'a union that contains polygons in WKB or GeoJSON, as they are written, by few cells: at most max_cells, or 6 if '
  'that is more, of which 10,000 are the most that count, none deeper than max_level. Proved; since 1.5. Errors: a '
  'fault of the bytes or of the text, a point or a line, a level outside 0 to 30, a number of cells outside 0 to '
  '1,000,000';

CREATE FUNCTION s2_map_outer(shape text, max_level integer, max_cells integer)
RETURNS s2union
AS 'MODULE_PATHNAME', 's2union_map_outer_of_geojson'
LANGUAGE C IMMUTABLE STRICT PARALLEL SAFE COST 10000;
COMMENT ON FUNCTION s2_map_outer(text, integer, integer)
  IS 'a union that contains polygons in WKB or GeoJSON, as they are written, by few cells: at most max_cells, or 6 if '
  'that is more, of which 10,000 are the most that count, none deeper than max_level. Proved; since 1.5. Errors: a '
  'fault of the bytes or of the text, a point or a line, a level outside 0 to 30, a number of cells outside 0 to '
  '1,000,000';

CREATE FUNCTION s2_map_inner(shape bytea, max_level integer, max_cells integer)
RETURNS s2union
AS 'MODULE_PATHNAME', 's2union_map_inner_of_wkb'
LANGUAGE C IMMUTABLE STRICT PARALLEL SAFE COST 10000;
COMMENT ON FUNCTION s2_map_inner(bytea, integer, integer)
  IS 'a union that lies in polygons in WKB or GeoJSON, as they are written, by at most max_cells cells, of which '
  '10,000 are the most that count. Proved; since 1.5. Errors: those of s2_map_outer';

CREATE FUNCTION s2_map_inner(shape text, max_level integer, max_cells integer)
RETURNS s2union
AS 'MODULE_PATHNAME', 's2union_map_inner_of_geojson'
LANGUAGE C IMMUTABLE STRICT PARALLEL SAFE COST 10000;
COMMENT ON FUNCTION s2_map_inner(text, integer, integer)
  IS 'a union that lies in polygons in WKB or GeoJSON, as they are written, by at most max_cells cells, of which '
  '10,000 are the most that count. Proved; since 1.5. Errors: those of s2_map_outer';

CREATE FUNCTION s2_geodesic_outer(shape bytea, level integer)
RETURNS s2union
AS 'MODULE_PATHNAME', 's2union_geodesic_outer_of_wkb'
LANGUAGE C IMMUTABLE STRICT PARALLEL SAFE COST 10000;
COMMENT ON FUNCTION s2_geodesic_outer(bytea, integer)
  IS 'a union that contains polygons in WKB or GeoJSON, whose edges are geodesics, the shortest ways on the sphere: '
  'cells of a level, and larger ones for four of them. Proved; since 1.5. Errors: those of s2_map_outer, an edge of'
  ' 128 degrees or more, corners that are too far apart';

CREATE FUNCTION s2_geodesic_outer(shape text, level integer)
RETURNS s2union
AS 'MODULE_PATHNAME', 's2union_geodesic_outer_of_geojson'
LANGUAGE C IMMUTABLE STRICT PARALLEL SAFE COST 10000;
COMMENT ON FUNCTION s2_geodesic_outer(text, integer)
  IS 'a union that contains polygons in WKB or GeoJSON, whose edges are geodesics, the shortest ways on the sphere: '
  'cells of a level, and larger ones for four of them. Proved; since 1.5. Errors: those of s2_map_outer, an edge of'
  ' 128 degrees or more, corners that are too far apart';

CREATE FUNCTION s2_geodesic_inner(shape bytea, level integer)
RETURNS s2union
AS 'MODULE_PATHNAME', 's2union_geodesic_inner_of_wkb'
LANGUAGE C IMMUTABLE STRICT PARALLEL SAFE COST 10000;
COMMENT ON FUNCTION s2_geodesic_inner(bytea, integer)
  IS 'a union that lies in polygons in WKB or GeoJSON, whose edges are geodesics. Proved; since 1.5. Errors: those of '
  's2_geodesic_outer';

CREATE FUNCTION s2_geodesic_inner(shape text, level integer)
RETURNS s2union
AS 'MODULE_PATHNAME', 's2union_geodesic_inner_of_geojson'
LANGUAGE C IMMUTABLE STRICT PARALLEL SAFE COST 10000;
COMMENT ON FUNCTION s2_geodesic_inner(text, integer)
  IS 'a union that lies in polygons in WKB or GeoJSON, whose edges are geodesics. Proved; since 1.5. Errors: those of '
  's2_geodesic_outer';

CREATE FUNCTION s2_range(first bigint, last bigint)
RETURNS s2union
AS 'MODULE_PATHNAME', 's2union_range'
LANGUAGE C IMMUTABLE STRICT PARALLEL SAFE COST 20;
COMMENT ON FUNCTION s2_range(bigint, bigint)
  IS 'all leaves from the first of one cell to the last of another. Errors: a last leaf before the first, an invalid '
  'cell';

CREATE FUNCTION s2_range(first text, last text)
RETURNS s2union
LANGUAGE sql IMMUTABLE STRICT PARALLEL SAFE
RETURN s2_range(s2_cell($1), s2_cell($2));
COMMENT ON FUNCTION s2_range(text, text)
  IS 'all leaves from the first of one cell to the last of another. Errors: a last leaf before the first, an invalid '
  'cell';

CREATE FUNCTION s2_range(first text, last bigint)
RETURNS s2union
LANGUAGE sql IMMUTABLE STRICT PARALLEL SAFE
RETURN s2_range(s2_cell($1), $2);
COMMENT ON FUNCTION s2_range(text, bigint)
  IS 'all leaves from the first of one cell to the last of another. Errors: a last leaf before the first, an invalid '
  'cell';

CREATE FUNCTION s2_range(first bigint, last text)
RETURNS s2union
LANGUAGE sql IMMUTABLE STRICT PARALLEL SAFE
RETURN s2_range($1, s2_cell($2));
COMMENT ON FUNCTION s2_range(bigint, text)
  IS 'all leaves from the first of one cell to the last of another. Errors: a last leaf before the first, an invalid '
  'cell';

-- Aggregates

CREATE FUNCTION s2union_agg_step(internal, s2union)
RETURNS internal
AS 'MODULE_PATHNAME'
LANGUAGE C IMMUTABLE PARALLEL SAFE;
COMMENT ON FUNCTION s2union_agg_step(internal, s2union) IS 'aggregate transition function';

CREATE FUNCTION s2union_agg_step(internal, bigint)
RETURNS internal
AS 'MODULE_PATHNAME', 's2union_agg_step_cell'
LANGUAGE C IMMUTABLE PARALLEL SAFE;
COMMENT ON FUNCTION s2union_agg_step(internal, bigint) IS 'aggregate transition function';

CREATE FUNCTION s2union_agg_step(internal, text)
RETURNS internal
AS 'MODULE_PATHNAME', 's2union_agg_step_text'
LANGUAGE C IMMUTABLE PARALLEL SAFE;
COMMENT ON FUNCTION s2union_agg_step(internal, text) IS 'aggregate transition function';

CREATE FUNCTION s2union_agg_combine(internal, internal)
RETURNS internal
AS 'MODULE_PATHNAME'
LANGUAGE C IMMUTABLE PARALLEL SAFE;
COMMENT ON FUNCTION s2union_agg_combine(internal, internal) IS 'aggregate combine function';

CREATE FUNCTION s2union_agg_serialise(internal)
RETURNS bytea
AS 'MODULE_PATHNAME'
LANGUAGE C IMMUTABLE STRICT PARALLEL SAFE;
COMMENT ON FUNCTION s2union_agg_serialise(internal) IS 'aggregate serial function';

CREATE FUNCTION s2union_agg_deserialise(bytea, internal)
RETURNS internal
AS 'MODULE_PATHNAME'
LANGUAGE C IMMUTABLE STRICT PARALLEL SAFE;
COMMENT ON FUNCTION s2union_agg_deserialise(bytea, internal) IS 'aggregate deserial function';

CREATE FUNCTION s2union_agg_final(internal)
RETURNS s2union
AS 'MODULE_PATHNAME'
LANGUAGE C IMMUTABLE PARALLEL SAFE;
COMMENT ON FUNCTION s2union_agg_final(internal) IS 'aggregate final function';

CREATE AGGREGATE s2_union_agg(s2union) (
    SFUNC = s2union_agg_step,
    STYPE = internal,
    FINALFUNC = s2union_agg_final,
    COMBINEFUNC = s2union_agg_combine,
    SERIALFUNC = s2union_agg_serialise,
    DESERIALFUNC = s2union_agg_deserialise,
    PARALLEL = SAFE
);
COMMENT ON AGGREGATE s2_union_agg(s2union) IS 'the union of all rows';

CREATE AGGREGATE s2_union_agg(bigint) (
    SFUNC = s2union_agg_step,
    STYPE = internal,
    FINALFUNC = s2union_agg_final,
    COMBINEFUNC = s2union_agg_combine,
    SERIALFUNC = s2union_agg_serialise,
    DESERIALFUNC = s2union_agg_deserialise,
    PARALLEL = SAFE
);
COMMENT ON AGGREGATE s2_union_agg(bigint) IS 'the union of all rows';

CREATE AGGREGATE s2_union_agg(text) (
    SFUNC = s2union_agg_step,
    STYPE = internal,
    FINALFUNC = s2union_agg_final,
    COMBINEFUNC = s2union_agg_combine,
    SERIALFUNC = s2union_agg_serialise,
    DESERIALFUNC = s2union_agg_deserialise,
    PARALLEL = SAFE
);
COMMENT ON AGGREGATE s2_union_agg(text) IS 'the union of all rows';

CREATE AGGREGATE s2_intersection_agg(s2union) (
    SFUNC = s2_intersection,
    STYPE = s2union,
    COMBINEFUNC = s2_intersection,
    PARALLEL = SAFE
);
COMMENT ON AGGREGATE s2_intersection_agg(s2union) IS 'the intersection of all rows';

-- Order and hash, for btree and hash indexes

CREATE FUNCTION s2union_eq(s2union, s2union)
RETURNS boolean
AS 'MODULE_PATHNAME'
LANGUAGE C IMMUTABLE STRICT PARALLEL SAFE COST 1000 SUPPORT s2union_support;
COMMENT ON FUNCTION s2union_eq(s2union, s2union) IS 'implementation of = operator';

CREATE OPERATOR = (
    LEFTARG = s2union,
    RIGHTARG = s2union,
    FUNCTION = s2union_eq,
    COMMUTATOR = =,
    NEGATOR = <>,
    RESTRICT = eqsel,
    JOIN = eqjoinsel,
    HASHES,
    MERGES
);
COMMENT ON OPERATOR = (s2union, s2union) IS 'equal';

CREATE FUNCTION s2union_ne(s2union, s2union)
RETURNS boolean
AS 'MODULE_PATHNAME'
LANGUAGE C IMMUTABLE STRICT PARALLEL SAFE COST 1000 SUPPORT s2union_support;
COMMENT ON FUNCTION s2union_ne(s2union, s2union) IS 'implementation of <> operator';

CREATE OPERATOR <> (
    LEFTARG = s2union,
    RIGHTARG = s2union,
    FUNCTION = s2union_ne,
    COMMUTATOR = <>,
    NEGATOR = =,
    RESTRICT = neqsel,
    JOIN = neqjoinsel
);
COMMENT ON OPERATOR <> (s2union, s2union) IS 'not equal';

CREATE FUNCTION s2union_lt(s2union, s2union)
RETURNS boolean
AS 'MODULE_PATHNAME'
LANGUAGE C IMMUTABLE STRICT PARALLEL SAFE COST 1000 SUPPORT s2union_support;
COMMENT ON FUNCTION s2union_lt(s2union, s2union) IS 'implementation of < operator';

CREATE OPERATOR < (
    LEFTARG = s2union,
    RIGHTARG = s2union,
    FUNCTION = s2union_lt,
    COMMUTATOR = >,
    NEGATOR = >=,
    RESTRICT = scalarltsel,
    JOIN = scalarltjoinsel
);
COMMENT ON OPERATOR < (s2union, s2union) IS 'comes before in the order of lists';

CREATE FUNCTION s2union_le(s2union, s2union)
RETURNS boolean
AS 'MODULE_PATHNAME'
LANGUAGE C IMMUTABLE STRICT PARALLEL SAFE COST 1000 SUPPORT s2union_support;
COMMENT ON FUNCTION s2union_le(s2union, s2union) IS 'implementation of <= operator';

CREATE OPERATOR <= (
    LEFTARG = s2union,
    RIGHTARG = s2union,
    FUNCTION = s2union_le,
    COMMUTATOR = >=,
    NEGATOR = >,
    RESTRICT = scalarlesel,
    JOIN = scalarlejoinsel
);
COMMENT ON OPERATOR <= (s2union, s2union) IS 'comes before, or equal';

CREATE FUNCTION s2union_gt(s2union, s2union)
RETURNS boolean
AS 'MODULE_PATHNAME'
LANGUAGE C IMMUTABLE STRICT PARALLEL SAFE COST 1000 SUPPORT s2union_support;
COMMENT ON FUNCTION s2union_gt(s2union, s2union) IS 'implementation of > operator';

CREATE OPERATOR > (
    LEFTARG = s2union,
    RIGHTARG = s2union,
    FUNCTION = s2union_gt,
    COMMUTATOR = <,
    NEGATOR = <=,
    RESTRICT = scalargtsel,
    JOIN = scalargtjoinsel
);
COMMENT ON OPERATOR > (s2union, s2union) IS 'comes after in the order of lists';

CREATE FUNCTION s2union_ge(s2union, s2union)
RETURNS boolean
AS 'MODULE_PATHNAME'
LANGUAGE C IMMUTABLE STRICT PARALLEL SAFE COST 1000 SUPPORT s2union_support;
COMMENT ON FUNCTION s2union_ge(s2union, s2union) IS 'implementation of >= operator';

CREATE OPERATOR >= (
    LEFTARG = s2union,
    RIGHTARG = s2union,
    FUNCTION = s2union_ge,
    COMMUTATOR = <=,
    NEGATOR = <,
    RESTRICT = scalargesel,
    JOIN = scalargejoinsel
);
COMMENT ON OPERATOR >= (s2union, s2union) IS 'comes after, or equal';

CREATE FUNCTION s2union_cmp(s2union, s2union)
RETURNS integer
AS 'MODULE_PATHNAME'
LANGUAGE C IMMUTABLE STRICT PARALLEL SAFE COST 1000 SUPPORT s2union_support;
COMMENT ON FUNCTION s2union_cmp(s2union, s2union) IS 'less-equal-greater';

CREATE FUNCTION s2union_hash(s2union)
RETURNS integer
AS 'MODULE_PATHNAME'
LANGUAGE C IMMUTABLE STRICT PARALLEL SAFE;
COMMENT ON FUNCTION s2union_hash(s2union) IS 'hash';

CREATE FUNCTION s2union_hash_extended(s2union, bigint)
RETURNS bigint
AS 'MODULE_PATHNAME'
LANGUAGE C IMMUTABLE STRICT PARALLEL SAFE;
COMMENT ON FUNCTION s2union_hash_extended(s2union, bigint) IS 'hash';

CREATE OPERATOR CLASS s2union_ops
DEFAULT FOR TYPE s2union USING btree AS
    OPERATOR 1 <,
    OPERATOR 2 <=,
    OPERATOR 3 =,
    OPERATOR 4 >=,
    OPERATOR 5 >,
    FUNCTION 1 s2union_cmp(s2union, s2union);

CREATE OPERATOR CLASS s2union_hash_ops
DEFAULT FOR TYPE s2union USING hash AS
    OPERATOR 1 =,
    FUNCTION 1 s2union_hash(s2union),
    FUNCTION 2 s2union_hash_extended(s2union, bigint);

-- An index of leaves

CREATE FUNCTION s2union_least(s2union)
RETURNS bigint
AS 'MODULE_PATHNAME'
LANGUAGE C IMMUTABLE STRICT PARALLEL SAFE COST 1000 SUPPORT s2union_support;
COMMENT ON FUNCTION s2union_least(s2union) IS 'the least leaf, where an index of leaves begins';

CREATE FUNCTION s2union_greatest(s2union)
RETURNS bigint
AS 'MODULE_PATHNAME'
LANGUAGE C IMMUTABLE STRICT PARALLEL SAFE COST 1000 SUPPORT s2union_support;
COMMENT ON FUNCTION s2union_greatest(s2union) IS 'the greatest leaf, where an index of leaves ends';

-- GIN

CREATE FUNCTION s2union_gin_value(s2union, internal)
RETURNS internal
AS 'MODULE_PATHNAME'
LANGUAGE C IMMUTABLE STRICT PARALLEL SAFE;
COMMENT ON FUNCTION s2union_gin_value(s2union, internal) IS 'GIN support';

CREATE FUNCTION s2union_gin_query(s2union, internal, smallint, internal, internal, internal, internal)
RETURNS internal
AS 'MODULE_PATHNAME'
LANGUAGE C IMMUTABLE STRICT PARALLEL SAFE;
COMMENT ON FUNCTION s2union_gin_query(s2union, internal, smallint, internal, internal, internal, internal)
  IS 'GIN support';

CREATE FUNCTION s2union_gin_consistent(internal, smallint, s2union, integer, internal, internal, internal)
RETURNS "char"
AS 'MODULE_PATHNAME'
LANGUAGE C IMMUTABLE STRICT PARALLEL SAFE;
COMMENT ON FUNCTION s2union_gin_consistent(internal, smallint, s2union, integer, internal, internal, internal)
  IS 'GIN support';

CREATE FUNCTION s2union_gin_partial(bigint, bigint, smallint, internal)
RETURNS integer
AS 'MODULE_PATHNAME'
LANGUAGE C IMMUTABLE STRICT PARALLEL SAFE;
COMMENT ON FUNCTION s2union_gin_partial(bigint, bigint, smallint, internal) IS 'GIN support';

CREATE OPERATOR CLASS s2union_gin_ops
DEFAULT FOR TYPE s2union USING gin AS
    OPERATOR 1 &&,
    OPERATOR 2 @> (s2union, s2union),
    OPERATOR 3 <@,
    OPERATOR 4 @> (s2union, bigint),
    OPERATOR 5 && (s2union, bigint),
    FUNCTION 1 btint8cmp(bigint, bigint),
    FUNCTION 2 s2union_gin_value(s2union, internal),
    FUNCTION 3 s2union_gin_query(s2union, internal, smallint, internal, internal, internal, internal),
    FUNCTION 5 s2union_gin_partial(bigint, bigint, smallint, internal),
    FUNCTION 6 s2union_gin_consistent(internal, smallint, s2union, integer, internal, internal, internal),
    STORAGE bigint;

-- GiST

CREATE FUNCTION s2union_gist_compress(internal)
RETURNS internal
AS 'MODULE_PATHNAME'
LANGUAGE C IMMUTABLE STRICT PARALLEL SAFE;
COMMENT ON FUNCTION s2union_gist_compress(internal) IS 'GiST support';

CREATE FUNCTION s2union_gist_consistent(internal, s2union, smallint, oid, internal)
RETURNS boolean
AS 'MODULE_PATHNAME'
LANGUAGE C IMMUTABLE STRICT PARALLEL SAFE;
COMMENT ON FUNCTION s2union_gist_consistent(internal, s2union, smallint, oid, internal) IS 'GiST support';

CREATE FUNCTION s2union_gist_union(internal, internal)
RETURNS s2union
AS 'MODULE_PATHNAME'
LANGUAGE C IMMUTABLE STRICT PARALLEL SAFE;
COMMENT ON FUNCTION s2union_gist_union(internal, internal) IS 'GiST support';

CREATE FUNCTION s2union_gist_penalty(internal, internal, internal)
RETURNS internal
AS 'MODULE_PATHNAME'
LANGUAGE C IMMUTABLE STRICT PARALLEL SAFE;
COMMENT ON FUNCTION s2union_gist_penalty(internal, internal, internal) IS 'GiST support';

CREATE FUNCTION s2union_gist_picksplit(internal, internal)
RETURNS internal
AS 'MODULE_PATHNAME'
LANGUAGE C IMMUTABLE STRICT PARALLEL SAFE;
COMMENT ON FUNCTION s2union_gist_picksplit(internal, internal) IS 'GiST support';

CREATE FUNCTION s2union_gist_same(s2union, s2union, internal)
RETURNS internal
AS 'MODULE_PATHNAME'
LANGUAGE C IMMUTABLE STRICT PARALLEL SAFE;
COMMENT ON FUNCTION s2union_gist_same(s2union, s2union, internal) IS 'GiST support';

CREATE FUNCTION s2union_gist_sortsupport(internal)
RETURNS void
AS 'MODULE_PATHNAME'
LANGUAGE C IMMUTABLE STRICT PARALLEL SAFE;
COMMENT ON FUNCTION s2union_gist_sortsupport(internal) IS 'GiST support';

CREATE OPERATOR CLASS s2union_gist_ops
DEFAULT FOR TYPE s2union USING gist AS
    OPERATOR 1 &&,
    OPERATOR 2 @> (s2union, s2union),
    OPERATOR 4 @> (s2union, bigint),
    OPERATOR 5 && (s2union, bigint),
    FUNCTION 1 s2union_gist_consistent(internal, s2union, smallint, oid, internal),
    FUNCTION 2 s2union_gist_union(internal, internal),
    FUNCTION 3 s2union_gist_compress(internal),
    FUNCTION 5 s2union_gist_penalty(internal, internal, internal),
    FUNCTION 6 s2union_gist_picksplit(internal, internal),
    FUNCTION 7 s2union_gist_same(s2union, s2union, internal),
    FUNCTION 11 s2union_gist_sortsupport(internal);

-- Version

CREATE FUNCTION s2_version()
RETURNS text
AS 'MODULE_PATHNAME'
LANGUAGE C STABLE STRICT PARALLEL SAFE;
COMMENT ON FUNCTION s2_version() IS 'the version of the code that is loaded';
