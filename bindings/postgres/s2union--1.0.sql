-- s2union 1.0: unions of S2 cells, as the first version made them, for the updates from it. README.md says what
-- each function does.

\echo Use "CREATE EXTENSION s2union VERSION '1.0'" to load this file. \quit

-- The type

CREATE TYPE s2union;

CREATE FUNCTION s2union_in(cstring)
RETURNS s2union
AS 'MODULE_PATHNAME'
LANGUAGE C IMMUTABLE STRICT PARALLEL SAFE;

CREATE FUNCTION s2union_out(s2union)
RETURNS cstring
AS 'MODULE_PATHNAME'
LANGUAGE C IMMUTABLE STRICT PARALLEL SAFE;

CREATE FUNCTION s2union_recv(internal)
RETURNS s2union
AS 'MODULE_PATHNAME'
LANGUAGE C IMMUTABLE STRICT PARALLEL SAFE;

CREATE FUNCTION s2union_send(s2union)
RETURNS bytea
AS 'MODULE_PATHNAME'
LANGUAGE C IMMUTABLE STRICT PARALLEL SAFE;

CREATE FUNCTION s2union_typanalyze(internal)
RETURNS boolean
AS 'MODULE_PATHNAME'
LANGUAGE C STRICT;

CREATE TYPE s2union (
    INPUT = s2union_in,
    OUTPUT = s2union_out,
    RECEIVE = s2union_recv,
    SEND = s2union_send,
    ANALYZE = s2union_typanalyze,
    INTERNALLENGTH = VARIABLE,
    ALIGNMENT = double,
    STORAGE = extended
);

-- What the planner is told

CREATE FUNCTION s2union_support(internal)
RETURNS internal
AS 'MODULE_PATHNAME'
LANGUAGE C IMMUTABLE STRICT PARALLEL SAFE;

CREATE FUNCTION s2union_sel(internal, oid, internal, integer)
RETURNS double precision
AS 'MODULE_PATHNAME'
LANGUAGE C IMMUTABLE STRICT PARALLEL SAFE;

CREATE FUNCTION s2union_joinsel(internal, oid, internal, smallint, internal)
RETURNS double precision
AS 'MODULE_PATHNAME'
LANGUAGE C IMMUTABLE STRICT PARALLEL SAFE;

-- Casts: a union's file, a cell, and an array of cells

CREATE FUNCTION s2union(bytea)
RETURNS s2union
AS 'MODULE_PATHNAME', 's2union_from_bytea'
LANGUAGE C IMMUTABLE STRICT PARALLEL SAFE;

CREATE FUNCTION bytea(s2union)
RETURNS bytea
AS 'MODULE_PATHNAME', 's2union_send'
LANGUAGE C IMMUTABLE STRICT PARALLEL SAFE;

CREATE FUNCTION s2union(bigint)
RETURNS s2union
AS 'MODULE_PATHNAME', 's2union_from_cell'
LANGUAGE C IMMUTABLE STRICT PARALLEL SAFE;

CREATE CAST (bytea AS s2union) WITH FUNCTION s2union(bytea);

CREATE CAST (s2union AS bytea) WITH FUNCTION bytea(s2union);

CREATE CAST (bigint AS s2union) WITH FUNCTION s2union(bigint);

CREATE FUNCTION s2union(bigint[])
RETURNS s2union
AS 'MODULE_PATHNAME', 's2union_from_cells'
LANGUAGE C IMMUTABLE STRICT PARALLEL SAFE;

CREATE CAST (bigint[] AS s2union) WITH FUNCTION s2union(bigint[]);

-- Set operations and questions

CREATE FUNCTION s2_union(s2union, s2union)
RETURNS s2union
AS 'MODULE_PATHNAME', 's2union_union'
LANGUAGE C IMMUTABLE STRICT PARALLEL SAFE
COST 1000 SUPPORT s2union_support;

CREATE FUNCTION s2_intersection(s2union, s2union)
RETURNS s2union
AS 'MODULE_PATHNAME', 's2union_intersection'
LANGUAGE C IMMUTABLE STRICT PARALLEL SAFE
COST 1000 SUPPORT s2union_support;

CREATE FUNCTION s2_difference(s2union, s2union)
RETURNS s2union
AS 'MODULE_PATHNAME', 's2union_difference'
LANGUAGE C IMMUTABLE STRICT PARALLEL SAFE
COST 1000 SUPPORT s2union_support;

CREATE FUNCTION s2_contains(s2union, s2union)
RETURNS boolean
AS 'MODULE_PATHNAME', 's2union_contains'
LANGUAGE C IMMUTABLE STRICT PARALLEL SAFE
COST 1000 SUPPORT s2union_support;

CREATE FUNCTION s2_within(s2union, s2union)
RETURNS boolean
AS 'MODULE_PATHNAME', 's2union_within'
LANGUAGE C IMMUTABLE STRICT PARALLEL SAFE
COST 1000 SUPPORT s2union_support;

CREATE FUNCTION s2_intersects(s2union, s2union)
RETURNS boolean
AS 'MODULE_PATHNAME', 's2union_intersects'
LANGUAGE C IMMUTABLE STRICT PARALLEL SAFE
COST 1000 SUPPORT s2union_support;

CREATE FUNCTION s2_contains(s2union, bigint)
RETURNS boolean
AS 'MODULE_PATHNAME', 's2union_contains_cell'
LANGUAGE C IMMUTABLE STRICT PARALLEL SAFE
COST 1000 SUPPORT s2union_support;

CREATE FUNCTION s2_symmetric_difference(s2union, s2union)
RETURNS s2union
AS 'MODULE_PATHNAME', 's2union_symmetric_difference'
LANGUAGE C IMMUTABLE STRICT PARALLEL SAFE
COST 1000 SUPPORT s2union_support;

CREATE FUNCTION s2_within(bigint, s2union)
RETURNS boolean
AS 'MODULE_PATHNAME', 's2union_cell_within'
LANGUAGE C IMMUTABLE STRICT PARALLEL SAFE
COST 1000 SUPPORT s2union_support;

CREATE FUNCTION s2_intersects(s2union, bigint)
RETURNS boolean
AS 'MODULE_PATHNAME', 's2union_intersects_cell'
LANGUAGE C IMMUTABLE STRICT PARALLEL SAFE
COST 1000 SUPPORT s2union_support;

CREATE FUNCTION s2_intersects(bigint, s2union)
RETURNS boolean
AS 'MODULE_PATHNAME', 's2union_cell_intersects'
LANGUAGE C IMMUTABLE STRICT PARALLEL SAFE
COST 1000 SUPPORT s2union_support;

CREATE FUNCTION s2_is_union(bytea)
RETURNS boolean
AS 'MODULE_PATHNAME'
LANGUAGE C IMMUTABLE STRICT PARALLEL SAFE;

CREATE OPERATOR | (
    LEFTARG = s2union,
    RIGHTARG = s2union,
    FUNCTION = s2_union,
    COMMUTATOR = |
);

CREATE OPERATOR & (
    LEFTARG = s2union,
    RIGHTARG = s2union,
    FUNCTION = s2_intersection,
    COMMUTATOR = &
);

CREATE OPERATOR - (
    LEFTARG = s2union,
    RIGHTARG = s2union,
    FUNCTION = s2_difference
);

CREATE OPERATOR @> (
    LEFTARG = s2union,
    RIGHTARG = s2union,
    FUNCTION = s2_contains,
    COMMUTATOR = <@,
    RESTRICT = s2union_sel,
    JOIN = s2union_joinsel
);

CREATE OPERATOR <@ (
    LEFTARG = s2union,
    RIGHTARG = s2union,
    FUNCTION = s2_within,
    COMMUTATOR = @>,
    RESTRICT = s2union_sel,
    JOIN = s2union_joinsel
);

CREATE OPERATOR && (
    LEFTARG = s2union,
    RIGHTARG = s2union,
    FUNCTION = s2_intersects,
    COMMUTATOR = &&,
    RESTRICT = s2union_sel,
    JOIN = s2union_joinsel
);

CREATE OPERATOR @> (
    LEFTARG = s2union,
    RIGHTARG = bigint,
    FUNCTION = s2_contains,
    RESTRICT = s2union_sel,
    JOIN = s2union_joinsel
);

CREATE OPERATOR # (
    LEFTARG = s2union,
    RIGHTARG = s2union,
    FUNCTION = s2_symmetric_difference,
    COMMUTATOR = #
);

CREATE OPERATOR <@ (
    LEFTARG = bigint,
    RIGHTARG = s2union,
    FUNCTION = s2_within,
    COMMUTATOR = @>,
    RESTRICT = s2union_sel,
    JOIN = s2union_joinsel
);

CREATE OPERATOR && (
    LEFTARG = s2union,
    RIGHTARG = bigint,
    FUNCTION = s2_intersects,
    COMMUTATOR = &&,
    RESTRICT = s2union_sel,
    JOIN = s2union_joinsel
);

CREATE OPERATOR && (
    LEFTARG = bigint,
    RIGHTARG = s2union,
    FUNCTION = s2_intersects,
    COMMUTATOR = &&,
    RESTRICT = s2union_sel,
    JOIN = s2union_joinsel
);

-- Counts, texts, coverings and ranges

CREATE FUNCTION s2_count(s2union)
RETURNS bigint
AS 'MODULE_PATHNAME', 's2union_count'
LANGUAGE C IMMUTABLE STRICT PARALLEL SAFE
COST 1000 SUPPORT s2union_support;

CREATE FUNCTION s2_leaves(s2union)
RETURNS bigint
AS 'MODULE_PATHNAME', 's2union_leaves'
LANGUAGE C IMMUTABLE STRICT PARALLEL SAFE
COST 1000 SUPPORT s2union_support;

CREATE FUNCTION s2_cells(s2union)
RETURNS bigint[]
AS 'MODULE_PATHNAME', 's2union_cells'
LANGUAGE C IMMUTABLE STRICT PARALLEL SAFE
COST 1000 SUPPORT s2union_support;

CREATE FUNCTION s2_ancestors(s2union)
RETURNS bigint[]
AS 'MODULE_PATHNAME', 's2union_ancestors'
LANGUAGE C IMMUTABLE STRICT PARALLEL SAFE
COST 1000 SUPPORT s2union_support;

CREATE FUNCTION s2_outer(face integer, i0 integer, i1 integer, j0 integer, j1 integer, level integer)
RETURNS s2union
AS 'MODULE_PATHNAME', 's2union_outer'
LANGUAGE C IMMUTABLE STRICT PARALLEL SAFE COST 100;

CREATE FUNCTION s2_outer(s2union, level integer)
RETURNS s2union
AS 'MODULE_PATHNAME', 's2union_outer_of'
LANGUAGE C IMMUTABLE STRICT PARALLEL SAFE
COST 1000 SUPPORT s2union_support;

CREATE FUNCTION s2_inner(face integer, i0 integer, i1 integer, j0 integer, j1 integer, level integer)
RETURNS s2union
AS 'MODULE_PATHNAME', 's2union_inner'
LANGUAGE C IMMUTABLE STRICT PARALLEL SAFE COST 100;

CREATE FUNCTION s2_inner(s2union, level integer)
RETURNS s2union
AS 'MODULE_PATHNAME', 's2union_inner_of'
LANGUAGE C IMMUTABLE STRICT PARALLEL SAFE
COST 1000 SUPPORT s2union_support;

CREATE FUNCTION s2_range(first bigint, last bigint)
RETURNS s2union
AS 'MODULE_PATHNAME', 's2union_range'
LANGUAGE C IMMUTABLE STRICT PARALLEL SAFE COST 20;

CREATE FUNCTION s2_tokens(s2union)
RETURNS text
AS 'MODULE_PATHNAME', 's2union_tokens'
LANGUAGE C IMMUTABLE STRICT PARALLEL SAFE
COST 1000 SUPPORT s2union_support;

CREATE FUNCTION s2_cells(s2union, level integer, modulus integer DEFAULT 1)
RETURNS bigint[]
AS 'MODULE_PATHNAME', 's2union_cells_cut'
LANGUAGE C IMMUTABLE STRICT PARALLEL SAFE
COST 1000 SUPPORT s2union_support;

CREATE FUNCTION s2_outer(s2union, face integer, i0 integer, i1 integer, j0 integer, j1 integer, level integer)
RETURNS s2union
AS 'MODULE_PATHNAME', 's2union_outer_in'
LANGUAGE C IMMUTABLE STRICT PARALLEL SAFE COST 100;

CREATE FUNCTION s2_inner(s2union, face integer, i0 integer, i1 integer, j0 integer, j1 integer, level integer)
RETURNS s2union
AS 'MODULE_PATHNAME', 's2union_inner_in'
LANGUAGE C IMMUTABLE STRICT PARALLEL SAFE COST 100;

CREATE CAST (s2union AS bigint[]) WITH FUNCTION s2_cells(s2union);

-- Cells

CREATE FUNCTION s2_leaf(face integer, i integer, j integer)
RETURNS bigint
AS 'MODULE_PATHNAME'
LANGUAGE C IMMUTABLE STRICT PARALLEL SAFE;

CREATE FUNCTION s2_cell(text)
RETURNS bigint
AS 'MODULE_PATHNAME'
LANGUAGE C IMMUTABLE STRICT PARALLEL SAFE;

CREATE FUNCTION s2_token(bigint)
RETURNS text
AS 'MODULE_PATHNAME'
LANGUAGE C IMMUTABLE STRICT PARALLEL SAFE;

CREATE FUNCTION s2_level(bigint)
RETURNS integer
AS 'MODULE_PATHNAME'
LANGUAGE C IMMUTABLE STRICT PARALLEL SAFE;

CREATE FUNCTION s2_face(bigint)
RETURNS integer
AS 'MODULE_PATHNAME'
LANGUAGE C IMMUTABLE STRICT PARALLEL SAFE;

CREATE FUNCTION s2_parent(bigint, level integer)
RETURNS bigint
AS 'MODULE_PATHNAME'
LANGUAGE C IMMUTABLE STRICT PARALLEL SAFE;

CREATE FUNCTION s2_range_min(bigint)
RETURNS bigint
AS 'MODULE_PATHNAME'
LANGUAGE C IMMUTABLE STRICT PARALLEL SAFE;

CREATE FUNCTION s2_range_max(bigint)
RETURNS bigint
AS 'MODULE_PATHNAME'
LANGUAGE C IMMUTABLE STRICT PARALLEL SAFE;

CREATE FUNCTION s2_debug(bigint)
RETURNS text
AS 'MODULE_PATHNAME'
LANGUAGE C IMMUTABLE STRICT PARALLEL SAFE;

CREATE FUNCTION s2_child(bigint, child integer)
RETURNS bigint
AS 'MODULE_PATHNAME'
LANGUAGE C IMMUTABLE STRICT PARALLEL SAFE;

CREATE FUNCTION s2_common_ancestor(bigint, bigint)
RETURNS bigint
AS 'MODULE_PATHNAME'
LANGUAGE C IMMUTABLE STRICT PARALLEL SAFE;

CREATE FUNCTION s2_version()
RETURNS text
AS 'MODULE_PATHNAME'
LANGUAGE C STABLE STRICT PARALLEL SAFE;

-- Order and hash

CREATE FUNCTION s2union_eq(s2union, s2union)
RETURNS boolean
AS 'MODULE_PATHNAME'
LANGUAGE C IMMUTABLE STRICT PARALLEL SAFE
COST 1000 SUPPORT s2union_support;

CREATE FUNCTION s2union_ne(s2union, s2union)
RETURNS boolean
AS 'MODULE_PATHNAME'
LANGUAGE C IMMUTABLE STRICT PARALLEL SAFE
COST 1000 SUPPORT s2union_support;

CREATE FUNCTION s2union_lt(s2union, s2union)
RETURNS boolean
AS 'MODULE_PATHNAME'
LANGUAGE C IMMUTABLE STRICT PARALLEL SAFE
COST 1000 SUPPORT s2union_support;

CREATE FUNCTION s2union_le(s2union, s2union)
RETURNS boolean
AS 'MODULE_PATHNAME'
LANGUAGE C IMMUTABLE STRICT PARALLEL SAFE
COST 1000 SUPPORT s2union_support;

CREATE FUNCTION s2union_gt(s2union, s2union)
RETURNS boolean
AS 'MODULE_PATHNAME'
LANGUAGE C IMMUTABLE STRICT PARALLEL SAFE
COST 1000 SUPPORT s2union_support;

CREATE FUNCTION s2union_ge(s2union, s2union)
RETURNS boolean
AS 'MODULE_PATHNAME'
LANGUAGE C IMMUTABLE STRICT PARALLEL SAFE
COST 1000 SUPPORT s2union_support;

CREATE FUNCTION s2union_cmp(s2union, s2union)
RETURNS integer
AS 'MODULE_PATHNAME'
LANGUAGE C IMMUTABLE STRICT PARALLEL SAFE
COST 1000 SUPPORT s2union_support;

CREATE FUNCTION s2union_hash(s2union)
RETURNS integer
AS 'MODULE_PATHNAME'
LANGUAGE C IMMUTABLE STRICT PARALLEL SAFE;

CREATE FUNCTION s2union_hash_extended(s2union, bigint)
RETURNS bigint
AS 'MODULE_PATHNAME'
LANGUAGE C IMMUTABLE STRICT PARALLEL SAFE;

CREATE OPERATOR = (
    LEFTARG = s2union,
    RIGHTARG = s2union,
    FUNCTION = s2union_eq,
    COMMUTATOR = =,
    NEGATOR = <>,
    RESTRICT = eqsel,
    JOIN = eqjoinsel,
    HASHES,
    MERGES
);

CREATE OPERATOR <> (
    LEFTARG = s2union,
    RIGHTARG = s2union,
    FUNCTION = s2union_ne,
    COMMUTATOR = <>,
    NEGATOR = =,
    RESTRICT = neqsel,
    JOIN = neqjoinsel
);

CREATE OPERATOR < (
    LEFTARG = s2union,
    RIGHTARG = s2union,
    FUNCTION = s2union_lt,
    COMMUTATOR = >,
    NEGATOR = >=,
    RESTRICT = scalarltsel,
    JOIN = scalarltjoinsel
);

CREATE OPERATOR <= (
    LEFTARG = s2union,
    RIGHTARG = s2union,
    FUNCTION = s2union_le,
    COMMUTATOR = >=,
    NEGATOR = >,
    RESTRICT = scalarlesel,
    JOIN = scalarlejoinsel
);

CREATE OPERATOR > (
    LEFTARG = s2union,
    RIGHTARG = s2union,
    FUNCTION = s2union_gt,
    COMMUTATOR = <,
    NEGATOR = <=,
    RESTRICT = scalargtsel,
    JOIN = scalargtjoinsel
);

CREATE OPERATOR >= (
    LEFTARG = s2union,
    RIGHTARG = s2union,
    FUNCTION = s2union_ge,
    COMMUTATOR = <=,
    NEGATOR = <,
    RESTRICT = scalargesel,
    JOIN = scalargejoinsel
);

CREATE OPERATOR CLASS s2union_ops
DEFAULT FOR TYPE s2union USING btree AS
    OPERATOR 1 <,
    OPERATOR 2 <=,
    OPERATOR 3 =,
    OPERATOR 4 >=,
    OPERATOR 5 >,
    FUNCTION 1 s2union_cmp(s2union, s2union);

CREATE OPERATOR CLASS s2union_hash_ops
DEFAULT FOR TYPE s2union USING hash AS
    OPERATOR 1 =,
    FUNCTION 1 s2union_hash(s2union),
    FUNCTION 2 s2union_hash_extended(s2union, bigint);

-- Aggregates

CREATE FUNCTION s2union_agg_step(internal, s2union)
RETURNS internal
AS 'MODULE_PATHNAME'
LANGUAGE C IMMUTABLE PARALLEL SAFE;

CREATE FUNCTION s2union_agg_combine(internal, internal)
RETURNS internal
AS 'MODULE_PATHNAME'
LANGUAGE C IMMUTABLE PARALLEL SAFE;

CREATE FUNCTION s2union_agg_serialise(internal)
RETURNS bytea
AS 'MODULE_PATHNAME'
LANGUAGE C IMMUTABLE STRICT PARALLEL SAFE;

CREATE FUNCTION s2union_agg_deserialise(bytea, internal)
RETURNS internal
AS 'MODULE_PATHNAME'
LANGUAGE C IMMUTABLE STRICT PARALLEL SAFE;

CREATE FUNCTION s2union_agg_final(internal)
RETURNS s2union
AS 'MODULE_PATHNAME'
LANGUAGE C IMMUTABLE PARALLEL SAFE;

CREATE AGGREGATE s2_union_agg(s2union) (
    SFUNC = s2union_agg_step,
    STYPE = internal,
    FINALFUNC = s2union_agg_final,
    COMBINEFUNC = s2union_agg_combine,
    SERIALFUNC = s2union_agg_serialise,
    DESERIALFUNC = s2union_agg_deserialise,
    PARALLEL = SAFE
);

CREATE FUNCTION s2union_agg_step(internal, bigint)
RETURNS internal
AS 'MODULE_PATHNAME', 's2union_agg_step_cell'
LANGUAGE C IMMUTABLE PARALLEL SAFE;

CREATE AGGREGATE s2_union_agg(bigint) (
    SFUNC = s2union_agg_step,
    STYPE = internal,
    FINALFUNC = s2union_agg_final,
    COMBINEFUNC = s2union_agg_combine,
    SERIALFUNC = s2union_agg_serialise,
    DESERIALFUNC = s2union_agg_deserialise,
    PARALLEL = SAFE
);

CREATE AGGREGATE s2_intersection_agg(s2union) (
    SFUNC = s2_intersection,
    STYPE = s2union,
    COMBINEFUNC = s2_intersection,
    PARALLEL = SAFE
);

-- GIN

CREATE FUNCTION s2union_gin_value(s2union, internal)
RETURNS internal
AS 'MODULE_PATHNAME'
LANGUAGE C IMMUTABLE STRICT PARALLEL SAFE;

CREATE FUNCTION s2union_gin_query(s2union, internal, smallint, internal, internal, internal, internal)
RETURNS internal
AS 'MODULE_PATHNAME'
LANGUAGE C IMMUTABLE STRICT PARALLEL SAFE;

CREATE FUNCTION s2union_gin_consistent(internal, smallint, s2union, integer, internal, internal, internal)
RETURNS "char"
AS 'MODULE_PATHNAME'
LANGUAGE C IMMUTABLE STRICT PARALLEL SAFE;

CREATE FUNCTION s2union_gin_partial(bigint, bigint, smallint, internal)
RETURNS integer
AS 'MODULE_PATHNAME'
LANGUAGE C IMMUTABLE STRICT PARALLEL SAFE;

CREATE OPERATOR CLASS s2union_gin_ops
DEFAULT FOR TYPE s2union USING gin AS
    OPERATOR 1 &&,
    OPERATOR 2 @> (s2union, s2union),
    OPERATOR 3 <@,
    OPERATOR 4 @> (s2union, bigint),
    OPERATOR 5 && (s2union, bigint),
    FUNCTION 1 btint8cmp(bigint, bigint),
    FUNCTION 2 s2union_gin_value(s2union, internal),
    FUNCTION 3 s2union_gin_query(s2union, internal, smallint, internal, internal, internal, internal),
    FUNCTION 5 s2union_gin_partial(bigint, bigint, smallint, internal),
    FUNCTION 6 s2union_gin_consistent(internal, smallint, s2union, integer, internal, internal, internal),
    STORAGE bigint;

-- GiST

CREATE FUNCTION s2union_gist_compress(internal)
RETURNS internal
AS 'MODULE_PATHNAME'
LANGUAGE C IMMUTABLE STRICT PARALLEL SAFE;

CREATE FUNCTION s2union_gist_consistent(internal, s2union, smallint, oid, internal)
RETURNS boolean
AS 'MODULE_PATHNAME'
LANGUAGE C IMMUTABLE STRICT PARALLEL SAFE;

CREATE FUNCTION s2union_gist_union(internal, internal)
RETURNS s2union
AS 'MODULE_PATHNAME'
LANGUAGE C IMMUTABLE STRICT PARALLEL SAFE;

CREATE FUNCTION s2union_gist_penalty(internal, internal, internal)
RETURNS internal
AS 'MODULE_PATHNAME'
LANGUAGE C IMMUTABLE STRICT PARALLEL SAFE;

CREATE FUNCTION s2union_gist_picksplit(internal, internal)
RETURNS internal
AS 'MODULE_PATHNAME'
LANGUAGE C IMMUTABLE STRICT PARALLEL SAFE;

CREATE FUNCTION s2union_gist_same(s2union, s2union, internal)
RETURNS internal
AS 'MODULE_PATHNAME'
LANGUAGE C IMMUTABLE STRICT PARALLEL SAFE;

CREATE FUNCTION s2union_gist_sortsupport(internal)
RETURNS void
AS 'MODULE_PATHNAME'
LANGUAGE C IMMUTABLE STRICT PARALLEL SAFE;

CREATE OPERATOR CLASS s2union_gist_ops
DEFAULT FOR TYPE s2union USING gist AS
    OPERATOR 1 &&,
    OPERATOR 2 @> (s2union, s2union),
    OPERATOR 4 @> (s2union, bigint),
    OPERATOR 5 && (s2union, bigint),
    FUNCTION 1 s2union_gist_consistent(internal, s2union, smallint, oid, internal),
    FUNCTION 2 s2union_gist_union(internal, internal),
    FUNCTION 3 s2union_gist_compress(internal),
    FUNCTION 5 s2union_gist_penalty(internal, internal, internal),
    FUNCTION 6 s2union_gist_picksplit(internal, internal),
    FUNCTION 7 s2union_gist_same(s2union, s2union, internal),
    FUNCTION 11 s2union_gist_sortsupport(internal);

-- Comments

COMMENT ON TYPE s2union IS 'a region of the sphere: a normalized union of S2 cells';
COMMENT ON FUNCTION s2union(bytea) IS 'the union in a union file';
COMMENT ON FUNCTION bytea(s2union) IS 'the union file of a union';
COMMENT ON FUNCTION s2union(bigint) IS 'a union of one cell';
COMMENT ON FUNCTION s2union(bigint[]) IS 'the union of cells';
COMMENT ON FUNCTION s2_union(s2union, s2union) IS 'the leaves of either';
COMMENT ON FUNCTION s2_intersection(s2union, s2union) IS 'the leaves of both';
COMMENT ON FUNCTION s2_difference(s2union, s2union) IS 'the leaves of the first that are not in the second';
COMMENT ON FUNCTION s2_symmetric_difference(s2union, s2union) IS 'the leaves of exactly one';
COMMENT ON FUNCTION s2_contains(s2union, s2union) IS 'whether all leaves of the second are in the first';
COMMENT ON FUNCTION s2_contains(s2union, bigint) IS 'whether a cell lies in a union';
COMMENT ON FUNCTION s2_within(s2union, s2union) IS 'whether all leaves of the first are in the second';
COMMENT ON FUNCTION s2_within(bigint, s2union) IS 'whether a cell lies in a union';
COMMENT ON FUNCTION s2_intersects(s2union, s2union) IS 'whether they share a leaf';
COMMENT ON FUNCTION s2_intersects(s2union, bigint) IS 'whether a union and a cell share a leaf';
COMMENT ON FUNCTION s2_intersects(bigint, s2union) IS 'whether a cell and a union share a leaf';
COMMENT ON FUNCTION s2_is_union(bytea) IS 'whether bytes are the union file of a union';
COMMENT ON FUNCTION s2_count(s2union) IS 'how many cells';
COMMENT ON FUNCTION s2_leaves(s2union) IS 'how many leaves';
COMMENT ON FUNCTION s2_cells(s2union) IS 'the cells';
COMMENT ON FUNCTION s2_cells(s2union, integer, integer)
  IS 'the cells, each cut to a level that is at least this one, and this one plus a multiple of the modulus';
COMMENT ON FUNCTION s2_tokens(s2union) IS 'the cells as tokens separated by blanks';
COMMENT ON FUNCTION s2_ancestors(s2union) IS 'the cells and all their ancestors, each once';
COMMENT ON FUNCTION s2_outer(s2union, integer) IS 'the cells of a level that share a leaf with a union, as a union';
COMMENT ON FUNCTION s2_inner(s2union, integer) IS 'the cells of a level that lie in a union, as a union';
COMMENT ON FUNCTION s2_outer(integer, integer, integer, integer, integer, integer)
  IS 'the cells of a level that share a leaf with a rectangle of leaves on a face, as a union';
COMMENT ON FUNCTION s2_inner(integer, integer, integer, integer, integer, integer)
  IS 'the cells of a level that lie in a rectangle of leaves on a face, as a union';
COMMENT ON FUNCTION s2_range(bigint, bigint) IS 'all leaves from the first of one cell to the last of another';
COMMENT ON FUNCTION s2_leaf(integer, integer, integer) IS 'the leaf at a place of a face';
COMMENT ON FUNCTION s2_version() IS 'the version of the code that the server has loaded';
COMMENT ON FUNCTION s2_cell(text) IS 'the cell of a token or of a debug text';
COMMENT ON FUNCTION s2_token(bigint) IS 'the token of a cell';
COMMENT ON FUNCTION s2_debug(bigint) IS 'the debug text of a cell';
COMMENT ON FUNCTION s2_level(bigint) IS 'the level of a cell: 0 (a face) to 30 (a leaf)';
COMMENT ON FUNCTION s2_face(bigint) IS 'the face of a cell: 0 to 5';
COMMENT ON FUNCTION s2_parent(bigint, integer) IS 'the cell of a level that contains a cell, or NULL';
COMMENT ON FUNCTION s2_child(bigint, integer) IS 'a child of a cell: 0 to 3 along the curve, or NULL';
COMMENT ON FUNCTION s2_common_ancestor(bigint, bigint) IS 'the smallest cell that contains both, or NULL';
COMMENT ON FUNCTION s2_range_min(bigint) IS 'the first leaf of a cell';
COMMENT ON FUNCTION s2_range_max(bigint) IS 'the last leaf of a cell';
COMMENT ON AGGREGATE s2_union_agg(s2union) IS 'the union of all rows';
COMMENT ON AGGREGATE s2_union_agg(bigint) IS 'the union of all cells';
COMMENT ON AGGREGATE s2_intersection_agg(s2union) IS 'the intersection of all rows';
COMMENT ON OPERATOR | (s2union, s2union) IS 'the leaves of either';
COMMENT ON OPERATOR & (s2union, s2union) IS 'the leaves of both';
COMMENT ON OPERATOR - (s2union, s2union) IS 'the leaves of the first that are not in the second';
COMMENT ON OPERATOR # (s2union, s2union) IS 'the leaves of exactly one';
COMMENT ON OPERATOR @> (s2union, s2union) IS 'contains';
COMMENT ON OPERATOR @> (s2union, bigint) IS 'contains';
COMMENT ON OPERATOR <@ (s2union, s2union) IS 'lies in';
COMMENT ON OPERATOR <@ (bigint, s2union) IS 'lies in';
COMMENT ON OPERATOR && (s2union, s2union) IS 'shares a leaf with';
COMMENT ON OPERATOR && (s2union, bigint) IS 'shares a leaf with';
COMMENT ON OPERATOR && (bigint, s2union) IS 'shares a leaf with';
COMMENT ON OPERATOR = (s2union, s2union) IS 'equal';
COMMENT ON OPERATOR <> (s2union, s2union) IS 'not equal';
COMMENT ON OPERATOR < (s2union, s2union) IS 'comes before in the order of lists';
COMMENT ON OPERATOR <= (s2union, s2union) IS 'comes before, or equal';
COMMENT ON OPERATOR > (s2union, s2union) IS 'comes after in the order of lists';
COMMENT ON OPERATOR >= (s2union, s2union) IS 'comes after, or equal';
COMMENT ON FUNCTION s2union_in(cstring) IS 'I/O';
COMMENT ON FUNCTION s2union_out(s2union) IS 'I/O';
COMMENT ON FUNCTION s2union_recv(internal) IS 'I/O';
COMMENT ON FUNCTION s2union_send(s2union) IS 'I/O';
COMMENT ON FUNCTION s2union_typanalyze(internal) IS 'what ANALYZE keeps of unions';
COMMENT ON FUNCTION s2union_support(internal) IS 'planner support for unions';
COMMENT ON FUNCTION s2union_sel(internal, oid, internal, integer)
  IS 'restriction selectivity of questions about unions';
COMMENT ON FUNCTION s2union_joinsel(internal, oid, internal, smallint, internal)
  IS 'join selectivity of questions about unions';
COMMENT ON FUNCTION s2union_eq(s2union, s2union) IS 'implementation of = operator';
COMMENT ON FUNCTION s2union_ne(s2union, s2union) IS 'implementation of <> operator';
COMMENT ON FUNCTION s2union_lt(s2union, s2union) IS 'implementation of < operator';
COMMENT ON FUNCTION s2union_le(s2union, s2union) IS 'implementation of <= operator';
COMMENT ON FUNCTION s2union_gt(s2union, s2union) IS 'implementation of > operator';
COMMENT ON FUNCTION s2union_ge(s2union, s2union) IS 'implementation of >= operator';
COMMENT ON FUNCTION s2union_cmp(s2union, s2union) IS 'less-equal-greater';
COMMENT ON FUNCTION s2union_hash(s2union) IS 'hash';
COMMENT ON FUNCTION s2union_hash_extended(s2union, bigint) IS 'hash';
COMMENT ON FUNCTION s2union_agg_step(internal, s2union) IS 'aggregate transition function';
COMMENT ON FUNCTION s2union_agg_step(internal, bigint) IS 'aggregate transition function';
COMMENT ON FUNCTION s2union_agg_combine(internal, internal) IS 'aggregate combine function';
COMMENT ON FUNCTION s2union_agg_serialise(internal) IS 'aggregate serial function';
COMMENT ON FUNCTION s2union_agg_deserialise(bytea, internal) IS 'aggregate deserial function';
COMMENT ON FUNCTION s2union_agg_final(internal) IS 'aggregate final function';
COMMENT ON FUNCTION s2union_gin_value(s2union, internal) IS 'GIN support';
COMMENT ON FUNCTION s2union_gin_query(s2union, internal, smallint, internal, internal, internal, internal)
  IS 'GIN support';
COMMENT ON FUNCTION s2union_gin_consistent(internal, smallint, s2union, integer, internal, internal, internal)
  IS 'GIN support';
COMMENT ON FUNCTION s2union_gin_partial(bigint, bigint, smallint, internal) IS 'GIN support';
COMMENT ON FUNCTION s2union_gist_compress(internal) IS 'GiST support';
COMMENT ON FUNCTION s2union_gist_consistent(internal, s2union, smallint, oid, internal) IS 'GiST support';
COMMENT ON FUNCTION s2union_gist_union(internal, internal) IS 'GiST support';
COMMENT ON FUNCTION s2union_gist_penalty(internal, internal, internal) IS 'GiST support';
COMMENT ON FUNCTION s2union_gist_picksplit(internal, internal) IS 'GiST support';
COMMENT ON FUNCTION s2union_gist_same(s2union, s2union, internal) IS 'GiST support';
COMMENT ON FUNCTION s2union_gist_sortsupport(internal) IS 'GiST support';
COMMENT ON FUNCTION s2_outer(s2union, integer, integer, integer, integer, integer, integer)
IS 'the cells of a level that share a leaf with what a union and a rectangle on a face share, as a union';
COMMENT ON FUNCTION s2_inner(s2union, integer, integer, integer, integer, integer, integer)
IS 'the cells of a level that lie in what a union and a rectangle on a face share, as a union';
