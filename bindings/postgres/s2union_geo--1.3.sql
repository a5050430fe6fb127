-- s2union_geo 1.3. README.md says what each function does, in the words of its comment.

\echo Use "CREATE EXTENSION s2union_geo" to load this file. \quit

CREATE FUNCTION s2_leaf_at(longitude float8, latitude float8)
RETURNS bigint
AS 'MODULE_PATHNAME'
LANGUAGE C IMMUTABLE STRICT PARALLEL SAFE;
COMMENT ON FUNCTION s2_leaf_at(float8, float8)
  IS 'the leaf at a place in degrees, as S2 has it. Errors: a longitude outside -540 to 540, a latitude outside -90 to '
  '90';

CREATE FUNCTION s2_longitude(cell bigint)
RETURNS float8
AS 'MODULE_PATHNAME'
LANGUAGE C IMMUTABLE STRICT PARALLEL SAFE;
COMMENT ON FUNCTION s2_longitude(bigint) IS 'the longitude of the middle of a cell, in degrees. Error: an invalid cell';

CREATE FUNCTION s2_longitude(cell text)
RETURNS float8
LANGUAGE SQL IMMUTABLE STRICT PARALLEL SAFE
RETURN s2_longitude(s2_cell($1));
COMMENT ON FUNCTION s2_longitude(text) IS 'the longitude of the middle of a cell, in degrees. Error: an invalid cell';

CREATE FUNCTION s2_latitude(cell bigint)
RETURNS float8
AS 'MODULE_PATHNAME'
LANGUAGE C IMMUTABLE STRICT PARALLEL SAFE;
COMMENT ON FUNCTION s2_latitude(bigint) IS 'the latitude of the middle of a cell, in degrees. Error: an invalid cell';

CREATE FUNCTION s2_latitude(cell text)
RETURNS float8
LANGUAGE SQL IMMUTABLE STRICT PARALLEL SAFE
RETURN s2_latitude(s2_cell($1));
COMMENT ON FUNCTION s2_latitude(text) IS 'the latitude of the middle of a cell, in degrees. Error: an invalid cell';
