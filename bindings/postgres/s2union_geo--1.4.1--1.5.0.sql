-- s2union_geo 1.5.0: the area of a union. CREATE EXTENSION runs it after s2union_geo--1.4--1.4.1.sql. README.md says
-- what each function does, in the words of its comment.

\echo Use "ALTER EXTENSION s2union_geo UPDATE" to load this file. \quit

CREATE FUNCTION s2_area(region s2union)
RETURNS float8
AS 'MODULE_PATHNAME'
LANGUAGE C IMMUTABLE STRICT PARALLEL SAFE COST 100;
COMMENT ON FUNCTION s2_area(s2union)
  IS 'the area of a union in square kilometers, on a sphere with the earth''s mean radius; since 1.5. The earth is '
  'flattened, so an area there differs by less than 1 percent';
