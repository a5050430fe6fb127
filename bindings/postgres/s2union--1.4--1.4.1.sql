-- s2union 1.4.1: its function that calls one of PostgreSQL's, by the schema of that.

\echo Use "ALTER EXTENSION s2union UPDATE" to load this file. \quit

CREATE OR REPLACE FUNCTION unnest(region s2union)
RETURNS SETOF bigint
LANGUAGE sql IMMUTABLE PARALLEL SAFE
BEGIN ATOMIC SELECT pg_catalog.unnest(s2_cells($1)); END;
