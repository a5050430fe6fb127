#!/usr/bin/env bash
# PostgreSQL killed in the middle of inserts into a table with a GIN and a GiST index: tests/run crashes -- [TIMES]. By
# turns the server is stopped at once, all of its processes are killed, or one that inserts is. Each time it recovers,
# and then every answer by an index has to be that of a scan. It is killed TIMES times, 10 if none are given. The last
# line is 'N passed, M failed'.
. "$(dirname "$0")/../../../tests/steps.sh"
need pgrep procps
. "$top/bindings/postgres/tests/server.sh"
RANDOM=1

step "a copy of PostgreSQL $server" copied
step "build" built build COPT=-Werror
[ "$failed" -eq 0 ] || finish
step "install" put_in build
step "a cluster on a socket" begun data "autovacuum_naptime = 1" "gin_pending_list_limit = 64"

# Rows of one commit, some of them rolled back: regions of up to some hundred cells that lie close together, empty ones
# and NULL. Beside them rows are deleted, and the space that they leave is used again.
tables() {
  psql -Xqv ON_ERROR_STOP=1 <<'SQL'
CREATE EXTENSION s2union;
CREATE FUNCTION any_of(n int) RETURNS int LANGUAGE sql RETURN floor(random() * n)::int;
CREATE FUNCTION rectangle(face int, i int, j int, level int) RETURNS s2union LANGUAGE sql
  RETURN s2_outer(face, i, i + any_of(1 << (32 - level)), j, j + any_of(1 << (32 - level)), level + any_of(3));
CREATE FUNCTION any_region() RETURNS s2union LANGUAGE sql RETURN CASE any_of(50) WHEN 0 THEN NULL WHEN 1 THEN ''
  ELSE rectangle(any_of(2), any_of(1 << 28), any_of(1 << 28), 6 + any_of(20)) END;
CREATE TABLE regions(id bigserial, region s2union);
CREATE INDEX regions_gin ON regions USING gin (region);
CREATE INDEX regions_gist ON regions USING gist (region);
CREATE TABLE questions AS SELECT n, CASE n WHEN 0 THEN '' ELSE any_region() END AS region FROM generate_series(0, 15) n;
CREATE PROCEDURE fill() LANGUAGE plpgsql AS $$
BEGIN
  LOOP
    INSERT INTO regions(region) SELECT any_region() FROM generate_series(0, any_of(20));
    IF any_of(20) = 0 THEN DELETE FROM regions WHERE id % 31 = any_of(31); END IF;
    IF any_of(10) = 0 THEN ROLLBACK; ELSE COMMIT; END IF;
  END LOOP;
END $$;
SQL
}
step "a table with two indexes" tables
[ "$failed" -eq 0 ] || finish

BUSY="SELECT count(*) = 3 AND EXISTS(SELECT FROM regions) FROM pg_stat_activity WHERE query = 'CALL fill()'"
filled() { # sessions that insert until the server falls
  local session end=$((SECONDS + 600))
  : >"$work/filling"
  for session in 1 2 3; do psql -qc "CALL fill()" >/dev/null 2>&1 & done
  while [ -e "$work/filling" ] && psql -qc "VACUUM regions" 2>/dev/null; do sleep 0.3; done &
  until [ "$(psql -XAqtc "$BUSY")" = t ] || [ "$SECONDS" -ge "$end" ]; do sleep 0.1; done
  sleep "1.$((RANDOM % 10))"
}

killed() { # FALL
  local first
  first=$(head -1 "$work/data/postmaster.pid")
  rm "$work/filling"
  case $(($1 % 3)) in
    0) stopped data ;;
    1) kill -9 "$first" $(pgrep -P "$first") ;;
    2) kill -9 "$(psql -XAqtc "SELECT pid FROM pg_stat_activity WHERE query = 'CALL fill()' LIMIT 1")" ;;
  esac
}

recovered() { # FALL: the sessions have ended, and the server runs
  wait
  [ $(($1 % 3)) -ne 1 ] || rm -f "$work"/data/{postmaster.pid,.s.PGSQL.*.lock}
  [ $(($1 % 3)) -eq 2 ] || (cd / && "${as_postgres[@]}" "$bin/pg_ctl" -D "$work/data" -l "$work/data/log" -w start)
  is_up
}

# By each index: how many answers differ from those of a scan, how many there are, and how often the plan has it.
differences() {
  psql -XAqt <<'SQL'
CREATE FUNCTION pg_temp.asked(operator text) RETURNS text LANGUAGE sql RETURN
  format('SELECT %L, n, id FROM questions q JOIN regions r ON r.region %s q.region', operator, operator);
CREATE FUNCTION pg_temp.plans(query text, index text) RETURNS int LANGUAGE plpgsql AS $$
DECLARE line text; plans int := 0;
BEGIN
  FOR line IN EXECUTE 'EXPLAIN ' || query LOOP plans := plans + (line LIKE '%' || index || '%')::int; END LOOP;
  RETURN plans;
END $$;
CREATE FUNCTION pg_temp.differing(index text, other text, operators text[]) RETURNS text LANGUAGE plpgsql AS $$
DECLARE query text; different int; found int; plans int;
BEGIN
  SELECT string_agg(pg_temp.asked(operator), ' UNION ALL ') INTO query FROM unnest(operators) AS operator;
  PERFORM set_config('enable_' || way, 'off', true) FROM unnest('{bitmapscan,indexscan,indexonlyscan}'::text[]) AS way;
  EXECUTE 'CREATE TEMP TABLE scanned AS ' || query;
  PERFORM set_config('enable_' || way, 'on', true) FROM unnest('{bitmapscan,indexscan}'::text[]) AS way;
  PERFORM set_config('enable_seqscan', 'off', true);
  EXECUTE 'DROP INDEX ' || other;
  plans := pg_temp.plans(query, index);
  EXECUTE 'CREATE TEMP TABLE indexed AS ' || query;
  SELECT count(*) INTO different
    FROM ((TABLE scanned EXCEPT ALL TABLE indexed) UNION ALL (TABLE indexed EXCEPT ALL TABLE scanned)) AS d;
  SELECT count(*) INTO found FROM indexed;
  RETURN format('%s %s %s', different, plans, found);
END $$;
BEGIN; SELECT pg_temp.differing('regions_gin', 'regions_gist', '{&&,@>,<@}'); ROLLBACK;
BEGIN; SELECT pg_temp.differing('regions_gist', 'regions_gin', '{&&,@>}'); ROLLBACK;
SQL
}

same() {
  local said
  said=$(differences) && echo "$said" && [[ $said =~ ^"0 3 "[1-9][0-9]*$'\n'"0 2 "[1-9][0-9]*$ ]]
}

for fall in $(seq "${1:-10}"); do
  filled && step "fall $fall" killed "$fall"
  step "recovery $fall" recovered "$fall"
  step "answers $fall" same
done
finish
