"""What regions take in PostgreSQL, on one server and on two: costs_postgres.py REGIONS.

PGHOST is the folder of the first server's socket, S2UNION_SHARD that of the second. Each gets a new database."""

import os
import subprocess
import sys

SHARD = os.environ["S2UNION_SHARD"]
REGION = """
s2_outer((k % 6)::int, (k * 2654435761 % 1072000000)::int,
    (k * 2654435761 % 1072000000 + 131072 + k * 7919 % 900000)::int, (k * 40503 * 65537 % 1072000000)::int,
    (k * 40503 * 65537 % 1072000000 + 131072 + k * 104729 % 900000)::int, 13)
"""
ALONE = "SET max_parallel_workers_per_gather = 0; SET enable_bitmapscan = off; "
QUESTIONS = """
DO $$
DECLARE found bigint := 0;
BEGIN
    FOR k IN 1 .. 200 LOOP
        found := found + (SELECT count(*) FROM {table} WHERE region {operator}
            s2_outer(k % 6, k * 5000000, k * 5000000 + 300000, k * 4000000, k * 4000000 + 300000, 13));
    END LOOP;
END $$;
"""


def psql(script, host=os.environ["PGHOST"], database="costs"):
    command = ["psql", "-XAqt", "-v", "ON_ERROR_STOP=1", "-h", host, "-d", database]
    run = subprocess.run(command, input=script, stdout=subprocess.PIPE, text=True, check=True)
    return run.stdout.strip()


def measure(name, script, shares=1):
    """Prints the time of the last statement, by psql's own clock, and its answer."""
    *said, took = psql("\\timing on\n" + script.strip().rstrip(";") + ";").splitlines()
    answer = [line for line in said if not line.startswith("Time: ")]
    print(f"{name}: {float(took.split()[1]) / shares:.2f} ms", *answer, flush=True)


def main(regions):
    numbers = f"generate_series(0, {regions - 1}::bigint) AS k"
    for host in (os.environ["PGHOST"], SHARD):
        psql("SET client_min_messages = error; DROP DATABASE IF EXISTS costs", host, "postgres")
        psql("CREATE DATABASE costs", host, "postgres")
        psql("CREATE EXTENSION s2union; CREATE EXTENSION IF NOT EXISTS postgres_fdw;", host)
    print(f"{regions} regions; load of the machine {os.getloadavg()[0]:.1f}")
    psql("CREATE TABLE one (id bigint NOT NULL, region s2union NOT NULL)")
    measure("one server: make and insert", f"INSERT INTO one SELECT k, {REGION} FROM {numbers}")
    measure("one server: GIN index", "CREATE INDEX ON one USING gin (region)")
    measure("one server: analyze", "VACUUM ANALYZE one")
    print(psql("""SELECT 'cells ' || sum(s2_count(region)), 'table ' || pg_size_pretty(pg_table_size('one')),
               'indexes ' || pg_size_pretty(pg_indexes_size('one')) FROM one"""))
    for operator in ("&&", "@>", "<@"):
        by_index = QUESTIONS.format(table="one", operator=operator)
        measure(f"one server: {operator} by index", "SET enable_seqscan = off;" + by_index, 200)
    measure("one server: && by a scan", ALONE + "SELECT count(*) FROM one WHERE region && '1c1'")
    measure("one server: aggregate", ALONE + "SELECT s2_count(s2_union_agg(region)) FROM one")
    psql("CREATE TABLE regions (id bigint NOT NULL, region s2union NOT NULL)", SHARD)
    psql(f"""
        CREATE SERVER shard FOREIGN DATA WRAPPER postgres_fdw
            OPTIONS (host '{SHARD}', dbname 'costs', extensions 's2union', async_capable 'true', batch_size '1000',
                options '-c cursor_tuple_fraction=1');
        CREATE USER MAPPING FOR CURRENT_USER SERVER shard OPTIONS (user 'postgres');
        CREATE TABLE regions (id bigint NOT NULL, region s2union NOT NULL) PARTITION BY HASH (id);
        CREATE TABLE regions_here PARTITION OF regions FOR VALUES WITH (MODULUS 2, REMAINDER 0);
        CREATE FOREIGN TABLE regions_there PARTITION OF regions FOR VALUES WITH (MODULUS 2, REMAINDER 1)
            SERVER shard OPTIONS (table_name 'regions');
    """)
    measure("two servers: insert", "INSERT INTO regions SELECT * FROM one")
    measure("two servers: GIN index of this one's half", "CREATE INDEX ON regions_here USING gin (region)")
    psql("CREATE INDEX ON regions USING gin (region); VACUUM ANALYZE regions;", SHARD)
    psql("VACUUM ANALYZE regions_here")
    for operator in ("&&", "@>", "<@"):
        by_index = QUESTIONS.format(table="regions", operator=operator)
        measure(f"two servers: {operator} by index", "SET enable_seqscan = off;" + by_index, 200)
    measure("two servers: && by a scan", ALONE + "SELECT count(*) FROM regions WHERE region && '1c1'")
    measure("two servers: aggregate in parts", ALONE + """
        SELECT s2_count(s2_union_agg(part)) FROM (SELECT s2_union_agg(region) AS part FROM regions_here
        UNION ALL SELECT s2_union_agg(region) FROM regions_there) AS parts""")


main(int(sys.argv[1]))
