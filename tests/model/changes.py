"""Random statements that change zones, for several sessions at once."""


def random_change(chance, table):
    key, x, y = chance.randrange(100), chance.randrange(9) + 0.25, chance.randrange(9) + 0.25
    row = f"INSERT INTO {table} (id, x, y) VALUES ({key}, {x}, {y})"
    return chance.choice([
        row, row, row, f"{row} ON CONFLICT (id) DO UPDATE SET x = EXCLUDED.x, y = EXCLUDED.y + 0.5",
        f"{row} ON CONFLICT DO NOTHING", f"UPDATE {table} SET x = {x} WHERE id = {key}",
        f"UPDATE {table} SET id = {chance.randrange(100)} WHERE id = {key}",
        f"UPDATE {table} SET y = y WHERE id BETWEEN {key} AND {key + 5}", f"DELETE FROM {table} WHERE id = {key}",
        f"DELETE FROM {table} WHERE id BETWEEN {key} AND {key + 9}",
        f"INSERT INTO {table} (id, x, y) SELECT k, {x}, {y} FROM generate_series({key}, {key + 9}) AS k"
        " ON CONFLICT DO NOTHING"])


def random_changes(chance, rounds, tables, partitions, shape="shape"):
    """Transactions of one to four of them on some tables, a third undone. Some empty a table, or a partition of it, of
    which `partitions` has the name, the least key and the first that it doesn't have; or take that partition away for a
    moment; or make the tiles of the column `shape` anew."""
    script = []
    for _ in range(rounds):
        level = chance.choice(["READ COMMITTED", "READ COMMITTED", "REPEATABLE READ"])
        table = chance.choice(tables)
        partition, least, end = partitions.get(table, (None, 0, 0))
        rare = chance.randrange(60)
        changes = [random_change(chance, chance.choice(tables)) for _ in range(chance.randrange(1, 5))]
        if rare == 0:
            changes.append(f"TRUNCATE {table}")
        elif rare in (1, 2) and partition:
            changes.append(f"TRUNCATE {partition}")
        elif rare in (3, 4) and partition:
            changes = [f"ALTER TABLE {table} DETACH PARTITION {partition}", *(
                random_change(chance, partition) for _ in range(2)),
                f"DELETE FROM {partition} WHERE id NOT BETWEEN {least} AND {end - 1}",
                f"ALTER TABLE {table} ATTACH PARTITION {partition} FOR VALUES FROM ({least}) TO ({end})"]
        elif rare in (5, 6):
            level = "READ COMMITTED"
            changes = [f"SELECT s2_join_table('{partition or table}', '{shape}')"]
        end_of_it = chance.choice(["COMMIT", "COMMIT", "ROLLBACK"])
        script += [f"BEGIN ISOLATION LEVEL {level}", *changes, end_of_it]
    return ";\n".join(script) + ";\n"
