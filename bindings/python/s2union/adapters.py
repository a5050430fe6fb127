"""Unions as values of databases' drivers: what a query takes, and what a row gives back.

For sqlite3 of Python's own library two lines do the same:

>>> import sqlite3
>>> from s2union import CellUnion
>>> sqlite3.register_adapter(CellUnion, CellUnion.to_bytes)
>>> sqlite3.register_converter("S2UNION", CellUnion.from_bytes)  # for columns of this type, if types are detected
>>> database = sqlite3.connect(":memory:", detect_types=sqlite3.PARSE_DECLTYPES)
>>> _ = database.execute("CREATE TABLE woods(name TEXT, region S2UNION)")
>>> _ = database.execute("INSERT INTO woods VALUES (?, ?)", ["north", CellUnion.from_tokens("04 0c")])
>>> database.execute("SELECT region FROM woods").fetchone()
(<CellUnion of 2 cells: 04 0c>,)
"""

from __future__ import annotations

from importlib import import_module as _module
from typing import Any

from . import CellUnion

__all__ = ["register_psycopg"]


def register_psycopg(connection: Any) -> None:
    """Let a connection of psycopg 3 or psycopg2 take a `CellUnion` for ``%s``, and give one back for each value of
    PostgreSQL's type ``s2union``: by cursors that are made from now on.

    .. versionadded:: 1.4

    Parameters
    ----------
    connection : psycopg.Connection or psycopg2.extensions.connection
        One to a database that has the extension ``s2union``. psycopg2 has one list of what it takes, for all
        connections.

    Raises
    ------
    LookupError
        The database has no type ``s2union``.
    TypeError
        It is a connection of another driver.
    """
    driver = type(connection).__module__.partition(".")[0]
    if driver not in _DRIVERS:
        raise TypeError(f"a connection of psycopg or psycopg2 is wanted, not {type(connection).__name__}")
    with connection.cursor() as cursor:
        cursor.execute("SELECT t.oid, t.typarray FROM pg_type AS t WHERE t.oid = to_regtype('s2union')")
        found = cursor.fetchone()
    if found is None:
        raise LookupError("the database has no type s2union; CREATE EXTENSION s2union makes it")
    _DRIVERS[driver](connection, *found)


def _of_tokens(text: str) -> CellUnion:
    return CellUnion.from_tokens(text.split())


def _register_3(connection: Any, oid: int, array: int) -> None:
    adapt, types, binary = _module("psycopg.adapt"), _module("psycopg.types"), _module("psycopg.pq").Format.BINARY
    dumper = type("UnionDumper", (adapt.Dumper,), {
        "oid": oid, "format": binary, "dump": lambda self, union: union.to_bytes()})
    loaders = [type("UnionLoader", (adapt.Loader,), {"load": lambda self, data: _of_tokens(bytes(data).decode())}),
               type("UnionBinaryLoader", (adapt.Loader,), {
                   "format": binary, "load": lambda self, data: CellUnion.from_bytes(bytes(data))})]
    types.TypeInfo("s2union", oid, array).register(connection)
    connection.adapters.register_dumper(CellUnion, dumper)
    for loader in loaders:
        connection.adapters.register_loader(oid, loader)


def _register_2(connection: Any, oid: int, array: int) -> None:
    driver = _module("psycopg2.extensions")

    def given(union: CellUnion) -> Any:
        return driver.AsIs(f"'\\x{union.to_bytes().hex()}'::bytea::s2union")

    def found(text: str | None, cursor: Any) -> CellUnion | None:
        return None if text is None else _of_tokens(text)

    driver.register_adapter(CellUnion, given)
    kind = driver.new_type((oid,), "S2UNION", found)
    for each in (kind, driver.new_array_type((array,), "S2UNION[]", kind)):
        driver.register_type(each, connection)


_DRIVERS = {"psycopg": _register_3, "psycopg2": _register_2}
