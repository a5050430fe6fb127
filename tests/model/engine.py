"""Servers of databases that run while the tests of a class do. WORK is a folder for them; they listen on no network."""

import os
import subprocess
import time
import unittest
from pathlib import Path

WORK = Path(os.environ["WORK"])
MARIADB = f"""[server]
datadir={WORK}/mariadb
socket={WORK}/mariadb.socket
plugin-dir={WORK}/mariadb_functions
pid-file={WORK}/mariadb.pid
skip-networking
[client]
socket={WORK}/mariadb.socket
local-infile
"""
INSTALL = (Path(__file__).resolve().parents[2] / "bindings" / "mariadb" / "install.sql").read_text()


class Engine(unittest.TestCase):
    """A server that runs while its tests do. Those who inherit say how it is started and asked."""

    @classmethod
    def begin(cls, server, client):
        cls.client = client
        with open(WORK / f"{cls.__name__}.log", "wb") as log:
            process = subprocess.Popen(server, stdin=subprocess.DEVNULL, stdout=log, stderr=log)
        cls.addClassCleanup(process.wait)
        cls.addClassCleanup(process.terminate)
        until = time.monotonic() + 600
        while cls.ask("SELECT 1", check=False) != "1\n":
            assert process.poll() is None and time.monotonic() < until, (WORK / f"{cls.__name__}.log").read_text()
            time.sleep(0.1)

    @classmethod
    def ask(cls, script, check=True):
        return subprocess.run(cls.client, input=script, stdout=subprocess.PIPE, check=check, text=True, timeout=600,
                              stderr=None if check else subprocess.DEVNULL).stdout


class MariadbServer(Engine):
    """MariaDB, with the user functions that lie in the folder mariadb_functions, if they are there."""

    @classmethod
    def setUpClass(cls):
        (WORK / "mariadb.cnf").write_text(MARIADB)
        own = f"--defaults-file={WORK}/mariadb.cnf"
        user = ["--user=root"] if os.getuid() == 0 else []
        subprocess.run(["mariadb-install-db", own, "--auth-root-authentication-method=normal", *user], check=True,
                       stdout=subprocess.DEVNULL)
        cls.begin(["/usr/sbin/mariadbd", own, *user], ["mariadb", own, "--skip-column-names", "--user=root"])

    @staticmethod
    def resident():
        """The server's memory, in KB."""
        status = Path("/proc", (WORK / "mariadb.pid").read_text().strip(), "status").read_text()
        return int(status.partition("VmRSS:")[2].split()[0])
