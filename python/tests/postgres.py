"""A server of PostgreSQL with PostGIS that a test starts and stops, in a folder of its own."""
import contextlib
import os
import shutil
import subprocess
import tempfile
from pathlib import Path

import pytest

DATABASE, USER = "land", "rpstore"
# PostgreSQL refuses to run as root.
OTHERS = ("postgres", "nobody")


def programs():
    """The folder of the newest server."""
    found = sorted(Path("/usr/lib/postgresql").glob("*/bin/initdb"), key=lambda path: int(path.parts[-3]))
    if not found:
        pytest.skip("postgresql-15 is not there")
    version = found[-1].parts[-3]
    if not Path(f"/usr/share/postgresql/{version}/extension/postgis_sfcgal.control").exists():
        pytest.skip("postgresql-15-postgis-3 is not there")
    return found[-1].parent


def as_other(folder):
    """The words before a command that is not to run as root, to whom the `folder` then belongs."""
    if os.geteuid():
        return []
    for name in OTHERS:
        with contextlib.suppress(LookupError):
            shutil.chown(folder, name)
            return ["setpriv", f"--reuid={name}", "--clear-groups", "--"]
    pytest.skip(f"this runs as root, and no user {' or '.join(OTHERS)} is there")


class Server:
    """A running server; `env` leads psql and GDAL to its database."""

    def __init__(self, folder):
        self.env = {**os.environ, "PGHOST": folder, "PGUSER": USER, "PGDATABASE": DATABASE}

    def run(self, sql, *words):
        """What psql writes for SQL, whose lines are those of a table without a head, with | between the columns."""
        return subprocess.run(["psql", "-X", "-q", "-A", "-t", "-v", "ON_ERROR_STOP=1", *words], env=self.env, input=sql, text=True, check=True,
                              stdout=subprocess.PIPE).stdout

    def rows(self, sql):
        return [tuple(line.split("|")) for line in self.run(sql).splitlines()]


@contextlib.contextmanager
def started():
    """A server that listens in its folder alone, and ends with the test."""
    bin_, folder = programs(), tempfile.mkdtemp(prefix="rpstore-pg-")
    other = as_other(folder)
    data, quiet = f"{folder}/data", {"stdout": subprocess.DEVNULL, "cwd": folder, "check": True}
    try:
        subprocess.run([*other, bin_ / "initdb", "-D", data, "-U", USER, "--auth=trust", "--no-sync", "-E", "UTF8", "--locale=C"], **quiet)
        subprocess.run([*other, bin_ / "pg_ctl", "-D", data, "-w", "-l", f"{folder}/log", "-o", f"-F -k {folder} -h ''", "start"], **quiet)
        try:
            subprocess.run([bin_ / "createdb", "-h", folder, "-U", USER, DATABASE], **quiet)
            made = Server(folder)
            made.run("CREATE EXTENSION postgis")
            yield made
        finally:
            subprocess.run([*other, bin_ / "pg_ctl", "-D", data, "-m", "immediate", "stop"], **quiet)
    finally:
        shutil.rmtree(folder)
