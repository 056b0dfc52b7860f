"""PostgreSQL with PostGIS, for the scripts that compare with it. Needs Debian's packages postgresql-15-postgis-3 and python3-psycopg2."""
import contextlib
import os
import shutil
import subprocess
from pathlib import Path

POSTGRES = Path("/usr/lib/postgresql/15/bin")


def wkt(shape):
    ring = ", ".join(f"{x} {y}" for x, y in shape + shape[:1])
    return f"POLYGON(({ring}))"


@contextlib.contextmanager
def postgres(folder):
    """A PostgreSQL cluster in the folder. It has a socket there, and no address."""
    own = ["runuser", "-u", "postgres", "--"] if os.getuid() == 0 else []
    if own:
        shutil.chown(folder, "postgres")
    run = lambda *words: subprocess.run([*own, *map(str, words)], check=True, stdout=subprocess.DEVNULL, cwd="/")
    run(POSTGRES / "initdb", "-D", f"{folder}/data", "-U", "postgres", "-E", "UTF8", "--locale=C.UTF-8", "-A", "trust")
    options = f"-k {folder} -c listen_addresses= -c shared_buffers=1GB -c maintenance_work_mem=256MB -c fsync=off"
    run(POSTGRES / "pg_ctl", "-D", f"{folder}/data", "-w", "-l", f"{folder}/log", "-o", options, "start")
    try:
        yield
    finally:
        run(POSTGRES / "pg_ctl", "-D", f"{folder}/data", "-w", "-m", "immediate", "stop")
