"""Writes vector tiles of the parcels in force on a day, as files that a web server sends."""
import datetime
import os
import shutil
import subprocess
import tempfile
from pathlib import Path

from geopackage import GeoPackage
from reading import Source, Unread

CURRENT = "current"
KEPT = 2  # how many sets of tiles stay, so that maps that are open still find theirs


def write(folder, url, least, most):
    """Writes tiles for the zooms `least` to `most` below a folder, and lets its link `current` name them. Returns the name of the new folder, or
    None if the tiles of this day and revision are there."""
    day = datetime.datetime.now(datetime.timezone.utc).date().isoformat()
    source, folder = Source(url, day=day), Path(folder)
    name = f"{day}-revision-{source.name}"
    if (folder / CURRENT).is_symlink() and os.readlink(folder / CURRENT) == name:
        return None
    folder.mkdir(parents=True, exist_ok=True)
    with tempfile.TemporaryDirectory(dir=folder, prefix=".part-") as part:
        make(Path(part), source, least, most)
        shutil.rmtree(folder / name, ignore_errors=True)
        os.replace(f"{part}/tiles", folder / name)
    show(folder, name)
    return name


def make(part, source, least, most):
    """Makes the tiles in a folder for parts: first a GeoPackage, from which GDAL makes them."""
    with GeoPackage(part / "parcels.gpkg", source) as file:
        file.add("parcels", source.features("parcels"))
    words = ["ogr2ogr", "-f", "MVT", f"{part}/tiles", f"{part}/parcels.gpkg", "parcels", "-dsco", f"MINZOOM={least}", "-dsco", f"MAXZOOM={most}",
             "-dsco", "NAME=land register", "-dsco", f"DESCRIPTION=parcels at revision {source.name}",
             "-select", "id,object,label,area,begin,unit,unit_name"]
    ran = subprocess.run(words, stdout=subprocess.DEVNULL, stderr=subprocess.PIPE, text=True)
    if ran.returncode:
        raise Unread(f"ogr2ogr fails: {ran.stderr.strip()[-300:]}")
    os.chmod(f"{part}/tiles", 0o755)


def show(folder, name):
    """Lets `current` name the new tiles, and removes the oldest ones."""
    link = folder / ".current"
    link.unlink(missing_ok=True)
    link.symlink_to(name)
    os.replace(link, folder / CURRENT)
    made = sorted((it for it in folder.iterdir() if "-revision-" in it.name), key=lambda it: it.stat().st_mtime, reverse=True)
    for it in made[KEPT:]:
        shutil.rmtree(it)
