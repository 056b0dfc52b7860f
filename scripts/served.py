"""Runs the programs on files, for the scripts that test them: the office on lines, and servers with a client.

The programs are crates/cadastre/out/cadastre and crates/cadastred/out/cadastred. The variables CADASTRE and CADASTRED name others.
Only this file starts servers.
"""
import contextlib
import json
import os
import subprocess
import sys
import tempfile
from pathlib import Path
from urllib.parse import urljoin
from urllib.request import urlopen

TOP = Path(__file__).resolve().parent.parent
PATH = os.environ.get("PATH", "")
# Requests to this machine go through no proxy.
os.environ |= {"no_proxy": "*", "NO_PROXY": "*"}
PROGRAM = os.environ.get("CADASTRE") or str(TOP / "crates/cadastre/out/cadastre")
SERVICE = os.environ.get("CADASTRED") or str(TOP / "crates/cadastred/out/cadastred")
COLLECTIONS = ["parcels", "rights", "restrictions", "units", "parties", "responsibilities"]


def need(program, target):
    """Ends the run if a program is not built."""
    if not os.access(program, os.X_OK):
        print(f"build {program} first, by 'make {target}'", file=sys.stderr)
        sys.exit(2)


def need_program():
    need(PROGRAM, "sample")


def need_service():
    need(SERVICE, "cadastred")


def enter(file, lines):
    """The office's answers to lines, one for each line."""
    text = "".join(it + "\n" for it in lines).encode()
    return subprocess.run([PROGRAM, "office", str(file)], input=text, stdout=subprocess.PIPE).stdout.decode().splitlines()


def sample_lines():
    """The ten commands of the sample, as docs/OFFICE.md has them."""
    text = (TOP / "docs/OFFICE.md").read_text(encoding="utf-8")
    text = text[text.index("These ten lines") : text.index("After them")]
    return [it[4:] for it in text.split("\n") if it.startswith("    {")]


@contextlib.contextmanager
def started(*words):
    """Runs a server at a port that the system chooses, and gives its address and the number of its process."""
    with subprocess.Popen(words, stdout=subprocess.PIPE, text=True) as server:
        try:
            first = server.stdout.readline().split()
            if first[:1] != ["listening"]:
                sys.exit(f"{' '.join(words)} prints no address")
            yield f"http://{first[1]}", server.pid
        finally:
            server.kill()


@contextlib.contextmanager
def listening(*words):
    """The same, and gives its address."""
    with started(*words) as (address, _):
        yield address


def serving(file):
    """Runs `cadastre serve` on the file, and gives its address."""
    return listening(PROGRAM, "serve", str(file), "127.0.0.1:0", "1000000")


@contextlib.contextmanager
def hosting_process(file, *options):
    """Runs `cadastred` on the file, with its office's socket in a folder of its own. Gives its address, the socket's path and the number of its
    process."""
    with tempfile.TemporaryDirectory() as folder, started(SERVICE, *options, str(file), "127.0.0.1:0", f"{folder}/office") as (address, number):
        yield address, f"{folder}/office", number


@contextlib.contextmanager
def hosting_at(file):
    """The same, and gives its address and the socket's path."""
    with hosting_process(file) as (address, office, _):
        yield address, office


@contextlib.contextmanager
def hosting(file):
    """The same, and gives its address."""
    with hosting_at(file) as (address, _):
        yield address


def page_bytes(address, target):
    """The bytes of a page."""
    with urlopen(urljoin(address, target), timeout=120) as reply:
        return reply.read()


def pages(address, collection, revision):
    """The bytes of all pages of a walk."""
    target = f"/collections/{collection}/items?limit=1000&revision={revision}"
    while target:
        body = page_bytes(address, target)
        yield body
        target = next((it["href"] for it in json.loads(body)["links"] if it["rel"] == "next"), None)


def get(address, target):
    """The body of a page, as a tree. The connection ends after it, since `cadastre serve` serves one at a time."""
    with urlopen(urljoin(address, target), timeout=60) as reply:
        return json.load(reply)


def features(address, collection, query=""):
    """All features of a collection: the pages of one walk."""
    found, target = [], f"/collections/{collection}/items?limit=1000{query}"
    while target:
        page = get(address, target)
        found += page["features"]
        target = next((it["href"] for it in page["links"] if it["rel"] == "next"), None)
    return found
