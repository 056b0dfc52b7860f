"""nginx with the snippet of docs/GATEWAY.md in front of the gateway: who may see what, the cache by revision, and a register that was restored."""
import base64
import contextlib
import http.client
import json
import os
import re
import shutil
import socket
import ssl
import subprocess
import time
from urllib.parse import quote

from gateway_checks import CLASSES, PROGRAM_OF_GATEWAY, TOP, enter, fetch, gateway
from served import hosting_at, started

NEEDS = ("nginx", "openssl")
ENVIRONMENT = {**os.environ, "PATH": os.environ.get("PATH", "") + ":/usr/sbin"}
PASSWORD = {"Authorization": "Basic " + base64.b64encode(b"ana:secret").decode()}


def check(checks, land):
    with land.served("nginx", "--url", "https://maps.example") as served, nginx(land.folder, served.base) as site:
        early = land.revision // 2
        open_to_all(checks, site, early)
        by_password(checks, site, early)
        around_the_password(checks, site, early)
        kept(checks, land, served, site)
        tiles(checks, land, site)
    restored(checks, land)


def snippet():
    """The indented lines of the document, from the cache on."""
    text = (TOP / "docs/GATEWAY.md").read_text(encoding="utf-8")
    found = re.search(r"(?m)^    proxy_cache_path .*\n(?:    .*\n|\n)*", text)[0]
    return re.sub(r"(?m)^    ", "", found)


class Site:
    """nginx at a port of this machine."""

    def __init__(self, port):
        self.port, self.context = port, ssl._create_unverified_context()

    def get(self, target, method="GET", **fields):
        """Status, fields and body. The target is sent as it is."""
        it = http.client.HTTPSConnection("127.0.0.1", self.port, context=self.context, timeout=60)
        with contextlib.closing(it):
            it.putrequest(method, target, skip_host=True, skip_accept_encoding=True)
            for name, value in {"Host": "maps.example", **fields}.items():
                it.putheader(name, value)
            it.endheaders()
            answer = it.getresponse()
            return answer.status, answer.headers, answer.read()


def free_port():
    with socket.socket() as it:
        it.bind(("127.0.0.1", 0))
        return it.getsockname()[1]


@contextlib.contextmanager
def nginx(folder, base):
    """Runs nginx with the snippet, and a certificate and a user of its own."""
    folder, port = folder / f"nginx{free_port()}", free_port()
    (folder / "tiles").mkdir(parents=True)
    os.chmod(folder.parent, 0o755)
    subprocess.run(["openssl", "req", "-x509", "-newkey", "rsa:2048", "-nodes", "-days", "2", "-subj", "/CN=maps.example", "-keyout", folder / "key.pem",
                    "-out", folder / "cert.pem"], check=True, stderr=subprocess.DEVNULL)
    secret = subprocess.run(["openssl", "passwd", "-apr1", "secret"], check=True, stdout=subprocess.PIPE, text=True).stdout
    (folder / "users").write_text(f"ana:{secret}", encoding="utf-8")
    text = snippet()
    for old, new in (("listen 443 ssl", f"listen 127.0.0.1:{port} ssl"), ("/etc/ssl/maps.example.pem", f"{folder}/cert.pem"), ("/etc/ssl/maps.example.key", f"{folder}/key.pem"),
                     ("/etc/nginx/land.users", f"{folder}/users"), ("/var/cache/nginx/land", f"{folder}/cache"), ("127.0.0.1:8090", base.removeprefix("http://")),
                     ("/var/lib/cadastre-maps/tiles/current/", f"{folder}/tiles/")):
        if old not in text:
            raise ValueError(f"the snippet of docs/GATEWAY.md lacks {old}")
        text = text.replace(old, new)
    temporary = " ".join(f"{it}_temp_path {folder}/{it};" for it in ("client_body", "proxy", "fastcgi", "uwsgi", "scgi"))
    (folder / "nginx.conf").write_text(f"pid {folder}/pid; error_log {folder}/error.log; daemon off; events {{}} http {{ access_log off; {temporary}\n{text} }}", encoding="utf-8")
    process = subprocess.Popen(["nginx", "-e", f"{folder}/error.log", "-c", f"{folder}/nginx.conf"], env=ENVIRONMENT)
    try:
        deadline = time.monotonic() + 20
        while not (folder / "pid").exists() or not (folder / "pid").read_text():
            if time.monotonic() > deadline or process.poll() is not None:
                raise ValueError("nginx does not start")
            time.sleep(0.05)
        site = Site(port)
        site.folder = folder
        yield site
    finally:
        process.terminate()
        process.wait()


def open_to_all(checks, site, early):
    for path in ("/", "/api", "/conformance", "/collections", "/today/", "/open/collections", "/day/2012-05-01/collections/parcels",
                 "/collections/parcels/items?limit=1", "/today/collections/units/items?limit=1", f"/revision/{early}/collections/parcels/queryables",
                 f"/day/2012-05-01/revision/{early}/collections/parcels/items", "/collections/parcels/schema", "/open/collections/parcels/items?limit=1000"):
        status, fields, body = site.get(path)
        checks.same(f"open: {path}", (status, bool(body)), (200, True))
    # no condition on a parcel can name who holds rights in it
    for words in ("party = 2000001", "party_name = 'Ana Straße'", "\"party\" IS NULL"):
        status, _, body = site.get(f"/collections/parcels/items?filter={quote(words)}")
        checks.same(f"a filter on parcels by {words}", (status, json.loads(body)["cause"]), (400, "UnknownProperty"))
    checks.same("nor can a parameter", site.get("/collections/parcels/items?party=2000001")[0], 400)
    status, fields, body = site.get("/collections/parcels/items?limit=1000", **{"Accept-Encoding": "gzip"})
    checks.same("pages are compressed", (fields["Content-Encoding"], len(body) < 100_000), ("gzip", True))


def by_password(checks, site, early):
    closed = [name for name in CLASSES.values() if name not in ("parcels", "units")]
    for name in closed:
        for before in ("", "/today", "/day/2012-05-01", f"/revision/{early}", f"/day/2012-05-01/revision/{early}"):
            for after in ("", "/items", "/items/1.1", "/queryables", "/schema"):
                path = f"{before}/collections/{name}{after}"
                checks.same(f"without a password: {path}", site.get(path)[0], 401)
        status, _, body = site.get(f"/collections/{name}/items?limit=1", **PASSWORD)
        checks.same(f"with it: {name}", (status, json.loads(body)["numberReturned"]), (200, 1))
    wrong = {"Authorization": "Basic " + base64.b64encode(b"ana:other").decode()}
    checks.same("with a wrong one", site.get("/collections/parties/items", **wrong)[0], 401)


def around_the_password(checks, site, early):
    """Ways of writing a path that nginx and the gateway could understand in two ways. None may give a party without a password."""
    site.get(f"/revision/{early}/collections/parties/items", **PASSWORD)  # it is in the cache now
    for path in (f"/revision/{early}/collections/parties/items", "/collections/%70arties/items", "/collections//parties/items", "//collections/parties/items",
                 "/collections/parcels/../parties/items", "/collections/parcels/%2e%2e/parties/items", "/collections/parcels/..%2fparties/items",
                 "/collections/parties%2Fitems", "/collections/parties/items%3Flimit=1", "/collections/parties/items?/collections/parcels", "/collections/parties/items#/../../parcels",
                 "/collections/parties/items/..%2f..%2f..%2funits", "/collections/parties/items/%2e%2e/%2e%2e/units", "/./collections/parties/items",
                 "/collections/parties;/items", "/collections/units/..;/parties/items", "/collections/PARTIES/items", "/collections/parties/items/",
                 "https://maps.example/collections/parties/items", "/today//collections/parties/items", f"/revision/1.{early}/collections/parties/items",
                 "/collections/parcels/items/1.1/../../../parties/items", "/tiles/../collections/parties/items", "/none", "/tiles../collections/parties/items"):
        status, _, body = site.get(path)
        checks.same(f"around the password: {path}", (status == 200 and b"naturalPerson" in body, b"collections/parties" in body and status == 200), (False, False))
    for method in ("POST", "PUT", "DELETE"):
        checks.same(f"{method} is rejected", site.get("/collections/parcels/items", method)[0], 403)


def state(site):
    """How many pages nginx keeps."""
    return sum(len(files) for _, _, files in os.walk(site.folder / "cache"))


def kept(checks, land, served, site):
    """Pages of a revision come from nginx, also when the gateway could not make them. Others never do."""
    before = state(site)
    for path in ("/collections/parcels/items?limit=7", "/today/collections/parcels/items?limit=7", "/collections/parcels/items?limit=0", "/collections"):
        site.get(path)
    checks.same("pages without a revision are not kept", state(site), before)
    pinned = f"/revision/{land.revision}/collections/parcels/items?limit=7"
    first = site.get(pinned)
    checks.same("a page of a revision is", state(site), before + 1)
    served.enter({"do": "retire", "object": land.open_parcel()[0], "last": "2026-01-31"})
    again = site.get(pinned)
    checks.same("it is the same afterwards", (again[2] == first[2], again[1]["ETag"]), (True, first[1]["ETag"]))
    checks.same("and not sent to those who have it", site.get(pinned, **{"If-None-Match": first[1]["ETag"]})[0], 304)
    newest = site.get("/collections/parcels/items?limit=7")
    checks.same("a page without a revision is new", json.loads(newest[2])["revision"], land.revision + 1)
    tag = newest[1]["ETag"]
    checks.same("it is not sent twice either", site.get("/collections/parcels/items?limit=7", **{"If-None-Match": tag})[0], 304)


def tiles(checks, land, site):
    (site.folder / "tiles/15/1").mkdir(parents=True)
    shutil.copy(__file__, site.folder / "tiles/15/1/2.pbf")
    status, fields, _ = site.get("/tiles/15/1/2.pbf")
    checks.same("a tile", (status, fields["Content-Encoding"], fields["Content-Type"]), (200, "gzip", "application/vnd.mapbox-vector-tile"))
    checks.same("a tile that is not there", site.get("/tiles/15/1/3.pbf")[0], 204)
    checks.same("no other file", site.get("/tiles/../users")[0] in (401, 400, 404), True)


def restored(checks, land):
    """The register is restored from a backup, and other commands get the numbers of revisions whose pages nginx keeps. Their addresses must not
    show the old pages for the new revisions."""
    name = lambda text: {"do": "enter", "object": 9_500_000, "first": "2020-01-01", "unit": {"name": text}}
    revision, query = land.revision + 1, "collections/units/items?filter=object+%3D+9500000"
    port = free_port()
    address = f"127.0.0.1:{port}"
    backup = land.copy("backup.db")
    with nginx(land.folder, f"http://{address}") as site:
        with hosting_at(land.copy("lost.db")) as (upstream, office), at_port(upstream, address):
            enter(office, name("Lost"))
            lost = site.get(f"/revision/{revision}/{query}")
            checks.holds("the page is kept", b"Lost" in lost[2] and "immutable" in lost[1]["Cache-Control"])
        with hosting_at(backup) as (upstream, office), at_port(upstream, address, "--edition", "2"):
            enter(office, name("Other"))
            memento = next(it["href"] for it in json.loads(site.get(f"/{query}")[2])["links"] if it["rel"] == "memento")
            found = site.get(memento.removeprefix("https://maps.example"))
            checks.same("the revision's page has what was entered after the restoration", (b"Other" in found[2], b"Lost" in found[2]), (True, False))
            checks.same("the gateway has no page at the old name", fetch(f"http://{address}/revision/{revision}/{query}")[0], 410)
        with hosting_at(land.copy("again.db")) as (upstream, office), started(*relay(upstream, land)) as (relayed, _), gateway(relayed) as base:
            went_back(checks, land, base, office)


def at_port(upstream, address, *options):
    return started(PROGRAM_OF_GATEWAY, "--upstream", upstream, "--crs", "EPSG:25832", "--listen", address, "--url", "https://maps.example", *options)


def relay(upstream, land):
    """A server in the place of `cadastred` that passes requests on to the address in a file."""
    (land.folder / "upstream").write_text(upstream, encoding="utf-8")
    code = ("import http.server, pathlib, sys, urllib.request, urllib.error\n"
            "class Relay(http.server.BaseHTTPRequestHandler):\n"
            "    protocol_version = 'HTTP/1.1'\n"
            "    def log_message(self, *_): pass\n"
            "    def do_GET(self):\n"
            "        try: it = urllib.request.urlopen(pathlib.Path(sys.argv[1]).read_text() + self.path)\n"
            "        except urllib.error.HTTPError as fault: it = fault\n"
            "        body = it.read()\n"
            "        self.send_response(it.status); self.send_header('Content-Length', str(len(body))); self.end_headers(); self.wfile.write(body)\n"
            "server = http.server.ThreadingHTTPServer(('127.0.0.1', 0), Relay)\n"
            "print('listening 127.0.0.1:%d' % server.server_port, flush=True)\n"
            "server.serve_forever()\n")
    return "/usr/bin/python3", "-c", code, str(land.folder / "upstream")


def went_back(checks, land, base, office):
    """A gateway that sees the register go back lets nobody keep a page any more."""
    pinned = f"{base}/revision/{land.revision}/collections/parcels/items?limit=1"
    enter(office, {"do": "enter", "object": 9_600_000, "first": "2020-01-01", "unit": {}})
    fetch(base + "/collections/units/items?limit=1")
    checks.holds("a page is kept", "immutable" in fetch(pinned)[1]["Cache-Control"])
    with hosting_at(land.copy("older.db")) as (older, _):
        (land.folder / "upstream").write_text(older, encoding="utf-8")
        fetch(base + "/collections/units/items?limit=1")
        checks.same("after the register went back it is not", fetch(pinned)[1]["Cache-Control"], "no-cache")
