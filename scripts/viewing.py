"""Opens viewer/ in headless Chromium, behind `cadastred` and nginx with the snippet of docs/OPERATIONS.md.

The scripts that use it compare what the page shows with the register. Needs Debian's packages chromium, nginx-light and openssl.
"""
import base64
import contextlib
import json
import os
import re
import shutil
import socket
import subprocess
import sys
import tempfile
import time
from pathlib import Path

import browser
import served

TOP = served.TOP
# Another folder with the page, for scripts that must refuse a wrong one.
VIEWER = os.environ.get("VIEWER") or str(TOP / "viewer")
WIDTH, HEIGHT = 1280, 800


def fails(text):
    sys.exit(f"{Path(sys.argv[0]).name}: {text}")


def need(found, wanted, name):
    if found != wanted:
        fails(f"{name}: {found!r}, not {wanted!r}")


# ---- the proxy

def snippet():
    """The two parts of the snippet in docs/OPERATIONS.md: the upstream server, and nginx's own."""
    text = (TOP / "docs/OPERATIONS.md").read_text(encoding="utf-8")
    return re.search(r"^    upstream .*?^    server \{.*?^    \}$", text, re.M | re.S)[0]


@contextlib.contextmanager
def proxy(folder, address):
    """Runs nginx in front of a server, over TLS and with a password, and gives its address."""
    with socket.socket() as it:
        it.bind(("127.0.0.1", 0))
        port = it.getsockname()[1]
    shutil.copytree(VIEWER, folder / "share/viewer")
    words = ["openssl", "req", "-x509", "-newkey", "rsa:2048", "-nodes", "-days", "2", "-subj", "/CN=land.example", "-keyout", folder / "key.pem", "-out", folder / "cert.pem"]
    subprocess.run(words, check=True, stderr=subprocess.DEVNULL)
    (folder / "users").write_text("ana:{PLAIN}secret\n", encoding="utf-8")
    text = snippet()
    for old, new in [("listen 443 ssl", f"listen 127.0.0.1:{port} ssl"), ("/etc/ssl/land.example.pem", f"{folder}/cert.pem"), ("/etc/ssl/land.example.key", f"{folder}/key.pem"),
                     ("/etc/nginx/land.users", f"{folder}/users"), ("127.0.0.1:8080", address.removeprefix("http://")), ("/usr/share/cadastre", f"{folder}/share")]:
        if old not in text:
            fails(f"docs/OPERATIONS.md has no {old}")
        text = text.replace(old, new)
    temporary = "".join(f"{name}_temp_path {folder}/{name};" for name in ("client_body", "proxy", "fastcgi", "uwsgi", "scgi"))
    (folder / "nginx.conf").write_text(f"pid {folder}/nginx.pid; error_log {folder}/error.log; daemon off; events {{}} http {{ access_log off; {temporary}\n{text}\n}}\n")
    folder.chmod(0o755)
    nginx = shutil.which("nginx") or "/usr/sbin/nginx"
    with subprocess.Popen([nginx, "-e", folder / "error.log", "-c", folder / "nginx.conf"]) as server:
        try:
            wait_for(port)
            yield f"https://127.0.0.1:{port}"
        finally:
            server.terminate()


def wait_for(port):
    for _ in range(100):
        with contextlib.suppress(OSError), socket.create_connection(("127.0.0.1", port)):
            return
        time.sleep(0.1)
    fails("nginx does not listen")


def need_tools():
    """Ends the run if a program is not built or a tool is missing."""
    served.need_program()
    served.need_service()
    for tool in ("chromium", "openssl", "nginx"):
        if not shutil.which(tool, path=f"{served.PATH}:/usr/sbin"):
            print(f"skipped: {tool} is not installed")
            sys.exit()


# ---- the page

def shown_text(count, day, revision, last, asked=""):
    return f"{count:,} parcel{'s' * (count != 1)} in view that held on {day}{asked}, as known at revision {revision} of {last}."


class Page:
    """The page in a browser, its address at the proxy, and the address of the server."""

    def __init__(self, at, address, server):
        self.at, self.address, self.server = at, address, server

    def open(self, fragment):
        """Opens the page, and returns the seconds until it was drawn."""
        self.at.send("Page.navigate", url="about:blank")
        start = time.monotonic()
        self.at.send("Page.navigate", url=f"{self.address}/viewer/#{fragment}")
        self.at.until("document.body && document.body.dataset.ready === 'yes'")
        seconds = time.monotonic() - start
        self.settle()
        return seconds

    def settle(self):
        """Waits until no request is open."""
        time.sleep(0.3)
        self.at.until("document.body.dataset.busy === undefined && !document.querySelector('[aria-busy]')")

    def text(self, identifier):
        return self.at.value(f"document.getElementById({json.dumps(identifier)}).textContent")

    def put(self, identifier, value, event="input"):
        self.at.value(f"{{ const it = document.getElementById({json.dumps(identifier)}); it.value = {json.dumps(value)}; it.dispatchEvent(new Event({json.dumps(event)})); }}")
        self.settle()

    def press(self, identifier):
        self.at.value(f"document.getElementById({json.dumps(identifier)}).click()")
        self.settle()

    def place(self, point):
        """Where a point of the plane is on the page."""
        return self.at.value(f"(() => {{ const box = canvas.getBoundingClientRect(); const [x, y] = toScreen({json.dumps(point)}); return [box.left + x, box.top + y]; }})()")

    def colour(self, point, canvas="canvas"):
        """Red, green, blue and opacity at a point of the plane."""
        pixel = f"document.getElementById('{canvas}').getContext('2d').getImageData(Math.round(x), Math.round(y), 1, 1).data"
        return self.at.value(f"(() => {{ const [x, y] = toScreen({json.dumps(point)}); return [...{pixel}]; }})()")

    def is_drawn(self, point):
        """Whether something is drawn at a point of the plane."""
        return self.colour(point)[3] > 0


@contextlib.contextmanager
def opened(file):
    """Opens the page behind the proxy of a server on the file."""
    fields = {"Authorization": "Basic " + base64.b64encode(b"ana:secret").decode()}
    with tempfile.TemporaryDirectory() as name, served.hosting(file) as address, proxy(Path(name), address) as behind:
        at = browser.Browser(WIDTH, HEIGHT, fields)
        try:
            yield Page(at, behind, address)
            need(at.complaints, [], "the console")
        finally:
            at.end()
