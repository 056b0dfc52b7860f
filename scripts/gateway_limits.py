"""The gateway in front of a server that fails, with clients that are many, odd or hostile."""
import contextlib
import http.client
import json
import socket
import threading
import time
from concurrent.futures import ThreadPoolExecutor
from http.server import BaseHTTPRequestHandler, ThreadingHTTPServer
from urllib.parse import quote

from gateway_checks import fetch, gateway, identifiers, in_order, page

FEATURE = b'{"geometry":{"coordinates":[[[477014050,5526008853],[477031457,5526007767],[477031501,5526000000]]],"type":"Polygon"},"id":"%d.1","properties":{},"type":"Feature"}'
END = b'],"links":[{"href":"/collections/parcels/items","rel":"self","type":"application/json"}],"numberReturned":%d,"revision":7,"type":"FeatureCollection"}'


def check(checks, land):
    with odd_server() as (upstream, odd), gateway(upstream) as base:
        failing(checks, base + "/revision/7/collections/parcels/items", odd)
    with gateway("http://127.0.0.1:9") as base:
        status, found, body = fetch(base + "/collections/parcels/items")
        checks.same("no server", (status, found["Retry-After"], json.loads(body)["code"]), (503, "1", "register"))
        checks.same("the landing page needs no server", fetch(base + "/")[0], 200)
    with odd_server() as (upstream, odd), gateway(upstream, "--clients", "3") as base:
        crowded(checks, base + "/revision/7/collections/parcels/items", odd)
    with land.served("limits", "--processes", "2") as served:
        many(checks, land, served)
        hostile(checks, served)


@contextlib.contextmanager
def odd_server():
    """A server whose next responses are made by `odd["make"]`."""
    odd = {"make": whole}

    class Handler(BaseHTTPRequestHandler):
        protocol_version = "HTTP/1.1"

        def do_GET(self):
            odd["make"](self)

        def log_message(self, *_):
            pass

    server = ThreadingHTTPServer(("127.0.0.1", 0), Handler)
    server.daemon_threads = True
    threading.Thread(target=server.serve_forever, daemon=True).start()
    try:
        yield f"http://127.0.0.1:{server.server_port}", odd
    finally:
        server.shutdown()


def reply(handler, status, body, length=None):
    handler.send_response(status)
    handler.send_header("Content-Length", str(len(body) if length is None else length))
    handler.end_headers()
    handler.wfile.write(body)
    if length is not None:
        handler.close_connection = True


def features(count):
    return b'{"features":[' + b",".join(FEATURE % it for it in range(1, count + 1)) + END % count


def whole(handler):
    reply(handler, 200, features(3))


def ends(url):
    """Whether a page comes to an end by the rules of HTTP. Then a client takes it for whole."""
    try:
        return fetch(url)[0] == 200
    except (http.client.HTTPException, OSError):
        return False


def is_whole(url):
    """Whether a page is one that a client can read."""
    return ends(url) and page(url)["type"] == "FeatureCollection"


def failing(checks, items, odd):
    checks.holds("a page of the server that does not fail", is_whole(items))
    long = features(20000)
    odd["make"] = lambda it: reply(it, 200, long)
    checks.holds("a page of megabytes", is_whole(items) and len(page(items)["features"]) == 20000)
    for part in (0.1, 0.7, 0.999):
        odd["make"] = lambda it, part=part: reply(it, 200, long[: int(part * len(long))], len(long))
        checks.same(f"a page of megabytes that breaks off after {part} of it is taken for whole", ends(items), False)
    short = features(3)
    for name, make, wanted in (
            ("a short page that breaks off", lambda it: reply(it, 200, short[:-50], len(short)), 502),
            ("a page without its end", lambda it: reply(it, 200, short[:-50]), 502), ("something else", lambda it: reply(it, 200, b"<html>"), 502),
            ("a damaged register", lambda it: reply(it, 500, b""), 502), ("no room", lambda it: reply(it, 503, b""), 503),
            ("a redirection", lambda it: reply(it, 302, b""), 502)):
        odd["make"] = make
        status, found, _ = fetch(items)
        checks.same(f"{name}: a problem", (status, found["Content-Type"], found["Cache-Control"]), (wanted, "application/problem+json", "no-store"))
    odd["make"] = whole
    checks.holds("after them a page again", is_whole(items))


def crowded(checks, items, odd):
    """More requests at once than there is room for get 503, and the others their page."""
    gate = threading.Event()

    def late(handler):
        gate.wait(20)
        whole(handler)

    odd["make"] = late
    with ThreadPoolExecutor(8) as pool:
        asked = [pool.submit(fetch, items) for _ in range(8)]
        deadline = time.monotonic() + 20
        while sum(it.done() for it in asked) < 5 and time.monotonic() < deadline:
            time.sleep(0.05)
        gate.set()
        found = sorted(it.result()[0] for it in asked)
    checks.same("three of eight requests at once have room", found, [200] * 3 + [503] * 5)


def many(checks, land, served):
    """A hundred clients come over the connections of two processes, and none is refused."""
    url = f"{served.base}/revision/{land.revision}/collections/parcels/items?limit=5"
    with ThreadPoolExecutor(100) as pool:
        found = list(pool.map(lambda _: fetch(url), range(100)))
    checks.same("a hundred clients at once", {it[0] for it in found}, {200})
    checks.same("all get the same page", len({it[2] for it in found}), 1)
    checks.same("which is the first", identifiers(json.loads(found[0][2])["features"]), in_order(land.parcels)[:5])


def raw(address, text):
    """The bytes of a response to raw bytes."""
    host, port = address.removeprefix("http://").split(":")
    with socket.create_connection((host, int(port)), timeout=20) as it:
        it.sendall(text)
        found = b""
        with contextlib.suppress(ConnectionError):
            while piece := it.recv(65536):
                found += piece
    return found


def hostile(checks, served):
    split = "label=" + quote("a\r\nSet-Cookie: x=1\r\n\r\n<html>", "")
    for path in (f"/collections/parcels/items?{split}", "/collections/parcels/items/%0d%0aSet-Cookie:x", "/day/2012-05-01%0d%0aSet-Cookie:x/", f"/collections/parcels/items?{split}%00"):
        status, found, _ = fetch(served.base + path)
        checks.same(f"no field of a client's making: {path[:50]}", (found["Set-Cookie"], status in (200, 400, 404)), (None, True))
    head = b"GET %b HTTP/1.1\r\nHost: x\r\nConnection: close\r\n\r\n"
    for target in (b"http://127.0.0.1:9/", b"//127.0.0.1:9/collections", b"/collections/parcels/items?limit=1 HTTP/1.1\r\nX: y", b"*", b"/\xff\xfe", b"/%zz"):
        text = raw(served.base, head % target)
        checks.holds(f"an odd target {target}", text.startswith(b"HTTP/1.1 ") and b"Set-Cookie" not in text and b"HTTP/1.1 5" not in text)
    text = raw(served.base, head % (b"/collections/parcels/items?filter=" + b"a" * 40000))
    checks.holds("a request line of 40 KB is refused", text.startswith(b"HTTP/1.0 400 ") or text.startswith(b"HTTP/1.1 400 "))
    long = quote("label IN (" + ",".join(["'\u00df%'"] * 900) + ")", "")
    checks.same("a filter of 8,000 bytes of escapes is not", fetch(f"{served.base}/collections/parcels/items?filter={long}")[0], 200)
    text = raw(served.base, b"CONNECT 127.0.0.1:9 HTTP/1.1\r\nHost: x\r\nConnection: close\r\n\r\n")
    checks.holds("it is no open proxy", text == b"" or text.split()[1] in (b"400", b"404", b"405"))
    checks.same("afterwards it serves", fetch(served.base + "/collections/units/items?limit=1")[0], 200)
