"""The server behind the gateway: requests to it, its faults, and what the gateway finds out from several responses."""
import asyncio
import collections
import datetime
import json
import sys
import time
from urllib.parse import urlencode

import aiohttp
import yarl

from plane import CRS84, LIMIT, WHOLE
from problems import Problem, of_server

EXTENTS = 60  # seconds for which extents without a revision are used again
MOST_EXTENTS = 256
LAST_DAY = 3652059  # 9999-12-31, counted as Python does


class Upstream:
    """The server at a fixed address. No text of a client becomes part of it, except as a parameter."""

    def __init__(self, address, connections):
        self.address, self.connections = address.rstrip("/"), connections
        self.session, self.highest, self.went_back = None, 0, False

    async def run(self, _):
        """Keeps connections while the gateway runs."""
        limits = aiohttp.TCPConnector(limit=self.connections, keepalive_timeout=30)
        timeout = aiohttp.ClientTimeout(total=120, connect=10, sock_read=60)
        jar = aiohttp.DummyCookieJar()
        async with aiohttp.ClientSession(connector=limits, timeout=timeout, auto_decompress=False, cookie_jar=jar) as self.session:
            yield

    def ask(self, path, pairs=()):
        """A response that is still to be read."""
        query = urlencode(list(pairs))
        return self.session.get(yarl.URL(self.address + path + ("?" + query if query else ""), encoded=True), allow_redirects=False)

    async def read(self, path, pairs=()):
        """A short body. A kept connection that the server has just ended is tried once more."""
        for is_last in (False, True):
            try:
                async with self.ask(path, pairs) as answer:
                    body = await answer.read()
                    break
            except aiohttp.ServerDisconnectedError:
                if is_last:
                    raise
        judge(answer.status, body)
        return body

    async def newest(self):
        """The revision in force. A filter that is never true reads no feature."""
        found = json.loads(await self.read("/collections/units/items", [("limit", "1"), ("filter", "FALSE")]))["revision"]
        if found < self.highest and not self.went_back:
            self.went_back = True
            print(f"gateway: the register went back from revision {self.highest} to {found}, so no page is kept any more. "
                  "If it was restored, start the gateway with a higher --edition", file=sys.stderr, flush=True)
        self.highest = max(self.highest, found)
        return found

    async def queryables(self, name):
        """The queryables of a collection, with the names that the gateway's clients see."""
        found = json.loads(await self.read(f"/collections/{name}/queryables"))
        found["properties"] = {"last" if it == "end" else it: kind for it, kind in found["properties"].items()}
        return found


def judge(status, body):
    """Raises what a status other than 200 means."""
    if status in (400, 404):
        raise of_server(status, json.loads(body))
    if status == 503:
        raise Problem(503, "busy", "the register has no room for this request now")
    if status != 200:
        raise Problem(502, "register", f"the register responds with {status}")


class Extents:
    """Where and when the features of a collection are, found by questions to the server: to a metre outwards, and to the day."""

    def __init__(self, upstream, plane):
        self.upstream, self.plane, self.known = upstream, plane, collections.OrderedDict()

    async def of(self, name, view, revision):
        """The extent of what a view has of a collection. Those without a revision in the address are used again for a minute."""
        key, now = (name, view.day, view.revision), time.monotonic()
        since, found = self.known.get(key, (None, None))
        has_failed = found is not None and found.done() and (found.cancelled() or found.exception() is not None)
        if found is None or has_failed or view.revision is None and now - since > EXTENTS:
            found = asyncio.ensure_future(Extent(self.upstream, self.plane, name, view, revision).find())
            self.known[key] = (now, found)
            if len(self.known) > MOST_EXTENTS:
                self.known.popitem(last=False)
        return await asyncio.shield(found)


class Extent:
    """One question for an extent."""

    def __init__(self, upstream, plane, name, view, revision):
        self.upstream, self.plane, self.name, self.view = upstream, plane, name, view
        self.shared = [("limit", "1"), ("revision", str(revision)), *([("datetime", view.day)] if view.day else [])]

    async def has(self, **asked):
        """Whether the view has a feature that meets further parameters."""
        body = await self.upstream.read(f"/collections/{self.name}/items", [*self.shared, *asked.items()])
        return json.loads(body)["numberReturned"] > 0

    async def find(self):
        """The extent as Part 1 writes it, or None if there is no feature."""
        if not await self.has():
            return None
        extent = {"temporal": {"interval": [await self.days()]}}
        if self.name == "parcels" and await self.has(bbox=WHOLE):
            extent["spatial"] = {"bbox": [await self.degrees()], "crs": CRS84}
        return extent

    async def days(self):
        """The first day, and the last one if the view is a day."""
        if self.view.is_one_day:
            return [self.view.day + "T00:00:00Z", self.view.day + "T23:59:59Z"]
        begun = lambda day: self.has(filter=f"begin <= DATE('{datetime.date.fromordinal(day)}')")
        return [str(datetime.date.fromordinal(await least(1, LAST_DAY, begun))) + "T00:00:00Z", None]

    async def degrees(self):
        """The box in degrees around all shapes."""
        edge = LIMIT // 1000
        meets = lambda box: self.has(bbox=",".join(str(1000 * it) for it in box))
        west, south, east, north = await asyncio.gather(
            least(-edge, edge, lambda it: meets((-edge, -edge, it, edge))),
            least(-edge, edge, lambda it: meets((-edge, -edge, edge, it))),
            least(-edge, edge, lambda it: meets((-it, -edge, edge, edge))),
            least(-edge, edge, lambda it: meets((-edge, -it, edge, edge))))
        return self.plane.degrees_around([1000 * (west - 1), 1000 * (south - 1), 1000 * (1 - east), 1000 * (1 - north)])


async def least(low, high, meets):
    """The least whole number that meets a condition which stays met above it, found by halving."""
    while low < high:
        middle = (low + high) // 2
        low, high = (low, middle) if await meets(middle) else (middle + 1, high)
    return low
