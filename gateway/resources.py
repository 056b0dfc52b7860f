"""The gateway's resources: what is asked of the server for each, and what is sent to the client."""
import asyncio
import datetime
import hashlib
import json
import re
import sys
from urllib.parse import parse_qsl, urlencode

import aiohttp
from aiohttp import web

import describe
import filters
import pages
from plane import CRS84, Plane
from problems import PROBLEM, Problem, Refused
from upstream import EXTENTS, Extents, Upstream, judge
from views import DAY, REVISION, Edition, View

VERSION = "0.1.0"
HELD = 1 << 20  # bytes of a page that are held before the first is sent
STALL = 30  # seconds that a client may take for a piece
NAMES = ("f", "limit", "bbox", "bbox-crs", "crs", "datetime", "filter", "filter-lang", "filter-crs", "revision", "after")
# QGIS 3.22 and GDAL 3.6 ask so for conditions on a property that is a day. They would take each version that was in force then for the answer.
GUESSED = re.compile(rf".*{DAY}T(?:/.*|)|0000-01-01T00:00:00Z/.*|.*/9999-12-31T00:00:00Z")
HINT = ("to compare begin or last, write to_date('2000-01-01') in QGIS, and CAST(begin AS CHARACTER) >= '2000/01/01' in GDAL. "
        "For a span of days write an open end as ..")
FOREVER, ASK, A_WHILE = "max-age=31536000, immutable", "no-cache", "max-age=3600"


class Gateway:
    """The resources at one address, over one server."""

    def __init__(self, options):
        self.plane, self.title, self.url, self.origin = Plane(options.crs), options.title, options.url.rstrip("/"), options.allow_origin
        self.upstream, self.edition = Upstream(options.upstream, options.connections), Edition(options.edition)
        self.extents = Extents(self.upstream, self.plane)
        self.room = asyncio.Semaphore(options.clients)
        # What a response is made of besides the register: two gateways with the same mark write the same.
        made_of = [VERSION, self.plane.crs.to_wkt(), self.plane.degrees.definition, self.url, self.title, options.edition, describe.CONFORMANCE]
        self.mark = hashlib.sha256(json.dumps(made_of).encode()).hexdigest()[:8]

    def view(self, request):
        return View(request, self.url, self.edition)

    # Parameters

    def parameters(self, request, allowed=("f",)):
        """The parameters by name. Any other than those allowed is refused, as Part 1 asks."""
        pairs = pairs_of(request)
        found = dict(pairs)
        if len(found) != len(pairs):
            raise Refused("repeated", "a parameter came twice")
        for name in found:
            if name not in allowed:
                raise Refused("unknown", f"there is no parameter {name[:40]!r} here")
        if found.pop("f", "json") not in ("json", "geojson"):
            raise Refused("f", "the only format is json")
        return found

    async def question(self, request, view, name):
        """What a page of items asks of the server."""
        own = {}
        if any(it not in NAMES for it, _ in pairs_of(request)):
            own = {it: kind for it, kind in (await self.upstream.queryables(name))["properties"].items() if kind.get("type")}
        given = self.parameters(request, [it for it in NAMES if it != "revision" or view.revision is None] + list(own))
        if given.get("filter-lang", "cql2-text") != "cql2-text":
            raise Refused("filter-lang", "the language of filters is cql2-text")
        if GUESSED.fullmatch(given.get("datetime", "")):
            raise Refused("datetime", HINT)
        conditions = [filters.equality(it, own[it], given[it]) for it in given if it in own]
        return Question(self.plane, name, view.day, given, conditions)

    # What several resources send

    def fields(self, view, revision, **more):
        """The fields of a response whose body follows from its address and the revision."""
        days = f"-{view.day}" if view.named == "today" else ""
        return {"ETag": f'W/"{revision}{days}-{self.mark}"', "Cache-Control": self.kept(view.is_fixed), **more}

    def kept(self, is_fixed):
        """How long a response may be kept. Nothing is kept for ever of a register that was seen to go back."""
        return FOREVER if is_fixed and not self.upstream.went_back else ASK

    def answer(self, request, body, kind=describe.JSON, fields=None):
        """A response that is made at once."""
        fields = fields or {"ETag": f'W/"{self.mark}"', "Cache-Control": A_WHILE}
        if is_same(request, fields):
            return web.Response(status=304, headers=fields)
        text = json.dumps(body, ensure_ascii=False, separators=(",", ":"))
        return web.Response(body=text.encode(), headers={**fields, "Content-Type": kind})

    async def revision(self, view, given=None):
        """The revision that a request names, or the one in force."""
        if view.revision is not None:
            return view.revision
        return await self.upstream.newest() if given is None else self.edition.number_of(given)

    # Resources

    async def landing(self, request):
        view = self.view(request)
        self.parameters(request)
        return self.answer(request, describe.landing(self.title, view))

    async def conformance(self, request):
        self.view(request)
        self.parameters(request)
        return self.answer(request, {"conformsTo": describe.CONFORMANCE})

    async def api(self, request):
        view = self.view(request)
        self.parameters(request)
        queryables = {name: await self.upstream.queryables(name) for name in describe.COLLECTIONS}
        document = describe.api(view.base, f"{self.title}: {view.describe()}", VERSION, self.plane, queryables, view.revision is not None)
        return self.answer(request, document, describe.OPENAPI)

    async def collections(self, request):
        """All collections, or the one that the path names."""
        view = self.view(request)
        self.parameters(request)
        name, revision = request.match_info.get("name"), await self.revision(view)
        # Extents without a revision may be those of an earlier one, so they get no tag.
        fields = self.fields(view, revision) if view.revision is not None else {"Cache-Control": f"max-age={EXTENTS}"}
        if is_same(request, fields):
            return web.Response(status=304, headers=fields)
        names = [name] if name else describe.COLLECTIONS
        found = [describe.collection(view.base, it, self.plane, await self.extents.of(it, view, revision)) for it in names]
        links = [describe.link("self", view.base + "/collections")]
        return self.answer(request, found[0] if name else {"links": links, "crs": [CRS84, self.plane.uri], "collections": found}, fields=fields)

    async def schema(self, request):
        """The queryables, or the schema of a feature."""
        view = self.view(request)
        self.parameters(request)
        name, which = request.match_info["name"], request.match_info["which"]
        found = await self.upstream.queryables(name)
        href = f"{view.base}/collections/{name}/{which}"
        body = {**found, "$id": href, "title": name} if which == "queryables" else describe.schema(href, name, found)
        return self.answer(request, body, describe.SCHEMA)

    async def items(self, request):
        view, name = self.view(request), request.match_info["name"]
        question = await self.question(request, view, name)
        revision = await self.revision(view, question.given.get("revision"))
        page = Page(self, request, view, name, question, revision)
        if is_same(request, page.fields):
            return unchanged(page.fields)
        async with self.upstream.ask(f"/collections/{name}/items", question.pairs + [("revision", str(revision))]) as answer:
            if answer.status == 200:
                return await page.send(answer)
            body = await answer.read()
        try:
            judge(answer.status, body)
        except Problem as problem:
            raise await self.placed(problem, name, question) from None

    async def placed(self, problem, name, question):
        """The problem, with the place of a filter's fault in the client's own text."""
        one = question.filter
        if problem.code != "filter" or one is None:
            return problem
        if question.is_joined:
            # What the gateway added may have moved the first fault. The client's filter alone has its own.
            try:
                await self.upstream.read(f"/collections/{name}/items", [("limit", "1"), ("filter", one.text)])
                return Refused("filter", "the filter is too long together with the request's other conditions", cause="TooLong")
            except Problem as alone:
                problem = alone
        if problem.more.get("place") is not None:
            problem.more["place"] = one.place(problem.more["place"])
            problem.detail = f"{problem.detail}: byte {problem.more['place']}"
        return problem

    async def item(self, request):
        view, name, identifier = self.view(request), request.match_info["name"], request.match_info["id"]
        given = self.parameters(request, ("f", "crs"))
        degrees = self.plane.is_degrees("crs", given.get("crs", CRS84))
        if not re.fullmatch(r"[1-9]\d{0,9}\.[1-9]\d{0,9}", identifier, re.ASCII):
            raise Problem(404, "no-feature")
        revision = await self.revision(view)
        fields = self.fields(view, revision, **{"Content-Crs": f"<{CRS84 if degrees else self.plane.uri}>", "Content-Type": describe.GEOJSON})
        if is_same(request, fields):
            return unchanged(fields)
        words = "object = {} AND number = {}".format(*identifier.split("."))
        pairs = [("filter", words), *([("datetime", view.day)] if view.day else []), ("revision", str(revision))]
        here = f"{view.base}/collections/{name}"
        address = f"{here}/items/{identifier}" + ("?" + urlencode(given) if given else "")
        links = [describe.link("self", address, describe.GEOJSON), describe.link("collection", here)]
        found = await self.upstream.read(f"/collections/{name}/items", pairs)
        body = pages.single(shown(self.plane.write(found, degrees)), links)
        if body is None:
            raise Problem(404, "no-feature")
        return web.Response(body=body, headers={**fields, "Link": link_field(links)})

    # Around all of them

    @web.middleware
    async def around(self, request, handler):
        """Sends each response while there is room for its client, and turns faults into problems."""
        if self.room.locked():
            return await self.sent(request, self.problem(Problem(503, "busy", "too many requests are being answered now")))
        async with self.room:
            return await self.sent(request, await self.answered(request, handler))

    async def answered(self, request, handler):
        try:
            if self.origin and request.method == "OPTIONS":
                return web.Response(status=204, headers={"Allow": "GET, HEAD, OPTIONS"})
            return await handler(request)
        except Problem as it:
            if it.code == "revision" and "revision" in request.match_info:
                it = Problem(404, "revision", "the register has not come to this revision")
            return self.problem(it)
        except web.HTTPMethodNotAllowed as it:
            response = self.problem(Problem(405, "method"))
            response.headers["Allow"] = it.headers["Allow"]
            return response
        except web.HTTPNotFound:
            return self.problem(Problem(404, "no-resource"))
        except (aiohttp.ClientConnectionError, asyncio.TimeoutError):
            return self.problem(Problem(503, "register", "the register does not answer"))
        except (aiohttp.ClientPayloadError, pages.Broken, ValueError, KeyError) as it:
            report(f"{type(it).__name__} {it}")
            return self.problem(Problem(502, "register", "the register's answer could not be read"))

    async def sent(self, request, response):
        """The response, sent as far as it was not. A client that takes nothing for some time is cut off."""
        if response.prepared:
            return response
        if self.origin:
            response.headers["Access-Control-Allow-Origin"] = self.origin
            response.headers["Access-Control-Allow-Headers"] = "Authorization, If-None-Match"
            response.headers["Access-Control-Expose-Headers"] = "Content-Crs, ETag, Link"
        try:
            await response.prepare(request)
            await asyncio.wait_for(response.write_eof(), STALL)
        except ConnectionError:
            pass  # the client has left
        except asyncio.TimeoutError:
            cut(request, "its client takes nothing")
        return response

    @staticmethod
    def problem(it):
        fields = {"Content-Type": PROBLEM, "Cache-Control": "no-store", **({"Retry-After": "1"} if it.status == 503 else {})}
        return web.Response(status=it.status, body=json.dumps(it.body()).encode(), headers=fields)


class Question:
    """What a client asks of a collection's items, as parameters of the server without the revision."""

    def __init__(self, plane, name, day, given, conditions):
        self.given, self.in_degrees = given, plane.is_degrees("crs", given.get("crs", CRS84))
        self.pairs = [(it, given[it]) for it in ("limit", "after", "datetime") if it in given]
        box, condition = self.box(plane, name)
        self.pairs += [("bbox", box)] if box else []
        conditions += [condition] if condition else []
        if day and "datetime" in given:
            conditions.append(f"T_INTERSECTS(lifespan, DATE('{day}'))")
        elif day:
            self.pairs.append(("datetime", day))
        in_degrees = plane.is_degrees("filter-crs", given.get("filter-crs", CRS84))
        self.filter = filters.Filter(given["filter"], plane, in_degrees) if "filter" in given else None
        if self.filter and not self.filter.balanced:
            conditions = []  # the server will refuse it, and say where
        self.is_joined = bool(conditions)
        text = filters.joined(self.filter, conditions)
        self.pairs += [("filter", text)] if text is not None else []

    def box(self, plane, name):
        """The server's `bbox` and a condition, for the client's."""
        in_degrees = plane.is_degrees("bbox-crs", self.given.get("bbox-crs", CRS84))
        if "bbox" not in self.given:
            return None, None
        found = plane.box(self.given["bbox"], in_degrees)
        return found if name == "parcels" else (None, "FALSE")  # null geometries meet no box


class Page:
    """A page of items on its way from the server to a client."""

    def __init__(self, gateway, request, view, name, question, revision):
        self.gateway, self.request, self.view, self.question, self.revision = gateway, request, view, question, revision
        self.here = f"{view.base}/collections/{name}/items"
        self.is_pinned = view.revision is not None or "revision" in question.given
        system = CRS84 if question.in_degrees else gateway.plane.uri
        self.fields = gateway.fields(view, revision, **{"Content-Crs": f"<{system}>", "Content-Type": describe.GEOJSON})
        if self.is_pinned:
            self.fields["Cache-Control"] = gateway.kept(view.named != "today")
        self.links = [describe.link("self", self.address(), describe.GEOJSON), describe.link("collection", f"{view.base}/collections/{name}")]

    def address(self, **more):
        """This page's address, or one with further parameters."""
        pairs = {**self.question.given, **more}
        return self.here + ("?" + urlencode(pairs) if pairs else "")

    def add_links(self, after):
        """Links to the next page, and from a page without a revision to the same one at its revision, which never changes (RFC 7089)."""
        named = {} if self.view.revision is not None else {"revision": self.gateway.edition.name(self.revision)}
        if not self.is_pinned:
            self.links.append(describe.link("memento", self.view.fixed_base() + self.address(**named).removeprefix(self.view.base), describe.GEOJSON))
        if after:
            self.links.append(describe.link("next", self.address(**named, after=after), describe.GEOJSON))

    def end(self, members):
        """The members after the features. The number of matched features is known where the first page is the last."""
        after, count = pages.next_identifier(members), members["numberReturned"]
        self.add_links(after)
        is_whole = not after and "after" not in self.question.given
        now = datetime.datetime.now(datetime.timezone.utc).strftime("%Y-%m-%dT%H:%M:%SZ")
        return {
            "links": self.links, **({"numberMatched": count} if is_whole else {}), "numberReturned": count, "revision": members["revision"],
            **({} if self.is_pinned else {"timeStamp": now}),
            **({} if self.question.in_degrees else {"crs": {"type": "name", "properties": {"name": self.gateway.plane.urn}}})}

    async def send(self, answer):
        """Sends the page. A short one has its length and its links in its head. A long one is sent while it comes."""
        write = lambda text: shown(self.gateway.plane.write(text, self.question.in_degrees))
        made = pages.pieces(answer.content.iter_chunked(1 << 16), write, self.end)
        is_head, held, size = self.request.method == "HEAD", [], 0
        async for piece in made:
            size += len(piece)
            held += [] if is_head else [piece]
            if size > HELD and not is_head:
                return await self.stream(held, made)
        self.fields["Link"] = link_field(self.links)
        if is_head:
            return web.Response(headers={**self.fields, "Content-Length": str(size)})
        return web.Response(body=b"".join(held), headers=self.fields)

    async def stream(self, held, made):
        """Sends a page piece by piece. If its end cannot be sent, the connection breaks off, so no client takes the part for the whole."""
        response = web.StreamResponse(headers=self.fields)
        if self.gateway.origin:
            response.headers["Access-Control-Allow-Origin"] = self.gateway.origin
        await response.prepare(self.request)
        try:
            for piece in held:
                await asyncio.wait_for(response.write(piece), STALL)
            async for piece in made:
                await asyncio.wait_for(response.write(piece), STALL)
            await response.write_eof()
        except Exception as it:  # the page has begun, so every fault cuts it
            cut(self.request, type(it).__name__)
        return response


def pairs_of(request):
    """The parameters of a request, as a form writes them."""
    try:
        return parse_qsl(request.raw_path.partition("?")[2], keep_blank_values=True, errors="replace", max_num_fields=64)
    except ValueError:
        raise Refused("unknown", "there are more than 64 parameters") from None


def is_same(request, fields):
    """Whether the client has what these fields name."""
    return fields.get("ETag") in [it.strip() for it in request.headers.get("If-None-Match", "").split(",")]


def unchanged(fields):
    return web.Response(status=304, headers={it: fields[it] for it in ("ETag", "Cache-Control")})


def shown(text):
    """The server's text with the name that clients see: QGIS 3.22 takes wrong features by a condition on a property `end`. In a text of JSON a
    quotation mark has a backslash before it, so this is a member."""
    return text.replace(b'"end":', b'"last":')


def link_field(links):
    return ", ".join(f'<{it["href"]}>; rel="{it["rel"]}"; type="{it["type"]}"' for it in links)


def cut(request, why):
    report(f"a page was cut: {why}")
    if request.transport is not None:
        request.transport.abort()


def report(text):
    print(f"gateway: {text}", file=sys.stderr, flush=True)


def application(options):
    """The resources at their paths, below each view."""
    gateway = Gateway(options)
    app = web.Application(middlewares=[gateway.around], client_max_size=1024)
    app.cleanup_ctx.append(gateway.upstream.run)
    name = "/collections/{name:" + "|".join(describe.COLLECTIONS) + "}"
    day, revision = "/{day:open|today|day/" + DAY + "}", "/revision/{revision:" + REVISION + "}"
    for view in ("", day, revision, day + revision):
        for path, resource in (
                ("/", gateway.landing), ("/conformance", gateway.conformance), ("/api", gateway.api), ("/collections", gateway.collections),
                (name, gateway.collections), (name + "/{which:queryables|schema}", gateway.schema), (name + "/items", gateway.items),
                (name + "/items/{id}", gateway.item)):
            app.router.add_get(view + path, resource)
        if view:
            app.router.add_get(view, gateway.landing)
    return app
