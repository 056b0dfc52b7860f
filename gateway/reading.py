"""Reads the gateway's pages at one revision, for the programs that write files of them."""
import contextlib
import json
import urllib.error
import urllib.request
from urllib.parse import parse_qs, urlencode, urlsplit

AT_ONCE = 300  # objects in one filter, which may have 8,192 bytes


class Unread(Exception):
    """The gateway does not answer as it should. The text says why."""


class Source:
    """A gateway's address, and the revision that is read. Without a revision it is the one in force."""

    def __init__(self, url, revision=None, day=None):
        self.url = self.base = self.public = url.rstrip("/")
        # Links begin with the public address, which may be another one, with a password. They are followed at the address that was given.
        self.public = next(it["href"] for it in self.get("/")["links"] if it["rel"] == "self").rstrip("/")
        self.crs = self.get("/collections/parcels")["storageCrs"]
        # The name of a revision in addresses. A register that was restored has more than a number in it.
        self.name = str(revision) if revision is not None else self.newest()
        self.base = self.url + (f"/day/{day}" if day else "") + f"/revision/{self.name}"
        self.revision = self.get("/collections/units/items?limit=1")["revision"]

    def newest(self):
        """The name of the revision in force, which is in the link from a page to the same page at its revision."""
        links = self.get("/collections/units/items?limit=1")["links"]
        address = next(it["href"] for it in links if it["rel"] == "memento")
        return parse_qs(urlsplit(address).query)["revision"][0]

    def get(self, path):
        """The body of a resource below the view, or of a link."""
        address = self.url + path.removeprefix(self.public) if path.startswith(self.public + "/") else self.base + path
        try:
            with contextlib.closing(urllib.request.urlopen(address, timeout=120)) as it:
                return json.load(it)
        except urllib.error.HTTPError as it:
            with contextlib.suppress(ValueError):
                raise Unread(f"{address}: {json.load(it).get('description') or it.reason}") from None
            raise Unread(f"{address}: {it.code} {it.reason}") from None
        except (OSError, ValueError) as it:
            raise Unread(f"{address}: {it}") from None

    def fields(self, name):
        """The kinds of a collection's properties, by name."""
        return self.get(f"/collections/{name}/schema")["properties"]["properties"]["properties"]

    def features(self, name, **asked):
        """All features of a collection in the register's own system, page by page."""
        address = f"/collections/{name}/items?" + urlencode({"limit": 1000, "crs": self.crs, **asked})
        while address:
            page = self.get(address)
            yield from page["features"]
            address = next((it["href"] for it in page["links"] if it["rel"] == "next"), None)

    def features_with(self, name, property_name, numbers):
        """The features whose property is one of these numbers."""
        numbers = sorted(numbers)
        for at in range(0, len(numbers), AT_ONCE):
            part = ",".join(map(str, numbers[at:at + AT_ONCE]))
            yield from self.features(name, filter=f"{property_name} IN ({part})")
