"""Responses to requests that are refused: Part 1's exceptions (7.6), which are problem details of RFC 7807 too."""
from http import HTTPStatus

PROBLEM = "application/problem+json"
# What the server's faults mean, for clients that show only a text.
MEANINGS = {
    "after": "after is an identifier, such as 7.1",
    "bbox": "bbox is four numbers, the least first, or six with heights",
    "datetime": "datetime is a day, an instant of RFC 3339, or an interval A/B of them, and an open end is ..",
    "filter-lang": "the language of filters is cql2-text",
    "limit": "limit is a whole number from 1",
    "method": "a resource is only read, by GET or HEAD",
    "no-feature": "the collection has no such feature here",
    "no-resource": "there is no such resource",
    "revision": "revision is a whole number, at most the revision in force",
}
CAUSES = {
    "BadShape": "a geometry is not one that filters may have",
    "EndOfFilter": "the filter ends too early",
    "EndsTurned": "the end of an interval is before its beginning",
    "NotADate": "a text is not a day YYYY-MM-DD",
    "NotExpected": "a word or sign is not expected there",
    "NotWhole": "a number has parts that a filter may not ask for",
    "NumberTooLarge": "a number is too large",
    "StrangeCharacter": "a character is not part of the language",
    "TooDeep": "more than 64 parentheses are open",
    "TooLong": "the filter is too long",
    "TooMany": "the filter has too many words and signs",
    "UnknownProperty": "the collection has no such property",
    "Unterminated": "a text in quotation marks does not end",
    "WrongKind": "a value is of a kind that does not fit",
}


class Problem(Exception):
    """A response that is no page. `code` is the server's name of the fault, or one of the gateway's own."""

    def __init__(self, status, code, detail=None, **more):
        super().__init__(code)
        self.status, self.code, self.more = status, code, more
        self.detail = detail or MEANINGS.get(code)

    def body(self):
        told = {"detail": self.detail, "description": self.detail} if self.detail else {}
        return {"code": self.code, "title": HTTPStatus(self.status).phrase, "status": self.status, **told, **self.more}


class Refused(Problem):
    """A request that is wrong in itself."""

    def __init__(self, code, detail, **more):
        super().__init__(400, code, detail, **more)


def of_server(status, told):
    """The problem for a fault that the server reports: its name, and for filters the cause and the place."""
    fault, cause, place = told["fault"], told.get("cause"), told.get("place")
    if cause is None:
        return Problem(status, fault)
    return Problem(status, fault, CAUSES.get(cause, cause), cause=cause, place=place)
