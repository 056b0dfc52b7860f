#!/usr/bin/env python3
"""Writes cases of crates/cad_cases: a thousand connections whose heads are cut, doubled, joined, or changed in some bytes.

    scripts/head_cases.py [SEED]        prints the cases; the stored ones have seed 1

It leaves out connections that end inside a line that can no longer become a line of a head. The server may reject such a line before its
end or at its end.
"""
import json
import random

from calling import a_number, arguments, with_defaults
import server_model

COUNT = 1000
TARGETS = [
    "/collections/parcels/items?limit=1",
    "/collections/parcels/items?limit=0&limit=2",
    "/collections/parcels/items?datetime=2012-05-01&limit=2",
    "/collections/parcels/items?filter=area+%3E+390&limit=1",
    "/collections/parcels/items?filter=%FF",
    "/collections/units/items?bbox=0,0,9,9",
    "/collections/responsibilities/items",
    "/collections/parcels/items/1.2",
    "/collections/units/items/10.3",
    "/collections/rights",
    "/collections/none/items",
    "/",
    "/x",
]
FIELDS = [
    "host:localhost:8080",
    "Content-Length: 0",
    "Content-Length: 0",
    "content-length:0 ",
    "Content-Length: 5",
    "Transfer-Encoding: chunked",
    "Connection: close",
    "Cookie: a=b; c=\"d\"",
    "Connection: keep-alive, Close",
    "Accept: application/json",
    "X-Empty:",
    "X-Long: " + "v" * 60,
]
# Bytes that have a meaning in a head, and some that no head may contain.
BYTES = b"\0\t\n\r !\"%&'()*+,-./0159:;<=?@AGHPTZ[\\]^_`az{|}~\x7f\x80\xc3\xa9\xff"


def head(chance):
    """A head. Most of them are valid."""
    method = chance.choice(["GET"] * 17 + ["HEAD", "POST", "get"])
    version = chance.choice(["HTTP/1.1"] * 15 + ["HTTP/1.0"] * 2 + ["HTTP/2.0"])
    fields = ["Host: x"] * (chance.random() < 0.95) + chance.sample(FIELDS, chance.choice([0, 0, 0, 0, 1, 1, 2]))
    chance.shuffle(fields)
    end = chance.choice(["\r\n"] * 9 + ["\n"])
    lines = [f"{method} {chance.choice(TARGETS)} {version}", *fields, ""]
    return chance.choice([""] * 9 + ["\r\n"]).encode() + "".join(it + end for it in lines).encode()


def changed(data, chance):
    """The bytes, with one to three of them changed, inserted or removed."""
    data = bytearray(data)
    for _ in range(chance.randint(1, 3)):
        at = chance.randrange(len(data))
        data[at : at + chance.choice([1, 1, 0])] = bytes(chance.choices(BYTES, k=chance.choice([1, 1, 1, 0])))
        if not data:
            break
    return bytes(data)


def connection(chance):
    """The bytes of a client: some heads, a few of them changed, doubled or cut."""
    heads = [head(chance) for _ in range(chance.choice([1, 1, 1, 2, 3]))]
    at = chance.randrange(len(heads))
    kind = chance.choice(["changed"] * 5 + ["cut", "doubled", "joined", "whole"])
    if kind == "changed":
        heads[at] = changed(heads[at], chance)
    if kind == "cut":
        heads[-1] = heads[-1][: chance.randrange(len(heads[-1]))]
    if kind == "doubled":
        heads.insert(at, heads[at])
    if kind == "joined":
        first, second = head(chance), head(chance)
        heads[at] = first[: chance.randrange(len(first))] + second[chance.randrange(len(second)) :]
    return b"".join(heads)


# Bytes that may complete a part of a request line or of a field.
REST_OF_LINE = [b"", b"G / HTTP/1.1", b" / HTTP/1.1", b"/ HTTP/1.1", *(b" HTTP/1.1"[at:] for at in range(9))]
REST_OF_FIELD = [b"", b"a:", b":"]


def can_go_on(rest):
    """Whether the last line of the bytes can still become a line of a head."""
    lines = rest.split(b"\n")
    last, begun = lines[-1], [it for it in lines[:-1] if it not in (b"", b"\r")]
    if last in (b"", b"\r"):
        return True
    if begun:
        return any(server_model.FIELD.fullmatch(last + it) for it in REST_OF_FIELD)
    return any(server_model.is_request_line(last + it) for it in REST_OF_LINE)


def is_settled(data):
    """Whether the replies to the bytes are the same, however early the server rejects a line that can no longer be valid."""
    desk = server_model.Desk(server_model.sample())
    desk.opened(1)
    desk.fed(1, data)
    return 1 not in desk.lines or can_go_on(desk.lines[1])


def cases(seed):
    chance, count = random.Random(seed), 0
    while count < COUNT:
        data = connection(chance)
        if is_settled(data):
            count += 1
            yield f"serve 9 {json.dumps(data.decode('latin-1'))}"


def main():
    [seed] = with_defaults(arguments(__doc__, a_number), 1)
    print(f"# A thousand connections with heads cut, doubled, joined and changed, by scripts/head_cases.py {seed}")
    for row in cases(seed):
        print(row)


if __name__ == "__main__":
    main()
