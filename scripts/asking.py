"""A client of the server for the scripts that measure it, and the registers that they measure it on."""
import contextlib
import json
import os
import random
import socket
import subprocess
from pathlib import Path

TOP = Path(__file__).resolve().parent.parent
PROGRAM = os.environ.get("CADASTRE") or str(TOP / "crates/cadastre/out/cadastre")
SERVICE = os.environ.get("CADASTRED") or str(TOP / "crates/cadastred/out/cadastred")
SIDE = 20000
FIRST_UNIT, FIRST_PARTY, FIRST_RIGHT = 1000001, 2000001, 3000001


def shape_at(at):
    """A square of six corners, in rows of a thousand."""
    x, y = at % 1000 * SIDE, at // 1000 * SIDE
    half = x + SIDE // 2
    return [[x, y], [half, y], [x + SIDE, y], [x + SIDE, y + SIDE], [half, y + SIDE], [x, y + SIDE]]


def plain(parcels):
    """A unit and its parcels."""
    yield {"do": "enter", "object": FIRST_UNIT, "first": "2000-01-01", "unit": {"name": "Mill"}}
    for at in range(parcels):
        parcel = {"unit": FIRST_UNIT, "label": f"P-{at}", "area": at % 1000, "shape": shape_at(at)}
        yield {"do": "enter", "object": at + 1, "first": "2001-01-01", "parcel": parcel}


def land(parcels):
    """A unit and a party for each ten parcels, and a right for each parcel. One label in 26 begins with A, and one area in 500
    is above 997."""
    for at in range(parcels // 10):
        yield {"do": "enter", "object": FIRST_UNIT + at, "first": "2000-01-01", "unit": {"name": f"Unit {at}"}}
        party = {"name": f"Name {at}", "code": "naturalPerson"}
        yield {"do": "enter", "object": FIRST_PARTY + at, "first": "2000-01-01", "party": party}
    for at in range(parcels):
        label = f"{chr(65 + at * 31 % 26)}-{at}"
        parcel = {"unit": FIRST_UNIT + at // 10, "label": label, "area": at * 7919 % 1000, "shape": shape_at(at)}
        yield {"do": "enter", "object": at + 1, "first": "2001-01-01", "parcel": parcel}
        right = {"unit": FIRST_UNIT + at // 10, "party": FIRST_PARTY + at // 10, "code": "ownership", "share": [1, 10]}
        yield {"do": "enter", "object": FIRST_RIGHT + at, "first": "2001-01-01", "right": right}


FIRST_NAMES = "Ana Bea Ciro Dana Emil Femke Goran Hanna Ivo Jun Kim Léa Mira Nils Olga Paul Quirin Rosa Sara Tomás Uma Vera Wim Xenia Yusuf Zoë".split()
LAST_NAMES = "Straße Okafor Lind Wójcik Sørensen Vries Petrović Ito Marek Park Nguyen Martin Haddad Berg Ruiz Weber Ahmed Costa Dunn Ek".split()
STREETS = "Mill Church Station Garden River Market School Forest Bridge Castle".split()
TEN_PARCELS, TEN_PARTIES = 9, 2.8


def unit_of(parcel):
    """The unit of a parcel of a county. Ten parcels have nine units."""
    return FIRST_UNIT + (parcel - 1) * TEN_PARCELS // 10


class County:
    """A made-up county of so many parcels, with nine units and two or three parties for each ten of them. Each unit has an owner, two of
    fifteen units were sold once, and some have a mortgage. Every run has the same lines."""

    def __init__(self, parcels):
        self.random = random.Random(21)
        self.parcels, self.parties, self.others = parcels, int(parcels * TEN_PARTIES / 10), FIRST_RIGHT - 1
        self.units = unit_of(parcels) - FIRST_UNIT + 1

    def day(self, first, last):
        return f"{self.random.randint(first, last)}-{self.random.randint(1, 12):02}-{self.random.randint(2, 28):02}"

    def party(self):
        return FIRST_PARTY + self.random.randrange(self.parties)

    def held(self, first, what, **body):
        self.others += 1
        return {"do": "enter", "object": self.others, "first": first, what: {**body, "party": self.party()}}

    def holders(self, at):
        unit, sold = FIRST_UNIT + at, self.day(2016, 2022)
        yield self.held(self.day(1991, 2014), "right", unit=unit, code="ownership", share=[1, 1])
        if at % 15 in (3, 11):
            yield {"do": "retire", "object": self.others, "last": f"{sold[:8]}{int(sold[8:]) - 1:02}"}
            yield self.held(sold, "right", unit=unit, code="ownership", share=[1, 1])
        if at % 45 in (0, 10, 20, 30):
            yield self.held(self.day(2004, 2015), "restriction", unit=unit, code="mortgage", required=True)

    def lines(self):
        """The lines of the county. Units begin before 1991, and parcels from 1995 on."""
        chance = self.random
        for at in range(self.parties):
            name = f"{chance.choice(FIRST_NAMES)} {chr(65 + chance.randrange(26))}. {chance.choice(LAST_NAMES)}"
            yield {"do": "enter", "object": FIRST_PARTY + at, "first": "1950-01-01", "party": {"name": name, "code": "naturalPerson"}}
        for at in range(self.units):
            yield {"do": "enter", "object": FIRST_UNIT + at, "first": self.day(1980, 1990), "unit": {"name": f"{STREETS[at // 900 % 10]} Road {at % 900 + 1}"}}
        for at in range(self.parcels):
            parcel = {"unit": unit_of(at + 1), "label": f"{at // 1000 + 1}/{at % 1000 + 1}", "area": chance.randint(150, 2500), "shape": shape_at(at)}
            yield {"do": "enter", "object": at + 1, "first": self.day(1995, 2015), "parcel": parcel}
        for at in range(self.units):
            yield from self.holders(at)


def spent_by(process):
    """The processor time so far of a process that has one thread, in seconds."""
    with open(f"/proc/{process}/schedstat", encoding="ascii") as status:
        return int(status.read().split()[0]) / 1e9


class Client:
    """A client that keeps its connection open."""

    def __init__(self, address):
        host, port = address.rsplit(":", 1)
        self.socket = socket.create_connection((host, int(port)))
        self.socket.setsockopt(socket.IPPROTO_TCP, socket.TCP_NODELAY, 1)
        self.rest = b""

    def ask(self, target, piece=None):
        head = f"GET {target} HTTP/1.1\r\nHost: x\r\n\r\n".encode()
        for at in range(0, len(head), piece or len(head)):
            self.socket.sendall(head[at:at + (piece or len(head))])

    def reply(self):
        """The body of the next response, read completely."""
        while b"\r\n\r\n" not in self.rest:
            self.rest += self.more()
        fields, self.rest = self.rest.split(b"\r\n\r\n", 1)
        length = int(fields.split(b"Content-Length: ")[1].split(b"\r\n")[0])
        while len(self.rest) < length:
            self.rest += self.more()
        body, self.rest = self.rest[:length], self.rest[length:]
        assert fields.startswith(b"HTTP/1.1 200 "), fields
        return body

    def get(self, target, piece=None):
        self.ask(target, piece)
        return self.reply()

    def more(self):
        data = self.socket.recv(1 << 20)
        assert data, "the connection ended"
        return data


def middle(numbers):
    return sorted(numbers)[len(numbers) // 2]


@contextlib.contextmanager
def running(*words):
    """A program that listens; its address."""
    with subprocess.Popen(words, stdout=subprocess.PIPE, text=True) as server:
        try:
            yield server.stdout.readline().split()[1]
        finally:
            server.kill()


@contextlib.contextmanager
def entering(path, first):
    """A call that enters a command at the office's socket; the objects are numbered from `first` on."""
    numbers = iter(range(first, first + 10000))
    with socket.socket(socket.AF_UNIX) as office:
        office.connect(path)
        answers = office.makefile("rb")

        def enter():
            line = {"do": "enter", "object": 2000000 + next(numbers), "first": "2000-01-01", "unit": {}}
            office.sendall(json.dumps(line).encode() + b"\n")
            assert answers.readline().startswith(b"revision ")

        yield enter
