#!/usr/bin/env python3
"""Writes cases for crates/clients_cases: the loop over a network whose peers follow a script.

    scripts/host_cases.py [SEED] [COUNT]     prints the cases; the stored ones have seed 1 and count 400
    scripts/host_cases.py offices [SEED]     prints those of several connections of the office; the stored ones have seed 1
    scripts/host_cases.py journals [SEED]    prints those in which offices ask for journals; the stored ones have seed 1
    scripts/host_cases.py statuses [SEED]    prints those in which offices ask for the status; the stored ones have seed 1
    scripts/host_cases.py works [SEED]       prints those in which replies take units of work; the stored ones have seed 1

Each case is a line `host STEPS`. In it, clients and land offices connect, send, take and fail in some order, and the network reports them in
some order. The cases have:

- short reads and short writes;
- no memory for a reply, and no descriptors;
- more clients than the server has room for;
- offices that leave before their answer is written;
- clients that do nothing for too long;
- stops while replies are being written.

Several connections of the office send lines alternately, wait at the door, do nothing, or take nothing for 300 seconds. Journals are asked
for while others enter commands; they are long or short, are taken slowly or not at all, and two of them are not read. The status is asked for
while clients come, go, and are refused, and commands are entered, refused and checked. Replies take units of work, some of them more than there
is memory for, while other clients and the office are served, or leave, or nobody else is there.

The database refuses commands for object 6. The end must report that even if the office has left, and the first cases test this.
"""
import random
import sys
from dataclasses import dataclass

from calling import a_number, arguments, one_of, with_defaults

REQUESTS = ["GET /a HTTP/1.1||", "GET /b HTTP/1.1|Host: x||", "GET /c HTTP/1.0||", "POST /d HTTP/1.1|Connection: close||", "GET /lost HTTP/1.1||", "GET /full HTTP/1.1||", "no request|", "GET /e HTTP/1.1|"]
LINES = ['{"do":"enter","object":%d,"first":"2000-01-01","unit":{}}_', "hello_", "_", '{"do":"enter","object":%d,']
COMES = "come;office;room 0 5;wake 64 65;end;give 0 GET /a HTTP/1.1||;give 1 "
BEGINS = COMES + LINES[0] % 1 + ";give 1 " + LINES[0] % 6
REFUSALS = [
    COMES + LINES[0] % 6 + ";wake 0 66;end;end;end;end;break 1;wake 66;end;end",
    BEGINS + ";room 1 11;wake 0 66;end;end;end;end;break 1;wake 66;end;end",
    BEGINS + ";room 1 18;wake 0 66;end;end;end;end;break 1;wake 66;end;room 0 1000;wake 0;end",
    BEGINS + ";room 1 11;wake 0 66;end;end;end;end;second 5;end;end",
    BEGINS + ";room 1 11;wake 0 66;end;end;end;end",
    BEGINS + ";room 1 11;hang 1;wake 0 66;end;end;end;room 1 1000;wake 66;end;room 0 1000;wake 0;end",
    BEGINS[:-1] + ";room 1 1000;hang 1;wake 0 66;end;end;end;room 1 1000;wake 66;end;room 0 1000;wake 0;end",
]


def enters(peer, number):
    """A connection of the office enters this unit."""
    return f"give {peer} " + LINES[0] % number


def taken(count, rooms):
    """So many connections of the office that are taken, one in each round, and how much their sockets take."""
    steps = ["office"] * count + [f"room {peer} {room}" for peer, room in enumerate(rooms) if room] + ["wake 65"]
    return steps + ["end"] * min(count, 4)


MUCH = 1000
FOUR = taken(4, [MUCH] * 4)
FIVE = taken(5, [MUCH] * 5)
# The answer of the first connection begins at second 0, and its socket takes nothing. A fifth connection waits at the door.
UNTAKEN = taken(5, [0] + [MUCH] * 4) + [enters(0, 1), enters(4, 9), "wake 66", "end"]
OFFICES = [
    # two and four at once, with lines alternately: each gets its own answers
    taken(2, [MUCH] * 2) + [enters(0, 1), "wake 66", "end", enters(1, 2), "wake 67", "end", enters(0, 3), "wake 66", "end", enters(1, 2), "wake 67", "end", "give 0 stop_", "wake 66", "end"],
    taken(2, [MUCH] * 2) + [enters(1, 1), enters(0, 2), enters(1, 3), enters(0, 4), "wake 67 66", "end", "end", "give 1 stop_", "wake 67", "end"],
    FOUR + [enters(3, 1), "wake 69", "end", enters(2, 2), "wake 68", "end", enters(1, 3), "wake 67", "end", enters(0, 4), "wake 66", "end", "give 3 stop_", "wake 69", "end"],
    FOUR + [enters(peer, number) for peer, number in ((3, 1), (2, 2), (1, 3), (0, 4), (3, 5), (1, 1))] + ["wake 69 68 67 66", "end", "end", "end", "give 2 hello_", "give 2 stop_", "wake 68", "end", "end"],
    FOUR + ["give 2 " + LINES[0][:20], enters(1, 1), "wake 68 67", "end", "end", "give 2 " + LINES[0][20:] % 2, enters(3, 3), "wake 68 69", "end", "end", "give 0 stop_", "wake 66", "end"],
    FOUR + ["give 1 check " + LINES[0] % 1, enters(0, 1), "give 3 check " + LINES[0] % 1, "wake 67 66 69", "end", "end", "give 3 stop_", "wake 69", "end"],
    # a fifth waits until one of the four is over, and takes its place
    FIVE + [enters(4, 9), "end", "wake 65", "end", enters(2, 1), "wake 68 70", "end", "end", "hang 2", "wake 68", "end", "end", "give 4 stop_", "wake 68", "end"],
    FIVE + [enters(4, 9), "end", "hang 0", "wake 66", "end", "hang 1", "wake 67", "end", "end", enters(4, 8), "wake 66", "end", "end", "give 3 stop_", "wake 69", "end"],
    FIVE + [enters(4, 9), "break 3", "wake 69", "end", "end", enters(4, 8), "wake 69", "end", "end", "give 0 stop_", "wake 66", "end"],
    FIVE + [enters(4, 9), "give 4 stop_", "wake 65 70 71", "end", "end", "end"],
    taken(6, [MUCH] * 6) + [enters(4, 9), enters(5, 8), "hang 1", "hang 2", "wake 67 68", "end", "end", "end", "end", "give 0 stop_", "wake 66", "end"],
    # one that does nothing keeps nobody waiting, and is never dropped
    taken(2, [0, 0]) + ["give 1 stop_", "wake 67", "end"],
    taken(2, [MUCH] * 2) + ["second 86400", "end", enters(1, 1), "wake 67", "end", "end", "second 172800", enters(0, 2), "wake 66", "end", "end", "give 0 stop_", "wake 66", "end"],
    FOUR + ["give 0 " + LINES[3] % 1, "wake 66", "end", "second 5000", "end", "end", enters(3, 1), "wake 69", "end", "end", "give 3 stop_", "wake 69", "end"],
    # one that takes nothing of its answer for 300 seconds is dropped, and others that take theirs are not
    UNTAKEN + [enters(1, 2), "wake 67", "end", "second 299", "end", "end", enters(1, 3), "wake 67", "end", "end", "give 2 stop_", "wake 68", "end", "second 9000", "end"],
    UNTAKEN + [enters(1, 2), "wake 67", "end", "second 300", "end", "end", enters(1, 3), "wake 67", "end", "end", "give 2 stop_", "wake 68", "end"],
    UNTAKEN + ["room 0 1", "second 299", "wake 66", "end", "second 300", "end", "second 598", "end", "end", "give 2 stop_", "wake 68", "end", "second 9000", "end"],
    UNTAKEN + ["room 0 1", "second 299", "wake 66", "end", "second 300", "end", "second 599", "end", "end", "give 2 stop_", "wake 68", "end"],
    UNTAKEN + ["second 299", "end", f"room 0 {MUCH}", "second 301", "wake 66", "end", "end", "second 5000", "end", "end", "give 2 stop_", "wake 68", "end"],
    UNTAKEN + ["second 301", f"room 0 {MUCH}", "end", "end", "wake 66", "end", "end", "give 2 stop_", "wake 68", "end"],
    ["second 250"] + taken(5, [0] + [MUCH] * 4) + [enters(4, 9), "second 290", enters(0, 1), "wake 66", "end", "second 589", "end", "end", "give 2 stop_", "wake 68", "end", "second 9000", "end"],
    ["second 250"] + taken(5, [0] + [MUCH] * 4) + [enters(4, 9), "second 290", enters(0, 1), "wake 66", "end", "second 590", "end", "end", "give 2 stop_", "wake 68", "end"],
    taken(4, [0, 0, MUCH, 0]) + [enters(0, 1), enters(1, 2), enters(2, 3), enters(3, 4), "wake 66 67 68 69", "end", "end", "second 300", "end", "end", "office", "office", f"room 4 {MUCH}", f"room 5 {MUCH}", enters(4, 5), enters(5, 1), "wake 65", "end", "end",
        "end", "end", "give 2 stop_", "wake 68", "end"],
    taken(1, [11]) + [enters(0, 1), enters(0, 2), "wake 66", "end", "end", "second 299", "end", "second 300", "end", "office", f"room 1 {MUCH}", "give 1 stop_", "wake 65", "end", "end"],
    # with clients: each connection of the office is heard after each client's turn
    ["come", "come"] + ["office"] * 3 + [f"room {peer} {MUCH}" for peer in range(5)] + ["wake 64 65", "end", "end", "end", "end", enters(4, 1), "wake 68", "give 0 GET /a HTTP/1.1||", "give 1 GET /b HTTP/1.1|Host: x||", "wake 0 1", "end", enters(2, 2), "wake 66",
        "end", enters(3, 3), "wake 67", "end", "give 0 GET /c HTTP/1.0||", "wake 0", "end", "give 3 stop_", "wake 67", "end", "end"],
    ["come", "office", "office", f"room 0 {MUCH}", f"room 2 {MUCH}", "wake 64 65", "end", "end", enters(2, 1), "give 0 GET /a HTTP/1.1||", "wake 0", "end", "wake 67", "end", "end", "give 1 stop_", "wake 66", "end", "end"],
    # at the end what is under way is written to each of them
    taken(3, [0, 11, 0]) + [enters(0, 1), enters(1, 2), "wake 66 67", "end", "end", "give 2 stop_", "wake 68", "end", f"room 0 {MUCH}", "wake 66", "end", f"room 1 {MUCH}", "second 4", "wake 67", "end"],
    taken(3, [0, 4, 0]) + [enters(0, 1), enters(1, 2), "wake 66 67", "end", "end", "give 2 stop_", "wake 68", "end", f"room 0 {MUCH}", "wake 66", "second 5", "end", f"room 1 {MUCH}", "wake 67", "end"],
    taken(3, [0, MUCH, 0]) + [enters(0, 1), "wake 66", "end", enters(2, 6), enters(1, 3), "wake 68 67", "end", f"room 0 {MUCH}", f"room 2 {MUCH}", "wake 66 68", "end", "end"],
    taken(3, [0, 4, 0]) + [enters(0, 1), enters(1, 2), "wake 66 67", "end", "end", "break 0", "give 2 stop_", "wake 68 66", "end", f"room 1 {MUCH}", "wake 67", "end"],
    ["unwatched 1"] + taken(5, [MUCH] * 5) + ["end", enters(4, 1), "wake 69", "end", "end", "give 1 stop_", "wake 66", "end"],
]


def journal(peer, after):
    """A connection of the office asks for the journal after a revision."""
    return f"give {peer} journal {after}_"


def filled(peer, count, first=11):
    """So many units are entered over a connection, with a round for each."""
    return [enters(peer, first + it) for it in range(count)] + [f"wake {66 + peer}"] + ["end"] * (count + 1)


def rounds(count):
    return ["end"] * count


ONE, TWO, THREE = (taken(it, [10**6] * it) for it in (1, 2, 3))
SLOW = taken(2, [0, 10**6])
BYE = ["give 0 stop_", "wake 66", "end"]
JOURNALS = [
    # the journal of no commands, of some, from the middle, of none at the end, and of a revision that is not there
    ONE + [journal(0, 0), "wake 66"] + rounds(4) + BYE,
    *(ONE + filled(0, 3) + [journal(0, after), "wake 66"] + rounds(6) + BYE for after in (0, 1, 2, 3, 4, 10**18 - 1, 10**18, 10**30)),
    # no number, and numbers in other forms
    *(ONE + filled(0, 2) + [f"give 0 journal{text}_", "wake 66"] + rounds(6) + BYE for text in ("", " ", " x", " 1x", " -1", " +1", " 1 ", "  1", " 007", " 0", "0")),
    ONE + filled(0, 2) + ["give 0 jour", "wake 66", "end", "give 0 nal 1", "wake 66", "end", "give 0 _", "wake 66"] + rounds(6) + BYE,
    # pieces of sixteen
    *(ONE + filled(0, count) + [journal(0, 0), "wake 66"] + rounds(12) + BYE for count in (15, 16, 17, 32, 33)),
    ONE + filled(0, 33) + [journal(0, 20), "wake 66"] + rounds(8) + [journal(0, 1), journal(0, 33), "wake 66"] + rounds(14) + BYE,
    # rows are read in more than one turn
    *(ONE + filled(0, count) + [journal(0, count - 2), "wake 66"] + rounds(8) + BYE for count in (255, 256, 257)),
    # lines behind it are answered after it
    ONE + filled(0, 2) + [journal(0, 0) + LINES[0] % 7 + "journal 2_check " + LINES[0] % 8 + "hello_", "wake 66"] + rounds(16) + BYE,
    # another office enters commands meanwhile: they are not in it
    TWO + filled(0, 20) + [journal(0, 0), "wake 66", "end", enters(1, 7), "wake 67", "end", enters(1, 8), "wake 67"] + rounds(10) + [journal(0, 19), "wake 66"] + rounds(6) + BYE,
    SLOW + filled(1, 18) + [journal(0, 16), "wake 66"] + rounds(3) + [enters(1, 7), "wake 67", "end", "room 0 10", "wake 66", "end", enters(1, 8), "wake 67", "end", f"room 0 {10**6}", "wake 66"] + rounds(6) + [journal(0, 18), "wake 66"]
    + rounds(6) + BYE,
    THREE + filled(2, 17) + [journal(0, 0), journal(1, 15), "wake 66 67"] + rounds(8) + [enters(2, 7), journal(1, 17), journal(0, 16), "wake 68 67 66"] + rounds(10) + BYE,
    # a client is answered between two pieces
    ["come"] + ["office"] * 2 + [f"room {peer} {10**6}" for peer in range(3)] + ["wake 64 65", "end", "end"] + [enters(1, it + 11) for it in range(20)] + ["wake 66"] + rounds(21) + [journal(1, 0), "give 0 GET /a HTTP/1.1||", "wake 66 0", "end",
        "give 0 GET /b HTTP/1.1|Host: x||", "wake 0"] + rounds(10) + ["give 1 stop_", "wake 66", "end"],
    # the office sends no more, but gets all
    TWO + filled(0, 18) + [journal(0, 0), "hang 0", "wake 66"] + rounds(10) + ["give 1 stop_", "wake 67", "end"],
    TWO + filled(0, 3) + ["give 0 journal 1", "hang 0", "wake 66"] + rounds(8) + ["give 1 stop_", "wake 67", "end"],
    # it leaves, or another one asks to stop, before it got all
    TWO + filled(0, 40) + [journal(0, 0), "wake 66", "end", "end", "break 0", "wake 66"] + rounds(4) + ["give 1 stop_", "wake 67", "end"],
    TWO + filled(0, 40) + [journal(0, 0), "wake 66", "end", "give 1 stop_", "wake 67"] + rounds(3),
    SLOW + filled(1, 20) + [journal(0, 0), "wake 66", "end", "end", "give 1 stop_", "wake 67", "end", f"room 0 {10**6}", "wake 66", "end"],
    SLOW + filled(1, 20) + [journal(0, 0), "wake 66", "end", "end", "give 1 stop_", "wake 67", "end", "second 5", "end"],
    # it takes nothing of a piece for 300 seconds, or a byte within them
    SLOW + filled(1, 20) + [journal(0, 0), "wake 66", "end", "end", "second 299", "end", "room 0 1", "wake 66", "end", "second 598", "end", "end", "second 599", "end", "end", "give 1 stop_", "wake 67", "end"],
    SLOW + filled(1, 20) + [journal(0, 0), "wake 66", "end", "end", "second 300", "end", "end", enters(1, 7), "wake 67", "end", "give 1 stop_", "wake 67", "end"],
    # rows that the database does not read: serving ends only if it refused
    TWO + filled(0, 8) + [journal(0, 5), "wake 66"] + rounds(3) + [journal(0, 7), "wake 66"] + rounds(5) + BYE,
    TWO + filled(0, 8) + [enters(1, 7), journal(0, 6), "wake 66 67"] + rounds(4),
    SLOW + filled(1, 8) + [journal(0, 6), "wake 66", "end", f"room 0 {10**6}", "wake 66", "end"],
    TWO + filled(0, 4) + [journal(0, 5), journal(0, 6), "wake 66"] + rounds(6) + BYE,
]


def status(peer):
    """A connection of the office asks for the status."""
    return f"give {peer} status_"


STATUSES = [
    # of an empty register, and after commands that are accepted, refused and checked, and lines that are none
    ONE + [status(0), "wake 66"] + rounds(3) + BYE,
    ONE + filled(0, 3) + [status(0), "wake 66"] + rounds(3) + [enters(0, 11), "give 0 hello_", "give 0 check " + LINES[0] % 9, enters(0, 2), status(0), status(0), "wake 66"] + rounds(12) + BYE,
    # the line comes in pieces, with no end, or is another one
    ONE + ["give 0 sta", "wake 66", "end", "give 0 tus", "wake 66", "end", "give 0 _", "wake 66"] + rounds(3) + BYE,
    TWO + ["give 0 status", "hang 0", "wake 66"] + rounds(4) + ["give 1 status_", "give 1 stop_", "wake 67"] + rounds(4),
    *(ONE + [f"give 0 {text}_", status(0), "wake 66"] + rounds(6) + BYE for text in ("statu", "status ", " status", "statuses", "status 1", "STATUS", "check status", "stat us", "|status", "status|")),
    # it is taken slowly, or not at all, and others are served meanwhile
    SLOW + [status(0), "wake 66", "end", "room 0 7", "wake 66", "end", enters(1, 7), status(1), "wake 67", "end", "end", f"room 0 {10**6}", "wake 66", "end", "end", "give 1 stop_", "wake 67", "end"],
    SLOW + [status(0), "wake 66", "end", "second 299", "end", enters(1, 7), "wake 67", "end", "second 300", "end", "end", status(1), "wake 67", "end", "end", "give 1 stop_", "wake 67", "end"],
    SLOW + [status(0), "wake 66", "end", "give 1 stop_", "wake 67", "end", f"room 0 {10**6}", "wake 66", "end"],
    TWO + [status(0), "break 0", "wake 66", "end", status(1), "wake 67", "end", "end", "give 1 stop_", "wake 67", "end"],
    # seconds go by
    ONE + ["second 3", "end", status(0), "wake 66", "end", "end", "second 90000", status(0), "wake 66"] + rounds(3) + BYE,
    # offices alternate: each command of another one counts
    THREE + [enters(1, 1), status(0), enters(2, 1), status(1), enters(0, 2), status(2), "wake 66 67 68"] + rounds(6) + [status(2), status(0), "wake 68 66"] + rounds(4) + BYE,
    # between the lines of a journal it waits for its end, and that of another office does not
    TWO + filled(0, 20) + [journal(0, 0) + "status_", "wake 66", "end", status(1), "wake 67"] + rounds(10) + BYE,
    # clients come, are answered, refused, turned away and dropped
    ["come"] * 3 + ["office"] + [f"room {peer} {MUCH}" for peer in range(4)] + ["wake 64 65", "end", "end", status(3), "wake 66", "end", "end", "give 0 GET /lost HTTP/1.1||", "wake 0", "end", status(3), "wake 66", "end", "end",
        "give 1 GET /full HTTP/1.1||", "wake 1", "end", status(3), "wake 66", "end", "end", "give 2 GET /a HTTP/1.1||", "wake 2", "end", "end", status(3), "wake 66", "end", "end", "second 61", "end", status(3), "wake 66", "end", "end",
        "give 3 stop_", "wake 66", "end"],
    ["come"] * 67 + ["office", "room 65 1000", "room 67 100000", "wake 64 65"] + rounds(3) + [status(67), "wake 66", "end", "end", "hang 1", "hang 2", "wake 1 2", "end", status(67), "wake 66", "end", "end", "come", "wake 64", "end", status(67),
        "wake 66", "end", "end", "give 67 stop_", "wake 66", "end"],
    ["come", "office", f"room 1 {MUCH}", "unwatched 1", "wake 64 65", "end", "end", status(1), "wake 66", "end", "end", "give 1 stop_", "wake 66", "end"],
    # the database refuses a command: serving ends
    TWO + [status(0), enters(1, 6), status(1), "wake 66 67"] + rounds(3),
]


def asks(peer, target):
    """A client sends a request for a target."""
    return f"give {peer} GET {target} HTTP/1.1||"


def clients(count):
    """So many clients that are taken in one round, and whose sockets take much."""
    return ["come"] * count + [f"room {peer} {MUCH}" for peer in range(count)] + ["wake 64", "end"]


def woken(count):
    return "wake " + " ".join(str(it) for it in range(count))


def counted(peer, place):
    """A connection of the office asks for the status between two rounds."""
    return [status(peer), f"wake {place}", "end", "end"]


STOP = ["give 3 stop_", "wake 66"] + rounds(6)
BUSY = ["come"] * 3 + ["office"] + [f"room {peer} {MUCH}" for peer in range(4)] + ["wake 64 65"] + rounds(7)
SEVERAL = "give 0 " + "".join(f"GET {it} HTTP/1.1||" for it in ("/units/2000", "/b", "/units/9900", "/units/30", "/c"))
WORKS = [
    # a reply that is made by the first piece, by one more, or by several
    *(clients(1) + [asks(0, f"/units/{count}"), "wake 0"] + rounds(8) for count in (0, 1, 818, 819, 820, 9010, 9011, 9012, 17203, 17204, 40000)),
    # other clients and the office are served between two pieces
    BUSY + [asks(0, "/units/60000"), asks(1, "/a"), "wake 0 1"] + rounds(4) + [asks(2, "/b"), "wake 2"] + rounds(4) + [enters(3, 1), "wake 66"] + rounds(4) + [asks(1, "/c"), asks(2, "/d"), "wake 1 2"] + rounds(30) + STOP,
    BUSY + [asks(2, "/units/30000"), asks(0, "/units/10000"), enters(3, 1), "wake 66 2 0"] + rounds(3) + [asks(1, "/a"), enters(3, 2), "wake 1 66"] + rounds(30) + STOP,
    # the reply is that to the moment at which the request was begun
    BUSY + [asks(0, "/units/20000"), "wake 0", "end", "end", enters(3, 1), "wake 66"] + rounds(3) + [asks(1, "/units/900"), "wake 1"] + rounds(20) + [asks(0, "/a"), "wake 0"] + rounds(4) + STOP,
    # eight are worked on in turn, and the others wait for their turn
    clients(12) + [asks(peer, f"/units/{20000 + peer}") for peer in range(12)] + [woken(12)] + rounds(50),
    clients(12) + [asks(peer, f"/units/{9000 if peer % 3 else 30000}") for peer in range(12)] + [woken(12)] + rounds(10) + [asks(1, "/units/900"), "wake 1"] + rounds(40),
    clients(9) + [asks(peer, "/units/40000") for peer in range(9)] + [woken(9)] + rounds(12) + ["come", f"room 9 {MUCH}", "wake 64", "end", asks(9, "/a"), "wake 9", "end", asks(9, "/units/10000"), "wake 9"] + rounds(50),
    clients(3) + [asks(2, "/units/9900"), "wake 2", "end", asks(0, "/units/9900"), "wake 0", "end", asks(1, "/units/9900"), "wake 1"] + rounds(9),
    # a status says how many are worked on and how many wait, and counts the pieces of work
    ["office", "room 0 10000", "wake 65", "end"] + ["come"] * 11 + [f"room {peer} {MUCH}" for peer in range(1, 12)] + ["wake 64", "end"] + [asks(peer, f"/units/{20000 + peer}") for peer in range(1, 12)]
        + [woken(11), "end", "second 2"] + counted(0, 66) + rounds(9) + counted(0, 66) + ["second 5"] + rounds(12) + counted(0, 66) + counted(0, 66) + rounds(30) + counted(0, 66),
    ["office", "room 0 10000", "wake 65", "end"] + ["come"] * 2 + [f"room {peer} {MUCH}" for peer in (1, 2)] + ["wake 64", "end", asks(1, "/unmade/20000"), asks(2, "/units/9900"), "wake 0 1", "end"] + counted(0, 66) + rounds(4) + counted(0, 66) + rounds(6) + counted(0, 66),
    # several requests of one client
    clients(1) + [SEVERAL, "wake 0"] + rounds(14),
    clients(1) + [SEVERAL, "wake 0", "end", SEVERAL] + rounds(24),
    clients(2) + [SEVERAL, asks(1, "/units/30000"), "wake 0 1"] + rounds(20),
    # its socket takes the reply slowly, or nothing
    ["come", "wake 64", "end", asks(0, "/units/9012"), "wake 0"] + rounds(4) + ["room 0 3", "wake 0", "end", "end", "room 0 100", "wake 0"] + rounds(3),
    ["come", "wake 64", "end", asks(0, "/units/9012"), "wake 0"] + rounds(4) + ["second 59", "end", "second 60", "end", "end"],
    # there is no memory for it, in the first piece and in a later one
    clients(2) + [asks(0, "/unmade/5"), asks(1, "/unmade/820"), "wake 0 1"] + rounds(5),
    clients(2) + [asks(0, "/unmade/20000"), asks(1, "/units/20000"), "wake 0 1"] + rounds(9),
    ["come", "wake 64", "end", asks(0, "/unmade/900"), "wake 0"] + rounds(4),
    # it leaves, or its socket fails, while its reply is worked on
    clients(2) + [asks(0, "/units/20000"), asks(1, "/units/20000"), "wake 0 1", "end", "hang 0", "break 1", "wake 0 1"] + rounds(9),
    clients(1) + [asks(0, "/units/9900"), "wake 0", "end", asks(0, "/a"), "hang 0", "wake 0"] + rounds(6),
    # the time of a request runs from its first later piece on, and no time for a client that does nothing meanwhile
    clients(1) + [asks(0, "/units/99000"), "wake 0", "end", "second 100", "end", "second 200", "end", "second 299", "end", "second 300", "end", "end"],
    clients(1) + [asks(0, "/units/40000"), "wake 0", "end", "second 100", "end", "second 200"] + rounds(5) + ["second 259", "end", "second 260", "end", "end"],
    clients(9) + [asks(peer, "/units/99000") for peer in range(9)] + [woken(9), "end", "second 70"] + rounds(9) + ["second 301"] + rounds(4) + ["second 372"] + rounds(3),
    # the office asks to stop meanwhile: what is made is written, and the others get nothing
    BUSY + [asks(0, "/units/20000"), asks(1, "/units/9900"), "wake 0 1"] + rounds(5) + STOP,
    ["come"] * 2 + ["office", "room 1 5", "wake 64 65"] + rounds(6) + [asks(0, "/units/9011"), asks(1, "/a"), "wake 0 1"] + rounds(8) + ["give 2 stop_", "wake 66", "end", "end", f"room 0 {MUCH}", f"room 1 {MUCH}", "wake 0 1", "end", "end"],
    # the database refuses a command meanwhile
    BUSY + [asks(0, "/units/20000"), "wake 0", "end", "end", enters(3, 6), "wake 66"] + rounds(4),
]


def texts(chance, requests):
    """The pieces that a client sends: requests, one after the other."""
    whole = "".join(chance.choice(requests) for _ in range(chance.randint(1, 4)))
    while whole:
        count = chance.choice([1, 5, 17, len(whole), len(whole)])
        yield whole[:count]
        whole = whole[count:]


class Case:
    """A case while it is drawn: the peers, and what they still have to send."""

    def __init__(self, chance, doors=(64, 65, 66)):
        self.chance, self.steps, self.peers, self.unsent, self.offices, self.doors = chance, [], 0, {}, set(), list(doors)
        self.second, self.lines, self.most, self.greatest, self.requests = 0, LINES, 4, 6, REQUESTS

    def come(self):
        self.steps.append("come")
        self.unsent[self.peers] = list(texts(self.chance, self.requests))
        self.peers += 1

    def come_office(self):
        self.steps.append("office")
        lines = [self.chance.choice(self.lines) for _ in range(self.chance.randint(0, self.most))]
        self.unsent[self.peers] = [it % self.chance.randint(1, self.greatest) if "%" in it else it for it in lines]
        self.offices.add(self.peers)
        self.peers += 1

    def act(self):
        """A step of a peer."""
        peer = self.chance.randrange(self.peers)
        what = self.chance.random()
        if what < 0.5 and self.unsent[peer]:
            self.steps.append(f"give {peer} {self.unsent[peer].pop(0)}")
        elif what < 0.85:
            self.steps.append(f"room {peer} {self.chance.choice([1, 7, 40, 1000, 1000])}")
        elif what < 0.93:
            self.steps.append(f"hang {peer}")
        elif what < 0.97:
            self.steps.append(f"break {peer}")

    def step(self, odds):
        """A step of a kind that is drawn by these odds."""
        what = self.chance.random()
        if what < odds.come and self.peers < odds.peers:
            self.come()
        elif what < odds.office and self.peers < 14:
            self.come_office()
        elif what < odds.refuse:
            self.steps.append(f"refuse {self.chance.randint(1, 70)}")
        elif what < odds.unwatched:
            count = self.chance.randint(*odds.counts) if len(odds.counts) > 1 else odds.counts[0]
            self.steps.append(f"unwatched {count}")
        elif what < odds.second:
            self.second += self.chance.choice(odds.seconds)
            self.steps.append(f"second {self.second}")
        else:
            self.act()

    def draw(self, odds):
        """Up to four steps before a wait."""
        for _ in range(self.chance.randint(0, 4)):
            self.step(odds)

    def wait(self, doors=False):
        """The peers that the network reports, in some order, and the end of a wait."""
        places = self.doors + list(range(min(self.peers, 64)))
        told = [it for it in places if self.chance.random() < (0.6 if self.peers < 20 else 0.15) or doors and it in self.doors[1:]]
        self.chance.shuffle(told)
        self.steps += [" ".join(["wake"] + [str(it) for it in told])] * bool(told) + ["end"]

    def whole(self, waits, odds, doors):
        """The case after some steps before each of so many waits. By `doors` the office's doors are more often reported."""
        for _ in range(self.chance.randint(*waits)):
            self.draw(odds)
            self.wait(self.chance.random() < doors)
        return self.end()

    def stop(self):
        """An office connects and sends `stop`."""
        self.steps += ["office", f"give {self.peers} stop_" if self.chance.random() < 0.8 else f"give {self.peers} stop"]
        self.unsent[self.peers] = []
        self.peers += 1
        self.steps += [f"hang {it}" for it in sorted(self.offices)]
        for _ in range(self.chance.randint(4, 10)):
            self.wait(True)

    def end(self):
        """The whole case, which an office mostly stops."""
        if self.chance.random() < 0.7:
            self.stop()
        return "host " + ";".join(self.steps)


@dataclass(frozen=True)
class Odds:
    """How often a step is of each kind, as rising bounds of a drawn number. A client comes only while there are fewer peers than this. Then
    the counts of sockets that the network does not watch, from the least to the greatest, and the seconds that may pass."""

    come: float
    office: float
    refuse: float
    unwatched: float
    second: float
    peers: int
    counts: tuple
    seconds: tuple


CLIENTS = Odds(0.12, 0.18, 0.2, 0.22, 0.26, 12, (1, 2), (1, 3, 30, 60, 150))
# With several connections of the office no step refuses a command.
OFFICE = Odds(0.05, 0.15, 0.0, 0.17, 0.25, 10, (1,), (1, 30, 100, 299, 300))


def case(chance):
    drawn = Case(chance)
    drawn.come()
    crowd = chance.random() < 0.08
    if crowd:
        for _ in range(chance.choice([62, 63, 64, 66])):
            drawn.come()
    for _ in range(chance.randint(4, 16)):
        drawn.draw(CLIENTS)
        drawn.wait()
    return drawn.end()


def case_of_offices(chance):
    """Several connections of the office, and some clients."""
    drawn = Case(chance, range(64, 70))
    for _ in range(chance.randint(2, 4)):
        drawn.come_office()
    return drawn.whole((8, 20), OFFICE, 0.5)


def case_of_journals(chance):
    """Several connections of the office, which enter units and ask for journals, and some clients."""
    drawn = Case(chance, range(64, 70))
    drawn.lines, drawn.most, drawn.greatest = [LINES[0]] * 5 + ["journal %d_", "journal 0_", "check " + LINES[0], "hello_"], 30, 40
    for _ in range(chance.randint(2, 4)):
        drawn.come_office()
    return drawn.whole((20, 60), OFFICE, 0.7)


def case_of_statuses(chance):
    """Several connections of the office, which enter units and ask for the status, and some clients."""
    drawn = Case(chance, range(64, 70))
    drawn.lines, drawn.most, drawn.greatest = [LINES[0]] * 3 + ["status_"] * 3 + ["check " + LINES[0], "hello_", "_"], 12, 9
    drawn.come()
    for _ in range(chance.randint(1, 3)):
        drawn.come_office()
    return drawn.whole((12, 30), OFFICE, 0.6)


def case_of_works(chance):
    """Clients whose replies take units of work, and connections of the office."""
    drawn = Case(chance, range(64, 70))
    counts = [1, 500, 819, 820, 2000, 9011, 9012, 20000, 60000]
    drawn.requests = REQUESTS + [f"GET /units/{it} HTTP/1.1||" for it in counts] + [f"GET /unmade/{it} HTTP/1.1||" for it in (5, 900, 9900)]
    for _ in range(chance.choice([1, 2, 3, 12])):
        drawn.come()
    for _ in range(chance.randint(0, 2)):
        drawn.come_office()
    return drawn.whole((12, 40), CLIENTS, 0.5)


KINDS = {
    "offices": (OFFICES, case_of_offices),
    "journals": (JOURNALS, case_of_journals),
    "statuses": (STATUSES, case_of_statuses),
    "works": (WORKS, case_of_works),
}


def main():
    if sys.argv[1:2] and sys.argv[1] in KINDS:
        kind, seed = with_defaults(arguments(__doc__, one_of(KINDS), a_number), None, 1)
        chance = random.Random(seed)
        listed, draw = KINDS[kind]
        for steps in listed:
            print("host " + ";".join(steps))
        for _ in range(60):
            print(draw(chance))
        return
    seed, count = with_defaults(arguments(__doc__, a_number, a_number), 1, 400)
    chance = random.Random(seed)
    for steps in REFUSALS:
        print("host " + steps)
    for _ in range(count):
        print(case(chance))


if __name__ == "__main__":
    main()
