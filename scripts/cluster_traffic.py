"""Who uses the nodes of a trial: offices that enter lines at all nodes at once, and readers that walk through pages by the balancers."""
import http.client
import json
import random
import socket
import threading
import time

from cluster_order import Op, journal_line
from served import COLLECTIONS


class Choice:
    """Lines that meet in the same few objects. At each moment all offices enter the same new objects and amend the same ones. Some lines are
    wrong."""

    def __init__(self, seed, began, pace=3):
        self.random, self.began, self.pace = random.Random(seed), began, pace

    def line(self, tag, newest=None):
        chance, kind = self.random, self.random.random()
        newest = newest or 1 + int((time.monotonic() - self.began) * self.pace)
        near = max(1, newest - chance.choice([0, 0, 0, 1, 2, 5, 20]))
        day = f"{2000 + chance.randrange(25)}-{chance.randrange(1, 13):02}-{chance.randrange(1, 28):02}"
        unit, party, parcel, right = 100000 + near, 200000 + near, 300000 + near, 400000 + near
        if kind < 0.03:
            return chance.choice([b"hello", b'{"do":"enter","object":0,"first":"2000-01-01","unit":{}}', b"{}", b" ", tag.encode(),
                                  b'{"do":"enter","object":1e3,"first":"2000-01-01","unit":{}}', b'{"object":1,"do":"retire","last":"2000-01-01","x":[1.5]}'])
        if kind < 0.25:
            told = {"do": "enter", "object": unit, "first": "2000-01-01", "unit": {"name": tag}}
        elif kind < 0.35:
            told = {"do": "enter", "object": party, "first": "1990-01-01", "party": {"name": tag, "code": "naturalPerson"}}
        elif kind < 0.55:
            x, y = near % 100 * 20000, near // 100 * 20000
            shape = [[x, y], [x + 20000, y], [x + 20000, y + 20000], [x, y + 20000]]
            told = {"do": "enter", "object": parcel, "first": "2001-01-01", "parcel": {"unit": unit, "label": tag, "area": near, "shape": shape}}
        elif kind < 0.65:
            told = {"do": "enter", "object": right, "first": "2001-01-01", "right": {"unit": unit, "party": party, "code": tag, "share": [1, 2]}}
        elif kind < 0.80:
            told = {"do": "amend", "object": unit, "first": day, "unit": {"name": tag}}
        elif kind < 0.90:
            told = {"do": "amend", "object": parcel, "first": day, "parcel": {"unit": unit, "label": tag}}
        elif kind < 0.95:
            told = {"do": "amend", "object": unit, "first": day, "party": {"name": tag, "code": "x"}}
        else:
            told = {"do": "retire", "object": chance.choice([right, parcel]), "last": f"{2030 + chance.randrange(20)}-01-01"}
        text = json.dumps(told, indent=chance.choice([None, None, None, 0])).replace("\n", " ")
        # the second of two members with one name counts
        return (text if chance.random() > 0.02 else text.replace("{", '{"object": 7, ', 1)).encode()


class Office(threading.Thread):
    """Enters lines at a node. `longest` is how many it sends at once. With names it sends a line again until it has an answer."""

    def __init__(self, label, node, choice, stop, pause, history, longest=1, has_names=False):
        super().__init__(daemon=True)
        self.label, self.node, self.choice, self.over, self.pause, self.history = label, node, choice, stop, pause, history
        self.longest, self.has_names, self.count, self.sent_again, self.left = longest, has_names, 0, 0, []

    def run(self):
        while not self.over.is_set():
            try:
                with socket.socket(socket.AF_UNIX) as it:
                    it.settimeout(90)
                    it.connect(str(self.node.office))
                    with it.makefile("rb") as answers:
                        self.enter_on(it, answers)
            except OSError:
                time.sleep(0.1)

    def enter_on(self, connection, answers):
        last = None
        while not self.over.is_set() or self.left:
            burst = self.left or self.burst(last)
            self.sent_again += len(self.left)
            # a line that is sent again is the same operation, which began when it was first sent
            self.left = [it for it in burst if it.is_named]
            connection.sendall(b"".join(it.sent + b"\n" for it in burst))
            for op in burst:
                answer = answers.readline()
                if not answer.endswith(b"\n"):
                    raise ConnectionError("no answer")
                op.ended, op.answer = time.monotonic(), answer[:-1].decode()
                self.left = [it for it in self.left if it is not op]
            last = burst[-1]
            time.sleep(self.pause * 2 * self.choice.random.random())

    def burst(self, last):
        """New lines, each after the one before it. A line that may be sent again is not bound to its place on the first connection."""
        ops = [self.op() for _ in range(self.choice.random.randint(1, self.longest))]
        if not self.has_names:
            for before, op in zip([last, *ops], ops):
                op.after = before
        return ops

    def op(self):
        self.count += 1
        tag = f"{self.label}-{self.count}"
        line = self.choice.line(tag)
        op = Op(self.label, self.node.number, tag, journal_line(line))
        # a line with a member twice gets no name
        op.is_named = self.has_names and line.startswith(b"{") and line != b"{}" and b'"object": 7' not in line
        op.sent = b'{"name":"%s",%s' % (tag.encode(), line[1:]) if op.is_named else line
        op.begun = time.monotonic()
        self.history.append(op)
        return op


class Reader(threading.Thread):
    """Walks through the pages of a collection by a balancer. It keeps the pages of its walks, and why the others ended."""

    def __init__(self, address, port, source, stop, seed, pause=0.02):
        super().__init__(daemon=True)
        self.address, self.port, self.source, self.over, self.pause = address, port, source, stop, pause
        self.random, self.connection = random.Random(seed), None
        self.pages, self.newest, self.ends, self.whole = [], [], [], 0

    def get(self, target):
        """The status and the body, or no status if the connection broke off."""
        try:
            if self.connection is None:
                self.connection = http.client.HTTPConnection(self.address, self.port, timeout=75, source_address=self.source and (self.source, 0))
            self.connection.request("GET", target)
            reply = self.connection.getresponse()
            return reply.status, reply.read()
        except (OSError, http.client.HTTPException) as fault:
            self.connection.close()
            self.connection = None
            return None, repr(fault).encode()

    def run(self):
        while not self.over.is_set():
            target, is_first = f"/collections/{self.random.choice(COLLECTIONS)}/items?limit={self.random.choice([3, 10, 40])}", True
            while target and not self.over.is_set():
                status, body = self.get(target)
                if status != 200:
                    self.ends.append((status, target, body[:60]))
                    time.sleep(0.1)
                    break
                page = json.loads(body)
                self.pages.append((target, body, time.monotonic()))
                if is_first:
                    self.newest.append(page["revision"])
                    is_first = False
                target = next((it["href"] for it in page["links"] if it["rel"] == "next"), None)
                time.sleep(self.pause * 2 * self.random.random())
            else:
                self.whole += target is None
