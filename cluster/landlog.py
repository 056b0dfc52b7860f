"""The log of accepted commands, in etcd.

    ROOT/head             the number of the last command, and the chain up to it
    ROOT/log/NUMBER       an entry: commands in a row, under the number of the first of them
    ROOT/floor            the number of the first command that is still kept
    ROOT/nodes/NAME       what a node says about itself, for the others

A command's number is its revision in every register. An entry is written by one transaction that compares the head with the number and the
chain of the writer's own register. So of two entries that are written at once one fails, and a register of another past writes none. The
chain is SHA-256 over the chain before a command and its line as the journal has it.
"""
import asyncio
import hashlib
import json
import os

import grpc
from etcd3 import etcdrpc as rpc

START = "0" * 64
WIDTH = 16
MEGABYTES = 1 << 26


class Lost(Exception):
    """The member of etcd gave no answer: what was asked may have been done or not."""


def link(chain, line):
    """The chain with a further command."""
    return hashlib.sha256(bytes.fromhex(chain) + line).hexdigest()


def links(chain, lines):
    for line in lines:
        chain = link(chain, line)
    return chain


class Head:
    """Where the log ends: the number of its last command, and the chain up to it."""

    def __init__(self, last, chain):
        self.last, self.chain = last, chain

    def text(self):
        return json.dumps({"last": self.last, "chain": self.chain}).encode()

    @staticmethod
    def read(text):
        told = json.loads(text)
        return Head(told["last"], told["chain"])


class Entry:
    """Commands in a row: the number of the first, the chain before it, which node wrote them, and of each the user and the name."""

    def __init__(self, first, before, writer, users, names, lines):
        self.first, self.before, self.writer, self.users, self.names, self.lines = first, before, writer, users, names, lines
        self.last = first + len(lines) - 1

    def head(self):
        """The log's head once this entry is its last."""
        return Head(self.last, links(self.before, self.lines))

    def about(self):
        return {"first": self.first, "before": self.before, "writer": self.writer, "users": self.users, "names": self.names}

    def text(self):
        return b"\n".join([json.dumps(self.about()).encode(), *self.lines])

    @staticmethod
    def read(text):
        about, *lines = text.split(b"\n")
        told = json.loads(about)
        if len(told["names"]) != len(lines):
            raise ValueError(f"entry {told['first']} has {len(lines)} commands, not {len(told['names'])}")
        return Entry(told["first"], told["before"], told["writer"], told["users"], told["names"], lines)


def end_of(prefix):
    return prefix[:-1] + bytes([prefix[-1] + 1])


def channel_to(address):
    """A connection to a member, over TLS if CADASTRE_ETCD_CA names its authority. The certificate's name is then the user of etcd."""
    options = [("grpc.keepalive_time_ms", 5000), ("grpc.keepalive_timeout_ms", 3000), ("grpc.max_receive_message_length", MEGABYTES),
               ("grpc.initial_reconnect_backoff_ms", 100), ("grpc.min_reconnect_backoff_ms", 100), ("grpc.max_reconnect_backoff_ms", 500)]
    files = [os.environ.get(f"CADASTRE_ETCD_{it}") for it in ("CA", "KEY", "CERT")]
    if not files[0]:
        return grpc.aio.insecure_channel(address, options=options)
    texts = []
    for name in files:
        with open(name, "rb") as it:
            texts.append(it.read())
    return grpc.aio.secure_channel(address, grpc.ssl_channel_credentials(*texts), options=options)


class Log:
    def __init__(self, address, root=None):
        self.channel = channel_to(address)
        self.keys, self.watches = rpc.KVStub(self.channel), rpc.WatchStub(self.channel)
        self.root = (root or os.environ.get("CADASTRE_LOG", "/land")).encode()
        self.head_key, self.floor_key = self.root + b"/head", self.root + b"/floor"
        self.entries, self.nodes = self.root + b"/log/", self.root + b"/nodes/"
        self.is_over = False

    def entry_key(self, number):
        return self.entries + b"%0*d" % (WIDTH, number)

    async def ask(self, call, request, wait):
        try:
            return await call(request, timeout=wait)
        except grpc.aio.AioRpcError as fault:
            raise self.lost(fault) from None

    def lost(self, fault):
        """What a failed call means. gRPC may report a task that was cancelled as a failed call."""
        return asyncio.CancelledError() if self.is_over else Lost(f"{fault.code().name} {fault.details()}"[:120])

    async def range(self, key, end=b"", wait=3, **more):
        return (await self.ask(self.keys.Range, rpc.RangeRequest(key=key, range_end=end, **more), wait)).kvs

    async def change(self, compared, done, otherwise=(), wait=5):
        return await self.ask(self.keys.Txn, rpc.TxnRequest(compare=compared, success=done, failure=otherwise), wait)

    @staticmethod
    def is_still(key, text):
        """The key has that value. Without a value there is no such key."""
        if text:
            return rpc.Compare(key=key, result=rpc.Compare.EQUAL, target=rpc.Compare.VALUE, value=text)
        return rpc.Compare(key=key, result=rpc.Compare.EQUAL, target=rpc.Compare.VERSION, version=0)

    @staticmethod
    def put(key, text):
        return rpc.RequestOp(request_put=rpc.PutRequest(key=key, value=text))

    @staticmethod
    def get(key):
        return rpc.RequestOp(request_range=rpc.RangeRequest(key=key))

    # ---- the head and the entries

    async def head(self, wait=3):
        """The head as a majority has it, or None before the log begins."""
        found = await self.range(self.head_key, wait=wait)
        return Head.read(found[0].value) if found else None

    async def begin(self, head):
        """Begins the log behind a register, if it has not begun. Returns whether it did."""
        floor = str(head.last + 1).encode()
        told = await self.change([self.is_still(self.head_key, b"")], [self.put(self.head_key, head.text()), self.put(self.floor_key, floor)])
        return told.succeeded

    async def append(self, entry, wait):
        """Writes the entry if the log ends where the entry begins. Returns whether it did so, and the head that the log then has."""
        before, after = Head(entry.first - 1, entry.before), entry.head()
        told = await self.change([self.is_still(self.head_key, before.text())],
                                 [self.put(self.entry_key(entry.first), entry.text()), self.put(self.head_key, after.text())],
                                 [self.get(self.head_key)], wait)
        if told.succeeded:
            return True, after
        found = told.responses[0].response_range.kvs
        return False, Head.read(found[0].value) if found else None

    async def read(self, number, here=True, limit=64):
        """Entries from the one on that begins with the command of that number or behind it: by this node's member alone, or by a majority."""
        found = await self.range(self.entry_key(number), end_of(self.entries), limit=limit, serializable=here)
        return [Entry.read(it.value) for it in found]

    async def last_key_to(self, number, **more):
        """The last entry that does not begin behind that command: its key and its text."""
        return await self.range(self.entries, self.entry_key(number + 1), limit=1, sort_order=rpc.RangeRequest.DESCEND, sort_target=rpc.RangeRequest.KEY, **more)

    async def entry_with(self, number):
        """The entry that has that command, by a majority's word, or None."""
        for it in await self.last_key_to(number):
            entry = Entry.read(it.value)
            if number <= entry.last:
                return entry
        return None

    async def all_from(self, number):
        """The entries that are kept, from the one on that begins with that command or behind it."""
        while entries := await self.read(number, here=False, limit=500):
            for it in entries:
                yield it
            number = entries[-1].last + 1

    async def bell(self):
        """The heads as this node's member learns of them."""
        over = asyncio.Event()

        async def requests():
            yield rpc.WatchRequest(create_request=rpc.WatchCreateRequest(key=self.head_key))
            await over.wait()

        try:
            async for told in self.watches.Watch(requests()):
                for event in told.events:
                    if event.kv.value:
                        yield Head.read(event.kv.value)
        except grpc.aio.AioRpcError as fault:
            raise self.lost(fault) from None
        finally:
            over.set()

    # ---- what is dropped, and what nodes say about themselves

    async def tell(self, name, told):
        await self.change([], [self.put(self.nodes + name.encode(), json.dumps(told).encode())])

    async def told(self):
        return {it.key[len(self.nodes):].decode(): json.loads(it.value) for it in await self.range(self.nodes, end_of(self.nodes))}

    async def floor(self):
        found = await self.range(self.floor_key)
        return int(found[0].value) if found else 1

    async def drop(self, number):
        """Drops the entries before the one that has that command. Returns the number of the first command that is kept."""
        floor, found = await self.floor(), await self.last_key_to(number, keys_only=True)
        first = int(found[0].key[-WIDTH:]) if found else 0
        if first <= floor:
            return floor
        gone = rpc.RequestOp(request_delete_range=rpc.DeleteRangeRequest(key=self.entries, range_end=self.entry_key(first)))
        told = await self.change([self.is_still(self.floor_key, str(floor).encode())], [self.put(self.floor_key, str(first).encode()), gone])
        return first if told.succeeded else floor
