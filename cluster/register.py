"""The node's own `cadastred`, by its office's socket."""
import asyncio
import contextlib
import json
import time

from landlog import START, link

BUFFER = 1 << 18


class Gone(Exception):
    """The connection to `cadastred` has ended."""


async def journal_lines(path, number):
    """The commands of the register after a revision, and then the line `end R`. Another last line is a refusal."""
    try:
        reader, writer = await asyncio.open_unix_connection(path, limit=BUFFER)
    except OSError as fault:
        raise Gone(str(fault)) from None
    try:
        writer.write(b"journal %d\n" % number)
        while True:
            line = await reader.readline()
            if not line.endswith(b"\n"):
                raise Gone("a journal has no end")
            yield line[:-1]
            if not line.startswith(b"{"):
                return
    except OSError as fault:
        raise Gone(str(fault)) from None
    finally:
        writer.close()


class Register:
    """One connection, for one line at a time. It is never given up while it lasts, since a line that was sent may still be entered."""

    def __init__(self, path):
        self.path, self.reader, self.writer, self.asked = path, None, None, None

    @property
    def is_there(self):
        return self.writer is not None

    def silent(self):
        """For how many seconds an answer has been awaited."""
        return 0.0 if self.asked is None else time.monotonic() - self.asked

    async def connect(self):
        self.leave()
        while not self.is_there:
            try:
                self.reader, self.writer = await asyncio.open_unix_connection(self.path, limit=BUFFER)
            except OSError:
                await asyncio.sleep(0.1)

    async def ask_all(self, lines):
        """The answers to lines that are sent at once. None of them may enter a command if more than one is sent."""
        if not self.is_there:
            raise Gone("no connection")
        self.asked = time.monotonic()
        answers = []
        try:
            self.writer.write(b"".join(it + b"\n" for it in lines))
            for _ in lines:
                answer = await self.reader.readline()
                if not answer.endswith(b"\n"):
                    raise ConnectionError("no answer")
                answers.append(answer[:-1].decode())
        except (OSError, ValueError) as fault:
            self.leave()
            raise Gone(str(fault)) from None
        self.asked = None
        return answers

    async def ask(self, line):
        return (await self.ask_all([line]))[0]

    async def revision(self):
        return json.loads(await self.ask(b"status"))["revision"]

    async def chain(self):
        """The revision of the register, and the chain over the commands that it holds. Without --chain `cadastred` tells none, and gives its
        journal."""
        told = json.loads(await self.ask(b"status"))
        if told.get("chain"):
            return told["revision"], told["chain"]
        chain, count = START, 0
        async for line in journal_lines(self.path, 0):
            if line.startswith(b"{"):
                chain, count = link(chain, line), count + 1
        if line != b"end %d" % count:
            raise Gone(f"the journal ends with {line.decode()} after {count} commands")
        return count, chain

    async def stop(self):
        with contextlib.suppress(OSError, AttributeError):
            self.writer.write(b"stop\n")
            await asyncio.wait_for(self.reader.read(), 20)
        self.leave()

    def leave(self):
        if self.writer:
            self.writer.close()
        self.reader = self.writer = self.asked = None
