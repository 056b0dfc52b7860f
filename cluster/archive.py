"""Entries of the log on the node's own disk. They stay when the log drops them.

A file FIRST.jsonl has one entry a line, from the command FIRST on. Each entry names the users who entered its commands, and their names for
them. A new file begins after FILE_COMMANDS commands, and where the node has not seen some entries.
"""
import fcntl
import json
import os

FILE_COMMANDS = 100000


class Taken(Exception):
    """Another program uses the folder."""


def written(entry):
    return (json.dumps({**entry.about(), "lines": [it.decode() for it in entry.lines]}, ensure_ascii=False, separators=(",", ":")) + "\n").encode()


class Archive:
    """`last` is the number of the last command in it, at first 0."""

    def __init__(self, folder):
        os.makedirs(folder, exist_ok=True)
        self.folder, self.first, self.last = folder, 0, 0
        self.lock = open(os.path.join(folder, "lock"), "w", encoding="utf-8")
        try:
            # the system lets go of it when the program ends
            fcntl.flock(self.lock, fcntl.LOCK_EX | fcntl.LOCK_NB)
        except BlockingIOError:
            raise Taken(folder) from None
        names = sorted((it for it in os.listdir(folder) if it.endswith(".jsonl")), key=lambda it: int(it[:-6]))
        if names:
            self.first = int(names[-1][:-6])
            self.last = self.mended(os.path.join(folder, names[-1])) or self.first - 1

    @staticmethod
    def mended(path):
        """Cuts off a last line that was not written whole. Returns the number of the last command, or None."""
        last = None
        with open(path, "r+b") as file:
            end = 0
            for line in file:
                if not line.endswith(b"\n"):
                    file.truncate(end)
                    os.fsync(file.fileno())
                    break
                end += len(line)
                told = json.loads(line)
                last = told["first"] + len(told["lines"]) - 1
        return last

    def add(self, entries):
        """Puts entries on the disk, in their order."""
        for group in self.by_file(entries):
            path = os.path.join(self.folder, f"{self.first}.jsonl")
            with open(path, "ab") as file:
                file.writelines(written(it) for it in group)
                file.flush()
                os.fsync(file.fileno())
            self.last = group[-1].last
        folder = os.open(self.folder, os.O_RDONLY)
        os.fsync(folder)
        os.close(folder)

    def by_file(self, entries):
        """The entries in groups, each for one file. `first` is that of the group's file."""
        group, last = [], self.last
        for it in entries:
            if not self.first or it.first != last + 1 or it.first - self.first >= FILE_COMMANDS:
                if group:
                    yield group
                group, self.first = [], it.first
            group.append(it)
            last = it.last
        if group:
            yield group
