"""What keeps `cadastred` from starting: the address, the office's path and the file, and which process has them."""
import contextlib
import errno
import os
import re
import socket
import stat
import sys
from pathlib import Path

# the longest path that a socket's address holds
LONGEST = 107
DATABASE = b"SQLite format 3\0"


def process(number):
    """A process by its number and name."""
    with contextlib.suppress(OSError):
        return f"process {number} ({Path(f'/proc/{number}/comm').read_text(encoding='utf-8').strip()})"
    return f"process {number}"


# ---- the address

def listener_at(host, port):
    """The process that listens at a port, by the system's table of sockets, or None if this is not known."""
    wanted = {f"{it[6]}" for name in ("tcp", "tcp6") for it in sockets(name) if it[0].endswith(f":{port:04X}") and it[1] == "0A"}
    for link in Path("/proc").glob("[0-9]*/fd/*"):
        with contextlib.suppress(OSError):
            if os.readlink(link)[8:-1] in wanted:
                return process(link.parts[2])
    return None


def sockets(name):
    """The local address, the state and the number of each socket in a table of the system."""
    with contextlib.suppress(OSError):
        for line in Path(f"/proc/net/{name}").read_text(encoding="utf-8").splitlines()[1:]:
            words = line.split()
            yield [words[1], words[3], *[None] * 4, words[9]]


def fault_of_address(address):
    found = re.fullmatch(r"(?:\[([0-9a-fA-F:.]+)\]|([0-9.]+)):([0-9]{1,5})", address)
    if not found or int(found[3]) > 65535:
        return f"address {address}: not an IPv4 or IPv6 address with a port"
    host, port = found[1] or found[2], int(found[3])
    with socket.socket(socket.AF_INET6 if found[1] else socket.AF_INET) as it:
        it.setsockopt(socket.SOL_SOCKET, socket.SO_REUSEADDR, 1)
        try:
            it.bind((host, port))
            it.listen()
        except OSError as error:
            holder = listener_at(host, port) if error.errno == errno.EADDRINUSE else None
            return f"address {address}: {error.strerror}{f', by {holder}' if holder else ''}"
    return None


# ---- the office's path

def fault_of_office(path):
    if len(os.fsencode(path)) > LONGEST:
        return f"office {path}: the path has {len(os.fsencode(path))} bytes, and {LONGEST} are the most"
    folder = Path(path).absolute().parent
    if not folder.is_dir():
        return f"office {path}: there is no folder {folder}"
    if not os.access(folder, os.W_OK | os.X_OK):
        return f"office {path}: nothing may be made in the folder {folder}"
    try:
        if not stat.S_ISSOCK(os.lstat(path).st_mode):
            return f"office {path}: another file is there, and is no socket"
    except FileNotFoundError:
        return None
    with socket.socket(socket.AF_UNIX) as it:
        try:
            it.connect(path)
        except ConnectionRefusedError:
            return None
        except OSError as error:
            return f"office {path}: {error.strerror}"
        number = int.from_bytes(it.getsockopt(socket.SOL_SOCKET, socket.SO_PEERCRED, 12)[:4], sys.byteorder)
    return f"office {path}: {process(number)} answers there"


# ---- the file

def holder_of(path):
    """The process that has a lock on a file, by the system's table of locks, or None."""
    number = os.stat(path).st_ino
    for line in Path("/proc/locks").read_text(encoding="utf-8").splitlines():
        words = [it for it in line.split() if it != "->"]
        if words[1] in ("POSIX", "OFDLCK", "FLOCK") and words[5].endswith(f":{number}"):
            # a lock of an open file, which processes may share, has no number of a process
            return process(words[4]) if words[4] != "-1" else opener_of(path)
    return None


def opener_of(path):
    """A process that has a file open."""
    wanted = os.stat(path)
    for link in Path("/proc").glob("[0-9]*/fd/*"):
        with contextlib.suppress(OSError):
            found = os.stat(link)
            if (found.st_dev, found.st_ino) == (wanted.st_dev, wanted.st_ino):
                return process(link.parts[2])
    return "another process"


def fault_of_file(path):
    file = Path(path)
    folder = file.absolute().parent
    if not folder.is_dir():
        return f"file {path}: there is no folder {folder}"
    if not os.access(folder, os.W_OK | os.X_OK):
        return f"file {path}: nothing may be made in the folder {folder}, and the file's log has to be"
    if Path(f"{path}-wal").is_symlink():
        return f"file {path}: its log {path}-wal is a link"
    if not file.exists():
        return None
    if not file.is_file() or not os.access(path, os.R_OK | os.W_OK):
        return f"file {path}: it is no file, or may not be read and written"
    if os.stat(path).st_nlink > 1:
        return f"file {path}: it has {os.stat(path).st_nlink} names"
    with contextlib.suppress(OSError):
        if holder := holder_of(path):
            return f"file {path}: {holder} has it open"
    with open(path, "rb") as it:
        front = it.read(len(DATABASE))
    if front not in (b"", DATABASE):
        return f"file {path}: it is no database"
    return None
