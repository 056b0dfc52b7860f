"""Nodes of a cluster on this machine. Each has a `cadastred`, a `cadastre-node` and a member of etcd, which are started again when they end.

HAProxy and nginx run with the files of cluster/examples/, with other addresses. The variable CADASTRED names another program, and CLUSTER
another folder of the node's program.
"""
import json
import os
import shutil
import signal
import socket
import subprocess
import sys
import threading
import time
from pathlib import Path

from cluster_tls import Certificates

TOP = Path(__file__).resolve().parent.parent
SERVICE = os.environ.get("CADASTRED") or str(TOP / "crates/cadastred/out/cadastred")
SOURCES = Path(os.environ.get("CLUSTER") or TOP / "cluster")
PATH = os.environ.get("PATH", "") + ":/usr/sbin:/sbin"
NEEDED = {"etcd": "etcd-server", "etcdctl": "etcd-client", "haproxy": "haproxy", "nginx": "nginx-light"}
ETCDCTL = {**os.environ, "ETCDCTL_API": "3", "PATH": PATH}
# statuses after which a program is not started again, as in the units
ENDS, NODE_ENDS = (0, 2, 4), (0, 2, 4, 5)
HALTED = 5
# small, so that a trial can reach it
QUOTA = 64 << 20


def missing():
    """The Debian packages that are not there."""
    found = [package for name, package in NEEDED.items() if not shutil.which(name, path=PATH)]
    stubs = subprocess.run(["/usr/bin/python3", "-c", "import grpc.aio, etcd3.etcdrpc"], stderr=subprocess.DEVNULL)
    return found + (["python3-etcd3"] if stubs.returncode else [])


def skip_without_packages(name):
    if missing():
        print(f"{name}: skipped, since these packages are not installed: {' '.join(missing())}")
        sys.exit(0)


class Program:
    """A program that is started again when it ends, except after the statuses that say that it must not be."""

    def __init__(self, name, words, log, final=(), env=None):
        self.name, self.words, self.log, self.final, self.env = name, words, log, final, env
        self.lock, self.is_wanted, self.run, self.thread, self.starts, self.status = threading.Lock(), False, None, None, 0, None

    def start(self):
        if not self.is_wanted:
            self.is_wanted, self.status = True, None
            self.thread = threading.Thread(target=self.keep, daemon=True)
            self.thread.start()

    def keep(self):
        while self.is_wanted:
            with open(self.log, "ab") as log, self.lock:
                if not self.is_wanted:
                    return
                # signals stay ignored as Python ignores them: a file that grows beyond a limit is an error and not the program's end
                self.run = subprocess.Popen(self.words, stdout=log, stderr=log, stdin=subprocess.DEVNULL, env=self.env, restore_signals=False)
                self.starts += 1
                Path(self.log).with_suffix(".pid").write_text(f"{self.run.pid}\n", encoding="utf-8")
            self.status = self.run.wait()
            if self.status in self.final:
                self.is_wanted = False
                return
            time.sleep(0.2)

    def is_running(self):
        return self.run is not None and self.run.poll() is None

    def send(self, number):
        with self.lock:
            if self.is_running():
                self.run.send_signal(number)

    def end(self, number=signal.SIGTERM):
        self.is_wanted = False
        self.send(signal.SIGCONT)
        self.send(number)
        if self.run:
            try:
                self.run.wait(10)
            except subprocess.TimeoutExpired:
                self.send(signal.SIGKILL)
                self.run.wait()
        if self.thread:
            self.thread.join()


class Node:
    def __init__(self, number, folder, address, etcd_words, member, within=(), env=None):
        self.number, self.name, self.folder, self.address = number, f"n{number}", folder, address
        folder.mkdir(parents=True, exist_ok=True)
        self.file, self.land, self.office, self.entries = folder / "land.db", folder / "land.sock", folder / "office.sock", folder / "entries"
        within = list(within)
        self.etcd = Program("etcd", within + etcd_words, folder / "etcd.log", env=ETCDCTL) if etcd_words else None
        # A node with an even number computes the chain of its register itself.
        chains = ["--chain"] if number % 2 else []
        self.cadastred = Program("cadastred", within + [SERVICE, *chains, str(self.file), f"{address}:8080", str(self.land)], folder / "cadastred.log", ENDS)
        words = [str(SOURCES / "cadastre-node"), self.name, member, str(self.land), str(self.office), f"{address}:9080", str(self.entries)]
        self.node = Program("cadastre-node", within + words, folder / "node.log", NODE_ENDS, {**os.environ, **(env or {})})
        self.programs = [it for it in (self.etcd, self.cadastred, self.node) if it]

    def start(self):
        for it in self.programs:
            it.start()

    def end(self, number=signal.SIGKILL):
        for it in reversed(self.programs):
            it.end(number)

    def ask(self, path):
        """The status and the body of a response of the node itself."""
        with socket.create_connection((self.address, 9080), 2) as it:
            it.settimeout(30)
            it.sendall(f"GET {path} HTTP/1.0\r\n\r\n".encode())
            text = b""
            while piece := it.recv(1 << 20):
                text += piece
        head, _, body = text.partition(b"\r\n\r\n")
        return int(head.split()[1]), body

    def health(self):
        """Whether the node is ready, and what it says about itself."""
        try:
            status, body = self.ask("/health")
            return status == 200, json.loads(body)
        except (OSError, ValueError, IndexError):
            return False, {}

    def said(self):
        """The last lines that the node wrote."""
        return (self.folder / "node.log").read_text(errors="replace").splitlines()[-3:]

    def forget(self):
        """Removes the register, as if the node were a new one. The archive goes aside. The node's programs must have ended."""
        for it in self.folder.glob("land.db*"):
            it.unlink()
        if self.entries.exists():
            self.entries.rename(self.folder / f"entries.{len(self.archives())}")

    def archives(self):
        """The folders of the archive, with those that are aside."""
        return list(self.folder.glob("entries*"))


class Cluster:
    """Nodes with one member of etcd each, or with one member for all. `is_apart`: each node has a network of its own, which needs root.
    `has_tls`: etcd takes certificates alone."""

    def __init__(self, folder, prefix="127.77.0", count=3, members=3, is_apart=False, env=None, has_tls=False):
        self.folder, self.is_apart, self.balancers, self.env = Path(folder), is_apart, [], env
        self.prefix = prefix
        # when somebody entered into a register by hand, until its node ended, and the revision that the command took there
        self.by_hand = []
        self.addresses = [f"{prefix}.{at}" for at in range(1, count + 1)]
        self.front, self.sources = f"{prefix}.100", [f"{prefix}.{at}" for at in range(201, 207)]
        self.certificates = Certificates(self.folder / "certificates", self.addresses) if has_tls else None
        self.tag = prefix.rsplit(".", 1)[-1]
        if is_apart:
            self.make_networks()
        self.nodes = [self.node(at, members) for at in range(1, count + 1)]
        self.members = [it for it in self.nodes if it.etcd]

    def within(self, at):
        return ["ip", "netns", "exec", f"cad{self.tag}n{at}"] if self.is_apart else []

    def node(self, at, members):
        address, folder = self.addresses[at - 1], self.folder / f"node{at}"
        scheme, env = "https" if self.certificates else "http", dict(self.env or {})
        others = ",".join(f"n{number}={scheme}://{it}:2380" for number, it in enumerate(self.addresses[:members], 1))
        words = ["etcd", "--name", f"n{at}", "--data-dir", str(folder / "etcd"), "--log-level", "error", "--logger", "zap",
                 "--listen-client-urls", f"{scheme}://{address}:2379", "--advertise-client-urls", f"{scheme}://{address}:2379",
                 "--listen-peer-urls", f"{scheme}://{address}:2380", "--initial-advertise-peer-urls", f"{scheme}://{address}:2380",
                 "--initial-cluster", others, "--auto-compaction-mode", "revision", "--auto-compaction-retention", "10000",
                 "--quota-backend-bytes", str(QUOTA)]
        if self.certificates:
            words += self.certificates.of_member(f"n{at}")
            env |= self.certificates.of_node(f"n{at}")
        member = address if at <= members else self.addresses[0]
        return Node(at, folder, address, words if at <= members else None, f"{member}:2379", self.within(at), env)

    # ---- networks

    def make_networks(self):
        """A bridge of this machine, and for each node a network with one link to it."""
        self.ip("link", "add", f"cad{self.tag}", "type", "bridge")
        self.ip("addr", "add", f"{self.front}/24", "dev", f"cad{self.tag}")
        for address in self.sources:
            self.ip("addr", "add", f"{address}/24", "dev", f"cad{self.tag}")
        self.ip("link", "set", f"cad{self.tag}", "up")
        for at, address in enumerate(self.addresses, 1):
            name = f"cad{self.tag}n{at}"
            self.ip("netns", "add", name)
            self.ip("link", "add", f"cad{self.tag}v{at}", "type", "veth", "peer", "name", "eth0", "netns", name)
            self.ip("link", "set", f"cad{self.tag}v{at}", "master", f"cad{self.tag}", "up")
            self.ip("-n", name, "addr", "add", f"{address}/24", "dev", "eth0")
            self.ip("-n", name, "link", "set", "eth0", "up")
            self.ip("-n", name, "link", "set", "lo", "up")

    @staticmethod
    def ip(*words):
        subprocess.run(["ip", *words], check=True, env={**os.environ, "PATH": PATH})

    def cut(self, at, is_cut=True):
        self.ip("link", "set", f"cad{self.tag}v{at}", "down" if is_cut else "up")

    def remove_networks(self):
        for at in range(1, len(self.addresses) + 1):
            self.ip("link", "del", f"cad{self.tag}v{at}")
            self.ip("netns", "del", f"cad{self.tag}n{at}")
        self.ip("link", "del", f"cad{self.tag}")

    # ---- running

    def start(self):
        for it in self.nodes:
            it.start()
        if self.certificates:
            self.make_users()

    def make_users(self):
        """Makes the users of etcd, unless an earlier run did."""
        node = self.members[0]
        until = time.monotonic() + 30
        while self.etcdctl(node, "endpoint", "health").returncode and time.monotonic() < until:
            time.sleep(0.2)
        for words in self.certificates.users():
            self.etcdctl(node, *words.split())

    def is_even(self):
        """Whether all nodes are ready and have the same commands, and what they say."""
        told = [it.health() for it in self.nodes]
        stands = {(it.get("log"), it.get("revision"), it.get("chain")) for _, it in told}
        is_even = all(ready for ready, _ in told) and len(stands) == 1 and len(set(next(iter(stands))[:2])) == 1
        return is_even, [it for _, it in told]

    def wait(self, seconds=90):
        """Waits until all nodes are ready and at the log's end."""
        until = time.monotonic() + seconds
        while time.monotonic() < until:
            is_even, told = self.is_even()
            if is_even:
                return told[0]["revision"]
            time.sleep(0.2)
        raise TimeoutError(f"the nodes are not ready and even after {seconds} s: {told} {[it.said() for it in self.nodes]}")

    def etcdctl(self, node, *words, wait="4s", stdin=None):
        secured = self.certificates.of_root() if self.certificates else []
        words = [*self.within(node.number), "etcdctl", "--endpoints", f"{node.address}:2379", f"--command-timeout={wait}", *secured, *words]
        return subprocess.run(words, input=stdin or b"", capture_output=True, env=ETCDCTL, check=False)

    def leader(self):
        """The node whose member of etcd leads."""
        for node in self.members:
            try:
                told = json.loads(self.etcdctl(node, "endpoint", "status", "-w", "json", wait="2s").stdout)[0]["Status"]
                if told["leader"] == told["header"]["member_id"]:
                    return node
            except (ValueError, IndexError, KeyError, TypeError):
                pass
        return self.members[0]

    def balance(self):
        """HAProxy listens at port 8081 of the front's address, and nginx before it at 8082."""
        folder = self.folder / "front"
        folder.mkdir(exist_ok=True)
        folder.chmod(0o755)
        self.write_example("haproxy.cfg", folder, "", "")
        scratch = "".join(f"{it}_temp_path {folder}/{it};" for it in ("client_body", "proxy", "fastcgi", "uwsgi", "scgi"))
        self.write_example("nginx.conf", folder, f"daemon off; pid {folder}/nginx.pid; error_log {folder}/error.log; events {{}} http {{ access_log off; {scratch}\n", "}\n")
        env = {**os.environ, "PATH": PATH}
        self.balancers = [Program("haproxy", ["haproxy", "-db", "-f", str(folder / "haproxy.cfg")], folder / "haproxy.log", env=env),
                          Program("nginx", ["nginx", "-e", str(folder / "error.log"), "-c", str(folder / "nginx.conf")], folder / "nginx.log", env=env)]
        for it in self.balancers:
            it.start()
        for port in (8081, 8082):
            wait_for_port(self.front, port)

    def write_example(self, name, folder, before, after):
        """An example with the addresses of this cluster. It has three nodes; further ones get lines of their own."""
        text = (TOP / "cluster/examples" / name).read_text(encoding="utf-8")
        lines = []
        for line in text.splitlines():
            at = next((at for at in (1, 2, 3) if f"10.0.0.{at}:" in line), None)
            if at is None:
                lines.append(line)
            elif at <= len(self.addresses):
                lines.append(line)
                if at == 3:
                    lines += [line.replace("10.0.0.3", f"10.0.0.{more}").replace("n3 ", f"n{more} ").replace("b3 ", f"b{more} ").replace("land/n3", f"land/n{more}") for more in range(4, len(self.addresses) + 1)]
        text = "\n".join(lines) + "\n"
        if len(self.addresses) < 3:
            text = "\n".join(it for it in text.splitlines() if "use-server" not in it) + "\n"
        text = text.replace("127.0.0.1:8081", f"{self.front}:8081").replace("127.0.0.1:8082", f"{self.front}:8082")
        for at in range(len(self.addresses), 0, -1):
            text = text.replace(f"10.0.0.{at}:", f"{self.addresses[at - 1]}:")
        (folder / name).write_text(before + text + after, encoding="utf-8")

    def end(self):
        for it in self.balancers:
            it.end(signal.SIGTERM)
        for node in self.nodes:
            node.end(signal.SIGTERM)
        if self.is_apart:
            self.remove_networks()


def wait_for_port(host, port, seconds=10):
    until = time.monotonic() + seconds
    while time.monotonic() < until:
        try:
            socket.create_connection((host, port), 1).close()
            return
        except OSError:
            time.sleep(0.1)
    raise TimeoutError(f"nothing listens at {host}:{port}")
