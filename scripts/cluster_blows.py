"""What is done to the nodes of a cluster while offices and readers use them.

Each blow is a function of the cluster and of random numbers. It returns a description, and a list of functions that bring back what does not
come back by itself. `BLOWS` has them by name.
"""
import json
import resource
import shutil
import signal
import socket
import time

from cluster_nodes import HALTED

QUICK = 4
# SQLite's index of its log has 32 KB, so a database can still be opened
ROOM = 40960
# etcd's quota here is below 64 of them
MOST_VALUES = 64


class Fault(Exception):
    """A node did not do what a blow must lead to."""


def kill(*programs):
    for it in programs:
        it.send(signal.SIGKILL)


def stopped(programs, seconds):
    for it in programs:
        it.send(signal.SIGSTOP)
    time.sleep(seconds)
    for it in programs:
        it.send(signal.SIGCONT)


def enter_by_hand(node, number):
    """Enters a unit at the socket of the node's own `cadastred`. Returns the answer."""
    with socket.socket(socket.AF_UNIX) as it:
        it.settimeout(20)
        it.connect(str(node.land))
        it.sendall(b'{"do":"enter","object":%d,"first":"2000-01-01","unit":{}}\n' % number)
        return it.makefile("rb").readline()


def wait_for_halt(node, seconds=30):
    """The node must end by itself, and take its `cadastred` out of service."""
    until = time.monotonic() + seconds
    while time.monotonic() < until:
        if node.node.status == HALTED and not node.node.is_running() and not node.cadastred.is_running():
            return
        time.sleep(0.1)
    raise Fault(f"node {node.number} goes on with a register that has another command: {node.said()}")


def begin_anew(node):
    """The node gets no file: it takes everything from the log and from the other nodes."""
    node.end()
    node.forget()
    node.start()


def kill_cadastred(cluster, chance):
    node = chance.choice(cluster.nodes)
    kill(node.cadastred)
    return f"kill cadastred {node.name}"


def kill_node(cluster, chance):
    node = chance.choice(cluster.nodes)
    kill(node.node)
    return f"kill cadastre-node {node.name}"


def kill_leader(cluster, chance):
    node = cluster.leader()
    kill(node.etcd)
    return f"kill etcd's leader {node.name}"


def kill_all_of_one(cluster, chance):
    node = chance.choice(cluster.nodes)
    kill(*node.programs)
    return f"kill all of {node.name}"


def stop_cadastred(cluster, chance):
    node = chance.choice(cluster.nodes)
    stopped([node.cadastred], QUICK)
    return f"stop cadastred {node.name} for {QUICK} s"


def stop_node(cluster, chance):
    node = chance.choice(cluster.nodes)
    stopped([node.node], QUICK)
    return f"stop cadastre-node {node.name} for {QUICK} s"


def stop_leader(cluster, chance):
    node = cluster.leader()
    stopped([node.etcd], QUICK)
    return f"stop etcd's leader {node.name} for {QUICK} s"


def pause_leader(cluster, chance):
    """The leader pauses for so short a time that it still leads. A node has then given up on a try that is done after all."""
    node = cluster.leader()
    for _ in range(4):
        stopped([node.etcd], 1.1 + chance.random() / 5)
        time.sleep(0.7)
    return f"stop etcd's leader {node.name} four times for a moment"


def stop_member(cluster, chance):
    leader = cluster.leader()
    node = chance.choice([it for it in cluster.members if it is not leader])
    stopped([node.etcd], QUICK)
    return f"stop etcd {node.name}, no leader, for {QUICK} s"


def lines_left_in_a_socket(cluster, chance):
    """A line stays in the socket of a stopped `cadastred`, and is entered after the next `cadastre-node` has asked for the revision."""
    node = chance.choice(cluster.nodes)
    node.cadastred.send(signal.SIGSTOP)
    time.sleep(1)
    kill(node.node)
    time.sleep(2)
    node.cadastred.send(signal.SIGCONT)
    return f"stop cadastred {node.name}, kill its cadastre-node, continue"


def kill_all_cadastreds(cluster, chance):
    kill(*[it.cadastred for it in cluster.nodes])
    return "kill all cadastreds"


def kill_all_nodes(cluster, chance):
    kill(*[it.node for it in cluster.nodes])
    return "kill all cadastre-nodes"


def kill_two_members(cluster, chance):
    nodes = chance.sample(cluster.members, 2)
    kill(*[it.etcd for it in nodes])
    return f"kill etcd {nodes[0].name} and {nodes[1].name}"


def power(cluster, chance):
    kill(*[it for node in cluster.nodes for it in node.programs])
    return "kill everything"


def no_majority(cluster, chance):
    nodes = chance.sample(cluster.members, 2)
    stopped([it.etcd for it in nodes], QUICK + 2)
    return f"stop etcd {nodes[0].name} and {nodes[1].name} for {QUICK + 2} s"


def cut_one(cluster, chance, node=None):
    node = node or chance.choice(cluster.nodes)
    cluster.cut(node.number)
    time.sleep(6)
    cluster.cut(node.number, False)
    return f"cut off {node.name} for 6 s"


def cut_leader(cluster, chance):
    return cut_one(cluster, chance, cluster.leader()) + ", etcd's leader"


def limit_files(program, size):
    """No file of the program may be written beyond this size."""
    try:
        resource.prlimit(program.run.pid, resource.RLIMIT_FSIZE, (size, resource.RLIM_INFINITY))
    except (ProcessLookupError, AttributeError):
        pass


def disk_full(cluster, chance):
    """The files of `cadastred` cannot grow. It can open them, refuses commands, and is started again and again meanwhile."""
    node = chance.choice(cluster.nodes)
    until = time.monotonic() + QUICK
    while time.monotonic() < until:
        limit_files(node.cadastred, ROOM)
        time.sleep(0.02)
    limit_files(node.cadastred, resource.RLIM_INFINITY)
    return f"no room for the files of cadastred {node.name} for {QUICK} s"


def quota(cluster, chance):
    """etcd refuses every write until its alarm is disarmed."""
    node, count = cluster.members[0], 0
    while count < MOST_VALUES and not cluster.etcdctl(node, "put", f"/filler/{count}", wait="20s", stdin=b"x" * 1400000).returncode:
        count += 1
    time.sleep(2)
    is_full = b"NOSPACE" in cluster.etcdctl(node, "alarm", "list").stdout
    cluster.etcdctl(node, "del", "--prefix", "/filler")
    told = json.loads(cluster.etcdctl(node, "endpoint", "status", "-w", "json").stdout)[0]["Status"]
    cluster.etcdctl(node, "compact", str(told["header"]["revision"]), wait="20s")
    for it in cluster.members:
        cluster.etcdctl(it, "defrag", wait="30s")
    cluster.etcdctl(node, "alarm", "disarm")
    return f"etcd is {'full' if is_full else 'not full'}, after {count} values"


def old_copy(cluster, chance):
    """A node gets back its register of some time ago."""
    node = chance.choice(cluster.nodes)
    node.end()
    copies = {it: it.with_name(f"old-{it.name}") for it in node.folder.glob("land.db*")}
    for it, copy in copies.items():
        shutil.copy(it, copy)
    node.start()
    time.sleep(QUICK)
    node.end()
    for it in node.folder.glob("land.db*"):
        it.unlink()
    for it, copy in copies.items():
        copy.rename(it)
    node.start()
    return f"{node.name} gets back its register of {QUICK} s ago"


def new_node(cluster, chance):
    node = chance.choice(cluster.nodes)
    begin_anew(node)
    return f"{node.name} begins without a register"


def hand_at_a_node(cluster, chance):
    """Somebody enters at the socket of a node's own `cadastred`. The node must end, and no other node may take the command."""
    node = chance.choice(cluster.nodes)
    began, told = time.monotonic(), enter_by_hand(node, 1900000000 + node.number)
    wait_for_halt(node)
    cluster.by_hand.append((began, time.monotonic(), int(told.split()[1])))
    begin_anew(node)
    return f"a hand at cadastred {node.name} ({told.decode().strip()})"


def hand_while_away(cluster, chance):
    """The same while the node is away, so that its register may get as many commands as the log."""
    node = chance.choice(cluster.nodes)
    node.node.end(signal.SIGKILL)
    began, told = time.monotonic(), enter_by_hand(node, 1900000010 + node.number)
    time.sleep(chance.choice([0, 0.2, 1]))
    node.node.start()
    wait_for_halt(node)
    cluster.by_hand.append((began, time.monotonic(), int(told.split()[1])))
    begin_anew(node)
    return f"a hand at cadastred {node.name} while its cadastre-node is away ({told.decode().strip()})"


BLOWS = {it.__name__: it for it in (kill_cadastred, kill_node, kill_leader, kill_all_of_one, stop_cadastred, stop_node, stop_leader, pause_leader, stop_member,
                                    lines_left_in_a_socket, kill_all_cadastreds, kill_all_nodes, kill_two_members, power, no_majority, disk_full, quota,
                                    old_copy, new_node, hand_at_a_node, hand_while_away)}
BLOWS_APART = {it.__name__: it for it in (cut_one, cut_leader)}
