"""A cluster on this machine for scripts, its datagrams as bytes, and a member written in Python.

It shares nothing with the code that it is held against: the formats of entries and datagrams, and of a tag, stand here
once more. Nodes run with or without a key; what their stores hold is read from copies.
"""
import hashlib
import hmac
import os
import shutil
import socket
import sqlite3
import subprocess
import tempfile
import time

CLUSTER = 7
LAST_ROUND = (1 << 48) - 1
PREPARE, ACCEPT, VOTE, NACK, NEED, LEARNED, ASK, ASKED = 1, 3, 4, 5, 6, 7, 8, 9
PREPARE_ALL, PROMISE_ALL = 11, 12
STATE, WHOLE = 0, 1


# ---- bytes


def number(value, size):
    return value.to_bytes(size, "big")


def add_entry(origin, count, table, address):
    """The entry of `-t TABLE -T add ADDRESS`."""
    head = bytes([1, origin]) + number(count, 8) + bytes([5, 0, len(table)]) + table
    return head + number(1, 2) + bytes([0, 4, 32]) + socket.inet_aton(address)


def datagram(members, sender, to, kind, body):
    return b"PFXR\1" + number(CLUSTER, 4) + bytes([members, sender, to, kind]) + body


def sized(entry):
    return number(len(entry), 4) + entry


def tag_key(secret, addresses):
    """The key of a cluster's tags, of its secret, its number and its members' addresses as they are written."""
    texts = b"".join(number(len(text), 8) + text.encode() for text in addresses)
    return hmac.new(secret, number(CLUSTER, 4) + texts, hashlib.sha256).digest()


class Packets:
    """The packets of a member with a key (docs/KEYS.md): its start, the others' starts, and a counter for each. It cuts
    nothing, so a datagram has at most 1,179 bytes, and remembers no counters that came."""

    def __init__(self, members, me):
        self.members, self.me = members, me
        self.start = number(int(time.time()), 4) + os.urandom(4)
        self.starts, self.counters = {}, {}

    def seal(self, key, to, kind, body):
        self.counters[to] = self.counters.get(to, 0) + 1
        head = b"PFXS\2" + number(CLUSTER, 4) + bytes([self.members, self.me, to, kind]) + self.start
        head += self.starts.get(to, bytes(8)) + number(self.counters[to], 8)
        return head + body + packet_tag(key, head + body)

    def open(self, keys, packet):
        """The sender, the kind and the body of a packet for this start; the sender alone where it is for none."""
        front, tag = packet[:-16], packet[-16:]
        if len(front) < 37 or all(packet_tag(key, front) != tag for key in keys):
            return None
        sender, start = front[10], front[13:21]
        if front[11] != self.me or start < self.starts.get(sender, bytes(8)):
            return None
        self.starts[sender] = start
        return sender, front[12], front[37:] if front[21:29] == self.start else b""


def packet_tag(key, front):
    own = hmac.new(key, b"PFXS\2", hashlib.sha256).digest()
    return hmac.new(own, front, hashlib.sha256).digest()[:16]


def spoof(raw, source, target, data):
    """Sends a datagram that says it comes from the source. Wants a raw socket, and so root."""
    udp = number(source[1], 2) + number(target[1], 2) + number(8 + len(data), 2) + b"\0\0"
    ip = b"\x45\0" + number(28 + len(data), 2) + b"\0\0\0\0\x40\x11\0\0"
    raw.sendto(ip + socket.inet_aton(source[0]) + socket.inet_aton(target[0]) + udp + data, (target[0], 0))


# ---- nodes


class Cluster:
    """Nodes of one cluster, each a process of its own, in a folder that is taken away in the end: one in memory, if there
    is one, so that what a disk takes isn't measured."""

    def __init__(self, pfx, port, members=3, nodes=None):
        self.pfx = os.path.abspath(pfx)
        self.places = [("127.0.0.1", port + n) for n in range(members)]
        self.addresses = ["%s:%d" % place for place in self.places]
        self.folder = tempfile.mkdtemp(dir="/dev/shm" if os.path.isdir("/dev/shm") else None)
        self.nodes = list(range(members)) if nodes is None else nodes
        self.running = {}

    def __enter__(self):
        return self

    def __exit__(self, *_):
        for n in list(self.running):
            self.stop(n)
        shutil.rmtree(self.folder)

    def path(self, name):
        return os.path.join(self.folder, name)

    def write_key(self, name, secret):
        path = self.path(name)
        with open(os.open(path, os.O_WRONLY | os.O_CREAT | os.O_TRUNC, 0o600), "w") as file:
            file.write(secret.hex() + "\n")
        return path

    def start(self, n, *words):
        """Starts a node on its store, with these words too."""
        command = [self.pfx, "node", "--me", str(n), "--cluster", str(CLUSTER), "--store", self.path("%d.db" % n)]
        said = open(self.path("%d.said" % n), "a")
        self.running[n] = subprocess.Popen(command + list(words) + self.addresses, stdout=said, stderr=said)

    def stop(self, n):
        process = self.running.pop(n)
        process.kill()
        process.wait()

    def is_up(self, n):
        return self.running[n].poll() is None

    def ask(self, n, *words):
        command = [self.pfx, "ask", "--to", self.addresses[n], "--cluster", str(CLUSTER)]
        command += ["--members", str(len(self.places)), "--node", str(n), *words]
        return subprocess.run(command, capture_output=True, text=True).stdout.strip()

    def rows(self, n, *tables):
        """The rows of a node's store, of a copy, since a store that is open isn't opened twice."""
        for _ in range(50):
            try:
                for end in ("", "-wal"):
                    source = self.path("%d.db" % n) + end
                    if os.path.exists(source):
                        shutil.copyfile(source, self.path("copy.db") + end)
                    elif os.path.exists(self.path("copy.db") + end):
                        os.remove(self.path("copy.db") + end)
                if os.path.exists(self.path("copy.db-shm")):
                    os.remove(self.path("copy.db-shm"))
                copy = sqlite3.connect(self.path("copy.db"))
                try:
                    return {t: sorted(copy.execute("select * from " + t).fetchall()) for t in tables}
                finally:
                    copy.close()
            except (sqlite3.Error, OSError):
                time.sleep(0.1)
        return {t: [] for t in tables}

    def held(self, n):
        """All that a node's store holds."""
        return self.rows(n, "meta", "floor", "slots", "learned")

    def learned(self, n):
        return self.rows(n, "learned")["learned"]

    def await_learned(self, count, nodes=None, seconds=60):
        """Until each of the nodes has learned that many; False where that takes longer."""
        end = time.time() + seconds
        for n in self.nodes if nodes is None else nodes:
            while len(self.learned(n)) < count:
                if time.time() > end:
                    return False
                time.sleep(0.05)
        return True


# ---- a member


class Member:
    """A member that leads: it proposes entries of its own one after the other, and votes for them, and tells whoever lacks
    one what a majority accepted. It keeps no record, so it is for clusters of a script alone. Nothing else may propose
    there."""

    def __init__(self, cluster, me, key=None, other=None):
        self.cluster, self.me, self.key, self.other = cluster, me, key, other
        self.members = len(cluster.places)
        self.socket = socket.socket(socket.AF_INET, socket.SOCK_DGRAM)
        self.socket.bind(cluster.places[me])
        self.round, self.position, self.sent_again, self.entries = 0, 0, 0, []
        self.packets = Packets(self.members, me) if key else None
        self.greeted = {}

    def close(self):
        self.socket.close()

    def send(self, kind, body):
        for to in range(self.members):
            if to != self.me:
                self.send_one(to, datagram(self.members, self.me, to, kind, body))

    def send_one(self, to, data):
        if self.packets and to not in self.packets.starts:
            data = self.packets.seal(self.key, to, STATE, b"")
        elif self.packets:
            data = self.packets.seal(self.key, to, WHOLE, data)
        self.socket.sendto(data, self.cluster.places[to])

    def opened(self, packet):
        """The datagram in a packet; a member that shows a new start is greeted by this one's."""
        if not self.packets:
            return packet
        found = self.packets.open([it for it in (self.key, self.other) if it], packet)
        if found is None:
            return b""
        sender, kind, body = found
        if self.greeted.get(sender) != self.packets.starts[sender] and sender < self.members:
            self.greeted[sender] = self.packets.starts[sender]
            self.socket.sendto(self.packets.seal(self.key, sender, STATE, b""), self.cluster.places[sender])
        return body if kind == WHOLE else b""

    def hear(self, until):
        """The next datagram of a member: its sender, kind and body; None where none comes in time."""
        while (left := until - time.time()) > 0:
            self.socket.settimeout(left)
            try:
                data = self.opened(self.socket.recv(65536))
            except TimeoutError:
                return None
            if len(data) > 13 and data[:4] == b"PFXR" and data[11] == self.me:
                if data[12] == NEED:
                    self.tell(data[10], int.from_bytes(data[13:17], "big"))
                else:
                    return data[10], data[12], data[13:]
        return None

    def tell(self, to, position):
        """Tells a node what was learned at a position, if it was."""
        if position < len(self.entries) and to < self.members:
            body = number(position, 4) + sized(self.entries[position])
            self.send_one(to, datagram(self.members, self.me, to, LEARNED, body))

    def await_learned(self, nodes=None, seconds=60):
        """Until each of the nodes has learned all of its entries; False where that takes longer."""
        end = time.time() + seconds
        for n in self.cluster.nodes if nodes is None else nodes:
            while len(self.cluster.learned(n)) < self.position:
                if time.time() > end:
                    return False
                self.hear(time.time() + 0.2)
                while self.hear(time.time() + 0.01) is not None:
                    pass
        return True

    def ballot(self):
        return number(256 * self.round + self.me, 8)

    def gather(self, answer, same, seconds, heard):
        """Waits for a majority's answers, this member's counted; False where a higher round is about, or time passes."""
        until = time.time() + seconds
        while (came := self.hear(until)) is not None:
            sender, what, fields = came
            if what == NACK and fields[:8] == self.ballot() and fields[12:20] > self.ballot():
                self.round = int.from_bytes(fields[12:20], "big") // 256
                return False
            if what == answer and fields[:12] == same:
                heard.add(sender)
                if len(heard) > self.members // 2:
                    return True
        return False

    def lead(self):
        """Asks for all positions from the first that it hasn't proposed on, in one round after the other."""
        while True:
            self.round += 1
            same = self.ballot() + number(self.position, 4)
            self.send(PREPARE_ALL, same)
            if self.gather(PROMISE_ALL, same, 1, {self.me}):
                return

    def commit(self):
        """Has its next entry accepted by a majority."""
        p = self.position
        entry = add_entry(self.me, p, b"t", "10.0.%d.%d" % (p // 256 % 16, p % 256))
        heard, round_of = {self.me}, self.round
        while True:
            same = self.ballot() + number(p, 4)
            self.send(ACCEPT, same + sized(entry))
            self.send(VOTE, same + sized(entry))
            if self.gather(VOTE, same, 0.2, heard):
                self.position += 1
                self.entries.append(entry)
                return
            self.sent_again += 1
            if self.round != round_of:
                self.lead()
                heard, round_of = {self.me}, self.round

    def commits(self, seconds):
        """All that there are in this time: how many a second."""
        began, first = time.time(), self.position
        while time.time() < began + seconds:
            self.commit()
        return (self.position - first) / (time.time() - began)
