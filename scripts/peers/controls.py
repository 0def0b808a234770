"""Nodes with control sockets, and HTTP over a Unix socket, for scripts."""
import http.client
import os
import socket
import subprocess
import time

from cluster import CLUSTER, Cluster


class Kept(http.client.HTTPConnection):
    """A connection of Python's own HTTP client over a Unix socket, kept from request to request."""

    def __init__(self, path, seconds=30):
        super().__init__("pfx", timeout=seconds)
        self.path, self.asked = path, 0

    def connect(self):
        self.sock = socket.socket(socket.AF_UNIX, socket.SOCK_STREAM)
        self.sock.settimeout(self.timeout)
        self.sock.connect(self.path)

    def ask(self, method, target, body=None, fields={}):
        """HTTP's status, the answer's fields and its body. A control socket closes a connection behind its thousandth request."""
        self.asked += 1
        if self.asked % 1000 == 0:
            self.close()
        self.request(method, target, body, fields)
        answer = self.getresponse()
        return answer.status, answer.headers, answer.read().decode()


class Controls(Cluster):
    """A cluster whose nodes have controls."""

    def control(self, n):
        return self.path("%d.sock" % n)

    def open(self, n, *words):
        """Starts a node with its control socket, and waits until somebody answers there."""
        self.start(n, "--control", self.control(n), *words)
        end = time.time() + 30
        while time.time() < end and self.is_up(n):
            try:
                Kept(self.control(n)).ask("GET", "/healthz")
                return True
            except OSError:
                time.sleep(0.02)
        return False

    def visit(self, n, *words, text=""):
        """What `pfx ask --control` prints, and its status."""
        command = [self.pfx, "ask", "--control", self.control(n), *words]
        ran = subprocess.run(command, input=text, capture_output=True, text=True)
        return ran.returncode, ran.stdout + ran.stderr

    def say(self, n):
        with open(self.path("%d.said" % n)) as file:
            return file.read()


def replayed(pfx, changes, line=None):
    """What `pfx ctl` prints for changes, each a line's words and its text or none, from the empty configuration on: a
    line for each; and behind them what it prints for one line more."""
    script = "".join("pfctl %s\n" % words + ("" if text is None else text + ".\n") for words, text in changes)
    ran = subprocess.run([pfx, "ctl"], input=script + (line + "\n" if line else ""), capture_output=True, text=True)
    lines = ran.stdout.splitlines(keepends=True)
    return [it.rstrip("\n") for it in lines[:len(changes)]], "".join(lines[len(changes):])
