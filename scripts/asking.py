"""A client of a node's control socket, which asks for a change and waits until it is applied. scripts/loop-speed and
scripts/wan use it; it is `pfx ask --control PATH --wait` without a process for each command."""

import http.client
import socket
import time


class Connection(http.client.HTTPConnection):
    """HTTP over the Unix socket at a path."""

    def __init__(self, path, timeout):
        super().__init__("pfx", timeout=timeout)
        self.path = path

    def connect(self):
        self.sock = socket.socket(socket.AF_UNIX, socket.SOCK_STREAM)
        self.sock.settimeout(self.timeout)
        self.sock.connect(self.path)


class Asker:
    """One who asks a node, one command after the other."""

    def __init__(self, path, timeout=5.0):
        self.path, self.timeout = path, timeout

    def request(self, method, target, body=None):
        """The status of an answer, and its first line; a connection for each, as `pfx ask` makes it."""
        connection = Connection(self.path, self.timeout)
        try:
            connection.request(method, target, body)
            answer = connection.getresponse()
            return answer.status, answer.read().decode().split("\n", 1)[0]
        finally:
            connection.close()

    def change(self, words):
        """Asks for a change by pfctl's words, and waits until it is applied: its request, as `0.7`, or None."""
        end = time.monotonic() + self.timeout
        try:
            status, line = self.request("POST", "/v1/changes", words)
            if status != 202:
                return None
            asked = line.removeprefix("asked ")
            while time.monotonic() < end:
                if self.request("GET", "/v1/requests/" + asked)[1].startswith("applied"):
                    return asked
        except (OSError, http.client.HTTPException):
            pass
        return None
