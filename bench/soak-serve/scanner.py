"""A port scanner: connections that send nothing, or what is no command, so many a second."""
import socket
import struct
import time
from collections import Counter, deque, namedtuple
from random import Random

from xcp_client import Fault

# What scanners send first: each begins with a LEN that no frame has.
TEXTS = [b"GET / HTTP/1.0\r\n\r\n", b"\x16\x03\x01\x00\x2f\x01\x00\x00\x2b\x03\x03", b"SSH-2.0-scan\r\n", b"\r\n\r\n", b"EHLO scan\r\n"]
LOOK = 0.25  # seconds after which is looked at what the server did
MOST = 40  # connections that may wait for a seat: the queue has room for others behind them
Way = namedtuple("Way", "name content is_reset ends")


class Scanner:
    """It opens a connection behind the other, and waits only while many of them wait for a seat. No whole frame is sent, so nothing may be answered, and nobody's answers
    or measurements change."""

    def __init__(self, soak, rate):
        self.soak, self.rate, self.random = soak, rate, Random(7)
        self.visits, self.turned, self.got, self.seconds = Counter(), 0, 0, 0.0
        self.open = deque()  # connections: since when, the socket or None, the address, and the way
        self.ways = [
            Way("closed at once", lambda: b"", False, {"none"}),
            Way("reset at once", lambda: b"", True, {"stream 1", "stream 2", "none"}),
            Way("garbage", self.garbage, None, {"stream 3", "stream 1"}),
            Way("another protocol", lambda: self.random.choice(TEXTS), None, {"stream 3", "stream 1"}),
            Way("half a frame, closed", self.part, False, {"stream 4"}),
            Way("half a frame, reset", self.part, True, {"stream 1", "stream 2", "stream 4"}),
        ]

    def garbage(self):
        """Bytes that begin with a LEN that is too long."""
        return struct.pack("<H", self.random.randint(self.soak.layout.max_cto + 1, 0xFFFF)) + self.random.randbytes(self.random.randint(0, 500))

    def part(self):
        return b"\x02\x00\x00\x00\xff"[: self.random.randint(1, 5)]

    def run(self):
        began = due = time.monotonic()
        while not self.soak.over.is_set():
            if len(self.open) < MOST:
                self.scan(self.random.choice(self.ways))
            self.look(LOOK)
            due = max(due + 1 / self.rate, time.monotonic() - 1)
            self.soak.over.wait(max(0.0, due - time.monotonic()))
        self.seconds = time.monotonic() - began
        while self.open:
            self.look(0)
            time.sleep(0.01)

    def scan(self, way):
        stream = socket.create_connection(("127.0.0.1", self.soak.server.port), 30)
        address = "{}:{}".format(*stream.getsockname())
        try:
            stream.sendall(way.content())
        except ConnectionError:
            pass  # (it was turned away)
        if way.is_reset is not None:
            if way.is_reset:
                stream.setsockopt(socket.SOL_SOCKET, socket.SO_LINGER, struct.pack("ii", 1, 0))
            stream.close()
            stream = None
        self.open.append((time.monotonic(), stream, address, way))

    def look(self, age):
        """Looks at the connections that are so many seconds old: whether anything came, and how the server says that they ended."""
        for _ in range(len(self.open)):
            began, stream, address, way = self.open.popleft()
            now = time.monotonic()
            if now < began + age or not self.is_over(stream, address, way):
                if now > began + 60:
                    raise Fault(f"the server doesn't say within a minute that {address} has gone, which was {way.name}")
                self.open.append((began, stream, address, way))

    def is_over(self, stream, address, way):
        log = self.soak.server.log
        if not log.has_ended(address):
            return False
        end = log.end_of(address, 1)
        if end != "turned away" and end not in way.ends:
            raise Fault(f"the server says of {address} '{end}', which was {way.name}")
        if stream:
            self.got += self.bytes_of(stream)
            stream.close()
        self.turned += end == "turned away"
        self.visits[way.name] += 1
        return True

    def bytes_of(self, stream):
        """How many bytes came before the server closed the connection."""
        count = 0
        try:
            stream.settimeout(10)
            while piece := stream.recv(65536):
                count += len(piece)
        except ConnectionError:
            pass
        return count

    def wrong(self):
        if self.got:
            yield f"{self.got} bytes came to a port scanner, which sent no command"
        for way in self.ways:
            if not self.visits[way.name]:
                yield f"no connection of the scanner was {way.name}"
        if sum(self.visits.values()) < self.rate * self.seconds / 4 and not self.soak.is_busy():
            yield f"the scanner made {sum(self.visits.values())} connections in {self.seconds:.0f} s, less than a quarter of what it was asked for"

    def lines(self):
        for way in self.ways:
            yield f"scans          {self.visits[way.name]:6}  {way.name}"
        scans = sum(self.visits.values())
        yield f"scans          {scans:6}  in all, {scans / (self.seconds or 1):.1f} a second, {self.turned} turned away; {self.got} bytes to them"
