"""Tools that come and go, and the ways in which they leave."""
import socket
import struct
import time
from collections import Counter, namedtuple
from random import Random

from server import PATIENCE, SEATS
from tool import Tool
from xcp_client import Fault

VISIT_PAUSE = 0.2  # seconds


class Visitor:
    """Tools that come one after another, and leave in each way in turn."""

    def __init__(self, soak, number):
        self.soak, self.layout, self.random = soak, soak.layout, Random(number)
        self.trips, self.samples, self.visits = 0, 0, Counter()
        self.first = number * len(WAYS) // 2  # so that two visitors don't go the same way at a time

    def run(self):
        turn = self.first
        while not self.soak.over.is_set():
            way = WAYS[turn % len(WAYS)]
            way.go(self, way)
            turn += 1
            self.soak.over.wait(VISIT_PAUSE)

    def note_trip(self, _):
        self.trips += 1

    def check_data(self, packet, tool):
        self.soak.check_shape(packet, tool.began - 1)

    def come(self, tool=None):
        """A tool that has connected, and was answered."""
        tool = tool or Tool(self)
        with self.soak.mta:
            tool.expect(b"\xff\x00", self.layout.connected)
            at, count = self.layout.signals, min(self.layout.signal_bytes, 64, self.layout.max_cto - 1)  # those of an event
            answer = tool.ask_for(struct.pack("<BBHI", 0xF4, count, 0, at))
            if not answer or answer != b"\xff" + answer[1:2] * count:
                raise Fault(f"the signals are {answer}, and not those of one event")
        self.ask_a_little(tool)
        return tool

    def ask_a_little(self, tool):
        """Commands that are answered the same whatever other tools do. They change nothing but that a block of the calibrator's would be over."""
        with self.soak.mta:
            tool.expect(b"\xfb", b"\xff\x00\x01\x00\x08\x00\x00\x10")
            tool.expect(b"\xe9", bytes([0xFF, len(self.layout.segments), 1]))
            tool.expect(b"\xd9", self.layout.resolution)
            for number, segment in enumerate(self.layout.segments):
                tool.expect(bytes([0xE8, 0, number, 0, 0]), struct.pack("<BxxxI", 0xFF, segment.address))
            tool.expect(b"\xfc", b"\xfe\x00")

    def visit(self, way):
        tool = self.come()
        way.leave(self, tool)
        self.soak.expect_end(tool, way.ends)
        self.visits[way.name] += 1

    def crowd(self, way):
        """More tools than there are seats for them: each is answered in its turn. While they may have all seats, nobody else waits for a seat with
        the MTA in hand, which they need to go on."""
        if not self.soak.crowding.acquire(blocking=False):
            return
        try:
            with self.soak.mta:
                tools = [Tool(self) for _ in range(SEATS)]
                for tool in tools:
                    way.leave(self, self.come(tool))
                    self.soak.expect_end(tool, way.ends)
                    self.visits[way.name] += 1
        finally:
            self.soak.crowding.release()

    # Ways to leave

    def in_order(self, tool):
        tool.leave()

    def reset(self, tool):
        tool.reset()

    def reset_inside(self, tool):
        tool.send_in_part()
        tool.reset()

    def cut_short(self, tool):
        tool.send_in_part()
        tool.leave()

    def send_nothing_more(self, tool):
        tool.send_in_part()
        took = tool.wait_for_close(PATIENCE + 10)
        if took < PATIENCE - 0.2:
            raise Fault(f"a frame that was cut short was waited for {took:.1f} seconds only")

    def keep_silent(self, tool):
        time.sleep(PATIENCE + 1.5)
        self.ask_a_little(tool)
        tool.leave()

    def send_empty_frame(self, tool):
        with self.soak.mta:
            tool.socket.sendall(bytes(4))
            self.ask_a_little(tool)
        tool.leave()

    def send_too_long(self, tool):
        tool.socket.sendall(struct.pack("<H", self.layout.max_cto + 1) + bytes(self.random.choice((0, 2, 70))))
        tool.wait_for_close(10)

    def read_nothing(self, tool):
        """Commands with the longest answers of one packet, until the server closes: its writes don't move any more, and it is patient
        for so long."""
        tool.socket.settimeout(0.2)
        segment = max(self.layout.segments, key=lambda it: it.size)
        command = struct.pack("<BBHI", 0xF4, min(segment.size, self.layout.max_cto - 1), 0, segment.address)
        frames, at = (struct.pack("<HH", len(command), 0) + command) * 100, 0
        began = time.monotonic()
        with self.soak.mta:
            while not self.soak.server.log.has_ended(tool.address):
                if time.monotonic() > began + 3 * PATIENCE + 20:
                    raise Fault(f"the server doesn't close {tool.address}, which reads nothing")
                try:
                    at = (at + tool.socket.send(frames[at:])) % len(frames)
                except TimeoutError:
                    pass
                except ConnectionError:
                    break
            self.soak.expect_end(tool, READ_NOTHING_ENDS, keep=True)
            tool.close()


# A way to leave: its name, how a visit goes, how it ends, and what the server says of it then. A reset is told to whichever of
# two threads asks first, the one that reads or the one that writes.
Way = namedtuple("Way", "name go leave ends")
READ_NOTHING_ENDS = {"stream 2", "stream 1", "stream 4"}
WAYS = [
    Way("reading nothing", Visitor.visit, Visitor.read_nothing, READ_NOTHING_ENDS),
    Way("in order", Visitor.visit, Visitor.in_order, {"none"}),
    Way("reset inside a frame", Visitor.visit, Visitor.reset_inside, {"stream 1", "stream 4"}),
    Way("silent inside a frame", Visitor.visit, Visitor.send_nothing_more, {"stream 1"}),
    Way("an empty frame, in order", Visitor.visit, Visitor.send_empty_frame, {"none"}),
    Way("cut short", Visitor.visit, Visitor.cut_short, {"stream 4"}),
    Way("reset", Visitor.visit, Visitor.reset, {"stream 1", "stream 2"}),
    Way("silent, then in order", Visitor.visit, Visitor.keep_silent, {"none"}),
    Way("a frame too long", Visitor.visit, Visitor.send_too_long, {"stream 3"}),
    Way("more than seats, in order", Visitor.crowd, Visitor.in_order, {"none"}),
]
