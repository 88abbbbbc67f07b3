"""Tools that talk to a server over UDP, beside a model that says what each is answered."""
import os
import socket
import time
from collections import deque

from port import LONGEST, Port, frame, frames
from served import Wrong

UNREAD = 20  # datagrams that may wait at the port, which has room for more
PATIENCE = 10.0  # seconds that an answer may take
ROOM = 4 << 20  # bytes of datagrams that aren't read yet
ANSWER = 0xFD  # the first byte of a packet that is neither data nor an answer: an event packet


class Tool:
    """A socket, with the number of its next frame, and what is known of the slave's frames to it."""

    def __init__(self, server):
        self.socket = socket.socket(socket.AF_INET, socket.SOCK_DGRAM)
        kind = socket.SO_RCVBUFFORCE if hasattr(socket, "SO_RCVBUFFORCE") and not os.geteuid() else socket.SO_RCVBUF
        self.socket.setsockopt(socket.SOL_SOCKET, kind, ROOM)
        self.socket.bind(("127.0.0.1", 0))
        self.socket.connect(("127.0.0.1", server.port))
        self.ctr, self.next, self.came = 0, 0, 0  # its own next number, the slave's, and how many packets have come
        self.wanted = deque()  # answers, each with whether it is the first of a session
        self.data, self.events, self.datagrams = [], [], []  # data packets, event packets, and the lengths of datagrams that came

    def framed(self, *packets):
        """The frames of these packets, in a row."""
        row = b""
        for packet in packets:
            row += frame(self.ctr, packet)
            self.ctr = (self.ctr + 1) & 0xFFFF
        return row

    def read(self, within):
        """Reads a datagram, if one comes within so many seconds: whether one did."""
        self.socket.settimeout(max(0.0, within))
        try:
            datagram = self.socket.recv(65536)
        except (TimeoutError, BlockingIOError):
            return False
        whole, is_faulty = frames(datagram, 0xFFFF)
        if not whole or is_faulty or len(datagram) > LONGEST:
            raise Wrong(f"a datagram of {len(datagram)} bytes comes back that isn't whole frames, or too long: {datagram[:40].hex(' ')}")
        self.datagrams.append(len(datagram))
        for ctr, packet in whole:
            self.take(ctr, packet)
        return True

    def take(self, ctr, packet):
        """Takes a packet that came, which has to be a data packet, an event packet, or the next answer."""
        is_answer = packet[:1] > bytes([ANSWER])
        if is_answer and not self.wanted:
            raise Wrong(f"{packet.hex(' ')} answers nothing")
        answer, is_first = self.wanted.popleft() if is_answer else (packet, False)
        self.next = 0 if is_first else self.next
        if packet != answer:
            raise Wrong(f"an answer is {packet.hex(' ')}, and not {answer.hex(' ')}")
        if ctr != self.next:
            raise Wrong(f"the CTR of {packet.hex(' ')} is {ctr}, and not {self.next}")
        self.next, self.came = (ctr + 1) & 0xFFFF, self.came + 1
        if not is_answer:
            (self.events if packet[0] == ANSWER else self.data).append(packet)

    def read_all(self):
        """Reads until each answer that is wanted has come."""
        until = time.monotonic() + PATIENCE
        while self.wanted:
            if not self.read(until - time.monotonic()):
                raise Wrong(f"{self.wanted[0][0].hex(' ')} doesn't come within {PATIENCE:.0f} s")

    def listen(self, seconds):
        """Reads whatever comes within so many seconds: how many data packets did."""
        before, until = len(self.data), time.monotonic() + seconds
        while self.read(until - time.monotonic()):
            pass
        return len(self.data) - before

    def close(self):
        self.socket.close()


class Talk:
    """A server, and what it has to answer, by a model. Datagrams go to it one behind another, whosever they are."""

    def __init__(self, server, slave):
        self.server, self.port = server, Port(slave)
        self.tools, self.unread = set(), 0  # that wait for answers, and datagrams since the port was seen to be empty

    def tool(self):
        return Tool(self.server)

    def send(self, tool, datagram, is_silent=False):
        """Sends a datagram, and notes what answers it: how many bytes these are."""
        is_first = self.port.is_new(tool, datagram, is_silent)
        answers = self.port.take(tool, datagram, is_silent)
        tool.socket.send(datagram)
        self.unread += 1
        if self.unread == UNREAD or len(datagram) > LONGEST:
            self.server.wait_until_read()
            self.unread = 0
        tool.wanted.extend((answer, is_first and not number) for number, answer in enumerate(answers))
        if answers:
            self.tools.add(tool)
        return sum(4 + len(answer) for answer in answers)

    def read_all(self):
        """Waits until each answer has come."""
        while self.tools:
            self.tools.pop().read_all()

    def ask(self, tool, *packets, is_silent=False):
        """Sends these packets in one datagram, and wants what answers them: in how many datagrams it came, and how many bytes."""
        before = len(tool.datagrams)
        self.send(tool, tool.framed(*packets), is_silent)
        self.read_all()
        return tool.datagrams[before:]

    def is_ignored(self, tool, *packets, within=0.3):
        """Sends these packets in one datagram, to which nothing may come back."""
        bytes_of_answers = self.send(tool, tool.framed(*packets))
        return not bytes_of_answers and not tool.read(within)

    def counted(self):
        """Stops the server: what it counted, and what the model did."""
        self.server.wait_until_read()
        time.sleep(0.05)
        return self.server.stop(), dict(self.port.counts)
