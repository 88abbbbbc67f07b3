"""A tool's connection, of which everything that comes is looked at."""
import socket
import struct
import time

from xcp_client import Client, Fault


class Tool(Client):
    """A tool's connection. Its owner counts what it gets, and its round trips."""

    PATIENCE = 30.0

    def __init__(self, owner):
        super().__init__(owner.soak.server.port)
        self.owner, self.began = owner, time.monotonic()
        self.address = "{}:{}".format(*self.socket.getsockname())

    def ask_for(self, packet):
        """Sends a command packet, and gives the packet that answers it."""
        self.send(packet)
        return self.answer()

    def answer(self):
        answer = self.next_answer(time.monotonic() + self.PATIENCE)
        self.look()
        return answer

    def expect(self, packet, *wanted):
        """Sends a command packet, and wants these answers."""
        began = time.monotonic()
        self.send(packet)
        for answer in wanted:
            found = self.answer()
            if found != answer:
                said = found.hex(" ") if found else "nothing"
                raise Fault(f"{packet.hex(' ')} is answered {said}, and not {answer.hex(' ')}")
        self.owner.note_trip(time.monotonic() - began)

    def look(self):
        """Looks at what came beside the answers."""
        if self.lost:
            raise Fault(f"a frame of {self.address} has another CTR than the one after the frame before")
        for packet in self.data:
            self.owner.check_data(packet, self)
        if not self.owner.soak.layout.events.issuperset(self.events):
            raise Fault(f"an event packet is {self.events}")
        self.owner.samples += len(self.data)
        self.data.clear()
        self.events.clear()

    def send_in_part(self):
        """The first bytes of a frame."""
        self.socket.sendall(b"\x02\x00\x00\x00\xff"[: self.owner.random.randint(1, 5)])

    def wait_for_close(self, seconds):
        """Reads until the server has closed the connection; gives the seconds that this took."""
        began = time.monotonic()
        self.socket.settimeout(seconds)
        try:
            while self.socket.recv(65536):
                if time.monotonic() > began + seconds:
                    raise Fault(f"{self.address} isn't closed within {seconds} seconds")
        except ConnectionError:
            pass
        except TimeoutError:
            raise Fault(f"{self.address} isn't closed within {seconds} seconds") from None
        self.close()
        return time.monotonic() - began

    def leave(self):
        """Ends the connection in order: whatever the server has sent is read."""
        self.socket.shutdown(socket.SHUT_WR)
        self.wait_for_close(10)

    def reset(self):
        """Ends the connection by a reset."""
        self.socket.setsockopt(socket.SOL_SOCKET, socket.SO_LINGER, struct.pack("ii", 1, 0))
        self.close()
