"""Tools that are connected and say nothing: nothing of what another one measures may come to them."""
import time
from collections import Counter

from server import IDLE
from tool import Tool
from xcp_client import Fault

GRACE = 1.0  # seconds in which packets may come still that had been fetched before another tool took the session
SILENT, VANISHED = "never sent a byte", "vanished behind CONNECT"


class Ghost:
    """By turns a connection that never sends a byte, and one that sends CONNECT, and then nothing, as if its machine were gone: then the
    calibrator takes the session again by a CONNECT of its own. Each is there until the server closes it for its silence, if the run is long enough."""

    def __init__(self, soak):
        self.soak, self.trips, self.samples, self.passing = soak, 0, 0, 0  # `passing` came while the session went over
        self.visits, self.got, self.beside, self.closed = Counter(), Counter(), Counter(), 0
        self.waits = soak.seconds >= 4 * IDLE  # until the server closes it; in a shorter run it leaves by itself

    def note_trip(self, _):
        self.trips += 1

    def check_data(self, packet, _):
        """Until the calibrator has the session again packets are the ghost's own."""

    def run(self):
        while not self.soak.over.is_set():
            self.stay(Tool(self), SILENT)
            if not self.soak.over.is_set():
                self.vanish()

    def vanish(self):
        """The calibrator doesn't leave meanwhile: then the session would be the ghost's."""
        with self.soak.session:
            with self.soak.mta:
                tool = Tool(self)
                tool.expect(b"\xff\x00", self.soak.layout.connected)
            began = time.monotonic()
            self.soak.calibrator.take_session()
            self.passing += self.samples + self.listen(tool, time.monotonic() + GRACE)[0]
            self.samples = 0
            self.stay(tool, VANISHED, began)

    def listen(self, tool, until):
        """How many packets come until then, and whether the server has closed the connection."""
        got = 0
        try:
            while time.monotonic() < until and not self.soak.over.is_set():
                got += tool.next_packet(min(until, time.monotonic() + 0.5)) is not None
        except (Fault, ConnectionError):
            return got, True
        return got, False

    def stay(self, tool, kind, began=None):
        before, began = self.soak.calibrator.samples, began or time.monotonic()
        got, is_closed = self.listen(tool, began + (2 * IDLE + 20 if self.waits else self.soak.seconds / 4))
        took = time.monotonic() - began
        self.got[kind] += got
        self.visits[kind] += 1
        self.closed += is_closed
        self.beside[kind] += self.soak.calibrator.samples - before
        if is_closed and took < IDLE - 1:
            raise Fault(f"{tool.address} said nothing for {took:.1f} s only, and is closed")
        if not is_closed and self.waits and not self.soak.over.is_set():
            raise Fault(f"{tool.address} has said nothing for {took:.1f} s, and isn't closed")
        if is_closed:
            tool.close()
        else:
            tool.leave()
        self.soak.expect_end(tool, {"none"})
        if is_closed and tool.address not in self.soak.server.log.silent:
            raise Fault(f"the server doesn't say that {tool.address} sent nothing")

    def wrong(self):
        for kind in (SILENT, VANISHED):
            if self.got[kind]:
                yield f"{self.got[kind]} packets came to connections that {kind}"
            if self.visits[kind] and not self.beside[kind]:
                yield f"beside connections that {kind} the calibrator measured nothing, so that there was nothing to lose"
            if not self.visits[kind]:
                yield f"there was no connection that {kind}"
        if self.waits and not self.closed:
            yield "the server closed no silent connection"

    def lines(self):
        for kind in (SILENT, VANISHED):
            yield f"ghosts         {self.visits[kind]:6}  {kind}: {self.got[kind]} packets to them, {self.beside[kind]} to the calibrator meanwhile"
        yield f"               {self.closed} closed by the server; {self.passing} packets to those that vanished before the calibrator had the session again"
