"""What a slave's port does with datagrams: whose it takes, which frames it executes, and what it counts. docs/PROTOCOL.md has the rules."""
import struct
from collections import Counter

from model import CONNECT, DISCONNECT

LONGEST = 1472  # bytes of a datagram
NOTED = 64  # numbers before the one that is expected next, of which those that are missing stay noted
COUNTED = "came", "faulty", "foreign", "lost", "doubled", "overtaken", "unsent"


def frame(ctr, packet):
    return struct.pack("<HH", len(packet), ctr & 0xFFFF) + packet


def frames(datagram, max_cto):
    """The whole frames of a datagram in order, each its CTR and its packet, and whether something else stands behind them."""
    found, at = [], 0
    while at + 4 <= len(datagram):
        length, ctr = struct.unpack_from("<HH", datagram, at)
        if length > max_cto or at + 4 + length > len(datagram):
            break
        found.append((ctr, datagram[at + 4 : at + 4 + length]))
        at += 4 + length
    return found, at < len(datagram)


def first_packet(whole):
    return next((packet for _, packet in whole if packet), b"")


def begins_with_connect(whole):
    """Whether of these frames the first with a packet has a whole CONNECT."""
    packet = first_packet(whole)
    return len(packet) >= 2 and packet[0] == CONNECT


class Gaps:
    """What the CTR of a tool's frames tells: which are missing, and which come late or again."""

    def __init__(self, counts):
        self.counts, self.expected, self.missing = counts, None, set()

    def note(self, ctr):
        if self.expected is None:
            self.expected = ctr
        ahead = (ctr - self.expected) & 0xFFFF
        if ahead >= 0x8000:
            self.note_late(ctr, 0x10000 - ahead)
            return
        self.counts["lost"] += ahead
        self.missing |= {(self.expected + it) & 0xFFFF for it in range(max(0, ahead - NOTED), ahead)}
        self.expected = (ctr + 1) & 0xFFFF
        self.missing = {it for it in self.missing if (self.expected - it) & 0xFFFF <= NOTED}

    def note_late(self, ctr, behind):
        if behind > NOTED:
            self.counts["overtaken"] += 1
        elif ctr in self.missing:
            self.missing.remove(ctr)
            self.counts["overtaken"] += 1
            self.counts["lost"] -= 1
        else:
            self.counts["doubled"] += 1


class Port:
    """The port of a slave, a model. Tools are told apart by whatever `who` is."""

    def __init__(self, slave):
        self.slave, self.counts = slave, Counter({name: 0 for name in COUNTED})
        self.tool, self.gaps = None, None

    def hang_up(self):
        """The end of the session that is there: from now on nobody has the slave."""
        self.slave.hang_up()
        self.tool = None

    def is_new(self, who, datagram, is_silent):
        """Whether a datagram gives the slave to another tool, or to one where nobody had it."""
        may_take = self.tool is None or (who != self.tool and is_silent)
        return may_take and 0 < len(datagram) <= LONGEST and begins_with_connect(frames(datagram, self.slave.layout.max_cto)[0])

    def take(self, who, datagram, is_silent=False):
        """Takes a datagram, and gives the packets that answer it. `is_silent` says that who has the slave was silent for so long that
        another tool may take it over."""
        self.counts["came"] += 1
        if not 0 < len(datagram) <= LONGEST:
            self.counts["faulty"] += 1
            return []
        if self.is_new(who, datagram, is_silent):
            self.slave.hang_up()
            self.tool, self.gaps = who, Gaps(self.counts)
        elif who != self.tool:
            self.counts["foreign"] += 1
            return []
        whole, is_faulty = frames(datagram, self.slave.layout.max_cto)
        self.counts["faulty"] += is_faulty
        answers = []
        for ctr, packet in whole:
            self.gaps.note(ctr)
            was_connected = self.slave.connected
            answers += self.slave.answer(packet)
            if was_connected and not self.slave.connected:
                self.tool = None
        return answers

    def is_plain(self, who, datagram):
        """Whether the rules say of a datagram one thing alone: they don't say whose the frames behind a DISCONNECT are, nor with which frame
        the count of a tool begins whose CONNECT stands behind frames without a packet."""
        whole, _ = frames(datagram, self.slave.layout.max_cto)
        packets = [packet for _, packet in whole]
        if any(packet[:1] == bytes([DISCONNECT]) for packet in packets[:-1]):
            return False
        return not begins_with_connect(whole) or packets[0] != b""
