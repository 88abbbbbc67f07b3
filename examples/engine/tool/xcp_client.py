"""A client of an XCP slave over TCP: frames, commands by name, and the data packets that come by themselves."""
import enum
import socket
import struct
import time


class Command(enum.IntEnum):
    CONNECT = 0xFF
    DISCONNECT = 0xFE
    GET_STATUS = 0xFD
    GET_ID = 0xFA
    SET_REQUEST = 0xF9
    SET_MTA = 0xF6
    UPLOAD = 0xF5
    DOWNLOAD = 0xF0
    DOWNLOAD_NEXT = 0xEF
    SET_CAL_PAGE = 0xEB
    GET_CAL_PAGE = 0xEA
    SET_SEGMENT_MODE = 0xE6
    COPY_CAL_PAGE = 0xE4
    SET_DAQ_PTR = 0xE2
    WRITE_DAQ = 0xE1
    SET_DAQ_LIST_MODE = 0xE0
    START_STOP_DAQ_LIST = 0xDE
    START_STOP_SYNCH = 0xDD
    GET_DAQ_CLOCK = 0xDC
    GET_DAQ_RESOLUTION_INFO = 0xD9
    FREE_DAQ = 0xD6
    ALLOC_DAQ = 0xD5
    ALLOC_ODT = 0xD4
    ALLOC_ODT_ENTRY = 0xD3


class Error(enum.IntEnum):
    ERR_CMD_SYNCH = 0x00
    ERR_CMD_BUSY = 0x10
    ERR_DAQ_ACTIVE = 0x11
    ERR_CMD_UNKNOWN = 0x20
    ERR_CMD_SYNTAX = 0x21
    ERR_OUT_OF_RANGE = 0x22
    ERR_WRITE_PROTECTED = 0x23
    ERR_ACCESS_DENIED = 0x24
    ERR_PAGE_NOT_VALID = 0x26
    ERR_MODE_NOT_VALID = 0x27
    ERR_SEGMENT_NOT_VALID = 0x28
    ERR_SEQUENCE = 0x29
    ERR_DAQ_CONFIG = 0x2A
    ERR_MEMORY_OVERFLOW = 0x30


POSITIVE, ERROR, EVENT = 0xFF, 0xFE, 0xFD  # the first bytes of what isn't a data packet
EV_STORE_CAL = 0x03
ECU, XCP = 0x01, 0x02  # whose page: the controller's, the tool's
STORE_CAL, FREEZE = 0x01, 0x01
STOP_ALL, START_SELECTED, SELECT = 0, 1, 2
TIMESTAMP = 0x10  # the bit of a list's mode
UNITS = [1e-9, 1e-8, 1e-7, 1e-6, 1e-5, 1e-4, 1e-3, 1e-2, 1e-1, 1.0, 1e-12, 1e-11, 1e-10]  # seconds, by their codes


class XcpError(Exception):
    """The slave refused a command."""

    def __init__(self, command, code):
        name = Error(code).name if code in Error._value2member_map_ else "an unknown error"
        super().__init__(f"{command.name} is answered {name} (FE {code:02X})")
        self.command, self.code = command, code


class Fault(Exception):
    """The conversation can't go on."""


class Client:
    """A connection to a slave. Words have their low byte first, so it's for an Intel slave, which CONNECT looks at."""

    PATIENCE = 10.0  # seconds that an answer may take

    def __init__(self, port):
        self.socket = socket.create_connection(("127.0.0.1", port), self.PATIENCE)
        self.socket.setsockopt(socket.IPPROTO_TCP, socket.TCP_NODELAY, 1)
        self.rest = b""  # of the stream: no whole frame
        self.sent, self.received, self.lost = 0, 0, 0  # frames; those lost by the slave's CTR
        self.data, self.events = [], []  # packets that came by themselves
        self.max_cto = 8

    def close(self):
        self.socket.close()

    # Frames

    def send(self, packet):
        self.socket.sendall(struct.pack("<HH", len(packet), self.sent & 0xFFFF) + packet)
        self.sent += 1

    def next_packet(self, until):
        """The next packet that the slave sends, or None if none is whole by then."""
        while len(self.rest) < 4 or len(self.rest) < 4 + int.from_bytes(self.rest[:2], "little"):
            left = until - time.monotonic()
            if left <= 0:
                return None
            self.socket.settimeout(left)
            try:
                piece = self.socket.recv(65536)
            except socket.timeout:
                return None
            if not piece:
                raise Fault("the slave closed the connection")
            self.rest += piece
        length, counter = struct.unpack_from("<HH", self.rest)
        self.lost += (counter - self.received - self.lost) & 0xFFFF
        self.received += 1
        packet, self.rest = self.rest[4 : 4 + length], self.rest[4 + length :]
        return packet

    def next_answer(self, until):
        """The next packet that answers a command, or None. Data and event packets that come before it are kept."""
        while (packet := self.next_packet(until)) is not None:
            if packet[0] in (POSITIVE, ERROR):
                return packet
            (self.events if packet[0] == EVENT else self.data).append(packet)
        return None

    def listen(self, seconds):
        """Keeps the data packets that come in so many seconds."""
        answer = self.next_answer(time.monotonic() + seconds)
        if answer is not None:
            raise Fault(f"{answer.hex()} answers no command")

    # Commands

    def ask(self, command, form="", *values):
        """Sends a command, with parameters behind its code as `form` packs them, and gives its positive answer."""
        self.send(bytes([command]) + struct.pack("<" + form, *values))
        return self.answer_to(command)

    def answer_to(self, command):
        answer = self.next_answer(time.monotonic() + self.PATIENCE)
        if answer is None:
            raise Fault(f"{command.name} isn't answered")
        if answer[0] == ERROR:
            raise XcpError(command, answer[1])
        return answer

    def connect(self):
        answer = self.ask(Command.CONNECT, "B", 0)
        if answer[2] & 1:
            raise Fault("the slave has Motorola's byte order, which this client doesn't speak")
        self.max_cto, max_dto = answer[3], int.from_bytes(answer[4:6], "little")
        return self.max_cto, max_dto

    def disconnect(self):
        self.ask(Command.DISCONNECT)

    def identification(self):
        length = int.from_bytes(self.ask(Command.GET_ID, "B", 0)[4:8], "little")
        return self.upload_here(length).decode("ascii")

    def upload(self, address, length):
        self.ask(Command.SET_MTA, "xxBI", 0, address)
        return self.upload_here(length)

    def upload_here(self, length):
        """Bytes from the MTA on, in as many packets as they fill."""
        found = self.ask(Command.UPLOAD, "B", length)[1:]
        while len(found) < length:
            found += self.answer_to(Command.UPLOAD)[1:]
        return found

    def download(self, address, content):
        """Writes at most 255 bytes as one block, which the slave writes whole or not at all."""
        room = self.max_cto - 2
        self.ask(Command.SET_MTA, "xxBI", 0, address)
        for at in range(0, len(content), room):
            command = Command.DOWNLOAD_NEXT if at else Command.DOWNLOAD
            self.send(bytes([command, len(content) - at]) + content[at : at + room])
        self.answer_to(Command.DOWNLOAD)

    def set_page(self, whose, segment, page):
        self.ask(Command.SET_CAL_PAGE, "BBB", whose, segment, page)

    def page(self, whose, segment):
        return self.ask(Command.GET_CAL_PAGE, "BB", whose, segment)[3]

    def copy_page(self, segment, source, target):
        self.ask(Command.COPY_CAL_PAGE, "BBBB", segment, source, segment, target)

    def store(self, segments):
        """Asks for the tool's page of these segments to be stored as their reference page, and waits for the event packet
        that says that it was."""
        for segment in segments:
            self.ask(Command.SET_SEGMENT_MODE, "BB", FREEZE, segment)
        told = len(self.events)
        self.ask(Command.SET_REQUEST, "BH", STORE_CAL, 0)
        until = time.monotonic() + self.PATIENCE
        while bytes([EVENT, EV_STORE_CAL]) not in self.events[told:]:
            if time.monotonic() > until:
                raise Fault("no event packet says that the controller has stored")
            self.listen(0.01)

    # Acquisition lists

    def allocate(self, lists, mode=0):
        """Makes lists of one ODT each, by their event channels, and the addresses and sizes of their entries, in this mode; selects
        them, and gives their PIDs."""
        self.ask(Command.FREE_DAQ)
        self.ask(Command.ALLOC_DAQ, "xH", len(lists))
        for number in range(len(lists)):
            self.ask(Command.ALLOC_ODT, "xHB", number, 1)
        for number, (_, entries) in enumerate(lists):
            self.ask(Command.ALLOC_ODT_ENTRY, "xHBB", number, 0, len(entries))
        for number, (channel, entries) in enumerate(lists):
            self.ask(Command.SET_DAQ_PTR, "xHBB", number, 0, 0)
            for address, size in entries:
                self.ask(Command.WRITE_DAQ, "BBBI", 0xFF, size, 0, address)
            self.ask(Command.SET_DAQ_LIST_MODE, "BHHBB", mode, number, channel, 1, 0)
        return [self.ask(Command.START_STOP_DAQ_LIST, "BH", SELECT, number)[1] for number in range(len(lists))]

    def clock_resolution(self):
        """How many bytes a time stamp has, and how many seconds a tick: 0 and 0 where the slave has no clock."""
        mode, ticks = struct.unpack_from("<BH", self.ask(Command.GET_DAQ_RESOLUTION_INFO), 5)
        return mode & 7, (ticks * UNITS[mode >> 4] if mode & 7 else 0)

    def clock(self):
        """The lowest four bytes of the slave's time, in ticks."""
        return struct.unpack_from("<I", self.ask(Command.GET_DAQ_CLOCK), 4)[0]

    def start_selected(self):
        self.ask(Command.START_STOP_SYNCH, "B", START_SELECTED)

    def stop_all(self):
        self.ask(Command.START_STOP_SYNCH, "B", STOP_ALL)
