"""A slave in Python, row by row as docs/PROTOCOL.md has it: what it answers to each packet, whatever that is."""
import struct
import tomllib

from calibrator import Layout
from xcp_client import ECU, XCP

DONE = b"\xff"
UNKNOWN, TOO_SHORT, RANGE, PROTECTED, DENIED, NO_PAGE, NO_MODE, NO_SEGMENT, SEQUENCE, CONFIGURATION, OVERFLOW, ACTIVE = (
    bytes([0xFE, code]) for code in (0x20, 0x21, 0x22, 0x23, 0x24, 0x26, 0x27, 0x28, 0x29, 0x2A, 0x30, 0x11)
)
CONNECT, DISCONNECT, DOWNLOAD_NEXT = 0xFF, 0xFE, 0xEF
LISTS, ODTS, ENTRIES, MAX_BS = 16, 64, 256, 8
# Of each allocating command those that may come before it.
BEFORE = {0xD5: {0xD6, 0xD5}, 0xD4: {0xD5, 0xD4}, 0xD3: {0xD4, 0xD3}}


class Refused(Exception):
    """A command is answered by an error packet, and changes nothing."""

    def __init__(self, answer):
        self.answer = answer


def want(holds, answer):
    if not holds:
        raise Refused(answer)


class List:
    """A DAQ list. An entry is an address and a size, or None while it's unwritten."""

    def __init__(self):
        self.odts, self.channel, self.prescaler, self.priority = [], 0, 1, 0
        self.runs = self.selected = False

    def fits(self, most):
        return all(sum(entry[1] for entry in odt if entry) <= most for odt in self.odts)


class Slave:
    """A slave of a layout of Intel's byte order, without a clock, whose A2L file it doesn't hand out. Nothing finishes its stores."""

    def __init__(self, path):
        self.layout = Layout(path)
        with open(path, "rb") as file:
            self.events = tomllib.load(file)["event"]
        self.segments, self.signals = self.layout.segments, bytearray(self.layout.signal_bytes)
        self.requested = False
        self.hang_up()

    def hang_up(self):
        """The end of a session."""
        self.connected, self.mta, self.block = False, None, None  # the MTA is an address, or what is left of a text
        self.lists, self.pointer, self.last = [], None, None  # the pointer is a list, an ODT and an entry; the last allocating command

    def answer(self, packet):
        """The packets that answer one from the tool."""
        if not packet or not (self.connected or (packet[0] == CONNECT and len(packet) >= 2)):
            return []
        block, self.block = self.block, None
        least, command = COMMANDS.get(packet[0], (0, None))
        try:
            want(command, UNKNOWN)
            want(len(packet) >= least, TOO_SHORT)
            told = command(self, packet, block) if packet[0] == DOWNLOAD_NEXT else command(self, packet)
        except Refused as refused:
            return [refused.answer]
        return told if isinstance(told, list) else [told]

    # Memory

    def area(self, address, count):
        """The bytes of the segment or the signals in which a range lies, where in them it begins, and the segment: None of all if in no one."""
        for it in self.segments:
            if it.address <= address and address + count <= it.address + it.size:
                return it.content(XCP), address - it.address, it
        if self.layout.signals <= address and address + count <= self.layout.signals + self.layout.signal_bytes:
            return self.signals, address - self.layout.signals, None
        return None, None, None

    def read(self, address, count):
        content, at, _ = self.area(address, count)
        want(content is not None, DENIED)
        return bytes(content[at : at + count])

    def check_write(self, mta, count):
        want(mta is not None, DENIED)
        want(isinstance(mta, int), PROTECTED)
        content, _, segment = self.area(mta, count)
        want(content is not None, DENIED)
        want(segment and segment.page[XCP], PROTECTED)

    def write(self, address, data):
        self.check_write(address, len(data))
        content, at, _ = self.area(address, len(data))
        content[at : at + len(data)] = data
        self.mta = address + len(data)

    # Standard commands

    def connect(self, _):
        self.connected, self.mta = True, None
        return self.layout.connected

    def disconnect(self, _):
        self.hang_up()
        return DONE

    def get_status(self, _):
        return bytes([0xFF, self.requested | 0x40 * any(it.runs for it in self.lists), 0, 0, 0, 0])

    def synch(self, _):
        return b"\xfe\x00"

    def get_comm_mode_info(self, _):
        return bytes([0xFF, 0, 1, 0, MAX_BS, 0, 0, 0x10])

    def get_id(self, packet):
        text = self.layout.id if packet[1] == 0 else b""
        if text:
            self.mta = text
        return struct.pack("<BxxxI", 0xFF, len(text))

    def set_request(self, packet):
        want(packet[1] == 1, RANGE)
        self.requested = True
        return DONE

    def set_mta(self, packet):
        want(packet[3] == 0, RANGE)
        self.mta = struct.unpack_from("<I", packet, 4)[0]
        return DONE

    def upload(self, packet):
        count, room = packet[1], self.layout.max_cto - 1
        want(count, RANGE)
        if isinstance(self.mta, bytes):
            want(count <= len(self.mta), DENIED)
            data, self.mta = self.mta[:count], self.mta[count:]
        else:
            want(self.mta is not None, DENIED)
            data = self.read(self.mta, count)
            self.mta += count
        return [DONE + data[at : at + room] for at in range(0, count, room)]

    def short_upload(self, packet):
        count, extension, address = struct.unpack_from("<BxBI", packet, 1)
        want(1 <= count < self.layout.max_cto and extension == 0, RANGE)
        data = self.read(address, count)
        self.mta = address + count
        return DONE + data

    def build_checksum(self, packet):
        kind, unit, width = self.layout.sum
        size = struct.unpack_from("<I", packet, 4)[0]
        want(size and size % unit == 0, RANGE)
        want(isinstance(self.mta, int), DENIED)
        data = self.read(self.mta, size)
        self.mta += size
        total = sum(int.from_bytes(data[at : at + unit], "little") for at in range(0, size, unit))
        return struct.pack("<BBHI", 0xFF, kind, 0, total % (1 << 8 * width))

    # Calibration commands

    def download(self, packet):
        count, data, room = packet[1], packet[2:], self.layout.max_cto - 2
        want(1 <= count <= MAX_BS * room, RANGE)
        want(len(data) >= min(count, room), TOO_SHORT)
        self.check_write(self.mta, count)
        if count > room:
            self.block = (data[:room], count - room)
            return []
        self.write(self.mta, data[:count])
        return DONE

    def download_next(self, packet, block):
        room = self.layout.max_cto - 2
        want(block, SEQUENCE + b"\0")
        before, left = block
        want(packet[1] == left, SEQUENCE + bytes([left]))
        want(len(packet) - 2 >= min(left, room), TOO_SHORT)
        data = before + packet[2 : 2 + min(left, room)]
        if left > room:
            self.block = (data, left - room)
            return []
        self.write(self.mta, data)
        return DONE

    def download_max(self, packet):
        room = self.layout.max_cto - 1
        want(len(packet) - 1 >= room, TOO_SHORT)
        self.check_write(self.mta, room)
        self.write(self.mta, packet[1 : 1 + room])
        return DONE

    def short_download(self, packet):
        count, extension, address = struct.unpack_from("<BxBI", packet, 1)
        want(1 <= count <= self.layout.max_cto - 8 and extension == 0, RANGE)
        want(len(packet) - 8 >= count, TOO_SHORT)
        self.write(address, packet[8 : 8 + count])
        return DONE

    def modify_bits(self, packet):
        shift, kept, flipped = struct.unpack_from("<BHH", packet, 1)
        want(shift <= 31, RANGE)
        self.check_write(self.mta, 4)
        address, word = self.mta, int.from_bytes(self.read(self.mta, 4), "little")
        word = (word & ~((~kept & 0xFFFF) << shift) ^ (flipped << shift)) & 0xFFFFFFFF
        self.write(address, word.to_bytes(4, "little"))
        self.mta = address
        return DONE

    # Pages

    def segment(self, number):
        want(number < len(self.segments), NO_SEGMENT)
        return self.segments[number]

    def set_cal_page(self, packet):
        mode, number, page = packet[1:4]
        want(mode & 3 and not mode & 0x7C, NO_MODE)
        concerned = self.segments if mode & 0x80 else [self.segment(number)]
        want(all(page < len(it.pages) for it in concerned), NO_PAGE)
        for it in concerned:
            it.page.update({whose: page for whose in (ECU, XCP) if mode & whose})
        return DONE

    def get_cal_page(self, packet):
        want(packet[1] in (ECU, XCP), NO_MODE)
        return bytes([0xFF, 0, 0, self.segment(packet[2]).page[packet[1]]])

    def get_pag_processor_info(self, _):
        return bytes([0xFF, len(self.segments), 1])

    def get_segment_info(self, packet):
        mode, number, info = packet[1:4]
        want(mode <= 1, RANGE)
        it = self.segment(number)
        if mode == 1:
            return bytes([0xFF, len(it.pages), 0, 0, 0, 0])
        want(info <= 1, RANGE)
        return struct.pack("<BxxxI", 0xFF, it.size if info else it.address)

    def get_page_info(self, packet):
        want(packet[3] < len(self.segment(packet[2]).pages), NO_PAGE)
        return bytes([0xFF, 0x3F if packet[3] else 0x0F, packet[2]])

    def set_segment_mode(self, packet):
        want(not packet[1] & 0xFE, NO_MODE)
        self.segment(packet[2]).frozen = bool(packet[1])
        return DONE

    def get_segment_mode(self, packet):
        return bytes([0xFF, 0, self.segment(packet[2]).frozen])

    def copy_cal_page(self, packet):
        pages = []
        for number, page in (packet[1:3], packet[3:5]):
            it = self.segment(number)
            want(page < len(it.pages), NO_PAGE)
            pages.append(it.pages[page])
        want(packet[4], PROTECTED)
        want(len(pages[0]) == len(pages[1]), RANGE)
        pages[1][:] = pages[0]
        return DONE

    # Acquisition

    def list(self, packet):
        number = struct.unpack_from("<H", packet, 2)[0]
        want(number < len(self.lists), RANGE)
        return self.lists[number]

    def odt(self, packet):
        odts = self.list(packet).odts
        want(packet[4] < len(odts), RANGE)
        return odts[packet[4]]

    def check_allocating(self, packet):
        want(self.last in BEFORE[packet[0]], SEQUENCE)

    def free_daq(self, packet):
        self.lists, self.pointer, self.last = [], None, packet[0]
        return DONE

    def alloc_daq(self, packet):
        count = struct.unpack_from("<H", packet, 2)[0]
        self.check_allocating(packet)
        want(not any(it.runs for it in self.lists), ACTIVE)
        want(count, RANGE)
        want(len(self.lists) + count <= LISTS, OVERFLOW)
        self.lists += [List() for _ in range(count)]
        self.last = packet[0]
        return DONE

    def alloc_odt(self, packet):
        self.check_allocating(packet)
        it, count = self.list(packet), packet[4]
        want(not any(it.runs for it in self.lists), ACTIVE)
        want(count, RANGE)
        want(sum(len(it.odts) for it in self.lists) + count <= ODTS, OVERFLOW)
        it.odts += [[] for _ in range(count)]
        self.last = packet[0]
        return DONE

    def alloc_odt_entry(self, packet):
        self.check_allocating(packet)
        odt, count = self.odt(packet), packet[5]
        want(not self.list(packet).runs, ACTIVE)
        want(count, RANGE)
        want(sum(len(odt) for it in self.lists for odt in it.odts) + count <= ENTRIES, OVERFLOW)
        odt += [None] * count
        self.last = packet[0]
        return DONE

    def clear_daq_list(self, packet):
        it = self.list(packet)
        it.runs = it.selected = False
        for odt in it.odts:
            odt[:] = [None] * len(odt)
        return DONE

    def set_daq_ptr(self, packet):
        odt = self.odt(packet)
        want(packet[5] < len(odt), RANGE)
        self.pointer = (self.list(packet), odt, packet[5])
        return DONE

    def move_pointer(self):
        it, odt, entry = self.pointer
        self.pointer = (it, odt, entry + 1) if entry + 1 < len(odt) else None

    def write_daq(self, packet):
        offset, size, extension, address = struct.unpack_from("<BBBI", packet, 1)
        want(self.pointer, CONFIGURATION)
        it, odt, entry = self.pointer
        want(not it.runs, ACTIVE)
        want(offset == 0xFF and 1 <= size < self.layout.max_dto and extension == 0, RANGE)
        want(self.area(address, size)[0] is not None, DENIED)
        odt[entry] = (address, size)
        self.move_pointer()
        return DONE

    def read_daq(self, _):
        want(self.pointer, CONFIGURATION)
        _, odt, entry = self.pointer
        address, size = odt[entry] or (0, 0)
        self.move_pointer()
        return struct.pack("<BBBBI", 0xFF, 0xFF, size, 0, address)

    def set_daq_list_mode(self, packet):
        mode, channel, prescaler, priority = packet[1], *struct.unpack_from("<HBB", packet, 4)
        want(mode == 0, NO_MODE)
        it = self.list(packet)
        want(not it.runs, ACTIVE)
        want(channel < len(self.events) and prescaler, RANGE)
        it.channel, it.prescaler, it.priority = channel, prescaler, priority
        return DONE

    def get_daq_list_mode(self, packet):
        it = self.list(packet)
        return struct.pack("<BBHHBB", 0xFF, it.selected | 0x40 * it.runs, 0, it.channel, it.prescaler, it.priority)

    def start_stop_daq_list(self, packet):
        mode = packet[1]
        want(mode <= 2, NO_MODE)
        it = self.list(packet)
        want(mode == 0 or it.fits(self.layout.max_dto - 1), CONFIGURATION)
        if mode == 2:
            it.selected = True
        else:
            it.runs = bool(mode)
        return bytes([0xFF, sum(len(other.odts) for other in self.lists[: self.lists.index(it)])])

    def start_stop_synch(self, packet):
        mode = packet[1]
        want(mode <= 2, NO_MODE)
        selected = [it for it in self.lists if it.selected]
        want(mode != 1 or all(it.fits(self.layout.max_dto - 1) for it in selected), CONFIGURATION)
        for it in selected if mode else self.lists:
            it.runs = mode == 1
        for it in selected:
            it.selected = False
        return DONE

    def get_daq_processor_info(self, _):
        return struct.pack("<BBHHBB", 0xFF, 3, len(self.lists), len(self.events), 0, 0)

    def get_daq_resolution_info(self, _):
        return self.layout.resolution

    def get_daq_event_info(self, packet):
        number = struct.unpack_from("<H", packet, 2)[0]
        want(number < len(self.events), RANGE)
        event = self.events[number]
        self.mta = event["name"].encode()
        return bytes([0xFF, 4, 0x10, len(self.mta), event.get("cycle", 0), event.get("unit", 0), event.get("priority", 0)])


# Of each code the least bytes of its packet, and what executes it.
COMMANDS = {
    0xFF: (2, Slave.connect), 0xFE: (1, Slave.disconnect), 0xFD: (1, Slave.get_status), 0xFC: (1, Slave.synch),
    0xFB: (1, Slave.get_comm_mode_info), 0xFA: (2, Slave.get_id), 0xF9: (4, Slave.set_request), 0xF6: (8, Slave.set_mta),
    0xF5: (2, Slave.upload), 0xF4: (8, Slave.short_upload), 0xF3: (8, Slave.build_checksum), 0xF0: (2, Slave.download),
    0xEF: (2, Slave.download_next), 0xEE: (1, Slave.download_max), 0xED: (8, Slave.short_download), 0xEC: (6, Slave.modify_bits),
    0xEB: (4, Slave.set_cal_page), 0xEA: (3, Slave.get_cal_page), 0xE9: (1, Slave.get_pag_processor_info),
    0xE8: (5, Slave.get_segment_info), 0xE7: (4, Slave.get_page_info), 0xE6: (3, Slave.set_segment_mode),
    0xE5: (3, Slave.get_segment_mode), 0xE4: (5, Slave.copy_cal_page), 0xE3: (4, Slave.clear_daq_list), 0xE2: (6, Slave.set_daq_ptr),
    0xE1: (8, Slave.write_daq), 0xE0: (8, Slave.set_daq_list_mode), 0xDF: (4, Slave.get_daq_list_mode),
    0xDE: (4, Slave.start_stop_daq_list), 0xDD: (2, Slave.start_stop_synch), 0xDB: (1, Slave.read_daq),
    0xDA: (1, Slave.get_daq_processor_info), 0xD9: (1, Slave.get_daq_resolution_info), 0xD7: (4, Slave.get_daq_event_info),
    0xD6: (1, Slave.free_daq), 0xD5: (4, Slave.alloc_daq), 0xD4: (5, Slave.alloc_odt), 0xD3: (6, Slave.alloc_odt_entry),
}  # fmt: skip
