"""A tool that works alone on pages and lists, and a model of what it must be answered."""
import hashlib
import os
import struct
import threading
import time
import tomllib
from collections import Counter, deque
from random import Random

from server import TASKS
from tool import Tool
from xcp_client import ECU, XCP, Fault

STEP_PAUSE = 0.002  # seconds
REJOIN, SET_UP = 20, 5  # seconds from one connection to the next, from one setting of the lists to the next
BACK = 4  # settings whose packets may wait in the slave still, where a visitor that reads nothing had the session
ALL = 4  # of so many settings of a large layout's lists one is of all lists, ODTs and entries that there may be
DONE, NOT_IN_ONE_AREA, PROTECTED, FULL = b"\xff", b"\xfe\x24", b"\xfe\x23", b"\xfe\x30"
# Of each checksum its type, and how many bytes are added into how many.
SUMS = {"ADD_11": (1, 1, 1), "ADD_12": (2, 1, 2), "ADD_14": (3, 1, 4), "ADD_22": (4, 2, 2), "ADD_24": (5, 2, 4), "ADD_44": (6, 4, 4)}
FORMS = {1: "B", 2: "H", 4: "I"}  # of what is added


def within(counts, part):
    """The milliseconds within which this part of so many things was over."""
    left = part * sum(counts.values())
    for milliseconds in sorted(counts):
        left -= counts[milliseconds]
        if left <= 0:
            return milliseconds + 1
    return 0


def content_of(table, folder):
    """The bytes of a segment: its table has them, or names a file."""
    if "data" in table:
        return bytes.fromhex("".join(table["data"].split()))
    with open(f"{folder}/{table['data_file']}", "rb") as file:
        return file.read()


class Segment:
    """A segment as it should be: its pages, and which of them the tool and the controller have."""

    def __init__(self, table, folder):
        content = content_of(table, folder)
        self.address, self.size = table["address"], len(content)
        self.pages = [bytearray(content) for _ in range(table.get("pages", 2))]
        self.page = {ECU: 0, XCP: 0}
        self.frozen = False

    def content(self, whose):
        return self.pages[self.page[whose]]


class Layout:
    """What the layout file says. It has to be of an Intel slave."""

    def __init__(self, path):
        self.path = path
        with open(path, "rb") as file:
            table = tomllib.load(file)
        self.max_cto, self.max_dto, self.id = table["max_cto"], table["max_dto"], table["id"].encode()
        self.segments = [Segment(it, os.path.dirname(path)) for it in table["segment"]]
        self.decided = b"".join(struct.pack("<II", it.address, it.size) + it.pages[0] for it in self.segments)  # what stored pages belong to
        self.is_large = table.get("class") == "large"
        self.lists, self.odts, self.entries = (64, 252, 4096) if self.is_large else (16, 64, 256)  # as many as there may be
        self.events = {b"\xfd\x03", b"\xfd\x06"} if "overload" in table else {b"\xfd\x03"}  # the event packets that there may be
        self.signals, self.signal_bytes = table["signals"]["address"], table["signals"]["length"]
        self.channels = len(table["event"])
        self.sum = SUMS[table.get("checksum", "ADD_14")]
        self.most_summed = 65_536  # bytes by one BUILD_CHECKSUM of a large layout; no segment of another one has as many
        self.connected = struct.pack("<BBBBHBB", 0xFF, 5, 0xC0, self.max_cto, self.max_dto, 1, 1)
        clock = table.get("clock")
        self.stamp = clock.get("size", 4) if clock is not None else 0  # bytes of a time stamp, if there are any
        self.tick = clock.get("ticks", 1) * 10 ** (clock.get("unit", 3) - 9) if self.stamp else 0.0  # seconds
        mode, ticks = (self.stamp + 16 * clock.get("unit", 3), clock.get("ticks", 1)) if self.stamp else (0, 0)
        self.resolution = struct.pack("<BBBBBBH", 0xFF, 1, self.max_dto - 1, 1, 0, mode, ticks)

    def since(self, later, earlier):
        """How many ticks of a time stamp's bytes there are from one to another, which may be behind it: then fewer than 0."""
        whole = 1 << 8 * self.stamp
        ticks = (later - earlier) % whole
        return ticks if ticks < whole // 2 else ticks - whole


class Calibrator:
    """A tool with a model of the slave: what it alone changes, and what it must be answered."""

    def __init__(self, soak):
        self.soak, self.layout, self.segments = soak, soak.layout, soak.layout.segments
        self.random, self.trips, self.samples, self.joins, self.stores = Random(1), 0, 0, 0, 0
        self.sampled = self.segments[-1]  # its first two bytes, on the controller's page, are in each data packet
        self.contents = deque(maxlen=500)  # what these were
        self.running, self.tool = False, None
        self.delays = Counter()  # how many round trips took so many milliseconds
        self.early = 0  # stores that were told before the file of stored pages had them
        self.first_pages = self.stored_pages()  # no file is made before a store changes them
        self.settings, self.full_settings = 0, 0  # of lists; those of all lists, ODTs and entries that there may be
        self.pids = set()  # ODTs whose packets came
        self.wanted, self.taken = threading.Event(), threading.Event()  # that it connects once more, and that it did
        self.stamps, self.clocks, self.last_stamp, self.last_clock = 0, 0, None, None
        self.since = time.monotonic()  # when the oldest lists were set up whose packets may come still
        # How often each step is taken, and whether it uses the MTA.
        self.steps = [
            (20, False, self.ask_status), (30, False, self.short_upload), (30, False, self.short_download), (10, False, self.switch),
            (10, False, self.ask_page), (3, False, self.copy), (3, False, self.be_refused), (1, False, self.store),
            (30, True, self.upload), (30, True, self.download), (10, True, self.add_up), (3, True, self.identify),
            (5, True, self.modify_bits),
        ]  # fmt: skip
        if self.layout.stamp:
            self.steps.append((10, False, self.ask_clock))
        if self.layout.is_large:
            self.steps += [(5, True, self.download_on), (3, True, self.add_too_much_up), (1, True, self.take_back)]

    def join(self):
        self.tool = Tool(self)
        self.last_stamp = None
        self.joins += 1
        self.tool.expect(b"\xff\x00", self.layout.connected)
        self.set_lists_up()

    def run(self):
        """Works until the time is over. It ends connected."""
        weights = [it[0] for it in self.steps]
        set_up = joined = time.monotonic()
        while not self.soak.over.is_set():
            if self.wanted.is_set():
                self.connect_again()
            _, needs_mta, step = self.random.choices(self.steps, weights)[0]
            if not needs_mta:
                step()
            elif self.soak.mta.acquire(blocking=False):
                try:
                    step()
                finally:
                    self.soak.mta.release()
            now = time.monotonic()
            if now > joined + REJOIN and self.soak.session.acquire(blocking=False):
                try:
                    self.tool.leave()
                    self.soak.expect_end(self.tool, {"none"})
                    self.join()
                finally:
                    self.soak.session.release()
                joined = set_up = now
            elif now > set_up + SET_UP:
                self.set_lists_up()
                set_up = now
            time.sleep(STEP_PAUSE)

    def take_session(self):
        """Has it connect once more, and waits until it has. Others call this."""
        self.taken.clear()
        self.wanted.set()
        while not self.taken.wait(0.5) and not self.soak.over.is_set():
            pass

    def connect_again(self):
        """A CONNECT takes the session, and clears the MTA."""
        with self.soak.mta:
            self.tool.expect(b"\xff\x00", self.layout.connected)
        self.wanted.clear()
        self.taken.set()

    def note_trip(self, seconds):
        self.trips += 1
        self.delays[int(1000 * seconds)] += 1

    def delay(self, part):
        return within(self.delays, part)

    def stored_pages(self):
        """The bytes of the file that has the reference pages."""
        content = b"XCPF\x01\x00" + hashlib.sha256(self.layout.decided).digest()
        for segment in self.segments:
            content += struct.pack("<I", segment.size) + segment.pages[0]
        return content + hashlib.sha256(content).digest()

    def some_range(self, most, least=1):
        """A segment, where in it a range begins, and its bytes: at most so many, and at least so many in a segment that has them. Now and then
        the range ends with the segment."""
        segment = self.random.choice([it for it in self.segments if it.size >= least] or self.segments)
        count = self.random.randint(min(least, segment.size), min(most, segment.size))
        end = segment.size - count
        return segment, end if self.random.random() < 0.1 else self.random.randint(0, end), count

    def note(self):
        """Notes what data packets may have from now on. It is called before the command that brings it."""
        now = bytes(self.sampled.content(ECU)[:2])
        if not self.contents or self.contents[-1] != now:
            self.contents.append(now)

    def check_data(self, packet, _):
        stamp = self.soak.check_shape(packet, self.since)
        self.pids.add(packet[0])
        if packet[-2:] not in self.contents:
            raise Fault(f"a data packet has {packet[-2:].hex(' ')} of the controller's page, which had no such bytes lately")
        if stamp is not None:
            self.look_at_stamp(stamp)

    def look_at_stamp(self, stamp):
        """Time stamps of one connection never go back."""
        if self.last_stamp is not None and self.layout.since(stamp, self.last_stamp) < 0:
            raise Fault(f"a time stamp of {stamp} comes behind one of {self.last_stamp}")
        self.last_stamp = stamp
        self.stamps += 1

    # Steps that leave the MTA alone, or give an address of their own

    def ask_clock(self):
        """GET_DAQ_CLOCK: not before a time stamp that came before, and as far behind the last answer as this machine's clock says."""
        stamp, sent = self.last_stamp, time.monotonic()
        answer = self.tool.ask_for(b"\xdc")
        came = time.monotonic()
        self.trips += 1
        if not answer or answer[:4] != b"\xff\0\0\0" or len(answer) != 8:
            raise Fault(f"GET_DAQ_CLOCK is answered {answer}")
        clock = int.from_bytes(answer[4:], "little")
        if stamp is not None and self.layout.since(clock % (1 << 8 * self.layout.stamp), stamp) < 0:
            raise Fault(f"the clock says {clock}, where a time stamp said {stamp} before")
        if self.last_clock is not None:
            was, was_sent, was_came = self.last_clock
            seconds = (clock - was) % (1 << 32) * self.layout.tick
            if not sent - was_came - 0.001 <= seconds <= came - was_sent + 0.001:
                raise Fault(f"the clock went on by {seconds:.6f} s in {sent - was_came:.6f} to {came - was_sent:.6f} s")
        self.last_clock = (clock, sent, came)
        self.clocks += 1

    def ask_status(self):
        self.tool.expect(b"\xfd", bytes([0xFF, 0x40 if self.running else 0, 0, 0, 0, 0]))

    def short_upload(self):
        segment, at, count = self.some_range(self.layout.max_cto - 1)
        wanted = DONE + segment.content(XCP)[at : at + count]
        if self.random.random() < 0.05:
            count = max(2, count)  # a part of the segment, and more: behind it another one may begin
            at, wanted = segment.size - count + 1, NOT_IN_ONE_AREA
        self.tool.expect(struct.pack("<BBHI", 0xF4, count, 0, segment.address + at), wanted)

    def short_download(self):
        segment, at, count = self.some_range(self.layout.max_cto - 8)
        content = self.random.randbytes(count)
        self.tool.expect(struct.pack("<BBHI", 0xED, count, 0, segment.address + at) + content, self.write(segment, at, content))

    def write(self, segment, at, content):
        """What a write does, and what it is answered."""
        if segment.page[XCP] == 0:
            return PROTECTED
        segment.content(XCP)[at : at + len(content)] = content
        self.note()
        return DONE

    def switch(self):
        number, mode, page = self.random.randrange(len(self.segments)), self.random.choice((1, 2, 3, 2, 0x83)), self.random.randrange(4)
        concerned = self.segments if mode & 0x80 else [self.segments[number]]
        wanted = DONE if all(page < len(it.pages) for it in concerned) else b"\xfe\x26"
        for segment in concerned if wanted == DONE else []:
            segment.page.update({whose: page for whose in (ECU, XCP) if mode & whose})
        self.note()
        self.tool.expect(bytes([0xEB, mode, number, page]), wanted)

    def ask_page(self):
        number, whose = self.random.randrange(len(self.segments)), self.random.choice((ECU, XCP))
        self.tool.expect(bytes([0xEA, whose, number]), bytes([0xFF, 0, 0, self.segments[number].page[whose]]))

    def copy(self):
        number = self.random.randrange(len(self.segments))
        pages = self.segments[number].pages
        source, target = self.random.randrange(len(pages)), self.random.randrange(len(pages))
        if target:
            pages[target][:] = pages[source]
        self.note()
        self.tool.expect(bytes([0xE4, number, source, number, target]), DONE if target else PROTECTED)

    def be_refused(self):
        packet, answer = self.random.choice(
            [(b"\xf8\x00", b"\xfe\x20"), (b"\xf6\x00", b"\xfe\x21"), (b"\xf5\x00", b"\xfe\x22"), (b"\xea\x01\x09", b"\xfe\x28")]
        )
        self.tool.expect(packet, answer)

    def store(self):
        number = self.random.randrange(len(self.segments))
        segment = self.segments[number]
        segment.frozen = not segment.frozen
        self.tool.expect(bytes([0xE6, segment.frozen, number]), DONE)
        for it in self.segments:
            if it.frozen:
                it.pages[0][:] = it.content(XCP)
        self.note()
        self.stores += 1
        self.tool.expect(b"\xf9\x01\x00\x00", DONE)
        until = time.monotonic() + 10
        while (self.tool.ask_for(b"\xfd") or b"\0\1")[1] & 1:
            if time.monotonic() > until:
                raise Fault("no task finishes a store")
            time.sleep(0.001)
        found = self.soak.stored()
        self.early += (self.first_pages if found == b"" else found) not in (None, self.stored_pages())
        self.tool.expect(bytes([0xE5, 0, number]), bytes([0xFF, 0, segment.frozen]))

    # Steps that use the MTA

    def set_mta(self, segment, at):
        self.tool.expect(struct.pack("<BxxBI", 0xF6, 0, segment.address + at), DONE)

    def upload(self):
        segment, at, count = self.some_range(255)
        self.set_mta(segment, at)
        room, content = self.layout.max_cto - 1, segment.content(XCP)[at : at + count]
        self.tool.expect(bytes([0xF5, count]), *(DONE + content[it : it + room] for it in range(0, count, room)))

    def download(self):
        room = self.layout.max_cto - 2
        most = min(255, 8 * room)
        segment, at, count = self.some_range(most, self.random.choice((1, room + 1)))
        self.set_mta(segment, at)
        self.write_block(segment, at, self.random.randbytes(count))

    def write_block(self, segment, at, content):
        """A DOWNLOAD at the MTA, which stands there, and the DOWNLOAD_NEXTs that it needs. Gives whether it was accepted."""
        room, count = self.layout.max_cto - 2, len(content)
        wanted = self.write(segment, at, content)
        pieces = [bytes([0xEF if it else 0xF0, count - it]) + content[it : it + room] for it in range(0, count, room)]
        if wanted == DONE:
            for piece in pieces[:-1]:
                self.tool.send(piece)
        self.tool.expect(pieces[-1] if wanted == DONE else pieces[0], wanted)
        return wanted == DONE

    def download_on(self):
        """Blocks of the largest segment, each where the one before left the MTA, and the sum of them all."""
        segment, most = max(self.segments, key=lambda it: it.size), min(255, 8 * (self.layout.max_cto - 2))
        count = 4 * self.random.randint(most, 16 * most)
        at = self.random.randint(0, segment.size - count)
        self.set_mta(segment, at)
        for begin in range(0, count, most):
            if not self.write_block(segment, at + begin, self.random.randbytes(min(most, count - begin))):
                return
        self.check_sum(segment, at, count)

    def add_up(self):
        unit = self.layout.sum[1]
        segment = self.random.choice(self.segments)
        most = min(segment.size, self.layout.most_summed) // unit
        count = unit * self.random.choice((most, self.random.randint(1, most)))
        self.check_sum(segment, self.random.randint(0, segment.size - count), count)

    def check_sum(self, segment, at, count):
        kind, unit, width = self.layout.sum
        numbers = struct.unpack_from(f"<{count // unit}{FORMS[unit]}", segment.content(XCP), at)
        self.set_mta(segment, at)
        self.tool.expect(struct.pack("<BxxxI", 0xF3, count), struct.pack("<BBHI", 0xFF, kind, 0, sum(numbers) % (1 << 8 * width)))

    def add_too_much_up(self):
        """More bytes than one BUILD_CHECKSUM sums up. It leaves the MTA where it was."""
        (segment, at, _), most = self.some_range(1), self.layout.most_summed
        count = self.random.choice((most + 1, most + segment.size, 0xFFFF_FFFF))
        self.set_mta(segment, at)
        self.tool.expect(struct.pack("<BxxxI", 0xF3, count), struct.pack("<BBHI", 0xFE, 0x22, 0, most))
        self.tool.expect(b"\xf5\x01", DONE + segment.content(XCP)[at : at + 1])

    def take_back(self):
        """Has the session again, which visitors take, so that the packets of all lists come here."""
        self.tool.expect(b"\xff\x00", self.layout.connected)

    def identify(self):
        self.tool.expect(b"\xfa\x00", struct.pack("<BxxxI", 0xFF, len(self.layout.id)))
        self.tool.expect(bytes([0xF5, len(self.layout.id)]), DONE + self.layout.id)

    def modify_bits(self):
        wide = [it for it in self.segments if it.size >= 4]
        segment = self.random.choice(wide)
        at, shift = self.random.randint(0, segment.size - 4), self.random.randrange(32)
        kept, flipped = self.random.getrandbits(16), self.random.getrandbits(16)
        self.set_mta(segment, at)
        word = int.from_bytes(segment.content(XCP)[at : at + 4], "little")
        word = (word & ~((~kept & 0xFFFF) << shift) ^ (flipped << shift)) & 0xFFFFFFFF
        self.tool.expect(struct.pack("<BBHH", 0xEC, shift, kept, flipped), self.write(segment, at, word.to_bytes(4, "little")))

    # DAQ lists

    def some_lists(self):
        """Lists of ODTs, and of each ODT the sizes of the entries that read signals: one to three lists of one or two ODTs with one such entry,
        or as many lists, ODTs and entries as there may be."""
        layout = self.layout
        self.settings += 1
        if not layout.is_large or self.settings % ALL != 2:
            return [[[self.random.randint(1, min(20, layout.signal_bytes))] for _ in range(self.random.randint(1, 2))]
                    for _ in range(self.random.randint(1, 3))]  # fmt: skip
        each, more = divmod(layout.entries, layout.odts)
        odts = [layout.odts // layout.lists + (number < layout.odts % layout.lists) for number in range(layout.lists)]
        return [[[1] * (each - 1 + (number < more and not odt)) for odt in range(count)] for number, count in enumerate(odts)]

    def set_lists_up(self):
        """Other lists than before, whose ODTs have some signals and two bytes of the controller's page each."""
        lists = self.some_lists()
        self.allocate(lists)
        if self.soak.settings:
            self.since = self.soak.settings[-min(BACK, len(self.soak.settings))][0]
        stamped = [self.random.random() < 0.5 and self.layout.stamp > 0 for _ in lists]
        shapes = [(sum(sizes), has and not odt) for has, odts in zip(stamped, lists) for odt, sizes in enumerate(odts)]
        self.soak.settings.append((time.monotonic(), shapes))
        self.note()
        pid = 0
        for number, odts in enumerate(lists):
            self.write_entries(number, odts)
            self.select(number, 0x10 * stamped[number], pid)
            pid += len(odts)
        self.tool.expect(b"\xdd\x01", DONE)
        self.running = True

    def allocate(self, lists):
        """Lists, ODTs and entries, where these are all that there may be one more of each."""
        expect, is_all = self.tool.expect, len(lists) == self.layout.lists
        expect(b"\xd6", DONE)
        expect(struct.pack("<BxH", 0xD5, len(lists)), DONE)
        if is_all:
            expect(struct.pack("<BxH", 0xD5, 1), FULL)
        for number, odts in enumerate(lists):
            expect(struct.pack("<BxHB", 0xD4, number, len(odts)), DONE)
        if is_all:
            expect(struct.pack("<BxHB", 0xD4, self.random.randrange(len(lists)), 1), FULL)
        for number, odts in enumerate(lists):
            for odt, sizes in enumerate(odts):
                expect(struct.pack("<BxHBB", 0xD3, number, odt, len(sizes) + 1), DONE)
        if is_all:
            expect(struct.pack("<BxHBB", 0xD3, self.random.randrange(len(lists)), 0, 1), FULL)
            self.full_settings += 1

    def write_entries(self, number, odts):
        """The entries of a list: the signals, and behind them the two bytes of the page."""
        for odt, sizes in enumerate(odts):
            self.tool.expect(struct.pack("<BxHBB", 0xE2, number, odt, 0), DONE)
            for size in sizes:
                self.tool.expect(struct.pack("<BBBBI", 0xE1, 0xFF, size, 0, self.layout.signals), DONE)
            self.tool.expect(struct.pack("<BBBBI", 0xE1, 0xFF, 2, 0, self.sampled.address), DONE)

    def select(self, number, mode, pid):
        """Gives a list a channel that a task raises, and selects it."""
        channel, prescaler = self.random.randrange(min(self.layout.channels, TASKS)), self.random.randint(50, 255)
        self.tool.expect(struct.pack("<BBHHBB", 0xE0, mode, number, channel, prescaler, 0), DONE)
        self.tool.expect(struct.pack("<BBH", 0xDE, 2, number), bytes([0xFF, pid]))
