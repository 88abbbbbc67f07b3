"""Packets of a tool that tries everything: most of them good, some of them none that a slave takes."""
import struct

from model import COMMANDS


class Packets:
    """Packets by a random generator, without an end. They come in short rows that belong together, such as SET_MTA and DOWNLOAD."""

    def __init__(self, layout, random):
        self.layout, self.random = layout, random
        self.row = iter(())
        self.rows = [
            (8, self.short), (6, self.reading), (8, self.writing), (4, self.bits), (4, self.summing), (8, self.paging), (5, self.texts),
            (2, self.listing), (9, self.measuring), (6, self.asking), (3, self.nonsense),
        ]  # fmt: skip

    def next(self):
        while (packet := next(self.row, None)) is None:
            self.row = self.random.choices(self.rows, [it[0] for it in self.rows])[0][1]()
        return packet

    def some(self, *choices):
        return self.random.choice(choices)

    def place(self, most):
        """An address and a number of bytes: mostly a range in one area, sometimes one that goes out of it."""
        random, layout = self.random, self.layout
        areas = [(it.address, it.size) for it in layout.segments] * 3 + [(layout.signals, layout.signal_bytes)]
        address, size = random.choice(areas)
        at = random.randrange(size)
        count = random.randint(1, max(1, min(most, size - at)))
        if random.random() < 0.06:
            at, count = self.some(at - size, at, at + size), random.randint(0, 255)
        return (address + at) & 0xFFFFFFFF, count

    def set_mta(self, address):
        return struct.pack("<BxxBI", 0xF6, self.random.random() < 0.02, address)

    # Rows

    def short(self):
        address, count = self.place(self.layout.max_cto - 1)
        yield struct.pack("<BBBBI", 0xF4, count, 0, self.random.random() < 0.02, address)
        address, count = self.place(self.layout.max_cto - 8)
        data = self.random.randbytes(min(count, self.layout.max_cto - 8))
        yield struct.pack("<BBBBI", 0xED, count, 0, self.random.random() < 0.02, address) + data

    def reading(self):
        address, count = self.place(255)
        yield self.set_mta(address)
        for _ in range(self.some(1, 1, 2)):
            yield bytes([0xF5, count])

    def writing(self):
        room = self.layout.max_cto - 2
        if self.random.random() < 0.2:
            yield self.set_mta(max(self.layout.segments, key=lambda it: it.size).address)
            yield b"\xee" + self.random.randbytes(self.some(room + 1, room + 1, room))
            return
        address, count = self.place(255)
        data = self.random.randbytes(count)
        yield self.set_mta(address)
        for at in range(0, count, room):
            yield bytes([0xEF if at else 0xF0, count - at]) + data[at : at + room]

    def bits(self):
        yield self.set_mta(self.place(4)[0])
        yield struct.pack("<BBHH", 0xEC, self.random.randrange(34), self.random.getrandbits(16), self.random.getrandbits(16))

    def summing(self):
        address, count = self.place(255)
        yield self.set_mta(address)
        yield struct.pack("<BxxxI", 0xF3, count - count % self.layout.sum[1] if self.random.random() < 0.9 else count)

    def segment(self):
        return self.random.randrange(len(self.layout.segments) + (self.random.random() < 0.05))

    def page(self):
        return self.random.choice((0, 1, 1, 1, 2, 3))

    def paging(self):
        number, some = self.segment(), self.some
        yield some(
            bytes([0xEB, some(1, 2, 2, 3, 0x82, 0x83, 4, 0), number, self.page()]), bytes([0xEA, some(1, 2, 3), number]), b"\xe9",
            bytes([0xE8, some(0, 0, 1, 2), number, some(0, 1, 2), 0]), bytes([0xE7, 0, number, self.page()]),
            bytes([0xE6, some(0, 1, 1, 2), number]), bytes([0xE5, 0, number]),
            bytes([0xE4, number, self.page(), some(number, number, self.segment()), self.page()]),
        )  # fmt: skip
        if self.random.random() < 0.5:
            yield bytes([0xEB, 0x82, 0, 1])

    def texts(self):
        if self.random.random() < 0.5:
            yield bytes([0xFA, self.some(0, 0, 0, 1, 2, 4, 5)])
        else:
            yield struct.pack("<BxH", 0xD7, self.random.randrange(self.layout.channels + 1))
        for _ in range(self.some(1, 2, 3)):
            yield bytes([0xF5, self.random.randint(1, 9)])

    def number(self):
        return self.random.choice((0, 0, 0, 0, 0, 1, 1, 2, 256))

    def listing(self):
        """Lists are allocated anew, and their entries written."""
        random = self.random
        lists = [[random.randint(1, 4) for _ in range(random.randint(1, 3))] for _ in range(random.randint(1, 3))]
        yield b"\xd6"
        yield struct.pack("<BxH", 0xD5, self.some(len(lists), len(lists), len(lists), 0, 17))
        for number, odts in enumerate(lists):
            yield struct.pack("<BxHB", 0xD4, number, self.some(*[len(odts)] * 9, 0, 65))
        for number, odts in enumerate(lists):
            for odt, entries in enumerate(odts):
                yield struct.pack("<BxHBB", 0xD3, number, odt, self.some(*[entries] * 9, 0, 255))
        for number, odts in enumerate(lists):
            for odt, entries in enumerate(odts):
                yield struct.pack("<BxHBB", 0xE2, number, odt, 0)
                yield from (self.write_daq() for _ in range(entries))

    def write_daq(self):
        address, size = self.place(self.layout.max_dto // 2)
        return struct.pack("<BBBBI", 0xE1, self.some(*[0xFF] * 20, 0), size, self.random.random() < 0.02, address)

    def measuring(self):
        some, number = self.some, self.number()
        for _ in range(some(1, 2, 4)):
            channel = self.random.randrange(self.layout.channels + 1)
            yield some(
                struct.pack("<BBHHBB", 0xE0, some(0, 0, 0, 0x10), number, channel, some(1, 1, 2, 255, 0), self.random.randrange(256)),
                struct.pack("<BBH", 0xDE, some(0, 1, 1, 2, 2, 3), number), bytes([0xDD, some(0, 0, 1, 2, 3)]),
                struct.pack("<BxH", 0xDF, number), struct.pack("<BxH", 0xE3, number), struct.pack("<BxHBB", 0xE2, number, 0, some(0, 1)),
                b"\xdb", self.write_daq(), struct.pack("<BxHB", 0xD4, number, 1), struct.pack("<BxHBB", 0xD3, number, 0, 1),
            )  # fmt: skip

    def asking(self):
        yield self.some(b"\xfd", b"\xfd", b"\xfc", b"\xfb", b"\xda", b"\xd9", b"\xdc", b"\xf9\x01\0\0", b"\xf9\x02\0\0", b"\xff\0", b"\xff\1", b"\xff")

    def nonsense(self):
        """A code with any bytes behind it, or none, and perhaps of no command. No DISCONNECT: that is for who sends these to say."""
        code = self.some(*COMMANDS, self.random.randrange(256))
        if code != 0xFE:
            yield bytes([code]) + self.random.randbytes(self.random.choice((0, 1, 2, 3, 7, self.random.randrange(self.layout.max_cto))))
