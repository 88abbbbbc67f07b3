#!/usr/bin/env python3
"""Measures how many events of `xcpd serve --stay` are lost, since their packets find no room: six tasks with a cycle every millisecond, each of
whose events is sampled into eight packets, and a tool that reads. With BUSY other processes keep as many cores busy meanwhile.

usage: docs/measurements/lost.py [SECONDS [BUSY]]    from any folder; wants the built program ($XCPD, else out/xcpd). SECONDS is 10, BUSY 0.

It prints how many events came while the lists ran, by the data packets that the tool read and by what the program says of those that were
lost; how many were lost, and the share.
"""
import os
import re
import socket
import subprocess
import sys
import tempfile
import time

TASKS, ODTS, BYTES = 6, 8, 8
TOP = os.path.dirname(os.path.dirname(os.path.dirname(os.path.realpath(__file__))))
LAYOUT = """id = "LOST"
max_cto = 32
max_dto = 64
[[segment]]
address = 0x1000
data = "00010203"
[signals]
address = 0x8000
length = 64
""" + "".join(f'[[event]]\nname = "task {it}"\n' for it in range(TASKS))


def frame(packet):
    return len(packet).to_bytes(2, "little") + bytes(2) + packet


class Tool:
    """A tool: it asks, and reads answers, counting the data packets that come between them."""

    def __init__(self, port):
        self.stream, self.held, self.data = socket.create_connection(("127.0.0.1", port), 10), b"", 0
        self.stream.setsockopt(socket.IPPROTO_TCP, socket.TCP_NODELAY, 1)

    def packets(self):
        """Reads once, and gives the packets that are whole."""
        piece = self.stream.recv(1 << 16)
        if not piece:
            raise OSError("the slave is gone")
        self.held += piece
        at = 0
        while len(self.held) >= at + 4 and len(self.held) >= at + 4 + int.from_bytes(self.held[at : at + 2], "little"):
            end = at + 4 + int.from_bytes(self.held[at : at + 2], "little")
            yield self.held[at + 4 : end]
            at = end
        self.held = self.held[at:]

    def asks(self, *packet):
        self.stream.sendall(frame(bytes(packet)))
        answers = []
        while not answers:
            for it in self.packets():
                if it[0] >= 0xFD:
                    answers.append(it)
                else:
                    self.data += 1
        assert answers[0][0] == 0xFF, (packet, answers[0])

    def lists(self):
        """A list for each task, of eight ODTs of as many bytes of signals each."""
        self.asks(0xFF, 0)
        self.asks(0xD6)
        self.asks(0xD5, 0, TASKS, 0)
        for daq in range(TASKS):
            self.asks(0xD4, 0, daq, 0, ODTS)
        for daq in range(TASKS):
            for odt in range(ODTS):
                self.asks(0xD3, 0, daq, 0, odt, 1)
        for daq in range(TASKS):
            for odt in range(ODTS):
                self.asks(0xE2, 0, daq, 0, odt, 0)
                self.asks(0xE1, 0xFF, BYTES, 0, BYTES * odt, 0x80, 0, 0)
        for daq in range(TASKS):
            self.asks(0xE0, 0, daq, 0, daq, 0, 1, 0)
            self.asks(0xDE, 2, daq, 0)
        self.asks(0xDD, 1)


def main():
    if sys.argv[1:2] in (["-h"], ["--help"]):
        print(__doc__.strip())
        return 0
    seconds, busy = (float(it) for it in (sys.argv[1:] + ["10", "0"][len(sys.argv) - 1 :])[:2])
    program = os.environ.get("XCPD", f"{TOP}/out/xcpd")
    with socket.socket() as free:
        free.bind(("127.0.0.1", 0))
        port = free.getsockname()[1]
    others = [subprocess.Popen([sys.executable, "-c", "while True: pass"]) for _ in range(int(busy))]
    try:
        with tempfile.TemporaryDirectory() as room:
            with open(f"{room}/layout.toml", "w") as file:
                file.write(LAYOUT)
            words = [program, "serve", "--stay", "--config", file.name, "--port", str(port), "--tasks", str(TASKS), "--period", "1"]
            with subprocess.Popen(words, stdin=subprocess.PIPE, stdout=subprocess.PIPE, stderr=subprocess.DEVNULL, text=True) as server:
                assert server.stdout.readline().startswith("listening")
                tool = Tool(port)
                tool.lists()
                end = time.monotonic() + seconds
                while time.monotonic() < end:
                    tool.data += sum(it[0] < 0xFD for it in tool.packets())
                tool.asks(0xDD, 0)
                tool.stream.close()
                told = server.communicate("stop\n", timeout=30)[0]
    finally:
        for it in others:
            it.kill()
    lost = int((re.search(r"lost (\d+)", told) or [0, "0"])[1])
    events = tool.data // ODTS + lost
    print(f"{events} events, {lost} lost, {100 * lost / events:.2f} %")
    return 0


sys.exit(main())
