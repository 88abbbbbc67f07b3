#!/usr/bin/env python3
"""Measures how many bytes of data packets `xcpd serve --stay` sends in a second with a layout of the large class: a list of 252 ODTs, each an entry
of 250 bytes of a segment of 65,536 bytes, sampled by each task once in a period, and a tool that does nothing but read.

usage: docs/measurements/large.py [SECONDS [TASKS [PERIOD]]]   from any folder; wants the built program ($XCPD, else out/xcpd). SECONDS is 10,
TASKS 2, PERIOD 1, in milliseconds.

It prints the bytes and the packets of a second, the program's processor time in one, and its highest mark of memory. It says how many
samples there were, and how many were lost, since their packets found no room.
"""
import os
import re
import socket
import subprocess
import sys
import tempfile
import time

ODTS, BYTES, MTO = 252, 250, 255
TOP = os.path.dirname(os.path.dirname(os.path.dirname(os.path.realpath(__file__))))
LAYOUT = """class = "large"
id = "LARGE"
max_cto = 255
max_dto = 255
[[segment]]
address = 0x100000
data_file = "map.bin"
[signals]
address = 0x8000
length = 64
[[event]]
name = "task"
"""


def frame(packet):
    return len(packet).to_bytes(2, "little") + bytes(2) + packet


def word(n, size=2):
    return n.to_bytes(size, "little")


def asked(stream, packets):
    """Sends command packets, and reads their answers, each of which has to be positive."""
    stream.sendall(b"".join(map(frame, packets)))
    held, left = b"", len(packets)
    while left:
        held += stream.recv(1 << 16)
        while len(held) >= 4 and len(held) >= 4 + int.from_bytes(held[:2], "little"):
            packet, held = held[4 : 4 + int.from_bytes(held[:2], "little")], held[4 + int.from_bytes(held[:2], "little") :]
            assert packet[0] == 0xFF, packet
            left -= 1


def lists(stream):
    """One list of all ODTs, which runs at once."""
    none = b"\x00"
    asked(stream, [b"\xff\0", b"\xd6", b"\xd5\0" + word(1), b"\xd4\0" + word(0) + bytes([ODTS])])
    asked(stream, [b"\xd3\0" + word(0) + bytes([odt, 1]) for odt in range(ODTS)])
    for odt in range(ODTS):
        asked(stream, [b"\xe2\0" + word(0) + bytes([odt, 0]), b"\xe1\xff" + bytes([BYTES]) + none + word(0x100000 + BYTES * odt, 4)])
    asked(stream, [b"\xe0\0" + word(0) + word(0) + b"\x01\0", b"\xde\x01" + word(0)])


def status(pid):
    """The processor time of a process so far, in seconds, and its highest mark of memory, in MB."""
    with open(f"/proc/{pid}/stat") as file:
        fields = file.read().rsplit(")", 1)[1].split()
    with open(f"/proc/{pid}/status") as file:
        mark = int(re.search(r"VmHWM:\s+(\d+)", file.read())[1])
    return (int(fields[11]) + int(fields[12])) / os.sysconf("SC_CLK_TCK"), mark / 1000


def main():
    if sys.argv[1:2] in (["-h"], ["--help"]):
        print(__doc__.strip())
        return 0
    seconds, tasks, period = (int(it) for it in (sys.argv[1:] + ["10", "2", "1"][len(sys.argv) - 1 :])[:3])
    program = os.environ.get("XCPD", f"{TOP}/out/xcpd")
    with socket.socket() as free:
        free.bind(("127.0.0.1", 0))
        port = free.getsockname()[1]
    with tempfile.TemporaryDirectory() as room:
        with open(f"{room}/map.bin", "wb") as file:
            file.write(bytes(k % 251 for k in range(65_536)))
        with open(f"{room}/layout.toml", "w") as file:
            file.write(LAYOUT)
        words = [program, "serve", "--stay", "--config", file.name, "--port", str(port), "--tasks", str(tasks), "--period", str(period)]
        with subprocess.Popen(words, stdin=subprocess.PIPE, stdout=subprocess.PIPE, stderr=subprocess.DEVNULL, text=True) as server:
            assert server.stdout.readline().startswith("listening")
            stream = socket.create_connection(("127.0.0.1", port), 10)
            lists(stream)
            room_for, came = bytearray(1 << 20), 0
            begun, used = time.monotonic(), status(server.pid)[0]
            while time.monotonic() < begun + seconds:
                came += stream.recv_into(room_for)
            took = time.monotonic() - begun
            used, mark = status(server.pid)[0] - used, status(server.pid)[1]
            stream.close()
            told = server.communicate("stop\n", timeout=30)[0]
    lost = int((re.search(r"lost (\d+)", told) or [0, "0"])[1])
    packets = came / (4 + 1 + BYTES)
    print(f"{packets * BYTES / took / 1e6:.1f} MB of measured bytes a second, in {packets / took:,.0f} packets; {used / took:.2f} cores; {mark:.1f} MB")
    print(f"{packets / ODTS + lost:,.0f} samples, {lost} lost behind the tool's end or before")
    return 0


sys.exit(main())
