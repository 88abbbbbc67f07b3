"""The server that is tried: its process, what it prints, and what /proc says of it."""
import os
import re
import subprocess
import threading
import time
from collections import namedtuple
from queue import Empty, Queue

from xcp_client import Fault

SEATS, TASKS, PERIOD, PATIENCE = 3, 6, 1, 2
MOST_SEATS, LONG_QUEUE = 4, 64  # with ghosts or a scanner; with a scanner
IDLE = 30  # seconds after which a silent connection is closed, beside ghosts: a visitor may have to wait for almost as long
Usage = namedtuple("Usage", "seconds highest resident processor threads descriptors")


class Log:
    """What the server says on standard error: which tool has which seat, and how each connection ended."""

    LOST = re.compile(r"xcpd: lost \d+")
    SILENT = re.compile(r"xcpd: tool \d: (127\.0\.0\.1:\d+) sent nothing for \d+ s")
    TURNED_AWAY = re.compile(r"xcpd: (127\.0\.0\.1:\d+) was turned away: no seat is free")
    LINE = re.compile(r"xcpd: tool (\d): (127\.0\.0\.1:\d+) (?:(connected)|disconnected(?:: (.+))?)")

    def __init__(self, stream, seats):
        self.present, self.ended, self.strange, self.silent = {}, {}, [], set()
        self.seats = seats
        self.news = threading.Condition()
        threading.Thread(target=self.read, args=[stream], daemon=True).start()

    def read(self, stream):
        for line in stream:
            with self.news:
                self.take(line.rstrip("\n"))
                self.news.notify_all()

    def take(self, line):
        found = self.LINE.fullmatch(line)
        seat, address, came, end = found.groups() if found else (None,) * 4
        if came and seat not in self.present and int(seat) < self.seats:
            self.present[seat] = address
        elif found and not came and self.present.pop(seat, None) == address:
            self.ended[address] = end or "none"
        elif silent := self.SILENT.fullmatch(line):
            self.silent.add(silent[1])
        elif turned := self.TURNED_AWAY.fullmatch(line):
            self.ended[turned[1]] = "turned away"
        elif not self.LOST.fullmatch(line):
            self.strange.append(line)

    def has_ended(self, address):
        with self.news:
            return address in self.ended

    def end_of(self, address, seconds):
        """How this connection ended, once it has: the fault that the server names, or `none`."""
        with self.news:
            if not self.news.wait_for(lambda: address in self.ended, seconds):
                raise Fault(f"the server doesn't say within {seconds} seconds that {address} has gone")
            return self.ended.pop(address)


class Server:
    """The program, with its standard streams."""

    def __init__(self, program, layout, port, *more, seats=SEATS, queue=SEATS, environment=None):
        words = ["--stay", "--port", port, "--tools", seats, "--queue", queue, "--tasks", TASKS, "--period", PERIOD, "--patience", PATIENCE]
        words = [program, "--plain", "serve", "--config", layout, *map(str, [*words, *more])]
        pipe = subprocess.PIPE
        environment = {"MALLOC_ARENA_MAX": "1", **os.environ, **(environment or {})}  # as in the unit of SERVICE
        self.process = subprocess.Popen(words, stdin=pipe, stdout=pipe, stderr=pipe, text=True, bufsize=1, env=environment)
        self.began = time.monotonic()
        self.port, self.seats, self.log, self.lines = port, seats, Log(self.process.stderr, seats), Queue()
        threading.Thread(target=self.read, daemon=True).start()
        first = self.line(10)
        if first != f"listening {port}":
            raise Fault(f"the server's first line is {first}, and it says {self.log.strange}")

    def read(self):
        for line in self.process.stdout:
            self.lines.put(line.rstrip("\n"))
        self.lines.put(None)

    def line(self, seconds):
        """The next line of standard output, or None if there is none."""
        try:
            return self.lines.get(timeout=seconds)
        except Empty:
            return None

    def usage(self):
        if self.process.poll() is not None:
            raise Fault(f"the server has ended with status {self.process.returncode}, and says {self.log.strange}")
        at = f"/proc/{self.process.pid}"
        with open(f"{at}/status", encoding="utf-8") as file:
            status = dict(line.split(":", 1) for line in file.read().splitlines())
        with open(f"{at}/stat", encoding="utf-8") as file:
            ticks = file.read().rsplit(")", 1)[1].split()[11:13]
        kilobytes = [int(status[key].split()[0]) for key in ("VmHWM", "VmRSS")]
        processor = sum(map(int, ticks)) / os.sysconf("SC_CLK_TCK")
        seconds = time.monotonic() - self.began
        return Usage(seconds, *kilobytes, processor, int(status["Threads"]), len(os.listdir(f"{at}/fd")))

    def stop(self):
        """Stops it in order, and gives the numbers of chapters and of calls, and of those that were recorded, None without a journal."""
        self.process.stdin.write("stop\n")
        lines = []
        while (line := self.line(30)) is not None:
            lines.append(line)
        status = self.process.wait(30)
        told = re.fullmatch(r"chapters (\d+)\ncalls (\d+)(?:\nlost \d+)?(?:\nlate \d+)?\nsettled(?:\nrecorded (\d+))?", "\n".join(lines))
        if not told or status != 0 or self.log.strange:
            raise Fault(f"after `stop` it prints {lines} and says {self.log.strange}, status {status}")
        return int(told[1]), int(told[2]), told[3] and int(told[3])

    def kill(self):
        self.process.kill()
        self.process.wait()
