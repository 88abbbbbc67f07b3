"""The program as a server over UDP: its process, what it prints, and what /proc says of it and of its port."""
import os
import re
import shutil
import socket
import subprocess
import tempfile
import time

from port import COUNTED

LAST_LINE = re.compile("datagrams: " + ", ".join(rf"(-?\d+) {name}" for name in COUNTED))
ENDED = re.compile(r"chapters \d+\ncalls \d+\n(?:lost \d+\n)?(?:late \d+\n)?settled\n(?:recorded \d+\n)?")


class Wrong(Exception):
    """Something isn't as it should be."""


def free_port():
    """A port at which nobody listens, another one each time."""
    while True:
        Server.port += 1
        with socket.socket(socket.AF_INET, socket.SOCK_DGRAM) as it:
            try:
                it.bind(("127.0.0.1", Server.port))
                return Server.port
            except OSError:
                pass


class Server:
    """A server over UDP, at a port of its own."""

    port = 10_000 + os.getpid() % 20_000  # (the system gives out none below 32,768)
    processors = os.sched_getaffinity(0)
    running = []

    def __init__(self, program, config, *words):
        self.port, self.room = free_port(), tempfile.mkdtemp()
        self.out, self.err = f"{self.room}/out", f"{self.room}/err"
        words = [program, "--plain", "serve", "--stay", "--udp", "--config", config, "--port", str(self.port), *map(str, words)]
        with open(self.out, "wb") as out, open(self.err, "wb") as err:
            environment = {"MALLOC_ARENA_MAX": "1", **os.environ}  # as in the unit of SERVICE
            free = lambda: os.sched_setaffinity(0, self.processors)  # noqa: E731
            self.process = subprocess.Popen(words, stdin=subprocess.PIPE, stdout=out, stderr=err, env=environment, preexec_fn=free)
        self.running.append(self)
        until = time.monotonic() + 20
        while not self.told().endswith("\n") and self.is_there() and time.monotonic() < until:
            time.sleep(0.02)
        if self.told() != f"listening {self.port} udp\n":
            raise Wrong(f"its first line is {self.told()!r}, and it says {self.said()!r}")

    @classmethod
    def kill_all(cls):
        """Ends those that weren't stopped."""
        for it in cls.running:
            it.process.kill()
            it.process.wait()
            shutil.rmtree(it.room)
        cls.running.clear()

    def told(self):
        with open(self.out, encoding="utf-8", errors="replace") as file:
            return file.read()

    def said(self):
        with open(self.err, encoding="utf-8", errors="replace") as file:
            return file.read()

    def is_there(self):
        return self.process.poll() is None

    def memory(self):
        """How many kB of memory it has."""
        with open(f"/proc/{self.process.pid}/status", encoding="utf-8") as file:
            return int(re.search(r"VmRSS:\s+(\d+)", file.read())[1])

    def threads_and_descriptors(self):
        at = f"/proc/{self.process.pid}"
        return len(os.listdir(f"{at}/task")), len(os.listdir(f"{at}/fd"))

    def line_of_port(self):
        """What the system says of its port. It may pass over a line while other sockets come and go: then it's asked again."""
        for _ in range(100):
            with open("/proc/net/udp", encoding="ascii") as file:
                for line in file:
                    words = line.split()
                    if words[1] == f"0100007F:{self.port:04X}":
                        return words
            if not self.is_there():
                break
        raise Wrong(f"nobody listens at port {self.port}, and it says {self.said()!r}")

    def waiting(self):
        """How many bytes wait at its port, and how many datagrams the system has dropped there."""
        words = self.line_of_port()
        return int(words[4].split(":")[1], 16), int(words[-1])

    def wait_until_read(self):
        """Waits until it has read all that was sent to it."""
        until = time.monotonic() + 20
        while self.waiting()[0]:
            if time.monotonic() > until:
                raise Wrong("it reads nothing any more")

    def stop(self):
        """Stops it, and gives what it counted."""
        dropped = self.waiting()[1]
        try:
            self.process.communicate(b"stop\n", timeout=20)
        except subprocess.TimeoutExpired:
            raise Wrong("it doesn't end at `stop`") from None
        lines = self.told().split("\n", 1)[1]
        ended = ENDED.match(lines)
        counts = ended and LAST_LINE.fullmatch(lines[ended.end() :].rstrip("\n"))
        if self.process.returncode or not counts:
            raise Wrong(f"it ends with {lines!r}, says {self.said()!r}, and has status {self.process.returncode}")
        if dropped:
            raise Wrong(f"the system dropped {dropped} datagrams that it didn't read")
        return dict(zip(COUNTED, map(int, counts.groups())))
