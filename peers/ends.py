"""What the scripts need of the two ends of a day: the peers' programs, ports, plans, and the messages of a capture."""
import datetime
import http.client
import os
import shutil
import socket
import struct
import subprocess
import tempfile
import threading
import time

TOP = os.path.dirname(os.path.dirname(os.path.abspath(__file__)))
BX = f"{TOP}/crates/bx/out/bx"


class AtSocket(http.client.HTTPConnection):
    """A connection to a socket of the file system."""

    def __init__(self, path):
        super().__init__("localhost", timeout=10)
        self.path = path

    def connect(self):
        self.sock = socket.socket(socket.AF_UNIX, socket.SOCK_STREAM)
        self.sock.settimeout(self.timeout)
        self.sock.connect(self.path)


class Standstills(threading.Thread):
    """Notes when this process got no processor for a while: the exchange, the far end and the line of a day may have stood still then too, for
    they run beside it."""

    STEP, LEAST = 0.01, 0.05

    def __init__(self):
        super().__init__(daemon=True)
        self.noted = []
        self.start()

    def run(self):
        last = time.time()
        while True:
            time.sleep(self.STEP)
            now = time.time()
            if now - last > self.LEAST:
                self.noted.append((last, now))
            last = now

    def longest(self, begin, end):
        """The longest one between two instants of the clock, in seconds."""
        return max((until - since for since, until in self.noted if since < end and begin < until), default=0.0)


def folder_in_memory():
    """A folder that goes with its block; in memory where there is such a file system, since a disk with much to write may hold a sync up for
    seconds, and a second of a day at a pace of 20 is over in a twentieth of one."""
    memory = "/dev/shm"
    return tempfile.TemporaryDirectory(dir=memory if os.access(memory, os.W_OK) else None)


def build(scratch, name):
    """A program of peers/libpri, or none where there is no C compiler or no libpri."""
    compiler, program = shutil.which("cc"), f"{scratch}/{name}"
    if not compiler:
        return None
    words = [compiler, "-std=gnu17", "-O1", "-o", program, f"{TOP}/peers/libpri/{name}.c", "-lpri"]
    return program if subprocess.run(words, capture_output=True).returncode == 0 else None


def free_ports(count):
    """So many UDP ports of 127.0.0.1 that nobody has now, each another."""
    sockets = [socket.socket(socket.AF_INET, socket.SOCK_DGRAM) for _ in range(count)]
    for one in sockets:
        one.bind(("127.0.0.1", 0))
    ports = [one.getsockname()[1] for one in sockets]
    for one in sockets:
        one.close()
    return ports


def free_tcp_port():
    with socket.socket() as one:
        one.bind(("127.0.0.1", 0))
        return one.getsockname()[1]


def bx(*words, text=None):
    return subprocess.run([BX, *words], input=text, capture_output=True, text=True)


def time_of(second):
    return f"2026-01-{5 + second // 86400:02}T{second // 3600 % 24:02}:{second // 60 % 60:02}:{second % 60:02}Z"


def write_plan(rows, path, *words):
    """Writes the plan of bookings, which are rows of CSV under their header."""
    with open(f"{path}.csv", "w", encoding="ascii") as file:
        file.write("\n".join(rows) + "\n")
    with open(path, "w", encoding="ascii") as file:
        command = [BX, "plan", "--date", "2026-01-05", *words, f"{path}.csv"]
        subprocess.run(command, stdout=file, stderr=subprocess.DEVNULL, check=True)
    return path


def midnight_in(seconds):
    """An instant of whole seconds so far from now at least, in seconds since 1970."""
    return int(time.time() + seconds) + 1


def time_on(midnight, second):
    """A second of the day that begins at an instant, as a field of bookings has it."""
    return f"{datetime.datetime.fromtimestamp(midnight + second, datetime.timezone.utc):%Y-%m-%dT%H:%M:%SZ}"


def day_words(midnight, pace, turns):
    """The words of a live day that begins at an instant: the midnight of its zone is just then."""
    date = datetime.datetime.fromtimestamp(midnight, datetime.timezone.utc)
    return ["--date", f"{date:%Y-%m-%d}", "--zone", f"XXX+{date:%H:%M:%S}", "--pace", str(pace), "--turns", str(turns), "--quiet"]


def packets_of(capture):
    """The messages that were sent, and that were received, by a capture of `bx`."""
    with open(capture, "rb") as file:
        octets, at, messages = file.read(), 24, ([], [])
    while at < len(octets):
        length = struct.unpack_from(">I", octets, at + 8)[0]
        packet = octets[at + 16 : at + 16 + length]
        messages[packet[15]].append(packet[20:])
        at += 16 + length
    return messages


def audited(plan, journal, capture):
    """The outcomes of a day by its journal, and the messages that the exchange sent and received by it."""
    audit = subprocess.run([BX, "audit", plan, journal, "--capture", capture], capture_output=True, text=True)
    return audit.stdout, *packets_of(capture)


def are_among(messages, record):
    """Whether messages stand in a record, in their order."""
    rest = iter(record)
    return all(message in rest for message in messages)
