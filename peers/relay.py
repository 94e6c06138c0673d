"""A line between two ends that speak HDLC frames over UDP, one a datagram: it loses, damages, repeats and delays them by a seed, may be
cut for a while, and keeps what went through in a capture of LAPD.

Each direction keeps the order of its frames, as a line does; a frame that is repeated comes twice, one right after the other. A frame
that is damaged has one to three bits turned, which its check sequence always shows.
"""
import heapq
import random
import selectors
import socket
import struct
import threading
import time

LINUX_LAPD, OUTGOING, ARPHRD_LAPD, ETH_P_LAPD = 177, 4, 8445, 0x0030
FROM_NETWORK, FROM_USER = 0, 1
SABME, UA = 0x6F, 0x63


def check_sequence(octets):
    """The FCS of 16 bits of a frame (Q.921 2.7), the low octet first."""
    rest = 0xFFFF
    for octet in octets:
        rest ^= octet
        for _ in range(8):
            rest = rest >> 1 ^ (0x8408 if rest & 1 else 0)
    return struct.pack("<H", rest ^ 0xFFFF)


def is_whole(frame):
    return len(frame) > 4 and check_sequence(frame[:-2]) == frame[-2:]


def is_information(frame):
    return len(frame) > 4 and not frame[2] & 1


class Relay(threading.Thread):
    """The line between a network side, which has the ports NETWORK:HERE, and a user side with USER:THERE. What it does with a frame are
    shares of 1; `delay` is the longest delay, in seconds."""

    def __init__(self, ports, seed, lose=0.0, damage=0.0, repeat=0.0, delay=0.0):
        super().__init__(daemon=True)
        network, here, there, user = ports
        self.ends = [self.socket_between(here, network), self.socket_between(there, user)]
        self.draw = random.Random(seed)
        self.lose, self.damage, self.repeat, self.delay = lose, damage, repeat, delay
        self.waiting, self.last_due, self.count = [], [0.0, 0.0], 0
        self.cuts, self.passed, self.is_over = [], [], False
        self.lost = self.damaged = self.repeated = self.unwhole = 0

    @staticmethod
    def socket_between(here, there):
        end = socket.socket(socket.AF_INET, socket.SOCK_DGRAM)
        end.bind(("127.0.0.1", here))
        end.connect(("127.0.0.1", there))
        end.setblocking(False)
        return end

    def cut(self, begin, end):
        """Nothing goes through between two instants of the clock."""
        self.cuts.append((begin, end))

    def is_cut(self):
        now = time.time()
        return any(begin <= now < end for begin, end in self.cuts)

    def run(self):
        selector = selectors.DefaultSelector()
        for side, end in enumerate(self.ends):
            selector.register(end, selectors.EVENT_READ, side)
        while not self.is_over:
            wait = self.waiting[0][0] - time.time() if self.waiting else 0.1
            for key, _ in selector.select(max(0.0, min(wait, 0.1))):
                self.take(key.data)
            while self.waiting and self.waiting[0][0] <= time.time():
                self.send(*heapq.heappop(self.waiting)[2:])
        for end in self.ends:
            end.close()

    def take(self, side):
        """Takes a frame of a side, and puts what becomes of it in line."""
        try:
            frame = self.ends[side].recv(4096)
        except OSError:  # nobody has the port at the other end just now
            return
        self.unwhole += not is_whole(frame)
        if self.is_cut() or self.draw.random() < self.lose:
            self.lost += 1
            return
        if self.draw.random() < self.damage:
            frame = self.damaged_of(frame)
        due = max(self.last_due[side], time.time() + self.draw.uniform(0, self.delay))
        self.last_due[side] = due
        copies = 1 + (self.draw.random() < self.repeat)
        self.repeated += copies - 1
        for _ in range(copies):
            heapq.heappush(self.waiting, (due, self.count, side, frame))
            self.count += 1

    def damaged_of(self, frame):
        self.damaged += 1
        octets = bytearray(frame)
        for bit in self.draw.sample(range(8 * len(octets)), self.draw.randint(1, 3)):
            octets[bit // 8] ^= 1 << bit % 8
        return bytes(octets)

    def send(self, side, frame):
        try:
            self.ends[1 - side].send(frame)
        except OSError:
            self.lost += 1
            return
        if is_whole(frame):
            self.passed.append((time.time(), side, frame[:-2]))

    def stop(self):
        self.is_over = True
        self.join()

    def messages(self, side):
        """The messages of layer 3 of a side that went through, in their order, each once: those whose frame has the number that is due.
        Numbers begin anew after a SABME or UA of that side."""
        due, messages = 0, []
        for _, sender, frame in self.passed:
            if sender != side:
                continue
            if frame[2] & 0xEF in (SABME, UA):
                due = 0
            elif is_information(frame) and frame[2] >> 1 == due:
                due = (due + 1) % 128
                messages.append(frame[4:])
        return messages

    def write_capture(self, path):
        """Writes the frames that went through whole, without their check sequence, as a capture of link type LINUX_LAPD."""
        with open(path, "wb") as file:
            file.write(struct.pack(">IHHiIII", 0xA1B2C3D4, 2, 4, 0, 0, 65535, LINUX_LAPD))
            for instant, side, frame in self.passed:
                packet = struct.pack(">HHH8sH", OUTGOING, ARPHRD_LAPD, 1, bytes([side == FROM_NETWORK]), ETH_P_LAPD) + frame
                file.write(struct.pack(">IIII", int(instant), int(instant % 1 * 1e6), len(packet), len(packet)) + packet)
