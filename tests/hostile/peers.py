"""Hostile peers over loopback: what they send, and over what; `attack` uses them."""

import itertools
import os
import random
import socket
import struct
import sys
import threading
import time

sys.path.insert(0, os.path.join(os.path.dirname(os.path.realpath(__file__)), "..", "..", "tests"))
import frames
from strangers import ENDS, SIZES, split
from wire import connect

EPOCH = 1_420_070_400
PACE = 0.0005


def now():
    return int((time.time() - EPOCH) * 100_000)


def ends_of(one):
    """The ends of a field of a form of `struct`."""
    if one.endswith("s"):
        size = int(one[:-1])
        return [bytes(size), b"\xff" * size, b"SIM_STEP".ljust(size, b"\0")[:size], bytes(range(size))]
    size = SIZES[one]
    return [value - (one.islower() and value >= 2**(8 * size - 1)) * 2**(8 * size) for value in ENDS[size]]


def every_message(target):
    """Every message with every field at its ends, the others zero, for a node, its system, and everyone."""
    for identity, (_, _, form, at) in frames.MESSAGES.items():
        fields = split(form)
        zeros = [bytes(int(one[:-1])) if one.endswith("s") else 0 for one in fields]
        for place, one in enumerate(fields):
            for end in ends_of(one):
                for to in (target, (target[0], 0), (0, 0)):
                    values = list(zeros)
                    if at is not None:
                        values[at:at + 2] = to
                    values[place] = end
                    yield identity, struct.pack(form, *values)


def garbage(chance, heard, target):
    while True:
        yield chance.randbytes(chance.randrange(1, 1500))


def repeated(datagram):
    """An attack that is one datagram again and again."""
    return lambda chance, heard, target: itertools.repeat(datagram)


def largest(chance, heard, target):
    while True:
        yield chance.randbytes(65_507)


def silent(chance, heard, target):
    while True:
        time.sleep(0.02)
        yield None


def replay(chance, heard, target):
    while True:
        time.sleep(PACE)
        yield chance.choice(heard) if heard else b"\0"


def reordered(chance, heard, target):
    """All that was heard, in another order, again and again."""
    yield b"\0"
    while True:
        for _ in range(64):
            time.sleep(PACE)
            yield None
        yield from chance.sample(heard, len(heard))


def unsigned(chance, heard, target):
    """Frames without a signature, of every message, from and for every system."""
    while True:
        for number, sent in enumerate(every_message((chance.randrange(256), chance.randrange(256)))):
            yield frames.bytes_of((number % 256, number // 256 % 256), number, 0, sent, key=None)


def insider(chance, heard, target):
    """Frames under the key, of every message with every field at its ends, from twenty names and two links."""
    stamp = now()
    while True:
        for number, sent in enumerate(every_message(target)):
            time.sleep(PACE)
            stamp = max(stamp + 1, now())
            yield frames.bytes_of((50 + number % 20, 7), number, stamp, sent, number % 2)


def half_frame(chance, heard, target):
    """A good frame, and the half of one."""
    whole = frames.bytes_of((60, 7), 0, now(), frames.message(frames.HEARTBEAT, 0, 2, 3, 81, 4, 3))
    yield whole + whole[:chance.randrange(1, len(whole))]


def crowd(chance, heard, target):
    """Half a frame, with 199 more connections to the same port, each of which says something."""
    return half_frame(chance, heard, target)


def with_little_room(port, until):
    """A connection for which the system holds few bytes at its own side."""
    while True:
        stream = socket.socket()
        stream.setsockopt(socket.SOL_SOCKET, socket.SO_RCVBUF, 4096)
        try:
            stream.connect(("127.0.0.1", port))
            return stream
        except OSError:
            stream.close()
            if time.monotonic() > until:
                raise
            time.sleep(0.02)


class Datagrams(threading.Thread):
    """Sends datagrams to a port at full speed, from so many addresses, and hears what comes back."""

    def __init__(self, port, attack, target, sources=1, seed=1):
        super().__init__(daemon=True)
        self.sockets = [socket.socket(socket.AF_INET, socket.SOCK_DGRAM) for _ in range(sources)]
        for each in self.sockets:
            each.bind(("127.0.0.1", 0))
            each.setblocking(False)
        self.to, self.heard, self.sent, self.is_over = ("127.0.0.1", port), [], 0, threading.Event()
        self.datagrams = attack(random.Random(seed), self.heard, target)

    def run(self):
        for number, datagram in enumerate(self.datagrams):
            if self.is_over.is_set():
                break
            peer = self.sockets[number % len(self.sockets)]
            try:
                if datagram is not None:
                    peer.sendto(datagram, self.to)
                    self.sent += 1
                if number % 8 == 0 and len(self.heard) < 1000:
                    self.heard.append(peer.recv(65_536))
            except OSError:
                pass

    def stop(self):
        self.is_over.set()
        self.join(5)
        for each in self.sockets:
            each.close()


class Stream(threading.Thread):
    """Sends pieces over a TCP connection, and ends it in one way: `close`, `reset`, or `half`, its writing side."""

    def __init__(self, port, attack, target, end="close", reads=True, until=5.0, seed=1):
        super().__init__(daemon=True)
        self.port, self.end, self.reads, self.heard, self.sent = port, end, reads, [], 0
        self.stream = (connect if reads else with_little_room)(port, time.monotonic() + until)
        self.stream.settimeout(0.2)
        self.others = [other for _ in range(199 * (attack is crowd)) if (other := self.another())]
        self.pieces, self.is_over = attack(random.Random(seed), self.heard, target), threading.Event()

    def another(self):
        """One more connection to the port, which says something; None if it is refused."""
        try:
            other = socket.create_connection(("127.0.0.1", self.port), 0.05)
            other.sendall(b"\xfd" * 256)
            return other
        except OSError:
            return None

    def run(self):
        try:
            for number, piece in enumerate(self.pieces):
                if self.is_over.is_set():
                    break
                if piece:
                    self.stream.sendall(piece)
                    self.sent += 1
                if self.reads and number % 8 == 0:
                    self.hear()
        except OSError:
            pass
        if self.end == "half":
            self.leave()

    def hear(self):
        self.stream.setblocking(False)
        try:
            self.heard.append(self.stream.recv(65_536))
            del self.heard[:-100]
        except BlockingIOError:
            pass
        self.stream.settimeout(0.2)

    def leave(self):
        if self.end == "reset":
            self.stream.setsockopt(socket.SOL_SOCKET, socket.SO_LINGER, struct.pack("ii", 1, 0))
        if self.end == "half":
            try:
                self.stream.shutdown(socket.SHUT_WR)
            except OSError:
                pass

    def stop(self):
        self.is_over.set()
        self.join(5)
        self.leave()
        for each in [self.stream, *self.others]:
            each.close()
