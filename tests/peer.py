"""A ground station over TCP or UDP that shares no code with the program, and a relay that loses datagrams.

A `Station` uploads plans, downloads and clears them, reads, sets and lists parameters, and arms a drone. It sends again
what isn't replied to, and begins again what the drone gave up, so that it gets through any link that loses some of what
is sent (MAVLink guide: Mission, Parameter and Command protocols). What goes wrong is a `Differs`.

Before each upload, clear and command it is in step with the drone: a PING of a new number came back, and what came before
that is dropped, since a frame counts only if its timestamp is later than the last one's.
"""

import random
import select
import socket
import struct
import time

from wire import (
    ACK, CLEAR_ALL, COMMAND_ACK, COMMAND_LONG, COUNT, HEARTBEAT, ITEM, KEY, PARAM_REQUEST_LIST, PARAM_REQUEST_READ,
    PARAM_SET, PARAM_VALUE, PING, REQUEST, REQUEST_LIST, Reader, connect, frame_of,
)

MISSION, FENCE, RALLY = 0, 1, 2
ACCEPTED, CANCELLED, DONE = 0, 15, (0, 1, 15)
EPOCH = 1_420_070_400
ARM, ONE, ARMED = 400, 0x3F800000, 128
# A drone gives an upload up at its fifth tick, which may be 50 ms after the last item: so items and requests of items are
# sent again soon, other messages after a while, and a transfer that stands still for so long begins again.
SOON, LATER, STILL = 0.006, 0.05, 0.2


class Differs(Exception):
    """What isn't as it should be."""


def now():
    """Units of 10 microseconds since 1 January 2015."""
    return int((time.time() - EPOCH) * 100_000)


def item(number, command=16, first=0):
    """An item, as its fields of MISSION_ITEM_INT: params, x, y, z, command, frame, current and autocontinue."""
    return ((first, 0, 0, number), 473_977_420 + 100 * number, 85_455_940 - 50 * number, 0x42480000 + number, command, 6, 0, 1)


def small_word(number):
    return int.from_bytes(struct.pack("<f", number), "little")


def mission(count):
    return [item(number, 21 if number == count - 1 else 16) for number in range(count)]


def fence(corners):
    """A polygon to stay in, one to stay out of, and a return point."""
    word = small_word(corners)
    return [item(n, 5001, word) for n in range(corners)] + [item(n, 5002, word) for n in range(corners)] + [item(9, 5000)]


def rally(count):
    return [item(number, 5100) for number in range(count)]


class TcpEnd:
    def __init__(self, port, until):
        self.stream = connect(port, until)
        self.reader = Reader()

    def send(self, frame):
        self.stream.sendall(frame)

    def receive(self, seconds):
        """The frames that come next; none after so long."""
        if not select.select([self.stream], [], [], seconds)[0]:
            return []
        data = self.stream.recv(65_536)
        if not data:
            raise Differs("the drone closed the connection")
        return self.reader.feed(data)

    def close(self):
        """Ends the stream, and reads on until the drone ends its own: bytes that are left unread would be a fault there."""
        self.stream.shutdown(socket.SHUT_WR)
        self.stream.settimeout(5)
        while self.stream.recv(65_536):
            pass
        self.stream.close()


class UdpEnd:
    def __init__(self, port):
        self.socket = socket.socket(socket.AF_INET, socket.SOCK_DGRAM)
        self.socket.bind(("127.0.0.1", 0))
        self.to = ("127.0.0.1", port)

    def send(self, frame):
        self.socket.sendto(frame, self.to)

    def receive(self, seconds):
        if not select.select([self.socket], [], [], seconds)[0]:
            return []
        return Reader().feed(self.socket.recv(65_536))

    def close(self):
        self.socket.close()


class Station:
    """A station that speaks with one drone; without a key its frames aren't signed."""

    def __init__(self, end, until, drone=(1, 1), me=(255, 190), key=KEY):
        self.end = end
        self.until = until
        self.drone = drone
        self.me = me
        self.key = key
        self.sent = 0
        self.stamp = 0
        self.last = {}
        self.pings = 0
        self.armed = None

    def send(self, identity, payload):
        self.stamp = max(now(), self.stamp + 1)
        self.end.send(frame_of(self.me, self.sent, self.stamp, identity, payload, self.key))
        self.sent += 1

    def received(self, seconds):
        """The frames of the drone that come next and count."""
        frames = []
        for frame in self.end.receive(seconds):
            stream = (frame.node, frame.link)
            if frame.is_good(self.key) and frame.stamp > self.last.get(stream, 0):
                self.last[stream] = frame.stamp
                if frame.node == self.drone:
                    frames.append(frame)
        for frame in frames:
            if frame.identity == HEARTBEAT:
                self.armed = frame.payload[6] & ARMED != 0
        return frames

    def ask(self, message, takes, again=LATER, still=None):
        """Sends a message, each time after `again` seconds, until `takes` returns something of a frame that comes; None
        if it returns nothing for `still` seconds."""
        begun = time.monotonic()
        asked = 0
        while still is None or time.monotonic() < begun + still:
            if time.monotonic() > self.until:
                raise Differs(f"no reply to message {message()[0]}")
            if time.monotonic() >= asked + again:
                self.send(*message())
                asked = time.monotonic()
            for frame in self.received(SOON):
                found = takes(frame)
                if found is not None:
                    return found
        return None

    def settle(self):
        """A PING of a new number came back: what comes from now on was sent after it."""
        self.pings += 1
        payload = struct.pack("<QI2B", 0, self.pings, 0, 0)
        self.ask(lambda: (PING, payload), lambda f: True if f.identity == PING and f.payload[:12] == payload[:12] else None)

    # ---- plans

    def ack(self, code, kind):
        return ACK, bytes([*self.drone, code, kind])

    def code_in(self, frame):
        """The code of an acknowledgement."""
        if frame.identity == ACK and tuple(frame.payload[:2]) == self.me:
            return frame.payload[2]
        return None

    def cancel(self, kind):
        """Cancels what is open; whether the last upload was installed."""
        self.settle()
        code = self.ask(lambda: self.ack(CANCELLED, kind), self.code_in)
        if code not in DONE:
            raise Differs(f"a cancel is acknowledged with {code}")
        return code == ACCEPTED

    def upload(self, kind, items):
        self.cancel(kind)
        while not self.upload_once(kind, items):
            if self.cancel(kind):
                return

    def upload_once(self, kind, items):
        """Whether the upload was acknowledged; it wasn't if the drone gave it up, or nothing came."""
        count = COUNT, struct.pack("<H3B", len(items), *self.drone, kind)
        asked = self.ask(lambda: count, lambda f: self.asked_in(f, kind))
        while True:
            message = self.item_message(kind, asked, items)
            found = self.ask(lambda: message, lambda f: self.other_in(f, kind, asked), SOON, STILL)
            if found is None or found == ("ack", CANCELLED):
                return False
            if found[0] == "ack":
                if found[1] != ACCEPTED or asked != len(items) - 1:
                    raise Differs(f"the upload of kind {kind} ended with {found[1]} at item {asked} of {len(items)}")
                return True
            asked = found[1]
            if asked >= len(items):
                raise Differs(f"item {asked} of {len(items)} was asked for")

    def asked_in(self, frame, kind):
        """Which item a request asks for."""
        if frame.identity != REQUEST:
            return None
        seq, system, component, of = struct.unpack("<H3B", frame.payload[:5])
        return seq if (system, component, of) == (*self.me, kind) else None

    def other_in(self, frame, kind, asked):
        """An acknowledgement, or a request of another item than this."""
        code, seq = self.code_in(frame), self.asked_in(frame, kind)
        if code is not None:
            return "ack", code
        return ("request", seq) if seq is not None and seq != asked else None

    def item_message(self, kind, seq, items):
        params, x, y, z, command, frame, current, onwards = items[seq]
        return ITEM, struct.pack("<4IiiIHH6B", *params, x, y, z, seq, command, *self.drone, frame, current, onwards, kind)

    def item_in(self, frame, kind, wanted):
        """The item that was asked for; False if the drone doesn't give it."""
        if self.code_in(frame) is not None:
            return False
        if frame.identity != ITEM:
            return None
        *words, seq, command, system, component, of_frame, current, onwards, of = struct.unpack("<4IiiIHH6B", frame.payload[:38])
        if (system, component, seq, of) != (*self.me, wanted, kind):
            return None
        return (tuple(words[:4]), words[4], words[5], words[6], command, of_frame, current, onwards)

    def download(self, kind):
        while True:
            items = self.download_once(kind)
            if items is not None:
                self.send(*self.ack(ACCEPTED, kind))
                return items

    def download_once(self, kind):
        """The items of a plan, or None if the drone gave the download up."""
        self.settle()
        wanted = REQUEST_LIST, bytes([*self.drone, kind])
        count = self.ask(lambda: wanted, lambda f: self.count_in(f, kind))
        items = []
        while len(items) < count:
            request = REQUEST, struct.pack("<H3B", len(items), *self.drone, kind)
            found = self.ask(lambda: request, lambda f: self.item_in(f, kind, len(items)), SOON)
            if found is False:
                return None
            items.append(found)
        return items

    def count_in(self, frame, kind):
        if frame.identity != COUNT:
            return None
        count, system, component, of = struct.unpack("<H3B", frame.payload[:5])
        return count if (system, component, of) == (*self.me, kind) else None

    def clear(self, kind):
        self.settle()
        code = self.ask(lambda: (CLEAR_ALL, bytes([*self.drone, kind])), self.code_in)
        if code != ACCEPTED:
            raise Differs(f"the clear of kind {kind} ended with {code}")

    # ---- parameters and commands

    def value_in(self, frame):
        """The id, the type, the value, the place and the count of a parameter."""
        if frame.identity != PARAM_VALUE:
            return None
        value, count, index, name, of = struct.unpack("<4sHH16sB", frame.payload[:25])
        return name.rstrip(b"\0").decode(), of, value, index, count

    def read(self, index, name=""):
        """The parameter at an index, or of a name if that is -1."""
        payload = struct.pack("<h2B16s", index, *self.drone, name.encode())

        def takes(frame):
            value = self.value_in(frame)
            return value if value and (value[0] == name if index < 0 else value[3] == index) else None

        return self.ask(lambda: (PARAM_REQUEST_READ, payload), takes)

    def set(self, name, of, value):
        """Sets a parameter until its value is that."""
        payload = struct.pack("<4s2B16sB", value, *self.drone, name.encode(), of)
        self.ask(lambda: (PARAM_SET, payload), lambda f: self.value_in(f) if (self.value_in(f) or ())[:3] == (name, of, value) else None)

    def list(self):
        """All parameters by their names, in their order; those that are lost are asked for one by one."""
        values = {}

        def takes(frame):
            value = self.value_in(frame)
            if value:
                values[value[3]] = value
            return True if value and len(values) == value[4] else None

        self.ask(lambda: (PARAM_REQUEST_LIST, bytes(self.drone)), lambda f: takes(f) or (True if values else None))
        begun = time.monotonic()
        while time.monotonic() < begun + STILL:
            for frame in self.received(SOON):
                takes(frame)
        for index in range(next(iter(values.values()))[4]):
            if index not in values:
                values[index] = self.read(index)
        return [values[index] for index in sorted(values)]

    def command(self, number, word):
        """The result of a command; when it is given again, its confirmation goes up."""
        self.settle()
        tries = iter(range(1_000_000))

        def message():
            words = [word, 0, 0, 0, 0, 0, 0]
            return COMMAND_LONG, struct.pack("<7IH3B", *words, number, *self.drone, min(next(tries), 255))

        def takes(frame):
            of, result = struct.unpack("<HB", frame.payload[:3])
            return result if frame.identity == COMMAND_ACK and of == number else None

        return self.ask(message, takes)


class Relay:
    """Between a station and a drone over UDP: of nine datagrams it loses one, repeats one and lets one fall behind the
    next, all by chance from a fixed seed."""

    def __init__(self, port, seed):
        self.front = socket.socket(socket.AF_INET, socket.SOCK_DGRAM)
        self.front.bind(("127.0.0.1", 0))
        self.port = self.front.getsockname()[1]
        self.back = socket.socket(socket.AF_INET, socket.SOCK_DGRAM)
        self.back.bind(("127.0.0.1", 0))
        self.drone = ("127.0.0.1", port)
        self.station = None
        self.chance = random.Random(seed)
        self.late = {}
        self.counts = [0] * 4

    def run(self, ended):
        while not ended.is_set():
            ready = select.select([self.front, self.back], [], [], 0.005)[0]
            for socket_ in ready:
                data, sender = socket_.recvfrom(65_536)
                if socket_ is self.front:
                    self.station = sender
                self.pass_on(socket_, data)
            if not ready:
                for socket_ in (self.front, self.back):
                    self.put(socket_, self.late.pop(socket_, []))

    def pass_on(self, socket_, data):
        what = min(self.chance.randrange(9), 3)
        self.counts[what] += 1
        if what == 0:
            return
        if what == 1:
            self.late.setdefault(socket_, []).append(data)
            return
        self.put(socket_, [data] * (2 if what == 2 else 1) + self.late.pop(socket_, []))

    def put(self, socket_, datagrams):
        """Sends on what came in at one side at the other."""
        for data in datagrams:
            if socket_ is self.front:
                self.back.sendto(data, self.drone)
            elif self.station:
                self.front.sendto(data, self.station)
