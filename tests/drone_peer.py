"""A drone over UDP that shares no code with the program.

A `DronePeer` takes, gives and clears plans, lists, reads and sets its parameters, and is armed (MAVLink guide: Mission,
Parameter and Command protocols). It tells a station what became of its last upload when that cancels, as the program's
stations do before their first operation. It asks again for an item that doesn't come, and sends HEARTBEAT each second.
"""

import select
import socket
import struct
import time

from peer import ACCEPTED, ARM, ARMED, CANCELLED, FENCE, MISSION, ONE, RALLY, now
from wire import (
    ACK, CLEAR_ALL, COMMAND_ACK, COMMAND_LONG, COUNT, HEARTBEAT, ITEM, KEY, PARAM_REQUEST_LIST, PARAM_REQUEST_READ,
    PARAM_SET, PARAM_VALUE, PING, REQUEST, REQUEST_LIST, Reader, frame_of,
)

LIMITS = {MISSION: 1000, FENCE: 200, RALLY: 50}
ALL = 255
ERROR, UNSUPPORTED, NO_SPACE, INVALID, BAD_SEQUENCE, DENIED = 1, 3, 4, 5, 13, 14
NOT_ALLOWED, NO_SUCH_COMMAND = 2, 3
QUIET, BEAT = 0.03, 1
PARAMS = [("RATE", 6, struct.pack("<i", -2)), ("SIXTEEN_LETTERS_", 5, b"\1\2\3\4"), ('A"B\\C', 9, b"\0\0\x80\x3f")]


class DronePeer:
    """The drone 1.1. One that isn't `strict` answers whoever asks, whatever the signature."""

    def __init__(self, key=KEY, strict=True):
        self.socket = socket.socket(socket.AF_INET, socket.SOCK_DGRAM)
        self.socket.bind(("127.0.0.1", 0))
        self.port = self.socket.getsockname()[1]
        self.node = (1, 1)
        self.key = key
        self.strict = strict
        self.plans = {MISSION: [], FENCE: [], RALLY: []}
        self.params = [list(param) for param in PARAMS]
        self.armed = False
        self.upload = None
        self.download = None
        self.became = {}
        self.sender = None
        self.sent = 0
        self.stamp = 0
        self.last = {}
        # What answers a message, the message's layout without its target, and where the target stands.
        self.answers = {
            PING: (self.ping, "<QI", 12), COUNT: (self.count, "<HxxB", 2), ITEM: (self.item, "<4IiiIHHxx4B", 32),
            ACK: (self.ack, "<xxBB", 0), CLEAR_ALL: (self.clear, "<xxB", 0), REQUEST_LIST: (self.give_count, "<xxB", 0),
            REQUEST: (self.give_item, "<HxxB", 2), PARAM_REQUEST_LIST: (self.list, "<", 0),
            PARAM_REQUEST_READ: (self.read, "<hxx16s", 2), PARAM_SET: (self.set, "<4sxx16sB", 4),
            COMMAND_LONG: (self.command, "<7IH", 30),
        }

    def run(self, ended):
        beat = time.monotonic()
        while not ended.is_set():
            if select.select([self.socket], [], [], QUIET)[0]:
                data, self.sender = self.socket.recvfrom(65_536)
                for frame in Reader().feed(data):
                    self.take(frame)
            elif self.upload:
                self.ask_on()
            if self.sender and time.monotonic() >= beat:
                self.send(HEARTBEAT, bytes([0, 0, 0, 0, 2, 0, ARMED if self.armed else 0, 4, 3]))
                beat += BEAT

    def take(self, frame):
        """Answers a frame for this drone that is signed as it should be, and later than the last of its sender."""
        stream = (*frame.node, frame.link)
        if self.strict and not (frame.is_good(self.key) and frame.stamp > self.last.get(stream, 0)):
            return
        self.last[stream] = frame.stamp
        if frame.identity not in self.answers:
            return
        answer, layout, at = self.answers[frame.identity]
        target = tuple(frame.payload[at:at + 2])
        if target in ([(0, 0)] if frame.identity == PING else [self.node, (self.node[0], 0)]):
            answer(frame.node, *struct.unpack_from(layout, frame.payload))

    def send(self, identity, payload):
        self.stamp = max(now(), self.stamp + 1)
        self.socket.sendto(frame_of(self.node, self.sent, self.stamp, identity, payload, self.key), self.sender)
        self.sent += 1

    def ping(self, asker, micros, number):
        self.send(PING, struct.pack("<QI2B", micros, number, *asker))

    # ---- plans

    def reply(self, asker, code, kind):
        self.send(ACK, bytes([*asker, code, kind]))

    def ask_on(self):
        asker, kind, _, items = self.upload
        self.send(REQUEST, struct.pack("<H3B", len(items), *asker, kind))

    def is_of_another(self, transfer, asker):
        return transfer is not None and transfer[0] != asker

    def close_upload(self, asker):
        if self.upload and self.upload[0] == asker:
            self.upload = None

    def count(self, asker, count, kind):
        denied = kind in LIMITS and self.is_of_another(self.upload, asker)
        if not denied:
            self.close_upload(asker)
        if kind not in LIMITS or denied or not 0 < count <= LIMITS[kind]:
            code = UNSUPPORTED if kind not in LIMITS else DENIED if denied else NO_SPACE if count else INVALID
            self.reply(asker, code, kind)
            return
        self.upload = (asker, kind, count, [])
        self.became[asker] = CANCELLED
        self.ask_on()

    def item(self, asker, *fields):
        *words, seq, command, frame, current, onwards, kind = fields
        if not self.upload or self.upload[0] != asker:
            return
        _, of, count, items = self.upload
        if kind != of or seq != len(items):
            self.ask_on()
            return
        items.append((tuple(words[:4]), words[4], words[5], words[6], command, frame, current, onwards))
        if len(items) < count:
            self.ask_on()
            return
        self.plans[kind] = items
        self.upload = None
        self.became[asker] = ACCEPTED
        self.reply(asker, ACCEPTED, kind)

    def ack(self, asker, code, kind):
        if self.download and self.download[0] == asker:
            self.download = None
        if code == CANCELLED:
            self.close_upload(asker)
            self.reply(asker, self.became.get(asker, ERROR), kind)

    def clear(self, asker, kind):
        if kind not in LIMITS and kind != ALL:
            self.reply(asker, UNSUPPORTED, kind)
        elif self.is_of_another(self.upload, asker):
            self.reply(asker, DENIED, kind)
        else:
            self.close_upload(asker)
            for cleared in LIMITS if kind == ALL else [kind]:
                self.plans[cleared] = []
            self.reply(asker, ACCEPTED, kind)

    def give_count(self, asker, kind):
        if kind not in LIMITS or self.is_of_another(self.download, asker):
            self.reply(asker, DENIED if kind in LIMITS else UNSUPPORTED, kind)
            return
        self.download = (asker, kind, list(self.plans[kind])) if self.plans[kind] else None
        self.send(COUNT, struct.pack("<H3B", len(self.plans[kind]), *asker, kind))

    def give_item(self, asker, seq, kind):
        if not self.download or self.download[:2] != (asker, kind) or seq >= len(self.download[2]):
            self.reply(asker, BAD_SEQUENCE, kind)
            return
        params, x, y, z, command, frame, current, onwards = self.download[2][seq]
        fields = (*params, x, y, z, seq, command, *asker, frame, current, onwards, kind)
        self.send(ITEM, struct.pack("<4IiiIHH6B", *fields))

    # ---- parameters and commands

    def give(self, index):
        name, of, value = self.params[index]
        self.send(PARAM_VALUE, struct.pack("<4sHH16sB", value, len(self.params), index, name.encode(), of))

    def index_of(self, name):
        names = [param[0].encode() for param in self.params]
        return names.index(name.split(b"\0")[0]) if name.split(b"\0")[0] in names else len(names)

    def list(self, _):
        for index in range(len(self.params)):
            self.give(index)

    def read(self, _, index, name):
        index = self.index_of(name) if index < 0 else index
        if index < len(self.params):
            self.give(index)

    def set(self, _, value, name, of):
        index = self.index_of(name)
        if index < len(self.params):
            if self.params[index][1] == of:
                self.params[index][2] = value
            self.give(index)

    def command(self, asker, *fields):
        word, number = fields[0], fields[7]
        result = NO_SUCH_COMMAND if number != ARM else ACCEPTED if word in (0, ONE) else NOT_ALLOWED
        if result == ACCEPTED:
            self.armed = word == ONE
        self.send(COMMAND_ACK, struct.pack("<HBxi2B", number, result, 0, *asker))
