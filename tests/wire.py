"""Frames of MAVLink 2 and what peers over loopback share: `live`, `live_drone` and `peer.py` use it.

Framing, checksum and signature are written here, with Python's hashlib, and share nothing with the program (MAVLink
guide: Packet serialisation, Message signing).
"""

import hashlib
import random
import socket
import time

KEY = bytes(range(32))
HEARTBEAT, PING = 0, 4
PARAM_REQUEST_READ, PARAM_REQUEST_LIST, PARAM_VALUE, PARAM_SET = 20, 21, 22, 23
REQUEST_LIST, COUNT, CLEAR_ALL, ACK, REQUEST, ITEM = 43, 44, 45, 47, 51, 73
COMMAND_LONG, COMMAND_ACK = 76, 77
POSITION = 33
CRC_EXTRA = {
    HEARTBEAT: 50, PING: 237, PARAM_REQUEST_READ: 214, PARAM_REQUEST_LIST: 159, PARAM_VALUE: 220, PARAM_SET: 168,
    REQUEST_LIST: 132, COUNT: 221, CLEAR_ALL: 232, ACK: 153, REQUEST: 196, ITEM: 38, COMMAND_LONG: 152,
    COMMAND_ACK: 143, POSITION: 104, 42: 28, 46: 11,
}


def checksum(data):
    """CRC-16/MCRF4XX."""
    crc = 0xFFFF
    for byte in data:
        byte ^= crc & 0xFF
        byte ^= byte << 4 & 0xFF
        crc = crc >> 8 ^ byte << 8 ^ byte << 3 ^ byte >> 4
    return crc


def frame_of(node, number, stamp, identity, payload, key=KEY):
    """A frame from a node, signed on link 0, or not signed if there is no key."""
    payload = payload.rstrip(b"\0") or payload[:1]
    body = bytes([len(payload), key is not None, 0, number % 256, *node]) + identity.to_bytes(3, "little") + payload
    frame = b"\xfd" + body + checksum(body + bytes([CRC_EXTRA[identity]])).to_bytes(2, "little")
    if key is None:
        return frame
    frame += b"\0" + stamp.to_bytes(6, "little")
    return frame + hashlib.sha256(key + frame).digest()[:6]


class Frame:
    """A frame that was read: its sender, its message, and when and how it was signed."""

    def __init__(self, whole):
        size = 12 + whole[1]
        self.node = (whole[5], whole[6])
        self.identity = int.from_bytes(whole[7:10], "little")
        self.payload = whole[10:size - 2] + bytes(255 - whole[1])
        self.signed = whole[2] & 1 == 1
        self.link = whole[size] if self.signed else 0
        self.stamp = int.from_bytes(whole[size + 1:size + 7], "little") if self.signed else 0
        self.whole = whole

    def is_good(self, key):
        return self.signed and hashlib.sha256(key + self.whole[:-6]).digest()[:6] == self.whole[-6:]


class Reader:
    """Finds the frames in a stream; a byte that begins none is skipped."""

    def __init__(self):
        self.held = b""

    def feed(self, data):
        self.held += data
        frames = []
        while len(self.held) >= 12:
            size = 12 + self.held[1] + (13 if self.held[2] & 1 else 0)
            if self.held[0] != 0xFD or int.from_bytes(self.held[7:10], "little") not in CRC_EXTRA:
                self.held = self.held[1:]
            elif len(self.held) < size:
                break
            elif self.is_whole():
                frames.append(Frame(self.held[:size]))
                self.held = self.held[size:]
            else:
                self.held = self.held[1:]
        return frames

    def is_whole(self):
        end = 10 + self.held[1]
        extra = CRC_EXTRA[int.from_bytes(self.held[7:10], "little")]
        return checksum(self.held[1:end] + bytes([extra])) == int.from_bytes(self.held[end:end + 2], "little")


def free_port(kind):
    """A port that nobody has, and that the system gives nobody by itself until it is bound."""
    with open("/proc/sys/net/ipv4/ip_local_port_range", encoding="ascii") as file:
        first = int(file.read().split()[0])
    while True:
        port = random.randrange(first // 2, first)
        with socket.socket(socket.AF_INET, kind) as found:
            try:
                found.bind(("127.0.0.1", port))
                return port
            except OSError:
                pass


def await_bound(port, until):
    """Waits until a UDP socket is bound to the port, since what is sent before that is lost."""
    while time.monotonic() < until:
        with open("/proc/net/udp", encoding="ascii") as table:
            if any(f":{port:04X} " in line.partition(":")[2] for line in table):
                return
        time.sleep(0.02)


def connect(port, until):
    while True:
        try:
            return socket.create_connection(("127.0.0.1", port), 1)
        except OSError:
            if time.monotonic() > until:
                raise
            time.sleep(0.02)
