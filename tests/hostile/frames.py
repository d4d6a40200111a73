"""Frames and messages as the model knows them: written from the MAVLink guide and the manual alone.

A message is its number and the bytes of its payload in full. `fields_of` gives its fields in wire order.
"""

import hashlib
import struct

KEY = bytes(range(32))
HEARTBEAT, PING, POSITION, CURRENT, REACHED = 0, 4, 33, 42, 46
PARAM_REQUEST_READ, PARAM_REQUEST_LIST, PARAM_VALUE, PARAM_SET = 20, 21, 22, 23
LIST, COUNT, CLEAR, ACK, REQUEST, ITEM = 43, 44, 45, 47, 51, 73
COMMAND_LONG, COMMAND_ACK, FILE, STATUSTEXT = 76, 77, 110, 253
# Number: name, CRC_EXTRA, wire order, and where in it the target is.
MESSAGES = {
    HEARTBEAT: ("HEARTBEAT", 50, "<I5B", None),
    PING: ("PING", 237, "<QI2B", 2),
    PARAM_REQUEST_READ: ("PARAM_REQUEST_READ", 214, "<h2B16s", 1),
    PARAM_REQUEST_LIST: ("PARAM_REQUEST_LIST", 159, "<2B", 0),
    PARAM_VALUE: ("PARAM_VALUE", 220, "<4sHH16sB", None),
    PARAM_SET: ("PARAM_SET", 168, "<4s2B16sB", 1),
    POSITION: ("GLOBAL_POSITION_INT", 104, "<I4i3hH", None),
    CURRENT: ("MISSION_CURRENT", 28, "<H", None),
    LIST: ("LIST", 132, "<3B", 0),
    COUNT: ("COUNT", 221, "<H3B", 1),
    CLEAR: ("CLEAR", 232, "<3B", 0),
    REACHED: ("MISSION_ITEM_REACHED", 11, "<H", None),
    ACK: ("ACK", 153, "<4B", 0),
    REQUEST: ("REQUEST", 196, "<H3B", 1),
    ITEM: ("ITEM", 38, "<4IiiIHH6B", 9),
    COMMAND_LONG: ("COMMAND_LONG", 152, "<7IH3B", 8),
    COMMAND_ACK: ("COMMAND_ACK", 143, "<HBBiBB", 4),
    FILE: ("FILE_TRANSFER_PROTOCOL", 84, "<3B251s", 1),
    STATUSTEXT: ("STATUSTEXT", 83, "<B50sHB", None),
}
KINDS = {0: "mission", 1: "fence", 2: "rally", 255: "all"}


def checksum_table():
    table = []
    for byte in range(256):
        for _ in range(8):
            byte = byte >> 1 ^ (0x8408 if byte & 1 else 0)
        table.append(byte)
    return table


TABLE = checksum_table()


def checksum(data):
    """CRC-16/MCRF4XX."""
    crc = 0xFFFF
    for byte in data:
        crc = crc >> 8 ^ TABLE[(crc ^ byte) & 0xFF]
    return crc


def message(identity, *fields):
    return identity, struct.pack(MESSAGES[identity][2], *fields)


def fields_of(sent):
    identity, payload = sent
    return struct.unpack(MESSAGES[identity][2], payload)


def target_of(sent):
    """Whom a message is for; None if it has no target."""
    at = MESSAGES[sent[0]][3]
    return None if at is None else fields_of(sent)[at:at + 2]


def text_of(sent):
    """A message in the words of a report."""
    identity, fields = sent[0], fields_of(sent)
    text = MESSAGES[identity][0]
    name_of = lambda kind: KINDS.get(kind, str(kind))
    if identity == PING:
        text += f" {fields[1]}"
    elif identity in (COUNT, REQUEST):
        text += f" {name_of(fields[3])} {fields[0]}"
    elif identity == ITEM:
        text += f" {name_of(fields[14])} {fields[7]}"
    elif identity == ACK:
        text += f" {fields[2]} {name_of(fields[3])}"
    elif identity in (LIST, CLEAR):
        text += f" {name_of(fields[2])}"
    to = target_of(sent)
    return text if to is None else f"{text} to {to[0]}.{to[1]}"


def bytes_of(node, number, stamp, sent, link=0, key=KEY):
    """A frame of a node, signed on a link, or not signed if there is no key."""
    identity, payload = sent
    payload = payload.rstrip(b"\0") or payload[:1]
    body = bytes([len(payload), key is not None, 0, number % 256, *node]) + identity.to_bytes(3, "little") + payload
    frame = b"\xfd" + body + checksum(body + bytes([MESSAGES[identity][1]])).to_bytes(2, "little")
    if key is None:
        return frame
    frame += bytes([link]) + stamp.to_bytes(6, "little")
    return frame + hashlib.sha256(key + frame).digest()[:6]


def frame_at(data, at):
    """The end of the frame that begins at a place; 0 if none does."""
    head = data[at:at + 10]
    if len(head) < 10 or head[0] != 0xFD or head[2] & 0xFE:
        return 0
    known = MESSAGES.get(int.from_bytes(head[7:10], "little"))
    end = at + 10 + head[1]
    whole = end + 2 + 13 * head[2]
    if known is None or len(data) < whole:
        return 0
    return whole * (checksum(data[at + 1:end] + bytes([known[1]])) == int.from_bytes(data[end:end + 2], "little"))


def frames_in(data):
    """The frames of a datagram, which is read as a whole input: sender, link, timestamp, whether it is signed and
    whether its signature is good, and its message."""
    frames, at = [], 0
    while at < len(data):
        end = frame_at(data, at)
        if not end:
            at += 1
            continue
        whole, at = data[at:end], end
        identity, size = int.from_bytes(whole[7:10], "little"), 12 + whole[1]
        full = struct.calcsize(MESSAGES[identity][2])
        payload = whole[10:size - 2][:full].ljust(full, b"\0")
        is_signed = whole[2] == 1
        link, stamp = (whole[size], int.from_bytes(whole[size + 1:size + 7], "little")) if is_signed else (0, 0)
        is_good = is_signed and hashlib.sha256(KEY + whole[:-6]).digest()[:6] == whole[-6:]
        frames.append(((whole[5], whole[6]), link, stamp, is_signed, is_good, (identity, payload)))
    return frames


def small_number(word):
    """The number from 0 to 70 whose float has these bits; None of any other word."""
    number = struct.unpack("<f", struct.pack("<I", word))[0]
    return int(number) if number in range(71) and word != 0x80000000 else None
