"""How bytes are read as frames and as the rows of a log, what `decode` and `log show` print of them, and which frames a
router lets through: a model from the manual and the MAVLink guide alone. `prefixes` and `ends` use it."""

import hashlib
import struct

from frames import CLEAR, COUNT, HEARTBEAT, KEY, MESSAGES, PARAM_VALUE, PING, checksum

NOT_STX, FLAG, ID, CHECK, SHORT = "not-stx", "unknown-flag", "unknown-id", "bad-check", "short"
MINUTE = 6_000_000
# The name and the base fields of a message in definition order, and its extension fields: name, form of `struct`.
FIELDS = {
    HEARTBEAT: ("HEARTBEAT", [("type", "B"), ("autopilot", "B"), ("base_mode", "B"), ("custom_mode", "I"),
                              ("system_status", "B"), ("mavlink_version", "B")], []),
    PING: ("PING", [("time_usec", "Q"), ("seq", "I"), ("target_system", "B"), ("target_component", "B")], []),
    PARAM_VALUE: ("PARAM_VALUE", [("param_id", "16s"), ("param_value", "f"), ("param_type", "B"), ("param_count", "H"),
                                  ("param_index", "H")], []),
    COUNT: ("MISSION_COUNT", [("target_system", "B"), ("target_component", "B"), ("count", "H")], [("mission_type", "B")]),
    CLEAR: ("MISSION_CLEAR_ALL", [("target_system", "B"), ("target_component", "B")], [("mission_type", "B")]),
}


class Frame:
    """A frame that stands in some bytes: where, its bytes, and its parts."""

    def __init__(self, at, whole):
        self.at, self.whole, self.is_old = at, whole, whole[0] == 0xFE
        if self.is_old:
            self.number, self.node, self.identity = whole[2], (whole[3], whole[4]), whole[5]
            self.payload, self.link, self.stamp, self.is_signed = whole[6:-2], 0, 0, False
            return
        end = 10 + whole[1]
        self.number, self.node, self.identity = whole[4], (whole[5], whole[6]), int.from_bytes(whole[7:10], "little")
        self.payload, self.is_signed = whole[10:end], whole[2] == 1
        self.link = whole[end + 2] if self.is_signed else 0
        self.stamp = int.from_bytes(whole[end + 3:end + 9], "little") if self.is_signed else 0

    def is_good(self):
        return self.is_signed and hashlib.sha256(KEY + self.whole[:-6]).digest()[:6] == self.whole[-6:]

    def target(self):
        """The node that it is for, 0.0 if it is for everyone."""
        form, at = MESSAGES[self.identity][2:]
        names = [name for name, _ in FIELDS[self.identity][1]]
        if at is None or self.is_old and "target_system" not in names:
            return 0, 0
        return tuple(struct.unpack(form, self.payload[:struct.calcsize(form)].ljust(struct.calcsize(form), b"\0"))[at:at + 2])


def look(data, at, old):
    """The size of the frame that begins at a place, or why none does."""
    left, first = len(data) - at, data[at]
    if first == 0xFE and old:
        head, where, flags = 6, slice(at + 5, at + 6), 0
    elif first == 0xFD:
        head, where, flags = 10, slice(at + 7, at + 10), data[at + 2] if left > 2 else 0
    else:
        return NOT_STX
    if flags & 0xFE:
        return FLAG
    if left < head:
        return SHORT
    known = MESSAGES.get(int.from_bytes(data[where], "little"))
    if known is None:
        return ID
    end = at + head + data[at + 1]
    size = end + 2 + 13 * flags - at
    if left < size:
        return SHORT
    is_whole = checksum(data[at + 1:end] + bytes([known[1]])) == int.from_bytes(data[end:end + 2], "little")
    return size if is_whole else CHECK


def reading(data, old):
    """The frames of a whole input and the bytes between them: a `Frame`, or a place and why no frame begins there."""
    marks, at = [], 0
    while at < len(data):
        found = look(data, at, old)
        is_frame = isinstance(found, int)
        marks.append(Frame(at, data[at:at + found]) if is_frame else (at, found))
        at += found if is_frame else 1
    return marks


def rows(data):
    """The rows of a log: a place, microseconds and a frame; or a place and why no row begins there."""
    marks, at = [], 0
    while at < len(data):
        found = look(data, at + 8, True) if at + 8 < len(data) else SHORT
        if isinstance(found, int):
            marks.append((at, int.from_bytes(data[at:at + 8], "big"), Frame(at + 8, data[at + 8:at + 8 + found])))
            at += 8 + found
        else:
            marks.append((at, found))
            at += 1
    return marks


def value_text(form, data):
    if form == "16s":
        text = data.partition(b"\0")[0]
        return '"' + "".join(chr(b) if 32 <= b < 127 and b not in b'"\\' else f"\\x{b:02x}" for b in text) + '"'
    if form == "f":
        return data[::-1].hex()
    return str(int.from_bytes(data, "little"))


def fields_text(frame):
    """` name=value` of each field, in definition order, extensions last."""
    _, base, more = FIELDS[frame.identity]
    size_of = lambda form: 1 if form == "16s" else struct.calcsize(form)
    order = sorted(base, key=lambda field: -size_of(field[1])) + ([] if frame.is_old else more)
    values, payload, at = {name: bytes(struct.calcsize(form)) for name, form in more}, frame.payload.ljust(255, b"\0"), 0
    for name, form in order:
        values[name] = payload[at:at + struct.calcsize(form)]
        at += struct.calcsize(form)
    return "".join(f" {name}={value_text(form, values[name])}" for name, form in base + more)


def frame_text(frame, tells):
    """What is printed of a frame from its name on; `tells` of its signature whether it is good."""
    text = f"{FIELDS[frame.identity][0]} {frame.node[0]}.{frame.node[1]} #{frame.number}" + " v1" * frame.is_old
    text += fields_text(frame) + f" signed {frame.link} {frame.stamp}" * frame.is_signed
    return text + (" good" if frame.is_good() else " bad") * (tells and frame.is_signed)


def decode_text(data, tells):
    marks = reading(data, True)
    lines = [f"{one.at} {frame_text(one, tells)}" if isinstance(one, Frame) else f"{one[0]} skip {data[one[0]]:02x} {one[1]}"
             for one in marks]
    count = sum(isinstance(one, Frame) for one in marks)
    return "".join(line + "\n" for line in [*lines, f"frames {count} skipped {len(marks) - count}"]).encode()


def log_text(data):
    marks = rows(data)
    lines = [f"{one[0]} {one[1]} {frame_text(one[2], False)}" if len(one) == 3 else f"{one[0]} skip {data[one[0]]:02x} {one[1]}"
             for one in marks]
    count = sum(len(one) == 3 for one in marks)
    return "".join(line + "\n" for line in [*lines, f"rows {count} skipped {len(marks) - count}"]).encode()


class Admission:
    """Which frames a node or a router lets through: 0, or the code of a refusal."""

    def __init__(self):
        self.last, self.local = {}, 0

    def code(self, frame):
        stream = (*frame.node, frame.link)
        last = self.last.get(stream)
        tests = [(1, not frame.is_signed), (2, not frame.is_good()), (3, last is not None and frame.stamp <= last),
                 (4, frame.stamp + MINUTE < self.local), (5, last is None and len(self.last) == 256)]
        code = next((code for code, holds in tests if holds), 0)
        if not code:
            self.last[stream], self.local = frame.stamp, max(self.local, frame.stamp)
        return code


def route_text(data, is_open):
    """What a router prints whose first port gives these bytes and whose second gives none, and what goes out there."""
    marks, admission, lines, out = reading(data, is_open), Admission(), [], b""
    for one in marks:
        if not isinstance(one, Frame):
            continue
        code = 0 if is_open and not one.is_signed else admission.code(one)
        goes = not code and one.target()[0] == 0
        out += one.whole * goes
        fate = f"refused {code}" if code else "to 2" if goes else "to -"
        lines.append(f"1 {one.node[0]}.{one.node[1]}/{one.link} {one.stamp} {one.identity} {fate}")
    skipped = sum(not isinstance(one, Frame) for one in marks)
    lines += [f"port 1 read {len(data)} skipped {skipped} written 0 ended", f"port 2 read 0 skipped 0 written {len(out)} ended"]
    return "".join(line + "\n" for line in lines).encode(), out
