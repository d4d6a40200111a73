"""One stream of each kind, and what each command must do with every beginning of it; `prefixes` runs them.

What is wanted comes from `readings.py`, from the model of `tests/fuzz`, and from the manual's texts."""

import json
import os
import struct
import sys

import frames
from frames import bytes_of, checksum, message
from lines import World
from readings import decode_text, log_text, reading, route_text, rows

sys.path.insert(0, os.path.join(os.path.dirname(os.path.realpath(__file__)), ".."))
from slots import SIZE, SLOT, store_of

KEY_TEXT = frames.KEY.hex().encode()
NODE, STATION, LATE, START = (1, 1), (255, 190), 2**47, 10**15
BAD_KEY, BAD_DEFINITIONS, BAD_STORE, STORE_FAULT = b"bad key: key\n", b"bad definitions: json\n", b"bad store: kept\n", b"store fault\n"
DRONE = ["drone", "--key", "k", "--store", "s", "1", "file:a:x"]


class Cut:
    """A run on a beginning of a stream: its words and files, and the status, text and files that are wanted of it."""

    def __init__(self, name, words, files, status=0, text=b"", left=None):
        self.name, self.words, self.files, self.status, self.text, self.left = name, words, files, status, text, left or {}


def old_frame(number, node, sent, size):
    """A frame of MAVLink 1 with so many bytes of payload."""
    identity, payload = sent
    body = bytes([size, number, *node, identity]) + payload[:size].ljust(size, b"\0")
    return b"\xfe" + body + checksum(body + bytes([frames.MESSAGES[identity][1]])).to_bytes(2, "little")


def heartbeat(number=0):
    return message(frames.HEARTBEAT, number, 2, 3, 81, 4, 3)


def captured():
    """Frames of both versions, signed and not, with bytes between them that are in none."""
    count, ping, value = message(frames.COUNT, 2, 255, 190, 1), message(frames.PING, 0, 7, 0, 0), b"\0\0\x80\x3f\3\0\1\0RATE\\\1"
    signed = bytes_of(NODE, 4, 1000, heartbeat(4))
    other = bytes_of(NODE, 8, 1300, heartbeat(8))
    return [old_frame(1, NODE, heartbeat(1), 9), old_frame(2, (2, 1), count, 5), old_frame(3, (2, 1), count, 1), b"\xfe\1",
            bytes_of(NODE, 5, 0, heartbeat(5), key=None), bytes_of((3, 9), 6, 0, ping, key=None), b"\0\xfd\4", signed,
            bytes_of(STATION, 7, 1001, ping, 3), other[:-1] + bytes([other[-1] ^ 1]), signed, b"\xfd\xff\1",
            bytes_of(NODE, 9, 1400, count), b"\xfd\0\0\0\0\1\1\1\0\0", other[:15] + bytes([other[15] ^ 8]) + other[16:],
            bytes_of(NODE, 10, 1500, (frames.PARAM_VALUE, value.ljust(25, b"\0"))), other]


def of_captures():
    data = b"".join(captured())
    for size in range(len(data) + 1):
        part = data[:size]
        yield Cut("capture: decode", ["decode", "a"], {"a": part}, 0, decode_text(part, False))
        yield Cut("capture: decode --key", ["decode", "--key", "k", "a"], {"a": part, "k": KEY_TEXT}, 0, decode_text(part, True))
        made = b"".join((START + 1000 * at).to_bytes(8, "big") + frame.whole
                        for at, frame in enumerate(one for one in reading(part, True) if not isinstance(one, tuple)))
        yield Cut("capture: log make", ["log", "make", str(START), "a"], {"a": part}, 0, made)
        for open_, is_open in (("open:", True), ("", False)):
            text, out = route_text(part, is_open)
            for one in (["--one"], []):
                yield Cut(f"capture: route {' '.join([*one, open_ + 'file:'])}",
                          ["route", *one, "--key", "k", f"{open_}file:a:x", f"{open_}file:b:y"],
                          {"a": part, "b": b"", "k": KEY_TEXT}, 0, text, {"x": b"", "y": out})


def of_logs():
    data = b"".join((START + 7 * at).to_bytes(8, "big") + one if len(one) > 10 else one for at, one in enumerate(captured()))
    for size in range(len(data) + 1):
        part = data[:size]
        marks = [one for one in rows(part) if len(one) == 3]
        yield Cut("log: log show", ["log", "show", "a"], {"a": part}, 0, log_text(part))
        chosen = b"".join(micros.to_bytes(8, "big") + frame.whole for _, micros, frame in marks if frame.node[0] == 2)
        yield Cut("log: log filter", ["log", "filter", "2", "a"], {"a": part}, 0, chosen)
        played = b"".join(frame.whole for *_, frame in marks)
        text, out = route_text(played, True)
        yield Cut("log: route replay:", ["route", "--one", "--key", "k", "open:replay:a:x", "open:file:b:y"],
                  {"a": part, "b": b"", "k": KEY_TEXT}, 0, text, {"x": b"", "y": out})


def ends_of(parts, size):
    """How many of the parts are whole in so many bytes of all."""
    count = 0
    while count < len(parts) and len(parts[count]) <= size:
        size -= len(parts[count])
        count += 1
    return count


def to_drone():
    """What a drone gets: an upload of two items, a parameter, a command, a cleared kind, and frames that it refuses."""
    item = lambda n: message(frames.ITEM, 0, 0, 0, 0, 100 + n, 200, 0, n, 16, *NODE, 6, 0, 1, 0)
    sent = [message(frames.COUNT, 2, *NODE, 0), item(0), item(1), message(frames.PARAM_REQUEST_READ, 0, *NODE, bytes(16)),
            message(frames.COMMAND_LONG, 0x3F800000, 0, 0, 0, 0, 0, 0, 400, *NODE, 0), message(frames.CLEAR, *NODE, 2),
            message(frames.PING, 5, 6, 0, 0), message(frames.LIST, *NODE, 0)]
    whole = [bytes_of(STATION, n, LATE + n, one) for n, one in enumerate(sent)]
    return [bytes_of(STATION, 0, 0, heartbeat(), key=None), *whole[:2], whole[0], *whole[2:5],
            bytes_of(STATION, 9, LATE + 9, heartbeat(), key=bytes(32)), *whole[5:]]


def image_of(node):
    """What a drone's store holds, by the manual: its system, its low bound, and its plans."""
    image = bytes([node.name[0]]) + node.kept_floor.to_bytes(8, "little")
    for items in node.plans.plans:
        image += len(items).to_bytes(2, "little")
        for params, x, y, z, command, frame, current, onwards in items:
            image += struct.pack("<BHBB4IiiI", frame, command, current, onwards, *params, x, y, z)
    return image


def drone_after(parts):
    """The model's drone after these frames, and what it told."""
    world = World(False)
    world.do_drone("1")
    world.do_heartbeat("1.1")
    for part in parts:
        world.do_noise("1.1", part.hex())
    return world.nodes["1.1"], "".join(text + "\n" for text in world.texts).encode()


def of_drones():
    parts = to_drone()
    data = b"".join(parts)
    for size in range(len(data) + 1):
        whole = parts[:ends_of(parts, size)]
        node, text = drone_after(whole)
        left = {"s": store_of(image_of(node))} if node.last else {}
        yield Cut("input: drone", DRONE, {"a": data[:size], "k": KEY_TEXT}, 0, text, left)


def of_stations():
    """A list of three parameters, of which each beginning but the whole leaves the station without an answer."""
    value = lambda n: message(frames.PARAM_VALUE, bytes([n, 0, 0, 0]), 3, n, b"SIM_%d" % n, 6)
    parts = [bytes_of(NODE, 0, 0, heartbeat(), key=None), *(bytes_of(NODE, n, LATE + n, value(n)) for n in range(3))]
    data = b"".join(parts)
    for size in range(len(data) + 1):
        text, status = params_text(parts[:ends_of(parts, size)])
        yield Cut("input: station", ["station", "--key", "k", "255", "190", "1", "file:a:x", "param", "list"],
                  {"a": data[:size], "k": KEY_TEXT}, status, text)


def params_text(parts):
    world = World(False)
    world.do_drone("1")
    world.do_station("255", "190")
    world.do_heartbeat("255.190")
    world.do_params("255.190", "1.1")
    for part in parts:
        world.do_noise("255.190", part.hex())
    node = world.nodes["255.190"]
    is_done = node.lister.drone is None
    while node.lister.drone:
        node.tick()
        node.heartbeat()
    text = "".join(line + "\n" for line in world.texts)
    return (text if is_done else text + "no answer 5\n").encode(), 0 if is_done else 9


def of_stores(each):
    """Files of a store that are too short, and stores of which each holds a beginning of an image."""
    node, _ = drone_after(to_drone())
    image = image_of(node)
    whole = store_of(image)
    near = {at + n for at in (0, len(image), SLOT, SIZE) for n in range(-40, 700)}
    for size in range(SIZE):
        if each or size in near or size % 997 == 0:
            yield Cut("store: drone --store", DRONE, {"a": b"", "k": KEY_TEXT, "s": whole[:size]}, 10, STORE_FAULT,
                      {"s": whole[:size]})
    for size in range(1, len(image)):
        store = store_of(image[:size])
        yield Cut("image: drone --store", DRONE, {"a": b"", "k": KEY_TEXT, "s": store}, 3, BAD_STORE, {"s": store})
    yield Cut("image: drone --store", DRONE, {"a": b"", "k": KEY_TEXT, "s": whole}, 0, b"1 1.1 HEARTBEAT\n")


def of_keys():
    whole, data = KEY_TEXT + b"\r\n0", bytes_of(STATION, 7, 1001, message(frames.PING, 0, 7, 0, 0), 3)
    for size in range(len(whole) + 1):
        files = {"a": data, "b": b"", "k": whole[:size]}
        good, bad = size in (0, 64, 66), (3, BAD_KEY)
        yield Cut("key: decode", ["decode", "--key", "k", "a"], files, *((0, decode_text(data, True)) if good else bad))
        yield Cut("key: fleet", ["fleet", "--key", "k", "b"], files, *((0, b"") if good else bad))
        good = good and size > 0
        text, out = route_text(data, False)
        yield Cut("key: route", ["route", "--one", "--key", "k", "file:a:x", "file:b:y"], files,
                  *((0, text, {"y": out}) if good else bad))
        yield Cut("key: drone", ["drone", "--key", "k", "1", "file:b:x"], files,
                  *((0, b"1 1.1 HEARTBEAT\n") if good else bad))
        yield Cut("key: station", ["station", "--key", "k", "255", "190", "1", "file:b:x", "param", "list"], files,
                  *(reversed(params_text([])) if good else bad))


def of_definitions():
    fields = [("uint64_t", "time_usec"), ("float", "depth"), ("uint16_t[4]", "echoes"), ("char[5]", "name")]
    whole = json.dumps({"messages": [{"id": 180, "name": "SAMPLE", "note": "\u00e9\U0001f680",
                                      "fields": [dict(zip(("type", "name"), each)) for each in fields]}]},
                       ensure_ascii=False).encode()
    hashed = b"SAMPLE " + b"".join(f"{of.partition('[')[0]} {name} ".encode() + bytes(n for n in [int(of.partition('[')[2][:-1] or 0)] if n)
                                   for of, name in fields)
    extra = checksum(hashed)
    text = (f"180 SAMPLE len 25 full 25 extra {extra & 255 ^ extra >> 8}\n 0 uint64_t time_usec\n 8 float depth\n"
            " 12 uint16_t[4] echoes\n 20 char[5] name\nmessages 1\n").encode()
    for size in range(len(whole) + 2):
        files = {"a": b"\0", "b": b"", "k": KEY_TEXT, "d": (whole + b"\n")[:size]}
        bad = (3, BAD_DEFINITIONS) if size < len(whole) else None
        yield Cut("definitions: dialect", ["dialect", "--defs", "d"], files, *(bad or (0, text)))
        yield Cut("definitions: decode", ["decode", "--defs", "d", "a"], files, *(bad or (0, decode_text(b"\0", False))))
        yield Cut("definitions: log show", ["log", "show", "--defs", "d", "a"], files, *(bad or (0, log_text(b"\0"))))
        text_of_route = b"port 1 read 0 skipped 0 written 0 ended\n"
        yield Cut("definitions: route", ["route", "--key", "k", "--defs", "d", "file:b:x"], files, *(bad or (0, text_of_route)))


def of_scenarios():
    """Scenarios of which each ends within a line: the last line counts, or is rejected."""
    whole = ("drone 1\nstation 255 190\nitems 3 6 16 100 200\nbegin 255.190 1.1 mission\nflow 40\ntick 1.1\n"
             "noise 1.1 fd0000\nget 255.190 1.1 mission\nflow 40\n")
    for size in range(len(whole) + 1):
        *done, last = whole[:size].split("\n")
        world, reason = World(False), fault_of(last)
        for line in done + [last] * (bool(last) and not reason):
            world.line(line)
        told = f"bad line {len(done) + 1}: {reason}"
        text = "".join(line + "\n" for line in [*world.texts, told]) if reason else world.report()
        yield Cut("scenario: fleet", ["fleet", "a"], {"a": whole[:size].encode()}, 3 if reason else 0, text.encode())


def fault_of(line):
    """Why a beginning of a line of that scenario is rejected; None if it isn't."""
    forms = {"drone": "n", "station": "nn", "item": "nnnn", "items": "nnnnn", "begin": "sdk", "get": "sdk", "flow": "n", "tick": "d", "noise": "dh"}
    word, *rest = line.split(" ")
    if not line or word not in forms:
        return "word" if line else None
    if len(rest) != len(forms[word]):
        return "count"
    right = {"n": str.isdigit, "s": "255.190".__eq__, "d": "1.1".__eq__, "k": "mission".__eq__, "h": lambda t: bool(t) and len(t) % 2 == 0}
    why = {"n": "number", "s": "node", "d": "node", "k": "kind", "h": "hex"}
    return next((why[form] for form, text in zip(forms[word], rest) if not right[form](text)), None)


def cuts(each):
    yield from of_captures()
    yield from of_logs()
    yield from of_drones()
    yield from of_stations()
    yield from of_keys()
    yield from of_definitions()
    yield from of_scenarios()
    yield from of_stores(each)
