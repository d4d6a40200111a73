"""The commands that `starved` runs, the files that they read, and what must hold of each after a refused call."""

import os

import frames
from peers import now
from stores import KEY_FILE, NoStore, stored

SCENARIO = """drone 1
station 255 190
items 3 6 16 100 200
begin 255.190 1.1 mission
flow 40
get 255.190 1.1 mission
flow 40
command 255.190 1.1 400 3f800000
flow 2
command 255.190 1.1 300 00000000
flow 2
sim 1.1 3
restart 1.1
params 255.190 1.1
flow 50
"""
FENCE = """home 0 0
ticks 20
fence
item 6 5001 -5000 -5000 00000000 40400000
item 6 5001 5000 -5000 00000000 40400000
item 6 5001 0 5000 00000000 40400000
mission
item 6 16 1000 1000
item 6 16 9000 1000
"""
DEFINITIONS = '{"messages": [{"id": 180, "name": "SAMPLE", "fields": [{"type": "uint16_t[4]", "name": "echoes"}]}]}'
ITEMS = "items 3 6 16 100 200\n"
# The words of each command, and the files that it writes beside what it prints.
COMMANDS = {
    "fleet": (["fleet", "--key", "h-key", "h-scenario"], []),
    "fleet --frames": (["fleet", "--frames", "h-scenario"], []),
    "decode": (["decode", "--key", "h-key", "h-capture"], []),
    "dialect": (["dialect", "--defs", "h-defs"], []),
    "log show": (["log", "show", "h-log"], []),
    "log filter": (["log", "filter", "1", "h-log"], []),
    "log make": (["log", "make", "1000", "h-capture"], []),
    "fence": (["fence", "h-fence"], []),
    "route --one": (["route", "--one", "--key", "h-key", "file:h-capture:h-out1", "file:h-other:h-out2"],
                    ["h-out1", "h-out2"]),
    "route": (["route", "--key", "h-key", "file:h-capture:h-out1", "file:h-other:h-out2"], ["h-out1", "h-out2"]),
    "drone": (["drone", "--key", "h-key", "--store", "h-store", "1", "file:h-upload:h-out1"], ["h-out1"]),
    "station": (["station", "--key", "h-key", "--ticks", "3", "--file", "h-items", "255", "190", "1",
                 "file:h-empty:h-out1", "upload", "mission"], ["h-out1"]),
}
ENDINGS = {4: [b"read fault\n"], 9: [b"no answer 3\n"], 10: [b"store fault\n"], 12: [b"port fault\n"]}
# The statuses that a refused call of each class may lead to beside the right one.
STATUSES = {"read": (4, 10, 12), "write": (5, 10, 12), "sync": (10,), "open": (4, 10, 12), "rename": (10,),
            "memory": (7,)}


def capture(node, count):
    """Frames of a node, signed and not, with bytes between them that are in none."""
    stamp = 1_000_000
    sent = [frames.message(frames.HEARTBEAT, n, 2, 3, 81, 4, 3) for n in range(count)]
    whole = [frames.bytes_of(node, n, stamp + n, one, 0, frames.KEY if n % 5 else None) for n, one in enumerate(sent)]
    return b"".join(one + b"\0\xfd" * (n % 3 == 2) for n, one in enumerate(whole))


def upload():
    """What a station sends that uploads two items, and after them clears the rally points."""
    item = lambda n: frames.message(frames.ITEM, 0, 0, 0, 0, 100 + n, 200, 0, n, 16, 1, 1, 6, 0, 1, 0)
    count, clear = frames.message(frames.COUNT, 2, 1, 1, 0), frames.message(frames.CLEAR, 1, 1, 2)
    stamp, sent = now(), [count, item(0), item(1), clear]
    return b"".join(frames.bytes_of((255, 190), n, stamp + n, one) for n, one in enumerate(sent))


def write_files(folder):
    """The files of all commands, anew; none of those that they write."""
    for name in os.listdir(folder):
        os.unlink(os.path.join(folder, name))
    rows = b"".join((10**15 + n).to_bytes(8, "big") + one for n, one in enumerate(
        frames.bytes_of((1 + n % 2, 1), n, 5 + n, frames.message(frames.PING, 0, n, 0, 0)) for n in range(40)))
    whole = {"h-key": KEY_FILE, "h-scenario": SCENARIO.encode(), "h-fence": FENCE.encode(),
             "h-defs": DEFINITIONS.encode(), "h-items": ITEMS.encode(), "h-empty": b"", "h-log": rows,
             "h-capture": capture((1, 1), 60),
             "h-other": capture((2, 1), 60), "h-upload": upload()}
    for name, data in whole.items():
        with open(os.path.join(folder, name), "wb") as file:
            file.write(data)


class Result:
    """What a run left: its status, what it printed, and the files that it wrote."""

    def __init__(self, folder, status, files):
        self.status = status
        self.printed, *self.files = [content(os.path.join(folder, name)) for name in ["printed", *files]]


def content(path):
    try:
        with open(path, "rb") as file:
            return file.read()
    except FileNotFoundError:
        return b""


def shape(name, data):
    """What a command wrote to a port, without what the time of a run changes: of a drone or a station the messages."""
    return data if name.startswith("route") else [found[5][0] for found in frames.frames_in(data)]


def text(name, result):
    """What was printed; of a router with threads its lines in an order of ours, since theirs isn't fixed."""
    return sorted(result.printed.splitlines()) if name == "route" else result.printed


def wrong_with(name, which, is_short, right, found, folder):
    """What isn't as it should be after a refused call; None if all is."""
    if found.status == right.status and text(name, found) == text(name, right):
        return None if [shape(name, f) for f in found.files] == [shape(name, f) for f in right.files] else "other files"
    if is_short:
        return f"status {found.status} and {len(found.printed)} bytes after a short one"
    if found.status not in (right.status, *STATUSES[which]) or found.status < 0:
        return f"status {found.status}"
    for ours, theirs in zip(found.files, right.files):
        if name != "drone" and shape(name, ours) != shape(name, theirs)[:len(shape(name, ours))]:
            return "a file that isn't a beginning of the right one"
    if name.startswith("route"):
        return None
    return wrong_store(folder, found) if name == "drone" else wrong_text(right, found)


def wrong_text(right, found):
    """What was printed is a beginning of the right text, and behind it the text of the status."""
    text = found.printed
    for ending in ENDINGS.get(found.status, []):
        if not text.endswith(ending):
            return f"no {ending!r} at the end"
        text = text.removesuffix(ending)
    return None if right.printed.startswith(text) else "a text that isn't a beginning of the right one"


def wrong_store(folder, found):
    """A drone's store has the plan that it acknowledged, or none; an acknowledgement is of what the store has."""
    path = os.path.join(folder, "h-store")
    acknowledged = any(sent[0] == frames.ACK and frames.fields_of(sent)[2:] == (0, 0)
                       for *_, sent in frames.frames_in(found.files[0]))
    try:
        plan = stored(path)[1][0] if os.path.exists(path) and os.path.getsize(path) else []
    except NoStore as fault:
        return str(fault)
    if len(plan) not in (0, 2) or acknowledged and not plan:
        return f"a store with {len(plan)} items, {acknowledged=}"
    return None
