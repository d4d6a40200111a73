"""The model's drones and stations in the mission protocol, row by row as the rules have them.

A stream is (system, component, link). Items are (params, x, y, z, command, frame, current, autocontinue).
"""

from frames import ACK, CLEAR, COUNT, ITEM, LIST, PING, REQUEST, fields_of, message, small_number, target_of

LIMITS = (1000, 200, 50)
COMMANDS = ((16, 20, 21, 22, 2000), (5000, 5001, 5002), (5100,))
QUIET = 5


def item_fault(kind, item):
    """The result code of the first fault of an item; 0 if it has none."""
    params, x, y, _, command, frame = item[:6]
    if frame not in (0, 3, 5, 6) and not (kind == 0 and frame == 2 and command not in (16, 21, 22)):
        return 2
    if command not in COMMANDS[kind]:
        return 3
    if frame != 2 and abs(x) > 900_000_000:
        return 10
    if frame != 2 and abs(y) > 1_800_000_000:
        return 11
    if command in (5001, 5002) and small_number(params[0]) not in range(3, 71):
        return 6
    return 0


def is_whole(kind, items):
    """Whether each polygon of a fence is whole."""
    at = 0
    while kind == 1 and at < len(items):
        size = 1 if items[at][4] == 5000 else small_number(items[at][0][0])
        corners = {(item[4], item[0][0]) for item in items[at:at + size]}
        if at + size > len(items) or len(corners) != 1:
            return False
        at += size
    return True


def item_message(to, kind, number, item):
    params, x, y, z, command, frame, current, onwards = item
    return message(ITEM, *params, x, y, z, number, command, *to, frame, current, onwards, kind)


def item_in(fields):
    """The kind, the number and the item of a message."""
    return fields[14], fields[7], (fields[:4], fields[4], fields[5], fields[6], fields[8], *fields[11:14])


class Drone:
    """The plans of a drone, its open upload and download, and what became of each stream's last upload."""

    def __init__(self, system, plans):
        self.system = system
        self.plans = plans
        self.upload = self.download = None
        self.installed = {}

    def step(self, stream, sent):
        """Takes a message, and returns the answer or None, and what became of the plans: a tuple or None."""
        identity, to = sent[0], target_of(sent)
        if identity == PING:
            fields = fields_of(sent)
            return (message(PING, *fields[:2], *stream[:2]) if to == (0, 0) else None), None
        if to not in ((self.system, 1), (self.system, 0)):
            return None, None
        rule = {COUNT: self.count, ITEM: self.item, ACK: self.ack, CLEAR: self.clear, LIST: self.list,
                REQUEST: self.request}.get(identity)
        return rule(stream, fields_of(sent)) if rule else (None, None)

    def close_upload(self, stream):
        if self.upload and self.upload["stream"] == stream:
            self.upload = None

    def close_download(self, stream):
        if self.download and self.download["stream"] == stream:
            self.download = None

    def count(self, stream, fields):
        total, kind = fields[0], fields[3]
        denied = lambda code: (message(ACK, *stream[:2], code, kind), None)
        if kind > 2:
            self.close_upload(stream)
            return denied(3)
        if self.upload and self.upload["stream"] != stream:
            return denied(14)
        if total == 0 or total > LIMITS[kind]:
            self.close_upload(stream)
            return denied(4 if total else 5)
        if stream not in self.installed and len(self.installed) == 256:
            return denied(14)
        self.upload = {"stream": stream, "kind": kind, "total": total, "items": [], "idle": 0}
        self.installed[stream] = False
        return message(REQUEST, 0, *stream[:2], kind), None

    def item(self, stream, fields):
        upload = self.upload
        if not upload or upload["stream"] != stream:
            return None, None
        kind, number, item = item_in(fields)
        acknowledged = lambda code: message(ACK, *stream[:2], code, upload["kind"])
        if kind != upload["kind"] or number != len(upload["items"]):
            return message(REQUEST, len(upload["items"]), *stream[:2], upload["kind"]), None
        code = item_fault(kind, item)
        if code:
            self.upload = None
            return acknowledged(code), None
        upload["items"].append(item)
        upload["idle"] = 0
        if len(upload["items"]) < upload["total"]:
            return message(REQUEST, len(upload["items"]), *stream[:2], kind), None
        self.upload = None
        if not is_whole(kind, upload["items"]):
            return acknowledged(5), None
        self.plans[kind] = upload["items"]
        self.installed[stream] = True
        return acknowledged(0), ("install", kind, upload["total"], stream)

    def ack(self, stream, fields):
        self.close_download(stream)
        if fields[2] != 15:
            return None, None
        self.close_upload(stream)
        code = {True: 0, False: 15, None: 1}[self.installed.get(stream)]
        return message(ACK, *stream[:2], code, fields[3]), None

    def clear(self, stream, fields):
        kind = fields[2]
        answer = lambda code: message(ACK, *stream[:2], code, kind)
        if kind not in (0, 1, 2, 255):
            return answer(3), None
        if self.upload and self.upload["stream"] != stream:
            return answer(14), None
        self.upload = None
        kinds = (0, 1, 2) if kind == 255 else (kind,)
        for cleared in kinds:
            self.plans[cleared] = []
        return answer(0), ("clear", kinds)

    def list(self, stream, fields):
        kind = fields[2]
        if kind > 2 or self.download and self.download["stream"] != stream:
            return message(ACK, *stream[:2], 3 if kind > 2 else 14, kind), None
        items = list(self.plans[kind])
        self.download = {"stream": stream, "kind": kind, "items": items, "idle": 0} if items else None
        return message(COUNT, len(items), *stream[:2], kind), None

    def request(self, stream, fields):
        number, kind, open_ = fields[0], fields[3], self.download
        is_open = open_ and (open_["stream"], open_["kind"]) == (stream, kind) and number < len(open_["items"])
        if not is_open:
            return message(ACK, *stream[:2], 13, kind), None
        open_["idle"] = 0
        return item_message(stream[:2], kind, number, open_["items"][number]), None

    def tick(self):
        if self.download:
            self.download["idle"] += 1
            self.download = self.download if self.download["idle"] < QUIET else None
        upload = self.upload
        if not upload:
            return None
        upload["idle"] += 1
        to, kind = upload["stream"][:2], upload["kind"]
        if upload["idle"] < QUIET:
            return message(REQUEST, len(upload["items"]), *to, kind)
        self.upload = None
        return message(ACK, *to, 15, kind)
