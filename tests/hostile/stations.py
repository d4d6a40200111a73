"""The model's station in the mission protocol, phase by phase as the rules have it."""

from frames import ACK, CLEAR, COUNT, ITEM, LIST, PING, REQUEST, fields_of, message, target_of
from plans import LIMITS, QUIET, item_in, item_message

ASKING, CANCELLING, SENDING, CLEARING, LISTING, GETTING = range(1, 7)


class Station:
    """A station's one operation, and the drones that it is settled with."""

    def __init__(self, name):
        self.name = name
        self.settled = set()
        self.pings = 0
        self.doing = None
        self.outcome = None

    def begin(self, what, drone, kind, items=()):
        """Begins an operation: what to send, or why it is refused."""
        if self.doing:
            return None, f"busy {self.doing['phase']}"
        if what == "upload" and not items:
            return None, "empty"
        if what == "upload" and len(items) > LIMITS[kind]:
            return None, f"not fit {LIMITS[kind]}"
        self.doing = {"what": what, "drone": drone, "kind": kind, "items": list(items), "idle": 0, "ending": False,
                      "asked": False, "last": False, "code": None, "phase": 0}
        return (self.go_on() if drone in self.settled else self.round()), None

    def round(self):
        self.pings += 1
        self.doing["phase"] = ASKING
        return message(PING, 0, self.pings, 0, 0)

    def go_on(self):
        doing = self.doing
        doing["idle"] = 0
        to, kind = doing["drone"][:2], doing["kind"]
        if doing["what"] == "upload":
            doing["phase"] = SENDING
            return message(COUNT, len(doing["items"]), *to, kind)
        if doing["what"] == "clear":
            doing["phase"] = CLEARING
            return message(CLEAR, *to, kind)
        doing["phase"], doing["items"] = LISTING, []
        return message(LIST, *to, kind)

    def end(self, *outcome):
        self.outcome, self.doing = outcome, None

    def cancel(self):
        if not self.doing or self.doing["ending"]:
            return None
        self.doing["ending"] = True
        return self.round() if self.doing["phase"] >= SENDING else None

    def step(self, stream, sent):
        """Takes a message, and returns what to send or None."""
        doing = self.doing
        if not doing or stream != doing["drone"] or target_of(sent) != self.name:
            return None
        rule = {ASKING: self.asking, CANCELLING: self.cancelling, SENDING: self.sending, CLEARING: self.clearing,
                LISTING: self.listing, GETTING: self.getting}[doing["phase"]]
        return rule(sent[0], fields_of(sent), doing)

    def asking(self, identity, fields, doing):
        if identity != PING or fields[:2] != (0, self.pings):
            return None
        doing["phase"] = CANCELLING
        return message(ACK, *doing["drone"][:2], 15, doing["kind"])

    def cancelling(self, identity, fields, doing):
        if identity != ACK or fields[2] not in (0, 1, 15):
            return None
        self.settled.add(doing["drone"])
        if not doing["ending"]:
            return self.go_on()
        if doing["what"] != "upload":
            self.end("ended", 15)
        elif doing["last"] and fields[2] in (0, 1):
            self.end("unknown" if fields[2] else "installed")
        else:
            self.end("not installed", 15 if doing["code"] is None else doing["code"])
        return None

    def sending(self, identity, fields, doing):
        if identity == REQUEST and fields[3] == doing["kind"] and fields[0] < len(doing["items"]):
            doing["asked"], doing["idle"] = True, 0
            doing["last"] = doing["last"] or fields[0] == len(doing["items"]) - 1
            return item_message(doing["drone"][:2], doing["kind"], fields[0], doing["items"][fields[0]])
        if identity != ACK:
            return None
        code = fields[2]
        if code == 0 and doing["asked"] and doing["last"]:
            self.end("installed")
        elif code != 0 and doing["asked"] or code in (3, 4, 5, 14):
            doing["code"], doing["ending"] = code, True
            return self.round()
        return None

    def clearing(self, identity, fields, doing):
        if identity == ACK and fields[2] == 0:
            self.end("cleared")
        elif identity == ACK and fields[2] in (3, 14):
            self.end("ended", fields[2])

    def listing(self, identity, fields, doing):
        if identity == ACK and fields[2] in (3, 14):
            self.end("ended", fields[2])
        if identity != COUNT or fields[3] != doing["kind"]:
            return None
        to, kind = doing["drone"][:2], doing["kind"]
        if fields[0] == 0:
            self.end("got", [])
            return message(ACK, *to, 0, kind)
        if fields[0] > LIMITS[kind]:
            self.end("ended", 4)
            return None
        doing["phase"], doing["idle"], doing["total"] = GETTING, 0, fields[0]
        return message(REQUEST, 0, *to, kind)

    def getting(self, identity, fields, doing):
        if identity == ACK and fields[2] != 0:
            self.end("ended", fields[2])
        if identity != ITEM:
            return None
        kind, number, item = item_in(fields)
        if kind != doing["kind"] or number != len(doing["items"]):
            return None
        doing["items"].append(item)
        doing["idle"] = 0
        return self.next_of(doing)

    def next_of(self, doing):
        to, kind = doing["drone"][:2], doing["kind"]
        if len(doing["items"]) < doing["total"]:
            return message(REQUEST, len(doing["items"]), *to, kind)
        self.end("got", doing["items"])
        return message(ACK, *to, 0, kind)

    def tick(self):
        doing = self.doing
        if not doing:
            return None
        if doing["phase"] == ASKING:
            return message(PING, 0, self.pings, 0, 0)
        if doing["phase"] == CANCELLING:
            return self.round()
        doing["idle"] += 1
        if doing["idle"] == QUIET:
            doing["ending"] = doing["ending"] or doing["phase"] == SENDING
            return self.round()
        to, kind = doing["drone"][:2], doing["kind"]
        if doing["phase"] == SENDING and not doing["asked"]:
            return message(COUNT, len(doing["items"]), *to, kind)
        if doing["phase"] == GETTING:
            return message(REQUEST, len(doing["items"]), *to, kind)
        return None
