"""What `page` has seen of the traffic: bounded, whatever comes."""

import json
import re
import threading

from texts import FIELD, FRAME

WATCHED = ["GLOBAL_POSITION_INT", "HEARTBEAT", "MISSION_COUNT", "MISSION_ITEM_INT", "STATUSTEXT"]
COUNTS = ("links", "read", "skipped", "admitted", "refused", "written", "dropped")
KINDS = {"0": "mission", "1": "fence", "2": "rally"}
MOST_NODES, MOST_PLANS, MOST_ITEMS, MOST_PLACES, MOST_LINKS, LAST = 256, 64, 1000, 499, 64, 20
PORT = re.compile("port ([0-9]{1,3}) " + " ".join(f"{name} ([0-9]+)" for name in COUNTS))
LINK = re.compile("link ([0-9]+) port ([0-9]+) (open|closed.*)")
REFUSED = re.compile(".* bad|.* refused [0-9]+|link refused .*|[a-z]+ fault|lines lost .*|bad .*")


class Traffic:
    """What was seen so far: bounded, whatever comes."""

    def __init__(self, known):
        self.known = known
        self.changed = threading.Condition()
        self.version, self.frames, self.skipped = 0, 0, 0
        self.nodes, self.plans, self.ports, self.links = {}, {}, {}, {}
        self.refusals, self.messages = [], {}

    def take(self, line):
        """Takes one line of text; numbers that no program prints are passed over."""
        try:
            self.take_line(line)
        except ValueError:
            pass

    def take_line(self, line):
        match = FRAME.fullmatch(line)
        with self.changed:
            port, link = PORT.fullmatch(line), LINK.fullmatch(line)
            if match and match[3] in self.known:
                self.frame(match)
            elif " skip " in line[:40]:
                self.skipped += 1
            elif port and int(port[1]) <= 8:
                self.ports[port[1]] = dict(zip(COUNTS, map(int, port.groups()[1:])))
            elif link and link[3] == "open" and len(self.links) < MOST_LINKS:
                self.links[link[1]] = link[2]
            elif link:
                self.links.pop(link[1], None)
            if REFUSED.fullmatch(line):
                self.refusals = [line[:200], *self.refusals][:LAST]
            self.version += 1
            self.changed.notify_all()

    def frame(self, match):
        """Takes a frame; one whose signature is bad says nothing of a vehicle."""
        if match[11] == "bad":
            return
        self.frames += 1
        self.messages[match[3]] = self.messages.get(match[3], 0) + 1
        name = f"{match[4]}.{match[5]}"
        if name not in self.nodes and len(self.nodes) >= MOST_NODES:
            return
        node = self.nodes.setdefault(name, {"frames": 0, "way": []})
        node["frames"] += 1
        if match[3] not in WATCHED:
            return
        fields = dict(FIELD.findall(match[8]))
        try:
            self.watch(node, name, match[3], fields)
        except KeyError:
            pass  # Definitions that name these messages and have other fields.

    def watch(self, node, name, message, fields):
        """Takes the fields of a message that is shown."""
        if message == "GLOBAL_POSITION_INT":
            place = [int(fields["lat"]), int(fields["lon"])]
            if node["way"][-1:] != [place]:
                node["way"] = [*node["way"][-MOST_PLACES:], place]
            node["altitude_mm"] = int(fields["alt"])
        elif message == "HEARTBEAT":
            node["armed"] = int(fields["base_mode"]) & 128 == 128
        elif message == "STATUSTEXT":
            node["text"] = fields["text"][1:-1]
        elif fields.get("mission_type") in KINDS:
            target = f"{fields['target_system']}.{fields['target_component']}"
            kind = KINDS[fields["mission_type"]]
            self.plan(message, f"{kind} from {name} to {target}", fields)

    def plan(self, message, pair, fields):
        """Takes a count or an item of a plan from one node to another."""
        if message == "MISSION_COUNT" and (pair in self.plans or len(self.plans) < MOST_PLANS):
            self.plans[pair] = {"count": int(fields["count"]), "items": {}}
        elif pair in self.plans:
            plan, seq = self.plans[pair], int(fields["seq"])
            if 0 <= seq < min(plan["count"], MOST_ITEMS):
                plan["items"][seq] = [int(fields[name]) for name in ("command", "x", "y")]

    def state(self):
        """Returns what the page shows, as JSON."""
        return json.dumps({
            "nodes": self.nodes, "plans": self.plans, "ports": self.ports, "links": self.links,
            "refusals": self.refusals, "frames": self.frames, "skipped": self.skipped})

    def metrics(self):
        """Returns the counts in the text format of Prometheus."""
        lines = ["# TYPE bevuntri_frames_total counter", f"bevuntri_frames_total {self.frames}",
                 "# TYPE bevuntri_skipped_total counter", f"bevuntri_skipped_total {self.skipped}",
                 "# TYPE bevuntri_node_frames_total counter"]
        lines += [f'bevuntri_node_frames_total{{node="{name}"}} {node["frames"]}'
                  for name, node in self.nodes.items()]
        lines += ["# TYPE bevuntri_message_frames_total counter"]
        lines += [f'bevuntri_message_frames_total{{message="{name}"}} {count}'
                  for name, count in self.messages.items()]
        for name in COUNTS:
            kind = "links gauge" if name == "links" else f"{name}_total counter"
            lines += [f"# TYPE bevuntri_port_{kind}"]
            lines += [f'bevuntri_port_{kind.split()[0]}{{port="{port}"}} {counts[name]}'
                      for port, counts in self.ports.items()]
        return "\n".join(lines) + "\n"
