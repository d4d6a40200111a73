"""The model's scenario: what each line does, and the report of all."""

from frames import KINDS, text_of
from world import LAST, DroneNode, StampsSpent, StationNode, item_line

NUMBERS = {name: number for number, name in KINDS.items()}


class World:
    """The nodes in the order named, the frames sent, the clock, the draft and the place of flows."""

    def __init__(self, shows_frames):
        self.shows_frames = shows_frames
        self.nodes, self.frames, self.texts, self.draft = {}, [], [], []
        self.clock = self.place = 0
        self.is_spent = False

    def print(self, text):
        self.texts.append(text)

    def sent(self, node, whole, sent):
        self.frames.append((node.name, whole))
        self.print(f"{len(self.frames)} {node.shown} {text_of(sent)}")
        if self.shows_frames:
            self.print(" " + whole.hex())

    def drones(self):
        return [node for node in self.nodes.values() if isinstance(node, DroneNode)]

    def line(self, text):
        """Does a line; the line that meets the end of the timestamps prints nothing of itself and ends all."""
        before = len(self.texts)
        word, *rest = text.split(" ")
        try:
            getattr(self, "do_" + word)(*rest)
        except StampsSpent:
            self.texts[before:] = ["stamps spent"]
            self.is_spent = True

    def report(self):
        if not self.is_spent:
            for drone in self.drones():
                for kind, items in enumerate(drone.plans.plans):
                    self.print(f"plan {drone.shown} {KINDS[kind]} {len(items)}")
                    for at, item in enumerate(items):
                        self.print(item_line(at, item))
        return "".join(text + "\n" for text in self.texts)

    def do_drone(self, system, x="0", y="0"):
        self.nodes[f"{system}.1"] = DroneNode(self, int(system), (int(x), int(y)))

    def do_station(self, system, component):
        self.nodes[f"{system}.{component}"] = StationNode(self, (int(system), int(component)))

    def do_item(self, *words):
        self.do_items("1", *words)

    def do_items(self, count, frame, command, x, y, *words):
        z, *params = (int(word, 16) for word in [*words, *["0"] * (5 - len(words))])
        for at in range(int(count)):
            self.draft.append((tuple(params), int(x) + at, int(y), z, int(command), int(frame), 0, 1))

    def do_empty(self):
        self.draft = []

    def operation(self, name, what, drone, kind, items=()):
        node = self.nodes[name]
        sent, why = node.plans.begin(what, (*self.nodes[drone].name, 0), kind, items)
        if why:
            self.print(f"refused {name} {why}")
        node.send(sent)
        return why is None

    def do_begin(self, name, drone, kind):
        self.place = len(self.frames)
        if self.operation(name, "upload", drone, NUMBERS[kind], self.draft):
            self.draft = []

    def do_clear(self, name, drone, kind):
        self.place = len(self.frames)
        self.operation(name, "clear", drone, NUMBERS[kind])

    def do_get(self, name, drone, kind):
        self.place = len(self.frames)
        self.operation(name, "get", drone, NUMBERS[kind])

    def do_cancel(self, name):
        self.place = len(self.frames)
        self.nodes[name].send(self.nodes[name].plans.cancel())

    def do_command(self, name, drone, number, word):
        self.place = len(self.frames)
        node = self.nodes[name]
        if node.commander.doing:
            self.print(f"refused {name} command busy")
        else:
            node.send(node.commander.issue((*self.nodes[drone].name, 0), int(number), int(word, 16)))

    def do_params(self, name, drone):
        self.place = len(self.frames)
        node = self.nodes[name]
        if node.lister.drone:
            self.print(f"refused {name} params busy")
        else:
            node.send(node.lister.begin((*self.nodes[drone].name, 0)))

    def do_heartbeat(self, name):
        self.nodes[name].heartbeat()

    def do_deliver(self, number, name):
        if int(number) > len(self.frames):
            self.print(f"no frame {number}")
        else:
            self.nodes[name].receive(self.frames[int(number) - 1][1])

    def do_flow(self, count):
        for _ in range(int(count)):
            if self.place == len(self.frames):
                return
            sender, whole = self.frames[self.place]
            self.place += 1
            for node in list(self.nodes.values()):
                if node.name != sender:
                    node.receive(whole)

    def do_noise(self, name, digits):
        self.nodes[name].receive(bytes.fromhex(digits))

    def do_tick(self, name):
        self.nodes[name].tick()

    def do_clock(self, count):
        self.clock += int(count)

    def do_restart(self, name):
        old = self.nodes[name]
        self.print(f"restart {name}")
        node = DroneNode(self, old.name[0], old.home, old.kept_floor, old.plans.plans)
        self.nodes[name] = node
        node.heartbeat()

    def do_sim(self, name, count):
        for _ in range(int(count)):
            self.nodes[name].fly()

    def do_where(self, name):
        place, captures = self.nodes[name].simulator.place, self.nodes[name].simulator.captures
        self.print(f"at {name} {place[0]} {place[1]} captured {captures}")
