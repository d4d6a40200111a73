"""Scenarios drawn from a seed, each line with an eye on what the model has sent so far."""

import random

import frames
from lines import World
from strangers import WORDS, Strangers

KINDS = ["mission", "mission", "mission", "fence", "rally"]
# How often each line comes: for missions, for commands and parameters, and for all that strangers and insiders do.
MISSIONS = {"begin": 12, "cancel": 4, "clear": 4, "get": 8, "flow": 30, "deliver": 40, "tick": 20, "restart": 3,
            "clock": 2, "noise": 6, "items": 4, "talk": 2}
SERVICES = {"begin": 4, "command": 14, "params": 8, "flow": 24, "deliver": 30, "tick": 18, "restart": 2, "sim": 8,
            "where": 4, "heartbeat": 3, "clock": 2, "clear": 2, "noise": 1}
STRANGERS = {"begin": 8, "clear": 3, "get": 4, "command": 4, "params": 2, "flow": 24, "deliver": 20, "tick": 12,
             "restart": 3, "noise": 40, "talk": 6, "clock": 3, "sim": 2, "cancel": 2}


class Drawn(Strangers):
    """A scenario, and the model that has done its lines."""

    def __init__(self, seed, length, shows_frames):
        self.chance = random.Random(seed)
        self.world, self.lines = World(shows_frames), []
        weights = [MISSIONS, SERVICES, STRANGERS][seed % 3]
        self.stations = [f"{255 - n}.{self.chance.choice((190, 1))}" for n in range(self.chance.choice((1, 2, 2, 3)))]
        self.drones = [f"{n + 1}.1" for n in range(self.chance.choice((1, 1, 2)))]
        for line in self.chance.sample(names := self.naming(), len(names)):
            self.add(line)
        while len(self.lines) < length and not self.world.is_spent and len(self.world.frames) < 2000:
            word = self.chance.choices(list(weights), list(weights.values()))[0]
            getattr(self, word)()

    def naming(self):
        homes = [f" {self.chance.randrange(-3000, 3000)} {self.chance.randrange(-3000, 3000)}", ""]
        named = [f"drone {name.split('.')[0]}{self.chance.choice(homes)}" for name in self.drones]
        return named + ["station " + name.replace(".", " ") for name in self.stations]

    def add(self, line):
        if not self.world.is_spent:
            self.lines.append(line)
            self.world.line(line)

    def pair(self):
        return f"{self.chance.choice(self.stations)} {self.chance.choice(self.drones)}"

    def node(self):
        return self.chance.choice(self.stations + self.drones)

    def place(self):
        x, y = self.chance.randrange(-4000, 4000), self.chance.randrange(-4000, 4000)
        ends = self.chance.choice((900_000_000, 900_000_001, 1_800_000_000, 1_800_000_001, 2**31 - 100))
        ends *= self.chance.choice((-1, 1))
        draw = self.chance.random()
        return f"{ends} {y}" if draw < 0.02 else f"{x} {ends}" if draw < 0.05 else f"{x} {y}"

    def items(self, kind=None):
        kind = kind or self.chance.choice(KINDS)
        commands = {"mission": (16, 16, 20, 21, 22, 2000), "rally": (5100,), "fence": (5000,)}[kind]
        frame, command = self.chance.choice((0, 3, 5, 6, 6)), self.chance.choice(commands)
        count, words = self.chance.choice((1, 1, 1, 2, 3)), ""
        if kind == "fence" and self.chance.random() < 0.8:
            command, count = self.chance.choice((5001, 5002)), self.chance.choice((3, 3, 3, 4, 5, 2, 1))
            words = " 00000000 " + (WORDS[count] if count in (3, 4) else self.chance.choice(WORDS))
        elif self.chance.random() < 0.3:
            words = "".join(" " + self.chance.choice(WORDS) for _ in range(self.chance.randrange(6)))
        if command in (20, 2000) and self.chance.random() < 0.5:
            frame = 2
        if self.chance.random() < 0.04:
            frame, command = self.chance.choice((1, 2, 4, 7, 255)), self.chance.choice((0, 16, 5000, 65535, command))
        self.add(f"items {count} {frame} {command} {self.place()}{words}")

    def begin(self):
        kind = self.chance.choice(KINDS)
        if self.chance.random() < 0.3:
            self.add("empty")
        if self.chance.random() < 0.03:
            kind = "rally"
            self.add("empty")
            self.add(f"items {self.chance.choice((49, 50, 51))} 6 5100 0 0")
        elif kind == "fence" and self.chance.random() < 0.3:
            self.broken_polygon()
        else:
            for _ in range(self.chance.choice((0, 1, 1, 1, 2, 3))):
                self.items(kind)
        self.add(f"begin {self.pair()} {kind}")
        if self.chance.random() < 0.5:
            self.add(f"flow {self.chance.choice((2, 4, 5, 6, 7, 8, 9, 120))}")

    def broken_polygon(self):
        """A polygon of three corners of which the last may be of another one."""
        self.add("empty")
        self.add("items 2 6 5001 0 0 00000000 40400000")
        self.add(f"item 6 {self.chance.choice((5001, 5002))} 0 0 00000000 {self.chance.choice(WORDS[3:5])}")

    def cancel(self):
        self.add(f"cancel {self.chance.choice(self.stations)}")

    def clear(self):
        self.add(f"clear {self.pair()} {self.chance.choice(('mission', 'fence', 'rally', 'all'))}")

    def get(self):
        self.add(f"get {self.pair()} {self.chance.choice(KINDS)}")

    def command(self):
        given = ((400, 1), (400, 1), (400, 0), (300, 0), (300, 1), (20, 0), (16, 0), (400, 2))
        number, word = self.chance.choice(given)
        self.add(f"command {self.pair()} {number} {WORDS[word]}")

    def params(self):
        self.add(f"params {self.pair()}")

    def flow(self):
        self.add(f"flow {self.chance.choice((1, 1, 2, 3, 4, 6, 8, 12, 50, 100))}")

    def deliver(self):
        sent = len(self.world.frames)
        near = max(1, sent - self.chance.choice((0, 0, 0, 1, 2, 3, 5, 8)))
        number = self.chance.randrange(1, sent + 2) if self.chance.random() < 0.1 else near
        to = self.target(number) if self.chance.random() < 0.8 else self.node()
        self.add(f"deliver {number} {to}")

    def target(self, number):
        """The node that a frame is for; any if it is for none of them, or for all."""
        found = [frames.target_of(one[5]) for _, whole in self.world.frames[number - 1:number]
                 for one in frames.frames_in(whole)]
        to = ".".join(map(str, found[0])) if found and found[0] else ""
        return to if to in self.world.nodes else self.node()

    def tick(self):
        name = self.node()
        for _ in range(self.chance.choice((1, 1, 1, 2, 3, 3, 4, 5))):
            self.add(f"tick {name}")

    def restart(self):
        self.add(f"restart {self.chance.choice(self.drones)}")

    def clock(self):
        self.add(f"clock {self.chance.choice((1, 10, 1000, 5000, 100_000, 5_999_999, 6_000_001, 7_000_000))}")

    def sim(self):
        self.add(f"sim {self.chance.choice(self.drones)} {self.chance.choice((1, 2, 3, 5, 9))}")

    def where(self):
        self.add(f"where {self.chance.choice(self.drones)}")

    def heartbeat(self):
        self.add(f"heartbeat {self.node()}")
