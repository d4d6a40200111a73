"""The model's world: nodes that sign, admit and answer, the lines of a scenario, and the report."""

import plans
import services
import stations
from frames import (
    COMMAND_ACK, COMMAND_LONG, HEARTBEAT, KINDS, PARAM_REQUEST_LIST, PARAM_REQUEST_READ, PARAM_SET, PARAM_VALUE,
    POSITION, REACHED, bytes_of, frames_in, message, target_of, text_of,
)

LAST, MINUTE, AHEAD = 2**48 - 1, 6_000_000, 5_000


class StampsSpent(Exception):
    """A node has no timestamp left."""


def item_line(number, item):
    params, x, y, z, command, frame, current, onwards = item
    words = " ".join(f"{word:08x}" for word in params)
    return f"{number} {frame} {command} {current} {onwards} {words} {x} {y} {z:08x}"


def quoted(name):
    text = name.partition(b"\0")[0]
    return '"' + "".join(chr(b) if 32 <= b < 127 and b not in b'"\\' else f"\\x{b:02x}" for b in text) + '"'


class Node:
    """What drones and stations share: admission, timestamps, and what they tell of a step."""

    def __init__(self, world, name, floor=None):
        self.world, self.name, self.shown = world, name, f"{name[0]}.{name[1]}"
        self.floor, self.local, self.previous = floor, floor or 0, floor or 0
        self.last, self.sequence = {}, 0

    def admission(self, stream, stamp, is_signed, is_good):
        last = self.last.get(stream)
        tests = [(1, not is_signed), (2, not is_good), (6, self.floor is not None and stamp <= self.floor),
                 (3, last is not None and stamp <= last), (4, stamp + MINUTE < self.local),
                 (5, last is None and len(self.last) == 256)]
        return next((code for code, holds in tests if holds), 0)

    def receive(self, datagram):
        for sender, link, stamp, is_signed, is_good, sent in frames_in(datagram):
            stream = (*sender, link)
            code = self.admission(stream, stamp, is_signed, is_good)
            if code:
                self.world.print(f"drop {self.shown} {code}")
                continue
            self.keep(stamp)
            self.last[stream] = stamp
            self.local = max(self.local, stamp)
            self.take(stream, sent)

    def keep(self, stamp):
        """What is kept before a timestamp is taken or sent: nothing but at a drone."""

    def send(self, *all_sent):
        for sent in all_sent:
            if sent is None:
                continue
            stamp = max(self.previous + 1, self.world.clock, self.local)
            if stamp > LAST:
                raise StampsSpent
            self.keep(stamp)
            self.previous = stamp
            self.local = max(self.local, stamp)
            self.world.sent(self, bytes_of(self.name, self.sequence, stamp, sent), sent)
            self.sequence += 1


class DroneNode(Node):
    """A drone: its plans, its services, and what its store has of it."""

    def __init__(self, world, system, home, floor=None, kept=None):
        super().__init__(world, (system, 1), floor)
        self.home, self.kept_floor = home, floor
        self.plans = plans.Drone(system, kept or [[], [], []])
        self.simulator, self.executor = services.Simulator(home), services.Executor()
        self.parameters = services.Parameters(home)

    def keep(self, stamp):
        if stamp > (self.kept_floor or 0):
            self.kept_floor = min(stamp + AHEAD, LAST)

    def take(self, stream, sent):
        answer, became = self.plans.step(stream, sent)
        if became:
            self.tell(became)
        answers = [answer]
        if target_of(sent) in (self.name, (self.name[0], 0)):
            if sent[0] == COMMAND_LONG:
                answers = [self.executor.step(stream, sent, self.simulator, bool(self.plans.plans[0]))]
            elif sent[0] in (PARAM_REQUEST_LIST, PARAM_REQUEST_READ, PARAM_SET):
                answers = self.parameters.step(sent)
        self.send(*answers)

    def tell(self, became):
        if became[0] == "install":
            _, kind, count, stream = became
            self.world.print(f"install {self.shown} {KINDS[kind]} {count} from {stream[0]}.{stream[1]}")
            kinds = [kind]
        else:
            kinds = became[1]
            for kind in kinds:
                self.world.print(f"clear {self.shown} {KINDS[kind]}")
        if 0 in kinds:
            self.simulator.changed()

    def tick(self):
        self.send(self.plans.tick())

    def heartbeat(self):
        self.send(message(HEARTBEAT, 0, 2, 0, 128 * self.simulator.is_armed, 4, 3))

    def fly(self):
        reached, is_captured = self.simulator.tick(self.plans.plans[0], self.parameters.step_of_flight())
        time = self.simulator.ticks * 1000 % 2**32
        self.send(message(POSITION, time, *self.simulator.place, 0, 0, 0, 0, 0, 65535),
                  None if reached is None else message(REACHED, reached))
        if reached is not None:
            self.world.print(f"reached {self.shown} {reached}")
        if is_captured:
            self.world.print(f"captured {self.shown} {self.simulator.captures}")


class StationNode(Node):
    """A station: its operation, its command and its list of parameters."""

    def __init__(self, world, name):
        super().__init__(world, name)
        self.plans, self.commander = stations.Station(name), services.Commander(name)
        self.lister = services.Lister()

    def take(self, stream, sent):
        self.send(self.plans.step(stream, sent))
        self.tell_outcome()
        if sent[0] == COMMAND_ACK:
            result = self.commander.step(stream, sent)
            if result is not None:
                self.world.print(f"command {self.shown} result {result}")
        if sent[0] == PARAM_VALUE:
            self.tell_values(self.lister.step(stream, sent))

    def tell_outcome(self):
        if not self.plans.outcome:
            return
        text, *more = self.plans.outcome
        self.plans.outcome = None
        items = more[0] if text == "got" else []
        number = [len(items)] if text == "got" else more
        self.world.print(" ".join(["outcome", self.shown, text, *map(str, number)]))
        for at, item in enumerate(items):
            self.world.print(item_line(at, item))

    def tell_values(self, values):
        if values is None:
            return
        self.world.print(f"params {self.shown} {len(values)}")
        for name, of, word in values:
            self.world.print(f"param {self.shown} {quoted(name)} {of} {word.hex()}")

    def tick(self):
        (again, is_given_up), (asked, is_left) = self.commander.tick(), self.lister.tick()
        self.send(self.plans.tick(), again, asked)
        if is_given_up:
            self.world.print(f"command {self.shown} no answer")
        if is_left:
            self.world.print(f"params {self.shown} no answer")

    def heartbeat(self):
        self.send(message(HEARTBEAT, 0, 6, 8, 0, 4, 3))
