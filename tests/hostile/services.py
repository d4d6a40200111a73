"""The model's commands, parameters and simulator, as the rules have them."""

import struct

from frames import (
    COMMAND_ACK, COMMAND_LONG, PARAM_REQUEST_LIST, PARAM_REQUEST_READ, PARAM_SET, PARAM_VALUE, fields_of, message,
    target_of,
)

ONE, QUIET = 0x3F800000, 5
WIDTHS = {1: 1, 2: 1, 3: 2, 4: 2, 5: 4, 6: 4, 9: 4}


def normal(name):
    """A parameter's name without what stands behind its first zero."""
    return name.partition(b"\0")[0].ljust(16, b"\0")


def moved(place, target, step):
    return tuple(p + max(-step, min(step, t - p)) for p, t in zip(place, target))


class Simulator:
    """Where a drone is, and what it flies."""

    def __init__(self, home):
        self.home = self.place = home
        self.is_armed, self.course, self.item, self.captures, self.ticks = False, None, 0, 0, 0

    def act(self, command, word):
        if command == 400:
            self.is_armed = word == ONE
            self.course = self.course if self.is_armed else None
        elif command == 300:
            self.course, self.item = "mission", 0
        else:
            self.course = "return"

    def changed(self):
        self.item = 0
        self.course = None if self.course == "mission" else self.course

    def fly_home(self, step):
        self.place = moved(self.place, self.home, step)
        if self.place == self.home:
            self.course, self.is_armed = None, False

    def tick(self, mission, step):
        """One tick: the number of the item that was reached or None, and whether a picture was taken."""
        self.ticks += 1
        if self.course == "return":
            self.fly_home(step)
        if self.course != "mission" or self.item >= len(mission):
            return None, False
        item, number = mission[self.item], self.item
        if item[4] == 2000:
            self.captures += 1
        else:
            target = self.home if item[4] == 20 else item[1:3]
            self.place = moved(self.place, target, step)
            if self.place != target:
                return None, False
        self.item += 1
        if item[4] in (20, 21) or self.item == len(mission):
            self.course = None
        self.is_armed = self.is_armed and item[4] not in (20, 21)
        return number, item[4] == 2000


class Executor:
    """What a drone does of commands, and each stream's last one."""

    def __init__(self):
        self.kept = {}

    def step(self, stream, sent, simulator, is_planned):
        *words, command, system, component, confirmation = fields_of(sent)
        asked = (command, tuple(words))
        answer = lambda result: message(COMMAND_ACK, command, result, 0, 0, *stream[:2])
        if confirmation > 0 and stream in self.kept and self.kept[stream][0] == asked:
            return answer(self.kept[stream][1])
        if stream not in self.kept and len(self.kept) == 256:
            return answer(1)
        is_done = {400: words[0] in (0, ONE), 300: simulator.is_armed and is_planned, 20: simulator.is_armed}
        result = 3 if command not in is_done else 0 if is_done[command] else 2
        if result == 0:
            simulator.act(command, words[0])
        self.kept[stream] = (asked, result)
        return answer(result)


class Parameters:
    """A drone's forty parameters."""

    def __init__(self, home):
        number = lambda n: struct.pack("<i", n)
        self.list = [[b"SIM_STEP", 6, number(1000)], [b"SIM_HOME_X", 6, number(home[0])],
                     [b"SIM_HOME_Y", 6, number(home[1])], [b"SIM_NAME", 5, number(0)]]
        self.list += [[b"SIM_USER_%02d" % n, 5, number(0)] for n in range(1, 37)]
        for one in self.list:
            one[0] = one[0].ljust(16, b"\0")

    def step_of_flight(self):
        return max(1, int.from_bytes(self.list[0][2], "little", signed=True))

    def value(self, index):
        name, of, word = self.list[index]
        return message(PARAM_VALUE, word, len(self.list), index, name, of)

    def named(self, name):
        return [index for index, one in enumerate(self.list) if one[0] == normal(name)]

    def step(self, sent):
        """The answers to a message."""
        identity, fields = sent[0], fields_of(sent)
        if identity == PARAM_REQUEST_LIST:
            return [self.value(index) for index in range(len(self.list))]
        if identity == PARAM_REQUEST_READ:
            index, name = fields[0], fields[3]
            found = [index] if 0 <= index < len(self.list) else self.named(name) if index == -1 else []
        else:
            word, _, _, name, of = fields
            found = self.named(name)
            for index in found:
                if self.list[index][1] == of:
                    self.list[index][2] = word[:WIDTHS[of]].ljust(4, b"\0")
        return [self.value(index) for index in found]


class Commander:
    """A station's one command."""

    def __init__(self, name):
        self.name, self.doing = name, None

    def issue(self, drone, command, word):
        self.doing = [drone, command, word, 0, 0]
        return self.sent()

    def sent(self):
        drone, command, word, confirmation, _ = self.doing
        return message(COMMAND_LONG, word, *[0] * 6, command, *drone[:2], confirmation)

    def step(self, stream, sent):
        """The result that ends the command; None if it goes on."""
        command, result, _, _, *to = fields_of(sent)
        if not self.doing or self.doing[:2] != [stream, command] or tuple(to) not in (self.name, (0, 0)):
            return None
        if result == 5:
            self.doing[4] = 0
            return None
        self.doing = None
        return result

    def tick(self):
        """What to send again, and whether the command is given up."""
        if not self.doing:
            return None, False
        self.doing[4] += 1
        if self.doing[4] == QUIET:
            self.doing = None
            return None, True
        self.doing[3] = min(255, self.doing[3] + 1)
        return self.sent(), False


class Lister:
    """A station's one list of parameters."""

    def __init__(self):
        self.drone, self.values, self.ticks = None, {}, 0

    def begin(self, drone):
        self.drone, self.values, self.ticks = drone, {}, 0
        return message(PARAM_REQUEST_LIST, *drone[:2])

    def step(self, stream, sent):
        """The values in order, where the list has ended; else None."""
        word, count, index, name, of = fields_of(sent)
        if stream != self.drone or count and index >= count:
            return None
        self.ticks = self.ticks if index in self.values else 0
        self.values[index] = (name, of, word)
        if any(n not in self.values for n in range(count)):
            return None
        self.drone = None
        return [self.values[n] for n in range(count)]

    def tick(self):
        if not self.drone:
            return None, False
        self.ticks += 1
        if self.ticks == QUIET:
            self.drone = None
            return None, True
        missing = next(n for n in range(65_536) if n not in self.values)
        if not self.values or missing > 32_767:
            return message(PARAM_REQUEST_LIST, *self.drone[:2]), False
        return message(PARAM_REQUEST_READ, missing, *self.drone[:2], bytes(16)), False
