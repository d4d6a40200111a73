"""What strangers and insiders send in a drawn scenario: bytes in no frame, frames that were sent and then mangled, and
frames of any message, under the key or not."""

import struct

import frames

WORDS = ["00000000", "3f800000", "40000000", "40400000", "40800000", "428c0000", "428e0000", "80000000", "7fc00000"]
PLANS = (frames.PING, frames.COUNT, frames.ITEM, frames.ACK, frames.ACK, frames.REQUEST, frames.LIST, frames.CLEAR)
SAID = (frames.COUNT, frames.ITEM, frames.LIST, frames.REQUEST, frames.REQUEST, frames.REQUEST, frames.ACK, frames.CLEAR)
OTHERS = [number for number in frames.MESSAGES if number != frames.FILE]
ENDS = {1: (0, 1, 127, 128, 254, 255), 2: (0, 1, 5, 1000, 1001, 32767, 32768, 65535),
        4: (0, 1, 1000, 2**31 - 1, 2**31, 2**32 - 1), 8: (0, 1, 2**63, 2**64 - 1)}
SIZES = {"B": 1, "b": 1, "h": 2, "H": 2, "i": 4, "I": 4, "Q": 8}


class Strangers:
    """The part of a drawn scenario that is noise: it has a `chance`, a `world`, and `node` and `add`."""

    def noise(self):
        to, draw = self.node(), self.chance.random()
        data = self.garbage() if draw < 0.1 else self.mangled() if draw < 0.25 else self.insider(to)
        data += self.insider(to) if self.chance.random() < 0.1 else b""
        self.add(f"noise {to} {data[:1500].hex()}")

    def talk(self):
        """An insider's conversation with a drone, from one name, in messages that mostly fit what is open there."""
        chance, to, kind = self.chance, self.chance.choice(self.drones), self.chance.choice((0, 0, 1, 2))
        sender = tuple(map(int, chance.choice(self.stations + ["9.9"]).split(".")))
        script = [frames.COUNT, frames.ITEM, frames.ITEM, frames.LIST][:chance.choice((0, 1, 2, 4, 4, 4))]
        for identity in script + chance.choices(SAID, k=chance.randrange(3, 12)):
            node = self.world.nodes[to]
            sent = self.said(identity, node, kind if script or chance.random() < 0.85 else chance.randrange(4))
            script = script and identity != frames.LIST
            stamp = min(2**48 - 1, max(self.world.clock, node.local) + 1)
            whole = frames.bytes_of(sender, chance.randrange(256), stamp, sent)
            self.add(f"noise {to} {whole.hex()}")
            for _ in range(0 if script else chance.choice((0, 0, 0, 1, 2, 3, 4, 5))):
                self.add(f"tick {to}")

    def said(self, identity, node, kind):
        chance, upload = self.chance, node.plans.upload
        if identity == frames.COUNT:
            return frames.message(identity, chance.choice((0, 1, 1, 2, 2, 3, 51, 1001)), *node.name, kind)
        if identity == frames.ITEM:
            number = len(upload["items"]) if upload and chance.random() < 0.8 else chance.randrange(3)
            command = (16, 5000, 5100, 16)[kind]
            return frames.message(identity, 0, 0, 0, 0, number, 7, 0, number, command, *node.name, 6, 0, 1, kind)
        if identity == frames.REQUEST:
            return frames.message(identity, chance.choice((0, 0, 1, 2)), *node.name, kind)
        if identity == frames.ACK:
            return frames.message(identity, *node.name, chance.choice((0, 5, 15)), kind)
        return frames.message(identity, *node.name, 255 if identity == frames.CLEAR and chance.random() < 0.2 else kind)

    def garbage(self):
        drawn = lambda: self.chance.choice((0xFD, 0xFE, 0, self.chance.randrange(256)))
        return bytes(drawn() for _ in range(1 + self.chance.randrange(60)))

    def mangled(self):
        if not self.world.frames:
            return self.garbage()
        whole = bytearray(self.chance.choice(self.world.frames[-20:])[1])
        if self.chance.random() < 0.5:
            whole[self.chance.randrange(len(whole))] ^= 1 << self.chance.randrange(8)
        return bytes([0xFD] * self.chance.randrange(3) + list(whole[:self.chance.choice((len(whole), 200, 20))]))

    def insider(self, to):
        """A frame under the key, or unsigned, or under another key, with fields near what a node waits for."""
        chance, node = self.chance, self.world.nodes[to]
        identity = chance.choice(PLANS if chance.random() < 0.6 else OTHERS)
        form, at = frames.MESSAGES[identity][2:]
        fields = [self.field(one) for one in split(form)]
        if at is not None and chance.random() < 0.9:
            fields[at:at + 2] = node.name
        if identity == frames.PING and chance.random() < 0.7:
            fields[:2] = 0, chance.randrange(1, 4)
        if identity in (frames.COUNT, frames.REQUEST) and chance.random() < 0.7:
            fields[0], fields[3] = chance.randrange(4), chance.randrange(4)
        if identity == frames.ITEM and chance.random() < 0.8:
            fields[7:9] = chance.randrange(3), chance.choice((16, 16, 5000, 5100))
            fields[11:] = 6, 0, 1, chance.randrange(3)
        if identity == frames.ACK and chance.random() < 0.8:
            fields[2:] = chance.choice((0, 1, 5, 14, 15)), chance.randrange(3)
        if identity in (frames.PARAM_SET, frames.PARAM_REQUEST_READ) and chance.random() < 0.7:
            fields[3] = chance.choice((b"SIM_STEP", b"SIM_HOME_X", b"SIM_USER_07\0x", b"SIM_NAME"))
        if identity == frames.COMMAND_ACK and chance.random() < 0.8:
            fields[:2] = chance.choice((400, 300, 20)), chance.choice((0, 5, 5, 2))
        sender = tuple(map(int, self.node().split("."))) if chance.random() < 0.9 else (9, 9)
        stamp = max(0, max(self.world.clock, node.local) + chance.choice((-3, 0, 1, 1, 1, 2, 5, 20, 5000, -6_000_000)))
        stamp = 2**48 - 1 - chance.randrange(3) if chance.random() < 0.01 else min(stamp, 2**48 - 1)
        key = chance.choice((frames.KEY,) * 12 + (None, bytes(32)))
        sent = (identity, struct.pack(form, *fields))
        return frames.bytes_of(sender, chance.randrange(256), stamp, sent, chance.choice((0,) * 8 + (1,)), key)

    def field(self, one):
        if one.endswith("s"):
            return bytes(self.chance.randrange(256) for _ in range(min(4, int(one[:-1]))))
        size = SIZES[one]
        value = self.chance.choice(ENDS[size]) if self.chance.random() < 0.6 else self.chance.randrange(6)
        return value - (one.islower() and value >= 2**(8 * size - 1)) * 2**(8 * size)


def split(form):
    """The fields of a form of `struct`, each by itself."""
    fields, count = [], ""
    for letter in form[1:]:
        if letter.isdigit():
            count += letter
        else:
            fields += [count + letter] if letter == "s" else [letter] * int(count or 1)
            count = ""
    return fields
