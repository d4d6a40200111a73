"""A file of `fence`: its fence, its mission and the flight, and what is wrong with its plans."""

import struct

LOCATED, RETURN, LAND, POLYGONS = {16, 21, 22}, 20, 21, (5001, 5002)
MOST_TICKS, GLOBAL = 10_000, (0, 3, 5, 6)
MOST_ITEMS = {"mission": 1000, "fence": 200, "rally": 50}
SUPPORTED = {"fence": (5000, *POLYGONS), "mission": (16, 20, 21, 22, 2000)}


class Survey:
    """What a file of `fence` has: `fence` itself has accepted it."""

    def __init__(self, text):
        self.home, self.step, self.ticks = (0, 0), 1000, 0
        self.lists, self.rows = ({"fence": [], "mission": []} for _ in range(2))
        name = "mission"
        for number, line in enumerate(text.split("\n"), 1):
            first, *words = line.removesuffix("\r").split(" ")
            if first in self.lists:
                name = first
            elif first in ("item", "items"):
                count = int(words.pop(0)) if first == "items" else 1
                frame, command, x, y = map(int, words[:4])
                corners = corners_of(words[5]) if command in POLYGONS and len(words) > 5 else 0
                self.lists[name] += [(command, x + at, y, corners) for at in range(count)]
                self.rows[name] += [(number, frame)] * count
            elif first == "home":
                self.home = int(words[0]), int(words[1])
            elif first in ("step", "ticks"):
                setattr(self, first, int(words[0]))

    def polygons(self):
        """Yields `inclusion` or `exclusion`, and the corners of a polygon."""
        waiting = [item for item in self.lists["fence"] if item[0] in POLYGONS]
        while waiting:
            command, _, _, count = waiting[0]
            group, waiting = waiting[:count], waiting[count:]
            yield "inclusion" if command == 5001 else "exclusion", [item[1:3] for item in group]

    def flight(self):
        """Yields where the drone is after each tick, as the manual says of the simulator."""
        mission, place, at = self.lists["mission"], self.home, 0
        for _ in range(self.ticks):
            if at < len(mission):
                command, *goal, _ = mission[at]
                goal = self.home if command == RETURN else goal if command in LOCATED else place
                place = tuple(old + max(-self.step, min(self.step, new - old))
                              for old, new in zip(place, goal))
                if place == tuple(goal):
                    at = len(mission) if command in (RETURN, LAND) else at + 1
            yield place


def corners_of(word):
    """Returns the whole number from 3 to 70 that the word of a corner's float is, or 0."""
    value = struct.unpack(">f", bytes.fromhex(word))[0]
    return int(value) if 3 <= value <= 70 and value == int(value) else 0


def ticks_needed(survey):
    """Returns how many ticks the flight needs to its end, which only its mission and step say.

    An item takes a tick at least; a return and a landing are the last one.
    """
    place, ticks = survey.home, 0
    for command, *goal, _ in survey.lists["mission"]:
        goal = survey.home if command == RETURN else tuple(goal) if command in LOCATED else place
        far = max(abs(new - old) for old, new in zip(place, goal))
        ticks += max(1, -(-far // survey.step))
        place = goal
        if command in (RETURN, LAND):
            break
    return ticks


def flight_text(survey):
    """Returns in a sentence how many ticks the flight needs, and whether it has them."""
    needed = ticks_needed(survey)
    if not needed:
        return "there is no flight"
    if needed <= survey.ticks:
        return f"the flight needs {needed} ticks, and ends within its {survey.ticks}"
    if needed <= MOST_TICKS:
        more = f"`ticks {needed}` flies it to its end"
    else:
        more = f"at most {MOST_TICKS} are flown, and a larger `step` needs fewer"
    told = f"`ticks {survey.ticks}` ended it in the air"
    if not survey.ticks:
        told = "`ticks 0` flies nothing"
    return f"the flight needs {needed} ticks, and {told}: {more}"


def item_fault(kind, item, frame):
    """Returns what is wrong with an item of a plan, or None."""
    command, x, y, corners = item
    is_placeless = kind == "mission" and frame == 2 and command not in LOCATED
    if frame not in GLOBAL and not is_placeless:
        return f"frame {frame}: expected 0, 3, 5 or 6, or 2 for a mission's command without a place"
    if command not in SUPPORTED[kind]:
        return f"command {command}: expected one of {', '.join(map(str, SUPPORTED[kind]))}"
    for name, value, most in (("X", x, 900_000_000), ("Y", y, 1_800_000_000)):
        if frame != 2 and abs(value) > most:
            return f"{name} {value}: expected at most {most}, which are {most // 10**7} degrees"
    if command in POLYGONS and not corners:
        return "P1 of a corner: expected how many its polygon has, 3 to 70, as the word of a float"
    return None


def plan_fault(survey, kind):
    """Returns the number of the line that makes a plan invalid, and why, or None."""
    items, rows = survey.lists[kind], survey.rows[kind]
    if len(items) > MOST_ITEMS[kind]:
        number = rows[MOST_ITEMS[kind]][0]
        return number, f"expected at most {MOST_ITEMS[kind]} items of a {kind}"
    for item, (number, frame) in zip(items, rows):
        told = item_fault(kind, item, frame)
        if told:
            return number, told
    at = 0
    while kind == "fence" and at < len(items):
        command, _, _, corners = items[at]
        count = corners if command in POLYGONS else 1
        alike = [item[0] == command and item[3] == corners for item in items[at:at + count]]
        if command in POLYGONS and (len(alike) < count or not all(alike)):
            came = alike.index(False) if not all(alike) else len(alike)
            return rows[at][0], f"expected {count} corners of a polygon from here on, not {came}"
        at += count
    return None
