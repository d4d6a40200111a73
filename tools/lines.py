"""Lines of scenarios, of uploads and of the files of `fence`: what is wrong in one that is refused.

The program says which line it was and why; here is found which word of it, and what was expected.
"""

import difflib
import re

from texts import shown

MOST_LINE_BYTES, MOST_DRAFT, MOST_SIGNED = 4096, 2000, 2**31 - 1
ITEM = ("0-255", "0-65535", "signed", "signed", "?hex", "?hex", "?hex", "?hex", "?hex")
NUMBER = "1-18446744073709551615"
ITEMS = {"item": ("item F C X Y [Z [P1 [P2 [P3 [P4]]]]]", ITEM),
         "items": ("items N F C X Y [Z [P1 [P2 [P3 [P4]]]]]", ("1-2000", *ITEM))}
SCENARIO = {
    "drone": ("drone SYS [X Y]", ("1-255", "?signed", "?signed")),
    "station": ("station SYS COMP", ("1-255", "1-255")), **ITEMS, "empty": ("empty", ()),
    "begin": ("begin STATION DRONE KIND", ("station", "drone", "kind")),
    "cancel": ("cancel STATION", ("station",)),
    "clear": ("clear STATION DRONE KIND", ("station", "drone", "kind or all")),
    "get": ("get STATION DRONE KIND", ("station", "drone", "kind")),
    "command": ("command STATION DRONE NUMBER W", ("station", "drone", "0-65535", "hex")),
    "params": ("params STATION DRONE", ("station", "drone")),
    "heartbeat": ("heartbeat NODE", ("node",)),
    "deliver": ("deliver I NODE", (NUMBER, "node")),
    "flow": ("flow K", (NUMBER.replace("1-", "0-", 1),)),
    "noise": ("noise NODE HEX", ("node", "bytes")), "tick": ("tick NODE", ("node",)),
    "clock": ("clock N", (NUMBER.replace("1-", "0-", 1),)),
    "restart": ("restart DRONE", ("drone",)), "sim": ("sim DRONE N", ("drone", "1-10000")),
    "where": ("where DRONE", ("drone",)),
}
FENCE = {"home": ("home X Y", ("signed", "signed")), "step": ("step N", ("1-1000000000",)),
         "ticks": ("ticks N", ("0-10000",)), "fence": ("fence", ()), "mission": ("mission", ()),
         **ITEMS}
EXPECTED = {
    "signed": f"a whole number from -{MOST_SIGNED + 1} to {MOST_SIGNED}",
    "hex": "eight hexadecimal digits", "bytes": "bytes as pairs of hexadecimal digits",
    "kind": "mission, fence or rally", "kind or all": "mission, fence, rally or all",
}


def lines_of(data):
    """Returns the lines of a file, without their ends."""
    *whole, last = data.split(b"\n")
    texts = [line.removesuffix(b"\r") for line in whole] + ([last] if last else [])
    return [text.decode("utf-8", "surrogateescape") for text in texts]


class Names:
    """The nodes that lines name, each with the number of its line."""

    def __init__(self, lines):
        self.lines, self.drones, self.stations = {}, set(), set()
        for number, line in enumerate(lines, 1):
            first, *words = line.split(" ")
            if first not in ("drone", "station") or fault_of(line, SCENARIO, self):
                continue
            name = f"{words[0]}.{words[1] if first == 'station' else 1}"
            self.lines[name] = number
            (self.stations if first == "station" else self.drones).add(name)

    def of(self, role):
        return {"drone": self.drones, "station": self.stations}.get(role, set(self.lines))


def is_whole(word, low, high):
    return bool(re.fullmatch("0|[1-9][0-9]{0,19}", word)) and low <= int(word) <= high


def word_fault(form, word, names):
    """Returns what was expected of a word, or None if it is of the form."""
    form = form.lstrip("?")
    if form in ("station", "drone", "node"):
        known = sorted(names.of(form)) if names else []
        if word in known:
            return None
        such = f", such as {known[0]}" if known else ""
        return f"a {form} that a line before has named{such}"
    low, dash, high = form.partition("-")
    if dash:
        is_right = is_whole(word, int(low), int(high))
        return None if is_right else f"a whole number from {low} to {high}"
    is_right = {
        "signed": lambda: re.fullmatch("0|-?[1-9][0-9]{0,9}", word)
        and -MOST_SIGNED - 1 <= int(word) <= MOST_SIGNED,
        "hex": lambda: re.fullmatch("[0-9A-Fa-f]{8}", word),
        "bytes": lambda: re.fullmatch("(?:[0-9A-Fa-f]{2})+", word),
        "kind": lambda: word in ("mission", "fence", "rally"),
        "kind or all": lambda: word in ("mission", "fence", "rally", "all"),
    }[form]()
    return None if is_right else EXPECTED[form]


def count_fault(words, usage, forms):
    """Returns what is wrong with the number of words, or None."""
    least = sum(not form.startswith("?") for form in forms)
    given = len(words) - 1
    if "" in words[1:]:
        return f"expected one space between words, and none at the end: `{usage}`"
    if least <= given <= len(forms) and not (words[0] == "drone" and given == 2):
        return None
    what = "a word is missing" if given < least or words[0] == "drone" and given == 2 \
        else f"{shown(words[len(forms) + 1])} is one word too many"
    return f"{what}: expected `{usage}`"


def fault_of(line, table, names=None, drafted=0):
    """Returns what is wrong in a line of a table's forms, or None."""
    if len(line.encode("utf-8", "surrogateescape")) > MOST_LINE_BYTES:
        return f"expected a line of at most {MOST_LINE_BYTES} bytes"
    if line == "" or line.startswith("#"):
        return None
    first, *rest = words = line.split(" ")
    if not first:
        return "expected no space at the start of a line"
    if first not in table:
        near = difflib.get_close_matches(first, table, 1, 0.5)
        hint = f"did you mean {near[0]}?" if near else "expected one of " + ", ".join(table)
        return f"no line begins with {shown(first)}: {hint}"
    usage, forms = table[first]
    wrong = count_fault(words, usage, forms)
    if wrong:
        return wrong
    for form, word in zip(forms, rest):
        expected = word_fault(form, word, names)
        if expected:
            return f"{shown(word)}: expected {expected} in `{usage}`"
    if first == "items" and int(rest[3]) + int(rest[0]) - 1 > MOST_SIGNED:
        return f"the last X would be above {MOST_SIGNED}: expected a smaller N or X"
    added = {"item": lambda: 1, "items": lambda: int(rest[0])}.get(first, lambda: 0)()
    if drafted + added > MOST_DRAFT:
        return f"expected at most {MOST_DRAFT} items in all"
    name = f"{rest[0]}.{rest[1] if first == 'station' else 1}" if first in NAMING else None
    if name and names and name in names.lines:
        return f"line {names.lines[name]} has named {name} already: expected another node"
    return None


NAMING = ("drone", "station")
REASONS = {"draft": f"the draft would have more than {MOST_DRAFT} items",
           "long": f"expected a line of at most {MOST_LINE_BYTES} bytes",
           "clock": "the clock would pass 140737488355328"}


def told_of(data, number, reason, table):
    """Returns what is wrong in the line of this number, which was refused for a reason."""
    lines = lines_of(data)
    if number > len(lines):
        return f"it is refused with `{reason}`"
    names = Names(lines[:number - 1]) if table is SCENARIO else None
    told = None if reason in REASONS else fault_of(lines[number - 1], table, names)
    return told or REASONS.get(reason, f"it is refused with `{reason}`")


def upload_fault(data, kind, most):
    """Returns what is wrong in the items of an upload, or None; the program says the same."""
    drafted = 0
    for number, line in enumerate(lines_of(data), 1):
        told = fault_of(line, ITEMS, drafted=drafted)
        if told:
            return f"line {number}: {told}"
        words = line.split(" ")
        drafted += {"item": lambda: 1, "items": lambda: int(words[1])}.get(words[0], lambda: 0)()
    if not 1 <= drafted <= most:
        return f"expected 1 to {most} items of a {kind} plan, and it has {drafted}"
    return None
