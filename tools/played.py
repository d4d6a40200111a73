"""A scenario that was played for `chart`: which frames were sent, and where and when they came."""

import re

from texts import output_of, wrong_form

# The number of a frame that no scenario sends: its delivery only prints a line of its own.
UNSENT = 4_000_000_000
STATION_LINES = {"begin", "cancel", "clear", "get", "command", "params"}
NOTED = STATION_LINES | {"tick", "noise"}
NAMING = {"drone", "station"}
SILENT = NAMING | {"item", "items", "empty", "clock"}
MOST_FRAMES, MOST_STEPS = 2000, 40_000
SENT = re.compile(r"([0-9]+) ([0-9]+\.[0-9]+) (.*?)(?: to ([0-9]+\.[0-9]+))?")
TOLD = re.compile(r"(install|clear|refused|outcome|command|params|reached|captured|at|restart)"
                  r" ([0-9]+\.[0-9]+) ?(.*)")


def steps_of(path, text, most):
    """Returns the lines of a scenario that do something, a flow as at most so many of one frame.

    A flow before any node is named gives nothing.
    """
    steps, is_named = [], False
    for line in text.split("\n"):
        if len(steps) > MOST_STEPS:
            raise wrong_form(path, f"a chart has at most {MOST_STEPS} lines and frames of flows")
        words = line.removesuffix("\r").split(" ")
        is_named = is_named or words[0] in NAMING
        if words[0] == "flow" and len(words) == 2 and words[1].isdecimal():
            steps += [["flow", "1"]] * min(int(words[1]), most) * is_named
        elif words != [""] and not line.startswith("#"):
            steps.append(words)
    return steps


def nodes_of(steps):
    """Returns the names of the nodes, in the order in which they are named."""
    return [f"{words[1]}.{words[2] if words[0] == 'station' else 1}" for words in steps
            if words[0] in NAMING]


def reports_of(path, whole, steps, nodes):
    """Returns the lines of the report that each step prints that isn't silent."""
    lines = []
    for words in steps:
        lines.append(" ".join(words))
        if words[0] not in SILENT:
            lines.append(f"deliver {UNSENT} {nodes[0]}")
    parted = "".join(line + "\n" for line in lines).encode()
    played = output_of(["fleet", "-"], place=f"{path}, frame by frame", stdin=parted)
    if [line for line in played if line != f"no frame {UNSENT}"] != whole:
        raise wrong_form(path, "expected a scenario that prints the same frame by frame")
    reports = [[]]
    for line in played:
        if line == f"no frame {UNSENT}":
            reports.append([])
        else:
            reports[-1].append(line)
    return reports


class Frame:
    """A frame that was sent: the row where it begins, and the rows and nodes where it came."""

    def __init__(self, row, match):
        self.row, self.arrivals = row, []
        self.number, self.sender, self.text, self.to = match.groups()

    def is_for(self, node):
        return self.to in (None, "0.0", node)

    def come(self, row, node, code):
        """Takes an arrival; `code` says why it was refused, if it was."""
        is_again = any(node == other for _, other, _, _ in self.arrivals)
        told = ["repeated"] * is_again + [f"refused {code}"] * (code is not None)
        kind = "repeated" if is_again else "refused" if told else ""
        self.arrivals.append((row, node, kind, ", ".join(told)))


class Played:
    """What happened, row by row."""

    def __init__(self, path, text):
        whole = output_of(["fleet", "-"], place=path, stdin=text.encode())
        count = sum(map(bool, map(SENT.fullmatch, whole)))
        if count > MOST_FRAMES:
            raise wrong_form(path, f"{count} frames, and a chart has at most {MOST_FRAMES}")
        steps = steps_of(path, text, count)
        self.nodes, self.row, self.frames, self.notes, self.flowed = nodes_of(steps), 1, [], [], 0
        reports = reports_of(path, whole, steps, self.nodes)
        for words, lines in zip((words for words in steps if words[0] not in SILENT), reports):
            self.step(words, lines)

    def given(self, words):
        """Returns the frame that a step gives, or None, and the nodes that it gives it to."""
        if words[0] == "flow" and self.flowed < len(self.frames):
            self.flowed += 1
            frame = self.frames[self.flowed - 1]
            return frame, [node for node in self.nodes if node != frame.sender]
        if words[0] == "deliver" and int(words[1]) <= len(self.frames):
            return self.frames[int(words[1]) - 1], [words[2]]
        return None, []

    def step(self, words, lines):
        """Takes a line of the scenario and what the report says of it."""
        if words[0] in STATION_LINES:
            self.flowed = len(self.frames)
        if words[0] in NOTED:
            self.note(words[1], " ".join(words[:1] + words[2:])[:40], True)
        frame, nodes = self.given(words)
        refused = dict(line.split(" ")[1:3] for line in lines if line.startswith("drop "))
        shown = [node for node in nodes if frame.is_for(node) or node in refused]
        self.row += bool(shown)
        for node in shown:
            frame.come(self.row, node, refused.get(node))
        for line in lines:
            sent, told = SENT.fullmatch(line), TOLD.fullmatch(line)
            if sent:
                self.row += self.is_taken()
                self.frames.append(Frame(self.row, sent))
            elif told:
                self.note(told[2], f"{told[1]} {told[3]}".strip(), False)
            elif line.startswith("drop ") and not shown:
                self.note(line.split(" ")[1], "refused " + line.split(" ")[2], False)

    def is_taken(self):
        """Returns whether a frame begins, or a note stands, in this row."""
        latest = [self.frames[-1].row] if self.frames else []
        return self.row in latest + [row for row, _, _, _ in self.notes[-1:]]

    def note(self, node, text, is_line):
        """Notes a line of the scenario or of the report beside a node's line."""
        self.row += 1
        self.notes.append((self.row, node, text, is_line))
