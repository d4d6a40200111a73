"""The commands: their words, what they do, an example and their statuses.

This is the one place where they are listed. `help`, the checker of words, the completions and the
man page all read it, so a new command is an entry here. A command of two words is named by both.
"""

import re
from collections import namedtuple

# What stands for a file, a number, ports or an operation among the words. `low` and `high` bound a
# number, and say how many ports there may be; `is_open` is for ports that may be marked `open:`.
Part = namedtuple("Part", "name form low high is_open", defaults=(1, 1, False))
# `needs` are the options without which the command does nothing; `runs_on` is for those that don't
# end with their files, and talk with others meanwhile.
Command = namedtuple("Command", "told options needs parts example statuses runs_on",
                     defaults=(False,))

FILE = Part("FILE", "file")
SYSTEM = Part("SYS", "number", 1, 255)
PORT = Part("PORT", "port")
MOST_NUMBER = 1_000_000_000
# Each option with the name of its value, or None.
OPTIONS = {
    "--frames": None, "--one": None,
    "--key": Part("KEY", "file"), "--defs": Part("DEFS", "file"),
    "--file": FILE, "--store": Part("STORE", "file"),
    "--turns": Part("N", "number", 1, MOST_NUMBER), "--ticks": Part("N", "number", 1, MOST_NUMBER),
}
PLAN_KINDS = ("mission", "fence", "rally")
# The operations of a station: their first words, and the forms of the words behind them.
OPERATIONS = {
    ("upload",): ("plan kind",), ("get",): ("plan kind",), ("clear",): ("plan kind or all",),
    ("command",): ("65535", "word"), ("param", "list"): (), ("param", "read"): ("parameter",),
    ("param", "set"): ("parameter", "255", "word"), ("file", "list"): (), ("file", "get"): ("any",),
    ("file", "put"): ("any",), ("file", "remove"): ("any",),
}
NEED_FILE = {("upload",), ("file", "put")}
MAKE_KEY = "[ -e key ] || (umask 077; head -c 32 /dev/urandom | od -An -v -tx1" \
    " | tr -d ' \\n' > key)"
MAKE_LOG = "bin/bevuntri log make 1700000000000000 scenarios/small.capture > flight.tlog"
READING = (0, 2, 3, 4, 5, 6, 7, 11)

COMMANDS = {
    "fleet": Command(
        "plays a scenario of drones and stations, and prints its report", ("--frames", "--key"), (),
        (FILE,), ["bin/bevuntri fleet scenarios/one-item.scenario"], (0, 2, 3, 4, 5, 6, 7, 11, 13)),
    "make": Command(
        "plays a scenario that is generated from a number, and prints its sums", (), (),
        (Part("N", "number", 0, 1_000_000),), ["bin/bevuntri make 1000000"], (0, 2, 5, 6, 7, 13)),
    "fence": Command(
        "says whether a mission and its flight stay inside a fence", (), (), (FILE,),
        ["bin/bevuntri fence scenarios/survey.fence"], READING),
    "decode": Command(
        "prints the frames of a capture", ("--defs", "--key"), (), (FILE,),
        ["bin/bevuntri decode scenarios/small.capture"], READING),
    "dialect": Command(
        "prints the layouts and check bytes of messages", ("--defs",), (), (),
        ["bin/bevuntri dialect --defs defs/common.json"], READING),
    "log make": Command(
        "makes a telemetry log of a capture", ("--defs",), (),
        (Part("START", "number", 0, 4_000_000_000_000_000), FILE), [MAKE_LOG], READING),
    "log show": Command(
        "prints the rows of a telemetry log", ("--defs",), (), (FILE,),
        [MAKE_LOG, "bin/bevuntri log show flight.tlog"], READING),
    "log filter": Command(
        "writes the rows of one system", ("--defs",), (), (Part("SYS", "number", 0, 255), FILE),
        [MAKE_LOG, "bin/bevuntri log filter 1 flight.tlog > one.tlog"], READING),
    "drone": Command(
        "runs a simulated drone on a port", ("--key", "--store", "--turns"), ("--key",),
        (SYSTEM, PORT), [MAKE_KEY, "bin/bevuntri drone --key key 1 udplisten:127.0.0.1:14550"],
        (0, 2, 3, 4, 5, 7, 10, 11, 12, 13), True),
    "station": Command(
        "does one thing with a drone: plans, commands, parameters, files",
        ("--key", "--ticks", "--file"), ("--key",),
        (SYSTEM, Part("COMP", "number", 1, 255), Part("DRONE", "number", 1, 255), PORT,
         Part("OP", "operation")),
        ["# while the drone of `bevuntri help drone` runs in another terminal",
         "echo 'item 6 16 473977420 85455940' > survey",
         "bin/bevuntri station --key key --file survey 255 190 1 udp:127.0.0.1:14550"
         " upload mission"],
        (0, 2, 3, 4, 5, 6, 7, 8, 9, 11, 12, 13), True),
    "route": Command(
        "routes packets between ports, and says what went where",
        ("--key", "--defs", "--one", "--turns"), ("--key",), (Part("PORT", "port", 1, 8, True),),
        [MAKE_KEY, "bin/bevuntri route --key key open:file:scenarios/small.capture:/dev/null"
         " open:file:/dev/null:copy.capture"], READING, True),
}
FORMS = {
    "KEY": "a file of 64 hexadecimal digits",
    "DEFS": "a file of definitions, such as defs/common.json; the built-in profile without it",
    "PORT": "tcp:HOST:NUMBER, listen:HOST:NUMBER, udp:HOST:NUMBER, udplisten:HOST:NUMBER,\n"
            "        file:IN:OUT or replay:IN:OUT; route also takes each with open: in front",
    "STORE": "a file that keeps the drone's plans, made if there is none; in memory without it",
    "OP": "upload KIND, get KIND, clear KIND, clear all, command NUMBER WORD, param list,\n"
          "        param read ID, param set ID TYPE WORD, file list, file get NAME,\n"
          "        file put NAME or file remove NAME; KIND is mission, fence or rally, WORD is\n"
          "        eight hexadecimal digits, and upload and file put send what FILE has",
    "SYS": "a system, 1 to 255; log filter also takes 0",
    "DRONE": "the system of the drone, 1 to 255",
    "START": "the time of the first row, in microseconds since 1970",
    "turns": "how often a port is read at most, 1000000 without it",
    "ticks": "how many quarters of a second the drone has to answer, 50 without it",
}
STATUSES = {
    0: "done", 2: "usage: the words aren't a command", 3: "a file is of the wrong form",
    4: "a file can't be read", 5: "standard output can't be written", 6: "a limit is met",
    7: "memory ran out", 8: "the drone refused", 9: "the drone didn't answer",
    10: "the store can't be read or written", 11: "the turns are spent",
    12: "the port can't be opened, read or written", 13: "no timestamps are left",
}
# The tools beside the program, which have pages of their own, and their options.
TOOLS = {
    "plan import": ("makes item lines of a plan of QGroundControl or Mission Planner",
                    ("--fence", "--rally", "--strict")),
    "plan export": ("makes a plan for these stations of item lines", ("--plan",)),
    "defs": ("makes definitions of messages of MAVLink's XML", ()),
    "json": ("makes JSON lines of what decode and log show print", ("--defs",)),
    "log-stats": ("says what a telemetry log has, and what was lost", ("--defs",)),
    "track": ("draws the way of a vehicle in a telemetry log, as SVG, GPX or CSV",
              ("--csv", "--gpx", "--svg")),
    "chart": ("draws a scenario's report as a sequence chart, or a fence as a map", ("--fence",)),
    "page": ("shows live traffic on a web page", ("--text", "--key", "--defs", "--at")),
}
# What the launcher does by itself.
OWN = {
    "--unproved": "before a command that reads files: a first look, without a proof",
    "help": "prints this, or the page of one command",
    "version": "prints the version",
    "clean": "removes what builds keep in this clone and in the user's cache",
}


def words_text(name):
    """Returns the words behind a command's name, as its page shows them."""
    command, texts = COMMANDS[name], []
    for option in command.options:
        part = OPTIONS[option]
        text = f"{option} {part.name}" if part else option
        texts.append(text if option in command.needs else f"[{text}]")
    several = {"operation", "port"}
    texts += [part.name + ".." * (part.form in several and part != PORT) for part in command.parts]
    return " ".join(texts)


def forms_of(name):
    """Returns the forms that the words of a command name, by their names."""
    named = re.findall("[A-Za-z]+", words_text(name))
    return {word: form for word, form in FORMS.items() if word in named}
