"""The grammar of the program's words: the first word that is wrong, and what was expected there.

The program refuses words as `usage` by the same rules, which the manual tells; a test compares the
two over all words of tests/cases.
"""

import difflib
import re

from commands import COMMANDS, NEED_FILE, OPERATIONS, OPTIONS, OWN, TOOLS, words_text
from operations import among, check_operation, is_number, operation_of, wrong
from texts import shown

SOCKETS, FILES = ("tcp", "listen", "udp", "udplisten"), ("file", "replay")
PORT_FORMS = "tcp:HOST:NUMBER, listen:HOST:NUMBER, udp:HOST:NUMBER, udplisten:HOST:NUMBER, " \
    "file:IN:OUT or replay:IN:OUT"


class Line:
    """What words ask for: the command's name, its options by name, and its plain words."""

    def __init__(self, name):
        self.name, self.command, self.options, self.plain = name, COMMANDS[name], {}, []

    def inputs(self):
        """Returns the files that are read, in the order in which the program reads them."""
        files = [(part, self.options[part]) for part in ("--key", "--defs") if part in self.options]
        files += [("FILE", self.options["--file"])] if "--file" in self.options else []
        return files + [("FILE", word) for word, part in zip(self.plain, self.command.parts)
                        if part.form == "file"]

    def operation(self):
        """Returns the operation of a station, its first words, or None."""
        return operation_of(self.plain)


def begun(words):
    """Returns the line that words begin, and the words behind its command."""
    firsts = list(dict.fromkeys(name.split()[0] for name in COMMANDS))
    if not words or words[0] not in firsts:
        first = shown(words[0]) if words else "no word"
        known = [*firsts, *(name.split()[0] for name in TOOLS), *OWN]
        near = difflib.get_close_matches(words[0] if words else "", known, 1, 0.6)
        hint = f": did you mean {near[0]}?" if near else ""
        if words and words[0] in {key[0] for key in OPERATIONS}:
            hint = ": it is an operation of station, as `bevuntri help station` tells"
        raise wrong(f"{first} is no command{hint or ': `bevuntri help` lists them'}")
    if words[0] in COMMANDS:
        return Line(words[0]), words[1:]
    seconds = [name.split()[1] for name in COMMANDS if name.startswith(words[0] + " ")]
    if len(words) < 2 or words[1] not in seconds:
        came = f", and not {shown(words[1])}" if len(words) > 1 else ""
        raise wrong(f"expected {among(seconds)} after {words[0]}{came}")
    return Line(" ".join(words[:2])), words[2:]


def check_number(what, word, part):
    if not is_number(word, part.low, part.high):
        raise wrong(f"{what}: expected a number from {part.low} to {part.high}, not {shown(word)}")


def check_port(word, is_open):
    """Checks one port of a command."""
    rest = word.removeprefix("open:")
    if rest != word and not is_open:
        raise wrong(f"{shown(word)}: a port here has no open: in front")
    kind, *parts = rest.split(":")
    if kind not in SOCKETS + FILES or len(parts) != 2 or not parts[0]:
        raise wrong(f"{shown(word)} is no port: expected {PORT_FORMS}")
    if kind in FILES and not parts[1]:
        raise wrong(f"{shown(word)}: expected {kind}:IN:OUT with the names of two files")
    if kind in SOCKETS and not is_number(parts[1], 1, 65535):
        raise wrong(f"{shown(word)}: expected a NUMBER from 1 to 65535 after the last colon")


def take_plain(line, word):
    """Takes a plain word."""
    line.plain.append(word)
    parts, at = line.command.parts, len(line.plain) - 1
    part = parts[min(at, len(parts) - 1)] if parts else None
    is_last = part and at >= len(parts) - 1
    most = part.high if part and part.form == "port" else 1
    if part is None or is_last and part.form != "operation" and at - len(parts) + 2 > most:
        raise wrong(f"{shown(word)} is one word too many: {line.name} {words_text(line.name)}")
    if part.form == "number":
        check_number(part.name, word, part)
    elif part.form == "port":
        check_port(word, part.is_open)
    elif part.form == "operation":
        check_operation(line.plain)
    elif not word:
        raise wrong(f"{part.name}: expected the name of a file, and not an empty word")


def take_option(line, name, value):
    """Takes an option and its value."""
    part = OPTIONS[name]
    if name in line.options:
        raise wrong(f"{name} is given a second time")
    line.options[name] = value
    if part and part.form == "number":
        check_number(name, value, part)
    elif part and not value:
        raise wrong(f"{name}: expected the name of a file, and not an empty word")


def check_whole(line):
    """Checks that nothing is missing, and that standard input is one file at most."""
    parts = line.command.parts
    missing = [part.name for part in parts[len(line.plain):]]
    missing += [f"{name} {OPTIONS[name].name}" for name in line.command.needs
                if name not in line.options]
    if missing:
        raise wrong(f"{missing[0]} is missing: {line.name} {words_text(line.name)}")
    if parts and parts[-1].form == "operation":
        key, words = line.operation(), line.plain[4:]
        if key is None or len(words) < len(key) + len(OPERATIONS[key]):
            raise wrong(f"a word is missing after {' '.join(words)}: `bevuntri help station`"
                        " has all operations")
        if (key in NEED_FILE) != ("--file" in line.options):
            more = "needs --file FILE, which it sends" if key in NEED_FILE else "sends no --file"
            raise wrong(f"{' '.join(key)} {more}")
    named = [word for _, word in line.inputs()] + [line.options.get("--store")]
    if named.count("-") > 1:
        raise wrong("'-' is standard input, which can be one file alone")


def read(words):
    """Returns the line that words are; the first word that is wrong is a mistake."""
    for at, word in enumerate(words, 1):
        if not word.isascii() and any(0xDC80 <= ord(char) <= 0xDCFF for char in word):
            raise wrong(f"word {at}, {shown(word)}, isn't UTF-8")
    line, rest = begun(words)
    taken = line.command.options
    expected = f"expected {among(taken)}" if taken else "it has no options"
    while rest:
        word = rest.pop(0)
        name, is_pair, value = word.partition("=")
        if word == "--":
            for plain in rest:
                take_plain(line, plain)
            break
        if not re.match("-.", word, re.DOTALL):
            take_plain(line, word)
        elif name not in taken:
            if word in ("--help", "-h"):
                expected = f"`bevuntri help {line.name}` tells its words"
            raise wrong(f"{shown(word)} is no option of {line.name}: {expected}")
        elif OPTIONS[name] is None and is_pair:
            raise wrong(f"{shown(word)}: {name} has no value")
        elif OPTIONS[name] is None or is_pair:
            take_option(line, name, value)
        elif not rest or re.match("-.", rest[0], re.DOTALL):
            came = f", not {shown(rest[0])}" if rest else ""
            raise wrong(f"expected {OPTIONS[name].name} after {name}{came}")
        else:
            take_option(line, name, rest.pop(0))
    check_whole(line)
    return line
