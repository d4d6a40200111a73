"""Definitions of messages: `defs`, and the definitions that come with the program.

defs/common.extra has the public check bytes, `ID CRC_EXTRA`, of MAVLINK_MESSAGE_CRCS in the C library. A check
byte is over the names and types of a message's base fields, so it doesn't cover extension fields.
"""

import json
import os
import subprocess
import sys
import tempfile

from bench import TOP, golden, prints, refuses, same

sys.path.insert(0, os.path.join(TOP, "tests"))
from wire import CRC_EXTRA, checksum

COMMON = os.path.join(TOP, "defs", "common")
PROFILE = [0, 4, 20, 21, 22, 23, 33, 42, 43, 44, 45, 46, 47, 51, 73, 76, 77, 110, 253]
SIZES = {"char": 1, "int8_t": 1, "uint8_t": 1, "int16_t": 2, "uint16_t": 2, "int32_t": 4, "uint32_t": 4, "float": 4,
         "int64_t": 8, "uint64_t": 8, "double": 8, "uint8_t_mavlink_version": 1}


def public():
    """Returns the public check bytes by their message's id."""
    with open(COMMON + ".extra", encoding="ascii") as file:
        return {int(number): int(extra) for number, extra in map(str.split, file)}


def check_byte(message):
    """Returns the check byte of a message (MAVLink guide: Packet serialisation, CRC_EXTRA calculation)."""
    data = message["name"].encode() + b" "
    parts = [(field["type"].partition("[")[::2], field["name"]) for field in message["fields"]]
    for (kind, count), name in sorted(parts, key=lambda part: -SIZES[part[0][0]]):
        data += f"{'uint8_t' if 'version' in kind else kind} {name} ".encode()
        data += bytes([int(count[:-1])]) if count else b""
    whole = checksum(data)
    return whole >> 8 ^ whole & 255


def dialect(*words):
    """Returns the lines that the program prints of each message, by its id."""
    program = [os.environ["BEVUNTRI_PROGRAM"], "dialect", *words]
    lines = subprocess.run(program, capture_output=True, text=True, check=True).stdout.split("\n")
    found = {}
    for line in lines[:-2]:
        if line.startswith(" "):
            last.append(line)
        else:
            last = found.setdefault(int(line.split()[0]), [line])
    return found


def test_common_definitions_are_the_public_ones():
    with open(COMMON + ".json", encoding="ascii") as file:
        messages = json.load(file)["messages"]
    same("check bytes", {message["id"]: check_byte(message) for message in messages}, public())
    same("at least sixty", len(messages) >= 60, True)
    same("those that peers use", {number: public().get(number) for number in CRC_EXTRA}, CRC_EXTRA)


def test_common_definitions_as_the_program_reads_them():
    found, profile = dialect("--defs", COMMON + ".json"), dialect()
    extras = {number: int(lines[0].split()[-1]) for number, lines in found.items()}
    same("check bytes", extras, public())
    same("the profile's messages", {number: found.get(number) for number in PROFILE}, profile)


def test_defs():
    prints(golden("survey.defs"), "defs", "survey.xml")
    prints(golden("survey.defs"), "defs", "minimal.xml", "./survey.xml")


def test_wrong_files():
    laughs = b'<!DOCTYPE m [<!ENTITY a "ha">' + b"".join(
        b'<!ENTITY %c "%s">' % (98 + at, b"&%c;" % (97 + at) * 10) for at in range(9)) + b"]><mavlink>&j;</mavlink>"
    outside = b'<!DOCTYPE m [<!ENTITY a SYSTEM "/etc/hostname">]><mavlink>&a;</mavlink>'

    def message(text, number=b"1", name=b"A"):
        return b'<mavlink>\n<message id="%s" name="%s">%s</message></mavlink>' % (number, name, text)
    field = b'<field type="%s" name="%s"/>'
    with tempfile.TemporaryDirectory() as folder:
        def case(status, sentence, data):
            with open(os.path.join(folder, "file.xml"), "wb") as file:
                file.write(data)
            refuses(status, sentence, "defs", "file.xml", folder=folder)
        case(3, "entities are refused", laughs)
        case(3, "entities are refused", outside)
        case(3, "line 1: expected XML", b"")
        case(3, "UTF-8", b"\xff\x00\x80")
        case(3, "line 1: expected XML", b"\x00" * 1000)
        case(3, "at most 16777216 bytes", b"<" * 50_000_000)
        case(3, "nested", b"<a>" * 1_000_000)
        case(3, "line 1: expected XML", b"<mavlink>" + b"x" * 10_000_000)
        case(3, "'html'", b"<html/>")
        case(4, "'nothing.xml'", b"<mavlink><include>nothing.xml</include></mavlink>")
        case(3, "line 2: 'int'", message(field % (b"int", b"a")))
        case(3, "line 2: 'uint8_t[256]'", message(field % (b"uint8_t[256]", b"a")))
        case(3, "line 2: A has no field", message(b""))
        case(3, "line 2: A has two fields of one name", message(field % (b"char", b"a") * 2))
        case(3, "line 2: A has 256 bytes", message(field % (b"char[255]", b"a") + field % (b"char", b"b")))
        case(3, "line 2: expected an id", message(field % (b"char", b"a"), b"16777216"))
        case(3, "line 2: 'a b'", message(field % (b"char", b"a"), name=b"a b"))
        refuses(4, "'none.xml'", "defs", "none.xml", folder=folder)
        with open(os.path.join(folder, "other.xml"), "wb") as file:
            file.write(message(b"<include>x</include>" + field % (b"char", b"a")))
        again = message(field % (b"char", b"b"))
        case(3, "is defined in", again.replace(b"<mavlink>", b"<mavlink><include>other.xml</include>"))
