"""What a drone's store holds, read by the format of the manual alone; `kill` and `starved` use it.

It holds the drone's system, its timestamp low bound in 8 bytes, and for each kind the number of its items in 2 bytes
and each item in 33 bytes, all little-endian."""

import os
import struct
import sys

TOP = os.path.dirname(os.path.dirname(os.path.dirname(os.path.realpath(__file__))))
sys.path.insert(0, os.path.join(TOP, "tests"))
from slots import contents_of
from wire import KEY

# Where a store is synchronised at once, whatever else the machine's disk does; None where there is no such folder.
MEMORY = next((folder for folder in ("/dev/shm",) if os.access(folder, os.W_OK)), None)
KEY_FILE = KEY.hex().encode() + b"\n"
FIXED, ITEM = struct.Struct("<BQ"), struct.Struct("<BHBB4IiiI")


class NoStore(Exception):
    """The file is none that a store leaves."""


def stored(path):
    """The low bound and the three plans in a store; 0 and three empty plans if nothing was saved."""
    with open(path, "rb") as file:
        contents = contents_of(file.read())
    if contents is None:
        raise NoStore("the file is no store")
    return read(contents) if contents else (0, [[], [], []])


def read(contents):
    try:
        (system, bound), at, plans = FIXED.unpack_from(contents), FIXED.size, []
        for _ in range(3):
            count, at = int.from_bytes(contents[at:at + 2], "little"), at + 2
            plans.append([item_of(ITEM.unpack_from(contents, at + n * ITEM.size)) for n in range(count)])
            at += count * ITEM.size
    except struct.error:
        raise NoStore("what the store holds is cut off") from None
    if at != len(contents) or system != 1 or bound >= 2**48:
        raise NoStore(f"{len(contents)} bytes of system {system} with the bound {bound}")
    return bound, plans


def item_of(fields):
    frame, command, current, onwards, *params, x, y, z = fields
    return tuple(params), x, y, z, command, frame, current, onwards
