"""The format of a store in a file, read and written here alone: `check` and `crashes` use it.

A file has two slots of 65,546 bytes. A slot is a commit flag, open if it is 0xA5, a generation from 0 to 2, a length in 8
bytes, little-endian, and so many bytes. The current slot is the open one, or of two the one of the next generation.
"""

SLOT, SIZE, HEADER, OPEN = 65_546, 131_092, 10, 0xA5


def store_of(contents):
    """A file whose first slot holds these bytes."""
    return (bytes([OPEN, 0]) + len(contents).to_bytes(8, "little") + contents).ljust(SIZE, b"\0")


def slots_of(image):
    """Whether each slot is open, its generation, its length and its bytes."""
    slots = []
    for at in (0, SLOT):
        length = int.from_bytes(image[at + 2:at + HEADER], "little")
        slots.append((image[at] == OPEN, image[at + 1], length, image[at + HEADER:at + HEADER + length]))
    return slots


def contents_of(image):
    """What a file holds; None if no store writes such a file."""
    if len(image) != SIZE:
        return None
    first, second = slots_of(image)
    if any(is_open and (generation > 2 or length > SLOT - HEADER) for is_open, generation, length, _ in (first, second)):
        return None
    if first[0] and second[0]:
        if first[1] == second[1]:
            return None
        return (second if second[1] == (first[1] + 1) % 3 else first)[3]
    return first[3] if first[0] else second[3] if second[0] else b""
