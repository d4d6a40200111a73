"""The files that words name: what is wrong with one that the program refuses or can't read."""

import os
import re
import stat

from commands import NEED_FILE
from lines import upload_fault
from survey import MOST_ITEMS
from texts import LARGEST_TEXT, Mistake, UNREADABLE, json_of, shown, wrong_form

MOST_KEY_BYTES, STORE_BYTES, SLOT, HEADER = 66, 131_092, 65_546, 10
MOST_PUT_BYTES, MOST_MESSAGES, MOST_PAYLOAD = 1_048_576, 512, 255
SIZES = {"uint8_t": 1, "int8_t": 1, "char": 1, "uint16_t": 2, "int16_t": 2, "uint32_t": 4,
         "int32_t": 4, "float": 4, "uint64_t": 8, "int64_t": 8, "double": 8}
KEY_FORM = "expected 64 hexadecimal digits and at most a line end"
MAKE_KEY = "`bevuntri help drone` shows how a key is made"


def data_of(path, most=LARGEST_TEXT):
    """Returns the first bytes of a regular file; None of another, which is only opened once."""
    try:
        if stat.S_ISDIR(os.stat(path).st_mode):
            raise Mistake(UNREADABLE, f"{shown(path)} can't be read: it is a folder")
        if not stat.S_ISREG(os.stat(path).st_mode):
            return None
        with open(path, "rb") as file:
            return file.read(most)
    except (OSError, ValueError) as error:
        reason = getattr(error, "strerror", error)
        raise Mistake(UNREADABLE, f"{shown(path)} can't be read: {reason}") from None


def key_fault(data, may_be_empty):
    """Returns what is wrong with the bytes of a key's file, or None; none of them are shown."""
    body = data.removesuffix(b"\n")
    body = body.removesuffix(b"\r") if body != data else body
    if not data:
        return None if may_be_empty else f"{KEY_FORM}, and it is empty; {MAKE_KEY}"
    if len(data) <= MOST_KEY_BYTES and re.fullmatch(b"[0-9A-Fa-f]{64}", body):
        return None
    digits = len(re.match(b"[0-9A-Fa-f]*", body)[0])
    if digits < len(body) and digits < 64:
        return f"{KEY_FORM}, and its byte {digits + 1} is no digit"
    if digits != 64:
        return f"{KEY_FORM}, and it has {'more than 64' if digits > 64 else digits} digits"
    return f"{KEY_FORM}, and there is more after its 64 digits"


def field_fault(field, reason):
    """Returns what is wrong with a field of a message, or None."""
    if not isinstance(field, dict) or not all(isinstance(field.get(part), str)
                                              for part in ("type", "name")):
        return "expected a field with a type and a name" if reason == "shape" else None
    kind = re.fullmatch(r"([a-z0-9_]+)(?:\[([1-9][0-9]{0,2})\])?", field["type"])
    is_type = field["type"] == "uint8_t_mavlink_version" or kind and kind[1] in SIZES \
        and int(kind[2] or 1) <= MOST_PAYLOAD
    if reason == "type" and not is_type:
        return f"type {shown(field['type'])}: expected one such as uint8_t, float or char[16]"
    if reason == "name" and not re.fullmatch("[A-Za-z0-9_]{1,64}", field["name"]):
        return f"field {shown(field['name'])}: expected 1 to 64 letters, digits and _"
    return None


def layout_fault(message, fields):
    names = [field["name"] for field in fields]
    again = [name for at, name in enumerate(names) if name in names[:at]]
    if not message["fields"]:
        return "expected at least one base field"
    if again:
        return f"two fields are named {again[0]}"
    return f"expected at most {MOST_PAYLOAD} bytes of fields"


def message_fault(message, before, reason):
    """Returns what is wrong with a message behind others, or None."""
    fields = message.get("fields") if isinstance(message, dict) else None
    more = message.get("extensions", []) if isinstance(message, dict) else None
    if not isinstance(fields, list) or not isinstance(more, list) \
            or not isinstance(message.get("name"), str) or "id" not in message:
        expected = "expected an object with id, name and a list of fields"
        return expected if reason == "shape" else None
    number = str(message["id"])
    if reason == "shape" and not (number.isdecimal() and int(number) < 1 << 24):
        return f"id {shown(number)}: expected a whole number from 0 to 16777215"
    if reason == "name" and not re.fullmatch("[A-Z0-9_]{1,64}", message["name"]):
        return f"name {shown(message['name'])}: expected 1 to 64 of A to Z, 0 to 9 and _"
    for what in ("id", "name"):
        if reason == f"twice {what}" and any(message[what] == other[what] for other in before):
            return f"an earlier message has the {what} {shown(message[what])} already"
    told = [fault for fault in (field_fault(field, reason) for field in fields + more) if fault]
    if told or reason != "layout":
        return told[0] if told else None
    sizes = [re.fullmatch(r"([a-z0-9_]+?)(?:_mavlink_version)?(?:\[([0-9]+)\])?", field["type"])
             for field in fields + more]
    whole = sum(SIZES[size[1]] * int(size[2] or 1) for size in sizes)
    names = {field["name"] for field in fields + more}
    if not fields or len(names) < len(sizes) or whole > MOST_PAYLOAD:
        return layout_fault(message, fields + more)
    return None


def definitions_fault(path, data, reason):
    """Returns the mistake of definitions that the program refuses for a reason."""
    try:
        value = json_of(path, data.decode("utf-8"))
    except UnicodeDecodeError as error:
        return wrong_form(path, f"byte {error.start}: expected text in UTF-8")
    except Mistake as mistake:
        return mistake
    messages = value.get("messages") if isinstance(value, dict) else None
    if not isinstance(messages, list):
        return wrong_form(path, "expected an object whose member messages is an array")
    if len(messages) > MOST_MESSAGES:
        return wrong_form(path, f"expected at most {MOST_MESSAGES} messages, not {len(messages)}")
    for at, message in enumerate(messages):
        told = message_fault(message, messages[:at], reason)
        if told:
            name = message.get("name") if isinstance(message, dict) else None
            which = f" ({shown(name)})" if isinstance(name, str) else ""
            return wrong_form(path, f"message {at + 1}{which}: {told}")
    return wrong_form(path, f"expected definitions of messages, and they are refused: {reason}")


def check_store(path, system):
    """Checks that a store is of a drone, as far as its file is whole."""
    image = data_of(path, STORE_BYTES + 1) if os.path.exists(path) else None
    if image is None or len(image) != STORE_BYTES:
        return
    is_open = [image[at] == 0xA5 for at in (0, SLOT)]
    last = SLOT if is_open[1] and not (is_open[0] and image[1] == (image[SLOT + 1] + 1) % 3) else 0
    length = int.from_bytes(image[last + 2:last + HEADER], "little")
    if any(is_open) and 0 < length <= SLOT - HEADER and image[last + HEADER] != system:
        told = f"it has plans of the drone {image[last + HEADER]}.1, and not of {system}.1"
        raise wrong_form(path, f"expected a store of this drone: {told}")


def check_operation(line, data):
    """Checks the file of an upload or of a file to put, and the name of a drone's file."""
    key = line.operation()
    kind, path = line.plain[4 + len(key):][-1:], line.options.get("--file")
    if key[0] == "file" and kind and not re.fullmatch("[A-Za-z0-9._-]{1,64}", kind[0]):
        raise wrong_form(shown(kind[0]), "expected a name of 1 to 64 letters, digits, ., _ and -")
    if data is None or key not in NEED_FILE:
        return
    if key[0] == "file" and len(data) > MOST_PUT_BYTES:
        raise wrong_form(path, f"expected at most {MOST_PUT_BYTES} bytes to put")
    told = upload_fault(data, kind[0], MOST_ITEMS[kind[0]]) if key[0] == "upload" else None
    if told:
        raise wrong_form(path, told)
