"""Telemetry logs as `log show` prints them, and standard input."""

import sys
import tempfile

from texts import Mistake, UNREADABLE, shown, start_program, wrong_form

# Copies of standard input, by their paths, as long as the tool runs.
COPIES = {}


def stdin_lines():
    """Yields the lines of standard input as bytes."""
    if sys.stdin is None:
        raise Mistake(UNREADABLE, "standard input can't be read: it is closed")
    try:
        yield from sys.stdin.buffer
    except OSError as error:
        raise Mistake(UNREADABLE, f"standard input can't be read: {error.strerror}") from None


def log_path(path):
    """Returns the path of a log; `-` is standard input, which is copied, since it is read twice."""
    if path != "-":
        return path
    copy = tempfile.NamedTemporaryFile(prefix="bevuntri-")
    COPIES[copy.name] = copy
    try:
        for line in stdin_lines():
            copy.write(line)
        copy.flush()
    except OSError as error:
        raise Mistake(UNREADABLE, f"{copy.name} can't be written: {error.strerror}") from None
    return copy.name


def named(path):
    """Returns the name of a log for a sentence."""
    return "standard input" if path in COPIES else path


def log_blocks(path, definitions):
    """Yields what `log show` prints of a telemetry log, as blocks of whole lines after a line end.

    Patterns that begin with that line end find their lines soonest among many of skipped bytes.
    """
    try:
        with open(path, "rb"):
            pass
    except (OSError, ValueError) as error:
        reason = getattr(error, "strerror", error)
        raise Mistake(UNREADABLE, f"{shown(path)} can't be read: {reason}") from None
    defs = ["--defs=" + definitions] if definitions else []
    process = start_program(["log", "show", *defs, "--", path])
    rest = last = b""
    while block := process.stdout.read(1 << 20):
        whole, newline, rest = (rest + block).rpartition(b"\n")
        last = whole[whole.rfind(b"\n") + 1:] if newline else last
        yield b"\n" + whole + newline
    if process.wait():
        # The log could be opened, and no form of it is refused.
        of_definitions = (b"bad definitions", b"limit bytes 16777216", b"read fault")
        place = "--defs=" + definitions if defs and last.startswith(of_definitions) else named(path)
        raise Mistake(process.returncode, f"{place}: log show ends with {shown(last.decode())}")
    if last.startswith(b"rows 0 "):
        came = shown(last.decode())
        raise wrong_form(named(path), f"expected rows of a telemetry log, and not {came}")
