"""What the tests of the tools share."""

import difflib
import os
import subprocess

TOP = os.path.dirname(os.path.dirname(os.path.dirname(os.path.realpath(__file__))))
DATA = os.path.join(TOP, "tests", "data", "tools")
SECONDS = 120


class Skipped(Exception):
    """Ends a test that can't be run here, and says why."""


def bevuntri(*words, stdin=b"", folder=DATA):
    """Runs the launcher, and returns what it writes to both streams, and its status."""
    launcher = os.path.join(TOP, "bin", "bevuntri")
    done = subprocess.run([launcher, *words], cwd=folder, input=stdin, capture_output=True, timeout=SECONDS,
                          check=False)
    return done.stdout, done.stderr.decode(), done.returncode


def golden(name):
    with open(os.path.join(DATA, name), "rb") as file:
        return file.read()


def same(what, came, wanted):
    """Fails where the two differ."""
    if came == wanted:
        return
    if isinstance(came, bytes) and isinstance(wanted, bytes):
        pair = [side.decode(errors="backslashreplace").split("\n") for side in (wanted, came)]
        lines = list(difflib.unified_diff(*pair, "wanted", "came", n=1, lineterm=""))[:30]
        raise AssertionError("\n".join([what + " differs", *lines]))
    raise AssertionError(f"{what}: {came!r:.500}, and not {wanted!r:.500}")


def prints(wanted, *words, stdin=b"", status=0):
    """Fails unless a tool prints these bytes, with this status."""
    came, told, ended = bevuntri(*words, stdin=stdin)
    same(" ".join(words) + " ends with", (ended, told if status == 0 else ""), (status, ""))
    same(" ".join(words), came, wanted)


def refuses(status, sentence, *words, stdin=b"", folder=DATA):
    """Fails unless a tool prints nothing but one sentence with this text in it on standard error, with this status."""
    came, told, ended = bevuntri(*words, stdin=stdin, folder=folder)
    what = " ".join(word[:60] for word in words)
    same(what, (came, ended), (b"", status))
    if told.count("\n") != 1 or len(told) > 400 or not told.startswith("bevuntri: ") or sentence not in told:
        raise AssertionError(f"{what}: one sentence with {sentence!r} was wanted, and not {told[:400]!r}")
