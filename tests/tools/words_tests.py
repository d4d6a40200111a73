"""The words of the tools, and their pages, for which nothing is built."""

import os
import subprocess
import sys

from bench import TOP, bevuntri, prints, refuses, same

COMMANDS = ["fleet", "decode", "dialect", "route", "drone", "station", "log show", "log filter", "log make", "fence",
            "make"]
TOOLS = ["plan import", "plan export", "defs", "json", "log-stats", "track", "chart", "page"]


def test_each_command_has_a_line_and_a_page():
    overview, _, status = bevuntri("help")
    same("help", status, 0)
    lines = overview.decode().split("\n")
    for name in COMMANDS + TOOLS:
        same(f"lines of {name}", sum(line.startswith(f"  {name} ") for line in lines), 1)
        page, told, status = bevuntri("help", *name.split())
        same(f"help {name}", (page.decode().startswith(f"bevuntri {name} "), told, status), (True, "", 0))
    for name in TOOLS:
        prints(bevuntri("help", *name.split())[0], *name.split(), "--help")


def test_pages_tell_each_form():
    page = bevuntri("help", "station")[0].decode()
    for form in ("64 hexadecimal digits", "udp:HOST:NUMBER", "upload KIND", "file remove NAME"):
        same(form, form in page, True)
    page, told, status = bevuntri("chart", "--fence", "--help")
    same("chart --fence", (page[:29], told, status), (b"bevuntri chart --fence FILE: ", "", 0))


def test_first_words_of_the_launcher():
    prints(bevuntri("help")[0], "--help")
    prints(bevuntri("version")[0], "--version")


def test_nothing_is_built_for_the_words_of_tools():
    words = [TOP + "/bin/bevuntri", "help"]
    path = os.path.dirname(sys.executable) + ":/usr/bin:/bin"
    done = subprocess.run(words, env={"PATH": path}, capture_output=True, check=False, timeout=30)
    same("without a toolchain", (done.returncode, done.stderr), (0, b""))


def test_output_that_cannot_be_written():
    with open("/dev/full", "wb") as full:
        words = [TOP + "/bin/bevuntri", "help"]
        done = subprocess.run(words, stdout=full, stderr=subprocess.PIPE, check=False, timeout=30)
    same("status", (done.returncode, done.stderr.count(b"\n")), (5, 1))


def test_wrong_words():
    refuses(2, "'nope'", "help", "nope")
    refuses(2, "expects the word import or export", "plan")
    refuses(2, "'inport'", "plan", "inport")
    for name in TOOLS:
        refuses(2, "'--nope'", *name.split(), "--nope")
    for name in ("json", "log-stats", "page"):
        refuses(2, "--defs expects a value", name, "--defs=")
    refuses(2, "256.0.0.1:0", "page", "--text", "page.text", "--at", "256.0.0.1:0")
    for name in ("plan import", "plan export", "defs", "log-stats", "track", "chart"):
        refuses(2, "missing", *name.split())
