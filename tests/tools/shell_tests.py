"""The completions and the man page, which are made of the table of commands."""

import os
import shutil
import subprocess
import tempfile

from bench import TOP, Skipped, same
from layouts import cases

import commands

cases()  # The folders tools/ and tests/ are on the path from here on.
COMPLETE = """
. "$1"
COMP_WORDS=("${@:2}") COMP_CWORD=$(($# - 2))
_bevuntri
printf '%s\\n' "${COMPREPLY[@]}"
"""


# What the completion system of zsh would have set, and calls of it that print what they are given.
ZSH_COMPLETE = """
compadd() { shift; print -l -- "$@"; }
_files() { print -l -- *(N); }
words=("${@:2}") CURRENT=$(($# - 1))
. "$1"
"""


def made(*words):
    """Returns what a script of packaging/ prints."""
    script = os.path.join(TOP, "packaging", words[0])
    return subprocess.run([script, *words[1:]], capture_output=True, text=True, check=True, timeout=60).stdout


def test_completion_of_bash():
    with tempfile.TemporaryDirectory() as folder:
        with open(os.path.join(folder, "completion"), "w", encoding="utf-8") as file:
            file.write(made("completion", "bash"))
        open(os.path.join(folder, "flight.tlog"), "wb").close()

        def offered(*words):
            done = subprocess.run(["bash", "-c", COMPLETE, "bash", "completion", "bevuntri", *words], cwd=folder,
                                  capture_output=True, text=True, check=False, timeout=60)
            same(words, (done.returncode, done.stderr), (0, ""))
            return set(done.stdout.split())
        firsts = {name.split()[0] for name in [*commands.COMMANDS, *commands.TOOLS, *commands.OWN]}
        same("first words", offered("") >= firsts, True)
        same("f", offered("f"), {"fleet", "fence"})
        same("log", offered("log", ""), {"make", "show", "filter"})
        for name, command in commands.COMMANDS.items():
            same(name, offered(*name.split(), "--") >= set(command.options), True)
        for words in (["fleet", "fl"], ["route", "--key", "fl"], ["track", "fl"], ["log", "show", "fl"]):
            same(f"{words}", offered(*words), {"flight.tlog"})
        same("a number", offered("drone", "--turns", ""), set())
        same("ports", offered("drone", "udp"), {"udp:", "udplisten:"})


def test_completion_of_zsh():
    if not shutil.which("zsh"):
        raise Skipped("zsh is not installed")
    with tempfile.TemporaryDirectory() as folder:
        with open(os.path.join(folder, "completion"), "w", encoding="utf-8") as file:
            file.write(made("completion", "zsh"))

        def offered(*words):
            script = ["zsh", "-f", "-c", ZSH_COMPLETE, "zsh", "./completion", "bevuntri", *words]
            done = subprocess.run(script, cwd=folder, capture_output=True, text=True, check=False, timeout=60)
            same(words, (done.returncode, done.stderr), (0, ""))
            return set(done.stdout.split())
        firsts = {name.split()[0] for name in [*commands.COMMANDS, *commands.TOOLS, *commands.OWN]}
        same("first words", offered("") >= firsts, True)
        same("log", offered("log", ""), {"make", "show", "filter"})
        for name, command in commands.COMMANDS.items():
            same(name, offered(*name.split(), "--") >= set(command.options), True)
        same("a file's name", offered("route", "--key", "c"), {"completion"})
        same("a number", offered("drone", "--turns", ""), set())
        same("ports", offered("drone", "") >= {"tcp:", "udp:", "udplisten:"}, True)


def test_man_page():
    page = made("man", "/usr/lib/bevuntri")
    if not shutil.which("groff"):
        raise Skipped("groff is not installed")
    done = subprocess.run(["groff", "-man", "-Tascii", "-ww"], input=page, capture_output=True, text=True, check=False,
                          timeout=60)
    same("groff", (done.returncode, done.stderr), (0, ""))
    for text in [*commands.COMMANDS, *commands.TOOLS, "/usr/lib/bevuntri/scenarios/one-item.scenario"]:
        same(text, text in done.stdout.replace("\b", ""), True)
