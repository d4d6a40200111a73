"""Folders in which the launcher runs as where it was installed, or as in a clone in which nothing was built yet."""

import contextlib
import importlib.machinery
import importlib.util
import os
import shutil
import subprocess
import sys
import tempfile

from bench import TOP

sys.path[:0] = [os.path.join(TOP, "tools"), os.path.join(TOP, "tests")]
SECONDS = 120


def cases():
    """Returns the script tests/check, and all cases of tests/cases."""
    loader = importlib.machinery.SourceFileLoader("check", os.path.join(TOP, "tests", "check"))
    check = importlib.util.module_from_spec(importlib.util.spec_from_loader("check", loader))
    loader.exec_module(check)
    folder = os.path.join(TOP, "tests", "cases")
    return check, [case for name in sorted(os.listdir(folder)) for case in check.cases_of(os.path.join(folder, name))]


@contextlib.contextmanager
def installed():
    """Gives the launcher of a folder that has the program, as bin/install leaves it."""
    with tempfile.TemporaryDirectory() as folder:
        for name in ("bin", "tools", "defs", "scenarios"):
            shutil.copytree(os.path.join(TOP, name), os.path.join(folder, name))
        os.symlink(os.environ["BEVUNTRI_PROGRAM"], os.path.join(folder, "program"))
        yield os.path.join(folder, "bin", "bevuntri")


FAKE_RT = """#!/usr/bin/env python3
import os, sys, time
if sys.argv[1] == "version":
    print("fake")
elif sys.argv[1] == "ci":
    open(os.environ["HOME"] + "/builds", "a").write("one\\n")
    time.sleep(float(os.environ.get("FAKE_SECONDS", "0")))
    names = [line.partition(":")[0] for line in open("crates.txt") if ":" in line]
    for name in names:
        print(f"rt: {name} proved", flush=True)
    if os.environ.get("FAKE_RT") == "fails":
        sys.exit(1)
    os.makedirs(f"crates/{names[-1]}/out")
    with open(f"crates/{names[-1]}/out/{names[-1]}", "w") as file:
        file.write('#!/bin/sh\\necho built "$@"\\n')
    os.chmod(f"crates/{names[-1]}/out/{names[-1]}", 0o755)
else:
    print(os.path.basename(os.getcwd()), *sys.argv[1:])
    print(sys.stdin.read(), end="")
    print(os.environ.get("FAKE_RT", "run=ended status=0 runners=1 proved=no"), file=sys.stderr)
"""


@contextlib.contextmanager
def clone(with_toolchain=True):
    """Gives the launcher of a clone with small crates, and an environment with a toolchain that only pretends."""
    with tempfile.TemporaryDirectory() as folder:
        for name in ("bin", "tools", "defs"):
            shutil.copytree(os.path.join(TOP, name), os.path.join(folder, name))
        with open(os.path.join(folder, "crates.txt"), "w", encoding="ascii") as file:
            file.write("low:\nmiddle: low\nbevuntri: middle\nbevuntri_fleet: low\n")
        for name in ("low", "middle", "bevuntri", "bevuntri_fleet"):
            os.makedirs(os.path.join(folder, "crates", name, "src"))
            with open(os.path.join(folder, "crates", name, "src", "main.rt"), "w", encoding="ascii") as file:
                file.write("// a line\n" * 100)
        open(os.path.join(folder, "HANDLES"), "w", encoding="ascii").close()
        os.makedirs(os.path.join(folder, "path"))
        if with_toolchain:
            with open(os.path.join(folder, "path", "rt"), "w", encoding="ascii") as file:
                file.write(FAKE_RT)
            os.chmod(os.path.join(folder, "path", "rt"), 0o755)
        path = f"{folder}/path:{os.path.dirname(sys.executable)}:/usr/bin:/bin"
        yield os.path.join(folder, "bin", "bevuntri"), {"PATH": path, "HOME": folder}


def ends(launcher, *words, stdin=b"", env=None, folder=None):
    """Returns what the launcher writes to both streams, and its status."""
    done = subprocess.run([launcher, *words], input=stdin, capture_output=True, timeout=SECONDS, check=False, env=env,
                          cwd=folder)
    return done.stdout.decode(), done.stderr.decode(), done.returncode
