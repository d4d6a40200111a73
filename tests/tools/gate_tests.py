"""How bin/test counts what its parts print, and the table that bench/gate writes."""

import importlib.machinery
import importlib.util
import os
import subprocess
import sys

from bench import TOP, same


def script(folder="bin", name="test"):
    """Returns a script as a module."""
    loader = importlib.machinery.SourceFileLoader(f"{folder}_{name}", os.path.join(TOP, folder, name))
    module = importlib.util.module_from_spec(importlib.util.spec_from_loader(loader.name, loader))
    loader.exec_module(module)
    return module


def test_counts_of_parts():
    counts_of = script().counts_of
    live = "over_tcp --one: as it should be, 1.5 s\nover_udp: the status is not printed, 2.0 s\n"
    for output, status, counts in (
            ("a: is shown\n5 passed, 0 failed\n", 0, (5, 0, 0)), ("3 passed, 2 failed, 1 skipped\n", 1, (3, 2, 1)),
            ("939 cases and 25 scenarios: 964 as written down, 0 not\n", 0, (964, 0, 0)),
            ("939 cases and 25 scenarios: 960 as written down, 4 not\n", 1, (960, 4, 0)), (live, 1, (1, 1, 0)),
            (live.split("\n")[0], 0, (1, 0, 0)), ("9 kills left one, 3 the other: as it should be\n", 0, (1, 0, 0)),
            ("", 0, (1, 0, 0)), ("", 1, (0, 1, 0)), ("5 passed, 0 failed\n", 1, (5, 1, 0)),
            ("Traceback\n", 1, (0, 1, 0))):
        same(output, counts_of(output, status), counts)


def test_a_part_that_fails_is_printed_whole():
    module = script()
    shown = module.Shown()
    words = [sys.executable, "-c", "print('a'); print('1 passed, 1 failed'); raise SystemExit(1)"]
    same("a part", module.run_part(words, "a part", shown), ("a\n1 passed, 1 failed\n", 1))


def test_rows_of_costs():
    module = script("bench", "gate")
    names = list(module.crates())
    spent = {(names[0], "proof", ""): 2.0, (names[0], "edits", "seed"): 1.0, (names[0], "edits", "0"): 3.0,
             (names[1], "tests", ""): 5.0}
    rows, edits = list(module.rows_of(spent)), [len(module.edits_of(name)) for name in names]
    wanted = [f"| {names[0]} | 2 | 0 | 4 | {edits[0]} | 6 |", f"| {names[1]} | 0 | 5 | 0 | {edits[1]} | 5 |"]
    same("rows", rows[:2], wanted)
    same("the last row", (len(rows), rows[-1]), (len(names) + 1, f"| all | 2 | 5 | 4 | {sum(edits)} | 11 |"))


def test_longest_chain_of_proofs():
    module = script("bench", "gate")
    found = {"low": [], "dear": ["std"], "middle": ["low"], "top": ["middle", "dear"]}
    page = "| Crate | proof |\n|---|---|\n| low | 5 | 0 |\n| dear | 9 | 1 |\n| middle | 3 | 0 |\n| all | 17 | 1 |\n"
    seconds = module.proofs_of(page)
    same("seconds", seconds, {"low": 5, "dear": 9, "middle": 3})
    same("a chain", module.longest_chain("top", found, seconds), (9, ["dear", "top"]))
    same("a longer one", module.longest_chain("top", found, {**seconds, "middle": 5}), (10, ["low", "middle", "top"]))


def test_words_of_the_script():
    done = subprocess.run([os.path.join(TOP, "bin", "test"), "nothing"], capture_output=True, check=False, timeout=60)
    same("nothing", (done.returncode, done.stdout, done.stderr.count(b"\n")), (2, b"", 1))
