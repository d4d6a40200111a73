"""The launcher: what it answers at once, what it hands through, its builds and its trial runs."""

import os
import signal
import socket
import subprocess
import tempfile
import time
from concurrent.futures import ThreadPoolExecutor

from bench import TOP, same
from layouts import cases, clone, ends, installed
from wire import free_port

SCENARIO = os.path.join(TOP, "scenarios", "one-item.scenario")


def test_the_program_runs_as_without_it():
    """Every sixth case, of the commands that the launcher watches and of those that it becomes."""
    check, all_cases = cases()
    chosen, errors = [case for case in all_cases[::6] if case.words[:1] not in ([], ["help"])], os.dup(2)
    with installed() as launcher, ThreadPoolExecutor(4) as pool, open(os.devnull, "wb") as nowhere:
        os.dup2(nowhere.fileno(), 2)
        try:
            told = [text for texts in pool.map(lambda case: check.try_case(launcher, case), chosen) for text in texts]
        finally:
            os.dup2(errors, 2)
            os.close(errors)
    same(f"of {len(chosen)} cases", told, [])


def started(launcher, *words, **how):
    return subprocess.Popen([launcher, *words], stdin=subprocess.PIPE, stdout=subprocess.PIPE, **how)


ENDING = (signal.SIGTERM, signal.SIGINT, signal.SIGHUP)


def hear_signals():
    """Signals end this process, also where they end none that runs in the background."""
    for number in ENDING:
        signal.signal(number, signal.SIG_DFL)


def test_signals_end_the_program_that_is_watched():
    for number in ENDING:
        with installed() as launcher, started(launcher, "fleet", "-", preexec_fn=hear_signals) as process:
            process.stdin.write(b"drone 1\nheartbeat 1.1\n")
            process.stdin.flush()
            same("a line at once", process.stdout.readline(), b"1 1.1 HEARTBEAT\n")
            process.send_signal(number)
            same(f"signal {number}", process.wait(20), -number)
            same("nobody holds its output", process.stdout.read(), b"")


def test_the_reader_of_a_report_may_leave():
    with installed() as launcher:
        line = f"'{launcher}' fleet '{TOP}/scenarios/sixteen.scenario' | head -n 1; echo ${{PIPESTATUS[0]}}"
        done = subprocess.run(["bash", "-c", line], capture_output=True, check=False, timeout=100)
    same("as the program ends", done.stdout.split(b"\n")[1:2], [b"5"])


def test_files_that_can_be_read_only_once():
    with installed() as launcher, tempfile.TemporaryDirectory() as folder:
        with open(os.path.join(folder, "key"), "w", encoding="ascii") as file:
            file.write("ab" * 32)
        wanted = ends(launcher, "fleet", "--frames", "--key", "key", SCENARIO, folder=folder)
        once = "<(cat key)"
        for key, scenario in ((once, SCENARIO), ("key", f"<(cat {SCENARIO})"), (once, f"- < {SCENARIO}")):
            line = f"'{launcher}' fleet --frames --key {key} {scenario}"
            same(line, ends("bash", "-c", line, folder=folder), wanted)
        line = f"printf 'drone 1\\nfly\\n' | '{launcher}' fleet --key <(cat key) /dev/stdin"
        same(line, ends("bash", "-c", line, folder=folder), ("bad line 2: word\n", "", 3))


def test_the_launcher_becomes_what_runs_on():
    with installed() as launcher, tempfile.TemporaryDirectory() as folder:
        with open(os.path.join(folder, "key"), "w", encoding="ascii") as file:
            file.write("00" * 32)
        port = f"udplisten:127.0.0.1:{free_port(socket.SOCK_DGRAM)}"
        with started(launcher, "drone", "--key", "key", "--turns", "2000", "1", port, cwd=folder) as process:
            same("it speaks", process.stdout.readline()[:5], b"1 1.1")
            with open(f"/proc/{process.pid}/cmdline", "rb") as file:
                words = file.read().split(b"\0")
            same("the same process", (launcher.encode() in words, b"drone" in words), (False, True))
            process.terminate()
            same("ended", process.wait(20), -signal.SIGTERM)


def test_answers_at_once_without_toolchain_and_program():
    with clone(with_toolchain=False) as (launcher, env), tempfile.TemporaryDirectory() as folder:
        with open(os.path.join(folder, "short"), "w", encoding="ascii") as file:
            file.write("00" * 31)
        begun = time.monotonic()
        for words in ([], ["help"], ["--help"], ["version"], ["--version"], ["help", "fleet"], ["clean"]):
            printed, told, status = ends(launcher, *words, env=env)
            same(f"{words}", (bool(printed), told, status), (True, "", 0))
        for words, answer, sentence in (
                (["flet", "f"], ("usage\n", 2), "'flet' is no command: did you mean fleet?"),
                (["fleet"], ("usage\n", 2), "FILE is missing"), (["--nope"], ("usage\n", 2), "'--nope' is no command"),
                (["fleet", "nothing"], ("read fault\n", 4), "'nothing' can't be read: No such file"),
                (["fleet", "--key", "short", "-"], ("bad key: key\n", 3), "and it has 62 digits")):
            printed, told, status = ends(launcher, *words, env=env, folder=folder)
            same(f"{words}", (printed, status, told.count("\n"), sentence in told), (*answer, 1, True))
        same("of a tool", ends(launcher, "flet", env={**env, "BEVUNTRI_OF_TOOL": "1"}), ("usage\n", "", 2))
        same("in some seconds", time.monotonic() - begun < 60, True)
        printed, told, status = ends(launcher, "fleet", SCENARIO, env=env)
        same("without rt", (printed, "the toolchain is missing" in told, status), ("", True, 1))


def test_a_build_tells_how_long_it_takes_and_what_is_kept():
    with clone() as (launcher, env):
        printed, told, status = ends(launcher, "make", "5", env=env)
        lines = told.split("\n")
        same("make", (printed, status), ("built make 5\n", 0))
        same("first", ("proving 3 crates" in lines[0], "minutes on" in lines[0], "--unproved" in lines[0]), (True,) * 3)
        same("few lines", (len(lines) <= 7, "kept in" in lines[-2], "clean" in lines[-2]), (True, True, True))
        same("again", ends(launcher, "make", "5", env=env), ("built make 5\n", "", 0))
        same("fleet", ends(launcher, "fleet", SCENARIO, env=env)[0], f"built fleet {SCENARIO}\n")
        top = os.path.dirname(os.path.dirname(launcher))
        os.remove(os.path.join(top, "crates", "bevuntri", "out", "bevuntri"))
        same("kept", ends(launcher, "make", "5", env=env), ("built make 5\n", "", 0))
        printed, _, status = ends(launcher, "clean", env=env)
        same("clean", (printed.count("removed "), status), (2, 0))
        same("cleaned", ends(launcher, "clean", env=env)[0][:7], "nothing")
        os.makedirs(os.path.join(top, "out"))
        same("without a cache", ends(launcher, "clean", env=env)[1:], ("", 0))


def test_a_second_build_waits_for_the_first():
    with clone() as (launcher, env), ThreadPoolExecutor(2) as pool:
        env["FAKE_SECONDS"] = "3"
        both = list(pool.map(lambda number: ends(launcher, "make", number, env=env), ("5", "6")))
        with open(os.path.join(env["HOME"], "builds"), encoding="ascii") as file:
            same("builds", file.read().count("one"), 1)
    same("both", [each[::2] for each in both], [("built make 5\n", 0), ("built make 6\n", 0)])
    same("one waits", sum("waiting for it" in each[1] for each in both), 1)


def test_a_build_that_fails():
    with clone() as (launcher, env):
        printed, told, status = ends(launcher, "make", "5", env={**env, "FAKE_RT": "fails"})
        same("make", (printed, status, "is not proved, so it was not built" in told), ("", 1, True))


def test_a_build_on_a_terminal_is_one_line():
    with clone() as (launcher, env):
        line = f"'{launcher}' make 5"
        done = subprocess.run(["script", "-qec", line, "/dev/null"], env=env, capture_output=True, check=False,
                              stdin=subprocess.DEVNULL, timeout=60)
    lines = [text.rstrip(b"\r") for text in done.stdout.split(b"\n")]
    same("lines", (len(lines), b"\r\033[K" in lines[1], lines[-2]), (5, True, b"built make 5"))


def test_trial_runs():
    with clone() as (launcher, env), tempfile.TemporaryDirectory() as folder:
        with open(os.path.join(folder, "-f"), "w", encoding="ascii") as file:
            file.write("drone 1\n")
        printed, told, status = ends(launcher, "--unproved", "fleet", "--frames", "--", "-f", env=env, folder=folder)
        same("words", (printed, status),
             (f"bevuntri_fleet try --seconds 300 -- fleet --frames {os.path.realpath(folder)}/-f\n", 0))
        same("before and after", [line.count("NOT proved") for line in told.split("\n")], [1, 1, 0])
        printed = ends(launcher, "--unproved", "decode", "-", env=env, stdin=b"drone 2\n")[0]
        same("standard input", printed, "bevuntri try --seconds 300 -- decode -\ndrone 2\n")
        how = {"env": {**env, "FAKE_RT": "run=ended status=3 runners=1 proved=no"}, "folder": folder}
        same("its status", ends(launcher, "--unproved", "make", "5", **how)[2], 3)
        how["env"]["FAKE_RT"] = "run=none proved=no"
        told, status = ends(launcher, "--unproved", "make", "5", **how)[1:]
        same("no answer", ("gave no answer" in told, status), (True, 1))
        for words in (["route", "--key", "k", "file:a:b"], ["drone"], ["station"], ["make"], ["fleet", "nothing"]):
            printed, told, status = ends(launcher, "--unproved", *words, env=env, folder=folder)
            same(f"{words}", (told.count("\n"), status in (2, 4)), (1, True))
        same("alone", ends(launcher, "--unproved", env=env)[2], 0)
