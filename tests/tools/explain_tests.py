"""What is said of wrong words, lines and files, beside what the program says of them."""

import os
import re
import tempfile

from bench import TOP, same
from layouts import cases, ends, installed

import commands
import grammar
import lines
from survey import Survey, plan_fault, ticks_needed
from texts import Mistake

KEY, SURVEY = "0f" * 32, os.path.join(TOP, "scenarios", "survey.fence")
FLEET = "drone 1\nstation 255 190\n"


def refused(words):
    """Returns what is said of words, or None."""
    try:
        grammar.read(list(words))
    except Mistake as mistake:
        return str(mistake)
    return None


def test_words_are_refused_as_the_program_refuses_them():
    _, all_cases = cases()
    for case in all_cases:
        told = refused(case.words)
        same(f"{case.where}: {case.words}: {told}", told is not None, case.status == 2)
        same(f"{case.where}: one sentence", told is None or (len(told) < 320 and "\n" not in told), True)


def test_refused_lines_have_a_wrong_word():
    _, all_cases = cases()
    count = 0
    for case in all_cases:
        bad = re.search(rb"bad line ([0-9]+): ([a-z]+)\n\Z", bytes(case.output[-1]))
        if not bad or case.words[0] not in ("fleet", "fence"):
            continue
        data = bytes(case.stdin if case.words[-1] == "-" else case.files[case.words[-1]])
        table = lines.SCENARIO if case.words[0] == "fleet" else lines.FENCE
        told = lines.told_of(data, int(bad[1]), bad[2].decode(), table)
        same(f"{case.where}: {told}", "is refused with" in told, False)
        count += 1
    same("many lines", count > 100, True)


def test_refused_plans_of_fence_have_a_line():
    _, all_cases = cases()
    for case in all_cases:
        printed = bytes(case.output[-1])
        if case.words[:1] != ["fence"] or case.status not in (0, 3) or b"bad line" in printed:
            continue
        survey = Survey(bytes(case.stdin).decode())
        faults = [plan_fault(survey, kind) is not None for kind in ("fence", "mission")]
        wanted = {b"bad fence: plan\n": [True], b"bad mission: plan\n": [False, True]}.get(printed, [False, False])
        same(case.where, faults[:len(wanted)], wanted)


# Words, files, standard input, what the program prints at last, its status, and what is said.
MISTAKES = [
    ("fleet f", {"f": FLEET + "itm 6 16 0 0\n"}, "", "bad line 3: word\n", 3, "line 3: no line begins with 'itm': did"),
    ("fleet f", {"f": FLEET + "begin 255.190 1.1 mision\n"}, "", "bad line 3: kind\n", 3, "line 3: 'mision': expected"),
    ("fleet -", {}, FLEET + "get 255.190 3.1 rally\n", "bad line 3: node\n", 3, 
     "standard input, line 3: '3.1': expected a drone"),
    ("fleet f", {"f": FLEET + "item 6 16 473977420\n"}, "", "bad line 3: count\n", 3, "line 3: a word is missing"),
    ("fleet f", {"f": FLEET + "item 6 16 47.4 8.5\n"}, "", "bad line 3: number\n", 3, "'47.4': expected a whole"),
    ("fleet f", {"f": "drone 1\ndrone 1\n"}, "", "bad line 2: twice\n", 3, "line 1 has named 1.1 already"),
    ("fence f", {"f": "step 0\n"}, "", "bad line 1: number\n", 3, "f, line 1: '0': expected a whole number from 1 to"),
    ("fence f", {"f": "item 6 17 0 0\n"}, "", "bad mission: plan\n", 3, "f, line 1: command 17: expected one of 16"),
    ("fence f", {"f": "fence\nitem 0 5001 0 0 00000000 40400000\n"}, "", "bad fence: plan\n", 3,
     "f, line 2: expected 3 corners of a polygon from here on, not 1"),
    ("fence f", {"f": "item 6 16 4000 0\nticks 2\n"}, "", "outside 0 legs 0 breaches 0\n", 0,
     "f: the flight needs 4 ticks, and `ticks 2` ended it in the air: `ticks 4` flies it"),
    ("fence -", {}, "item 6 16 4000 0\n", "outside 0 legs 0 breaches 0\n", 0,
     "standard input: the flight needs 4 ticks, and `ticks 0` flies nothing"),
    ("fence f", {"f": "item 6 16 473977420 0\nticks 10000\n"}, "", "outside 0 legs 0 breaches 0\n", 0,
     "at most 10000 are flown, and a larger `step` needs fewer"),
    ("fence f", {"f": "item 6 16 4000 0\nticks 4\n"}, "", "outside 0 legs 0 breaches 0\n", 0, None),
    ("fleet nothing", {}, "", "read fault\n", 4, "'nothing' can't be read: No such file or directory"),
    ("fleet .", {}, "", "read fault\n", 4, "'.' can't be read: it is a folder"),
    ("decode --key k f", {"k": KEY[:-1], "f": ""}, "", "bad key: key\n", 3, "k: expected 64 hexadecimal digits and"),
    ("decode --key k f", {"k": KEY[:-1] + "g", "f": ""}, "", "bad key: key\n", 3, "and its byte 64 is no digit"),
    ("decode --key k f", {"k": KEY + "\n\n", "f": ""}, "", "bad key: key\n", 3, "and there is more after its 64"),
    ("drone --key k 1 file:f:g", {"k": "", "f": ""}, "", "bad key: key\n", 3, "it is empty; `bevuntri help drone`"),
    ("fleet --key - f", {"f": FLEET}, "00", "bad key: key\n", 3, "standard input: expected 64 hexadecimal digits"),
    ("decode --defs d f", {"d": "{", "f": ""}, "", "bad definitions: json\n", 3, "d: line 1: expected JSON"),
    ("dialect --defs d", {"d": "[]"}, "", "bad definitions: shape\n", 3, "d: expected an object whose member messages"),
    ("dialect --defs d", {"d": '{"messages":[{"id":1,"name":"A","fields":[{"type":"int","name":"a"}]}]}'}, "",
     "bad definitions: type\n", 3, "d: message 1 ('A'): type 'int': expected one such as"),
    ("dialect --defs d", {"d": '{"messages":[{"id":1,"name":"a","fields":[{"type":"char","name":"a"}]}]}'}, "",
     "bad definitions: name\n", 3, "name 'a': expected 1 to 64 of A to Z"),
    ("dialect --defs d", {"d": '{"messages":[{"id":1,"name":"A","fields":[]}]}'}, "", "bad definitions: layout\n", 3,
     "message 1 ('A'): expected at least one base field"),
    ("station --key k --file u 255 190 1 file:f:g upload mission", {"k": KEY, "f": "", "u": "item 6 16 0\n"}, "",
     "bad line 1: count\n", 3, "u: line 1: a word is missing"),
    ("station --key k --file u 255 190 1 file:f:g upload rally", {"k": KEY, "f": "", "u": "items 51 6 5100 0 0\n"}, "",
     "bad operation: refused\n", 3, "u: expected 1 to 50 items of a rally plan, and it has 51"),
    ("station --key k 255 190 1 file:f:g file get a/b", {"k": KEY, "f": ""}, "", "bad operation: refused\n", 3,
     "'a/b': expected a name of 1 to 64 letters"),
    ("flet f", {}, "", "usage\n", 2, "'flet' is no command: did you mean fleet?"),
    ("upload mission", {}, "", "usage\n", 2, "'upload' is no command: it is an operation of station"),
    ("fleet --help", {}, "", "usage\n", 2, "'--help' is no option of fleet: `bevuntri help fleet` tells its words"),
    ("drone --key k 300 file:f:g", {}, "", "usage\n", 2, "SYS: expected a number from 1 to 255, not '300'"),
    ("log shw f", {}, "", "usage\n", 2, "expected make, show or filter after log, and not 'shw'"),
]


def test_one_sentence_on_standard_error():
    with installed() as launcher:
        for words, files, stdin, last, status, sentence in MISTAKES:
            with tempfile.TemporaryDirectory() as folder:
                for name, text in files.items():
                    with open(os.path.join(folder, name), "w", encoding="utf-8") as file:
                        file.write(text)
                printed, told, ended = ends(launcher, *words.split(), stdin=stdin.encode(), folder=folder)
            same(f"{words}: {told}", (ended, printed.endswith(last)), (status, True))
            same(f"{words}: {told}", (told.count("\n"), (sentence or "") in told), (1 if sentence else 0, True))


def test_a_store_of_another_drone():
    _, all_cases = cases()
    with installed() as launcher, tempfile.TemporaryDirectory() as folder:
        case = next(case for case in all_cases if b"bad store: kept" in case.output[-1])
        for name, data in {**case.files, "other": b"\xa5\0\x01" + bytes(7) + b"\x02" + bytes(131_081)}.items():
            with open(os.path.join(folder, name), "wb") as file:
                file.write(data)
        port = next(word for word in case.words if word.startswith("file:"))
        key = case.words[case.words.index("--key") + 1]
        printed, told, status = ends(launcher, "drone", "--key", key, "--store", "other", "1", port, folder=folder)
    same(told, (printed, status), ("bad store: kept\n", 3))
    same("sentence", "other: expected a store of this drone: it has plans of the drone 2.1" in told, True)


def test_ticks_that_a_flight_needs():
    with open(SURVEY, encoding="utf-8") as file:
        text = file.read()
    for ticks in range(6):
        flown = Survey(text.replace("ticks 5", f"ticks {ticks}"))
        same("ticks needed", ticks_needed(flown), 4)
    reached = [at for at, place in enumerate(Survey(text).flight(), 1) if place == (1500, 500)]
    same("there", reached[0], 4)


def test_examples_of_help_can_be_pasted():
    with installed() as launcher, tempfile.TemporaryDirectory() as folder:
        top = os.path.dirname(os.path.dirname(launcher))
        for name in ("bin", "defs", "scenarios"):
            os.symlink(os.path.join(top, name), os.path.join(folder, name))
        for name, command in commands.COMMANDS.items():
            if name not in ("drone", "station"):
                printed, told, status = ends("bash", "-c", "\n".join(command.example), folder=folder)
                same(f"{name}: {printed[-200:]}{told}", (status, told), (0, ""))
