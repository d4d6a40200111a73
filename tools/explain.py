#!/usr/bin/env python3
"""Says in a sentence what is wrong with words, or with the files that they name.

  explain.py before PROGRAM WORDS..      looks at the words, a key, definitions and the files of
                                         `station` and `drone` before the program runs, and ends
                                         with 2, 3 or 4, or with 0 where nothing is found; prints
                                         `watch` where the program has to judge lines first, and
                                         without a program (an empty word) the text that it would
                                         end with
  explain.py watch PIPE PROGRAM WORDS..  runs `fleet` or `fence`, and says which line was refused,
                                         and that a flight hasn't ended; PIPE is empty, or says
                                         that SIGPIPE was ignored

bin/bevuntri calls both. The program's own texts and statuses stay as they are.
"""

import os
import re
import signal
import stat
import subprocess
import sys

sys.dont_write_bytecode = True
import files
import grammar
from lines import FENCE, SCENARIO, told_of
from survey import Survey, flight_text, plan_fault, ticks_needed
from texts import LARGEST_TEXT, Mistake, UNREADABLE, WRONG_FORM, shown, wrong_form
from watched import Input, end_as, last_line, run

ENDS = {2: "usage", UNREADABLE: "read fault", WRONG_FORM: "bad key: key"}
STDIN = "standard input"


def tell(sentence):
    """Writes a sentence on standard error, if that is open; no name in it steers a terminal."""
    text = "".join(char if char.isprintable() else ascii(char)[1:-1] for char in str(sentence))
    try:
        print("bevuntri: " + text, file=sys.stderr, flush=True)
    except (OSError, AttributeError):
        pass


def check_definitions(program, path, data):
    """Has the program read definitions, if it is there, and finds what it refuses."""
    if not program or data is None:
        return
    words = [program, "dialect", "--defs=" + path]
    done = subprocess.run(words, stdin=subprocess.DEVNULL, capture_output=True, check=False)
    reason = re.search(rb"^bad definitions: (.*)\n\Z", done.stdout, re.MULTILINE)
    if done.returncode == WRONG_FORM and reason:
        raise files.definitions_fault(path, data, reason[1].decode())


def check_files(program, line):
    """Checks the files of a line, in the order in which the program reads them."""
    data = None
    for part, path in line.inputs():
        most = files.MOST_KEY_BYTES + 1 if part == "--key" else LARGEST_TEXT + 1
        is_short = part != "FILE" or line.name == "station"
        data = None if path == "-" else files.data_of(path, most if is_short else 1)
        if part == "--key" and data is not None:
            told = files.key_fault(data, not line.command.runs_on)
            if told:
                raise wrong_form(path, told)
        elif part == "--defs":
            check_definitions(program, path, data)
    if program and line.name == "station":
        files.check_operation(line, data if "--file" in line.options else None)
    if program and line.name == "drone" and "--store" in line.options:
        files.check_store(line.options["--store"], int(line.plain[0]))


def is_rereadable(line):
    """Returns whether what a line names can be looked at once more."""
    return all(path == "-" or stat.S_ISREG(os.stat(path).st_mode) for _, path in line.inputs())


def refuse(mistake, is_program):
    """Says what is wrong, and without a program also what it would print; returns the status."""
    tell(mistake)
    if not is_program:
        print(ENDS[mistake.status])
    return mistake.status


def before(program, words):
    """Checks words and files, and returns the status with which the program would end."""
    try:
        line = grammar.read(words)
        check_files(program, line)
    except Mistake as mistake:
        return refuse(mistake, program)
    if line.name in ("fleet", "fence") and is_rereadable(line):
        print("watch")
    return 0


def explain_refusal(program, words, line, data):
    """Says what is wrong in the file that was refused."""
    path = line.plain[0]
    place = STDIN if path == "-" else path
    text = data if path == "-" else files.data_of(path)
    last = last_line(program, words, data)
    number = re.fullmatch("bad line ([0-9]+): (.+)", last)
    plan = re.fullmatch("bad (fence|mission): plan", last)
    if last == "bad key: key":
        tell(f"{STDIN}: {files.key_fault(data, True) or files.KEY_FORM}")
    elif number:
        table = SCENARIO if line.name == "fleet" else FENCE
        told = told_of(text, int(number[1]), number[2], table)
        tell(f"{place}, line {number[1]}: {told}")
    elif plan:
        row, told = plan_fault(Survey(text.decode()), plan[1]) or (None, "")
        tell(f"{place}, line {row}: {told}" if row else f"{place}: {last}")


def warn_of_flight(line, data):
    """Says that a flight of `fence` was ended in the air, where it was."""
    path = line.plain[0]
    survey = Survey((data if path == "-" else files.data_of(path)).decode("utf-8", "replace"))
    if ticks_needed(survey) > survey.ticks:
        tell(f"{STDIN if path == '-' else path}: {flight_text(survey)}")


def watch(is_pipe_ignored, program, words):
    """Runs the program, says what is to be said of its files, and ends as it does."""
    line = grammar.read(list(words))
    given = Input("-" in [path for _, path in line.inputs()])
    status = run(program, words, given, is_pipe_ignored)
    try:
        if status == WRONG_FORM:
            explain_refusal(program, words, line, given.data())
        elif status == UNREADABLE:
            tell(f"{shown(line.plain[0])} can't be read to its end")
        elif status == 0 and line.name == "fence":
            warn_of_flight(line, given.data())
    except (Mistake, OSError, ValueError, LookupError):
        pass  # The file has changed since; the program has said all that is certain.
    end_as(status)


def main(way, *words):
    if signal.getsignal(signal.SIGINT) is signal.default_int_handler:
        signal.signal(signal.SIGINT, signal.SIG_DFL)
    if way == "watch":
        watch(bool(words[0]), words[1], list(words[2:]))
    try:
        return before(words[0], list(words[1:]))
    except (OSError, ValueError, LookupError):
        return 0  # A file that changes meanwhile; the program will say.


if __name__ == "__main__":
    sys.exit(main(*sys.argv[1:]))
